//! A picture of contours before and after, in SVG: one block a contour, written as the contours come, so
//! that memory does not grow with them; or one block a file, with all its contours in one frame.

mod block;
mod grid;
mod labels;
mod legend;
pub mod svg;
mod view;

use std::fs::File;
use std::io::{self, BufWriter, Seek, SeekFrom, Write};
use std::path::Path;

use fontcrunch::{Settings, Trace};

use block::{Block, Subject};

use crate::inputs::Source;
use crate::outlet::Canvas;
use crate::sketch::Sketch;

/// All blocks are as wide.
const WIDTH: f64 = 1180.0;
const MARGIN: f64 = 30.0;

pub struct Picture {
    file: BufWriter<File>,
    settings: Settings,
    /// How far down the picture is filled.
    bottom: f64,
    /// Where contours of a file are drawn together: those that have come.
    letter: Option<Letter>,
}

/// The contours of a file.
#[derive(Default)]
struct Letter {
    name: String,
    traces: Vec<Trace>,
    /// How many points stand in the file.
    stood: usize,
    malformed: Vec<String>,
}

impl Picture {
    /// Of contours that are crunched at these settings.
    pub fn create(
        path: &Path,
        settings: Settings,
        together: bool,
        penalty_given: bool,
    ) -> io::Result<Picture> {
        let mut file = File::create(path)?;
        // the height is put into the head at the end: a file that cannot seek is told now
        file.stream_position()?;
        let letter = together.then(Letter::default);
        let mut picture = Picture { file: BufWriter::new(file), settings, bottom: legend::HEIGHT, letter };
        picture.file.write_all(head(0.0).as_bytes())?;
        picture.file.write_all(legend::drawn(settings, penalty_given).as_bytes())?;
        Ok(picture)
    }

    fn put(&mut self, block: Block) -> io::Result<()> {
        self.file.write_all(block.svg.as_bytes())?;
        self.bottom += block.height;
        Ok(())
    }

    /// A line by itself.
    fn draw(&mut self, title: &str, sketch: &Sketch) -> io::Result<()> {
        let block = match sketch {
            Sketch::Contour { traces, stood } => self.block(title, traces, *stood, &[]),
            Sketch::Glyph { contours, stood, .. } => self.block(title, contours, *stood, &[]),
            Sketch::Malformed(reason) => self.block(title, &[], 0, std::slice::from_ref(reason)),
        };
        self.put(block)
    }

    fn block(&self, title: &str, traces: &[Trace], stood: usize, malformed: &[String]) -> Block {
        block::drawn(&Subject { title, traces, stood, malformed, settings: self.settings }, self.bottom)
    }

    /// The letter that has come, if there is one.
    fn draw_letter(&mut self) -> io::Result<()> {
        let Some(Letter { name, traces, stood, malformed }) = self.letter.replace(Letter::default()) else {
            return Ok(());
        };
        if traces.is_empty() && malformed.is_empty() {
            return Ok(());
        }
        let block = self.block(&name, &traces, stood, &malformed);
        self.put(block)
    }
}

impl Canvas for Picture {
    fn add(&mut self, source: &Source, sketch: &Sketch) -> io::Result<()> {
        if self.letter.is_none() {
            return self.draw(&format!("{}, line {}", source.name, source.line), sketch);
        }
        if self.letter.as_ref().is_some_and(|letter| *letter.name != *source.name) {
            self.draw_letter()?;
        }
        let letter = self.letter.get_or_insert_with(Letter::default);
        letter.name = source.name.to_string();
        match sketch {
            Sketch::Contour { traces, stood } | Sketch::Glyph { contours: traces, stood, .. } => {
                letter.traces.extend_from_slice(traces);
                letter.stood += stood;
            }
            Sketch::Malformed(reason) => letter.malformed.push(format!("line {}: {reason}", source.line)),
        }
        Ok(())
    }

    fn finish(mut self: Box<Self>) -> io::Result<()> {
        if self.letter.is_some() {
            self.draw_letter()?;
        }
        self.file.write_all(b"</svg>\n")?;
        self.file.seek(SeekFrom::Start(0))?;
        self.file.write_all(head(self.bottom + MARGIN).as_bytes())?;
        self.file.flush()
    }
}

/// The start of the file, of the same length for every height.
fn head(height: f64) -> String {
    format!(
        "<svg xmlns=\"http://www.w3.org/2000/svg\" width=\"{WIDTH}\" height=\"{height:012.1}\" \
         viewBox=\"0 0 {WIDTH} {height:012.1}\" font-family=\"Helvetica, Arial, sans-serif\">\n\
         <rect width=\"100%\" height=\"100%\" fill=\"white\"/>\n"
    )
}

#[cfg(test)]
mod tests;
