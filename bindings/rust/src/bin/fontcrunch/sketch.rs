//! What is drawn of a line: its contours, traced.

use fontcrunch::glif;
use fontcrunch::glyph;
use fontcrunch::{Cruncher, Point, Refusal, Trace};

use crate::glyph::of_hex;
use crate::recipe::stand_in;

pub enum Sketch {
    /// One contour, traced in each edition, and how many points stand on its line: others than were crunched where it
    /// was prepared.
    Contour { traces: Vec<Trace>, stood: usize },
    /// All contours of a glyph, what refuses it as a whole, and how many points stand in its file: fewer than the
    /// contours have where implied ones are written out.
    Glyph { contours: Vec<Trace>, refused: Option<Refusal>, stood: usize },
    /// What is wrong with the line.
    Malformed(String),
}

impl Sketch {
    /// Of a glyph whose contours are these, or that cannot be read.
    fn of_contours(
        cruncher: &mut Cruncher,
        contours: Result<Vec<Vec<Point>>, Refusal>,
        stood: usize,
    ) -> Sketch {
        match contours {
            Ok(contours) => {
                let contours: Vec<Trace> = contours.iter().map(|contour| cruncher.trace(contour)).collect();
                let refused = contours.iter().find_map(|trace| trace.result.as_ref().err().copied());
                Sketch::Glyph { contours, refused, stood }
            }
            Err(refusal) => Sketch::Glyph { contours: vec![], refused: Some(refusal), stood },
        }
    }

    /// Of a simple glyph description.
    pub fn of_description(cruncher: &mut Cruncher, bytes: &[u8], explicit: bool) -> Sketch {
        let made =
            |contour: &[Point]| if explicit { fontcrunch::explicit(contour) } else { Ok(contour.to_vec()) };
        let glyph = glyph::read(bytes);
        let stood = glyph.as_ref().map_or(0, |glyph| glyph.points.len());
        let contours = glyph.and_then(|glyph| glyph.contours().map(made).collect());
        Sketch::of_contours(cruncher, contours, stood)
    }

    /// Of a file of GLIF.
    pub fn of_glif(cruncher: &mut Cruncher, bytes: &[u8]) -> Sketch {
        Sketch::of_contours(cruncher, glif::read(bytes), stand_in(bytes))
    }

    /// Of a glyph that could not be opened.
    pub fn of_nothing(refusal: Refusal) -> Sketch {
        Sketch::Glyph { contours: vec![], refused: Some(refusal), stood: 0 }
    }

    /// Of a line that is a description in hexadecimal digits.
    pub fn of_glyph_line(cruncher: &mut Cruncher, line: &[u8], explicit: bool) -> Option<Sketch> {
        Some(Sketch::of_description(cruncher, &of_hex(line)?, explicit))
    }

    /// Of a line that is a file of GLIF in hexadecimal digits.
    pub fn of_glif_line(cruncher: &mut Cruncher, line: &[u8]) -> Option<Sketch> {
        Some(Sketch::of_glif(cruncher, &of_hex(line.trim_ascii())?))
    }
}
