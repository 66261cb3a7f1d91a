//! A page that shows letters before and after, to be pointed at: one file, with its style and its program in it, that
//! asks no network. What it shows are traces, which stand in it as they come, so that memory does not grow with them.

mod font;
mod fonts;
mod names;
mod ufo;

use std::fs::File;
use std::io::{self, BufWriter, Write};
use std::path::Path;

use fontcrunch::trace::quoted;
use fontcrunch::{Settings, Trace, DEFAULT_PENALTY};

use crate::inputs::Source;
use crate::outlet::Canvas;
use crate::sketch::Sketch;

pub use fonts::{font_of, run};

const STYLE: &str = include_str!("page.css");
const BODY: &str = include_str!("page.html");
const PROGRAM: &str = include_str!("page.js");

/// What letters are crunched at, and whether their penalty was asked for.
#[derive(Clone, Debug)]
pub struct At {
    pub settings: Settings,
    /// Of a second edition.
    pub second: Option<u32>,
    pub given: bool,
}

pub struct Page {
    file: BufWriter<File>,
    at: At,
    /// What the page is called: by its first letter, where it is not called by anything.
    title: Option<String>,
    /// What a letter is.
    what: &'static str,
    /// What is to be said besides.
    more: String,
    /// The letter that contours are added to.
    open: Option<String>,
    contours: usize,
}

impl Page {
    pub fn create(path: &Path, at: At) -> io::Result<Page> {
        let mut file = BufWriter::new(File::create(path)?);
        write!(file, "{}<style>\n{STYLE}</style>\n</head>\n<body>\n{BODY}", HEAD)?;
        Ok(Page { file, at, title: None, what: "letter", more: String::new(), open: None, contours: 0 })
    }

    /// The page of a font, with what it is called.
    pub fn of_font(path: &Path, at: At, title: &str) -> io::Result<Page> {
        let page = Page::create(path, at)?;
        Ok(Page { title: Some(title.to_owned()), what: "glyph", ..page })
    }

    /// A contour of the letter of that name.
    fn add_contour(&mut self, letter: &str, contour: &str) -> io::Result<()> {
        if self.open.as_deref() != Some(letter) {
            self.close("")?;
            write!(
                self.file,
                "<script type=\"application/json\" class=\"letter\">{{\"name\":{},\"contours\":[",
                quoted(letter)
            )?;
            self.title.get_or_insert_with(|| letter.to_owned());
            self.open = Some(letter.to_owned());
            self.contours = 0;
        }
        let comma = if self.contours > 0 { "," } else { "" };
        self.contours += 1;
        write!(self.file, "{comma}\n{contour}")
    }

    /// Ends the letter, if there is one, with what is to be said of it as a whole.
    fn close(&mut self, whole: &str) -> io::Result<()> {
        match self.open.take() {
            Some(_) => writeln!(self.file, "]{whole}}}</script>"),
            None => Ok(()),
        }
    }

    /// A letter, whole.
    fn add_letter(&mut self, letter: &str) -> io::Result<()> {
        writeln!(self.file, "<script type=\"application/json\" class=\"letter\">{letter}</script>")
    }

    fn meta(&self) -> String {
        let At { settings, second, given } = &self.at;
        let penalties: Vec<String> =
            std::iter::once(settings.penalty).chain(*second).map(|penalty| penalty.to_string()).collect();
        format!(
            "{{\"title\":{},\"what\":\"{}\",\"more\":{},\"penalties\":[{}],\"given\":{given},\
             \"usual\":{DEFAULT_PENALTY},\"whole_units\":{},\"closed\":{}}}",
            quoted(self.title.as_deref().unwrap_or("fontcrunch")),
            self.what,
            quoted(&self.more),
            penalties.join(","),
            settings.whole_units,
            settings.closed
        )
    }

    fn end(&mut self) -> io::Result<()> {
        self.close("")?;
        writeln!(self.file, "<script type=\"application/json\" id=\"meta\">{}</script>", self.meta())?;
        write!(self.file, "<script>\n{PROGRAM}</script>\n</body>\n</html>\n")?;
        self.file.flush()
    }
}

/// Nothing but what stands in the page is asked for.
const HEAD: &str = "<!doctype html>\n<html lang=\"en\">\n<head>\n<meta charset=\"utf-8\">\n\
    <meta name=\"viewport\" content=\"width=device-width, initial-scale=1\">\n\
    <meta http-equiv=\"Content-Security-Policy\" content=\"default-src 'none'; style-src 'unsafe-inline'; \
    script-src 'unsafe-inline'; img-src data:; base-uri 'none'\">\n<link rel=\"icon\" href=\"data:,\">\n<title>fontcrunch</title>\n";

impl Canvas for Page {
    /// The contours of a file are those of one letter; a glyph is a letter by itself.
    fn add(&mut self, source: &Source, sketch: &Sketch) -> io::Result<()> {
        match sketch {
            Sketch::Contour { traces, .. } => self.add_contour(&source.name, &contour_text(traces)),
            Sketch::Malformed(reason) => {
                let contour = format!("{{\"malformed\":{},\"line\":{}}}", quoted(reason), source.line);
                self.add_contour(&source.name, &contour)
            }
            Sketch::Glyph { .. } => {
                self.close("")?;
                // a whole file has no line
                let name = match source.line {
                    0 => source.name.to_string(),
                    line => format!("{}, line {line}", source.name),
                };
                self.title.get_or_insert_with(|| source.name.to_string());
                self.add_letter(&letter_text(&name, sketch))
            }
        }
    }

    fn finish(mut self: Box<Self>) -> io::Result<()> {
        self.end()
    }
}

fn contour_text(traces: &[Trace]) -> String {
    let each: Vec<String> = traces.iter().map(|trace| shortened(&trace.to_json())).collect();
    format!("{{\"traces\":[{}]}}", each.join(","))
}

/// A letter of a glyph.
fn letter_text(name: &str, sketch: &Sketch) -> String {
    let Sketch::Glyph { contours, refused, stood } = sketch else {
        return String::new();
    };
    let each: Vec<String> = contours.iter().map(|trace| contour_text(std::slice::from_ref(trace))).collect();
    let refused = refused.map(|refusal| {
        let said = refusal.to_string();
        let reason = said.split_once(": ").map_or("", |(_, reason)| reason);
        format!(",\"refused\":{{\"number\":{},\"reason\":{}}}", refusal.number(), quoted(reason))
    });
    format!(
        "{{\"name\":{},\"stood\":{stood},\"contours\":[{}]{}}}",
        quoted(name),
        each.join(",\n"),
        refused.unwrap_or_default()
    )
}

/// Numbers cut to four decimals, more than a page shows. What stands in quotes stays.
fn shortened(json: &str) -> String {
    const DECIMALS: usize = 4;
    let mut text = String::with_capacity(json.len());
    let (mut in_text, mut escaped, mut decimals) = (false, false, None);
    for c in json.chars() {
        if in_text {
            in_text = escaped || c != '"';
            escaped = c == '\\' && !escaped;
        } else {
            in_text = c == '"';
            decimals = match decimals {
                _ if c == '.' => Some(0),
                Some(count) if c.is_ascii_digit() => Some(count + 1),
                _ => None,
            };
        }
        if decimals.is_none_or(|count| count <= DECIMALS) {
            text.push(c);
        }
    }
    text
}

#[cfg(test)]
mod tests;
