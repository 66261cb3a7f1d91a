//! The tool glif: files of UFO's GLIF as lines of hexadecimal digits, read, crunched, and other contours written into
//! them; or one file, crunched.

use std::fs;
use std::io::{self, Write};
use std::path::Path;

use fontcrunch::glif;
use fontcrunch::{Cruncher, Point, Refusal, Settings};

use crate::arguments::{More, Step};
use crate::contour_line::Malformed;
use crate::glyph::{hex_of, number, of_hex};
use crate::kinds;
use crate::recipe::{Became, Recipe};
use crate::service::{complain, Status};
use crate::worker::points_text;

/// A file of eight million bytes has room.
pub const LONGEST_LINE: usize = 1 << 24;

/// How files are crunched at these settings and words.
pub fn recipe(settings: Settings, more: More) -> Recipe {
    Recipe { settings, prepare: more.prepare, keep: more.keep, cubic: more.cubic }
}

/// The answer to a line: a text, or a refusal. What else is to be said of it is put into `notes`.
pub fn answer(
    step: Step,
    more: More,
    cruncher: &mut Cruncher,
    line: &[u8],
    notes: &mut Vec<String>,
) -> Result<Result<String, Refusal>, Malformed> {
    if line.len() > LONGEST_LINE {
        return Err(Malformed::TooLong { most: LONGEST_LINE });
    }
    let told = match step {
        Step::Read => glif::read(&of_digits(line)?).map(|contours| text_of(&contours)),
        Step::Write => write(line)?,
        Step::Crunch => crunch(recipe(cruncher.settings(), more), cruncher, &of_digits(line)?, notes),
    };
    Ok(told.map(|text| format!("ok {text}")))
}

fn crunch(
    recipe: Recipe,
    cruncher: &mut Cruncher,
    bytes: &[u8],
    notes: &mut Vec<String>,
) -> Result<String, Refusal> {
    match recipe.follow(cruncher, bytes) {
        Became::Crunched { bytes: made, .. } => {
            notes.append(&mut recipe.notes(cruncher, bytes, &made));
            Ok(hex_of(&made))
        }
        Became::Kept { .. } => Ok(hex_of(bytes)),
        Became::Refused { refusal, seen, .. } => {
            notes.extend(seen.map(|seen| seen.of_line()));
            Err(refusal)
        }
    }
}

fn write(line: &[u8]) -> Result<Result<String, Refusal>, Malformed> {
    let mut parts = line.split(|&byte| byte == b'|');
    let bytes = of_digits(parts.next().unwrap_or_default())?;
    let contours = parts.map(of_text).collect::<Option<Vec<_>>>().ok_or(Malformed::NoContours)?;
    Ok(glif::write(&bytes, &contours).map(|written| hex_of(&written)))
}

fn of_digits(text: &[u8]) -> Result<Vec<u8>, Malformed> {
    of_hex(text.trim_ascii()).ok_or(Malformed::NoHex)
}

/// A refusal writes nothing: what is shown is all of the new file.
pub fn crunch_file(settings: Settings, more: More, path: &Path) -> Status {
    let name = path.display().to_string();
    if path.is_dir() {
        complain(&format!("{name}: {}", kinds::of_folder(path)));
        return Status::Wrong;
    }
    let bytes = match fs::read(path) {
        Ok(bytes) => bytes,
        Err(error) => {
            complain(&format!("{name}: {error}"));
            return Status::Wrong;
        }
    };
    let recipe = recipe(settings, more);
    let mut cruncher = recipe.cruncher();
    match recipe.follow(&mut cruncher, &bytes) {
        Became::Crunched { bytes: made, .. } => {
            let notes = recipe.notes(&mut cruncher, &bytes, &made);
            notes.iter().filter(|_| !more.quiet).for_each(|note| complain(&format!("{name}: {note}")));
            shown(&made)
        }
        Became::Kept { .. } => shown(&bytes),
        Became::Refused { refusal, seen, .. } => {
            complain(&format!("{name}: {refusal}"));
            let kind = if bytes.is_empty() { Some("is empty") } else { kinds::font(&bytes) };
            match (kind, seen) {
                (Some(kind), _) => complain(&format!("{name}: {kind}")),
                (None, Some(seen)) => complain(&seen.of_file(&name)),
                (None, None) => {}
            }
            Status::SomeRefused
        }
    }
}

/// A reader that has seen enough needs no message.
fn shown(bytes: &[u8]) -> Status {
    let mut out = io::stdout().lock();
    match out.write_all(bytes).and_then(|()| out.flush()) {
        Ok(()) => Status::AllCrunched,
        Err(error) => {
            if error.kind() != io::ErrorKind::BrokenPipe {
                complain(&format!("(standard output): {error}"));
            }
            Status::Wrong
        }
    }
}

fn text_of(contours: &[Vec<Point>]) -> String {
    contours.iter().fold(contours.len().to_string(), |text, contour| text + " |" + &points_text(contour))
}

fn of_text(text: &[u8]) -> Option<Vec<Point>> {
    let words: Vec<&str> = std::str::from_utf8(text).ok()?.split_ascii_whitespace().collect();
    if !words.chunks_exact(3).remainder().is_empty() {
        return None;
    }
    let point = |p: &[&str]| {
        let flag: u8 = number(p[2])?;
        Some(Point { x: number(p[0])?, y: number(p[1])?, on_curve: flag % 2 == 1 })
    };
    words.chunks(3).map(point).collect()
}
