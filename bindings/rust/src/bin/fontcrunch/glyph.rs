//! The tool glyph: simple glyph descriptions as lines of hexadecimal digits, read, written and crunched.

use std::fmt::Write as _;
use std::str::FromStr;

use fontcrunch::glyph::{self, Glyph};
use fontcrunch::{Cruncher, Point, Refusal};

use crate::arguments::{More, Step};
use crate::contour_line::Malformed;
use crate::look::{self, Hints};
use crate::notes;

/// The longest glyph as text has room: 65,536 points, 32,767 ends and 65,535 instruction bytes; and so has its
/// description, with bytes to spare after it.
pub const LONGEST_LINE: usize = 1 << 22;

/// The answer to a line: a text, or a refusal. What else is to be said of it is put into `notes`.
pub fn answer(
    step: Step,
    how: How,
    cruncher: &mut Cruncher,
    line: &[u8],
    notes: &mut Vec<String>,
) -> Result<Result<String, Refusal>, Malformed> {
    if line.len() > LONGEST_LINE {
        return Err(Malformed::TooLong { most: LONGEST_LINE });
    }
    let told = match step {
        Step::Read => glyph::read(&of_hex(line).ok_or(Malformed::NoHex)?).map(|glyph| text_of(&glyph)),
        Step::Write => of_line(line).ok_or(Malformed::NoGlyph)?.to_bytes().map(|bytes| hex_of(&bytes)),
        Step::Crunch => {
            let bytes = of_hex(line).ok_or(Malformed::NoHex)?;
            how.crunch(cruncher, &bytes, notes).map(|made| hex_of(&made))
        }
    };
    Ok(told.map(|text| format!("ok {text}")))
}

/// What is done with a description besides crunching it.
#[derive(Clone, Copy)]
pub struct How {
    /// Implied points are written out before.
    pub explicit: bool,
    pub more: More,
}

impl How {
    fn crunch(
        self,
        cruncher: &mut Cruncher,
        bytes: &[u8],
        notes: &mut Vec<String>,
    ) -> Result<Vec<u8>, Refusal> {
        let crunch = match (self.more.prepare, self.explicit) {
            (true, _) => Cruncher::prepared_glyph,
            (false, true) => Cruncher::crunch_glyph_explicit,
            (false, false) => Cruncher::crunch_glyph,
        };
        let made = crunch(cruncher, bytes).inspect_err(|refusal| {
            let hints = Hints { may_prepare: true, ..Hints::default() };
            let seen = look::at_glyph(cruncher, bytes, *refusal, self.more.prepare, self.explicit, hints);
            notes.extend(seen.map(|seen| seen.words()));
        })?;
        if self.more.keep && points_in(&made) >= points_in(bytes) {
            return Ok(bytes.to_vec());
        }
        notes.append(&mut self.notes(cruncher, bytes, &made));
        Ok(made)
    }

    fn notes(self, cruncher: &mut Cruncher, before: &[u8], after: &[u8]) -> Vec<String> {
        let (Ok(before), Ok(after)) = (glyph::read(before), glyph::read(after)) else {
            return Vec::new();
        };
        let ready = |points: &[Point]| match (self.more.prepare, self.explicit) {
            (true, _) => fontcrunch::prepared(points),
            (false, true) => fontcrunch::explicit(points),
            (false, false) => Ok(points.to_vec()),
        };
        let pairs = before.contours().zip(after.contours()).enumerate();
        let told = pairs.flat_map(|(k, (before, after))| {
            let told = notes::of(cruncher, &ready(before).unwrap_or_default(), after);
            told.into_iter().map(move |note| format!("contour {k}: {note}"))
        });
        told.collect()
    }
}

/// As they stand in the description.
fn points_in(bytes: &[u8]) -> usize {
    glyph::read(bytes).map_or(0, |glyph| glyph.points.len())
}

fn text_of(glyph: &Glyph) -> String {
    let ends: Vec<String> = glyph.ends.iter().map(u16::to_string).collect();
    let points: Vec<String> =
        glyph.points.iter().map(|p| format!("{} {} {}", p.x, p.y, u8::from(p.on_curve))).collect();
    format!("ends={} instr={} pts={}", ends.join(","), hex_of(&glyph.instructions), points.join(" "))
}

/// An ok before it is passed over.
fn of_line(line: &[u8]) -> Option<Glyph> {
    let text = std::str::from_utf8(line).ok()?;
    of_text(text.strip_prefix("ok ").unwrap_or(text))
}

fn of_text(text: &str) -> Option<Glyph> {
    let (ends, rest) = text.strip_prefix("ends=")?.split_once(" instr=")?;
    let (instructions, points) = rest.split_once(" pts=")?;
    let numbers: Vec<&str> = if points.is_empty() { vec![] } else { points.split(' ').collect() };
    if !numbers.chunks_exact(3).remainder().is_empty() {
        return None;
    }
    let point = |p: &[&str]| {
        let flag: u8 = number(p[2])?;
        Some(Point { x: number(p[0])?, y: number(p[1])?, on_curve: flag % 2 == 1 })
    };
    Some(Glyph {
        ends: if ends.is_empty() { vec![] } else { ends.split(',').map(number).collect::<Option<_>>()? },
        points: numbers.chunks(3).map(point).collect::<Option<_>>()?,
        instructions: of_hex(instructions.as_bytes())?,
    })
}

/// A whole number, with no sign but a minus.
pub fn number<N: FromStr>(word: &str) -> Option<N> {
    if word.starts_with('+') {
        return None;
    }
    word.parse().ok()
}

pub fn hex_of(bytes: &[u8]) -> String {
    bytes.iter().fold(String::with_capacity(2 * bytes.len()), |mut text, b| {
        let _ = write!(text, "{b:02x}");
        text
    })
}

pub fn of_hex(text: &[u8]) -> Option<Vec<u8>> {
    let digit = |c: u8| char::from(c).to_digit(16).map(|d| d as u8);
    let pairs = text.chunks_exact(2);
    if !pairs.remainder().is_empty() {
        return None;
    }
    pairs.map(|pair| Some(digit(pair[0])? << 4 | digit(pair[1])?)).collect()
}

#[cfg(test)]
mod tests {
    use super::*;

    #[test]
    fn hex_there_and_back() {
        assert_eq!(of_hex(b"00ffA5"), Some(vec![0, 255, 0xa5]));
        assert_eq!(hex_of(&[0, 255, 0xa5]), "00ffa5");
        assert!(of_hex(b"0").is_none());
        assert!(of_hex(b"0g").is_none());
    }

    #[test]
    fn a_glyph_as_text() {
        let text = "ends=0,2 instr=b003 pts=1 2 1 -3 4 0 32767 -32768 1";
        assert_eq!(of_text(text).map(|g| text_of(&g)).as_deref(), Some(text));
        assert_eq!(of_text("ends= instr= pts=").map(|g| text_of(&g)).as_deref(), Some("ends= instr= pts="));
        for wrong in [
            "",
            "ends=1",
            "ends=1 instr= pts=1 2",
            "ends=x instr= pts=",
            "ends=1 instr=0 pts=",
            "ends=1 instr= pts=+1 2 1",
        ] {
            assert!(of_text(wrong).is_none(), "{wrong}");
        }
    }
}
