//! What a line says: whole numbers with one blank between them, `x y f x y f ..`, three to a point.
//!
//! Exactly the lines are read that the Rattle program reads (crates/lines/specs/Line.antt): a number is
//! decimal digits, zeros in front or not, with a `-` before them or nothing; -0 is 0; there is no `+`, no
//! other blank, and none at the ends. An empty line is a contour of no point.

use std::fmt;

use fontcrunch::Point;

/// A line of more bytes is malformed.
pub const LONGEST_LINE: usize = 65_536;

/// Why a line is no contour, no contour and chain, no glyph, or no file with contours. Words are numbered from 1.
#[derive(Debug, PartialEq, Eq)]
pub enum Malformed {
    TooLong { most: usize },
    NoIndex { text: String },
    EmptyWord { word: usize },
    NotWhole { word: usize, text: String },
    NoCoordinate { word: usize, text: String },
    NoFlag { word: usize, text: String },
    NotThrees { words: usize },
    NoBar,
    NoBreak { word: usize, text: String },
    NoDouble { word: usize, text: String },
    NotFours { words: usize },
    NoHex,
    NoGlyph,
    NoContours,
}

impl fmt::Display for Malformed {
    fn fmt(&self, f: &mut fmt::Formatter<'_>) -> fmt::Result {
        match self {
            Malformed::TooLong { most } => write!(f, "the line is longer than {most} bytes"),
            Malformed::NoIndex { text } => write!(f, "'{text}', which comes first, is no index of a segment"),
            Malformed::EmptyWord { word } => write!(
                f,
                "number {word} is missing: one blank stands between numbers, and none before or after them"
            ),
            Malformed::NotWhole { word, text } => {
                write!(f, "number {word}, '{text}', is not a whole number")
            }
            Malformed::NoCoordinate { word, text } => {
                write!(f, "number {word}, '{text}', is not within -32768 and 32767")
            }
            Malformed::NoFlag { word, text } => {
                write!(f, "number {word}, '{text}', is a flag and not within 0 and 255")
            }
            Malformed::NotThrees { words } => {
                write!(f, "there are {words} numbers, and three make a point: x, y, flag")
            }
            Malformed::NoBar => write!(f, "after the contour, ' | ' and a chain are missing"),
            Malformed::NoBreak { word, text } => {
                write!(f, "number {word} after the bar, '{text}', is no break's number")
            }
            Malformed::NoDouble { word, text } => {
                write!(
                    f,
                    "number {word} after the bar, '{text}', is not the 16 hexadecimal digits of a double"
                )
            }
            Malformed::NotFours { words } => {
                write!(f, "after the bar are {words} numbers: a score, and four for each piece")
            }
            Malformed::NoHex => write!(f, "the line is not hexadecimal digits, two for each byte"),
            Malformed::NoGlyph => write!(f, "the line is not ends=a,b,... instr=HEX pts=x y f x y f ..."),
            Malformed::NoContours => write!(f, "after each bar stand points, x y f x y f ..."),
        }
    }
}

/// Reads a line, given without its line end, into `points`, which is emptied first. After a fault it holds
/// the points before it.
pub fn parse(line: &[u8], points: &mut Vec<Point>) -> Result<(), Malformed> {
    points.clear();
    if line.len() > LONGEST_LINE {
        return Err(Malformed::TooLong { most: LONGEST_LINE });
    }
    if line.is_empty() {
        return Ok(());
    }
    let mut words = line.split(|&byte| byte == b' ').zip(1..);
    while let Some((x, at)) = words.next() {
        let x = coordinate(x, at)?;
        let (y, at) = words.next().ok_or(Malformed::NotThrees { words: at })?;
        let y = coordinate(y, at)?;
        let (flag, at) = words.next().ok_or(Malformed::NotThrees { words: at })?;
        // only bit 0 of a flag is looked at
        let on_curve = flag_byte(flag, at)? & 1 == 1;
        points.push(Point { x, y, on_curve });
    }
    Ok(())
}

/// Reads a line `k x y f ..`: the index of a segment, digits alone, and a contour, whose numbers are counted from
/// 1 after it. An index too large to be held is past every segment.
pub fn parse_indexed(line: &[u8], points: &mut Vec<Point>) -> Result<usize, Malformed> {
    points.clear();
    if line.len() > LONGEST_LINE {
        return Err(Malformed::TooLong { most: LONGEST_LINE });
    }
    let (index, rest) = match line.iter().position(|&byte| byte == b' ') {
        Some(at) => (&line[..at], Some(&line[at + 1..])),
        None => (line, None),
    };
    if index.is_empty() || !index.iter().all(u8::is_ascii_digit) {
        return Err(Malformed::NoIndex { text: shown(index) });
    }
    match rest {
        Some([]) => return Err(Malformed::EmptyWord { word: 1 }),
        Some(contour) => parse(contour, points)?,
        None => {}
    }
    Ok(index.iter().fold(0, |k: usize, d| k.saturating_mul(10).saturating_add(usize::from(d - b'0'))))
}

fn coordinate(text: &[u8], word: usize) -> Result<i16, Malformed> {
    let number = whole(text, word)?;
    i16::try_from(number).map_err(|_| Malformed::NoCoordinate { word, text: shown(text) })
}

fn flag_byte(text: &[u8], word: usize) -> Result<u8, Malformed> {
    let number = whole(text, word)?;
    u8::try_from(number).map_err(|_| Malformed::NoFlag { word, text: shown(text) })
}

/// A whole number. One that is farther from 0 than 65,536 counts as that: any number of digits can be read,
/// and it is out of bounds for every place of a line.
fn whole(text: &[u8], word: usize) -> Result<i32, Malformed> {
    if text.is_empty() {
        return Err(Malformed::EmptyWord { word });
    }
    let (sign, digits) = match text.strip_prefix(b"-") {
        Some(digits) => (-1, digits),
        None => (1, text),
    };
    if digits.is_empty() || !digits.iter().all(u8::is_ascii_digit) {
        return Err(Malformed::NotWhole { word, text: shown(text) });
    }
    let size = digits.iter().fold(0, |v, d| (v * 10 + i32::from(d - b'0')).min(65_536));
    Ok(sign * size)
}

/// A word for a message: what is no plain character is escaped, and a long word is cut.
pub fn shown(text: &[u8]) -> String {
    const MOST: usize = 24;
    let mut shown = text[..text.len().min(MOST)].escape_ascii().to_string();
    if text.len() > MOST {
        shown.push_str("..");
    }
    shown
}

#[cfg(test)]
mod tests;
