//! What a line of the tool check says: a contour and a chain of one run of it, `x y f .. | SCORE start end cx cy ..`,
//! with one blank before and after the bar. The score and the controls are the 16 hexadecimal digits of a double's
//! bits, as the tool chain writes them; a contour of no point has nothing before the bar.

use fontcrunch::{Chain, Piece, Point};

use crate::contour_line::{self, shown, Malformed};

/// A contour of the longest line, and a chain of as many pieces as there can be, have room.
pub const LONGEST_LINE: usize = 4 * contour_line::LONGEST_LINE;

/// Reads a line, given without its line end: the contour into `points`, which is emptied first. The chain's pairs,
/// its segments and its lookups that fell are not on the line, and nobody looks at them.
pub fn parse(line: &[u8], points: &mut Vec<Point>) -> Result<Chain, Malformed> {
    points.clear();
    if line.len() > LONGEST_LINE {
        return Err(Malformed::TooLong { most: LONGEST_LINE });
    }
    let (contour, chain) = at_bar(line).ok_or(Malformed::NoBar)?;
    contour_line::parse(contour, points)?;
    let words: Vec<&[u8]> = chain.split(|&byte| byte == b' ').collect();
    if words.len() % 4 != 1 {
        return Err(Malformed::NotFours { words: words.len() });
    }
    let score = double(words[0], 1)?;
    let pieces = words[1..].chunks_exact(4).zip(0..).map(|(four, i)| piece(four, 4 * i + 2));
    let pieces = pieces.collect::<Result<_, _>>()?;
    Ok(Chain::new(pieces, score))
}

/// What stands before the bar and after it.
fn at_bar(line: &[u8]) -> Option<(&[u8], &[u8])> {
    if let Some(chain) = line.strip_prefix(b"| ") {
        return Some((&[], chain));
    }
    let at = line.windows(3).position(|three| three == b" | ")?;
    Some((&line[..at], &line[at + 3..]))
}

/// A piece, whose first word has that number.
fn piece(four: &[&[u8]], at: usize) -> Result<Piece, Malformed> {
    Ok(Piece {
        start: break_number(four[0], at)?,
        end: break_number(four[1], at + 1)?,
        control: (double(four[2], at + 2)?, double(four[3], at + 3)?),
    })
}

/// Digits alone. A number too large to be held is past every break, as the largest is that can be.
fn break_number(text: &[u8], word: usize) -> Result<u32, Malformed> {
    if text.is_empty() || !text.iter().all(u8::is_ascii_digit) {
        return Err(Malformed::NoBreak { word, text: shown(text) });
    }
    Ok(text.iter().fold(0, |n: u32, d| n.saturating_mul(10).saturating_add(u32::from(d - b'0'))))
}

fn double(text: &[u8], word: usize) -> Result<f64, Malformed> {
    let digits = std::str::from_utf8(text)
        .ok()
        .filter(|digits| digits.len() == 16 && digits.bytes().all(|digit| digit.is_ascii_hexdigit()));
    let bits = digits.and_then(|digits| u64::from_str_radix(digits, 16).ok());
    bits.map(f64::from_bits).ok_or_else(|| Malformed::NoDouble { word, text: shown(text) })
}

#[cfg(test)]
mod tests;
