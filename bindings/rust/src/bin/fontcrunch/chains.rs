//! The tool chain: the answer to a contour that is not refused.

use fontcrunch::{Chain, Point};

use crate::worker::points_text;

/// All NaNs have one pattern on a line, since which of them comes is not fixed.
const NAN_BITS: u64 = 0x7ff8_0000_0000_0000;

/// The pieces of a run; with the segments that each replaces, where these are asked for.
pub fn chain_text(chain: &Chain, segments: bool) -> String {
    if chain.pieces.is_empty() {
        return format!("unchanged {}", chain.pairs);
    }
    let mut text = format!("ok {} {} {}", chain.pairs, bits(chain.score), chain.pieces.len());
    for (piece, (first, last)) in chain.pieces.iter().zip(&chain.segments) {
        let (x, y) = piece.control;
        text.push_str(&format!(" {} {} {} {}", piece.start, piece.end, bits(x), bits(y)));
        if segments {
            text.push_str(&format!(" {first} {last}"));
        }
    }
    text
}

/// The contour and its chain as the tool check reads them; None where there is no piece.
pub fn check_line(points: &[Point], chain: &Chain) -> Option<String> {
    if chain.pieces.is_empty() {
        return None;
    }
    let mut text = format!("{} | {}", points_text(points).trim_start(), bits(chain.score));
    for piece in &chain.pieces {
        let (x, y) = piece.control;
        text.push_str(&format!(" {} {} {} {}", piece.start, piece.end, bits(x), bits(y)));
    }
    Some(text)
}

fn bits(x: f64) -> String {
    format!("{:016x}", if x.is_nan() { NAN_BITS } else { x.to_bits() })
}

#[cfg(test)]
mod tests {
    use super::*;

    #[test]
    fn a_double_is_its_bits() {
        assert_eq!(bits(1.0), "3ff0000000000000");
        assert_eq!(bits(-0.0), "8000000000000000");
        assert_eq!(bits(f64::from_bits(0xfff8_0000_0000_0001)), "7ff8000000000000");
    }
}
