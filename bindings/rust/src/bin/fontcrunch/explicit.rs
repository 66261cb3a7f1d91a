//! The tool explicit: the answer to a contour.

use fontcrunch::{Point, Refusal};

use crate::worker::points_text;

/// The points with the implied ones written out.
pub fn explicit(points: &[Point]) -> Result<String, Refusal> {
    let made = fontcrunch::explicit(points)?;
    Ok(format!("ok{}", points_text(&made)))
}
