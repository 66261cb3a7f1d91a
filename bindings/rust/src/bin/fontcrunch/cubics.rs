//! The tool cubic: the answer to a contour.

use fontcrunch::{Point, Refusal};

use crate::worker::points_text;

/// The points of the quads.
pub fn cubic(points: &[Point]) -> Result<String, Refusal> {
    let quads = fontcrunch::from_cubics(points)?;
    Ok(format!("ok{}", points_text(&quads)))
}
