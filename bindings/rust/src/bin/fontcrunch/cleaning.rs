//! The tool clean: the answer to a contour.

use fontcrunch::{Point, Refusal};

use crate::worker::points_text;

/// The points kept, and after a bar the drops.
pub fn clean(points: &[Point]) -> Result<String, Refusal> {
    let cleaned = fontcrunch::clean(points)?;
    let drops: String = cleaned.dropped.iter().map(|drop| format!(" {}:{}", drop.place, drop.why)).collect();
    Ok(format!("ok{} |{drops}", points_text(&cleaned.points)))
}
