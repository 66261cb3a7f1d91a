//! The tool idle: the answer to a contour.

use fontcrunch::{Point, Refusal};

use crate::worker::points_text;

/// The points kept, and after a bar the drops.
pub fn idle(points: &[Point]) -> Result<String, Refusal> {
    let idle = fontcrunch::drop_idle(points)?;
    let drops: String = idle.dropped.iter().map(|drop| format!(" {}:{}", drop.place, drop.beside)).collect();
    Ok(format!("ok{} |{drops}", points_text(&idle.points)))
}
