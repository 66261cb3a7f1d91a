//! The segments of a contour that 1 to 5 let through: which are lines, and which start at a corner.

use fontcrunch::{Cruncher, Point};

/// Whether each segment is a line: its start, an on-curve point, is followed by one.
pub fn lines(points: &[Point]) -> Vec<bool> {
    let next = |i: usize| points[(i + 1) % points.len()].on_curve;
    (0..points.len()).filter(|&i| points[i].on_curve).map(next).collect()
}

/// As the library says it.
pub fn is_corner(cruncher: &mut Cruncher, points: &[Point], segment: usize) -> bool {
    cruncher.why(points, segment).is_ok_and(|reasons| reasons.is_corner())
}
