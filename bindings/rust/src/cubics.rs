//! Contours of cubics made quads.

use crate::cruncher::{unless_refused, Point};
use crate::entries::cubics as entries;
use crate::refusal::Refusal;
use crate::rows::{Contour, PointRows, MOST_POINTS_IN};

/// The quads of a contour of cubics, whose off-curve points stand in pairs; a last pair leads back to the start,
/// which is not written again. None of refusals 1 to 5 is given for the points that come out.
///
/// Refused by 5 where a stretch of off-curve points is not two long, by 3 where more than [`MOST_POINTS_IN`]
/// points come out (more may go in), and by 17.
pub fn from_cubics(points: &[Point]) -> Result<Vec<Point>, Refusal> {
    let contour = Contour::whole(points);
    let mut out = PointRows::of_room(MOST_POINTS_IN);
    let report = entries::from_cubics(&contour, &mut out);
    unless_refused(report.number)?;
    Ok(out.points(report.points))
}
