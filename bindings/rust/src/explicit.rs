//! Contours as fonts hold them, with their implied points written out.

use crate::cruncher::{unless_refused, Point};
use crate::entries::explicit as entries;
use crate::refusal::Refusal;
use crate::rows::{Contour, PointRows, MOST_POINTS_IN};

/// A contour from its first on-curve point on, with the implied point between two off-curve ones that follow each
/// other written out: their middle, halves away from zero. None of refusals 1 to 5 is given for the points that
/// come out; a contour that they let through comes out as it is, and where each middle is whole the outline is
/// the same.
///
/// Refused by 2; by 21 where no point is on-curve; by 3 where more than [`MOST_POINTS_IN`] points come out.
///
/// ```
/// use fontcrunch::{explicit, Point};
///
/// let circle = [Point::off(10, 0), Point::off(10, 7), Point::on(0, 7)];
/// let points = explicit(&circle)?;
/// assert_eq!(points, [Point::on(0, 7), Point::off(10, 0), Point::on(10, 4), Point::off(10, 7)]);
/// # Ok::<(), fontcrunch::Refusal>(())
/// ```
pub fn explicit(points: &[Point]) -> Result<Vec<Point>, Refusal> {
    let contour = Contour::whole(points);
    let mut out = PointRows::of_room(MOST_POINTS_IN);
    let report = entries::explicit(&contour, &mut out);
    unless_refused(report.number)?;
    Ok(out.points(report.points))
}
