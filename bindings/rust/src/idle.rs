//! Controls that stand on an end of their curve, dropped, and put back.

use std::fmt;

use crate::cruncher::{unless_refused, Point};
use crate::entries::idle as entries;
use crate::refusal::Refusal;
use crate::rows::{Contour, PointRows, MOST_POINTS_IN};

/// The end of its curve that a control stands on: the first of these that held.
#[derive(Clone, Copy, Debug, PartialEq, Eq, Hash)]
#[repr(u32)]
pub enum Beside {
    /// The on-curve point before it.
    Before = 1,
    /// The on-curve point after it, going round.
    After = 2,
}

impl fmt::Display for Beside {
    fn fmt(&self, f: &mut fmt::Formatter<'_>) -> fmt::Result {
        f.write_str(match self {
            Beside::Before => "before",
            Beside::After => "after",
        })
    }
}

/// A dropped control.
#[derive(Clone, Copy, Debug, PartialEq, Eq, Hash)]
pub struct IdleDrop {
    /// Its place in the contour.
    pub place: u32,
    /// The end of its curve that it stands on.
    pub beside: Beside,
}

/// A contour without idle controls.
#[derive(Clone, Debug, PartialEq, Eq)]
pub struct Idle {
    /// The points kept, in order. None of refusals 1 to 5 is given for them.
    pub points: Vec<Point>,
    /// The controls dropped, by rising place.
    pub dropped: Vec<IdleDrop>,
}

/// Drops each off-curve point that is equal to one of its on-curve neighbours, going round: its curve is then the
/// line that it was, in the same places. Place 0 always stays. Refused by 1 to 5.
///
/// Left in, such a control gives its curve no direction where it stands. The first score of the run is then a NaN,
/// which nothing replaces, and the run comes out as one straight piece, as in the Rust which this follows.
///
/// ```
/// use fontcrunch::{drop_idle, put_back_idle, Point};
///
/// let contour = [Point::on(0, 0), Point::off(0, 0), Point::on(100, 0), Point::on(0, 200)];
/// let idle = drop_idle(&contour)?;
/// assert_eq!(idle.points, [Point::on(0, 0), Point::on(100, 0), Point::on(0, 200)]);
/// assert_eq!(idle.dropped[0].place, 1);
/// assert_eq!(put_back_idle(&idle.points, &idle.dropped)?, contour);
/// # Ok::<(), fontcrunch::Refusal>(())
/// ```
pub fn drop_idle(points: &[Point]) -> Result<Idle, Refusal> {
    let contour = Contour::of(points);
    let room = points.len().min(MOST_POINTS_IN);
    let mut out = PointRows::of_room(room);
    let mut list = vec![[0; 2]; room];
    let report = entries::drop_idle(&contour, &mut out, &mut list);
    unless_refused(report.number)?;
    Ok(Idle {
        points: out.points(report.kept),
        dropped: list[..report.dropped].iter().map(dropped).collect(),
    })
}

/// The contour's points, of the points kept and the list. A list that no dropping gave is put back too, by the
/// same rule. Refused by 3 where there are more than [`MOST_POINTS_IN`] points with those dropped.
pub fn put_back_idle(points: &[Point], dropped: &[IdleDrop]) -> Result<Vec<Point>, Refusal> {
    let contour = Contour::of(points);
    let list: Vec<[u32; 2]> = dropped.iter().map(|drop| [drop.place, drop.beside as u32]).collect();
    let mut out = PointRows::of_room((points.len() + list.len()).min(MOST_POINTS_IN));
    let report = entries::put_back_idle(&contour, &list, &mut out);
    unless_refused(report.number)?;
    Ok(out.points(report.points))
}

/// The library gives 1 or 2 for the neighbour.
fn dropped(entry: &[u32; 2]) -> IdleDrop {
    let beside = if entry[1] == 1 { Beside::Before } else { Beside::After };
    IdleDrop { place: entry[0], beside }
}
