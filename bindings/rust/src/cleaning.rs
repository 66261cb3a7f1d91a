//! Uploads cleaned of repeated points, and put back as they were.

use std::fmt;

use crate::cruncher::{unless_refused, Point};
use crate::entries::cleaning as entries;
use crate::refusal::Refusal;
use crate::rows::{Contour, PointRows, MOST_POINTS_IN};

/// Why a point was dropped: the first of these that held.
#[derive(Clone, Copy, Debug, PartialEq, Eq, Hash)]
#[repr(u32)]
pub enum Why {
    /// An on-curve point equal to the on-curve point before it.
    Before = 1,
    /// An off-curve point equal to both neighbours, going round.
    Both = 2,
    /// A last on-curve point equal to the first point.
    First = 3,
}

impl fmt::Display for Why {
    fn fmt(&self, f: &mut fmt::Formatter<'_>) -> fmt::Result {
        f.write_str(match self {
            Why::Before => "before",
            Why::Both => "both",
            Why::First => "first",
        })
    }
}

/// A dropped point.
#[derive(Clone, Copy, Debug, PartialEq, Eq, Hash)]
pub struct Dropped {
    /// Its place in the upload.
    pub place: u32,
    /// Why it was dropped.
    pub why: Why,
}

/// A cleaned contour.
#[derive(Clone, Debug, PartialEq, Eq)]
#[non_exhaustive]
pub struct Cleaned {
    /// The points kept, in order. None of refusals 1 to 5 is given for them.
    pub points: Vec<Point>,
    /// The points dropped, in the order of dropping.
    pub dropped: Vec<Dropped>,
}

/// Drops points that repeat their neighbours: lowest place first, until none remains. Place 0 always stays.
pub fn clean(points: &[Point]) -> Result<Cleaned, Refusal> {
    let contour = Contour::of(points);
    let room = points.len().min(MOST_POINTS_IN);
    let mut out = PointRows::of_room(room);
    let mut list = vec![[0; 2]; room];
    let report = entries::clean(&contour, &mut out, &mut list);
    unless_refused(report.number)?;
    Ok(Cleaned {
        points: out.points(report.kept),
        dropped: list[..report.dropped].iter().map(dropped).collect(),
    })
}

/// The upload's points, of the points kept and the list. A list that no cleaning gave is put back too, by the
/// same rule. Refused by 3 where there are more than [`MOST_POINTS_IN`] points with those dropped.
pub fn put_back(points: &[Point], dropped: &[Dropped]) -> Result<Vec<Point>, Refusal> {
    let contour = Contour::of(points);
    let list: Vec<[u32; 2]> = dropped.iter().map(|drop| [drop.place, drop.why as u32]).collect();
    let mut out = PointRows::of_room((points.len() + list.len()).min(MOST_POINTS_IN));
    let report = entries::put_back(&contour, &list, &mut out);
    unless_refused(report.number)?;
    Ok(out.points(report.points))
}

/// The library gives 1, 2 or 3 for each reason.
fn dropped(entry: &[u32; 2]) -> Dropped {
    let why = match entry[1] {
        1 => Why::Before,
        2 => Why::Both,
        _ => Why::First,
    };
    Dropped { place: entry[0], why }
}
