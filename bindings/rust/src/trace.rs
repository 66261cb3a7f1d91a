//! All that can be told of a contour: its segments and corners with their reasons, what came of each run, its pieces
//! and what each replaced, or what refused it and where.
//!
//! The library's entries say most of it: [`Cruncher::crunch`], [`Cruncher::chain`], [`Cruncher::verdict`] and
//! [`Cruncher::why`]. What no entry says is worked out beside them, and every such thing stands in a field of the
//! name `beside`. It is held to the entries where they tell of it: where a run's breaks are not as many as its chain
//! says, or the shares of its pieces do not make its score to the bit, nothing of the kind is told.

mod distance;
mod hint;
mod json;
mod reading;
mod sampling;
mod words;

pub use json::quoted;

use std::ops::Range;

use crate::cruncher::{self, Crunched, Cruncher, Point};
use crate::outline::Place;
use crate::reasons::Reasons;
use crate::refusal::Refusal;
use crate::settings::Settings;

/// A corner by angle bends so that the sine of the angle is above this.
pub const BEND_LIMIT: f64 = 0.02;

/// What can be told of a contour at some settings.
#[derive(Clone, Debug, PartialEq)]
pub struct Trace {
    /// What it was crunched at.
    pub settings: Settings,
    /// The contour, as it came.
    pub points: Vec<Point>,
    /// What [`Cruncher::crunch`] says.
    pub result: Result<Crunched, Refusal>,
    /// The contour's segments; none where it is refused by 1 to 5.
    pub segments: Vec<Segment>,
    /// Its runs in order, also those that come after one that ends the work; none where the contour is refused
    /// before runs are looked at.
    pub runs: Vec<Run>,
    /// What was worked out.
    pub beside: Beside,
}

/// What no entry says of a contour.
#[derive(Clone, Debug, Default, PartialEq)]
pub struct Beside {
    /// Segments that are not written: in the crate's mode those before the first corner and after the last, but for
    /// one line that the contour closes by.
    pub lost: Vec<usize>,
    /// Why the contour is left as it came, if it is.
    pub unchanged: Option<&'static str>,
    /// What may help, where it is refused.
    pub hint: Option<String>,
}

/// A segment of a contour: from an on-curve point to the next.
#[derive(Clone, Debug, PartialEq)]
pub struct Segment {
    /// Where it starts.
    pub start: Place,
    /// Of a curve; a line has none.
    pub control: Option<Place>,
    /// Where it ends.
    pub end: Place,
    /// Why it starts at a corner, as [`Cruncher::why`] says; where no reason holds it does not.
    pub why: Reasons,
    /// How the outline bends at its start. None where a tangent is zero, before or after.
    pub beside: Option<Bend>,
}

/// How the outline bends where a segment starts.
#[derive(Clone, Copy, Debug, PartialEq)]
pub struct Bend {
    /// The sine of the angle, without a sign: what the test holds against [`BEND_LIMIT`]. So a half turn is no
    /// corner by angle.
    pub sine: f64,
    /// The angle in degrees, 0 to 180.
    pub degrees: f64,
}

/// A run: the segments from a corner to the next.
#[derive(Clone, Debug, PartialEq)]
pub struct Run {
    /// Its segments, going round: past the last segment of the contour the first ones follow.
    pub segments: Range<usize>,
    /// Whether crunching comes to it: not after a run that is refused, or that leaves the contour unchanged.
    pub reached: bool,
    /// What came of it.
    pub came: Came,
    /// What became of it, in order. A copied line is one piece.
    pub pieces: Vec<Piece>,
    /// What was worked out.
    pub beside: Extent,
}

/// What came of a run, as [`Cruncher::chain`] says.
#[derive(Clone, Debug, PartialEq)]
pub enum Came {
    /// One line, which is copied: no chain is sought.
    Copied,
    /// A chain was found.
    Found(Worked),
    /// No chain was found, so that the contour is unchanged.
    Unchanged(Worked),
    /// The run is refused, by 6, 7 or 8.
    Refused(Refusal),
}

/// What the work on a run was, and what it came to.
#[derive(Clone, Copy, Debug, PartialEq)]
pub struct Worked {
    /// Of the chain; 0.0 where there is none.
    pub score: f64,
    /// How many pairs of breaks were tried.
    pub pairs: usize,
    /// How many lookups fell past the samples, in every attempt.
    pub fallen: usize,
    /// How many of them as the chain that was found is measured, as [`Cruncher::verdict`] says.
    pub found_fallen: usize,
}

/// How large a run is.
#[derive(Clone, Copy, Debug, Default, PartialEq)]
pub struct Extent {
    /// In units along it.
    pub length: f64,
    /// How many samples it needs; the room is [`SAMPLE_ROOM`](crate::SAMPLE_ROOM).
    pub samples: usize,
    /// How many breaks it has, also where these are too many; the room is [`BREAK_ROOM`](crate::BREAK_ROOM). None
    /// where it needs too many samples, and of a copied line.
    pub breaks: Option<usize>,
    /// Where they are too many on half units: how many it would have on whole ones.
    pub on_whole_units: Option<usize>,
}

/// A piece of what came of a run.
#[derive(Clone, Debug, PartialEq)]
pub struct Piece {
    /// Its breaks and its control, as [`Cruncher::chain`] gives them; none of a copied line.
    pub piece: Option<cruncher::Piece>,
    /// The first and the last of the contour's segments that it replaces. In closed mode the last may be before the
    /// first, going round.
    pub segments: (usize, usize),
    /// The curve of the result that it is written as; none where the contour is refused or unchanged.
    pub written: Option<Written>,
    /// What was worked out; none where that is not as the entries say.
    pub beside: Option<Share>,
}

/// A curve of the result. Where it starts or ends at a point that is implied, that is midway between two controls. It
/// starts where the one before it ends, which need not be its own first break: the last break of a run may be off the
/// corner. In the crate's mode the first one starts where the contour does, also where that is no corner, and in closed
/// mode the last one ends at the first corner.
#[derive(Clone, Copy, Debug, PartialEq)]
pub struct Written {
    /// Where it starts, in the order of the contour that came in.
    pub start: Place,
    /// Of a line, none.
    pub control: Option<Place>,
    /// Where it ends.
    pub end: Place,
}

/// What no entry says of a piece.
#[derive(Clone, Copy, Debug, PartialEq)]
pub struct Share {
    /// The place of its first break.
    pub start: Place,
    /// The place of its last break.
    pub end: Place,
    /// Whether it is a line.
    pub straight: bool,
    /// How many penalties it costs: 1 for a line and for a smooth joint of two curves, else 2; 0 for a copied line.
    pub penalties: u32,
    /// How far it is from the run, as the score has it.
    pub measure: f64,
    /// What it adds to the score: its penalties and its measure.
    pub share: f64,
    /// Its largest distance from the segments that it replaces, of 33 places along it, and where that is.
    pub farthest: Option<(f64, Place)>,
}

impl Trace {
    /// The segments that start at a corner, each with its number.
    pub fn corners(&self) -> impl Iterator<Item = (usize, &Segment)> {
        self.segments.iter().enumerate().filter(|(_, segment)| segment.why.is_corner())
    }

    /// The first run that is refused, of those that crunching comes to.
    pub fn refused_run(&self) -> Option<usize> {
        self.runs.iter().position(|run| run.reached && matches!(run.came, Came::Refused(_)))
    }

    /// All pieces, run by run.
    pub fn pieces(&self) -> impl Iterator<Item = &Piece> {
        self.runs.iter().flat_map(|run| &run.pieces)
    }

    /// One line of JSON, as docs/trace.schema.json says.
    pub fn to_json(&self) -> String {
        json::text(self)
    }

    /// A corner in words: `segment 7 at (438, 403): turns back in y; bend of 12.4 degrees, limit 1.15`.
    pub fn corner_words(&self, index: usize) -> String {
        words::corner(index, &self.segments[index])
    }
}

impl Cruncher {
    /// All that can be told of a contour, at the cruncher's settings. The contour is crunched, and then each run of it
    /// is worked once more for its chain.
    ///
    /// ```
    /// use fontcrunch::{Cruncher, Point, Settings};
    ///
    /// let mut cruncher = Cruncher::new(Settings::of_crate());
    /// let hill = [Point::on(0, 0), Point::off(0, 60), Point::on(40, 90), Point::off(80, 120), Point::on(130, 120)];
    /// let trace = cruncher.trace(&hill);
    /// assert_eq!(trace.runs.len(), 1);
    /// assert_eq!(trace.runs[0].pieces.len(), 2);
    /// let words = "segment 0 at (0, 0): turns back in x and in y; bend of 132.7 degrees, limit 1.15";
    /// assert_eq!(trace.corner_words(0), words);
    /// ```
    pub fn trace(&mut self, points: &[Point]) -> Trace {
        reading::trace(self, points)
    }
}

#[cfg(test)]
mod tests;
