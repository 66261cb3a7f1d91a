//! Contours crunched, chains asked for and checked, in rows that are allocated once.

use std::fmt;

use crate::editions::Second;
use crate::entries::{self, CrunchReport};
use crate::reasons::Reasons;
use crate::refusal::Refusal;
use crate::rows::{ChainRows, Contour, Output, Scratch};
use crate::rows::{MOST_PIECES, USUAL_POINT_ROOM};
use crate::settings::Settings;

/// A point of a contour.
#[derive(Clone, Copy, Debug, Default, PartialEq, Eq, Hash)]
pub struct Point {
    /// To the right.
    pub x: i16,
    /// Upward.
    pub y: i16,
    /// Whether the outline goes through the point; if not, it is a curve's control.
    pub on_curve: bool,
}

impl Point {
    /// An on-curve point.
    pub const fn on(x: i16, y: i16) -> Point {
        Point { x, y, on_curve: true }
    }

    /// An off-curve point.
    pub const fn off(x: i16, y: i16) -> Point {
        Point { x, y, on_curve: false }
    }
}

/// A crunched contour.
#[derive(Clone, Debug, PartialEq, Eq)]
#[non_exhaustive]
pub struct Crunched {
    /// Its points, with implied points dropped: in reverse order, or in closed mode in order.
    pub points: Vec<Point>,
    /// How many pairs of breaks were tried, over all runs.
    pub pairs: usize,
    /// How many lookups fell past the samples of their run, a place and a direction counting one each: over every
    /// attempt measured in the runs worked, also where the contour is left unchanged. Such an attempt was held
    /// against (0, 0), as the Rust which this follows does, and has an odd score.
    pub fallen: usize,
}

impl Crunched {
    pub(crate) fn of(report: CrunchReport, output: &Output) -> Crunched {
        Crunched { points: output.first(report.points), pairs: report.pairs, fallen: report.fallen }
    }
}

/// A piece of a chain: a quadratic curve between two breaks.
#[derive(Clone, Copy, Debug, PartialEq)]
pub struct Piece {
    /// The number of the break where it starts.
    pub start: u32,
    /// The number of the break where it ends.
    pub end: u32,
    /// Its control point, x and y. A straight piece has it midway.
    pub control: (f64, f64),
}

/// The pieces of one run. One of anyone's pieces is made by [`Chain::new`].
#[derive(Clone, Debug, Default, PartialEq)]
#[non_exhaustive]
pub struct Chain {
    /// The pieces in order. There is none where the run leaves the contour unchanged.
    pub pieces: Vec<Piece>,
    /// How far the pieces are from the run, with a penalty for each; 0.0 where there is no piece.
    pub score: f64,
    /// How many pairs of breaks were tried. The checker does not look at it.
    pub pairs: usize,
    /// For each piece, the first and the last of the contour's segments that it replaces: those that hold its
    /// start break and its end break, counted from 0. Where a segment ends exactly at a break, the break is in it,
    /// not in the next. In closed mode the last may be before the first, going round. The checker does not look
    /// at them, and they may be left empty.
    pub segments: Vec<(u32, u32)>,
    /// How many lookups fell past the samples, over every attempt measured in the run, as in [`Crunched::fallen`].
    /// The checker does not look at it: [`Cruncher::verdict`] has the number of the chain's own pieces.
    pub fallen: usize,
}

impl Chain {
    /// A chain of these pieces, as it can be checked. What the checker does not look at is 0 or empty.
    pub fn new(pieces: Vec<Piece>, score: f64) -> Chain {
        Chain { pieces, score, ..Chain::default() }
    }
}

/// What the checker says of a chain.
#[derive(Clone, Copy, Debug, PartialEq, Eq)]
#[non_exhaustive]
pub struct Verdict {
    /// Whether the chain is valid for its run and has the score that it says.
    pub accepted: bool,
    /// How many lookups fell past the samples as the chain's own pieces were measured, a place and a direction
    /// counting one each; 0 where they were not, since they do not lead from break to break as a chain's do.
    pub fallen: usize,
}

/// Crunches contours, one after another, at its settings and in rows that it holds: about a megabyte, allocated
/// once.
pub struct Cruncher {
    pub(crate) settings: Settings,
    pub(crate) contour: Contour,
    chain: ChainRows,
    pub(crate) output: Output,
    pub(crate) scratch: Scratch,
    /// The rows of a second edition, from the first order of two on.
    pub(crate) second: Option<Box<Second>>,
}

impl Cruncher {
    /// A cruncher with the full rooms, and room for [`USUAL_POINT_ROOM`] points of a result. There is none
    /// without settings: whoever wants the default says so, by [`Settings::default`].
    pub fn new(settings: Settings) -> Cruncher {
        Cruncher::with_point_room(settings, USUAL_POINT_ROOM)
    }

    /// A cruncher with room for that many points of a result. No fixed number suffices for every contour;
    /// a result that has more, implied points counted, is refused by 9.
    pub fn with_point_room(settings: Settings, room: usize) -> Cruncher {
        Cruncher {
            settings,
            contour: Contour::default(),
            chain: ChainRows::default(),
            output: Output::of_room(room),
            scratch: Scratch::full(),
            second: None,
        }
    }

    /// What it crunches, finds and checks chains at.
    pub const fn settings(&self) -> Settings {
        self.settings
    }

    /// Crunches a contour.
    ///
    /// A run for which no chain is found leaves the whole contour unchanged: then its own points come out,
    /// reversed, with the start at both ends. In closed mode they come out as they stand, and so do those of a
    /// contour with no corner.
    pub fn crunch(&mut self, points: &[Point]) -> Result<Crunched, Refusal> {
        self.take_contour(points);
        let report = entries::crunch(&self.contour, self.settings, &mut self.output, &mut self.scratch);
        unless_refused(report.number)?;
        Ok(Crunched::of(report, &self.output))
    }

    /// The chain that is found for one run of a contour, the only run that is worked.
    ///
    /// Refused by 10 where there is no run of that number, and where it is one copied line.
    pub fn chain(&mut self, points: &[Point], run: usize) -> Result<Chain, Refusal> {
        self.take_contour(points);
        self.chain.resize(MOST_PIECES);
        let report = entries::chain(&self.contour, run, self.settings, &mut self.chain, &mut self.scratch);
        unless_refused(report.number)?;
        Ok(Chain {
            pieces: self.pieces_out(report.pieces),
            score: f64::from_bits(report.score_bits),
            pairs: report.pairs,
            segments: self.chain.spans[..report.pieces].iter().map(|&[first, last]| (first, last)).collect(),
            fallen: report.fallen,
        })
    }

    /// Whether a chain, whoever made it, is valid for one run of a contour and has the score that it says, at
    /// the cruncher's settings: a chain is checked at those that it was made with.
    ///
    /// Controls and score are compared as values: -0.0 equals 0.0, and a NaN equals a NaN. A chain with no
    /// piece is never accepted.
    pub fn check(&mut self, points: &[Point], run: usize, chain: &Chain) -> Result<bool, Refusal> {
        self.verdict(points, run, chain).map(|verdict| verdict.accepted)
    }

    /// What [`Cruncher::check`] says, and how many lookups fell past the samples as the chain was measured.
    pub fn verdict(&mut self, points: &[Point], run: usize, chain: &Chain) -> Result<Verdict, Refusal> {
        self.take_contour(points);
        self.take_chain(&chain.pieces);
        let report =
            entries::check(&self.contour, run, self.settings, &self.chain, chain.score, &mut self.scratch);
        unless_refused(report.number)?;
        Ok(Verdict { accepted: report.accepted != 0, fallen: report.fallen })
    }

    /// Why the segment of that index, counted from 0, starts at a corner: all reasons that hold. Where there is
    /// none, it does not. A contour has a segment for each on-curve point.
    ///
    /// Refused by 1 to 5, then by 11 where there is no segment of that index. No other refusal is given, since
    /// no run is worked.
    pub fn why(&mut self, points: &[Point], index: usize) -> Result<Reasons, Refusal> {
        self.take_contour(points);
        let report = entries::reasons::why(&self.contour, index);
        unless_refused(report.number)?;
        Ok(Reasons::of_bits(report.reasons))
    }

    pub(crate) fn take_contour(&mut self, points: &[Point]) {
        self.contour.take(points);
    }

    fn take_chain(&mut self, pieces: &[Piece]) {
        let rows = &mut self.chain;
        rows.clear();
        for piece in pieces {
            rows.starts.push(piece.start);
            rows.ends.push(piece.end);
            rows.xs.push(piece.control.0);
            rows.ys.push(piece.control.1);
        }
    }

    fn pieces_out(&self, count: usize) -> Vec<Piece> {
        let rows = &self.chain;
        (0..count)
            .map(|i| Piece { start: rows.starts[i], end: rows.ends[i], control: (rows.xs[i], rows.ys[i]) })
            .collect()
    }
}

impl fmt::Debug for Cruncher {
    // the rows hold nothing between calls that a reader could use
    fn fmt(&self, f: &mut fmt::Formatter<'_>) -> fmt::Result {
        f.debug_struct("Cruncher")
            .field("settings", &self.settings)
            .field("point_room", &self.output.points.len())
            .finish_non_exhaustive()
    }
}

pub(crate) fn unless_refused(number: u32) -> Result<(), Refusal> {
    match Refusal::from_number(number) {
        None => Ok(()),
        Some(refusal) => Err(refusal),
    }
}
