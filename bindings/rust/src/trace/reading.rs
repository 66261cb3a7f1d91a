//! A contour traced: the entries asked in turn, and the rest worked out beside them.
//!
//! The result's points are the start, then one curve for each piece of each run, since a piece is written as its
//! control and its end, and an end is dropped only where it is implied. A copied line counts as a piece. In the crate's
//! mode the result is in reverse order, so that pieces are counted from its end; in closed mode the start stands for
//! the end of the last piece.

use std::ops::Range;

use crate::cruncher::{Chain, Crunched, Cruncher, Point};
use crate::outline::{self, Outline, Place};
use crate::refusal::Refusal;
use crate::rows::{BREAK_ROOM, SAMPLE_ROOM};
use crate::settings::Settings;

use super::distance::farthest;
use super::sampling::{lengths, lerp, Break, Quad, Samples};
use super::{hint, Bend, Beside, Came, Extent, Piece, Run, Segment, Share, Trace, Worked, Written};

pub(super) fn trace(cruncher: &mut Cruncher, points: &[Point]) -> Trace {
    let settings = cruncher.settings();
    let result = cruncher.crunch(points);
    let segments = segments(cruncher, points);
    let worked = !segments.is_empty() && result != Err(Refusal::NoSuchPenalty);
    let runs = if worked { runs(cruncher, points, &segments) } else { vec![] };
    let mut trace =
        Trace { settings, points: points.to_vec(), result, segments, runs, beside: Beside::default() };
    trace.beside.unchanged = unchanged(&trace);
    trace.beside.lost = lost(&trace);
    trace.beside.hint = hint::of(&trace);
    write(&mut trace);
    trace
}

// ---- segments

/// Each with its reasons. None where the contour is refused by 1 to 5, by which `why` refuses every index.
fn segments(cruncher: &mut Cruncher, points: &[Point]) -> Vec<Segment> {
    let outline = Outline::of(points);
    let mut segments: Vec<Segment> = vec![];
    while let Ok(why) = cruncher.why(points, segments.len()) {
        let i = segments.len();
        let curve = outline.curves[i];
        let start = outline.nodes[i].place;
        segments.push(Segment { start, control: curve.control, end: curve.end, why, beside: None });
    }
    for i in 0..segments.len() {
        segments[i].beside = bend(&segments[(i + segments.len() - 1) % segments.len()], &segments[i]);
    }
    segments
}

/// As `segment_sp` compares tangents.
fn bend(before: &Segment, after: &Segment) -> Option<Bend> {
    let from = before.control.unwrap_or(before.start);
    let to = after.control.unwrap_or(after.end);
    let (dx0, dy0) = (before.end.x - from.x, before.end.y - from.y);
    let (dx1, dy1) = (to.x - after.start.x, to.y - after.start.y);
    if (dx0 == 0.0 && dy0 == 0.0) || (dx1 == 0.0 && dy1 == 0.0) {
        return None;
    }
    let cross = dx1 * dy0 - dx0 * dy1;
    // whole numbers, so that both sums of squares are exact
    let sizes = (dx0 * dx0 + dy0 * dy0).sqrt() * (dx1 * dx1 + dy1 * dy1).sqrt();
    let degrees = cross.abs().atan2(dx0 * dx1 + dy0 * dy1).to_degrees();
    Some(Bend { sine: (cross / sizes).abs(), degrees })
}

fn as_quad(segment: &Segment) -> Quad {
    let Segment { start, control, end, .. } = *segment;
    Quad { start, control: control.unwrap_or(lerp(start, end, 0.5)), end }
}

// ---- runs

fn runs(cruncher: &mut Cruncher, points: &[Point], segments: &[Segment]) -> Vec<Run> {
    let corners: Vec<usize> = (0..segments.len()).filter(|&i| segments[i].why.is_corner()).collect();
    let spans = outline::runs(&corners, segments.len(), cruncher.settings().closed);
    let mut reached = true;
    let mut runs = vec![];
    for (k, span) in spans.into_iter().enumerate() {
        let mut run = run(cruncher, points, segments, k, span);
        run.reached = reached;
        reached &= matches!(run.came, Came::Copied | Came::Found(_));
        runs.push(run);
    }
    runs
}

fn run(cruncher: &mut Cruncher, points: &[Point], all: &[Segment], k: usize, segments: Range<usize>) -> Run {
    let own: Vec<&Segment> = segments.clone().map(|i| &all[i % all.len()]).collect();
    if let [Segment { control: None, .. }] = own[..] {
        return copied(own[0], segments);
    }
    let quads: Vec<Quad> = own.into_iter().map(as_quad).collect();
    let sampled = Sampled::of(&quads, cruncher.settings());
    let (came, pieces) = match cruncher.chain(points, k) {
        Err(refusal) => (Came::Refused(refusal), vec![]),
        Ok(chain) => {
            let pieces = pieces(&chain, &sampled, all, cruncher.settings());
            (came(cruncher, points, k, &chain), pieces)
        }
    };
    Run { segments, reached: true, came, pieces, beside: sampled.extent }
}

fn copied(line: &Segment, segments: Range<usize>) -> Run {
    let share = Share {
        start: line.start,
        end: line.end,
        straight: true,
        penalties: 0,
        measure: 0.0,
        share: 0.0,
        farthest: Some((0.0, line.start)),
    };
    let at = segments.start;
    let piece = Piece { piece: None, segments: (at, at), written: None, beside: Some(share) };
    let (x, y) = (line.end.x - line.start.x, line.end.y - line.start.y);
    let length = (x * x + y * y).sqrt();
    let beside = Extent { length, ..Extent::default() };
    Run { segments, reached: true, came: Came::Copied, pieces: vec![piece], beside }
}

/// Where no attempt fell, none did of the chain, whose pieces are some of them.
fn came(cruncher: &mut Cruncher, points: &[Point], k: usize, chain: &Chain) -> Came {
    let none = chain.pieces.is_empty();
    let judged = chain.fallen > 0 && !none;
    let found_fallen =
        if judged { cruncher.verdict(points, k, chain).map_or(0, |said| said.fallen) } else { 0 };
    let worked = Worked { score: chain.score, pairs: chain.pairs, fallen: chain.fallen, found_fallen };
    if none {
        Came::Unchanged(worked)
    } else {
        Came::Found(worked)
    }
}

/// A run's samples and breaks, where it has room for the samples.
struct Sampled {
    extent: Extent,
    samples: Option<Samples>,
    breaks: Vec<Break>,
}

impl Sampled {
    fn of(quads: &[Quad], settings: Settings) -> Sampled {
        let length = lengths(quads).last().copied().unwrap_or(0.0);
        let needed = (length + 2.0) as usize + 1;
        let mut extent = Extent { length, samples: needed, ..Extent::default() };
        if needed > SAMPLE_ROOM {
            return Sampled { extent, samples: None, breaks: vec![] };
        }
        let samples = Samples::of(quads);
        let breaks = samples.breaks(settings.whole_units).unwrap_or_default();
        extent.samples = samples.count();
        extent.breaks = Some(breaks.len());
        if breaks.len() > BREAK_ROOM && !settings.whole_units {
            extent.on_whole_units = samples.breaks(true).map(|breaks| breaks.len());
        }
        Sampled { extent, samples: Some(samples), breaks }
    }
}

// ---- pieces

fn pieces(chain: &Chain, sampled: &Sampled, all: &[Segment], settings: Settings) -> Vec<Piece> {
    let shares = shares(chain, sampled, all, settings);
    let piece = |(i, (&piece, &(first, last))): (usize, (_, &(u32, u32)))| Piece {
        piece: Some(piece),
        segments: (first as usize, last as usize),
        written: None,
        beside: shares.as_ref().map(|shares| shares[i]),
    };
    chain.pieces.iter().zip(&chain.segments).enumerate().map(piece).collect()
}

/// None unless the breaks are as many as the chain says, and the shares make its score to the bit.
fn shares(chain: &Chain, sampled: &Sampled, all: &[Segment], settings: Settings) -> Option<Vec<Share>> {
    let samples = sampled.samples.as_ref()?;
    if chain.pieces.last()?.end as usize + 1 != sampled.breaks.len() {
        return None;
    }
    let penalty = f64::from(settings.penalty) / 16.0;
    let (mut score, mut shares) = (0.0, vec![]);
    let mut before: Option<Quad> = None;
    for (piece, &(first, last)) in chain.pieces.iter().zip(&chain.segments) {
        let from = sampled.breaks.get(piece.start as usize)?;
        let to = sampled.breaks.get(piece.end as usize)?;
        let control = Place { x: piece.control.0, y: piece.control.1 };
        let quad = Quad { start: from.place, control, end: to.place };
        let smooth = quad.is_line() || before.is_some_and(|before| before.joins(&quad));
        let penalties = if smooth { 1 } else { 2 };
        let measure = samples.measure(from.along, to.along, &quad)?;
        let paid = penalty * f64::from(penalties);
        score = (score + paid) + measure;
        shares.push(Share {
            start: quad.start,
            end: quad.end,
            straight: quad.is_line(),
            penalties,
            measure,
            share: paid + measure,
            farthest: farthest(&quad, &replaced(all, first as usize, last as usize)),
        });
        before = Some(quad);
    }
    let same = score == chain.score || (score.is_nan() && chain.score.is_nan());
    same.then_some(shares)
}

/// The segments from the first to the last, going round.
fn replaced(all: &[Segment], first: usize, last: usize) -> Vec<Quad> {
    let last = if last < first { last + all.len() } else { last };
    (first..=last).map(|i| as_quad(&all[i % all.len()])).collect()
}

// ---- the contour

fn unchanged(trace: &Trace) -> Option<&'static str> {
    if trace.result.is_err() {
        None
    } else if trace.runs.iter().any(|run| matches!(run.came, Came::Unchanged(_))) {
        Some("no chain was found for a run")
    } else if trace.settings.closed && trace.corners().next().is_none() {
        Some("there is no corner")
    } else {
        None
    }
}

/// In closed mode nothing is.
fn lost(trace: &Trace) -> Vec<usize> {
    if trace.settings.closed || trace.result.is_err() || trace.beside.unchanged.is_some() {
        return vec![];
    }
    let corners: Vec<usize> = trace.corners().map(|(i, _)| i).collect();
    let lines: Vec<bool> = trace.segments.iter().map(|segment| segment.control.is_none()).collect();
    outline::outside(corners.first().copied().zip(corners.last().copied()), &lines)
}

/// Gives each piece the curve of the result that it is written as.
fn write(trace: &mut Trace) {
    let Ok(Crunched { points, .. }) = &trace.result else {
        return;
    };
    if trace.beside.unchanged.is_some() {
        return;
    }
    let outline = Outline::of(points);
    let count = trace.pieces().count();
    let closed = trace.settings.closed;
    // the start, and an end for each piece; in closed mode the start again for the last
    if outline.nodes.len() != count + usize::from(!closed) {
        return;
    }
    let written = |i: usize| {
        // in the crate's mode the curves lead the other way
        let curve = if closed { i } else { count - 1 - i };
        let (a, b) = (outline.nodes[curve].place, outline.curves[curve].end);
        let (start, end) = if closed { (a, b) } else { (b, a) };
        Written { start, control: outline.curves[curve].control, end }
    };
    let pieces = trace.runs.iter_mut().flat_map(|run| &mut run.pieces);
    pieces.enumerate().for_each(|(i, piece)| piece.written = Some(written(i)));
}
