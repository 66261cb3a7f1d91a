//! A second look after a refusal: where it was met, and what can be done. The refusal is the library's. What is told
//! here is worked out beside it, by code outside the proofs, and where nothing is found nothing is told.

pub mod outline;
pub mod xml;

use std::ops::Range;

use fontcrunch::outline::{runs, Outline, Place};
use fontcrunch::{glif, glyph, prepared, Cruncher, Point, Refusal, MOST_POINTS_IN};

use crate::corners::{is_corner, lines};
use crate::picture::svg::{counted, grouped};
use outline::{ContourElement, PointKind};
use xml::line_and_column;

/// What is seen, and where: at a line and a column of a file, or in a contour of it.
#[derive(Clone, Debug, Default, PartialEq, Eq)]
pub struct Seen {
    pub at: Option<(usize, usize)>,
    pub contour: Option<usize>,
    pub what: String,
}

impl Seen {
    pub fn in_contour(contour: usize, what: Option<String>) -> Seen {
        Seen { at: None, contour: Some(contour), what: what.unwrap_or_default() }
    }

    /// With its contour, where it is in one.
    pub fn words(&self) -> String {
        match self.contour {
            Some(contour) if self.what.is_empty() => format!("contour {contour}"),
            Some(contour) => format!("contour {contour}, {}", self.what),
            None => self.what.clone(),
        }
    }

    /// A message of a file.
    pub fn of_file(&self, name: &str) -> String {
        match self.at {
            Some((line, column)) => format!("{name}:{line}:{column}: {}", self.words()),
            None => format!("{name}: {}", self.words()),
        }
    }

    /// A message of a file that is named elsewhere.
    pub fn of_line(&self) -> String {
        match self.at {
            Some((line, column)) => format!("line {line}, column {column}: {}", self.words()),
            None => self.words(),
        }
    }
}

/// What the words that chose how to crunch have to do with a refusal.
#[derive(Clone, Copy, Debug, Default)]
pub struct Hints {
    /// --prepare would help against 4 and 5.
    pub may_prepare: bool,
    /// --cubic would help against cubic points.
    pub may_cubic: bool,
    /// Off-curve points stand in pairs.
    pub cubics: bool,
    /// The one run that is worked, where it is one.
    pub run: Option<usize>,
}

/// Why a contour is refused.
pub fn at_contour(
    cruncher: &mut Cruncher,
    points: &[Point],
    refusal: Refusal,
    hints: Hints,
) -> Option<String> {
    match refusal {
        Refusal::TooManyPoints => {
            Some(format!("{}, and {} is the most", counted(points.len(), "point"), grouped(MOST_POINTS_IN)))
                .filter(|_| points.len() > MOST_POINTS_IN)
        }
        Refusal::StartsOffCurve => {
            let way = "; --prepare starts at the first on-curve one";
            Some(format!("point 0 is off-curve{}", if hints.may_prepare { way } else { "" }))
        }
        Refusal::OffCurveNeighbours => stretch(points, hints),
        Refusal::TooManySamples | Refusal::TooManyBreaks | Refusal::PastLastSample => {
            at_run(cruncher, points, refusal, hints)
        }
        _ => None,
    }
}

/// Why a contour of cubics is refused.
pub fn at_cubics(points: &[Point], refusal: Refusal) -> Option<String> {
    match refusal {
        Refusal::OffCurveNeighbours => stretch(points, Hints { cubics: true, ..Hints::default() }),
        Refusal::TooManyPoints => {
            Some(format!("its quads have more than {} points", grouped(MOST_POINTS_IN)))
        }
        _ => None,
    }
}

/// The first stretch of off-curve points that may not be.
fn stretch(points: &[Point], hints: Hints) -> Option<String> {
    let mut from = 0;
    while from < points.len() {
        let length = points[from..].iter().take_while(|point| !point.on_curve).count();
        if hints.cubics && length != 0 && length != 2 {
            let (last, count) = (from + length - 1, counted(length, "off-curve point"));
            return Some(format!("points {from} to {last}: {count}, where cubics have two"));
        }
        if !hints.cubics && length >= 2 {
            let way = "; --prepare writes out the point between them";
            let way = if hints.may_prepare { way } else { "" };
            return Some(format!("points {from} and {}: both off-curve{way}", from + 1));
        }
        from += length.max(1);
    }
    None
}

/// The run for which a contour is refused, with its length.
fn at_run(cruncher: &mut Cruncher, points: &[Point], refusal: Refusal, hints: Hints) -> Option<String> {
    let lines = lines(points);
    let corners: Vec<usize> = (0..lines.len()).filter(|&i| is_corner(cruncher, points, i)).collect();
    let settings = cruncher.settings();
    let runs = runs(&corners, lines.len(), settings.closed);
    let refuses = |k: &usize| cruncher.chain(points, *k) == Err(refusal);
    let run = hints.run.or_else(|| (0..runs.len()).find(refuses))?;
    let units = length(points, runs.get(run)?.clone());
    let told = format!("run {run}: {} units", grouped(units.round() as usize));
    Some(match refusal {
        Refusal::TooManyBreaks if settings.whole_units => {
            format!("{told} on whole units; a corner or a shorter curve on the way would part it")
        }
        // a place in each direction is a break of its own, so that this is near the bound and not the bound
        Refusal::TooManyBreaks if units > 2048.0 => {
            format!("{told} on half units, and --whole-units takes some 2,048")
        }
        Refusal::TooManyBreaks => format!("{told} on half units; --whole-units takes twice that"),
        Refusal::TooManySamples => format!("{told}, and 16,384 samples, one a unit, are the most"),
        _ => told,
    })
}

/// The length of some segments, going round, by a hundred chords each.
fn length(points: &[Point], segments: Range<usize>) -> f64 {
    let outline = Outline::of(points);
    let count = outline.curves.len();
    let one = |i: usize| {
        let (from, curve) = (outline.nodes[i % count].place, outline.curves[i % count]);
        let between =
            |a: Place, b: Place, t: f64| Place { x: a.x + t * (b.x - a.x), y: a.y + t * (b.y - a.y) };
        let at = |t: f64| match curve.control {
            None => between(from, curve.end, t),
            Some(control) => between(between(from, control, t), between(control, curve.end, t), t),
        };
        (0..100)
            .map(|k| (at(f64::from(k) / 100.0), at(f64::from(k + 1) / 100.0)))
            .map(|(a, b)| (b.x - a.x).hypot(b.y - a.y))
            .sum::<f64>()
    };
    segments.map(one).sum()
}

/// Why a file of GLIF is refused.
pub fn at_glif(
    cruncher: &mut Cruncher,
    bytes: &[u8],
    refusal: Refusal,
    prepare: bool,
    hints: Hints,
) -> Option<Seen> {
    let contours = match outline::contours(bytes) {
        Ok(contours) => contours,
        Err(fault) if refusal == Refusal::Malformed => {
            let at = Some(line_and_column(bytes, fault.at));
            return Some(Seen { at, contour: None, what: fault.what });
        }
        Err(_) => return None,
    };
    match refusal {
        Refusal::CubicOrOpen => at_point(&contours, |c, p| cubic_or_open(c, p, hints)),
        Refusal::TooLarge => at_point(&contours, outside_16_bits),
        Refusal::NoOnCurve => {
            let empty = |c: &ContourElement| c.points.iter().all(|point| point.kind == PointKind::Off);
            let at = contours.iter().position(empty)?;
            Some(Seen::in_contour(at, Some("no on-curve point".to_owned())))
        }
        _ => at_read_contour(cruncher, &glif::read(bytes).ok()?, refusal, prepare, hints),
    }
}

/// The first point for which there is something to tell.
fn at_point(
    contours: &[ContourElement],
    told: impl Fn(&ContourElement, usize) -> Option<String>,
) -> Option<Seen> {
    let points = contours.iter().enumerate().flat_map(|(k, c)| (0..c.points.len()).map(move |i| (k, c, i)));
    let mut found = points.filter_map(|(k, c, i)| told(c, i).map(|what| (k, format!("point {i}: {what}"))));
    found.next().map(|(k, what)| Seen::in_contour(k, Some(what)))
}

fn cubic_or_open(contour: &ContourElement, at: usize, hints: Hints) -> Option<String> {
    let point = &contour.points[at];
    let way = if hints.may_cubic { "; try --cubic" } else { "" };
    match point.kind {
        PointKind::Move if contour.points.len() == 1 => {
            Some(format!("a move alone, an anchor of format 1{way}"))
        }
        PointKind::Move => Some("a move: the contour is open".to_owned()),
        PointKind::Curve if contour.has(PointKind::Qcurve) => {
            Some("cubic and quadratic curves stand in one contour".to_owned())
        }
        PointKind::Curve if hints.may_cubic => Some(format!("cubic{way}")),
        _ if point.x.is_none() || point.y.is_none() => Some("a coordinate is not whole".to_owned()),
        PointKind::Curve => stands_after(contour, at).or_else(|| outside_16_bits(contour, at)),
        PointKind::Off if contour.has(PointKind::Curve) => outside_16_bits(contour, at),
        _ => None,
    }
}

/// How many off-curve points a curve has, where that is not what --cubic takes.
fn stands_after(contour: &ContourElement, at: usize) -> Option<String> {
    let count = contour.points.len();
    let off = |back: &usize| contour.points[(at + count - back) % count].kind == PointKind::Off;
    let number = (1..count).take_while(off).count();
    let after = format!("cubic, after {}, where cubics have two", counted(number, "off-curve point"));
    Some(after).filter(|_| number != 0 && number != 2)
}

fn outside_16_bits(contour: &ContourElement, at: usize) -> Option<String> {
    let point = &contour.points[at];
    let outside = |c: Option<i64>| c.filter(|n| i16::try_from(*n).is_err());
    outside(point.x).or(outside(point.y)).map(|n| format!("{n} is outside -32768 and 32767"))
}

/// Why a glyph description is refused by one of its contours.
pub fn at_glyph(
    cruncher: &mut Cruncher,
    bytes: &[u8],
    refusal: Refusal,
    prepare: bool,
    explicit: bool,
    hints: Hints,
) -> Option<Seen> {
    let glyph = glyph::read(bytes).ok()?;
    let contours = glyph.contours().map(|points| match (explicit, fontcrunch::explicit(points)) {
        (true, Ok(made)) => made,
        _ => points.to_vec(),
    });
    at_read_contour(cruncher, &contours.collect::<Vec<_>>(), refusal, prepare, hints)
}

/// The first contour that is refused.
fn at_read_contour(
    cruncher: &mut Cruncher,
    contours: &[Vec<Point>],
    refusal: Refusal,
    prepare: bool,
    hints: Hints,
) -> Option<Seen> {
    for (k, points) in contours.iter().enumerate() {
        let ready = if prepare { prepared(points) } else { Ok(points.clone()) };
        let (looked_at, result) = match ready {
            Err(refused) => (points.clone(), Err(refused)),
            Ok(ready) => {
                let result = cruncher.crunch(&ready).map(|_| ());
                (ready, result)
            }
        };
        if result == Err(refusal) {
            return Some(Seen::in_contour(k, at_contour(cruncher, &looked_at, refusal, hints)));
        }
    }
    None
}

/// The points of a file as they stand in it; None where this reader does not read it.
pub fn points_in(bytes: &[u8]) -> Option<usize> {
    outline::contours(bytes).ok().map(|contours| contours.iter().map(|c| c.points.len()).sum())
}

#[cfg(test)]
mod tests;
