//! The tool why: the answer to a contour, and to one segment of it.

use fontcrunch::{Cruncher, Point, Reasons, Refusal};

/// Every segment with its reasons.
pub fn why_all(cruncher: &mut Cruncher, points: &[Point]) -> Result<String, Refusal> {
    let mut told = String::new();
    let mut index = 0;
    loop {
        match cruncher.why(points, index) {
            Ok(reasons) => told.push_str(&format!(" {index}:{reasons}")),
            Err(Refusal::NoSuchSegment) => return Ok(format!("ok {index}{told}")),
            Err(refusal) => return Err(refusal),
        }
        index += 1;
    }
}

/// A line for each segment, with its place, its reasons in words and its bend.
pub fn why_all_in_words(cruncher: &mut Cruncher, points: &[Point]) -> Result<String, Refusal> {
    let mut told = String::new();
    let mut index = 0;
    loop {
        match cruncher.why(points, index) {
            Ok(reasons) => told.push_str(&format!("\n{}", in_words(points, index, reasons))),
            Err(Refusal::NoSuchSegment) => return Ok(format!("ok {index}{told}")),
            Err(refusal) => return Err(refusal),
        }
        index += 1;
    }
}

pub fn why_at_in_words(cruncher: &mut Cruncher, points: &[Point], index: usize) -> Result<String, Refusal> {
    let reasons = cruncher.why(points, index)?;
    Ok(format!("ok {}", in_words(points, index, reasons)))
}

/// The bend whose sine is 0.02. A half turn bends by nothing for the test, so that it has a limit there too.
const LIMIT: f64 = 0.02;

/// The place and the bend are worked out here, beside the reasons, which are the library's.
fn in_words(points: &[Point], index: usize, reasons: Reasons) -> String {
    let starts: Vec<usize> = (0..points.len()).filter(|&i| points[i].on_curve).collect();
    let at = starts[index];
    let point = points[at];
    let names = [
        (reasons.x, "a sign turn in x"),
        (reasons.y, "a sign turn in y"),
        (reasons.before, "a zero tangent before"),
        (reasons.after, "a zero tangent after"),
        (reasons.angle, "an angle"),
    ];
    let held: Vec<&str> = names.iter().filter(|(holds, _)| *holds).map(|(_, name)| *name).collect();
    let held = if held.is_empty() { "no corner".to_owned() } else { format!("corner: {}", held.join(", ")) };
    format!("{index} at {} {}: {held}; {}", point.x, point.y, bend(points, at))
}

/// The turn from the tangent before a point to the one after it, beside its limits, in degrees.
fn bend(points: &[Point], at: usize) -> String {
    let step =
        |from: Point, to: Point| (f64::from(to.x) - f64::from(from.x), f64::from(to.y) - f64::from(from.y));
    let count = points.len();
    let (x0, y0) = step(points[(at + count - 1) % count], points[at]);
    let (x1, y1) = step(points[at], points[(at + 1) % count]);
    if (x0, y0) == (0.0, 0.0) || (x1, y1) == (0.0, 0.0) {
        return "no bend, since a tangent is zero".to_owned();
    }
    let turn = (x0 * y1 - y0 * x1).abs().atan2(x0 * x1 + y0 * y1).to_degrees();
    let limit = LIMIT.asin().to_degrees();
    format!("bend {turn:.2} degrees, an angle from {limit:.2} to {:.2}", 180.0 - limit)
}

pub fn why_at(cruncher: &mut Cruncher, points: &[Point], index: usize) -> Result<String, Refusal> {
    let reasons = cruncher.why(points, index)?;
    Ok(if reasons.is_corner() { format!("ok {reasons}") } else { "ok none".to_owned() })
}
