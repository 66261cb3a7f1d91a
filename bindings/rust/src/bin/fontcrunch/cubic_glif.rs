//! The option --cubic: contours of cubics in a file of GLIF are made quads, and one-point `move` contours, which anchors of
//! format 1 are, are set aside, so that the proved reader takes the file. What is read and written here is outside
//! the proofs; the quads are those of the library's entry.

use fontcrunch::{from_cubics, Point, Refusal};

use crate::look::outline::{self, ContourElement, PointKind};
use crate::look::{at_cubics, Seen};

/// A file with quads for its cubics, and without its anchors.
pub struct Quads {
    pub bytes: Vec<u8>,
    /// The number that each of its contours has in the file it came of.
    numbers: Vec<usize>,
    /// What stands for each anchor, and the anchor's own bytes.
    anchors: Vec<(String, Vec<u8>)>,
}

/// None where the file has neither cubics nor anchors, or where it is none for the second reader: then it goes to the
/// proved one as it stands.
pub fn quads(bytes: &[u8]) -> Result<Option<Quads>, (Refusal, Option<Seen>)> {
    let Ok(contours) = outline::contours(bytes) else {
        return Ok(None);
    };
    if !contours.iter().any(|contour| contour.is_anchor() || contour.has(PointKind::Curve)) {
        return Ok(None);
    }
    let mark = free_mark(bytes);
    let mut quads = Quads { bytes: Vec::new(), numbers: Vec::new(), anchors: Vec::new() };
    let mut from = 0;
    for (number, contour) in contours.iter().enumerate() {
        if contour.is_anchor() {
            let stands = format!("<!--{mark}{number}-->");
            quads.bytes.extend_from_slice(&bytes[from..contour.whole.start]);
            quads.bytes.extend_from_slice(stands.as_bytes());
            from = contour.whole.end;
            quads.anchors.push((stands, bytes[contour.whole.clone()].to_vec()));
            continue;
        }
        quads.numbers.push(number);
        let (Some(points), Some(inside)) = (cubics(contour), contour.inside.clone()) else {
            continue;
        };
        let made = from_cubics(&points)
            .map_err(|refusal| (refusal, Some(Seen::in_contour(number, at_cubics(&points, refusal)))))?;
        quads.bytes.extend_from_slice(&bytes[from..inside.start]);
        quads.bytes.extend_from_slice(text_of(&made).as_bytes());
        from = inside.end;
    }
    quads.bytes.extend_from_slice(&bytes[from..]);
    Ok(Some(quads))
}

/// A word that no text of the file has.
fn free_mark(bytes: &[u8]) -> String {
    let mut mark = "fontcrunch-anchor-".to_owned();
    while bytes.windows(mark.len()).any(|part| part == mark.as_bytes()) {
        mark.push_str("x-");
    }
    mark
}

/// The points of a contour of cubics, from its first on-curve one on; None where it is no such contour, or has a
/// coordinate that is not whole, or a curve with neither two off-curve points nor none.
fn cubics(contour: &ContourElement) -> Option<Vec<Point>> {
    if !contour.has(PointKind::Curve) || contour.has(PointKind::Qcurve) || contour.has(PointKind::Move) {
        return None;
    }
    let start = contour.points.iter().position(|point| point.kind != PointKind::Off)?;
    let (before, after) = contour.points.split_at(start);
    let within = |coordinate: Option<i64>| coordinate.and_then(|c| i16::try_from(c).ok());
    let points: Vec<Point> = after
        .iter()
        .chain(before)
        .map(|p| Some(Point { x: within(p.x)?, y: within(p.y)?, on_curve: p.kind != PointKind::Off }))
        .collect::<Option<_>>()?;
    let stretches = points.split(|point| point.on_curve);
    stretches.into_iter().all(|off| off.is_empty() || off.len() == 2).then_some(points)
}

/// As docs/GLIF.md, "What is written", has it.
fn text_of(points: &[Point]) -> String {
    let text = |i: usize| {
        let before = points[(i + points.len() - 1) % points.len()];
        let kind = match (points[i].on_curve, before.on_curve) {
            (false, _) => "",
            (true, true) => " type=\"line\"",
            (true, false) => " type=\"qcurve\"",
        };
        format!("<point x=\"{}\" y=\"{}\"{kind}/>", points[i].x, points[i].y)
    };
    (0..points.len()).map(text).collect()
}

impl Quads {
    /// With the contour's number in the file that it came of.
    pub fn numbered(&self, seen: Seen) -> Seen {
        let contour = seen.contour.and_then(|contour| self.numbers.get(contour).copied());
        Seen { contour, ..seen }
    }

    /// A file that was made of this one, with its anchors where they stood.
    pub fn with_anchors(&self, made: Vec<u8>) -> Vec<u8> {
        self.anchors.iter().fold(made, |made, (mark, anchor)| {
            let at = made.windows(mark.len()).position(|part| part == mark.as_bytes());
            match at {
                Some(at) => [&made[..at], anchor, &made[at + mark.len()..]].concat(),
                None => made,
            }
        })
    }
}

#[cfg(test)]
mod tests {
    use super::*;

    const ANCHOR: &str = "<contour>\n<point x='5' y='7' type='move' name='top'/>\n</contour>";

    fn file(inside: &str) -> Vec<u8> {
        format!("<glyph name='a'><outline>{inside}</outline></glyph>").into_bytes()
    }

    #[test]
    fn what_has_no_cubics_goes_as_it_stands() {
        for inside in
            ["", "<contour><point x='0' y='0' type='line'/></contour>", "<contour><point x='0'/></contour>"]
        {
            assert!(quads(&file(inside)).unwrap().is_none(), "{inside}");
        }
    }

    #[test]
    fn anchors_come_back_byte_for_byte() {
        let line = "<contour><point x='0' y='0' type='line'/></contour>";
        let given = file(&format!("{ANCHOR}{line}<!--fontcrunch-anchor-0-->{ANCHOR}{line}"));
        let made = quads(&given).unwrap().unwrap();
        assert_eq!(fontcrunch::glif::read(&made.bytes).unwrap().len(), 2);
        assert_eq!(made.numbers, [1, 3]);
        assert_eq!(made.with_anchors(made.bytes.clone()), given);
    }

    #[test]
    fn cubics_are_those_of_the_entry() {
        let cubic =
            "<contour><point x='0' y='50'/><point x='0' y='100' type='curve'/><point x='50' y='100'/>\
             <point x='100.0' y='50'/><point x='100' y='0' type='curve'/><point x='0' y='0'/></contour>";
        let made = quads(&file(cubic)).unwrap().unwrap();
        let points = [
            Point::on(0, 100),
            Point::off(50, 100),
            Point::off(100, 50),
            Point::on(100, 0),
            Point::off(0, 0),
            Point::off(0, 50),
        ];
        assert_eq!(fontcrunch::glif::read(&made.bytes).unwrap(), [from_cubics(&points).unwrap()]);
    }

    #[test]
    fn what_is_not_taken_is_left_for_the_proved_reader_to_refuse() {
        for inside in [
            "<contour><point x='0' y='0' type='curve'/><point x='1' y='1'/></contour>",
            "<contour><point x='0.5' y='0' type='curve'/></contour>",
            "<contour><point x='0' y='0' type='curve'/><point x='1' y='1'/><point x='0' y='0' type='qcurve'/></contour>",
            "<contour><point x='0' y='0' type='move'/><point x='1' y='1' type='line'/></contour><contour><point x='0' y='0' type='curve'/></contour>",
        ] {
            let made = quads(&file(inside)).unwrap().unwrap();
            assert_eq!(fontcrunch::glif::read(&made.bytes), Err(Refusal::CubicOrOpen), "{inside}");
        }
    }
}
