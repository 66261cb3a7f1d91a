//! Notes on standard error, of contours that are answered and yet are not what was meant: a stretch that is not
//! written, and a control that flattens its run. `--quiet` silences them. Outside the proofs: an answer is what it is.

use fontcrunch::outline::outside;
use fontcrunch::{drop_idle, Cruncher, Point};

use crate::corners::{is_corner, lines};
use crate::picture::svg::counted;

/// What is to be said of a contour that was crunched, of its points and what came of them.
pub fn of(cruncher: &mut Cruncher, before: &[Point], after: &[Point]) -> Vec<String> {
    [stretch(unwritten(cruncher, before, after)), idle(before)].into_iter().flatten().collect()
}

fn stretch(segments: usize) -> Option<String> {
    let (are, them) = if segments == 1 { ("is", "it") } else { ("are", "them") };
    let count = counted(segments, "segment");
    (segments > 0).then(|| format!("{count} outside the corners {are} not written; --closed keeps {them}"))
}

fn idle(before: &[Point]) -> Option<String> {
    let dropped = drop_idle(before).map_or(0, |idle| idle.dropped.len());
    let (stand, them) = if dropped == 1 { ("stands", "it") } else { ("stand", "them") };
    let (end, their) = if dropped == 1 { ("an end", "its") } else { ("ends", "their") };
    let count = counted(dropped, "control");
    (dropped > 0).then(|| {
        let runs = if dropped == 1 { "run" } else { "runs" };
        format!("{count} {stand} on {end} of {their} curve and may flatten {their} {runs}; --prepare drops {them}")
    })
}

/// How many segments of a contour are not written, since they lie outside the first and the last corner.
pub fn unwritten(cruncher: &mut Cruncher, before: &[Point], after: &[Point]) -> usize {
    if cruncher.settings().closed {
        return 0;
    }
    let lines = lines(before);
    let mut corner = |i: &usize| is_corner(cruncher, before, *i);
    let first = (0..lines.len()).find(&mut corner);
    let last = (0..lines.len()).rev().find(&mut corner);
    let segments = outside(first.zip(last), &lines).len();
    // what is left unchanged has the start at both ends; that the last corner stands on the start too is rare
    let may_be_unchanged = after.first() == before.first() && after.last() == before.first();
    if segments > 0 && may_be_unchanged && is_unchanged(cruncher, before, lines.len()) {
        return 0;
    }
    segments
}

/// Whether a run has no chain: then the whole contour is as it was.
fn is_unchanged(cruncher: &mut Cruncher, before: &[Point], segments: usize) -> bool {
    // a run that is one copied line is refused by 10, as one that is none; there are fewer than segments
    (0..segments).any(|k| cruncher.chain(before, k).is_ok_and(|chain| chain.pieces.is_empty()))
}

#[cfg(test)]
mod tests {
    use super::*;
    use fontcrunch::Settings;

    fn told(closed: bool, numbers: &[i16]) -> Vec<String> {
        let points: Vec<Point> =
            numbers.chunks(3).map(|p| Point { x: p[0], y: p[1], on_curve: p[2] == 1 }).collect();
        let mut cruncher = Cruncher::new(Settings::of_crate().with_closed(closed));
        let after = cruncher.crunch(&points).unwrap().points;
        of(&mut cruncher, &points, &after)
    }

    const ONE: &str = "1 segment outside the corners is not written; --closed keeps it";

    #[test]
    fn a_stretch_that_is_not_written() {
        let curve = [0, 0, 1, 100, 0, 1, 50, 100, 0];
        assert_eq!(told(false, &curve), [ONE]);
        assert_eq!(told(true, &curve), [""; 0]);
        // no corner, and one line that closes the contour
        assert_eq!(told(false, &[0, 0, 1, 10, 10, 0]), [ONE]);
        assert_eq!(told(false, &[0, 0, 1, 100, 0, 1, 0, 100, 1]), [""; 0]);
        assert_eq!(told(false, &[7, 9, 1]), [""; 0]);
    }

    #[test]
    fn an_unchanged_contour_is_whole() {
        let notes = told(false, &[5, 5, 1, 5, 5, 0, 5, 5, 1]);
        assert!(notes.iter().all(|note| !note.contains("not written")), "{notes:?}");
    }

    #[test]
    fn controls_on_ends_of_their_curves() {
        let one = [0, 0, 1, 0, 0, 0, 100, 0, 1, 300, 0, 0, 300, 200, 1, 0, 200, 1];
        let note = "1 control stands on an end of its curve and may flatten its run; --prepare drops it";
        assert_eq!(told(true, &one), [note]);
        let two = [0, 0, 1, 0, 0, 0, 100, 0, 1, 300, 200, 0, 300, 200, 1, 0, 200, 1];
        let note = "2 controls stand on ends of their curve and may flatten their runs; --prepare drops them";
        assert_eq!(told(true, &two), [note]);
    }
}
