//! Cleaning: which points go and why, that they can be put back, and that crunching needs fewer corners.

mod common;

use common::{as_recorded, letter, points, zigzag};
use fontcrunch::{clean, put_back, Dropped, Point, Refusal, Why};

/// Cleaned, and put back again.
fn cleaned(numbers: &[i16]) -> (Vec<Point>, Vec<(u32, Why)>) {
    let upload = points(numbers);
    let cleaned = clean(&upload).unwrap();
    assert_eq!(put_back(&cleaned.points, &cleaned.dropped).unwrap(), upload);
    assert_eq!(clean(&cleaned.points).unwrap().dropped, []);
    (cleaned.points, cleaned.dropped.iter().map(|drop| (drop.place, drop.why)).collect())
}

#[test]
fn each_reason() {
    let first = points(&[0, 0, 1]);
    assert_eq!(cleaned(&[0, 0, 1, 0, 0, 1]), (first.clone(), vec![(1, Why::Before)]));
    assert_eq!(cleaned(&[0, 0, 1, 0, 0, 0]), (first, vec![(1, Why::Both)]));
    assert_eq!(cleaned(&[0, 0, 1, 5, 0, 1, 0, 0, 1]), (points(&[0, 0, 1, 5, 0, 1]), vec![(2, Why::First)]));
    assert_eq!(cleaned(&[0, 0, 1, 5, 0, 0]), (points(&[0, 0, 1, 5, 0, 0]), vec![]));
}

#[test]
fn after_a_drop_all_is_looked_at_again() {
    let kept = points(&[0, 0, 1, 0, 1, 1]);
    assert_eq!(
        cleaned(&[0, 0, 1, 0, 1, 1, 0, 0, 1, 0, 0, 1]),
        (kept.clone(), vec![(3, Why::Before), (2, Why::First)])
    );
    assert_eq!(cleaned(&[0, 0, 1, 0, 1, 1, 0, 0, 1, 0, 0, 0]), (kept, vec![(3, Why::Both), (2, Why::First)]));
    // the point before is the one that is before it then
    assert_eq!(
        cleaned(&[0, 0, 1, 0, 0, 0, 0, 0, 1, 0, 0, 0]),
        (points(&[0, 0, 1]), vec![(1, Why::Both), (2, Why::Before), (3, Why::Both)])
    );
}

#[test]
fn most_points() {
    let still = vec![Point::on(7, 9); 1024];
    let cleaned = clean(&still).unwrap();
    assert_eq!((cleaned.points.len(), cleaned.dropped.len()), (1, 1023));
    assert_eq!(put_back(&cleaned.points, &cleaned.dropped).unwrap(), still);
    assert_eq!(clean(&zigzag(1024)).unwrap().points, zigzag(1024));
    assert_eq!(clean(&zigzag(1025)), Err(Refusal::TooManyPoints));
    let one_more = Dropped { place: 1, why: Why::Before };
    assert_eq!(put_back(&zigzag(1024), &[one_more]), Err(Refusal::TooManyPoints));
}

#[test]
fn refusals() {
    assert_eq!(clean(&[]), Err(Refusal::NoPoint));
    assert_eq!(clean(&points(&[0, 0, 0])), Err(Refusal::StartsOffCurve));
    assert_eq!(clean(&points(&[0, 0, 1, 1, 1, 0, 2, 2, 0])), Err(Refusal::OffCurveNeighbours));
    assert_eq!(put_back(&[], &[]), Err(Refusal::NoPoint));
}

#[test]
fn a_repeated_point_makes_no_corner_once_cleaned() {
    let mut cruncher = as_recorded();
    for contour in letter() {
        let doubled: Vec<Point> =
            contour.iter().flat_map(|&point| vec![point; if point.on_curve { 2 } else { 1 }]).collect();
        let cleaned = clean(&doubled).unwrap();
        assert_eq!(cleaned.points, clean(&contour).unwrap().points);
        assert_eq!(cruncher.crunch(&cleaned.points), cruncher.crunch(&clean(&contour).unwrap().points));
    }
}
