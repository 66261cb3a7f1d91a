//! Every refusal that can be met with points, by each function, and their order.

mod common;

use common::{as_recorded, hill, points, still, zigzag};
use fontcrunch::{Chain, Cruncher, Piece, Point, Refusal, Settings};

/// What each function says of a contour and its run 0.
fn assert_refused(contour: &[Point], refusal: Refusal) {
    let mut cruncher = as_recorded();
    assert_eq!(cruncher.crunch(contour), Err(refusal));
    assert_eq!(cruncher.chain(contour, 0), Err(refusal));
    assert_eq!(cruncher.check(contour, 0, &some_chain()), Err(refusal));
}

fn some_chain() -> Chain {
    let pieces = vec![Piece { start: 0, end: 1, control: (0.0, 0.0) }];
    Chain::new(pieces, 1.0)
}

#[test]
fn no_point() {
    assert_refused(&[], Refusal::NoPoint);
}

#[test]
fn too_many_points() {
    assert_refused(&zigzag(1025), Refusal::TooManyPoints);
    assert_refused(&vec![Point::off(0, 0); 5000], Refusal::TooManyPoints);
}

#[test]
fn starts_off_curve() {
    assert_refused(&points(&[0, 0, 0]), Refusal::StartsOffCurve);
    assert_refused(&points(&[0, 0, 0, 1, 1, 0, 2, 2, 0]), Refusal::StartsOffCurve);
}

#[test]
fn off_curve_neighbours() {
    assert_refused(&points(&[0, 0, 1, 1, 1, 0, 2, 2, 0]), Refusal::OffCurveNeighbours);
}

#[test]
fn too_many_samples() {
    assert_refused(&points(&[0, 0, 1, 32767, 0, 0, 32767, 32767, 1]), Refusal::TooManySamples);
    assert_refused(&points(&[0, 0, 1, 8190, 0, 0, 16383, 0, 1, 0, 500, 1]), Refusal::TooManySamples);
}

#[test]
fn too_many_breaks() {
    assert_refused(&points(&[0, 0, 1, 700, 0, 0, 700, 700, 1]), Refusal::TooManyBreaks);
    assert_refused(&points(&[0, 0, 1, 500, 0, 0, 1022, 3, 1, -3000, 500, 1]), Refusal::TooManyBreaks);
    // 16,384 samples fit
    assert_refused(&points(&[0, 0, 1, 8190, 0, 0, 16382, 0, 1, 0, 500, 1]), Refusal::TooManyBreaks);
}

#[test]
fn the_first_run_that_is_refused_counts() {
    let contour = points(&[0, 0, 1, 700, 0, 0, 700, 700, 1, 32767, 700, 0, 32767, -32768, 1, 0, 0, 1]);
    let mut cruncher = as_recorded();
    assert_eq!(cruncher.crunch(&contour), Err(Refusal::TooManyBreaks));
    // by itself each run has its own refusal
    assert_eq!(cruncher.chain(&contour, 0), Err(Refusal::TooManyBreaks));
    assert_eq!(cruncher.chain(&contour, 1), Err(Refusal::TooManySamples));
    assert_eq!(cruncher.chain(&contour, 2), Err(Refusal::NoSuchRun));
}

#[test]
fn past_the_last_sample() {
    let contour = points(&[0, 0, 1, 432, 433, 0, 410, 410, 1, -300, 900, 1]);
    let mut cruncher = as_recorded();
    assert_eq!(cruncher.crunch(&contour), Err(Refusal::PastLastSample));
    assert_eq!(cruncher.chain(&contour, 0), Err(Refusal::PastLastSample));
    // the checker measures only what has a good shape
    assert_eq!(cruncher.check(&contour, 0, &some_chain()), Ok(false));
}

fn with_room(points: usize) -> Cruncher {
    Cruncher::with_point_room(Settings::of_crate(), points)
}

#[test]
fn more_points_than_room() {
    // the result has 5 points; the sixth is implied, and counts
    assert_eq!(with_room(5).crunch(&hill()), Err(Refusal::OutputTooShort));
    assert_eq!(with_room(0).crunch(&hill()), Err(Refusal::OutputTooShort));
    assert_eq!(with_room(6).crunch(&hill()).unwrap().points.len(), 5);
    // an unchanged contour needs room for its closing segment
    assert_eq!(with_room(3).crunch(&still()), Err(Refusal::OutputTooShort));
    assert_eq!(with_room(4).crunch(&still()).unwrap().points.len(), 4);
    // chains have their own room
    assert_eq!(with_room(0).chain(&hill(), 0).unwrap().pieces.len(), 2);
}

#[test]
fn no_such_run() {
    let mut cruncher = as_recorded();
    for run in [1, 2, 7, usize::MAX] {
        assert_eq!(cruncher.chain(&hill(), run), Err(Refusal::NoSuchRun));
        assert_eq!(cruncher.check(&hill(), run, &some_chain()), Err(Refusal::NoSuchRun));
    }
    assert_eq!(cruncher.chain(&points(&[7, 9, 1]), 0), Err(Refusal::NoSuchRun));
    assert_eq!(cruncher.chain(&[], 7), Err(Refusal::NoPoint));
}

#[test]
fn a_refusal_is_an_error_with_words() {
    let error: Box<dyn std::error::Error> = Box::new(as_recorded().crunch(&[]).unwrap_err());
    assert_eq!(error.to_string(), "refused 2: the contour has no point");
}
