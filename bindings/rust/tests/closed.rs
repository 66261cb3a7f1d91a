//! Closed mode: document 02's cases, the runs that go round, and that no chain of one mode is another's.

mod common;

use common::{as_recorded, hill, letter, points};
use fontcrunch::{Cruncher, Refusal, Settings};

fn closed() -> Cruncher {
    Cruncher::new(Settings::of_crate().with_closed(true))
}

fn assert_crunches(contour: &[i16], pairs: usize, out: &[i16]) {
    let crunched = closed().crunch(&points(contour)).unwrap();
    assert_eq!((crunched.points, crunched.pairs), (points(out), pairs), "{contour:?}");
}

#[test]
fn the_table() {
    assert_crunches(&[7, 9, 1], 0, &[7, 9, 1]);
    assert_crunches(&[0, 0, 1, 100, 0, 1, 0, 100, 1], 0, &[0, 0, 1, 100, 0, 1, 0, 100, 1]);
    // in the crate's mode the curve is lost
    assert_crunches(&[0, 0, 1, 100, 0, 1, 50, 100, 0], 1, &[0, 0, 1, 100, 0, 1, 50, 100, 0]);
    assert_crunches(&[5, 5, 1, 5, 5, 0, 5, 5, 1], 1, &[5, 5, 1, 5, 5, 0, 5, 5, 1]);
}

#[test]
fn a_contour_starts_at_its_first_corner() {
    assert_crunches(
        &[50, 0, 1, 100, 0, 1, 100, 60, 1, 0, 60, 1, 0, 0, 1],
        1,
        &[100, 0, 1, 100, 60, 1, 0, 60, 1, 0, 0, 1],
    );
}

#[test]
fn the_end_of_the_last_piece_is_not_written() {
    // the closing run became one straight piece
    let crunched = closed().crunch(&points(&[8, 6, 1, 1, 0, 1, 9, 7, 0])).unwrap();
    assert_eq!(crunched.points, points(&[8, 6, 1, 1, 0, 1]));
    // a start that is repeated in the upload stays: the closing line has no length
    let repeated = [0, 0, 1, 100, 0, 1, 100, 60, 1, 0, 0, 1];
    assert_eq!(closed().crunch(&points(&repeated)).unwrap().points, points(&repeated));
}

#[test]
fn no_corner_and_one() {
    assert_crunches(&[0, 0, 1, 10, 10, 0], 0, &[0, 0, 1, 10, 10, 0]);
    let star = [0, 0, 1, 100, 0, 0, 0, 0, 1, 100, -2, 0, 0, 0, 1, 100, -3, 0];
    assert_crunches(&star, 1, &[0, 0, 1]);
}

#[test]
fn the_start_stays_where_it_is_a_midpoint() {
    let contour = [10, -8, 1, 34, -2, 0, 44, 32, 1, -10, 37, 1, -14, -14, 0];
    assert_crunches(&contour, 2, &contour);
    // others go
    assert_crunches(&[0, 0, 1, 10, 10, 0, 0, 0, 1, -10, -10, 0], 0, &[0, 0, 1, 10, 10, 0, -10, -10, 0]);
    assert_crunches(&[5, 5, 1, 5, 5, 0], 1, &[5, 5, 1, 5, 5, 0]);
}

#[test]
fn a_point_is_implied_where_twice_it_is_the_whole_sum() {
    // (9, -5) stands between (10, -4) and (9, -6): the midpoint is a half unit
    let crunched = closed().crunch(&points(&[22, -6, 1, 9, -4, 0, 9, -5, 1, 9, -6, 0])).unwrap();
    assert_eq!(crunched.points, points(&[22, -6, 1, 10, -4, 0, 9, -5, 1, 9, -6, 0]));
    // an unchanged contour: (-1, 0) stands between (32767, 0) twice, whose sum is not cut
    let far = [5, 5, 1, 5, 5, 0, 5, 5, 1, 32767, 0, 0, -1, 0, 1, 32767, 0, 0];
    assert_crunches(&far, 1, &far);
}

#[test]
fn m_corners_make_m_runs() {
    let square = points(&[50, 0, 1, 100, 0, 1, 100, 60, 1, 0, 60, 1, 0, 0, 1]);
    let mut cruncher = closed();
    let chain = cruncher.chain(&square, 3).unwrap();
    assert_eq!((chain.pieces.len(), chain.pairs), (1, 1));
    assert_eq!(cruncher.check(&square, 3, &chain), Ok(true));
    // there is no such run in the crate's mode
    assert_eq!(as_recorded().chain(&square, 3), Err(Refusal::NoSuchRun));
    assert_eq!(as_recorded().check(&square, 3, &chain), Err(Refusal::NoSuchRun));
    assert_eq!(cruncher.chain(&square, 4), Err(Refusal::NoSuchRun));
    // other runs have the same chains in both modes
    assert_eq!(cruncher.chain(&hill(), 0), as_recorded().chain(&hill(), 0));
}

#[test]
fn the_counters_of_a_letter_come_out_whole() {
    for contour in &letter()[1..] {
        let whole = closed().crunch(contour).unwrap();
        let with_an_edge = as_recorded().crunch(contour).unwrap();
        assert!(whole.points.len() > with_an_edge.points.len());
        assert!(whole.pairs > with_an_edge.pairs);
        assert_eq!(whole.points[0], contour[0]);
    }
}

#[test]
fn room_is_not_needed_for_the_start_again() {
    let room = |places| {
        let settings = Settings::of_crate().with_closed(true);
        Cruncher::with_point_room(settings, places).crunch(&points(&[0, 0, 1, 100, 0, 1, 0, 100, 1]))
    };
    assert!(room(3).is_ok());
    assert_eq!(room(2), Err(Refusal::OutputTooShort));
}
