//! Whole contours: document 01's table, and answers of the Rust that this follows.

mod common;

use common::{as_recorded, hill, letter, points, still, zigzag};
use fontcrunch::{Crunched, Point};

fn crunched(contour: &[i16]) -> (Vec<Point>, usize) {
    let Crunched { points: out, pairs, .. } = as_recorded().crunch(&points(contour)).unwrap();
    (out, pairs)
}

fn assert_crunches(contour: &[i16], pairs: usize, out: &[i16]) {
    assert_eq!(crunched(contour), (points(out), pairs), "{contour:?}");
}

#[test]
fn one_point() {
    assert_crunches(&[7, 9, 1], 0, &[7, 9, 1]);
}

#[test]
fn a_triangle_is_reversed() {
    assert_crunches(&[0, 0, 1, 100, 0, 1, 0, 100, 1], 0, &[0, 100, 1, 100, 0, 1, 0, 0, 1]);
}

#[test]
fn a_closing_curve_is_lost() {
    assert_crunches(&[0, 0, 1, 100, 0, 1, 50, 100, 0], 0, &[100, 0, 1, 0, 0, 1]);
}

#[test]
fn an_unchanged_contour_has_its_start_at_both_ends() {
    assert_crunches(&[5, 5, 1, 5, 5, 0, 5, 5, 1], 1, &[5, 5, 1, 5, 5, 1, 5, 5, 0, 5, 5, 1]);
}

#[test]
fn an_unchanged_run_ends_the_work_before_later_runs_are_seen() {
    // the second curve alone would be refused by 7
    assert_crunches(
        &[5, 5, 1, 5, 5, 0, 5, 5, 1, 700, 5, 0, 700, 700, 1],
        1,
        &[5, 5, 1, 700, 700, 1, 700, 5, 0, 5, 5, 1, 5, 5, 0, 5, 5, 1],
    );
}

#[test]
fn a_sum_of_neighbours_is_cut_to_16_bits() {
    // (-1, 0) between (32767, 0) twice is dropped
    assert_crunches(
        &[5, 5, 1, 5, 5, 0, 5, 5, 1, 32767, 0, 0, -1, 0, 1, 32767, 0, 0],
        1,
        &[5, 5, 1, 32767, 0, 0, 32767, 0, 0, 5, 5, 1, 5, 5, 0, 5, 5, 1],
    );
}

#[test]
fn the_most_points() {
    let mut reversed = zigzag(1024);
    let crunched = as_recorded().crunch(&reversed).unwrap();
    reversed.reverse();
    assert_eq!((crunched.points, crunched.pairs, crunched.fallen), (reversed, 0, 0));
}

#[test]
fn known_answers() {
    assert_crunches(&[0, 0, 1, 10, 10, 0], 0, &[0, 0, 1]);
    assert_crunches(&[0, 0, 1, 0, 0, 0, 60, 40, 1, 5, 50, 1], 1, &[5, 50, 1, 60, 40, 1, 0, 0, 1]);
    assert_crunches(&[0, 0, 1, 0, 1, 0, 0, 0, 1, 5, 50, 1], 1, &[5, 50, 1, 0, 0, 1, 0, 0, 1]);
    assert_crunches(&[1, 0, 1, 9, 7, 0, 8, 6, 1], 1, &[7, 6, 1, 1, 0, 1]);
    assert_crunches(
        &[-25, -55, 1, 5, -15, 1, 41, 33, 1, -71, 51, 1],
        1,
        &[-71, 51, 1, 41, 33, 1, -25, -55, 1],
    );
    assert_crunches(
        &[0, 0, 1, 500, 0, 0, 1022, 2, 1, -3000, 500, 1],
        1,
        &[-3000, 500, 1, 1022, 2, 1, 0, 0, 1],
    );
}

#[test]
fn an_implied_joint_is_dropped() {
    let crunched = as_recorded().crunch(&hill()).unwrap();
    assert_eq!(crunched.points, points(&[200, -40, 1, 130, 120, 1, 80, 120, 0, 0, 60, 0, 0, 0, 1]));
    assert_eq!(crunched.pairs, 937);
}

#[test]
fn a_letter_comes_out_with_fewer_points() {
    let mut cruncher = as_recorded();
    let counts: Vec<(usize, usize)> = letter()
        .iter()
        .map(|contour| (contour.len(), cruncher.crunch(contour).unwrap().points.len()))
        .collect();
    assert_eq!(counts, [(54, 43), (17, 11), (12, 8)]);
}

#[test]
fn a_cruncher_remembers_nothing() {
    let mut used = as_recorded();
    let contours = [hill(), still(), zigzag(9), vec![], points(&[0, 0, 0]), hill()];
    for contour in &contours {
        assert_eq!(used.crunch(contour), as_recorded().crunch(contour));
        assert_eq!(used.chain(contour, 0), as_recorded().chain(contour, 0));
    }
}

#[test]
fn a_cruncher_can_go_to_another_thread() {
    let mut cruncher = as_recorded();
    let crunched = std::thread::spawn(move || cruncher.crunch(&hill())).join().unwrap();
    assert_eq!(crunched, as_recorded().crunch(&hill()));
}
