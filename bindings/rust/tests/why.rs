//! Why a segment starts at a corner: each reason, both rounds of the signs, refusals.

mod common;

use common::{as_recorded, points, zigzag};
use fontcrunch::Refusal;

/// The names of each segment's reasons.
fn told(numbers: &[i16]) -> Vec<String> {
    let upload = points(numbers);
    let mut cruncher = as_recorded();
    (0..).map_while(|index| cruncher.why(&upload, index).ok()).map(|reasons| reasons.to_string()).collect()
}

#[test]
fn a_turn_in_the_second_round_alone() {
    // segment 0 is compared with (0, 0) in the first round
    assert_eq!(told(&[0, 0, 1, 0, 1, 1])[0], "y");
}

#[test]
fn a_turn_in_the_first_round_alone() {
    assert!(told(&[0, 0, 1, 0, 1, 1, 1, 1, 1, 2, 0, 1])[2].split(',').any(|name| name == "y"));
}

#[test]
fn a_turn_replaces_both_coordinates() {
    assert!(told(&[0, 0, 1, 0, 1, 1, 1, 0, 1])[0].split(',').all(|name| name != "y"));
}

#[test]
fn zero_tangents_on_both_sides() {
    assert_eq!(told(&[7, 9, 1]), ["before,after"]);
}

#[test]
fn an_angle() {
    assert_eq!(told(&[0, 0, 1, 100, 0, 1, 200, 0, 1, 200, 100, 1])[1..3], ["", "angle"]);
}

/// The segments that start at a corner.
fn corners(numbers: &[i16]) -> Vec<usize> {
    told(numbers).iter().enumerate().filter(|(_, names)| !names.is_empty()).map(|(index, _)| index).collect()
}

// the oracle's answers, tools/oracle/cases.py
#[test]
fn known_corners() {
    assert_eq!(corners(&[0, 0, 1, 100, 0, 1, 200, 2, 1, 300, -300, 1]), [0, 2, 3]);
    assert_eq!(corners(&[0, 0, 1, 100, 0, 1, 199, 2, 1, 300, -300, 1]), [0, 1, 2, 3]);
    assert_eq!(corners(&[0, 0, 1, -50, 50, 0, 50, 50, 1, -50, 50, 0, 100, 100, 1]), [0, 2]);
    assert_eq!(corners(&[0, 0, 1, 10, 10, 0]), [0; 0]);
    assert_eq!(corners(&[7, 9, 1]), [0]);
    assert_eq!(corners(&[0, 0, 1, 0, 0, 1, 5, 0, 1]), [0, 1, 2]);
}

#[test]
fn most_segments() {
    let upload = zigzag(1024);
    let mut cruncher = as_recorded();
    assert!(cruncher.why(&upload, 1023).unwrap().is_corner());
    assert_eq!(cruncher.why(&upload, 1024), Err(Refusal::NoSuchSegment));
    assert_eq!(cruncher.why(&zigzag(1025), 0), Err(Refusal::TooManyPoints));
}

#[test]
fn refusals() {
    let mut cruncher = as_recorded();
    assert_eq!(cruncher.why(&[], 0), Err(Refusal::NoPoint));
    // 1 to 5 come before 11
    assert_eq!(cruncher.why(&points(&[0, 0, 0]), 9), Err(Refusal::StartsOffCurve));
    assert_eq!(cruncher.why(&points(&[0, 0, 1, 1, 1, 0, 2, 2, 0]), 9), Err(Refusal::OffCurveNeighbours));
    assert_eq!(cruncher.why(&points(&[7, 9, 1]), 1), Err(Refusal::NoSuchSegment));
    assert_eq!(cruncher.why(&points(&[7, 9, 1]), usize::MAX), Err(Refusal::NoSuchSegment));
}
