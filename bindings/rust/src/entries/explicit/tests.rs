//! The entry at the edges of its rows.

use super::*;

fn contour(points: &[(i16, i16, u8)]) -> Contour {
    Contour {
        xs: points.iter().map(|p| p.0).collect(),
        ys: points.iter().map(|p| p.1).collect(),
        flags: points.iter().map(|p| p.2).collect(),
    }
}

/// Rows that hold 99s, so that a place that is written shows.
fn marked(xs: usize, ys: usize, flags: usize) -> PointRows {
    PointRows { xs: vec![99; xs].into(), ys: vec![99; ys].into(), flags: vec![99; flags].into() }
}

fn assert_untouched(out: &PointRows, from: usize) {
    assert!(out.xs.iter().skip(from).all(|&x| x == 99));
    assert!(out.ys.iter().skip(from).all(|&y| y == 99));
    assert!(out.flags.iter().skip(from).all(|&flag| flag == 99));
}

/// The number that a contour is refused by; its rows are as they were.
fn refused(contour: &Contour, mut out: PointRows) -> u32 {
    let report = explicit(contour, &mut out);
    assert_eq!(report, ExplicitReport { number: report.number, points: 0 });
    assert_untouched(&out, 0);
    report.number
}

/// Starts off-curve, and comes out with five points: a middle stands between its two off-curve ones.
const ARCH: [(i16, i16, u8); 4] = [(3, -3, 2), (8, 0, 1), (0, 0, 129), (0, 0, 254)];

#[test]
fn the_first_places_are_written() {
    let mut out = marked(7, 8, 9);
    let report = explicit(&contour(&ARCH), &mut out);
    assert_eq!(report, ExplicitReport { number: 0, points: 5 });
    assert_eq!(out.xs[..5], [8, 0, 0, 2, 3]);
    assert_eq!(out.ys[..5], [0, 0, 0, -2, -3]);
    assert_eq!(out.flags[..5], [1, 1, 0, 1, 0]);
    assert_untouched(&out, 5);
}

#[test]
fn rows_that_just_suffice_and_one_place_less() {
    let mut out = marked(5, 5, 5);
    assert_eq!(explicit(&contour(&ARCH), &mut out).number, 0);
    for row in 0..3 {
        for short in [4, 1, 0] {
            let mut rooms = [5; 3];
            rooms[row] = short;
            assert_eq!(refused(&contour(&ARCH), marked(rooms[0], rooms[1], rooms[2])), 9);
        }
    }
}

#[test]
fn refusals_in_their_order() {
    let none = || marked(0, 0, 0);
    // 1 before 2, 21 and 3
    for (xs, ys, flags) in [(0, 0, 1), (0, 1, 0), (1, 0, 0), (1, 1, 2), (2000, 2000, 1999)] {
        let uneven = Contour { xs: vec![0; xs], ys: vec![0; ys], flags: vec![0; flags] };
        assert_eq!(refused(&uneven, marked(9, 9, 9)), 1);
        assert_eq!(refused(&uneven, none()), 1);
    }
    assert_eq!(refused(&contour(&[]), none()), 2);
    // 21 before 3
    assert_eq!(refused(&contour(&[(0, 0, 0)]), none()), 21);
    assert_eq!(refused(&contour(&[(0, 0, 254); 1025]), none()), 21);
    // 3 before 9
    assert_eq!(refused(&contour(&[(0, 0, 1); 1025]), none()), 3);
    assert_eq!(refused(&contour(&[(0, 0, 1); 1024]), marked(1023, 1024, 1024)), 9);
    let mut out = marked(1024, 1024, 1024);
    assert_eq!(explicit(&contour(&[(0, 0, 1); 1024]), &mut out).points, 1024);
}

#[test]
fn three_counts_the_points_with_the_implied_ones() {
    // the last of so many is on-curve: 511 middles, and none before the first
    let mut points = vec![(0, 0, 0); 512];
    points.push((0, 0, 1));
    let mut out = marked(1024, 1024, 1024);
    assert_eq!(explicit(&contour(&points), &mut out), ExplicitReport { number: 0, points: 1024 });
    points.push((0, 0, 1));
    assert_eq!(refused(&contour(&points), marked(2000, 2000, 2000)), 3);
}

#[test]
fn the_report_has_the_layout_of_the_header() {
    use std::mem::{offset_of, size_of};
    assert_eq!((size_of::<ExplicitReport>(), offset_of!(ExplicitReport, points)), (16, 8));
}
