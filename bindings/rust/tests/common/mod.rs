//! Contours that the tests share.

#![allow(dead_code)] // each test program uses some of them

pub mod running;

use fontcrunch::{Cruncher, Point, Settings};

/// What the recorded answers were recorded with: those of the Rust that this follows.
pub fn as_recorded() -> Cruncher {
    Cruncher::new(Settings::of_crate())
}

/// Points written as they are on a line: x, y, and 1 for an on-curve point.
pub fn points(numbers: &[i16]) -> Vec<Point> {
    assert_eq!(numbers.len() % 3, 0);
    numbers.chunks(3).map(|p| Point { x: p[0], y: p[1], on_curve: p[2] == 1 }).collect()
}

/// The contours of the letter that comes with the repository.
pub fn letter() -> Vec<Vec<Point>> {
    include_str!("../../../../examples/letter.txt").lines().map(|line| points(&numbers(line))).collect()
}

fn numbers(line: &str) -> Vec<i16> {
    line.split(' ').map(|word| word.parse().unwrap()).collect()
}

/// Points of which every one is a corner.
pub fn zigzag(count: i16) -> Vec<Point> {
    (0..count).map(|i| Point::on(i % 512, 40 * (i % 2))).collect()
}

/// Two curves with a smooth joint: run 0 has a chain of two pieces, and run 1 is a copied line.
pub fn hill() -> Vec<Point> {
    points(&[0, 0, 1, 0, 60, 0, 40, 90, 1, 80, 120, 0, 130, 120, 1, 200, -40, 1])
}

/// Stays in one place, so that no chain is found.
pub fn still() -> Vec<Point> {
    points(&[5, 5, 1, 5, 5, 0, 5, 5, 1])
}
