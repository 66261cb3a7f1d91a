//! Cubics made quads: the points, the edges, and that what comes out can be crunched.

mod common;

use common::{as_recorded, points};
use fontcrunch::{from_cubics, Point, Refusal};

const LEAST: i16 = -32768;
const MOST: i16 = 32767;

fn made(numbers: &[i16]) -> Vec<Point> {
    from_cubics(&points(numbers)).unwrap()
}

#[test]
fn a_third_difference_of_eight_is_not_halved() {
    // 8 in x: the control is -8 / 4
    assert_eq!(made(&[0, 0, 1, 0, 0, 0, 0, 0, 0, 8, 0, 1]), points(&[0, 0, 1, -2, 0, 0, 8, 0, 1]));
    // 9: halved once
    assert_eq!(
        made(&[0, 0, 1, 0, 0, 0, 0, 0, 0, 9, 0, 1]),
        points(&[0, 0, 1, 0, 0, 0, 1, 0, 1, 3, 0, 0, 9, 0, 1])
    );
}

#[test]
fn a_last_pair_leads_back() {
    assert_eq!(made(&[0, 0, 1, 2, 0, 0, 2, 2, 0]), points(&[0, 0, 1, 3, 2, 0]));
    // a line back is not written
    assert_eq!(made(&[0, 0, 1, 9, 9, 1]), points(&[0, 0, 1, 9, 9, 1]));
}

#[test]
fn most_points() {
    let flat: Vec<Point> =
        (0..512).map(|k| k % 2).flat_map(|x| [Point::on(x, 0), Point::off(x, 0), Point::off(x, 0)]).collect();
    assert_eq!(from_cubics(&flat).unwrap().len(), 1024);
    let mut more = flat;
    more.push(Point::on(0, 0));
    assert_eq!(from_cubics(&more), Err(Refusal::TooManyPoints));
    let deep: Vec<Point> = (0..8)
        .flat_map(|_| {
            let (low, high) = ((LEAST, LEAST), (MOST, MOST));
            [
                Point::on(low.0, low.1),
                Point::off(high.0, high.1),
                Point::off(low.0, low.1),
                Point::on(high.0, high.1),
                Point::off(low.0, low.1),
                Point::off(high.0, high.1),
            ]
        })
        .collect();
    assert_eq!(from_cubics(&deep).unwrap().len(), 1024);
}

#[test]
fn sixteen_bits_are_judged_after_rounding() {
    // controls at 32767.25 and 32767.5
    assert_eq!(made(&[MOST - 1, 0, 1, MOST, 0, 0, MOST, 0, 0, MOST, 0, 1])[1], Point::off(MOST, 0));
    let half = points(&[MOST - 1, 0, 1, MOST, 0, 0, MOST, 0, 0, MOST - 1, 0, 1]);
    assert_eq!(from_cubics(&half), Err(Refusal::Outside16Bits));
}

#[test]
fn refusals() {
    assert_eq!(from_cubics(&[]), Err(Refusal::NoPoint));
    assert_eq!(from_cubics(&points(&[0, 0, 0])), Err(Refusal::StartsOffCurve));
    assert_eq!(from_cubics(&points(&[0, 0, 1, 1, 1, 0])), Err(Refusal::OffCurveNeighbours));
    assert_eq!(from_cubics(&points(&[0, 0, 1, 1, 1, 0, 1, 1, 0, 1, 1, 0])), Err(Refusal::OffCurveNeighbours));
    assert_eq!(
        from_cubics(&points(&[LEAST, 0, 1, MOST, 0, 0, MOST, 0, 0, LEAST, 0, 1])),
        Err(Refusal::Outside16Bits)
    );
}

#[test]
fn what_comes_out_is_crunched() {
    let bow = points(&[0, 0, 1, 0, 200, 0, 300, 400, 0, 600, 400, 1, 600, 0, 1]);
    let quads = from_cubics(&bow).unwrap();
    let crunched = as_recorded().crunch(&quads).unwrap();
    assert!(crunched.points.len() < quads.len(), "{} of {}", crunched.points.len(), quads.len());
}
