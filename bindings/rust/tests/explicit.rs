//! Implied points written out: where a contour starts, where the middles go, and that what comes out is let through.

mod common;

use common::{as_recorded, hill, points, zigzag};
use fontcrunch::glyph::{self, Glyph};
use fontcrunch::{explicit, Point, Refusal};

const LEAST: i16 = -32768;
const MOST: i16 = 32767;

fn made(numbers: &[i16]) -> Vec<Point> {
    explicit(&points(numbers)).unwrap()
}

#[test]
fn from_the_first_on_curve_point_with_the_middles() {
    assert_eq!(
        made(&[1, 0, 0, 2, 4, 0, 9, 9, 1, 3, 4, 0]),
        points(&[9, 9, 1, 3, 4, 0, 2, 2, 1, 1, 0, 0, 2, 2, 1, 2, 4, 0])
    );
    // nothing between the last and the first
    assert_eq!(made(&[0, 0, 1, 5, 5, 0]), points(&[0, 0, 1, 5, 5, 0]));
    assert_eq!(made(&[5, 5, 0, 0, 0, 1]), points(&[0, 0, 1, 5, 5, 0]));
}

#[test]
fn halves_go_away_from_zero() {
    for (a, b, middle) in [
        (0, 1, 1),
        (0, -1, -1),
        (-3, 0, -2),
        (1, 1, 1),
        (-1, 2, 1),
        (-2, 1, -1),
        (LEAST, MOST, -1),
        (LEAST, LEAST, LEAST),
        (MOST, MOST, MOST),
        (MOST, MOST - 1, MOST),
        (LEAST, LEAST + 1, LEAST),
    ] {
        assert_eq!(made(&[0, 0, 1, a, b, 0, b, a, 0])[2], Point::on(middle, middle), "{a} {b}");
    }
}

#[test]
fn what_is_let_through_comes_out_as_it_is() {
    for contour in [hill(), zigzag(1024), points(&[7, 9, 1])] {
        assert_eq!(explicit(&contour), Ok(contour));
    }
}

#[test]
fn what_comes_out_is_crunched() {
    let turned = points(&[80, 120, 0, 130, 120, 1, 200, -40, 1, 0, 0, 1, 0, 60, 0, 40, 90, 0]);
    assert_eq!(as_recorded().crunch(&turned).map(|_| ()), Err(Refusal::StartsOffCurve));
    let out = explicit(&turned).unwrap();
    assert!(as_recorded().crunch(&out).is_ok());
    assert_eq!(explicit(&out), Ok(out));
}

#[test]
fn refusals() {
    assert_eq!(explicit(&[]), Err(Refusal::NoPoint));
    assert_eq!(explicit(&points(&[0, 0, 0, 1, 1, 0])), Err(Refusal::NoOnCurve));
    assert_eq!(explicit(&[Point::off(0, 0); 2000]), Err(Refusal::NoOnCurve));
    // the first on-curve point far behind
    let mut late = vec![Point::off(0, 0); 2000];
    late.push(Point::on(0, 0));
    assert_eq!(explicit(&late), Err(Refusal::TooManyPoints));
    assert_eq!(explicit(&zigzag(1025)), Err(Refusal::TooManyPoints));
}

#[test]
fn a_glyph_of_a_font_is_crunched() {
    let font = Glyph {
        ends: vec![2, 5],
        points: points(&[0, 0, 1, 100, 0, 1, 0, 100, 1, 10, 0, 0, 10, 7, 0, 0, 7, 1]),
        instructions: vec![0xb0, 3],
    };
    let bytes = font.to_bytes().unwrap();
    let mut cruncher = as_recorded();
    assert_eq!(cruncher.crunch_glyph(&bytes), Err(Refusal::StartsOffCurve));
    let contours: Vec<Vec<Point>> = font.contours().map(|c| explicit(c).unwrap()).collect();
    let by_hand = Glyph { ends: vec![2, 6], points: contours.concat(), instructions: vec![0xb0, 3] };
    let crunched = cruncher.crunch_glyph_explicit(&bytes).unwrap();
    assert_eq!(crunched, cruncher.crunch_glyph(&by_hand.to_bytes().unwrap()).unwrap());
    assert_eq!(glyph::read(&crunched).unwrap().instructions, [0xb0, 3]);
}

#[test]
fn refusals_of_a_glyph_in_their_order() {
    let mut cruncher = as_recorded();
    let mut told = |ends: &[u16], points: Vec<Point>| {
        let glyph = Glyph { ends: ends.to_vec(), points, instructions: vec![] };
        cruncher.crunch_glyph_explicit(&glyph.to_bytes().unwrap())
    };
    // the first contour that is refused: 21, then 3
    let mut both = vec![Point::off(0, 0); 2];
    both.extend(zigzag(1025));
    assert_eq!(told(&[1, 1026], both.clone()), Err(Refusal::NoOnCurve));
    both.rotate_left(2);
    assert_eq!(told(&[1024, 1026], both), Err(Refusal::TooManyPoints));
    // turned, a difference is outside 16 bits
    let far = points(&[-30000, 0, 0, 0, 0, 1, 30000, 0, 1]);
    assert_eq!(told(&[2], far), Err(Refusal::TooLarge));
    // more than 65,536 points: 64 contours of 1,024 and one more
    let mut full = vec![Point::off(0, 0); 512];
    full.push(Point::on(0, 0));
    let ends: Vec<u16> = (1..=65).map(|k| 513 * k - 1).collect();
    assert_eq!(told(&ends, full.repeat(65)), Err(Refusal::TooLarge));
    // then as crunching: no contour is left out
    assert_eq!(cruncher.crunch_glyph_explicit(&[0xff, 0xff]), Err(Refusal::Composite));
}
