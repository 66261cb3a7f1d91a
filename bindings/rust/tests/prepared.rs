//! Idle controls dropped, and contours, editions, descriptions and files prepared before they are crunched.

mod common;

use common::{hill, letter, points, still};
use fontcrunch::glyph::{self, Glyph};
use fontcrunch::{clean, drop_idle, explicit, glif, prepared};
use fontcrunch::{Beside, Cruncher, Editions, IdleDrop, Point, Refusal, Settings};

fn closed() -> Cruncher {
    Cruncher::new(Settings::default().with_closed(true))
}

/// A control on the end before it, one on the end after it, and a last one on the start.
fn idle() -> Vec<Point> {
    points(&[0, 0, 1, 0, 0, 0, 100, 0, 1, 300, 200, 0, 300, 200, 1, 0, 200, 1, 0, 0, 0])
}

/// As fonts hold it: starts off-curve, has an implied point, and repeats one.
fn of_font() -> Vec<Point> {
    points(&[300, 0, 0, 300, 100, 0, 300, 200, 1, 300, 200, 0, 0, 200, 1, 0, 0, 1, 0, 0, 1])
}

/// Contours that look random, with few places, the same on every host.
fn some() -> impl Iterator<Item = Vec<Point>> {
    let mut state = 7u64;
    let mut below = move |bound: u64| {
        state = state.wrapping_mul(6_364_136_223_846_793_005).wrapping_add(1_442_695_040_888_963_407);
        ((state >> 33) % bound) as i16
    };
    (0..2000).map(move |_| {
        let length = 1 + below(9);
        (0..length).map(|_| Point { x: below(3), y: below(3), on_curve: below(2) == 0 }).collect()
    })
}

#[test]
fn each_idle_control_is_listed_with_the_end_it_stands_on() {
    let dropped = drop_idle(&idle()).unwrap();
    assert_eq!(dropped.points, points(&[0, 0, 1, 100, 0, 1, 300, 200, 1, 0, 200, 1]));
    let listed = [(1, Beside::Before), (3, Beside::After), (6, Beside::After)];
    assert_eq!(dropped.dropped, listed.map(|(place, beside)| IdleDrop { place, beside }));
    assert_eq!(
        (Beside::Before.to_string(), Beside::After.to_string()),
        ("before".to_owned(), "after".to_owned())
    );
    for whole in [hill(), points(&[7, 9, 1]), points(&[0, 0, 1, 0, 9, 0])] {
        assert_eq!(drop_idle(&whole).unwrap().points, whole);
    }
    // a control on both its ends goes too, and the points that are left are those of two places
    assert_eq!(drop_idle(&still()).unwrap().points, points(&[5, 5, 1, 5, 5, 1]));
}

#[test]
fn idle_controls_are_refused_as_cleaning_is() {
    assert_eq!(drop_idle(&[]).unwrap_err(), Refusal::NoPoint);
    assert_eq!(drop_idle(&[Point::off(0, 0)]).unwrap_err(), Refusal::StartsOffCurve);
    let pair = [Point::on(0, 0), Point::off(0, 0), Point::off(1, 1)];
    assert_eq!(drop_idle(&pair).unwrap_err(), Refusal::OffCurveNeighbours);
    assert_eq!(drop_idle(&[Point::on(0, 0); 1025]).unwrap_err(), Refusal::TooManyPoints);
}

#[test]
fn what_is_prepared_is_let_through_and_stays() {
    let mut dropped = 0;
    for contour in some() {
        let Ok(ready) = prepared(&contour) else {
            assert!(contour.iter().all(|point| !point.on_curve));
            continue;
        };
        assert_eq!(prepared(&ready).unwrap(), ready);
        assert!(clean(&ready).unwrap().dropped.is_empty());
        assert!(drop_idle(&ready).unwrap().dropped.is_empty());
        // the list put back gives what was handed in
        let cleaned = clean(&explicit(&contour).unwrap()).unwrap().points;
        let idle = drop_idle(&cleaned).unwrap();
        let kept: Vec<Point> = (0..cleaned.len() as u32)
            .filter(|place| idle.dropped.iter().all(|drop| drop.place != *place))
            .map(|place| cleaned[place as usize])
            .collect();
        assert_eq!(idle.points, kept);
        dropped += idle.dropped.len();
    }
    assert!(dropped > 300, "{dropped}");
    assert_eq!(prepared(&[]).unwrap_err(), Refusal::NoPoint);
    assert_eq!(prepared(&[Point::off(0, 0)]).unwrap_err(), Refusal::NoOnCurve);
}

#[test]
fn prepared_and_crunched_is_crunched_after_being_prepared() {
    let flat = points(&[0, 0, 1, 0, 0, 0, 100, 0, 1, 300, 0, 0, 300, 200, 1, 0, 200, 1]);
    assert_eq!(closed().crunch(&flat).unwrap().points, points(&[0, 0, 1, 300, 200, 1, 0, 200, 1]));
    let bent = closed().prepared(&flat).unwrap();
    assert_eq!(
        bent,
        closed().crunch(&points(&[0, 0, 1, 100, 0, 1, 300, 0, 0, 300, 200, 1, 0, 200, 1])).unwrap()
    );
    for contour in letter().into_iter().skip(2).chain([of_font(), idle(), flat]) {
        let ready = prepared(&contour).unwrap();
        assert_eq!(closed().prepared(&contour), closed().crunch(&ready));
        assert_eq!(closed().prepared_editions(&contour, 16, 300), closed().editions(&ready, 16, 300));
    }
    let Editions { a, b } = closed().prepared_editions(&[Point::off(1, 1)], 16, 300);
    assert_eq!((a.unwrap_err(), b.unwrap_err()), (Refusal::NoOnCurve, Refusal::NoOnCurve));
}

#[test]
fn descriptions_and_files() {
    let contours = [of_font(), idle()];
    let crunched: Vec<Vec<Point>> = contours.iter().map(|c| closed().prepared(c).unwrap().points).collect();
    let glyph = |contours: &[Vec<Point>]| Glyph {
        ends: contours
            .iter()
            .scan(0, |points, contour| {
                *points += contour.len();
                Some(*points as u16 - 1)
            })
            .collect(),
        points: contours.concat(),
        instructions: vec![0xb0, 3],
    };
    let made = closed().prepared_glyph(&glyph(&contours).to_bytes().unwrap()).unwrap();
    assert_eq!(glyph::read(&made).unwrap(), glyph(&crunched));
    assert_eq!(closed().prepared_glyph(&[0xff, 0xff]).unwrap_err(), Refusal::Composite);

    let contour = "<contour><point x='0' y='0' type='line'/></contour>";
    let file = format!("<glyph>\n<outline>{contour} {contour}</outline>\n</glyph>").into_bytes();
    let given = glif::write(&file, &contours.map(|c| explicit(&c).unwrap())).unwrap();
    assert_eq!(closed().prepared_glif(&given).unwrap(), glif::write(&file, &crunched).unwrap());
    // refusals are those of reading, then of the contours, and 16 where there is none
    assert_eq!(closed().prepared_glif(b"<a/>").unwrap_err(), Refusal::Malformed);
    let mut dear = Cruncher::new(Settings::default().with_penalty(0));
    assert_eq!(dear.prepared_glif(b"<glyph/>").unwrap_err(), Refusal::NoSuchPenalty);
}
