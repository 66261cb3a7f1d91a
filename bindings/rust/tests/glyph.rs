//! Glyph descriptions through the crate: round trips and refusals.

use fontcrunch::glyph::{self, Glyph};
use fontcrunch::{Cruncher, Point, Refusal, Settings};

fn square() -> Glyph {
    Glyph {
        ends: vec![3],
        points: vec![Point::on(0, 0), Point::on(0, 300), Point::off(-40, 300), Point::on(-32768, -1)],
        instructions: vec![0xb0, 0x03],
    }
}

#[test]
fn written_and_read_back() {
    for glyph in [square(), Glyph::default(), Glyph { points: vec![], ends: vec![], instructions: vec![7] }] {
        assert_eq!(glyph::read(&glyph.to_bytes().unwrap()), Ok(glyph));
    }
}

#[test]
fn the_bytes_of_one_point() {
    let glyph = Glyph { ends: vec![0], points: vec![Point::on(5, -5)], instructions: vec![] };
    let bytes = glyph.to_bytes().unwrap();
    // a contour; the box; its end; no instructions; on the curve, both short, x upward; 5; 5
    assert_eq!(bytes, [0, 1, 0, 5, 255, 251, 0, 5, 255, 251, 0, 0, 0, 0, 0x17, 5, 5]);
}

#[test]
fn points_after_the_last_end_are_not_written() {
    let mut longer = square();
    longer.points.push(Point::on(9, 9));
    assert_eq!(glyph::read(&longer.to_bytes().unwrap()), Ok(square()));
    assert_eq!(longer.contours().map(<[Point]>::len).collect::<Vec<_>>(), [4]);
}

#[test]
fn refusals_of_reading() {
    let bytes = square().to_bytes().unwrap();
    for n in 0..bytes.len() {
        assert_eq!(glyph::read(&bytes[..n]), Err(Refusal::CutShort), "{n}");
    }
    assert_eq!(glyph::read(&[0xff, 0xff]), Err(Refusal::Composite));
    assert_eq!(glyph::read(&[0xff]), Err(Refusal::CutShort));
    let mut twice = square();
    twice.ends = vec![1, 3];
    let mut falling = twice.to_bytes().unwrap();
    falling[11] = 3;
    assert_eq!(glyph::read(&falling), Err(Refusal::EndsNotRising));
    // cut short and falling: cut short comes first
    falling.pop();
    assert_eq!(glyph::read(&falling), Err(Refusal::CutShort));
}

#[test]
fn refusals_of_writing() {
    let with = |ends: Vec<u16>| Glyph { ends, ..square() }.to_bytes();
    assert_eq!(with(vec![4]), Err(Refusal::CutShort));
    assert_eq!(with(vec![2, 2]), Err(Refusal::EndsNotRising));
    let far = Glyph {
        ends: vec![1],
        points: vec![Point::on(-32768, 0), Point::on(32767, 0)],
        instructions: vec![],
    };
    assert_eq!(far.to_bytes(), Err(Refusal::TooLarge));
    let long = Glyph { instructions: vec![0; 65_536], ..square() };
    assert_eq!(long.to_bytes(), Err(Refusal::TooLarge));
}

/// A triangle and a lone point, as bytes; each contour alone as [`Cruncher::crunch`] gives it.
#[test]
fn a_glyph_is_crunched_contour_by_contour() {
    let triangle = [Point::on(0, 0), Point::on(100, 0), Point::on(0, 100)];
    let curve = [Point::on(0, 0), Point::off(40, 0), Point::on(0, 0), Point::on(5, 50)];
    let glyph = Glyph {
        ends: vec![2, 6],
        points: [&triangle[..], &curve[..]].concat(),
        instructions: vec![0xb0, 0x03],
    };
    let crate_mode = Settings::of_crate();
    for settings in [
        crate_mode,
        crate_mode.with_penalty(256),
        crate_mode.with_whole_units(true),
        crate_mode.with_closed(true),
    ] {
        let mut cruncher = Cruncher::new(settings);
        let new = glyph::read(&cruncher.crunch_glyph(&glyph.to_bytes().unwrap()).unwrap()).unwrap();
        let alone = [&triangle[..], &curve[..]].map(|contour| cruncher.crunch(contour).unwrap().points);
        assert_eq!(new.contours().collect::<Vec<_>>(), alone, "{settings:?}");
        assert_eq!(new.instructions, glyph.instructions);
    }
}

#[test]
fn the_settings_are_those_of_the_cruncher() {
    let one = |points: &[Point]| Glyph {
        ends: vec![points.len() as u16 - 1],
        points: points.to_vec(),
        instructions: vec![],
    };
    let at = |settings, glyph: &Glyph| Cruncher::new(settings).crunch_glyph(&glyph.to_bytes().unwrap());
    let closed = Settings::default().with_closed(true);
    let mut triangle = [Point::on(0, 0), Point::on(100, 0), Point::on(0, 100)];
    let forward = one(&triangle);
    triangle.reverse();
    assert_eq!(at(closed, &forward), forward.to_bytes());
    assert_eq!(at(Settings::default(), &forward), one(&triangle).to_bytes());
    // on half units its breaks are too many
    let bow = one(&[Point::on(0, 0), Point::off(700, 0), Point::on(700, 700)]);
    assert_eq!(at(Settings::default(), &bow), Err(Refusal::TooManyBreaks));
    assert!(at(Settings::default().with_whole_units(true), &bow).is_ok());
}

#[test]
fn refusals_of_crunching() {
    let of = |glyph: &Glyph, penalty| {
        let settings = Settings::default().with_penalty(penalty);
        Cruncher::new(settings).crunch_glyph(&glyph.to_bytes().unwrap())
    };
    let none = Glyph::default();
    assert_eq!(of(&none, 32), none.to_bytes());
    for penalty in [0, 257] {
        assert_eq!(of(&none, penalty).map_err(Refusal::number), Err(16));
    }
    // the first contour that is refused, whatever its number
    let starts_off = [Point::off(0, 0), Point::on(9, 9)];
    let neighbours = [Point::on(0, 0), Point::off(1, 1), Point::off(2, 2)];
    let both = |first: &[Point], then: &[Point]| Glyph {
        ends: vec![first.len() as u16 - 1, (first.len() + then.len()) as u16 - 1],
        points: [first, then].concat(),
        instructions: vec![],
    };
    assert_eq!(of(&both(&starts_off, &neighbours), 16), Err(Refusal::StartsOffCurve));
    assert_eq!(of(&both(&neighbours, &starts_off), 16), Err(Refusal::OffCurveNeighbours));
    assert_eq!(Cruncher::new(Settings::default()).crunch_glyph(&[0xff, 0xff]), Err(Refusal::Composite));
    // no room for the points
    let square = Glyph { ends: vec![0], points: vec![Point::on(7, 9)], instructions: vec![] };
    assert_eq!(
        Cruncher::with_point_room(Settings::default(), 1).crunch_glyph(&square.to_bytes().unwrap()),
        square.to_bytes()
    );
}

/// Contours that are each fine, and after reversal too far apart for a difference of 16 bits.
#[test]
fn crunched_contours_too_far_apart() {
    let glyph = Glyph {
        ends: vec![1, 2],
        points: vec![Point::on(-32767, 0), Point::on(0, 0), Point::on(32767, 0)],
        instructions: vec![],
    };
    let mut cruncher = Cruncher::new(Settings::of_crate());
    assert!(glyph.contours().all(|contour| cruncher.crunch(contour).is_ok()));
    assert_eq!(cruncher.crunch_glyph(&glyph.to_bytes().unwrap()), Err(Refusal::TooLarge));
}
