//! Two editions of a contour: each gets what it gets alone.

mod common;

use common::{hill, letter, still, zigzag};
use fontcrunch::{Cruncher, Editions, Point, Refusal, Settings};

fn at(penalty: u32, closed: bool) -> Settings {
    Settings::default().with_penalty(penalty).with_closed(closed)
}

fn alone(contour: &[Point], penalty: u32, closed: bool) -> Result<fontcrunch::Crunched, Refusal> {
    Cruncher::new(at(penalty, closed)).crunch(contour)
}

fn assert_as_if_alone(contour: &[Point], penalties: &[(u32, u32)]) {
    for closed in [false, true] {
        for &(a, b) in penalties {
            let both = Cruncher::new(at(1, closed)).editions(contour, a, b);
            assert_eq!(both.a, alone(contour, a, closed));
            assert_eq!(both.b, alone(contour, b, closed));
        }
    }
}

#[test]
fn each_is_as_if_alone() {
    for contour in letter() {
        assert_as_if_alone(&contour, &[(16, 32)]);
    }
    for contour in [hill(), still(), zigzag(40)] {
        assert_as_if_alone(&contour, &[(16, 32), (32, 16), (1, 256), (32, 32)]);
    }
}

#[test]
fn swapped_they_are_swapped() {
    let mut cruncher = Cruncher::new(Settings::default());
    let Editions { a, b } = cruncher.editions(&hill(), 1, 256);
    assert_eq!(cruncher.editions(&hill(), 256, 1), Editions { a: b, b: a });
}

#[test]
fn a_penalty_is_refused_to_its_own_edition() {
    let both = Cruncher::new(Settings::default()).editions(&hill(), 257, 32);
    assert_eq!(both.a, Err(Refusal::NoSuchPenalty));
    assert_eq!(both.b, alone(&hill(), 32, false));
}

#[test]
fn what_is_wrong_with_the_contour_is_refused_to_both() {
    let both = Cruncher::new(Settings::default()).editions(&[], 257, 32);
    assert_eq!(both, Editions { a: Err(Refusal::NoPoint), b: Err(Refusal::NoPoint) });
}
