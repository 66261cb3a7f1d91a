//! What a caller chooses: the default, the range, and what it changes.

mod common;

use common::{as_recorded, hill, letter, points};
use fontcrunch::{Chain, Cruncher, Point, Refusal, Settings, CRATE_PENALTY, DEFAULT_PENALTY};

fn at_penalty(penalty: u32) -> Cruncher {
    Cruncher::new(Settings::default().with_penalty(penalty))
}

fn chain_at(penalty: u32, contour: &[Point]) -> Chain {
    at_penalty(penalty).chain(contour, 0).unwrap()
}

#[test]
fn the_default_is_twice_the_penalty_of_the_rust() {
    assert_eq!((DEFAULT_PENALTY, CRATE_PENALTY), (32, 16));
    assert_eq!(Cruncher::new(Settings::default()).settings(), Settings::of_crate().with_penalty(32));
    let mut by_default = Cruncher::new(Settings::default());
    assert_eq!(by_default.chain(&hill(), 0), at_penalty(32).chain(&hill(), 0));
    assert_ne!(by_default.chain(&hill(), 0), as_recorded().chain(&hill(), 0));
}

#[test]
fn a_chain_is_checked_at_the_penalty_it_was_made_with() {
    for penalty in [1, 8, 16, 32, 256] {
        let chain = chain_at(penalty, &hill());
        assert!(!chain.pieces.is_empty());
        for other in [1, 8, 16, 32, 256] {
            assert_eq!(
                at_penalty(other).check(&hill(), 0, &chain),
                Ok(other == penalty),
                "{penalty}, {other}"
            );
        }
    }
}

#[test]
fn a_larger_penalty_asks_for_fewer_pieces() {
    let counter = &letter()[2];
    let pieces: Vec<usize> = [1, 16, 256].map(|penalty| chain_at(penalty, counter).pieces.len()).into();
    assert!(pieces.is_sorted_by(|more, fewer| more >= fewer), "{pieces:?}");
    assert!(pieces[0] > pieces[2], "{pieces:?}");
}

fn in_whole_units(settings: Settings) -> Cruncher {
    Cruncher::new(settings.with_whole_units(true))
}

#[test]
fn whole_units_have_fewer_breaks() {
    let mut whole = in_whole_units(Settings::of_crate());
    let (of_whole, of_half) = (whole.chain(&hill(), 0).unwrap(), as_recorded().chain(&hill(), 0).unwrap());
    let last_break = |chain: &Chain| chain.pieces.last().unwrap().end;
    assert!(last_break(&of_whole) < last_break(&of_half));
    assert_eq!(last_break(&of_half), 469);
    assert_eq!(whole.check(&hill(), 0, &of_whole), Ok(true));
    assert_eq!(whole.check(&hill(), 0, &of_half), Ok(false));
    assert_eq!(as_recorded().check(&hill(), 0, &of_whole), Ok(false));
}

#[test]
fn a_longer_run_has_room_for_its_breaks_in_whole_units() {
    let bow = points(&[0, 0, 1, 700, 0, 0, 700, 700, 1]);
    assert_eq!(as_recorded().crunch(&bow), Err(Refusal::TooManyBreaks));
    assert!(in_whole_units(Settings::of_crate()).crunch(&bow).is_ok());
}

#[test]
fn whether_8_is_met_depends_on_the_penalty() {
    let contour = points(&[0, 0, 1, 432, 433, 0, 410, 410, 1, -300, 900, 1]);
    for penalty in [1, 16, 32] {
        assert_eq!(at_penalty(penalty).crunch(&contour), Err(Refusal::PastLastSample), "{penalty}");
    }
    assert!(at_penalty(256).crunch(&contour).is_ok());
}

#[test]
fn penalties_from_1_to_256_are_allowed() {
    for penalty in [0, 257, 4096, u32::MAX] {
        let mut cruncher = at_penalty(penalty);
        assert_eq!(cruncher.crunch(&hill()), Err(Refusal::NoSuchPenalty));
        assert_eq!(cruncher.chain(&hill(), 0), Err(Refusal::NoSuchPenalty));
        assert_eq!(cruncher.check(&hill(), 0, &chain_at(16, &hill())), Err(Refusal::NoSuchPenalty));
        // before 10, and after 1 to 5
        assert_eq!(cruncher.chain(&hill(), 7), Err(Refusal::NoSuchPenalty));
        let neighbours = points(&[0, 0, 1, 1, 1, 0, 2, 2, 0]);
        assert_eq!(cruncher.crunch(&neighbours), Err(Refusal::OffCurveNeighbours));
        assert_eq!(cruncher.chain(&neighbours, 7), Err(Refusal::OffCurveNeighbours));
        // nothing is crunched by it
        assert!(cruncher.why(&hill(), 0).unwrap().is_corner());
    }
    for penalty in [1, 256] {
        assert!(at_penalty(penalty).crunch(&hill()).is_ok());
    }
}
