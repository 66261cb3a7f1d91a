//! Chains that the library finds are accepted; damaged ones are not.

mod common;

use common::{as_recorded, hill, letter, points, still};
use fontcrunch::{Chain, Cruncher, Piece, Point, Refusal, Settings};

fn hill_chain() -> Chain {
    as_recorded().chain(&hill(), 0).unwrap()
}

fn accepts(chain: &Chain) -> bool {
    as_recorded().check(&hill(), 0, chain).unwrap()
}

/// The chain of the hill after a change.
fn changed(change: impl FnOnce(&mut Chain)) -> Chain {
    let mut chain = hill_chain();
    change(&mut chain);
    chain
}

fn assert_not_accepted(what: &str, change: impl FnOnce(&mut Chain)) {
    assert!(!accepts(&changed(change)), "{what}");
}

#[test]
fn a_known_chain() {
    let chain = hill_chain();
    let pieces = [
        Piece { start: 0, end: 241, control: (0.0, 60.0) },
        Piece { start: 241, end: 469, control: (80.0, 120.0) },
    ];
    assert_eq!(chain.pieces, pieces);
    assert_eq!(chain.score.to_bits(), 0x4008_1ec1_1db4_7a5f);
    assert_eq!(chain.pairs, 937);
    assert_eq!(chain.segments, [(0, 1), (1, 1)]);
    assert!(accepts(&chain));
}

#[test]
fn a_run_that_goes_round_comes_back_to_segment_0() {
    let square = points(&[50, 0, 1, 100, 0, 1, 100, 60, 1, 0, 60, 1, 0, 0, 1]);
    let closed = Settings::of_crate().with_closed(true);
    let chain = Cruncher::new(closed).chain(&square, 3).unwrap();
    assert_eq!(chain.segments, [(4, 0)]);
}

#[test]
fn the_checker_does_not_look_at_segments() {
    assert!(accepts(&changed(|chain| chain.segments.clear())));
    assert!(accepts(&changed(|chain| chain.segments[0] = (7, u32::MAX))));
}

/// The runs of a contour that are not copied. There are fewer runs than points.
fn worked_runs(cruncher: &mut Cruncher, contour: &[Point]) -> Vec<(usize, Chain)> {
    (0..contour.len()).filter_map(|run| cruncher.chain(contour, run).ok().map(|chain| (run, chain))).collect()
}

#[test]
fn the_chains_of_a_letter_are_accepted_and_their_pairs_add_up() {
    let mut cruncher = as_recorded();
    for contour in letter() {
        let crunched = cruncher.crunch(&contour).unwrap();
        let runs = worked_runs(&mut cruncher, &contour);
        assert!(!runs.is_empty());
        for (run, chain) in &runs {
            assert_eq!(cruncher.check(&contour, *run, chain), Ok(true));
            assert_pairs_are_possible(chain);
        }
        assert_eq!(runs.iter().map(|(_, chain)| chain.pairs).sum::<usize>(), crunched.pairs);
    }
}

/// With last break n: 1, or 1 + 2 (n - 1), or that and n (n + 1) / 2 more.
fn assert_pairs_are_possible(chain: &Chain) {
    let n = chain.pieces.last().unwrap().end as usize;
    let with_splits = 1 + 2 * (n - 1);
    assert!([1, with_splits, with_splits + n * (n + 1) / 2].contains(&chain.pairs));
}

#[test]
fn the_chain_of_another_run_or_contour() {
    let mut cruncher = as_recorded();
    let counter = &letter()[2];
    let runs = worked_runs(&mut cruncher, counter);
    assert_eq!(runs.len(), 3);
    let (run, chain) = &runs[0];
    for (other, _) in &runs[1..] {
        assert_eq!(cruncher.check(counter, *other, chain), Ok(false), "run {run} for {other}");
    }
    assert!(!accepts(chain));
}

#[test]
fn a_break_number_off() {
    for piece in 0..2 {
        for by in [1, u32::MAX] {
            assert_not_accepted("start", |c| c.pieces[piece].start = c.pieces[piece].start.wrapping_add(by));
            assert_not_accepted("end", |c| c.pieces[piece].end = c.pieces[piece].end.wrapping_add(by));
        }
    }
    assert_not_accepted("joint moved", |c| {
        c.pieces[0].end += 1;
        c.pieces[1].start += 1;
    });
    assert_not_accepted("no such break", |c| c.pieces[1].end = u32::MAX);
    assert_not_accepted("breaks that fall", |c| {
        c.pieces[0].end = 300;
        c.pieces[1].start = 300;
        c.pieces[1].end = 200;
    });
}

#[test]
fn a_control_off_by_one_unit_in_the_last_place() {
    for piece in 0..2 {
        for shift in [f64::next_up, f64::next_down] {
            assert_not_accepted("x", |c| c.pieces[piece].control.0 = shift(c.pieces[piece].control.0));
            assert_not_accepted("y", |c| c.pieces[piece].control.1 = shift(c.pieces[piece].control.1));
        }
    }
}

#[test]
fn a_control_that_is_no_number() {
    for odd in [f64::NAN, f64::INFINITY, f64::NEG_INFINITY] {
        assert_not_accepted("x", |c| c.pieces[0].control.0 = odd);
        assert_not_accepted("y", |c| c.pieces[1].control.1 = odd);
    }
}

#[test]
fn zeros_of_either_sign_are_equal() {
    // the library itself gives -0.0 here
    assert!(hill_chain().pieces[0].control.0.is_sign_negative());
    assert!(accepts(&changed(|c| c.pieces[0].control.0 = 0.0)));
    assert!(accepts(&changed(|c| c.pieces[0].control.0 = -0.0)));
}

#[test]
fn pieces_missing_doubled_or_out_of_order() {
    assert_not_accepted("first dropped", |c| _ = c.pieces.remove(0));
    assert_not_accepted("last dropped", |c| _ = c.pieces.pop());
    assert_not_accepted("all dropped", |c| c.pieces.clear());
    assert_not_accepted("doubled", |c| c.pieces.insert(0, c.pieces[0]));
    assert_not_accepted("swapped", |c| c.pieces.swap(0, 1));
    assert_not_accepted("many", |c| c.pieces = vec![c.pieces[0]; 100_000]);
}

#[test]
fn a_score_one_unit_in_the_last_place_off() {
    assert_not_accepted("above", |c| c.score = c.score.next_up());
    assert_not_accepted("below", |c| c.score = c.score.next_down());
    assert_not_accepted("NaN", |c| c.score = f64::NAN);
    assert_not_accepted("infinite", |c| c.score = f64::INFINITY);
    assert_not_accepted("negative", |c| c.score = -c.score);
}

#[test]
fn pairs_are_not_looked_at() {
    assert!(accepts(&changed(|c| c.pairs = 0)));
}

#[test]
fn a_good_shape_with_the_score_of_another() {
    // the straight piece over the whole run
    let pieces = vec![Piece { start: 0, end: 469, control: (65.0, 60.0) }];
    assert!(!accepts(&Chain::new(pieces, hill_chain().score)));
}

#[test]
fn nans_are_equal_whatever_their_bits() {
    // a run with one break: its one piece stays there, and its score is no number
    let contour = points(&[0, 0, 1, 0, 1, 0, 0, 0, 1, 5, 50, 1]);
    let mut cruncher = as_recorded();
    let mut chain = cruncher.chain(&contour, 0).unwrap();
    assert_eq!(chain.pieces, [Piece { start: 0, end: 0, control: (0.0, 0.0) }]);
    assert_eq!(chain.score.to_bits(), 0x7ff8_0000_0000_0000);
    for bits in [0x7ff8_0000_0000_0000, 0xfff8_0000_0000_0001, 0x7ff0_0000_0000_0001] {
        chain.score = f64::from_bits(bits);
        assert_eq!(cruncher.check(&contour, 0, &chain), Ok(true));
    }
    chain.score = 1.0;
    assert_eq!(cruncher.check(&contour, 0, &chain), Ok(false));
}

#[test]
fn an_unchanged_run_has_no_chain() {
    let mut cruncher = as_recorded();
    let chain = cruncher.chain(&still(), 0).unwrap();
    assert_eq!((chain.pairs, chain.fallen), (1, 0));
    assert!(chain.pieces.is_empty() && chain.segments.is_empty());
    assert_eq!(chain.score.to_bits(), 0);
    assert_eq!(cruncher.check(&still(), 0, &chain), Ok(false));
}

// document 01's tangents: run 0 is worked where the second point is no corner, and a copied line where it is
#[test]
fn corners_by_angle() {
    let mut cruncher = as_recorded();
    let flat = points(&[0, 0, 1, 100, 0, 1, 200, 2, 1, 300, -300, 1]);
    assert_eq!(cruncher.chain(&flat, 0).unwrap().pieces.len(), 1);
    let bent = points(&[0, 0, 1, 100, 0, 1, 199, 2, 1, 300, -300, 1]);
    assert_eq!(cruncher.chain(&bent, 0), Err(Refusal::NoSuchRun));
    // a half turn is no corner: the run holds both curves, and there is no second one
    let turn = points(&[0, 0, 1, -50, 50, 0, 50, 50, 1, -50, 50, 0, 100, 100, 1]);
    assert!(cruncher.chain(&turn, 0).is_ok());
    assert_eq!(cruncher.chain(&turn, 1), Err(Refusal::NoSuchRun));
}
