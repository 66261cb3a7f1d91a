//! Lookups that fell past the samples: the numbers are the oracle's, tools/oracle/cases.py.

mod common;

use common::{as_recorded, hill, letter, points, still};
use fontcrunch::{Chain, Cruncher, Editions, Piece, Point, Refusal, Settings, Verdict};

/// On whole units some lookups of run 0 fall past its samples.
fn fell() -> Vec<Point> {
    points(&[-1795, 0, 1, -1794, 0, 1, 143, -4, 0, -3, 7, 1, -1795, -900, 1])
}

fn at(penalty: u32) -> Cruncher {
    Cruncher::new(Settings::default().with_penalty(penalty).with_whole_units(true))
}

fn high() -> Cruncher {
    at(256)
}

#[test]
fn a_contour_counts_every_attempt() {
    let out = points(&[-1795, -900, 1, -3, 7, 1, 64, 2, 0, -297, 0, 1, -1795, 0, 1]);
    let crunched = high().crunch(&fell()).unwrap();
    assert_eq!((crunched.points, crunched.pairs, crunched.fallen), (out, 3641, 4));
    // the full search tries more
    let crunched = at(16).crunch(&fell()).unwrap();
    assert_eq!((crunched.pairs, crunched.fallen), (1_662_572, 8));
}

#[test]
fn a_run_counts_its_own() {
    let mut cruncher = high();
    let chain = cruncher.chain(&fell(), 0).unwrap();
    assert_eq!((chain.pieces.len(), chain.pairs, chain.fallen), (2, 3641, 4));
    assert_eq!(cruncher.chain(&fell(), 1), Err(Refusal::NoSuchRun));
}

#[test]
fn in_closed_mode_too() {
    let mut cruncher = Cruncher::new(high().settings().with_closed(true));
    assert_eq!(cruncher.crunch(&fell()).unwrap().fallen, 4);
}

#[test]
fn an_unchanged_contour_counts_the_runs_before() {
    let mut unchanged = fell();
    unchanged.extend(points(&[-1795, -900, 0, -1795, -900, 1]));
    let mut cruncher = high();
    let crunched = cruncher.crunch(&unchanged).unwrap();
    assert_eq!((crunched.pairs, crunched.fallen), (3642, 4));
    // its own points, the start at both ends
    assert_eq!(crunched.points.len(), unchanged.len() + 1);
    assert_eq!(cruncher.chain(&unchanged, 2).unwrap().fallen, 0);
    assert_eq!(as_recorded().crunch(&still()).unwrap().fallen, 0);
    assert_eq!(as_recorded().chain(&still(), 0).unwrap().fallen, 0);
}

#[test]
fn none_falls_in_a_letter() {
    let mut cruncher = as_recorded();
    for contour in letter().iter().chain([&hill()]) {
        assert_eq!(cruncher.crunch(contour).unwrap().fallen, 0);
    }
}

#[test]
fn refusal_8_stays_where_lookups_fell_before_it() {
    let contour = points(&[1858, 4, 1, 1857, 4, 1, -154, 5, 0, 9, 3, 1, 1858, 508, 1]);
    assert_eq!(high().crunch(&contour), Err(Refusal::PastLastSample));
    assert_eq!(high().chain(&contour, 0), Err(Refusal::PastLastSample));
}

/// The bent piece over the whole run, which no optimiser takes.
fn bent() -> Chain {
    let pieces = vec![Piece { start: 0, end: 1821, control: (90.0, 0.0) }];
    let score = f64::from_bits(0x4089_1b56_6b74_f7c1);
    Chain::new(pieces, score)
}

fn said(verdict: Result<Verdict, Refusal>) -> Result<(bool, usize), Refusal> {
    verdict.map(|verdict| (verdict.accepted, verdict.fallen))
}

#[test]
fn the_checker_counts_its_chain_alone() {
    let mut cruncher = high();
    // attempts of the run fell, and none of the pieces that were taken
    let found = cruncher.chain(&fell(), 0).unwrap();
    assert_eq!(said(cruncher.verdict(&fell(), 0, &found)), Ok((true, 0)));
    assert_eq!(said(cruncher.verdict(&fell(), 0, &bent())), Ok((true, 2)));
    assert_eq!(cruncher.check(&fell(), 0, &bent()), Ok(true));
}

#[test]
fn the_checker_counts_where_it_measures() {
    let mut cruncher = high();
    let mut verdict = |change: &dyn Fn(&mut Chain)| {
        let mut chain = bent();
        change(&mut chain);
        said(cruncher.verdict(&fell(), 0, &chain))
    };
    let measured = Ok((false, 2));
    assert_eq!(verdict(&|chain| chain.score = chain.score.next_up()), measured);
    assert_eq!(verdict(&|chain| chain.score = f64::NAN), measured);
    let not_measured = Ok((false, 0));
    assert_eq!(verdict(&|chain| chain.pieces[0].end = 1820), not_measured);
    assert_eq!(verdict(&|chain| chain.pieces[0].control.0 = 90.5), not_measured);
    assert_eq!(verdict(&|chain| chain.pieces.clear()), not_measured);
    // what the chain says of its search is not looked at
    assert_eq!(verdict(&|chain| chain.fallen = 7), Ok((true, 2)));
}

#[test]
fn the_checker_refuses_as_before() {
    assert_eq!(high().verdict(&[], 0, &bent()), Err(Refusal::NoPoint));
    assert_eq!(high().verdict(&fell(), 1, &bent()), Err(Refusal::NoSuchRun));
    assert_eq!(at(257).verdict(&fell(), 0, &bent()), Err(Refusal::NoSuchPenalty));
}

#[test]
fn each_edition_has_its_own_number() {
    let Editions { a, b } = high().editions(&fell(), 256, 32);
    assert_eq!((a.unwrap().fallen, b.unwrap().fallen), (4, 8));
    let Editions { a, b } = high().editions(&fell(), 0, 256);
    assert_eq!((a, b.unwrap().fallen), (Err(Refusal::NoSuchPenalty), 4));
}
