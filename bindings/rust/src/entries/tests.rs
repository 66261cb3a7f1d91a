//! Rows of every length and content: rooms, refusals, and what is left in each row.

use super::editions::{editions, EditionsReport};
use super::*;
use crate::rows::OwnRows;

/// What the numbers below were recorded with.
const AS_RECORDED: Settings = Settings::of_crate();

/// Two curves with a smooth joint: a chain of two pieces over 470 breaks, then a copied line.
const HILL: [(i16, i16, u8); 6] =
    [(0, 0, 1), (0, 60, 0), (40, 90, 1), (80, 120, 0), (130, 120, 1), (200, -40, 1)];
const HILL_BREAKS: usize = 470;
const HILL_SAMPLES: usize = 201;
/// Two off-curve points, two corners, the start, and the joint, which is dropped at the end.
const HILL_POINTS: usize = 6;

fn contour(points: &[(i16, i16, u8)]) -> Contour {
    Contour {
        xs: points.iter().map(|p| p.0).collect(),
        ys: points.iter().map(|p| p.1).collect(),
        flags: points.iter().map(|p| p.2).collect(),
    }
}

/// Scratch rows that hold anything but zeros.
fn littered(samples: usize, breaks: usize, answers: usize, links: usize) -> Scratch {
    Scratch {
        samples: vec![[f64::NAN; 4]; samples].into(),
        breaks: vec![[-7.5; 6]; breaks].into(),
        answers: vec![[f64::INFINITY; 3]; answers].into(),
        links: vec![u32::MAX; links].into(),
    }
}

fn littered_full() -> Scratch {
    littered(16_384, 2048, 4096, 4096)
}

/// Output rows that hold 99s, so that a place that is written shows.
fn marked(xs: usize, ys: usize, flags: usize, points: usize) -> Output {
    Output {
        xs: vec![99; xs].into(),
        ys: vec![99; ys].into(),
        flags: vec![99; flags].into(),
        points: vec![[99; 3]; points].into(),
    }
}

fn marked_chain(starts: usize, ends: usize, xs: usize, ys: usize) -> ChainRows {
    let spans = vec![[99; 2]; starts.max(ends).max(xs).max(ys)];
    ChainRows {
        starts: vec![99; starts],
        ends: vec![99; ends],
        xs: vec![99.0; xs],
        ys: vec![99.0; ys],
        spans,
    }
}

fn assert_zero(scratch: &Scratch) {
    // bits, since a -0.0 would be something left over
    let is_zero = |x: &f64| x.to_bits() == 0;
    assert!(scratch.samples.iter().flatten().all(is_zero));
    assert!(scratch.breaks.iter().flatten().all(is_zero));
    assert!(scratch.answers.iter().flatten().all(is_zero));
    assert!(scratch.links.iter().all(|&link| link == 0));
}

fn assert_untouched(out: &Output, from: usize) {
    assert!(out.xs.iter().skip(from).all(|&x| x == 99));
    assert!(out.ys.iter().skip(from).all(|&y| y == 99));
    assert!(out.flags.iter().skip(from).all(|&flag| flag == 99));
    assert!(out.points.iter().flatten().all(|&v| v == 0), "the row for points is scratch");
}

fn assert_untouched_chain(chain: &ChainRows, from: usize) {
    assert!(chain.starts.iter().skip(from).all(|&start| start == 99));
    assert!(chain.ends.iter().skip(from).all(|&end| end == 99));
    assert!(chain.xs.iter().skip(from).all(|&x| x == 99.0));
    assert!(chain.ys.iter().skip(from).all(|&y| y == 99.0));
    assert!(chain.spans.iter().skip(from).all(|&span| span == [99; 2]));
}

/// A refusal reports nothing else.
const fn refused_crunch(number: u32) -> CrunchReport {
    CrunchReport { number, points: 0, pairs: 0, fallen: 0 }
}

const fn refused_chain(number: u32) -> ChainReport {
    ChainReport { number, pieces: 0, pairs: 0, score_bits: 0, fallen: 0 }
}

const fn refused_check(number: u32) -> CheckReport {
    CheckReport { number, accepted: 0, fallen: 0 }
}

fn crunch_number(contour: &Contour, mut out: Output, mut scratch: Scratch) -> u32 {
    let report = crunch(contour, AS_RECORDED, &mut out, &mut scratch);
    assert_zero(&scratch);
    if report.number != 0 {
        assert_eq!(report, refused_crunch(report.number));
        assert_untouched(&out, 0);
    }
    report.number
}

fn chain_number(contour: &Contour, run: usize, mut rows: ChainRows, mut scratch: Scratch) -> u32 {
    let report = chain(contour, run, AS_RECORDED, &mut rows, &mut scratch);
    assert_zero(&scratch);
    if report.number != 0 {
        assert_eq!(report, refused_chain(report.number));
        assert_untouched_chain(&rows, 0);
    }
    report.number
}

fn check_number(contour: &Contour, run: usize, rows: &ChainRows, mut scratch: Scratch) -> u32 {
    let report = check(contour, run, AS_RECORDED, rows, 0.0, &mut scratch);
    assert_zero(&scratch);
    assert_eq!(report, refused_check(report.number));
    report.number
}

/// What each entry says of a contour, with full rows.
fn numbers(contour: &Contour) -> [u32; 3] {
    [
        crunch_number(contour, marked(64, 64, 64, 64), littered_full()),
        chain_number(contour, 0, marked_chain(64, 64, 64, 64), littered_full()),
        check_number(contour, 0, &marked_chain(1, 1, 1, 1), littered_full()),
    ]
}

#[test]
fn success_writes_the_first_places_and_leaves_scratch_zero() {
    let mut out = marked(20, 30, 40, 50);
    let mut scratch = littered_full();
    let report = crunch(&contour(&HILL), AS_RECORDED, &mut out, &mut scratch);
    assert_eq!(report, CrunchReport { number: 0, points: 5, pairs: 937, fallen: 0 });
    assert_eq!(out.xs[..5], [200, 130, 80, 0, 0]);
    assert_eq!(out.ys[..5], [-40, 120, 120, 60, 0]);
    assert_eq!(out.flags[..5], [1, 1, 0, 0, 1]);
    assert_untouched(&out, 5);
    assert_zero(&scratch);
}

#[test]
fn a_chain_is_written_to_the_first_places() {
    let mut rows = marked_chain(3, 4, 5, 6);
    let mut scratch = littered_full();
    let report = chain(&contour(&HILL), 0, AS_RECORDED, &mut rows, &mut scratch);
    assert_eq!((report.number, report.pieces, report.pairs), (0, 2, 937));
    assert_eq!(report.score_bits, 0x4008_1ec1_1db4_7a5f);
    assert_eq!((&rows.starts[..2], &rows.ends[..2]), (&[0, 241][..], &[241, 469][..]));
    assert_eq!((&rows.xs[..2], &rows.ys[..2]), (&[0.0, 80.0][..], &[60.0, 120.0][..]));
    assert_untouched_chain(&rows, 2);
    assert_zero(&scratch);
}

#[test]
fn rows_of_unequal_length_are_refused_by_1() {
    for row in 0..3 {
        let mut uneven = contour(&HILL);
        match row {
            0 => drop(uneven.xs.pop()),
            1 => drop(uneven.ys.pop()),
            _ => uneven.flags.push(1),
        }
        assert_eq!(numbers(&uneven), [1, 1, 1]);
    }
}

#[test]
fn refusals_1_to_5_are_tested_in_order() {
    let off = (0, 0, 0);
    assert_eq!(numbers(&Contour { flags: vec![1], ..Contour::default() }), [1, 1, 1]);
    assert_eq!(numbers(&contour(&[])), [2, 2, 2]);
    assert_eq!(numbers(&contour(&[off; 1025])), [3, 3, 3]);
    assert_eq!(numbers(&contour(&[off; 2])), [4, 4, 4]);
    assert_eq!(numbers(&contour(&[(0, 0, 1), off, off])), [5, 5, 5]);
}

/// What each entry says at a penalty: of run 0, and of one that no contour here has.
fn numbers_at(penalty: u32, contour: &Contour, scratch: impl Fn() -> Scratch) -> [u32; 4] {
    let settings = Settings { penalty, ..AS_RECORDED };
    let mut out = marked(0, 0, 0, 0);
    let mut rows = marked_chain(0, 0, 0, 0);
    let crunched = crunch(contour, settings, &mut out, &mut scratch()).number;
    assert_untouched(&out, 0);
    let mut chained = |run| chain(contour, run, settings, &mut rows, &mut scratch()).number;
    [crunched, chained(0), chained(9), check(contour, 0, settings, &rows, 1.0, &mut scratch()).number]
}

#[test]
fn a_penalty_is_tested_after_1_to_5_and_before_anything_else() {
    let none = || littered(0, 0, 0, 0);
    for penalty in [0, 257, u32::MAX] {
        assert_eq!(numbers_at(penalty, &Contour { flags: vec![1], ..Contour::default() }, none), [1; 4]);
        assert_eq!(numbers_at(penalty, &contour(&[]), none), [2; 4]);
        assert_eq!(numbers_at(penalty, &contour(&[(0, 0, 1); 1025]), none), [3; 4]);
        assert_eq!(numbers_at(penalty, &contour(&[(0, 0, 0)]), none), [4; 4]);
        assert_eq!(numbers_at(penalty, &contour(&[(0, 0, 1), (1, 1, 0), (2, 2, 0)]), none), [5; 4]);
        // before 10, before 6 and 7 for want of room, and before 9
        assert_eq!(numbers_at(penalty, &contour(&HILL), none), [16; 4]);
        assert_eq!(numbers_at(penalty, &contour(&HILL), littered_full), [16; 4]);
    }
    for penalty in [1, 16, 32, 256] {
        assert_eq!(numbers_at(penalty, &contour(&HILL), none), [6, 6, 10, 6]);
        assert_eq!(numbers_at(penalty, &contour(&HILL), littered_full), [9, 9, 10, 0]);
    }
}

#[test]
fn a_penalty_that_is_refused_leaves_scratch_zero() {
    let settings = Settings { penalty: 0, ..AS_RECORDED };
    let (mut out, mut rows, mut scratch) = (marked(9, 9, 9, 9), marked_chain(9, 9, 9, 9), littered_full());
    let report = crunch(&contour(&HILL), settings, &mut out, &mut scratch);
    assert_eq!(report, refused_crunch(16));
    assert_untouched(&out, 0);
    assert_zero(&scratch);
    scratch = littered_full();
    let report = chain(&contour(&HILL), 0, settings, &mut rows, &mut scratch);
    assert_eq!(report, refused_chain(16));
    assert_untouched_chain(&rows, 0);
    assert_zero(&scratch);
    scratch = littered_full();
    let report = check(&contour(&HILL), 0, settings, &rows, 1.0, &mut scratch);
    assert_eq!(report, refused_check(16));
    assert_zero(&scratch);
}

#[test]
fn the_sample_room_is_the_row() {
    let rows = |samples| littered(samples, 2048, 4096, 4096);
    let hill = contour(&HILL);
    assert_eq!(crunch_number(&hill, marked(9, 9, 9, 9), rows(HILL_SAMPLES)), 0);
    for samples in [HILL_SAMPLES - 1, 0] {
        assert_eq!(crunch_number(&hill, marked(9, 9, 9, 9), rows(samples)), 6);
        assert_eq!(chain_number(&hill, 0, marked_chain(9, 9, 9, 9), rows(samples)), 6);
        assert_eq!(check_number(&hill, 0, &ChainRows::default(), rows(samples)), 6);
    }
}

#[test]
fn the_break_room_is_the_break_row_and_half_the_answer_rows() {
    let hill = contour(&HILL);
    let exact = [HILL_BREAKS, 2 * HILL_BREAKS, 2 * HILL_BREAKS];
    let scratch = |rooms: [usize; 3]| littered(16_384, rooms[0], rooms[1], rooms[2]);
    assert_eq!(crunch_number(&hill, marked(9, 9, 9, 9), scratch(exact)), 0);
    for row in 0..3 {
        for room in [exact[row] - 1, 0] {
            let mut short = exact;
            short[row] = room;
            assert_eq!(crunch_number(&hill, marked(9, 9, 9, 9), scratch(short)), 7);
            assert_eq!(chain_number(&hill, 0, marked_chain(9, 9, 9, 9), scratch(short)), 7);
            assert_eq!(check_number(&hill, 0, &ChainRows::default(), scratch(short)), 7);
        }
    }
}

#[test]
fn longer_rows_than_the_full_rooms_are_not_used_further() {
    let long = || littered(20_000, 3000, 6000, 6000);
    // a straight curve of 16,383 units, one sample more than the room
    let samples = contour(&[(0, 0, 1), (8190, 0, 0), (16_383, 0, 1), (0, 500, 1)]);
    assert_eq!(crunch_number(&samples, marked(9, 9, 9, 9), long()), 6);
    let breaks = contour(&[(0, 0, 1), (500, 0, 0), (1022, 3, 1), (-3000, 500, 1)]);
    assert_eq!(crunch_number(&breaks, marked(9, 9, 9, 9), long()), 7);
}

#[test]
fn the_shortest_row_counts_for_9() {
    let hill = contour(&HILL);
    let room = HILL_POINTS;
    assert_eq!(crunch_number(&hill, marked(room, room, room, room), littered_full()), 0);
    for row in 0..4 {
        for short in [room - 1, 1, 0] {
            let mut rooms = [room; 4];
            rooms[row] = short;
            let out = marked(rooms[0], rooms[1], rooms[2], rooms[3]);
            assert_eq!(crunch_number(&hill, out, littered_full()), 9);
        }
    }
}

#[test]
fn the_shortest_chain_row_counts_for_9() {
    let hill = contour(&HILL);
    for row in 0..4 {
        for short in [1, 0] {
            let mut rooms = [2; 4];
            rooms[row] = short;
            let rows = marked_chain(rooms[0], rooms[1], rooms[2], rooms[3]);
            assert_eq!(chain_number(&hill, 0, rows, littered_full()), 9);
        }
    }
    for short in [1, 0] {
        let mut rows = marked_chain(2, 2, 2, 2);
        rows.spans.truncate(short);
        assert_eq!(chain_number(&hill, 0, rows, littered_full()), 9);
    }
}

#[test]
fn copied_lines_and_missing_runs_are_refused_by_10() {
    let hill = contour(&HILL);
    for run in [1, 2, 3, 1000, usize::MAX] {
        assert_eq!(chain_number(&hill, run, marked_chain(9, 9, 9, 9), littered_full()), 10);
        assert_eq!(check_number(&hill, run, &marked_chain(1, 1, 1, 1), littered_full()), 10);
    }
    // 10 is tested before the run is worked, and 1 to 5 before 10
    assert_eq!(chain_number(&hill, 1, ChainRows::default(), littered(0, 0, 0, 0)), 10);
    assert_eq!(chain_number(&contour(&[]), 7, ChainRows::default(), littered(0, 0, 0, 0)), 2);
}

#[test]
fn in_closed_mode_the_last_run_goes_round() {
    let closed = Settings { closed: true, ..AS_RECORDED };
    // after the last corner a line to (50, 0), and on to the first corner: no copied line
    let square = contour(&[(50, 0, 1), (100, 0, 1), (100, 60, 1), (0, 60, 1), (0, 0, 1)]);
    let number = |settings, run| {
        chain(&square, run, settings, &mut marked_chain(9, 9, 9, 9), &mut littered_full()).number
    };
    assert_eq!([0, 1, 2, 3, 4].map(|run| number(closed, run)), [10, 10, 10, 0, 10]);
    assert_eq!([0, 1, 2, 3, 4].map(|run| number(AS_RECORDED, run)), [10; 5]);
    let room = |places| {
        let mut out = marked(places, places, places, places);
        crunch(&square, closed, &mut out, &mut littered_full())
    };
    // four corners, and the start not again
    assert_eq!(room(4), CrunchReport { number: 0, points: 4, pairs: 1, fallen: 0 });
    assert_eq!(room(3).number, 9);
}

#[test]
fn chain_rows_of_unequal_length_are_not_accepted() {
    let hill = contour(&HILL);
    let mut found = ChainRows::default();
    found.resize(2);
    let mut scratch = littered_full();
    let score = f64::from_bits(chain(&hill, 0, AS_RECORDED, &mut found, &mut scratch).score_bits);
    assert_eq!(
        check(&hill, 0, AS_RECORDED, &found, score, &mut scratch),
        CheckReport { number: 0, accepted: 1, fallen: 0 }
    );
    for row in 0..4 {
        let mut uneven = marked_chain(0, 0, 0, 0);
        uneven.starts.clone_from(&found.starts);
        uneven.ends.clone_from(&found.ends);
        uneven.xs.clone_from(&found.xs);
        uneven.ys.clone_from(&found.ys);
        match row {
            0 => uneven.starts.push(469),
            1 => uneven.ends.push(469),
            2 => uneven.xs.push(80.0),
            _ => uneven.ys.push(120.0),
        }
        assert_eq!(
            check(&hill, 0, AS_RECORDED, &uneven, score, &mut scratch),
            CheckReport { number: 0, accepted: 0, fallen: 0 }
        );
        assert_zero(&scratch);
    }
}

#[test]
fn an_unchanged_run_writes_no_piece_and_no_score() {
    let still = contour(&[(5, 5, 1), (5, 5, 0), (5, 5, 1)]);
    let mut rows = marked_chain(9, 9, 9, 9);
    let mut scratch = littered_full();
    let report = chain(&still, 0, AS_RECORDED, &mut rows, &mut scratch);
    assert_eq!(report, ChainReport { number: 0, pieces: 0, pairs: 1, score_bits: 0, fallen: 0 });
    assert_untouched_chain(&rows, 0);
    assert_zero(&scratch);
}

/// On whole units some lookups of run 0 fall past its samples.
const FELL: [(i16, i16, u8); 5] = [(-1795, 0, 1), (-1794, 0, 1), (143, -4, 0), (-3, 7, 1), (-1795, -900, 1)];
/// The same, refused by 8 after lookups fell.
const FELL_AND_REFUSED: [(i16, i16, u8); 5] =
    [(1858, 4, 1), (1857, 4, 1), (-154, 5, 0), (9, 3, 1), (1858, 508, 1)];
const HIGH: Settings = Settings { penalty: 256, whole_units: true, closed: false };
const FELL_POINTS: usize = 5;

#[test]
fn a_refusal_after_lookups_fell_counts_none() {
    let fell = contour(&FELL);
    let room = |places| marked(places, places, places, places);
    let crunched = |places, mut scratch: Scratch| crunch(&fell, HIGH, &mut room(places), &mut scratch);
    let report = crunched(FELL_POINTS, littered_full());
    assert_eq!(report, CrunchReport { number: 0, points: FELL_POINTS, pairs: 3641, fallen: 4 });
    assert_eq!(crunched(FELL_POINTS - 1, littered_full()), refused_crunch(9));
    assert_eq!(crunched(9, littered(16_384, 2048, 99, 99)), refused_crunch(7));
    let chained = |mut rows: ChainRows| chain(&fell, 0, HIGH, &mut rows, &mut littered_full());
    assert_eq!(chained(marked_chain(2, 2, 2, 2)).fallen, 4);
    assert_eq!(chained(marked_chain(2, 1, 2, 2)), refused_chain(9));
    let eight = contour(&FELL_AND_REFUSED);
    assert_eq!(crunch(&eight, HIGH, &mut room(9), &mut littered_full()), refused_crunch(8));
    let mut rows = marked_chain(9, 9, 9, 9);
    assert_eq!(chain(&eight, 0, HIGH, &mut rows, &mut littered_full()), refused_chain(8));
}

#[test]
fn of_two_editions_only_the_one_that_is_refused_counts_none() {
    let mut own = OwnRows::full();
    let mut report = |settings, penalty, places| {
        let (mut out_a, mut out_b) = (marked(9, 9, 9, 9), marked(places, places, places, places));
        let contour = contour(&FELL);
        editions(&contour, settings, penalty, &mut littered_full(), &mut out_a, &mut own, &mut out_b)
    };
    let whole = CrunchReport { number: 0, points: FELL_POINTS, pairs: 3641, fallen: 4 };
    assert_eq!(report(HIGH, 256, 9), EditionsReport { a: whole, b: whole });
    assert_eq!(report(HIGH, 256, FELL_POINTS - 1), EditionsReport { a: whole, b: refused_crunch(9) });
    assert_eq!(report(HIGH, 257, 9), EditionsReport { a: whole, b: refused_crunch(16) });
    let none = Settings { penalty: 0, ..HIGH };
    assert_eq!(report(none, 256, 9), EditionsReport { a: refused_crunch(16), b: whole });
}

/// One piece over the whole run, which no optimiser takes: one place and one direction fall as it is measured.
fn bent() -> (ChainRows, f64) {
    let rows = ChainRows { starts: vec![0], ends: vec![1821], xs: vec![90.0], ys: vec![0.0], spans: vec![] };
    (rows, f64::from_bits(0x4089_1b56_6b74_f7c1))
}

#[test]
fn the_checker_counts_what_it_measures() {
    let checked = |contour: &[(i16, i16, u8)], rows: &ChainRows, score| {
        let mut scratch = littered_full();
        let report = check(&self::contour(contour), 0, HIGH, rows, score, &mut scratch);
        assert_zero(&scratch);
        report
    };
    let (rows, score) = bent();
    assert_eq!(checked(&FELL, &rows, score), CheckReport { number: 0, accepted: 1, fallen: 2 });
    // another score is found out by measuring, and uneven rows or another shape before it
    assert_eq!(checked(&FELL, &rows, score.next_up()), CheckReport { number: 0, accepted: 0, fallen: 2 });
    let not_measured = CheckReport { number: 0, accepted: 0, fallen: 0 };
    let uneven = ChainRows { ys: vec![0.0; 2], ..bent().0 };
    assert_eq!(checked(&FELL, &uneven, score), not_measured);
    let beside = ChainRows { xs: vec![90.5], ..bent().0 };
    assert_eq!(checked(&FELL, &beside, score), not_measured);
    let short = ChainRows { ends: vec![1820], ..bent().0 };
    assert_eq!(checked(&FELL, &short, score), not_measured);
    assert_eq!(checked(&FELL, &ChainRows::default(), score), not_measured);
}

#[test]
fn reports_have_the_layout_of_the_header() {
    use std::mem::{offset_of, size_of};
    assert_eq!(size_of::<CrunchReport>(), 32);
    assert_eq!((offset_of!(CrunchReport, points), offset_of!(CrunchReport, pairs)), (8, 16));
    assert_eq!(offset_of!(CrunchReport, fallen), 24);
    assert_eq!(size_of::<ChainReport>(), 40);
    assert_eq!((offset_of!(ChainReport, pieces), offset_of!(ChainReport, pairs)), (8, 16));
    assert_eq!((offset_of!(ChainReport, score_bits), offset_of!(ChainReport, fallen)), (24, 32));
    assert_eq!(size_of::<CheckReport>(), 16);
    assert_eq!((offset_of!(CheckReport, accepted), offset_of!(CheckReport, fallen)), (4, 8));
    assert_eq!((size_of::<EditionsReport>(), offset_of!(EditionsReport, b)), (64, 32));
}

#[test]
fn why_of_uneven_rows() {
    let told = |xs: usize, ys: usize, flags: usize, index| {
        let rows = Contour { xs: vec![7; xs], ys: vec![9; ys], flags: vec![1; flags] };
        let report = reasons::why(&rows, index);
        (report.number, report.reasons)
    };
    assert_eq!(told(1, 1, 1, 0), (0, 4 + 8));
    assert_eq!(told(1, 1, 1, 1), (11, 0));
    for (xs, ys, flags) in [(0, 1, 1), (1, 0, 1), (1, 1, 0), (2, 1, 1)] {
        assert_eq!(told(xs, ys, flags, 0), (1, 0));
    }
    assert_eq!(told(0, 0, 0, 0), (2, 0));
}
