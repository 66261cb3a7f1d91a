//! The entries at the edges of their rows.

use super::*;

fn contour(points: &[(i16, i16, u8)]) -> Contour {
    Contour {
        xs: points.iter().map(|p| p.0).collect(),
        ys: points.iter().map(|p| p.1).collect(),
        flags: points.iter().map(|p| p.2).collect(),
    }
}

/// Rows that hold 99s, so that a place that is written shows.
fn marked(xs: usize, ys: usize, flags: usize) -> PointRows {
    PointRows { xs: vec![99; xs].into(), ys: vec![99; ys].into(), flags: vec![99; flags].into() }
}

fn assert_untouched(out: &PointRows, from: usize) {
    assert!(out.xs.iter().skip(from).all(|&x| x == 99));
    assert!(out.ys.iter().skip(from).all(|&y| y == 99));
    assert!(out.flags.iter().skip(from).all(|&flag| flag == 99));
}

/// Two idle controls, and flags with other bits.
const ARCH: [(i16, i16, u8); 5] = [(0, 0, 255), (0, 0, 2), (9, 4, 129), (8, 0, 1), (0, 0, 254)];
const KEPT: [(i16, i16, u8); 3] = [(0, 0, 1), (9, 4, 1), (8, 0, 1)];
const LIST: [[u32; 2]; 2] = [[1, 1], [4, 2]];

/// The number that a contour is refused by; its rows are as they were.
fn refused(contour: &Contour, mut out: PointRows, places: usize) -> u32 {
    let mut list = vec![[99; 2]; places];
    let report = drop_idle(contour, &mut out, &mut list);
    assert_eq!(report, CleanReport { number: report.number, kept: 0, dropped: 0 });
    assert_untouched(&out, 0);
    assert!(list.iter().all(|&place| place == [99; 2]));
    report.number
}

fn refused_back(contour: &Contour, list: &[[u32; 2]], mut out: PointRows) -> u32 {
    let report = put_back_idle(contour, list, &mut out);
    assert_eq!(report, PutReport { number: report.number, points: 0 });
    assert_untouched(&out, 0);
    report.number
}

#[test]
fn the_first_places_are_written() {
    let (mut out, mut list) = (marked(7, 8, 9), [[99; 2]; 4]);
    assert_eq!(
        drop_idle(&contour(&ARCH), &mut out, &mut list),
        CleanReport { number: 0, kept: 3, dropped: 2 }
    );
    assert_eq!(
        (&out.xs[..3], &out.ys[..3], &out.flags[..3]),
        (&[0, 9, 8][..], &[0, 4, 0][..], &[1, 1, 1][..])
    );
    assert_eq!(list, [LIST[0], LIST[1], [99; 2], [99; 2]]);
    assert_untouched(&out, 3);
    let mut back = marked(6, 7, 8);
    assert_eq!(put_back_idle(&contour(&KEPT), &LIST, &mut back), PutReport { number: 0, points: 5 });
    assert_eq!(
        (&back.xs[..5], &back.ys[..5], &back.flags[..5]),
        (&[0, 0, 9, 8, 0][..], &[0, 0, 4, 0, 0][..], &[1, 0, 1, 1, 0][..])
    );
    assert_untouched(&back, 5);
}

#[test]
fn rows_that_just_suffice_and_one_place_less() {
    let (mut out, mut list) = (marked(3, 3, 3), [[99; 2]; 2]);
    assert_eq!(drop_idle(&contour(&ARCH), &mut out, &mut list).number, 0);
    assert_eq!(put_back_idle(&contour(&KEPT), &LIST, &mut marked(5, 5, 5)).number, 0);
    for row in 0..3 {
        for short in [1, 3] {
            let less = |most: usize| std::array::from_fn(|i| if i == row { most - short } else { most });
            let [x, y, f] = less(3);
            assert_eq!(refused(&contour(&ARCH), marked(x, y, f), 2), 9);
            // 18 before 9
            assert_eq!(refused(&contour(&ARCH), marked(x, y, f), 1), 18);
            let [x, y, f] = less(5);
            assert_eq!(refused_back(&contour(&KEPT), &LIST, marked(x, y, f)), 9);
        }
    }
    assert_eq!(refused(&contour(&ARCH), marked(9, 9, 9), 0), 18);
}

#[test]
fn refusals_in_their_order() {
    let none = || marked(0, 0, 0);
    for (xs, ys, flags) in [(0, 0, 1), (0, 1, 0), (1, 0, 0), (1, 1, 2), (2000, 2000, 1999)] {
        let uneven = Contour { xs: vec![0; xs], ys: vec![0; ys], flags: vec![0; flags] };
        assert_eq!(refused(&uneven, none(), 0), 1);
        assert_eq!(refused_back(&uneven, &[[0; 2]; 1025], none()), 1);
    }
    assert_eq!(refused(&contour(&[]), none(), 0), 2);
    assert_eq!(refused(&contour(&[(0, 0, 0); 1025]), none(), 0), 3);
    assert_eq!(refused(&contour(&[(0, 0, 0); 2]), none(), 0), 4);
    assert_eq!(refused(&contour(&[(0, 0, 1), (0, 0, 0), (0, 0, 0)]), none(), 0), 5);
    assert_eq!(refused_back(&contour(&[]), &[[0; 2]; 1025], none()), 2);
    assert_eq!(refused_back(&contour(&KEPT), &[[0; 2]; 1022], none()), 3);
    assert_eq!(refused_back(&contour(&KEPT), &[[0; 2]; 1021], none()), 9);
}
