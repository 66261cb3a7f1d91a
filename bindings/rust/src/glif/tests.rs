//! The exports of GLIF at the edges of their rows: what suffices, what is one place too short, and what is not touched.

use super::*;

const FILE: &[u8] = b"<glyph><outline><contour><point x='7' y='-8' type='line'/></contour>\
    <contour><point x='1' y='1'/><point x='4' y='2'/><point x='-5' y='9' type='qcurve'/></contour></outline></glyph>";

/// Rows of those lengths, none of them zero: ends, x, y, flags, scratch points.
struct Rows {
    ends: Vec<u16>,
    xs: Vec<i16>,
    ys: Vec<i16>,
    flags: Vec<u8>,
    points: Vec<[usize; 3]>,
}

impl Rows {
    fn of([ends, xs, ys, flags, points]: [usize; 5]) -> Rows {
        Rows {
            ends: vec![77; ends],
            xs: vec![-77; xs],
            ys: vec![78; ys],
            flags: vec![79; flags],
            points: vec![[7, 8, 9]; points],
        }
    }

    fn read(&mut self, bytes: &[u8]) -> (u32, usize, usize) {
        // SAFETY: each pointer is a slice's own, with its length; the rows that are written are apart.
        let report = unsafe {
            fontcrunch_read_glif(
                bytes.as_ptr(),
                bytes.len(),
                self.ends.as_mut_ptr(),
                self.ends.len(),
                self.xs.as_mut_ptr(),
                self.xs.len(),
                self.ys.as_mut_ptr(),
                self.ys.len(),
                self.flags.as_mut_ptr(),
                self.flags.len(),
                self.points.as_mut_ptr(),
                self.points.len(),
            )
        };
        assert!(self.points.iter().all(|place| *place == [0; 3]));
        (report.number, report.contours, report.points)
    }

    fn untouched(&self) -> bool {
        self.ends.iter().all(|&v| v == 77)
            && self.xs.iter().all(|&v| v == -77)
            && self.ys.iter().all(|&v| v == 78)
            && self.flags.iter().all(|&v| v == 79)
    }

    fn write(&self, bytes: &[u8], out: &mut [u8]) -> (u32, usize) {
        // SAFETY: each pointer is a slice's own, with its length; the row that is written is apart from the others.
        let report = unsafe {
            fontcrunch_write_glif(
                bytes.as_ptr(),
                bytes.len(),
                self.ends.as_ptr(),
                self.ends.len(),
                self.xs.as_ptr(),
                self.xs.len(),
                self.ys.as_ptr(),
                self.ys.len(),
                self.flags.as_ptr(),
                self.flags.len(),
                out.as_mut_ptr(),
                out.len(),
            )
        };
        (report.number, report.bytes)
    }
}

/// Places that just suffice for `FILE`: two contours, five points with the middle, four as they stand.
const ENOUGH: [usize; 5] = [2, 5, 5, 5, 4];

#[test]
fn rows_that_just_suffice() {
    let mut rows = Rows::of(ENOUGH);
    assert_eq!(rows.read(FILE), (0, 2, 5));
    assert_eq!(rows.ends, [0, 4]);
    assert_eq!(rows.xs, [7, -5, 1, 3, 4]);
    assert_eq!(rows.ys, [-8, 9, 1, 2, 2]);
    assert_eq!(rows.flags, [1, 1, 0, 1, 0]);
}

#[test]
fn places_after_what_is_read_are_not_touched() {
    let mut rows = Rows::of(ENOUGH.map(|n| n + 2));
    assert_eq!(rows.read(FILE), (0, 2, 5));
    assert_eq!(rows.ends[2..], [77, 77]);
    assert_eq!(
        (&rows.xs[5..], &rows.ys[5..], &rows.flags[5..]),
        (&[-77, -77][..], &[78, 78][..], &[79, 79][..])
    );
}

#[test]
fn one_place_too_few_in_any_row_is_nine() {
    for row in 0..5 {
        for less in 1..=ENOUGH[row] {
            let mut lengths = ENOUGH.map(|n| n + 3);
            lengths[row] = ENOUGH[row] - less;
            let mut rows = Rows::of(lengths);
            assert_eq!(rows.read(FILE), (9, 0, 0), "{lengths:?}");
            assert!(rows.untouched());
        }
    }
}

#[test]
fn nine_comes_last_of_all() {
    let file = |contours: &str| format!("<glyph><outline>{contours}</outline></glyph>").into_bytes();
    let point = |x: &str, kind: &str| format!("<contour><point x='{x}' y='0' type='{kind}'/></contour>");
    let faults = [
        point("1", "offcurve"),
        point("32768", "line"),
        point("-0.50", "line"),
        "<contour>.</contour>".to_owned(),
    ];
    for (n, number) in [(1, 21), (2, 14), (3, 20), (4, 19)] {
        let mut rows = Rows::of([0; 5]);
        assert_eq!(rows.read(&file(&faults[..n].concat())), (number, 0, 0));
        let turned: String = faults[..n].iter().rev().cloned().collect();
        assert_eq!(rows.read(&file(&turned)), (number, 0, 0));
        assert!(rows.untouched());
    }
    assert_eq!(Rows::of([0; 5]).read(&file("")), (0, 0, 0));
    assert_eq!(Rows::of([0; 5]).read(&file(&point("32767", "line"))), (9, 0, 0));
}

#[test]
fn writing_asks_for_the_places_it_needs() {
    let mut rows = Rows::of(ENOUGH);
    rows.read(FILE);
    let mut long = vec![5; 4096];
    let (number, size) = rows.write(FILE, &mut long);
    assert_eq!(number, 0);
    assert!(long[size..].iter().all(|&b| b == 5));
    let mut again = Rows::of([2, 5, 5, 5, 5]);
    assert_eq!(again.read(&long[..size]), (0, 2, 5));
    assert_eq!(
        (&again.ends, &again.xs, &again.ys, &again.flags),
        (&rows.ends, &rows.xs, &rows.ys, &rows.flags)
    );
    let mut just = vec![5; size];
    assert_eq!(rows.write(FILE, &mut just), (0, size));
    assert_eq!(just, long[..size]);
    for short in [0, 1, size - 1] {
        let mut out = vec![5; short];
        assert_eq!(rows.write(FILE, &mut out), (9, 0));
        assert!(out.iter().all(|&b| b == 5));
    }
}

#[test]
fn rows_that_do_not_belong_together_are_one_and_an_empty_contour_two() {
    let mut rows = Rows::of(ENOUGH);
    rows.read(FILE);
    let mut out = vec![5; 0];
    let number = |ends: &[u16], xs: usize, ys: usize, flags: usize, out: &mut [u8]| {
        let mut rows = Rows::of([0, xs, ys, flags, 0]);
        rows.ends = ends.to_vec();
        rows.write(FILE, out).0
    };
    for (ends, [xs, ys, flags], wanted) in [
        (&[0, 4][..], [5, 5, 5], 9),
        (&[0, 4], [5, 4, 5], 1),
        (&[0, 4], [5, 5, 6], 1),
        (&[0, 4], [4, 5, 5], 1),
        (&[0, 4], [6, 6, 6], 1),
        (&[0, 4], [4, 4, 4], 1),
        (&[4], [5, 5, 5], 1),
        (&[0, 1, 4], [5, 5, 5], 1),
        (&[], [0, 0, 0], 1),
        (&[], [5, 5, 5], 1),
        (&[0, 0], [0, 0, 0], 2),
        (&[4, 4], [5, 5, 5], 2),
        (&[5, 4], [5, 5, 5], 2),
        (&[0, 65535], [5, 5, 5], 1),
    ] {
        assert_eq!(number(ends, xs, ys, flags, &mut out), wanted, "{ends:?} {xs} {ys} {flags}");
    }
    // the refusals of the file come before those of the rows
    assert_eq!(rows.write(b"<glyph><outline><contour/></outline></glyph>", &mut out), (21, 0));
    assert_eq!(rows.write(b"", &mut out), (19, 0));
    assert_eq!(Rows::of([0; 5]).write(b"<glyph/>", &mut [0; 8]), (0, 8));
}

#[test]
fn the_last_points_that_ends_can_tell() {
    let points = |n: usize| "<point x='1' y='1' type='line'/>".repeat(n);
    let file =
        |n: usize| format!("<glyph><outline><contour>{}</contour></outline></glyph>", points(n)).into_bytes();
    let mut rows = Rows::of([1, 65_536, 65_536, 65_536, 65_536]);
    assert_eq!(rows.read(&file(65_536)), (0, 1, 65_536));
    assert_eq!(rows.ends, [65_535]);
    assert_eq!(Rows::of([0; 5]).read(&file(65_537)), (14, 0, 0));
}
