use super::*;

fn points(line: &str) -> Result<Vec<Point>, Malformed> {
    let mut points = vec![Point::on(1, 1)];
    parse(line.as_bytes(), &mut points).map(|()| points)
}

fn one(line: &str) -> Point {
    let points = points(line).unwrap();
    assert_eq!(points.len(), 1, "{line}");
    points[0]
}

fn fault(line: &str) -> String {
    points(line).unwrap_err().to_string()
}

#[test]
fn threes_of_numbers_are_points() {
    assert_eq!(
        points("0 0 1 100 0 1 50 -100 0"),
        Ok(vec![Point::on(0, 0), Point::on(100, 0), Point::off(50, -100)])
    );
}

#[test]
fn an_empty_line_has_no_point() {
    assert_eq!(points(""), Ok(vec![]));
}

#[test]
fn signs_and_zeros() {
    assert_eq!(one("-0 0 1"), Point::on(0, 0));
    assert_eq!(one("-00007 0000000000000000000000000000009 01"), Point::on(-7, 9));
    assert_eq!(one("0 0 -0"), Point::off(0, 0));
    assert_eq!(one("0 0 -000"), Point::off(0, 0));
}

#[test]
fn bounds() {
    assert_eq!(one("-32768 32767 255"), Point::on(-32768, 32767));
    for line in ["32768 0 1", "0 -32769 1", "65536 0 1", "-65536 0 1", "99999999999999999999999 0 1"] {
        assert!(fault(line).contains("-32768 and 32767"), "{line}");
    }
    for line in ["0 0 256", "0 0 -1", "0 0 4294967296", "0 0 18446744073709551617"] {
        assert!(fault(line).contains("0 and 255"), "{line}");
    }
}

#[test]
fn only_bit_0_of_a_flag_counts() {
    for flag in 0..=255 {
        assert_eq!(one(&format!("7 9 {flag}")).on_curve, flag % 2 == 1);
    }
}

#[test]
fn not_threes() {
    assert_eq!(points("1"), Err(Malformed::NotThrees { words: 1 }));
    assert_eq!(points("1 2"), Err(Malformed::NotThrees { words: 2 }));
    assert_eq!(points("0 0 1 5"), Err(Malformed::NotThrees { words: 4 }));
    assert_eq!(points("0 0 1 5 5"), Err(Malformed::NotThrees { words: 5 }));
}

#[test]
fn one_blank_between_numbers_and_none_at_the_ends() {
    for line in [" ", "  ", " 0 0 1", "0 0 1 ", "0  0 1", "0 0  1", "0 0 1  0 0 1"] {
        assert!(matches!(points(line), Err(Malformed::EmptyWord { .. })), "{line:?}");
    }
}

#[test]
fn what_is_no_whole_number() {
    for line in [
        "x",
        "-",
        "--1 0 1",
        "+1 0 1",
        "1.5 0 1",
        "1e3 0 1",
        "0x1 0 1",
        "1- 0 1",
        "- 0 1",
        "0 0 1\r",
        "0\t0 1",
        "0 0 1\u{a0}",
        "\u{661} 0 1",
        "0,0,1",
        "0 0 1\0",
    ] {
        assert!(matches!(points(line), Err(Malformed::NotWhole { .. })), "{line:?}");
    }
}

#[test]
fn bytes_that_are_no_text() {
    let mut points = Vec::new();
    let fault = parse(b"0 \xff 1", &mut points).unwrap_err();
    assert_eq!(fault.to_string(), "number 2, '\\xff', is not a whole number");
}

#[test]
fn a_line_may_have_65536_bytes() {
    // 10,922 points of 6 bytes with the blank after them, and zeros before the last flag to fill up
    let points_of = |zeros: usize| format!("{}0 0 {}1", "0 0 1 ".repeat(10_922), "0".repeat(zeros));
    assert_eq!(points_of(0).len(), 65_537);
    let longest = format!("{}0 0 {}1", "0 0 1 ".repeat(10_921), "0".repeat(5));
    assert_eq!(longest.len(), 65_536);
    assert_eq!(points(&longest).unwrap().len(), 10_922);
    assert_eq!(points(&points_of(0)), Err(Malformed::TooLong { most: LONGEST_LINE }));
}

#[test]
fn messages_name_the_number_and_cut_it() {
    assert_eq!(fault("0 0 1 5 x 1"), "number 5, 'x', is not a whole number");
    assert_eq!(fault("0 0 1\r"), "number 3, '1\\r', is not a whole number");
    let long = fault(&"9".repeat(60_000));
    assert!(long.len() < 120, "{long}");
}

#[test]
fn an_index_comes_first() {
    let mut points = vec![Point::on(1, 1)];
    let mut indexed = |line: &str| parse_indexed(line.as_bytes(), &mut points).map(|k| (k, points.clone()));
    assert_eq!(indexed("0 7 9 1"), Ok((0, vec![Point::on(7, 9)])));
    assert_eq!(indexed("12"), Ok((12, vec![])));
    assert_eq!(indexed("007 7 9 0"), Ok((7, vec![Point::off(7, 9)])));
    // past every segment
    assert_eq!(indexed("99999999999999999999999 7 9 1").unwrap().0, usize::MAX);
    assert_eq!(indexed("3 "), Err(Malformed::EmptyWord { word: 1 }));
    assert_eq!(indexed("3 7 9"), Err(Malformed::NotThrees { words: 2 }));
    for line in ["", " 7 9 1", "-1 7 9 1", "-0 7 9 1", "x 7 9 1", "+1"] {
        assert!(matches!(indexed(line), Err(Malformed::NoIndex { .. })), "{line}");
    }
    let long = "1".repeat(LONGEST_LINE + 1);
    assert_eq!(indexed(&long), Err(Malformed::TooLong { most: LONGEST_LINE }));
}
