use super::*;

fn parsed(line: &str) -> Result<(Vec<Point>, Chain), Malformed> {
    let mut points = vec![Point::on(1, 1)];
    parse(line.as_bytes(), &mut points).map(|chain| (points, chain))
}

const ONE: &str = "3ff0000000000000";

#[test]
fn a_contour_and_a_chain() {
    let line = format!("7 9 1 | {ONE} 0 12 4000000000000000 BFF0000000000000 12 13 {ONE} {ONE}");
    let (points, chain) = parsed(&line).unwrap();
    assert_eq!(points, [Point::on(7, 9)]);
    let pieces = [
        Piece { start: 0, end: 12, control: (2.0, -1.0) },
        Piece { start: 12, end: 13, control: (1.0, 1.0) },
    ];
    assert_eq!(chain, Chain::new(pieces.into(), 1.0));
}

#[test]
fn no_point_and_no_piece() {
    let (points, chain) = parsed(&format!("| {ONE}")).unwrap();
    assert_eq!((points.len(), chain.pieces.len()), (0, 0));
}

#[test]
fn any_bits_and_any_break() {
    let (_, chain) = parsed(&format!("7 9 1 | 7ff0000000000001 007 99999999999999 {ONE} {ONE}")).unwrap();
    assert_eq!(chain.score.to_bits(), 0x7ff0_0000_0000_0001);
    assert_eq!((chain.pieces[0].start, chain.pieces[0].end), (7, u32::MAX));
}

#[test]
fn where_the_bar_is_missing() {
    for line in ["", "7 9 1", "7 9 1|", "7 9 1 |", "7 9 1| 1", "|", " | ", "7 9 1 |3ff0000000000000"] {
        assert!(parsed(line).is_err(), "{line:?}");
    }
    assert_eq!(parsed("7 9 1"), Err(Malformed::NoBar));
    assert_eq!(parsed("7 9 1 |3ff0000000000000"), Err(Malformed::NoBar));
}

#[test]
fn what_is_no_chain() {
    let fault = |chain: &str| parsed(&format!("7 9 1 | {chain}")).unwrap_err().to_string();
    assert!(fault("1").contains("number 1 after the bar, '1'"));
    assert!(fault("3ff000000000000g").contains("16 hexadecimal digits"));
    assert!(fault("+ff0000000000000").contains("16 hexadecimal digits"));
    assert!(fault(&format!("{ONE} 0 1 {ONE}")).contains("4 numbers"));
    assert!(fault(&format!("{ONE} 0 -1 {ONE} {ONE}")).contains("number 3 after the bar, '-1', is no break"));
    assert!(fault(&format!("{ONE} 0 1 {ONE} 0")).contains("number 5 after the bar"));
    assert!(fault(&format!("{ONE}  1 {ONE} {ONE}")).contains("number 2 after the bar, ''"));
    assert!(fault(&format!("{ONE} | {ONE} 0 1")).contains("number 2 after the bar, '|'"));
}

#[test]
fn a_contour_is_read_as_ever() {
    assert_eq!(parsed(&format!("7 9 | {ONE}")), Err(Malformed::NotThrees { words: 2 }));
    assert_eq!(parsed(&format!("7  9 1 | {ONE}")), Err(Malformed::EmptyWord { word: 2 }));
    let long = "0".repeat(contour_line::LONGEST_LINE + 1);
    assert!(matches!(parsed(&format!("{long} | {ONE}")), Err(Malformed::TooLong { .. })));
}

#[test]
fn the_longest_chain_has_room() {
    let piece = format!(" 2046 2047 {ONE} {ONE}");
    let line = format!("{} | {ONE}{}", "-32768 -32768 255 ".repeat(1024).trim_end(), piece.repeat(2047));
    assert!(line.len() <= LONGEST_LINE);
    assert_eq!(parsed(&line).unwrap().1.pieces.len(), 2047);
    assert!(matches!(parsed(&"x".repeat(LONGEST_LINE + 1)), Err(Malformed::TooLong { most: LONGEST_LINE })));
}
