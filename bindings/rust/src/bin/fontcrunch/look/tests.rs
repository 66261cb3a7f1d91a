use fontcrunch::Settings;

use super::*;

fn points(numbers: &[i16]) -> Vec<Point> {
    numbers.chunks(3).map(|p| Point { x: p[0], y: p[1], on_curve: p[2] == 1 }).collect()
}

fn cruncher(whole_units: bool) -> Cruncher {
    Cruncher::new(Settings::of_crate().with_whole_units(whole_units).with_closed(true))
}

/// What is seen of a contour that is refused.
fn seen(whole_units: bool, numbers: &[i16]) -> String {
    let (points, mut cruncher) = (points(numbers), cruncher(whole_units));
    let refusal = cruncher.crunch(&points).unwrap_err();
    let hints = Hints { may_prepare: true, ..Hints::default() };
    at_contour(&mut cruncher, &points, refusal, hints).unwrap_or_default()
}

#[test]
fn a_contour_is_told_by_point_and_run() {
    assert_eq!(seen(false, &[0, 0, 0]), "point 0 is off-curve; --prepare starts at the first on-curve one");
    assert_eq!(
        seen(false, &[0, 0, 1, 9, 9, 1, 1, 1, 0, 2, 2, 0]),
        "points 2 and 3: both off-curve; --prepare writes out the point between them"
    );
    let bow = [0, 0, 1, 700, 0, 0, 700, 700, 1];
    assert_eq!(seen(false, &bow), "run 0: 1,136 units on half units; --whole-units takes twice that");
    let long = [0, 0, 1, 2000, 0, 0, 2000, 2000, 1];
    assert_eq!(seen(false, &long), "run 0: 3,246 units on half units, and --whole-units takes some 2,048");
    assert!(seen(true, &long).starts_with("run 0: 3,246 units on whole units; "));
    let longer = [0, 0, 1, 32767, 0, 0, 32767, 32767, 1];
    assert_eq!(seen(false, &longer), "run 0: 53,188 units, and 16,384 samples, one a unit, are the most");
    assert_eq!(seen(false, &[0, 0, 1, 432, 433, 0, 410, 410, 1, -300, 900, 1]), "run 0: 583 units");
    assert_eq!(seen(false, &[]), "");
    let many: Vec<i16> = (0..1025).flat_map(|i| [i % 512, 40 * (i % 2), 1]).collect();
    assert_eq!(seen(false, &many), "1,025 points, and 1,024 is the most");
}

#[test]
fn cubics_are_told_by_their_stretch() {
    let refused = points(&[0, 0, 1, 1, 1, 0, 5, 5, 1]);
    let told = at_cubics(&refused, Refusal::OffCurveNeighbours).unwrap();
    assert_eq!(told, "points 1 to 1: 1 off-curve point, where cubics have two");
}

/// What is seen of a file that is refused.
fn seen_file(may_cubic: bool, inside: &str) -> String {
    let bytes = format!("<glyph name=\"a\">\n<outline>{inside}</outline></glyph>").into_bytes();
    let mut cruncher = cruncher(false);
    let refusal = cruncher.crunch_glif(&bytes).unwrap_err();
    let hints = Hints { may_cubic, ..Hints::default() };
    at_glif(&mut cruncher, &bytes, refusal, false, hints).map_or(String::new(), |seen| seen.of_file("A.glif"))
}

#[test]
fn a_file_is_told_by_contour_and_point() {
    let line = "<contour><point x='0' y='0' type='line'/></contour>";
    let curve = "<contour><point x='0' y='0' type='line'/><point x='1' y='1'/><point x='1' y='1'/><point x='2' y='2' type='curve'/></contour>";
    assert_eq!(seen_file(true, &format!("{line}{curve}")), "A.glif: contour 1, point 3: cubic; try --cubic");
    assert_eq!(
        seen_file(false, &curve.replacen("<point x='1' y='1'/>", "", 1)),
        "A.glif: contour 0, point 2: cubic, after 1 off-curve point, where cubics have two"
    );
    assert_eq!(
        seen_file(false, &curve.replacen("<point x='1' y='1'/>", "<point x='1' y='1.5'/>", 1)),
        "A.glif: contour 0, point 1: a coordinate is not whole"
    );
    assert_eq!(
        seen_file(false, &curve.replacen("<point x='1' y='1'/>", "<point x='1' y='40000'/>", 1)),
        "A.glif: contour 0, point 1: 40000 is outside -32768 and 32767"
    );
    assert_eq!(
        seen_file(true, "<contour><point x='0' y='0' type='move'/></contour>"),
        "A.glif: contour 0, point 0: a move alone, an anchor of format 1; try --cubic"
    );
    let open = "<contour><point x='0' y='0' type='move'/><point x='0' y='0' type='line'/></contour>";
    assert_eq!(seen_file(true, open), "A.glif: contour 0, point 0: a move: the contour is open");
    let half = "<contour><point x='0' y='0.5' type='line'/></contour>";
    assert_eq!(seen_file(true, half), "A.glif: contour 0, point 0: a coordinate is not whole");
    let far = "<contour><point x='0' y='40000' type='line'/></contour>";
    assert_eq!(seen_file(true, far), "A.glif: contour 0, point 0: 40000 is outside -32768 and 32767");
    assert_eq!(seen_file(true, "<contour/>"), "A.glif: contour 0, no on-curve point");
    let bow = "<contour><point x='0' y='0' type='line'/><point x='700' y='0'/><point x='700' y='700' type='qcurve'/></contour>";
    assert_eq!(
        seen_file(true, &format!("{line}{bow}")),
        "A.glif: contour 1, run 0: 1,136 units on half units; --whole-units takes twice that"
    );
    assert_eq!(seen_file(true, "<contour>\n <b/></contour>"), "A.glif:3:2: an element b stands in a contour");
}

#[test]
fn points_as_they_stand() {
    let bytes = b"<glyph><outline><contour><point x='0' y='0' type='qcurve'/><point x='1' y='2'/><point x='3' y='4'/></contour></outline></glyph>";
    assert_eq!(points_in(bytes), Some(3));
    assert_eq!(points_in(b"<glyph><outline><contour><point/></contour></outline></glyph>"), None);
}

/// Pieces of XML that a reader may take wrongly.
const SNIPPETS: [&str; 44] = [
    "<",
    ">",
    "/",
    "&",
    ";",
    "'",
    "\"",
    "=",
    " ",
    "\n",
    "\t",
    "\r",
    "<?",
    "?>",
    "<!",
    "<!--",
    "-->",
    "--",
    "<![CDATA[",
    "]]>",
    "&lt;",
    "&#65;",
    "&#x41;",
    "&#0;",
    "&#32;",
    "<!DOCTYPE a>",
    "<a>",
    "</a>",
    "<a/>",
    "<outline>",
    "</outline>",
    "<contour>",
    "</contour>",
    "<point x='1' y='2'/>",
    "<point x='1.5' y='2' type='line'/>",
    " type='move'",
    " x='9'",
    "\u{feff}",
    "\u{e9}",
    "\u{1}",
    "<?x y?>",
    "<?a?>",
    "<?xml version='1.0'?>",
    "</glyph>",
];

/// Both readers call the same files malformed, and the second one never stops.
#[test]
fn the_second_reader_agrees_with_the_proved_one() {
    let whole = "<?xml version=\"1.0\" encoding=\"UTF-8\"?>\n<glyph name='a'>\n<!-- a --><lib><outline/></lib>\n<outline>\n\
         <contour a='1'><point x='1' y='-2' type='line'/><point x='3' y='4'/><point x='5.0' y='6' type='qcurve'/></contour>\n\
         <contour><point x='1' y='2' type='qcurve'/><point x='3' y='4'/> <point x='3' y='4'></point></contour><b>&amp;</b></outline></glyph>\n";
    assert!(glif::read(whole.as_bytes()).is_ok(), "{:?}", outline::contours(whole.as_bytes()));
    let mut state = 11u64;
    let mut below = |bound: usize| {
        state = state.wrapping_mul(6_364_136_223_846_793_005).wrapping_add(1_442_695_040_888_963_407);
        (state >> 33) as usize % bound
    };
    let mut malformed = 0;
    for _ in 0..6000 {
        let mut bytes = whole.as_bytes().to_vec();
        for _ in 0..1 + below(2) {
            let mut at = below(bytes.len() + 1);
            // beside a tag more often than within one
            if below(3) > 0 {
                at += bytes[at..].iter().position(|&byte| byte == b'>').map_or(0, |end| end + 1);
            }
            let until = if below(6) == 0 { (at + below(20)).min(bytes.len()) } else { at };
            let put = match below(12) {
                0 => vec![below(256) as u8],
                1..=3 => b" <b c='d'/>".to_vec(),
                _ => SNIPPETS[below(44)].as_bytes().to_vec(),
            };
            bytes.splice(at..until, put);
        }
        let proved = glif::read(&bytes) == Err(Refusal::Malformed);
        let told = outline::contours(&bytes);
        assert_eq!(told.is_err(), proved, "{told:?} {}", bytes.escape_ascii());
        malformed += usize::from(proved);
    }
    assert!((1000..5700).contains(&malformed), "{malformed}");
}

/// As many names at once as the proved reader holds, and one more: of attributes, and of elements in each other.
#[test]
fn the_second_reader_holds_as_many_names() {
    for count in [254, 255, 256, 257] {
        let attributes: String = (0..count).map(|k| format!(" k{k}=''")).collect();
        let nested = "<a>".repeat(count - 1) + "<b/>" + &"</a>".repeat(count - 1);
        for text in [
            format!("<glyph{attributes}/>"),
            format!("<glyph><a{attributes}/></glyph>"),
            format!("<glyph>{nested}</glyph>"),
        ] {
            let proved = glif::read(text.as_bytes()) == Err(Refusal::Malformed);
            assert_eq!(outline::contours(text.as_bytes()).is_err(), proved, "{count}");
        }
    }
}
