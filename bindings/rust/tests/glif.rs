//! GLIF through the crate: what is read, and what is refused.

use fontcrunch::glif;
use fontcrunch::{Cruncher, Point, Refusal, Settings};

fn file(outline: &str) -> Vec<u8> {
    format!("<?xml version='1.0' encoding='UTF-8'?>\n<glyph name='a'><outline>{outline}</outline><lib/></glyph>\n").into_bytes()
}

fn read(outline: &str) -> Result<Vec<Vec<Point>>, Refusal> {
    glif::read(&file(outline))
}

#[test]
fn contours_enter_from_their_first_on_curve_point() {
    assert_eq!(read(""), Ok(vec![]));
    let two = "<contour><point x='1' y='2' type='line'/></contour><component base='b'/>\
               <contour><point x='0' y='0'/><point x='-3' y='1'/><point x='9' y='9' type='qcurve'></point></contour>";
    let second = vec![Point::on(9, 9), Point::off(0, 0), Point::on(-2, 1), Point::off(-3, 1)];
    assert_eq!(read(two), Ok(vec![vec![Point::on(1, 2)], second]));
}

#[test]
fn going_round_the_last_and_the_first_have_a_middle() {
    let round =
        "<contour><point x='0' y='0'/><point x='4' y='0' type='qcurve'/><point x='0' y='5'/></contour>";
    assert_eq!(
        read(round),
        Ok(vec![vec![Point::on(4, 0), Point::off(0, 5), Point::on(0, 3), Point::off(0, 0)]])
    );
}

#[test]
fn refusals_in_their_order() {
    let point = |x: &str, kind: &str| format!("<contour><point x='{x}' y='0' type='{kind}'/></contour>");
    assert_eq!(read(&point("1", "lines")), Err(Refusal::Malformed));
    assert_eq!(read(&point("1", "curve")), Err(Refusal::CubicOrOpen));
    assert_eq!(read(&point("1", "move")), Err(Refusal::CubicOrOpen));
    assert_eq!(read(&point("40000.5", "line")), Err(Refusal::CubicOrOpen));
    assert_eq!(read(&point("40000", "line")), Err(Refusal::TooLarge));
    assert_eq!(read(&point("1.0", "line")), Ok(vec![vec![Point::on(1, 0)]]));
    assert_eq!(read(&point("1", "offcurve")), Err(Refusal::NoOnCurve));
    assert_eq!(read("<contour/>"), Err(Refusal::NoOnCurve));
    let all = [point("1", "offcurve"), point("40000", "line"), point("0.5", "line"), point("x", "line")];
    for (n, number) in [(1, 21), (2, 14), (3, 20), (4, 19)] {
        assert_eq!(read(&all[..n].concat()).map_err(Refusal::number), Err(number));
    }
}

#[test]
fn comments_sections_and_other_elements_are_no_points() {
    for text in [
        "<!-- <contour><point/></contour> -->",
        "<b><contour/></b>",
        "<![CDATA[<contour/>]]>",
        "<?p <contour/>?>",
    ] {
        assert_eq!(read(text), Ok(vec![]), "{text}");
    }
    assert_eq!(read("<contour>text</contour>"), Err(Refusal::Malformed));
}

#[test]
fn cut_short_anywhere_it_is_malformed() {
    let whole = file("<contour><point x='1' y='2' type='line'/></contour>");
    for n in 0..whole.len() - 1 {
        assert_eq!(glif::read(&whole[..n]), Err(Refusal::Malformed), "{n}");
    }
}

#[test]
fn all_but_the_insides_of_contours_is_kept() {
    let before = "<contour identifier=\"c\" >\n <point x='1' y='2' type='line' name='n'/> </contour ><!-- x --><contour><point x='0' y='0' type='line'/></contour>";
    let after = "<contour identifier=\"c\" ><point x=\"-32768\" y=\"7\" type=\"qcurve\"/><point x=\"0\" y=\"0\"/></contour ><!-- x -->\
                 <contour><point x=\"5\" y=\"5\" type=\"line\"/></contour>";
    let contours = [vec![Point::on(-32768, 7), Point::off(0, 0)], vec![Point::on(5, 5)]];
    let written = glif::write(&file(before), &contours).unwrap();
    assert_eq!(String::from_utf8(written.clone()), String::from_utf8(file(after)));
    assert_eq!(glif::read(&written).unwrap(), contours);
}

#[test]
fn refusals_of_writing() {
    let one = file("<contour><point x='1' y='2' type='line'/></contour>");
    assert_eq!(glif::write(&one, &[]), Err(Refusal::UnevenRows));
    assert_eq!(glif::write(&one, &[vec![Point::on(0, 0)], vec![Point::on(0, 0)]]), Err(Refusal::UnevenRows));
    assert_eq!(glif::write(&one, &[vec![]]), Err(Refusal::NoPoint));
    assert_eq!(glif::write(&file("<contour/>"), &[vec![]]), Err(Refusal::NoOnCurve));
    assert_eq!(glif::write(b"", &[]), Err(Refusal::Malformed));
    // rows that crunching would refuse by 4 and 5 are written all the same
    assert!(glif::write(&one, &[vec![Point::off(0, 0), Point::off(1, 1)]]).is_ok());
}

#[test]
fn each_contour_is_crunched_or_the_file_is_refused() {
    let triangle = "<contour><point x='0' y='0' type='line'/><point x='100' y='0' type='line'/><point x='0' y='100' type='line'/></contour>";
    let mut cruncher = Cruncher::new(Settings::default());
    let crunched = cruncher.crunch_glif(&file(triangle)).unwrap();
    assert_eq!(glif::read(&crunched).unwrap(), [[Point::on(0, 100), Point::on(100, 0), Point::on(0, 0)]]);
    // 8, of document 01's kind, in the second contour
    let worse = "<contour><point x='0' y='0' type='line'/><point x='432' y='433'/><point x='410' y='410' type='qcurve'/>\
                 <point x='-300' y='900' type='line'/></contour>";
    assert_eq!(cruncher.crunch_glif(&file(&[triangle, worse].concat())), Err(Refusal::PastLastSample));
}

#[test]
fn crunching_a_file_is_reading_crunching_and_writing() {
    let curve = "<contour name='c'><point x='0' y='0' type='qcurve'/><point x='0' y='300'/><point x='300' y='300'/>\
                 <point x='300' y='0' type='qcurve'/></contour><guideline/>\
                 <contour><point x='9' y='9'/><point x='50' y='10' type='qcurve'/><point x='30' y='70' type='line'/></contour>";
    let bytes = file(curve);
    for settings in [
        Settings::default(),
        Settings::of_crate(),
        Settings::default().with_penalty(7).with_whole_units(true).with_closed(true),
        Settings::default().with_penalty(0),
    ] {
        let mut cruncher = Cruncher::new(settings);
        let contours: Result<Vec<Vec<Point>>, Refusal> = glif::read(&bytes)
            .unwrap()
            .iter()
            .map(|contour| cruncher.crunch(contour).map(|c| c.points))
            .collect();
        let wanted = contours.and_then(|contours| glif::write(&bytes, &contours));
        assert_eq!(cruncher.crunch_glif(&bytes), wanted, "{settings:?}");
    }
    // without a contour the penalty is looked at all the same
    assert!(Cruncher::new(Settings::default()).crunch_glif(&file("")).is_ok_and(|same| same == file("")));
    let none = Settings::default().with_penalty(257);
    assert_eq!(Cruncher::new(none).crunch_glif(&file("")), Err(Refusal::NoSuchPenalty));
    // the refusals of the file come first
    assert_eq!(Cruncher::new(none).crunch_glif(b"<glyph>"), Err(Refusal::Malformed));
}
