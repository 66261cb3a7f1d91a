use super::*;
use fontcrunch::Cruncher;

#[test]
fn numbers_are_cut_and_text_is_not() {
    assert_eq!(
        shortened(r#"{"a":1.23456789,"b":"1.23456789\"2.3456789","c":[-0.00001,5]}"#),
        r#"{"a":1.2345,"b":"1.23456789\"2.3456789","c":[-0.0000,5]}"#
    );
}

#[test]
fn the_page_asks_no_network() {
    for text in [STYLE, BODY, PROGRAM, HEAD] {
        // but for the name of the language of drawings, which nothing is fetched from
        let text = text.replace("http://www.w3.org/2000/svg", "");
        for word in ["http:", "https:", "//cdn", "@import", "url(", "fetch(", "XMLHttpRequest", "src="] {
            assert!(!text.contains(word), "{word}");
        }
    }
    assert!(!PROGRAM.contains("</script"));
    assert!(!PROGRAM.contains("innerHTML"));
}

#[test]
fn a_glyph_with_a_name_of_signs() {
    let mut cruncher = Cruncher::new(Settings::of_crate());
    let file = b"<glyph><outline><contour><point x='7' y='9' type='line'/></contour></outline></glyph>";
    let text = letter_text("</script><b>\"&", &Sketch::of_glif(&mut cruncher, file));
    let start = r#"{"name":"\u003c/script\u003e\u003cb\u003e\"\u0026","stood":1,"contours":[{"traces":[{"#;
    assert!(text.starts_with(start), "{text}");
    assert_eq!(
        letter_text("a", &Sketch::of_nothing(fontcrunch::Refusal::Composite)),
        r#"{"name":"a","stood":0,"contours":[],"refused":{"number":15,"reason":"the glyph is composite"}}"#
    );
}
