//! The command's pages and traces: what is written, for what, at which penalty.

use std::fs;
use std::io::Write;
use std::path::{Path, PathBuf};
use std::process::{Command, Output, Stdio};

const HILL: &str = "0 0 1 0 60 0 40 90 1 80 120 0 130 120 1 200 -40 1";
const LONG: &str = "0 0 1 100 0 1 800 0 0 800 700 1 0 700 1";
const TOLD: &str = "fontcrunch: the penalty is 16, that of Settings::of_crate(), since none is given; \
                    an order's default is another, 32\n";

fn run(words: &[&str], input: &str) -> Output {
    let mut child = Command::new(env!("CARGO_BIN_EXE_fontcrunch"))
        .args(words)
        .stdin(Stdio::piped())
        .stdout(Stdio::piped())
        .stderr(Stdio::piped())
        .spawn()
        .unwrap();
    // what cannot be written was not read
    let _ = child.stdin.take().unwrap().write_all(input.as_bytes());
    child.wait_with_output().unwrap()
}

fn text(bytes: &[u8]) -> String {
    String::from_utf8(bytes.to_vec()).unwrap()
}

/// A folder for one test, empty at first.
fn folder(name: &str) -> PathBuf {
    let folder = PathBuf::from(env!("CARGO_TARGET_TMPDIR")).join(format!("page-{name}"));
    let _ = fs::remove_dir_all(&folder);
    fs::create_dir_all(&folder).unwrap();
    folder
}

fn name(path: &Path) -> &str {
    path.to_str().unwrap()
}

/// What the command says, and the page that it writes.
fn page(test: &str, words: &[&str], input: &str) -> (Output, String) {
    let page = folder(test).join("page.html");
    let output = run(&[words, &["--html", name(&page)]].concat(), input);
    let text = fs::read_to_string(&page).unwrap_or_default();
    (output, text)
}

/// The letters that stand in a page, as JSON.
fn letters(page: &str) -> Vec<&str> {
    page.split("<script type=\"application/json\" class=\"letter\">")
        .skip(1)
        .map(|rest| rest.split("</script>").next().unwrap())
        .collect()
}

#[test]
fn a_trace_for_each_line() {
    let output = run(&["trace", "--penalty", "16"], &format!("{HILL}\n{LONG}\n\nx\n"));
    let said = text(&output.stdout);
    let lines: Vec<&str> = said.lines().collect();
    assert_eq!(lines.len(), 4);
    assert!(lines[0].contains(r#""crunch":{"points":[[200,-40,1],"#), "{}", lines[0]);
    assert!(lines[1].contains(r#""came":"refused","refused":{"number":7,"#), "{}", lines[1]);
    assert!(lines[2].contains(r#""refused":{"number":2,"reason":"the contour has no point"}"#));
    assert_eq!(lines[3], r#"{"malformed":"number 1, 'x', is not a whole number"}"#);
    assert_eq!(output.status.code(), Some(2));
    let errors = text(&output.stderr);
    assert!(errors.contains(":2: refused 7: ") && errors.contains(":4: malformed: "), "{errors}");
    // by many threads the same
    let spread = run(&["trace", "--penalty", "16", "--jobs", "3"], &format!("{HILL}\n{LONG}\n\nx\n"));
    assert_eq!((spread.stdout, spread.stderr), (output.stdout, output.stderr));
    assert_eq!(run(&["trace", "--penalty", "16"], HILL).status.code(), Some(0));
}

#[test]
fn the_contours_of_a_file_are_one_letter() {
    let (output, page) = page("lines", &[], &format!("{HILL}\nx\n{LONG}\n"));
    // answers are those without a page, at the penalty of the page
    assert_eq!(output.stdout, run(&["--penalty", "16"], &format!("{HILL}\nx\n{LONG}\n")).stdout);
    assert!(text(&output.stderr).starts_with(TOLD));
    let letters = letters(&page);
    assert_eq!(letters.len(), 1);
    assert!(letters[0].starts_with(r#"{"name":"(standard input)","contours":["#));
    assert_eq!(letters[0].matches("{\"traces\":[").count(), 2);
    assert!(letters[0].contains(r#"{"malformed":"number 1, 'x', is not a whole number","line":2}"#));
    let meta = r#""penalties":[16],"given":false,"usual":32,"whole_units":false,"closed":false}"#;
    assert!(page.contains(meta), "{page}");
    assert!(page.ends_with("</body>\n</html>\n"));
}

#[test]
fn a_page_by_many_threads_is_the_same() {
    let input = format!("{HILL}\n").repeat(20) + LONG;
    let (_, one) = page("one", &["--penalty", "32"], &input);
    let (_, many) = page("many", &["--penalty", "32", "--jobs", "4"], &input);
    assert!(one == many && one.contains("\"given\":true"));
}

#[test]
fn two_editions_on_a_page() {
    let (output, page) = page("editions", &["editions", "--penalty", "16", "--penalty", "300"], HILL);
    assert!(text(&output.stdout).contains("\nb refused 16\n"));
    // edition b is refused, and standard error says so
    assert_eq!(text(&output.stderr).lines().count(), 1);
    assert!(text(&output.stderr).contains(" b: refused 16: "), "{}", text(&output.stderr));
    assert!(page.contains("\"penalties\":[16,300],\"given\":true"));
    assert_eq!(letters(&page)[0].matches("{\"settings\":{\"penalty\":").count(), 2);
}

const GLIF: &str = "<glyph name=\"a\"><outline><contour><point x=\"0\" y=\"0\" type=\"line\"/>\
    <point x=\"90\" y=\"0\" type=\"line\"/><point x=\"90\" y=\"80\"/><point x=\"0\" y=\"80\" type=\"qcurve\"/>\
    </contour></outline></glyph>";

#[test]
fn a_file_of_glif_on_a_page() {
    let folder = folder("glif");
    let (file, page) = (folder.join("a.glif"), folder.join("page.html"));
    fs::write(&file, GLIF).unwrap();
    let output = run(&["glif", name(&file), "--html", name(&page)], "");
    // the file that comes out is at the page's penalty
    assert_eq!(output.stdout, run(&["glif", "--penalty", "16", name(&file)], "").stdout);
    assert_eq!(text(&output.stderr), TOLD);
    let written = fs::read_to_string(&page).unwrap();
    assert!(letters(&written)[0].contains("a.glif\",\"stood\":4,\"contours\":[{\"traces\":["));
    // nor is a file written over
    assert_eq!(run(&["glif", name(&file), "--html", name(&file)], "").status.code(), Some(2));
    // nor is a page mixed with what comes out
    assert_eq!(run(&["glif", name(&file), "--html", "-"], "").stdout, b"");
    assert_eq!(fs::read_to_string(&file).unwrap(), GLIF);
}

#[test]
fn glyphs_of_lines_on_a_page() {
    let triangle = "0001000000000064006400020000313327646464";
    let (output, page) = page("glyphs", &["glyph", "crunch", "--closed"], &format!("{triangle}\nzz\nffff\n"));
    assert_eq!(text(&output.stdout), format!("ok {triangle}\nmalformed\nrefused 15\n"));
    assert_eq!(letters(&page).len(), 3);
    assert!(letters(&page)[2].contains("\"refused\":{\"number\":15,"));
}

/// A UFO of these glyphs.
fn ufo(folder: &Path, glyphs: &[(&str, &str)]) -> PathBuf {
    let ufo = folder.join("a.ufo");
    fs::create_dir_all(ufo.join("glyphs")).unwrap();
    let keys: String =
        glyphs.iter().map(|(name, _)| format!("<key>{name}</key><string>{name}.glif</string>")).collect();
    fs::write(ufo.join("glyphs/contents.plist"), format!("<plist><dict>{keys}</dict></plist>")).unwrap();
    for (name, text) in glyphs.iter().filter(|(_, text)| !text.is_empty()) {
        fs::write(ufo.join(format!("glyphs/{name}.glif")), text).unwrap();
    }
    ufo
}

#[test]
fn a_ufo_on_a_page() {
    let folder = folder("ufo");
    let page = folder.join("page.html");
    let made = ufo(&folder, &[("a", GLIF), ("space", "<glyph/>"), ("broken", "<glyph")]);
    let output = run(&["--closed", "--jobs", "2", name(&made), "--html", name(&page)], "");
    assert_eq!(text(&output.stdout), "2 glyphs, 1 refused, 4 points before, 4 after\n");
    assert_eq!(output.status.code(), Some(1));
    let written = fs::read_to_string(&page).unwrap();
    let names: Vec<&str> = letters(&written).iter().map(|letter| letter.split('"').nth(3).unwrap()).collect();
    assert_eq!(names, ["a", "broken"]);
    assert!(written.contains("{\"title\":\"a.ufo\",\"what\":\"glyph\""));
    // a file that is missing is told
    let missing = ufo(&folder, &[("a", GLIF), ("gone", "")]);
    let output = run(&["--closed", name(&missing), "--html", name(&page)], "");
    assert_eq!(output.status.code(), Some(2));
    assert!(text(&output.stderr).contains("gone.glif: "));
}

#[test]
fn a_font_on_a_page() {
    let folder = folder("font");
    let (font, page) = (folder.join("a.ttf"), folder.join("page.html"));
    let triangle: Vec<u8> = (0..20)
        .map(|i| {
            u8::from_str_radix(&"0001000000000064006400020000313327646464"[2 * i..2 * i + 2], 16).unwrap()
        })
        .collect();
    let composite = [0xff, 0xff, 0, 0];
    let glyf = [&triangle[..], &composite].concat();
    let tables: [(&[u8; 4], Vec<u8>); 4] = [
        (b"glyf", glyf),
        (b"head", vec![0; 54]),
        (b"loca", vec![0, 0, 0, 10, 0, 12]),
        (b"maxp", vec![0, 1, 0, 0, 0, 2]),
    ];
    let mut bytes = [0, 1, 0, 0, 0, 4, 0, 0, 0, 0, 0, 0].to_vec();
    let mut at = 12 + 16 * 4;
    for (tag, table) in &tables {
        bytes.extend(
            [&tag[..], &[0; 4], &(at as u32).to_be_bytes(), &(table.len() as u32).to_be_bytes()].concat(),
        );
        at += table.len();
    }
    tables.iter().for_each(|(_, table)| bytes.extend(table));
    fs::write(&font, bytes).unwrap();
    let output = run(&["--closed", "--penalty", "32", name(&font), "--html", name(&page)], "");
    assert_eq!(text(&output.stdout), "1 glyph, 0 refused, 3 points before, 3 after\n");
    let written = fs::read_to_string(&page).unwrap();
    assert!(written.contains("\"more\":\"1 composite, made of these, are not shown\""));
    assert!(letters(&written)[0].starts_with("{\"name\":\"glyph 0\",\"stood\":3,"));
    // without a page a font is lines, and none of them a contour
    assert_eq!(run(&[name(&font)], "").status.code(), Some(2));
    // a font stands on a page by itself, with no picture, and is not written over
    for words in [&["-"][..], &["--svg", "p"], &["--fallen"]] {
        let output = run(&[&[name(&font), "--html", name(&page)], words].concat(), "");
        assert_eq!((output.status.code(), output.stdout.is_empty()), (Some(2), true), "{words:?}");
    }
    let before = fs::read(&font).unwrap();
    assert_eq!(run(&[name(&font), "--html", name(&font)], "").status.code(), Some(2));
    assert_eq!(fs::read(&font).unwrap(), before);
    // to standard output goes the page alone
    let output = run(&["--closed", "--penalty", "32", name(&font), "--html", "-"], "");
    assert_eq!(text(&output.stdout), written);
}

#[test]
fn words_that_ask_for_a_page_and_do_not_fit() {
    for words in [
        &["--html"][..],
        &["--html="],
        &["--html", "a", "--html", "b"],
        &["why", "--html", "p"],
        &["glyph", "read", "--html", "p"],
        &["trace", "--html", "p"],
        &["--together"],
        &["--svg", "same", "--html", "same"],
    ] {
        assert_eq!(run(words, "").status.code(), Some(2), "{words:?}");
    }
    let output = run(&["--html", "/nonexistent/page.html"], "7 9 1\n");
    assert_eq!((text(&output.stdout).as_str(), output.status.code()), ("ok 0 7 9 1\n", Some(2)));
}
