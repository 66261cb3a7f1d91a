//! What the command says on standard error: notes of what is lost, where a refusal was met, files of another kind. And what
//! it says in words.

mod common;

use std::fs;
use std::process::{Output, Stdio};

use common::running::{command, folder, path, run, text};

/// A curve back to the start, which the crate's mode does not write.
const CURVE: &str = "0 0 1 100 0 1 50 100 0";
const NOTE: &str = "1 segment outside the corners is not written; --closed keeps it";

/// Standard output, standard error and the exit status.
fn said(output: Output) -> (String, String, Option<i32>) {
    (text(&output.stdout), text(&output.stderr), output.status.code())
}

fn told(words: &[&str], input: &str) -> (String, String, Option<i32>) {
    said(run(words, input.as_bytes()))
}

/// The messages of a line, without the input's name and the line's number.
fn of_line(words: &[&str], line: &str) -> Vec<String> {
    let (_, messages, _) = told(words, &format!("{line}\n"));
    let head = "fontcrunch: (standard input):1: ";
    messages.lines().map(|message| message.strip_prefix(head).expect(message).to_owned()).collect()
}

/// A file of GLIF with these contours, in the folder of a test.
fn glif(test: &str, name: &str, contours: &[&str]) -> String {
    let inside: String = contours.iter().map(|points| contour(points)).collect();
    file(
        test,
        name,
        format!("<?xml version=\"1.0\"?>\n<glyph><outline>{inside}</outline></glyph>\n").as_bytes(),
    )
}

fn file(test: &str, name: &str, bytes: &[u8]) -> String {
    let name = path(&folder(test), name);
    fs::write(&name, bytes).unwrap();
    name
}

/// A contour of a line, as GLIF has it.
fn contour(line: &str) -> String {
    let numbers: Vec<&str> = line.split(' ').collect();
    let points: Vec<&[&str]> = numbers.chunks(3).collect();
    let element = |i: usize| {
        let before = points[(i + points.len() - 1) % points.len()];
        let kind = match (points[i][2], before[2]) {
            ("0", _) => "",
            (_, "0") => " type=\"qcurve\"",
            _ => " type=\"line\"",
        };
        format!("<point x=\"{}\" y=\"{}\"{kind}/>", points[i][0], points[i][1])
    };
    format!("<contour>{}</contour>", (0..points.len()).map(element).collect::<String>())
}

// ---- what is lost

#[test]
fn a_file_whose_stretch_is_not_written_says_so_once_a_contour() {
    let three = "0 0 1 100 0 1 100 100 1 110 150 0 60 160 1 10 150 0 0 100 1";
    let name = glif("lost", "A.glif", &["0 0 1 100 0 1 0 100 1", CURVE, three]);
    let (out, messages, status) = told(&["glif", &name], "");
    assert_eq!(status, Some(0));
    let lines: Vec<&str> = messages.lines().collect();
    assert_eq!(lines[0], format!("fontcrunch: {name}: contour 1: {NOTE}"));
    assert!(lines[1..].iter().all(|line| line.contains("contour 2: ")), "{messages}");
    // the note changes nothing else
    assert_eq!(told(&["glif", &name, "--quiet"], ""), (out, String::new(), Some(0)));
    assert_eq!(told(&["glif", &name, "--closed"], "").1, "");
}

#[test]
fn lines_whose_stretch_is_not_written_say_so() {
    for tool in [
        &[][..],
        &["crunch", "--prepare"],
        &["clean", "--crunch"],
        &["explicit", "--crunch"],
        &["editions", "--penalty=16", "--penalty=32"],
    ] {
        assert_eq!(of_line(tool, CURVE), [NOTE], "{tool:?}");
        let quiet = [tool, &["-q"]].concat();
        assert_eq!(told(&quiet, CURVE), (told(tool, CURVE).0, String::new(), Some(0)), "{tool:?}");
        assert_eq!(told(&[tool, &["--closed"]].concat(), CURVE).1, "", "{tool:?}");
    }
    let cubic = "0 0 1 100 0 1 100 50 0 50 100 0";
    assert!(of_line(&["cubic", "--crunch"], cubic)[0].contains("outside the corners"));
    // a description of two contours, of which the second loses a segment
    let glyph = told(&["glyph", "write"], &format!("ends=2,5 instr= pts=0 0 1 9 0 1 0 9 1 {CURVE}\n")).0;
    let hex = glyph.trim_end().strip_prefix("ok ").unwrap();
    assert_eq!(of_line(&["glyph", "crunch"], hex), [format!("contour 1: {NOTE}")]);
    assert_eq!(told(&["glyph", "crunch", "--closed"], hex).1, "");
}

#[test]
fn a_picture_shows_no_saving_where_a_stretch_is_not_written() {
    let folder = folder("no_saving");
    let head = |words: &[&str], line: &str| {
        let picture = path(&folder, "p.svg");
        run(&[&["--svg", &picture, "--penalty=32"], words].concat(), line.as_bytes());
        fs::read_to_string(picture).unwrap()
    };
    let lost = head(&[], CURVE);
    assert!(lost.contains("3 \u{2192} 2 points, 1 segment not written") && !lost.contains("%)"), "{lost}");
    // points are those that stand in the file, also where the contour is prepared
    let prepared = head(&["--closed", "--prepare"], "0 0 1 0 0 1 0 0 1 50 0 1 100 0 1 0 100 1");
    assert!(prepared.contains("6 \u{2192} 3 points (\u{2212}50 %)"), "{prepared}");
}

// ---- idle controls

const IDLE: &str = "0 0 1 0 0 0 100 0 1 300 0 0 300 200 1 0 200 1";

#[test]
fn a_control_on_an_end_of_its_curve_is_told_and_can_be_dropped() {
    let note = "1 control stands on an end of its curve and may flatten its run; --prepare drops it";
    assert_eq!(of_line(&["--closed"], IDLE), [note]);
    assert_eq!(told(&["--closed"], IDLE).0, "ok 1 0 0 1 300 200 1 0 200 1\n");
    let (answer, messages, status) = told(&["--closed", "--prepare"], IDLE);
    assert_eq!((messages.as_str(), status), ("", Some(0)));
    assert_eq!(answer, told(&["--closed"], "0 0 1 100 0 1 300 0 0 300 200 1 0 200 1").0);
    let name = glif("idle", "A.glif", &[IDLE]);
    assert_eq!(told(&["glif", "--closed", &name], "").1, format!("fontcrunch: {name}: contour 0: {note}\n"));
    assert_eq!(told(&["glif", "--closed", "--prepare", &name], "").1, "");
}

#[test]
fn every_tool_that_crunches_prepares() {
    // repeats its first point, starts off-curve, and has an idle control
    let font = "300 0 0 300 100 0 300 200 1 300 200 0 0 200 1 0 0 1 0 0 1";
    let ready = "300 200 1 0 200 1 0 0 1 300 0 0 300 50 1 300 100 0";
    let crunched = told(&["--closed"], ready).0;
    for tool in [&[][..], &["explicit", "--crunch"]] {
        assert_eq!(told(&[tool, &["--closed", "--prepare"]].concat(), font).0, crunched, "{tool:?}");
    }
    let both = told(&["editions", "--penalty=32", "--penalty=32", "--closed", "--prepare"], font).0;
    assert_eq!(both, format!("a {crunched}b {crunched}"));
    let cubic = "0 0 1 0 0 0 100 0 0 100 0 1 50 90 1";
    let quads = told(&["cubic"], cubic).0;
    let quads = quads.trim_end().strip_prefix("ok ").unwrap();
    assert_eq!(
        told(&["cubic", "--crunch", "--closed", "--prepare"], cubic).0,
        told(&["--closed", "--prepare"], quads).0
    );
    let written = |points: &str| {
        let ends = points.split(' ').count() / 3 - 1;
        told(&["glyph", "write"], &format!("ends={ends} instr= pts={points}\n")).0[3..].trim_end().to_owned()
    };
    assert_eq!(
        told(&["glyph", "crunch", "--closed", "--prepare"], &written(font)).0,
        told(&["glyph", "crunch", "--closed"], &written(ready)).0
    );
}

// ---- refusals

#[test]
fn a_refusal_says_where_and_what_to_do() {
    let line = "0 0 1 100 0 1 0 100 1";
    let curve =
        "<contour><point x=\"0\" y=\"0\" type=\"line\"/><point x=\"1\" y=\"1\"/><point x=\"2\" y=\"1\"/>\
         <point x=\"3\" y=\"0\" type=\"curve\"/></contour>";
    let with =
        |inside: &str| format!("<glyph><outline>{}{inside}</outline></glyph>", contour(line)).into_bytes();
    for (name, bytes, number, message) in [
        (
            "type",
            b"<?xml version=\"1.0\"?>\n<!DOCTYPE glyph>\n<glyph/>".to_vec(),
            19,
            ":2:1: a document type is not read",
        ),
        ("cubic", with(curve), 20, ": contour 1, point 3: cubic; try --cubic"),
        (
            "long",
            with(&contour("0 0 1 800 0 0 800 800 1")),
            7,
            ": contour 1, run 0: 1,299 units on half units; --whole-units takes twice that",
        ),
        ("off", with("<contour><point x=\"1\" y=\"1\"/></contour>"), 21, ": contour 1, no on-curve point"),
        ("far", with(&contour("40000 0 1")), 14, ": contour 1, point 0: 40000 is outside -32768 and 32767"),
    ] {
        let name = file(&format!("refused_{name}"), "A.glif", &bytes);
        let (out, messages, status) = told(&["glif", "--closed", &name], "");
        assert_eq!((out.as_str(), status), ("", Some(1)), "{name}");
        let lines: Vec<&str> = messages.lines().collect();
        assert!(lines[0].starts_with(&format!("fontcrunch: {name}: refused {number}: ")), "{messages}");
        assert_eq!(lines[1..], [format!("fontcrunch: {name}{message}")], "{messages}");
    }
}

#[test]
fn a_refused_line_says_where() {
    let second = |words: &[&str], line: &str| of_line(words, line)[1].clone();
    let bow = "0 0 1 800 0 0 800 800 1";
    let long = "run 0: 1,299 units on half units; --whole-units takes twice that";
    assert_eq!(second(&["--closed"], bow), long);
    assert_eq!(second(&["chain", "0", "--closed"], bow), long);
    assert_eq!(second(&[], "1 1 0"), "point 0 is off-curve; --prepare starts at the first on-curve one");
    assert_eq!(second(&["why"], "1 1 0"), "point 0 is off-curve");
    let five = "points 1 and 2: both off-curve; --prepare writes out the point between them";
    assert_eq!(second(&[], "0 0 1 1 1 0 2 2 0"), five);
    let one = "points 1 to 1: 1 off-curve point, where cubics have two";
    assert_eq!(second(&["cubic"], "0 0 1 1 1 0 2 2 1"), one);
    let glyph = told(&["glyph", "write"], &format!("ends=0,3 instr= pts=0 0 1 {bow}\n")).0;
    let hex = glyph.trim_end().strip_prefix("ok ").unwrap();
    assert_eq!(second(&["glyph", "crunch", "--closed"], hex), format!("contour 1, {long}"));
    let hex: String = b"<!DOCTYPE a>".iter().map(|byte| format!("{byte:02x}")).collect();
    assert_eq!(second(&["glif", "crunch"], &hex), "line 1, column 1: a document type is not read");
}

#[test]
fn editions_tell_their_reasons() {
    let words = ["editions", "--closed", "--penalty=16", "--penalty=300"];
    let reason = "refused 16: the penalty is not from 1 to 256 sixteenths";
    assert_eq!(of_line(&words, "0 0 1 100 0 1 0 100 1"), [format!("b: {reason}")]);
    let messages = of_line(&words, "0 0 1 800 0 0 800 800 1");
    assert!(messages[0].starts_with("a: refused 7: ") && messages[1].starts_with("a: run 0: 1,299 units"));
    assert_eq!(messages[2..], [format!("b: {reason}")]);
}

#[test]
fn odd_bytes_of_a_malformed_line_are_named() {
    for (line, words) in [
        (
            &b"0 0 1\r\n"[..],
            "; the line ends with a carriage return (CRLF), and lines end with a line feed alone\n",
        ),
        (b"\xef\xbb\xbf0 0 1\n", "; a byte order mark stands before the line, and lines have none\n"),
        (b"0\t0\t1\n", "; a tab stands in the line, and between numbers stands one blank\n"),
    ] {
        let (out, messages, status) = said(run(&[], line));
        assert_eq!((out.as_str(), status), ("malformed\n", Some(2)));
        assert!(messages.ends_with(words), "{messages}");
    }
}

// ---- files of another kind

#[test]
fn a_file_of_another_kind_is_told_once() {
    let font = file("kind_font", "A.ttf", &[&b"\0\x01\0\0"[..], &b"\nx\n".repeat(700)].concat());
    let (out, messages, status) = told(&[&font], "");
    assert_eq!((out.as_str(), messages.lines().count(), status), ("", 1, Some(2)));
    assert!(messages.starts_with(&format!("fontcrunch: {font}: is a TrueType font; ")), "{messages}");
    let glif = glif("kind_glif", "A.glif", &[CURVE]);
    let (out, messages, status) = told(&["clean", &glif], "");
    assert_eq!((out.as_str(), messages.lines().count(), status), ("", 1, Some(2)));
    assert!(messages.contains(": is XML, as a file of GLIF is, and not lines; fontcrunch glif FILE.glif"));
    // the other inputs are answered
    let (out, _, status) = told(&[&glif, "-"], "7 9 1\n");
    assert_eq!((out.as_str(), status), ("ok 0 7 9 1\n", Some(2)));
    assert_eq!(told(&["--jobs", "3", &glif, "-"], "7 9 1\n").0, "ok 0 7 9 1\n");
    let ufo = folder("kind_ufo.ufo");
    fs::create_dir(ufo.join("glyphs")).unwrap();
    let ufo = ufo.to_str().unwrap();
    let expected = format!("fontcrunch: {ufo}: is a UFO; fontcrunch ufo IN.ufo -o OUT.ufo crunches it\n");
    assert_eq!(told(&[ufo], ""), (String::new(), expected.clone(), Some(2)));
    assert_eq!(told(&["glif", ufo], ""), (String::new(), expected, Some(2)));
    let empty = file("kind_empty", "empty", b"");
    assert_eq!(told(&[&empty], ""), (String::new(), format!("fontcrunch: {empty}: is empty\n"), Some(0)));
    assert_eq!(told(&["-q", &empty], ""), (String::new(), String::new(), Some(0)));
    assert!(told(&["glif", &empty], "").1.ends_with(&format!("{empty}: is empty\n")));
    assert!(told(&["glif", &font], "").1.contains("is a TrueType font"));
}

// ---- words

#[test]
fn help_is_a_word() {
    assert_eq!(told(&["help"], ""), told(&["--help"], ""));
    assert_eq!(told(&["help", "ufo"], ""), told(&["ufo", "--help"], ""));
    assert_eq!(told(&["help", "x"], "").2, Some(2));
}

#[test]
fn why_in_words() {
    let (out, _, _) = told(&["why", "--words"], "0 0 1 100 0 1 200 2 1 200 2 0 0 50 1 -100 -1 1\n");
    let lines: Vec<&str> = out.lines().collect();
    assert_eq!(lines[0], "ok 5");
    assert_eq!(lines.len(), 6);
    // a bend of 1.146 degrees is the limit
    assert_eq!(lines[2], "1 at 100 0: no corner; bend 1.15 degrees, an angle from 1.15 to 178.85");
    assert!(
        lines[3].starts_with("2 at 200 2: corner: ")
            && lines[3].ends_with("; no bend, since a tangent is zero")
    );
    let (one, _, _) = told(&["why", "--words", "--index"], "1 0 0 1 100 0 1 200 2 1\n1 0 0 1\n");
    assert_eq!(
        one,
        "ok 1 at 100 0: no corner; bend 1.15 degrees, an angle from 1.15 to 178.85\nrefused 11\n"
    );
}

#[test]
fn a_chain_with_its_contour_is_read_by_check() {
    let letter = concat!(env!("CARGO_MANIFEST_DIR"), "/../../examples/letter.txt");
    for settings in [&[][..], &["--closed", "--penalty=16"]] {
        let (chains, messages, status) =
            told(&[&["chain", "0", "--with-contour", letter], settings].concat(), "");
        // run 0 of the first contour is a copied line
        assert_eq!((chains.lines().count(), status), (2, Some(1)));
        assert!(messages.contains("letter.txt:1: refused 10: "), "{messages}");
        assert_eq!(
            told(&[&["check", "0"], settings].concat(), &chains),
            ("yes\nyes\n".to_owned(), String::new(), Some(0))
        );
    }
    // a run that leaves its contour unchanged has no chain
    let (out, messages, status) = told(&["chain", "0", "--with-contour"], "5 5 1 5 5 0 5 5 1\nx\n");
    assert_eq!((out.as_str(), status), ("", Some(2)));
    assert!(
        messages.contains("(standard input):1: unchanged 1: the run has no chain, and no line\n"),
        "{messages}"
    );
}

// ---- kept unless fewer

#[test]
fn what_does_not_get_fewer_points_comes_out_as_it_was() {
    // crunched, its points stand one after the other with nothing between them
    let spaced = format!(
        "<glyph><outline>{}</outline></glyph>",
        contour("0 0 1 100 0 1 0 100 1").replace("/>", "/>\n")
    );
    let same = file("kept", "A.glif", spaced.as_bytes());
    let (out, _, status) = told(&["glif", "--closed", "--keep-unless-fewer", &same], "");
    assert_eq!((out, status), (fs::read_to_string(&same).unwrap(), Some(0)));
    assert_ne!(told(&["glif", "--closed", &same], "").0, fs::read_to_string(&same).unwrap());
    let fewer = glif("fewer", "A.glif", &["0 0 1 50 0 1 100 0 1 0 100 1"]);
    assert_eq!(
        told(&["glif", "--closed", "--keep-unless-fewer", &fewer], ""),
        told(&["glif", "--closed", &fewer], "")
    );
    // three flags alike are written as one by the library, and not in this description
    let loose = "000100000000006400640002000001010100000064ff9c000000000064";
    assert_eq!(told(&["glyph", "read"], loose).0, "ok ends=2 instr= pts=0 0 1 100 0 1 0 100 1\n");
    let kept = told(&["glyph", "crunch", "--closed", "--keep-unless-fewer"], loose).0;
    assert_eq!(kept, format!("ok {loose}\n"));
    assert_ne!(told(&["glyph", "crunch", "--closed"], loose).0, kept);
    let hex: String = fs::read(&same).unwrap().iter().map(|byte| format!("{byte:02x}")).collect();
    assert_eq!(told(&["glif", "crunch", "--closed", "--keep-unless-fewer"], &hex).0, format!("ok {hex}\n"));
}

// ---- pictures and pipes

#[test]
fn a_picture_for_standard_output() {
    let folder = folder("standard_picture");
    let picture = path(&folder, "p.svg");
    run(&["--closed", "--svg", &picture], CURVE.as_bytes());
    let drawn = fs::read_to_string(picture).unwrap();
    let (out, messages, status) = told(&["--closed", "--svg", "-"], CURVE);
    assert_eq!((&out, status), (&drawn, Some(0)));
    assert!(messages.starts_with("fontcrunch: the penalty is 16, "), "{messages}");
    // which penalty holds is a note
    assert_eq!(told(&["--closed", "--quiet", "--svg", "-"], CURVE), (drawn, String::new(), Some(0)));
}

#[test]
fn an_old_picture_is_whole_until_the_new_one_is() {
    let folder = folder("old_picture");
    let picture = path(&folder, "p.svg");
    fs::write(&picture, "old").unwrap();
    let mut child =
        command().args(["--svg", &picture]).stdin(Stdio::piped()).stdout(Stdio::piped()).spawn().unwrap();
    let mut stdin = child.stdin.take().unwrap();
    std::io::Write::write_all(&mut stdin, b"7 9 1\n").unwrap();
    let mut answer = [0; 11];
    std::io::Read::read_exact(child.stdout.as_mut().unwrap(), &mut answer).unwrap();
    assert_eq!(fs::read_to_string(&picture).unwrap(), "old");
    // as Ctrl-C does
    let id = child.id().to_string();
    assert!(std::process::Command::new("kill").args(["-INT", &id]).status().unwrap().success());
    assert!(!child.wait().unwrap().success());
    assert_eq!(fs::read_to_string(&picture).unwrap(), "old");
    let names: Vec<_> = fs::read_dir(&folder).unwrap().map(|entry| entry.unwrap().file_name()).collect();
    assert_eq!(names, ["p.svg"]);
    // at a proper end the link to it stays, and so does its mode
    std::os::unix::fs::symlink("p.svg", folder.join("link.svg")).unwrap();
    fs::set_permissions(&picture, std::os::unix::fs::PermissionsExt::from_mode(0o640)).unwrap();
    run(&["--closed", "--svg", &path(&folder, "link.svg")], b"7 9 1\n");
    assert!(fs::read_to_string(&picture).unwrap().ends_with("</svg>\n"));
    assert!(fs::symlink_metadata(folder.join("link.svg")).unwrap().is_symlink());
    // the gate refuses links in the tree
    fs::remove_file(folder.join("link.svg")).unwrap();
    let mode = std::os::unix::fs::PermissionsExt::mode(&fs::metadata(&picture).unwrap().permissions());
    assert_eq!(mode & 0o777, 0o640);
}

#[test]
fn a_closed_pipe_needs_no_message() {
    let name = glif("pipe", "A.glif", &["0 0 1 100 0 1 0 100 1"]);
    for words in [&["glif", "--closed", &name][..], &["help"], &["--svg", "-", "--penalty", "16"]] {
        let mut child = command();
        child.args(words).stdin(Stdio::null()).stdout(Stdio::piped()).stderr(Stdio::piped());
        let mut child = child.spawn().unwrap();
        drop(child.stdout.take());
        let output = child.wait_with_output().unwrap();
        assert_eq!(text(&output.stderr), "", "{words:?}");
    }
}
