//! The command: lines in and out, messages, exit status, files, pictures.

mod common;

use std::fs;
use std::io::{BufRead, BufReader, Write};
use std::path::PathBuf;
use std::process::{Command, Stdio};
use std::thread;

use common::running::{command, folder, path, run, text};

/// Lines in, lines out, at the penalty of the Rust that this follows.
fn answers(input: &str) -> Vec<String> {
    answers_to(&["--penalty", "16"], input)
}

fn answers_to(words: &[&str], input: &str) -> Vec<String> {
    text(&run(words, input.as_bytes()).stdout).lines().map(str::to_owned).collect()
}

fn status(words: &[&str], input: &str) -> i32 {
    run(words, input.as_bytes()).status.code().unwrap()
}

/// The letter that comes with the repository.
const LETTER: &str = concat!(env!("CARGO_MANIFEST_DIR"), "/../../examples/letter.txt");

// ---- lines

// the Rattle program and the oracle answer these so
const CASES: [(&str, &str); 33] = [
    ("7 9 1", "ok 0 7 9 1"),
    ("0 0 1 100 0 1 0 100 1", "ok 0 0 100 1 100 0 1 0 0 1"),
    ("0 0 1 100 0 1 50 100 0", "ok 0 100 0 1 0 0 1"),
    ("5 5 1 5 5 0 5 5 1", "ok 1 5 5 1 5 5 1 5 5 0 5 5 1"),
    ("", "refused 2"),
    ("0 0 0", "refused 4"),
    ("0 0 1 1 1 0 2 2 0", "refused 5"),
    ("0 0 0 1 1 0 2 2 0", "refused 4"),
    ("0 0 1 10 10 0", "ok 0 0 0 1"),
    ("0 0 1 32767 0 0 32767 32767 1", "refused 6"),
    ("0 0 1 700 0 0 700 700 1", "refused 7"),
    ("0 0 1 432 433 0 410 410 1 -300 900 1", "refused 8"),
    (
        "20000 0 1 20000 10 0 20005 20 1 20020 30 0 20040 30 1",
        "ok 2 20040 30 1 20020 30 0 20005 20 1 20000 10 0 20000 0 1",
    ),
    ("7 9 3", "ok 0 7 9 1"),
    ("7 9 255", "ok 0 7 9 1"),
    ("7 9 128", "refused 4"),
    ("0 0 129 100 0 5 50 100 254", "ok 0 100 0 1 0 0 1"),
    ("-32768 32767 1", "ok 0 -32768 32767 1"),
    ("-0 007 01", "ok 0 0 7 1"),
    ("1 2", "malformed"),
    ("x", "malformed"),
    ("0 0 1 5", "malformed"),
    ("1.5 0 1", "malformed"),
    ("+1 0 1", "malformed"),
    ("32768 0 1", "malformed"),
    ("0 -32769 1", "malformed"),
    ("0 0 256", "malformed"),
    ("0 0 -1", "malformed"),
    ("0 0 1 ", "malformed"),
    (" 0 0 1", "malformed"),
    ("0  0 1", "malformed"),
    ("0 0 1\r", "malformed"),
    ("0\t0\t1", "malformed"),
];

#[test]
fn each_line_has_its_answer() {
    let input: String = CASES.iter().map(|(line, _)| format!("{line}\n")).collect();
    let expected: Vec<&str> = CASES.iter().map(|(_, answer)| *answer).collect();
    assert_eq!(answers(&input), expected);
}

#[test]
fn the_last_line_needs_no_end() {
    assert_eq!(answers(""), [""; 0]);
    assert_eq!(answers("7 9 1"), ["ok 0 7 9 1"]);
    assert_eq!(answers("7 9 1\n\n"), ["ok 0 7 9 1", "refused 2"]);
}

#[test]
fn the_most_points_of_a_contour_and_of_a_line() {
    let zigzag = |count: usize| -> String {
        let words: Vec<String> = (0..count).map(|i| format!("{} {} 1", i % 512, 40 * (i % 2))).collect();
        words.join(" ")
    };
    assert!(answers(&zigzag(1024))[0].starts_with("ok 0 511 40 1 "));
    assert_eq!(answers(&zigzag(1025)), ["refused 3"]);
    let longest = format!("{}0 0 000001", "0 0 1 ".repeat(10_921));
    assert_eq!(longest.len(), 65_536);
    assert_eq!(answers(&format!("{longest}\n0{longest}\n7 9 1\n")), ["refused 3", "malformed", "ok 0 7 9 1"]);
}

#[test]
fn a_line_of_any_length_is_passed_over() {
    let mut input = vec![b'1'; 8_000_000];
    input.extend_from_slice(b"\n7 9 1\n");
    let output = run(&[], &input);
    assert_eq!(text(&output.stdout), "malformed\nok 0 7 9 1\n");
    assert!(output.stderr.len() < 200);
}

#[test]
fn answers_come_before_the_input_ends() {
    assert_answers_come_at_once(&[]);
    assert_answers_come_at_once(&["--jobs", "3"]);
}

fn assert_answers_come_at_once(words: &[&str]) {
    let mut child = command().args(words).stdin(Stdio::piped()).stdout(Stdio::piped()).spawn().unwrap();
    let mut stdin = child.stdin.take().unwrap();
    let mut stdout = BufReader::new(child.stdout.take().unwrap());
    for _ in 0..3 {
        stdin.write_all(b"7 9 1\n").unwrap();
        let mut answer = String::new();
        stdout.read_line(&mut answer).unwrap();
        assert_eq!(answer, "ok 0 7 9 1\n");
    }
    drop(stdin);
    assert!(child.wait().unwrap().success());
}

#[test]
fn a_reader_that_has_seen_enough_ends_it() {
    let mut child =
        command().stdin(Stdio::piped()).stdout(Stdio::piped()).stderr(Stdio::piped()).spawn().unwrap();
    drop(child.stdout.take());
    let mut stdin = child.stdin.take().unwrap();
    let _ = stdin.write_all(b"7 9 1\n");
    let output = child.wait_with_output().unwrap();
    drop(stdin);
    assert_eq!((output.status.code(), text(&output.stderr).as_str()), (Some(2), ""));
}

// ---- status and messages

#[test]
fn the_status_is_the_worst_that_was_met() {
    assert_eq!(status(&[], ""), 0);
    assert_eq!(status(&[], "7 9 1\n"), 0);
    assert_eq!(status(&[], "5 5 1 5 5 0 5 5 1\n"), 0);
    assert_eq!(status(&[], "7 9 1\n0 0 0\n7 9 1\n"), 1);
    assert_eq!(status(&[], "x\n0 0 0\n7 9 1\n"), 2);
    assert_eq!(status(&[], "0 0 0\nx\n"), 2);
    assert_eq!(status(&["--nonsense"], ""), 2);
    assert_eq!(status(&["--svg"], ""), 2);
}

#[test]
fn messages_name_the_input_the_line_and_the_reason() {
    let output = run(&[], b"7 9 1\n0 0 0\n1 2 y\n");
    assert_eq!(text(&output.stdout), "ok 0 7 9 1\nrefused 4\nmalformed\n");
    assert_eq!(
        text(&output.stderr),
        "fontcrunch: (standard input):2: refused 4: the first point is off-curve; start with an on-curve one\n\
         fontcrunch: (standard input):2: point 0 is off-curve; --prepare starts at the first on-curve one\n\
         fontcrunch: (standard input):3: malformed: number 3, 'y', is not a whole number\n"
    );
}

/// What a shell says to a command of an example, `fontcrunch` being this one.
fn shell(command: &str) -> String {
    let folder = PathBuf::from(env!("CARGO_BIN_EXE_fontcrunch")).parent().unwrap().to_owned();
    let found = format!("{}:{}", folder.display(), std::env::var("PATH").unwrap());
    text(&Command::new("sh").args(["-c", command]).env("PATH", found).output().unwrap().stdout)
}

#[test]
fn the_examples_of_each_page_are_so() {
    for tool in [
        "crunch", "ufo", "editions", "trace", "why", "chain", "check", "glyph", "glif", "clean", "idle",
        "cubic", "explicit",
    ] {
        let page = run(&[tool, "--help"], b"");
        assert!(page.status.success());
        let page = text(&page.stdout);
        let example = page.split_once("\nExample:\n").unwrap().1.split_once("\n\n").unwrap().0;
        let mut lines = example.lines().peekable();
        while let Some(line) = lines.next() {
            let command = line.strip_prefix("  $ ").unwrap();
            let mut told = String::new();
            while let Some(line) = lines.next_if(|line| !line.starts_with("  $ ")) {
                told += &format!("{}\n", line.trim_start());
            }
            assert_eq!(shell(command), told, "{command}");
        }
    }
}

#[test]
fn help_and_version() {
    let help = run(&["--help"], b"");
    assert!(help.status.success() && text(&help.stdout).contains("usage: fontcrunch"));
    let version = run(&["--version"], b"");
    assert_eq!(text(&version.stdout), format!("fontcrunch {}\n", env!("CARGO_PKG_VERSION")));
    let wrong = run(&["--halp"], b"");
    assert_eq!(text(&wrong.stderr), "fontcrunch: there is no option --halp; see fontcrunch --help\n");
    assert!(wrong.stdout.is_empty());
}

// ---- settings

#[test]
fn the_default_is_a_penalty_of_32() {
    let letter = fs::read_to_string(LETTER).unwrap();
    // the smallest contour of the three
    let counter = letter.lines().last().unwrap();
    let at = |words: &[&str]| answers_to(words, counter);
    assert_eq!(at(&[]), at(&["--penalty", "32"]));
    assert_eq!(at(&["crunch"]), at(&["crunch", "--penalty=32"]));
    assert_eq!(at(&["--penalty", "16"]), [RECORDED_COUNTER]);
    assert_ne!(at(&["--penalty", "256"]), at(&["--penalty", "1"]));
    assert_eq!(at(&["clean", "--crunch"]), at(&[]));
    assert_eq!(at(&["clean", "--crunch", "--penalty", "16"]), [RECORDED_COUNTER]);
    assert_eq!(at(&["idle", "--crunch", "--penalty", "16"]), [RECORDED_COUNTER]);
}

// examples/c/expected has the same
const RECORDED_COUNTER: &str =
    "ok 1855 532 995 1 778 995 0 778 748 1 778 512 0 535 512 1 419 512 0 289 630 0 289 745 1";

#[test]
fn a_penalty_out_of_range_is_refused_line_by_line_after_1_to_5() {
    let input = "7 9 1\n\n0 0 0\n0 0 1 1 1 0 2 2 0\nx\n0 0 1 700 0 0 700 700 1\n";
    let lines = ["refused 16", "refused 2", "refused 4", "refused 5", "malformed", "refused 16"];
    for penalty in ["0", "257", "99999999999999999999"] {
        assert_eq!(answers_to(&["--penalty", penalty], input), lines);
        assert_eq!(answers_to(&["clean", "--crunch", "--penalty", penalty], input), lines);
        assert_eq!(answers_to(&["idle", "--crunch", "--penalty", penalty], input), lines);
    }
    assert_eq!(status(&["--penalty", "0"], "7 9 1\n"), 1);
    let cubics = "0 0 1 1 1 0\n7 9 1\n";
    assert_eq!(answers_to(&["cubic", "--crunch", "--penalty", "0"], cubics), ["refused 5", "refused 16"]);
}

#[test]
fn whole_units() {
    let bow = "0 0 1 700 0 0 700 700 1";
    assert_eq!(answers_to(&["--penalty", "16"], bow), ["refused 7"]);
    assert!(answers_to(&["--penalty", "16", "--whole-units"], bow)[0].starts_with("ok "));
    assert!(answers_to(&["clean", "--crunch", "--whole-units"], bow)[0].starts_with("ok "));
}

#[test]
fn closed() {
    let curve = "0 0 1 100 0 1 50 100 0";
    assert_eq!(answers_to(&["--closed"], curve), ["ok 1 0 0 1 100 0 1 50 100 0"]);
    assert_eq!(answers_to(&["clean", "--crunch", "--closed"], curve), ["ok 1 0 0 1 100 0 1 50 100 0"]);
    assert_eq!(answers_to(&[], curve), ["ok 0 100 0 1 0 0 1"]);
}

#[test]
fn a_penalty_that_is_no_number_is_a_wrong_command_line() {
    let wrong = run(&["--penalty", "1.5"], b"7 9 1\n");
    assert_eq!(wrong.status.code(), Some(2));
    assert!(wrong.stdout.is_empty());
    assert_eq!(
        text(&wrong.stderr),
        "fontcrunch: --penalty needs a whole number of sixteenths, 1 to 256; see fontcrunch --help\n"
    );
}

// ---- files

#[test]
fn files_are_answered_in_order_and_a_missing_one_loses_nothing() {
    let folder = folder("files");
    let (first, second, missing) =
        (path(&folder, "first"), path(&folder, "second"), path(&folder, "missing"));
    // the first has no line end: its line is not joined with the next file's
    fs::write(&first, "7 9 1").unwrap();
    fs::write(&second, "0 0 1\n").unwrap();
    let output = run(&[&first, &missing, "-", &second], b"1 1 1\n");
    assert_eq!(text(&output.stdout), "ok 0 7 9 1\nok 0 1 1 1\nok 0 0 0 1\n");
    assert!(text(&output.stderr).starts_with(&format!("fontcrunch: {missing}: ")));
    assert_eq!(output.status.code(), Some(2));
}

#[test]
fn a_folder_is_no_file() {
    let folder = folder("folder");
    let output = run(&[folder.to_str().unwrap()], b"");
    assert_eq!(output.status.code(), Some(2));
    assert!(text(&output.stderr).contains("folder: "));
}

// ---- pictures

/// The elements open and close in turn; text and attributes are quoted as they must be.
fn assert_well_formed(svg: &str) {
    let mut open = Vec::new();
    for part in svg.split('<').skip(1) {
        let (tag, words) = part.split_once('>').expect("a tag ends");
        assert!(!words.contains('>'), "{words}");
        for reference in words.split('&').skip(1) {
            assert!(["lt;", "gt;", "amp;"].iter().any(|name| reference.starts_with(name)), "{words}");
        }
        assert_eq!(tag.matches('"').count() % 2, 0, "{tag}");
        if let Some(name) = tag.strip_prefix('/') {
            assert_eq!(open.pop(), Some(name));
        } else if !tag.ends_with('/') {
            open.push(tag.split(' ').next().unwrap());
        }
    }
    assert!(open.is_empty(), "{open:?}");
    assert!(!svg.contains("NaN") && !svg.contains("inf"));
}

fn drawn(name: &str, input: &str) -> String {
    drawn_with(&[], name, input)
}

fn drawn_with(words: &[&str], name: &str, input: &str) -> String {
    let picture = path(&folder(name), "picture.svg");
    run(&[&["--svg", &picture], words].concat(), input.as_bytes());
    let svg = fs::read_to_string(picture).unwrap();
    assert_well_formed(&svg);
    svg
}

fn height(svg: &str) -> f64 {
    svg.split_once("height=\"").unwrap().1.split_once('"').unwrap().0.parse().unwrap()
}

#[test]
fn a_letter_is_drawn() {
    let picture = path(&folder("letter"), "letter.svg");
    let output = run(&["--svg", &picture, LETTER], b"");
    assert!(output.status.success());
    // the answers are those without a picture, at the penalty that a picture has
    assert_eq!(output.stdout, run(&["--penalty", "16", LETTER], b"").stdout);
    let svg = fs::read_to_string(picture).unwrap();
    assert_well_formed(&svg);
    for words in [
        "before: 54 points, 29 on and 25 off the curve",
        "after: 43 points",
        "letter.txt, line 3",
        "1,855 pairs tried",
        "at the penalty 1.0 (16 sixteenths), that of the crate, since none was given",
        "<title>replaces segments 2 to 3, at most 0.18 units away</title>",
        "<title>segment 7 at (438, 403): turns back in y; bend of 38.4 degrees, limit 1.15</title>",
    ] {
        assert!(svg.contains(words), "{words}");
    }
}

/// The pictures of the repository stand as they were drawn.
#[test]
fn the_letter_of_the_examples_is_drawn_as_it_stands_there() {
    let top = concat!(env!("CARGO_MANIFEST_DIR"), "/../..");
    let folder = folder("examples");
    for (name, words) in [("letter.svg", &[][..]), ("closed.svg", &["--closed"])] {
        let picture = path(&folder, name);
        let words = [&["--svg", &picture, "examples/letter.txt"], words].concat();
        assert!(command().current_dir(top).args(words).output().unwrap().status.success());
        let drawn = fs::read_to_string(picture).unwrap();
        assert!(drawn == fs::read_to_string(format!("{top}/examples/{name}")).unwrap(), "{name}");
    }
}

/// The colour of runs whose lookups fell.
const FALLEN: &str = "#8a3ffc";

#[test]
fn runs_whose_lookups_fell_are_marked() {
    let svg = drawn_with(&HIGH, "fell", &format!("{FELL}\n{HILL}\n"));
    assert_eq!(svg.matches(FALLEN).count(), 1);
    for words in [
        "3,641 pairs tried, 4 lookups fell in runs marked on the left",
        "<title>run 0: 4 lookups fell past the samples, 0 of them in the chain that was found</title>",
    ] {
        assert_eq!(svg.matches(words).count(), 1, "{words}");
    }
    let refused = drawn_with(&HIGH, "fell", &format!("{REFUSED_8}\n{HILL}\n"));
    assert!(refused.contains("refused 8") && !refused.contains(FALLEN) && !refused.contains(" fell "));
}

#[test]
fn every_kind_of_contour_is_drawn() {
    let input: String = CASES.iter().map(|(line, _)| format!("{line}\n")).collect();
    let svg = drawn("kinds", &input);
    for words in ["refused 2", "refused 4", "refused 5", "refused 6", "refused 7", "refused 8", "unchanged"] {
        assert!(svg.contains(words), "{words}");
    }
    assert!(svg.contains("marked on the left"));
    let wrong = drawn("wrong", "7 9 1\n1 2\n");
    assert!(wrong.contains("line 2") && wrong.contains(">malformed</text>"));
}

#[test]
fn a_picture_says_at_which_penalty_it_was_drawn() {
    for (penalty, words) in [
        ("32", "at the penalty 2.0 (32 sixteenths)<"),
        ("1", "at the penalty 0.0625 (1 sixteenth); an order"),
    ] {
        let svg = drawn_with(&["--penalty", penalty], "penalties", "7 9 1\n");
        assert!(svg.contains(words), "{words}");
    }
    // no run is marked for it
    let refused = drawn_with(&["--penalty", "0"], "penalties", "0 0 1 50 90 0 100 0 1\n");
    assert!(refused.contains("refused 16") && !refused.contains("marked on the left"));
}

/// The lines of the grid that is drawn.
fn grid_lines(svg: &str) -> usize {
    let data = svg.lines().find(|line| line.contains("class=\"grid\""));
    data.map_or(0, |line| line.split_once("d=\"").unwrap().1.matches('M').count())
}

#[test]
fn a_picture_shows_the_grid_of_the_breaks() {
    let small = "0 0 1 10 0 1 0 10 1\n";
    let half = drawn("half", small);
    assert!(half.contains("breaks on half units"));
    assert_eq!(grid_lines(&half), 2 * 21);
    let whole = drawn_with(&["--whole-units"], "whole", small);
    assert!(whole.contains("breaks on whole units"));
    assert_eq!(grid_lines(&whole), 2 * 11);
    // where the lines would be too near to each other, there are none
    assert_eq!(grid_lines(&drawn("coarse", "0 0 1 1000 0 1 0 1000 1\n")), 0);
}

/// The colour of what is lost.
const LOST: &str = "#e07b00";

#[test]
fn a_closed_picture_has_nothing_that_is_lost() {
    let input = "0 0 1 100 0 1 50 100 0\n0 0 1 10 10 0\n";
    let open = drawn("open", input);
    assert!(open.contains(LOST) && open.contains("the crate's mode"));
    let closed = drawn_with(&["--closed"], "closed", input);
    assert!(!closed.contains(LOST) && closed.contains("closed mode"));
    assert!(closed.contains("unchanged: there is no corner, 0 pairs tried"));
}

#[test]
fn the_height_grows_with_the_contours() {
    let one = "0 0 1 100 0 1 0 100 1\n";
    let heights: Vec<f64> =
        (0..3).map(|count| height(&drawn(&format!("height{count}"), &one.repeat(count)))).collect();
    assert!(heights[0] > 0.0);
    assert!((heights[2] - heights[1] - (heights[1] - heights[0])).abs() < 0.2);
}

#[test]
fn names_are_escaped() {
    let folder = folder("names");
    let (input, picture) = (path(&folder, "a<b&c>.txt"), path(&folder, "picture.svg"));
    fs::write(&input, "7 9 1\n").unwrap();
    run(&["--svg", &picture, &input], b"");
    let svg = fs::read_to_string(picture).unwrap();
    assert_well_formed(&svg);
    assert!(svg.contains("a&lt;b&amp;c&gt;.txt, line 1"));
}

#[test]
fn a_picture_that_cannot_be_written_loses_no_answer() {
    let output = run(&["--svg", "/nonexistent/picture.svg"], b"7 9 1\n");
    assert_eq!(text(&output.stdout), "ok 0 7 9 1\n");
    assert_eq!(output.status.code(), Some(2));
    assert!(text(&output.stderr).contains("\nfontcrunch: /nonexistent/picture.svg: "));
}

#[test]
fn contours_of_a_file_are_drawn_together() {
    let apart = drawn("apart", "0 0 1 0 9 1 9 9 1 9 0 1\n2 2 1 7 2 1 7 7 1 2 7 1\n");
    let together =
        drawn_with(&["--together"], "together", "0 0 1 0 9 1 9 9 1 9 0 1\n2 2 1 7 2 1 7 7 1 2 7 1\nx\n");
    assert!(height(&together) < height(&apart));
    assert!(together.contains("2 contours, 8 \u{2192} 8 points") && together.contains("line 3: "));
    assert_eq!(status(&["--together"], ""), 2);
}

#[test]
fn whoever_names_no_penalty_for_a_picture_is_told_which_holds() {
    let picture = path(&folder("told"), "picture.svg");
    let told = "fontcrunch: the penalty is 16, that of Settings::of_crate(), since none is given; \
                an order's default is another, 32\n";
    assert_eq!(text(&run(&["--svg", &picture], b"7 9 1\n").stderr), told);
    assert_eq!(text(&run(&["trace"], b"7 9 1\n").stderr), told);
    assert_eq!(text(&run(&["--svg", &picture, "--penalty", "16"], b"7 9 1\n").stderr), "");
    assert_eq!(text(&run(&[], b"7 9 1\n").stderr), "");
}

#[test]
fn an_input_is_not_drawn_over() {
    let folder = folder("over");
    let input = path(&folder, "input");
    fs::write(&input, "7 9 1\n").unwrap();
    let same = path(&folder, "../over/input");
    let output = run(&["--svg", &same, &input], b"");
    assert_eq!(output.status.code(), Some(2));
    assert_eq!(fs::read_to_string(&input).unwrap(), "7 9 1\n");
}

// ---- why

#[test]
fn why_each_segment_is_a_corner() {
    let said = run(&["why"], b"0 0 1 0 1 1\n7 9 1\n0 0 1 0 1 1 1 1 1 2 0 1\n0 0 1 10 10 0\n\n0 0 0\nx\n");
    let lines = [
        "ok 2 0:y 1:y",
        "ok 1 0:before,after",
        "ok 4 0:angle 1:x,angle 2:y,angle 3:x,angle",
        "ok 1 0:",
        "refused 2",
        "refused 4",
        "malformed",
    ];
    assert_eq!(text(&said.stdout), lines.join("\n") + "\n");
    assert_eq!(said.status.code(), Some(2));
}

#[test]
fn why_one_segment_is_a_corner() {
    let said = run(
        &["why", "--index"],
        b"0 7 9 1\n0 0 0 1 10 10 0\n2 0 0 1 0 1 1 1 1 1 2 0 1\n1 7 9 1\n9 0 0 0\n0\n",
    );
    assert_eq!(
        text(&said.stdout),
        "ok before,after\nok none\nok y,angle\nrefused 11\nrefused 4\nrefused 2\n"
    );
    assert_eq!(said.status.code(), Some(1));
    assert!(text(&said.stderr).contains("(standard input):4: refused 11: "));
}

// ---- glyph descriptions

/// What `glyph` with these words answers to a line.
fn glyph(words: &[&str], line: &str) -> String {
    let said = text(&run(&[&["glyph"], words].concat(), format!("{line}\n").as_bytes()).stdout);
    said.trim_end().to_owned()
}

/// A glyph written, crunched with these words, and read; or what crunching says instead.
fn crunched_glyph(words: &[&str], line: &str) -> String {
    let written = glyph(&["write"], line);
    let crunched = glyph(&[&["crunch"], words].concat(), written.strip_prefix("ok ").unwrap());
    match crunched.strip_prefix("ok ") {
        Some(hex) => glyph(&["read"], hex),
        None => crunched,
    }
}

const TRIANGLE: &str = "ok ends=2 instr=b003 pts=0 0 1 100 0 1 0 100 1";

#[test]
fn a_description_is_crunched() {
    for words in [&[][..], &["--penalty", "16"], &["--whole-units"]] {
        assert_eq!(crunched_glyph(words, TRIANGLE), "ok ends=2 instr=b003 pts=0 100 1 100 0 1 0 0 1");
    }
    assert_eq!(glyph(&["crunch"], "ffff"), "refused 15");
    assert_eq!(glyph(&["crunch"], "0"), "malformed");
}

#[test]
fn a_description_is_crunched_at_settings_in_any_order() {
    for words in [&["--closed"][..], &["--closed", "--penalty", "16"], &["--penalty=16", "--closed"]] {
        assert_eq!(crunched_glyph(words, TRIANGLE), TRIANGLE, "{words:?}");
    }
    let bow = "ends=2 instr= pts=0 0 1 700 0 0 700 700 1";
    assert_eq!(crunched_glyph(&["--penalty", "16"], bow), "refused 7");
    for words in [["--penalty=16", "--whole-units"], ["--whole-units", "--penalty=16"]] {
        assert!(crunched_glyph(&words, bow).starts_with("ok "), "{words:?}");
    }
    // as the contour alone
    let counter = fs::read_to_string(LETTER).unwrap().lines().last().unwrap().to_owned();
    let line = format!("ends={} instr= pts={counter}", counter.split(' ').count() / 3 - 1);
    let points = RECORDED_COUNTER.splitn(3, ' ').last().unwrap();
    let told = format!("ok ends={} instr= pts={points}", points.split(' ').count() / 3 - 1);
    assert_eq!(crunched_glyph(&["--penalty", "16"], &line), told);
    assert_ne!(crunched_glyph(&["--penalty", "256"], &line), told);
}

#[test]
fn settings_of_glyph_crunch_are_read_as_those_of_crunch() {
    for penalty in ["0", "257", "99999999999999999999"] {
        assert_eq!(crunched_glyph(&["--penalty", penalty], TRIANGLE), "refused 16");
        // no contour: the penalty is looked at all the same
        assert_eq!(glyph(&["crunch", "--penalty", penalty], "000000000000000000000000"), "refused 16");
    }
    for words in
        [&["--penalty"][..], &["--penalty", "1.5"], &["--penalty=1", "--penalty=1"], &["--svg=p"], &["--a"]]
    {
        let wrong = run(&[&["glyph", "crunch"], words].concat(), b"");
        assert_eq!(wrong.status.code(), Some(2), "{words:?}");
        assert!(text(&wrong.stderr).ends_with("; see fontcrunch glyph --help\n"), "{words:?}");
    }
    // settings are for crunching
    for tool in ["read", "write"] {
        assert_eq!(status(&["glyph", tool, "--closed"], ""), 2);
    }
    for words in [&["glyph", "--help"][..], &["glyph", "crunch", "--closed", "--help"]] {
        assert!(text(&run(words, b"").stdout).contains("usage: fontcrunch glyph"), "{words:?}");
    }
}

#[test]
fn implied_points_are_written_out_before_a_description_is_crunched() {
    // a line back to the start, and a contour that starts off-curve
    let font = "ends=2,5 instr=b003 pts=0 0 1 100 0 1 0 100 1 10 0 0 10 7 0 0 7 1";
    assert_eq!(crunched_glyph(&["--closed"], font), "refused 4");
    let explicit = "ends=2,6 instr=b003 pts=0 0 1 100 0 1 0 100 1 0 7 1 10 0 0 10 4 1 10 7 0";
    for words in [&["--closed"][..], &["--closed", "--penalty=256"], &[]] {
        let told = crunched_glyph(&[&["--explicit"], words].concat(), font);
        assert_eq!(told, crunched_glyph(words, explicit));
        assert!(told.starts_with("ok ends="), "{told}");
    }
    // the first contour that is refused decides, by 21 too
    assert_eq!(crunched_glyph(&["--explicit"], "ends=1,2 instr= pts=0 0 0 1 1 0 0 0 1"), "refused 21");
    assert_eq!(glyph(&["crunch", "--explicit"], "ffff"), "refused 15");
    assert_eq!(status(&["glyph", "read", "--explicit"], ""), 2);
}

#[test]
fn messages_of_glyph_name_the_line_and_the_reason() {
    let folder = folder("glyphs");
    let file = path(&folder, "hex");
    fs::write(&file, "ffff\n0g\n").unwrap();
    let said = run(&["glyph", "read", &file], b"");
    assert_eq!((text(&said.stdout).as_str(), said.status.code()), ("refused 15\nmalformed\n", Some(2)));
    assert_eq!(
        text(&said.stderr),
        format!(
            "fontcrunch: {file}:1: refused 15: the glyph is composite\n\
             fontcrunch: {file}:2: malformed: the line is not hexadecimal digits, two for each byte\n"
        )
    );
    assert!(text(&run(&["glyph", "write"], b"ends=0\n").stderr).contains("the line is not ends=a,b,..."));
    assert_eq!(status(&["glyph", "read"], "ffff\n"), 1);
}

#[test]
fn a_line_for_glyph_may_be_longer() {
    // a glyph of no contour, with bytes after it, which are not looked at
    let line = "00".repeat(2_097_152);
    let said = run(&["glyph", "read"], format!("{line}\n{line}00\n").as_bytes());
    assert_eq!(text(&said.stdout), "ok ends= instr= pts=\nmalformed\n");
}

// ---- implied points

#[test]
fn implied_points_are_written_out() {
    let lines = "1 0 0 2 3 0 9 9 1 -7 0 0\n0 0 1 5 0 1\n7 9 255\n\n0 0 0 1 1 0\n0 0\n";
    let told = [
        "ok 9 9 1 -7 0 0 -3 0 1 1 0 0 2 2 1 2 3 0",
        "ok 0 0 1 5 0 1",
        "ok 7 9 1",
        "refused 2",
        "refused 21",
        "malformed",
    ];
    assert_eq!(answers_to(&["explicit"], lines), told);
    assert_eq!(
        answers_to(&["explicit", "--crunch", "--closed"], "0 0 0 100 0 1 0 100 1\n0 0 0\n")[1],
        "refused 21"
    );
    let crunched = answers_to(&["explicit", "--crunch", "--penalty=16"], "5 0 0 9 9 1 0 0 1\n");
    assert_eq!(crunched, answers("9 9 1 0 0 1 5 0 0\n"));
    assert_eq!(status(&["explicit"], "0 0 0\n"), 1);
}

// ---- chains

const HILL: &str = "0 0 1 0 60 0 40 90 1 80 120 0 130 120 1 200 -40 1";

// the same as the oracle's, tools/chains/check
const HILL_CHAIN: &str = "ok 937 40081ec11db47a5f 2 \
     0 241 8000000000000000 404e000000000000 241 469 4054000000000000 405e000000000000";

#[test]
fn the_chain_of_a_run() {
    let input = format!("{HILL}\n5 5 1 5 5 0 5 5 1\n\n0 0 0\nx\n0 0 1 700 0 0 700 700 1\n");
    let said = run(&["chain", "0", "--penalty", "16"], input.as_bytes());
    let lines = [HILL_CHAIN, "unchanged 1", "refused 2", "refused 4", "malformed", "refused 7"];
    assert_eq!(text(&said.stdout), lines.join("\n") + "\n");
    assert_eq!(said.status.code(), Some(2));
    // a copied line, and none
    for run in ["1", "2", "99999999999999999999"] {
        assert_eq!(answers_to(&["chain", run, "--penalty", "16"], HILL), ["refused 10"]);
    }
    assert_eq!(answers_to(&["chain", "7", "--penalty", "0"], HILL), ["refused 16"]);
    assert_eq!(status(&["chain", "0"], &format!("{HILL}\n")), 0);
}

#[test]
fn the_segments_that_each_piece_replaces() {
    let with = HILL_CHAIN.replace(" 241 469", " 0 1 241 469") + " 1 1";
    assert_eq!(answers_to(&["chain", "--segments", "0", "--penalty", "16"], HILL), [with]);
    assert_eq!(answers_to(&["chain", "0", "--segments"], "5 5 1 5 5 0 5 5 1"), ["unchanged 1"]);
    assert_eq!(status(&["check", "0", "--segments"], ""), 2);
}

/// What `chain` answered as `check` reads it: the score and the pieces.
fn as_given(answer: &str) -> String {
    let words: Vec<&str> = answer.split(' ').collect();
    assert_eq!(words[0], "ok");
    [&words[2..3], &words[4..]].concat().join(" ")
}

#[test]
fn a_chain_is_checked_as_it_was_made() {
    for settings in [&["--penalty", "16"][..], &[], &["--whole-units"], &["--closed", "--penalty", "1"]] {
        let words = |tool| [&[tool, "0"], settings].concat();
        let chain = as_given(&answers_to(&words("chain"), HILL)[0]);
        let said = run(&words("check"), format!("{HILL} | {chain}\n").as_bytes());
        assert_eq!((text(&said.stdout).as_str(), said.status.code()), ("yes\n", Some(0)), "{settings:?}");
        // at another penalty it has another score
        assert_eq!(answers_to(&["check", "0", "--penalty", "256"], &format!("{HILL} | {chain}")), ["no"]);
    }
}

#[test]
fn chains_that_are_not_accepted_and_lines_that_are_none() {
    let chain = as_given(HILL_CHAIN);
    let damaged = chain.replacen("40081ec11db47a5f", "40081ec11db47a60", 1);
    let input = format!(
        "{HILL} | {chain}\n{HILL} | {damaged}\n{HILL} | {ONE}\n| {ONE}\n0 0 0 | {ONE}\n{HILL}\n",
        ONE = "3ff0000000000000"
    );
    let said = run(&["check", "0", "--penalty", "16"], input.as_bytes());
    assert_eq!(text(&said.stdout), "yes\nno\nno\nrefused 2\nrefused 4\nmalformed\n");
    let first: String = input.lines().take(2).map(|line| format!("{line}\n")).collect();
    assert_eq!(status(&["check", "0", "--penalty", "16"], &first), 1);
    assert_eq!(answers_to(&["check", "1", "--penalty", "16"], &first), ["refused 10"; 2]);
    assert!(
        text(&said.stderr).contains("(standard input):6: malformed: after the contour, ' | ' and a chain")
    );
}

#[test]
fn a_line_for_check_may_be_longer() {
    let piece = format!(" 0 1 {0} {0}", "3ff0000000000000");
    let line = format!("{HILL} | 3ff0000000000000{}\n", piece.repeat(3000));
    assert!(line.len() > 65_536);
    assert_eq!(answers_to(&["check", "0"], &line), ["no"]);
    let longer = format!("{HILL} | 3ff0000000000000{}\n", piece.repeat(8000));
    assert_eq!(answers_to(&["check", "0"], &longer), ["malformed"]);
}

// ---- lookups that fell

// as the oracle answers, tools/oracle/cases.py
const FELL: &str = "-1795 0 1 -1794 0 1 143 -4 0 -3 7 1 -1795 -900 1";
const FELL_CRUNCHED: &str = "ok 3641 -1795 -900 1 -3 7 1 64 2 0 -297 0 1 -1795 0 1";
const FELL_CHAIN: &str = "ok 3641 404c485cb033ceb5 2 \
     0 1500 c090580000000000 0000000000000000 1500 1821 4050000000000000 4000000000000000";
const FELL_BENT: &str = "40891b566b74f7c1 0 1821 4056800000000000 0000000000000000";
const REFUSED_8: &str = "1858 4 1 1857 4 1 -154 5 0 9 3 1 1858 508 1";
const HIGH: [&str; 3] = ["--whole-units", "--penalty", "256"];

/// What a tool answers, with and without the number.
fn answers_and_fallen(tool: &[&str], settings: &[&str], input: &str) -> (Vec<String>, Vec<String>) {
    let words = [tool, settings].concat();
    (answers_to(&words, input), answers_to(&[&words[..], &["--fallen"]].concat(), input))
}

#[test]
fn each_answer_ends_with_the_lookups_that_fell() {
    let input = format!("{FELL}\n{REFUSED_8}\n5 5 1 5 5 0 5 5 1\n7 9 1\n0 0 0\n1 2\n");
    let (plain, told) = answers_and_fallen(&[], &HIGH, &input);
    let still = "ok 1 5 5 1 5 5 1 5 5 0 5 5 1";
    assert_eq!(plain, [FELL_CRUNCHED, "refused 8", still, "ok 0 7 9 1", "refused 4", "malformed"]);
    let falls = [4, 0, 0, 0, 0].map(|number| format!(" fallen {number}")).into_iter().chain([String::new()]);
    let expected: Vec<String> = plain.iter().zip(falls).map(|(answer, end)| answer.clone() + &end).collect();
    assert_eq!(told, expected);
    assert_eq!(answers_to(&["--fallen", "--fallen", "--penalty", "0"], "7 9 1"), ["refused 16 fallen 0"]);
    // messages and the status stay
    let words = |fallen: &[&'static str]| [&HIGH[..], fallen].concat();
    let (without, with) = (run(&words(&[]), input.as_bytes()), run(&words(&["--fallen"]), input.as_bytes()));
    assert_eq!((without.stderr, without.status), (with.stderr, with.status));
}

#[test]
fn every_line_with_the_lookups_that_fell() {
    let input: String = CASES.iter().map(|(line, _)| format!("{line}\n")).collect();
    let told = answers_to(&["--penalty", "16", "--fallen"], &input);
    let expected = CASES.map(|(_, answer)| match answer {
        "malformed" => answer.to_owned(),
        _ => format!("{answer} fallen 0"),
    });
    assert_eq!(told, expected);
}

#[test]
fn a_chain_ends_with_the_lookups_of_its_run() {
    let input = format!("{FELL}\n5 5 1 5 5 0 5 5 1\n{REFUSED_8}\n\nx\n");
    let (plain, told) = answers_and_fallen(&["chain", "0"], &HIGH, &input);
    assert_eq!(plain, [FELL_CHAIN, "unchanged 1", "refused 8", "refused 2", "malformed"]);
    let ends = [" fallen 4", " fallen 0", " fallen 0", " fallen 0", ""];
    assert_eq!(told, plain.iter().zip(ends).map(|(answer, end)| answer.clone() + end).collect::<Vec<_>>());
    let segments = FELL_CHAIN.replace(" 1500 1821", " 0 1 1500 1821") + " 1 1 fallen 4";
    assert_eq!(answers_and_fallen(&["chain", "0", "--segments"], &HIGH, FELL).1, [segments]);
    assert_eq!(answers_and_fallen(&["chain", "1"], &HIGH, FELL).1, ["refused 10 fallen 0"]);
}

#[test]
fn a_verdict_ends_with_the_lookups_of_its_chain() {
    let (found, other) = (as_given(FELL_CHAIN), FELL_BENT.replacen("40891b", "40891c", 1));
    let input = format!(
        "{FELL} | {found}\n{FELL} | {FELL_BENT}\n{FELL} | {other}\n{FELL} | {short}\n| {found}\n{FELL}\n",
        short = FELL_BENT.replace("1821", "1820")
    );
    let (plain, told) = answers_and_fallen(&["check", "0"], &HIGH, &input);
    assert_eq!(plain, ["yes", "yes", "no", "no", "refused 2", "malformed"]);
    let lines =
        ["yes fallen 0", "yes fallen 2", "no fallen 2", "no fallen 0", "refused 2 fallen 0", "malformed"];
    assert_eq!(told, lines);
}

#[test]
fn each_edition_ends_with_its_own_lookups() {
    let (plain, told) =
        answers_and_fallen(&["editions"], &["--penalty=256", "--penalty=32", "--whole-units"], FELL);
    assert_eq!(plain[0], format!("a {FELL_CRUNCHED}"));
    assert_eq!(told, [format!("{} fallen 4", plain[0]), format!("{} fallen 8", plain[1])]);
    let words = ["--penalty=256", "--penalty=257", "--whole-units"];
    let lines = [&format!("a {FELL_CRUNCHED} fallen 4"), "b refused 16 fallen 0"];
    assert_eq!(answers_and_fallen(&["editions"], &words, FELL).1, lines);
    assert_eq!(answers_and_fallen(&["editions"], &words, "x").1, ["malformed"]);
}

// ---- jobs

#[test]
fn the_same_for_any_number_of_threads() {
    let folder = folder("jobs");
    let (cases, missing) = (path(&folder, "cases"), path(&folder, "missing"));
    let lines: String = CASES.iter().map(|(line, _)| format!("{line}\n")).collect();
    fs::write(&cases, lines.repeat(12)).unwrap();
    for tool in [
        &["--penalty", "16"][..],
        &["why"],
        &["clean", "--crunch"],
        &["idle", "--crunch"],
        &["chain", "0", "--penalty", "16", "--fallen"],
        &["glyph", "read"],
    ] {
        let with = |jobs: &str| {
            let words = [tool, &["--jobs", jobs, &cases, &missing, "-", &cases]].concat();
            let output = run(&words, b"7 9 1\nx");
            (output.status.code(), text(&output.stdout), text(&output.stderr))
        };
        let alone = with("1");
        assert_eq!(alone.1.lines().count(), 2 * 12 * CASES.len() + 2);
        for jobs in ["2", "3", "8"] {
            assert_eq!(with(jobs), alone, "{tool:?} by {jobs}");
        }
    }
}

#[test]
fn answers_and_messages_in_one_file_are_in_order_for_any_number_of_threads() {
    let folder = folder("merged");
    let (cases, both) = (path(&folder, "cases"), path(&folder, "both"));
    let lines: String = CASES.iter().map(|(line, _)| format!("{line}\n")).collect();
    fs::write(&cases, lines.repeat(12)).unwrap();
    let merged = |jobs: &str| {
        let file = fs::File::create(&both).unwrap();
        let words = ["--penalty", "16", "--jobs", jobs, &cases];
        command().args(words).stdout(file.try_clone().unwrap()).stderr(file).status().unwrap();
        fs::read_to_string(&both).unwrap()
    };
    let alone = merged("1");
    assert!(alone.contains("\nfontcrunch: ") && alone.contains("\nok "));
    for jobs in ["2", "8"] {
        assert_eq!(merged(jobs), alone, "by {jobs}");
    }
}

#[test]
fn the_same_picture_for_any_number_of_threads() {
    let input: String = CASES.iter().map(|(line, _)| format!("{line}\n")).collect();
    let with = |jobs| drawn_with(&["--jobs", jobs], "jobs_drawn", &input);
    assert_eq!(with("4"), with("1"));
}

#[test]
fn threads_end_where_nobody_reads_answers() {
    let mut child = command()
        .args(["--jobs", "3"])
        .stdin(Stdio::piped())
        .stdout(Stdio::piped())
        .stderr(Stdio::piped())
        .spawn()
        .unwrap();
    drop(child.stdout.take());
    let mut stdin = child.stdin.take().unwrap();
    // more than the queues hold; what is no longer read cannot be written
    let writer = thread::spawn(move || _ = stdin.write_all(&b"7 9 1\n".repeat(100_000)));
    let output = child.wait_with_output().unwrap();
    writer.join().unwrap();
    assert_eq!((output.status.code(), text(&output.stderr)), (Some(2), String::new()));
}
