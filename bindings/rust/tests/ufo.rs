//! Whole UFOs and files: what is crunched, kept and refused, what is copied, and what an interrupt leaves.

mod common;

use std::collections::BTreeMap;
use std::ffi::OsStr;
use std::fs;
use std::os::unix::fs::{symlink, PermissionsExt};
use std::path::{Path, PathBuf};
use std::process::{Command, Output, Stdio};
use std::thread;
use std::time::Duration;

use common::running::{command, folder, path, run, text};
use fontcrunch::{glif, prepared, Cruncher, Point, Settings};

// ---- files

fn contour(points: &[Point]) -> String {
    let element = |i: usize| {
        let before = points[(i + points.len() - 1) % points.len()];
        let kind = match (points[i].on_curve, before.on_curve) {
            (false, _) => "",
            (true, false) => " type=\"qcurve\"",
            (true, true) => " type=\"line\"",
        };
        format!("    <point x=\"{}\" y=\"{}\"{kind}/>\n", points[i].x, points[i].y)
    };
    format!("  <contour>\n{}  </contour>\n", (0..points.len()).map(element).collect::<String>())
}

fn file(name: &str, contours: &[Vec<Point>]) -> String {
    let inside: String = contours.iter().map(|points| contour(points)).collect();
    format!("<?xml version=\"1.0\" encoding=\"UTF-8\"?>\n<glyph name=\"{name}\" format=\"2\">\n<outline>\n{inside}</outline>\n</glyph>\n")
}

/// Fewer points come out: some stand on a line.
fn lines() -> Vec<Point> {
    vec![Point::on(0, 0), Point::on(50, 0), Point::on(100, 0), Point::on(0, 100)]
}

/// As many come out as go in.
fn triangle() -> Vec<Point> {
    vec![Point::on(0, 0), Point::on(100, 0), Point::on(0, 100)]
}

/// Refused by 7 on half units.
fn bow() -> Vec<Point> {
    vec![Point::on(0, 0), Point::off(800, 0), Point::on(800, 800)]
}

/// A wave without a corner, whose search takes some hundredths of a second; of `k` others at each other size.
fn wave(k: i16) -> Vec<Point> {
    let (long, short) = (20 + 2 * (k % 5), 6);
    let (mut x, mut y) = (0, 0);
    let mut points = vec![Point::on(0, 0)];
    for step in 0..10 + k % 3 {
        let (right, up) = if step % 2 == 0 { (long, short) } else { (short, long) };
        (x, y) = (x + right, y + up);
        points.push(Point::off(x, y));
        points.push(Point::on(x + up / 2, y + right / 2));
    }
    points.push(Point::on(x + 40, 0));
    points
}

const PLIST: &str =
    "<?xml version=\"1.0\" encoding=\"UTF-8\"?>\n<!DOCTYPE plist PUBLIC \"-//Apple//DTD PLIST 1.0//EN\" \
     \"http://www.apple.com/DTDs/PropertyList-1.0.dtd\">\n<plist version=\"1.0\">\n";

fn contents(glyphs: &[(&str, &str)]) -> String {
    let escaped = |text: &str| text.replace('&', "&amp;").replace('<', "&lt;");
    let pairs = glyphs
        .iter()
        .map(|(name, file)| format!("<key>{}</key>\n<string>{}</string>\n", escaped(name), escaped(file)));
    format!("{PLIST}<dict>\n{}</dict>\n</plist>\n", pairs.collect::<String>())
}

/// A UFO of glyphs: the name of each, of its file, and its contours.
fn ufo(at: &Path, glyphs: &[(&str, &str, Vec<Vec<Point>>)]) {
    fs::create_dir_all(at.join("glyphs")).unwrap();
    fs::write(
        at.join("metainfo.plist"),
        format!("{PLIST}<dict>\n<key>formatVersion</key>\n<integer>3</integer>\n</dict>\n</plist>\n"),
    )
    .unwrap();
    let named: Vec<_> = glyphs.iter().map(|(name, file, _)| (*name, *file)).collect();
    fs::write(at.join("glyphs/contents.plist"), contents(&named)).unwrap();
    for (name, of, contours) in glyphs {
        fs::write(at.join("glyphs").join(of), file(name, contours)).unwrap();
    }
}

fn usual(at: &Path) {
    ufo(
        at,
        &[
            ("a", "a.glif", vec![lines(), triangle()]),
            ("b", "b.glif", vec![triangle()]),
            ("c", "c.glif", vec![lines(), bow()]),
            ("space", "space.glif", vec![]),
        ],
    );
}

/// Every file under a folder with its bytes, but those of a call under way.
fn held(at: &Path) -> BTreeMap<PathBuf, Vec<u8>> {
    let mut found = BTreeMap::new();
    let mut folders = vec![PathBuf::new()];
    while let Some(place) = folders.pop() {
        for entry in fs::read_dir(at.join(&place)).unwrap().map(Result::unwrap) {
            let place = place.join(entry.file_name());
            if at.join(&place).is_dir() {
                folders.push(place);
            } else if !is_ours(&entry.file_name()) {
                found.insert(place, fs::read(entry.path()).unwrap());
            }
        }
    }
    found
}

fn is_ours(name: &OsStr) -> bool {
    name.as_encoded_bytes().starts_with(b".fontcrunch-")
}

fn ours(at: &Path) -> usize {
    fs::read_dir(at).unwrap().filter(|entry| is_ours(&entry.as_ref().unwrap().file_name())).count()
}

/// What the command says of two paths under a folder, with the folder's own name left out.
fn told(at: &Path, words: &[&str]) -> (String, String, Option<i32>) {
    let output = command().current_dir(at).args(words).output().unwrap();
    (text(&output.stdout), text(&output.stderr), output.status.code())
}

// ---- what becomes of glyphs

const USUAL_SUMMARY: &str = "4 glyphs: 1 crunched, 2 kept, 1 refused\npoints: 17 before, 16 after\n\
     refused 7: a run between two corners is too long: it has more than 2,048 breaks, half a unit or a whole one apart (1)\n  \
     c: contour 1, run 0: 1,299 units on half units; --whole-units takes twice that\n";

#[test]
fn glyphs_are_crunched_kept_or_refused_and_the_rest_is_copied() {
    let at = folder("ufo_usual");
    usual(&at.join("A.ufo"));
    let given = at.join("A.ufo");
    // what is not touched: features, images, data, another layer, a nested folder, a file that the list does not name
    fs::create_dir_all(given.join("images/deep")).unwrap();
    fs::create_dir_all(given.join("glyphs.background")).unwrap();
    fs::create_dir_all(given.join("glyphs/nested")).unwrap();
    fs::write(given.join("features.fea"), b"feature \r\n\xff").unwrap();
    fs::write(given.join("images/deep/i.png"), b"\x89PNG\0\xff".repeat(30_000)).unwrap();
    fs::write(given.join("glyphs.background/a.glif"), file("a", &[lines()])).unwrap();
    fs::write(given.join("glyphs/nested/a.glif"), file("a", &[lines()])).unwrap();
    fs::write(given.join("glyphs/unlisted.glif"), file("u", &[lines()])).unwrap();
    let (out, messages, status) = told(&at, &["ufo", "A.ufo", "-o", "B.ufo"]);
    assert_eq!((out.as_str(), messages.as_str(), status), (USUAL_SUMMARY, "", Some(1)));
    let (before, after) = (held(&given), held(&at.join("B.ufo")));
    assert_eq!(before.keys().collect::<Vec<_>>(), after.keys().collect::<Vec<_>>());
    let changed: Vec<_> = before.keys().filter(|place| before[*place] != after[*place]).collect();
    assert_eq!(changed, [Path::new("glyphs/a.glif")]);
    assert_eq!(ours(&at.join("B.ufo/glyphs")), 0);
}

/// The entries, called one by one.
fn by_entries(bytes: &[u8]) -> Option<Vec<u8>> {
    let mut cruncher = Cruncher::new(Settings::default().with_closed(true));
    let contours = glif::read(bytes).ok()?;
    let made: Vec<Vec<Point>> = contours
        .iter()
        .map(|points| cruncher.crunch(&prepared(points)?).map(|crunched| crunched.points))
        .collect::<Result<_, _>>()
        .ok()?;
    let stood = String::from_utf8_lossy(bytes).matches("<point ").count();
    (made.concat().len() < stood).then(|| glif::write(bytes, &made).unwrap())
}

#[test]
fn a_glyph_is_what_the_entries_make_of_it_for_any_number_of_threads() {
    let at = folder("ufo_entries");
    let glyphs: Vec<(String, Vec<Vec<Point>>)> =
        (0..12).map(|k| (format!("g{k}"), vec![wave(k), lines(), triangle()])).collect();
    let named: Vec<_> =
        glyphs.iter().map(|(name, contours)| (name.as_str(), name.as_str(), contours.clone())).collect();
    ufo(&at.join("A.ufo"), &named);
    let first = told(&at, &["ufo", "A.ufo", "-o", "B.ufo"]);
    for (name, _) in &glyphs {
        let before = fs::read(at.join("A.ufo/glyphs").join(name)).unwrap();
        let after = fs::read(at.join("B.ufo/glyphs").join(name)).unwrap();
        assert_eq!(after, by_entries(&before).unwrap_or(before), "{name}");
    }
    for jobs in ["2", "5", "256"] {
        let out = format!("B{jobs}.ufo");
        assert_eq!(told(&at, &["ufo", "A.ufo", "-o", &out, "-j", jobs]), first);
        assert_eq!(held(&at.join("B.ufo")), held(&at.join(out)), "{jobs}");
    }
}

#[test]
fn without_the_defaults() {
    let at = folder("ufo_without");
    ufo(&at.join("A.ufo"), &[("b", "b.glif", vec![triangle()])]);
    let words = ["ufo", "A.ufo", "-o", "B.ufo", "--no-keep-unless-fewer"];
    assert_eq!(told(&at, &words).0, "1 glyph: 1 crunched, 0 kept, 0 refused\npoints: 3 before, 3 after\n");
    let curve = vec![Point::on(0, 0), Point::on(100, 0), Point::off(50, 100)];
    ufo(&at.join("C.ufo"), &[("c", "c.glif", vec![curve])]);
    let words = ["ufo", "C.ufo", "-o", "D.ufo", "--no-closed", "--no-prepare"];
    let (out, messages, status) = told(&at, &words);
    assert_eq!(
        (out.as_str(), status),
        ("1 glyph: 1 crunched, 0 kept, 0 refused\npoints: 3 before, 2 after\n", Some(0))
    );
    let note = "fontcrunch: C.ufo/glyphs/c.glif: contour 0: 1 segment outside the corners is not written; --closed keeps it\n";
    assert_eq!(messages, note);
    assert_eq!(told(&at, &["ufo", "C.ufo", "-o", "E.ufo", "--no-closed", "-q"]).1, "");
}

#[test]
fn a_report_has_what_became_of_each() {
    let at = folder("ufo_report");
    usual(&at.join("A.ufo"));
    fs::write(
        at.join("A.ufo/glyphs/contents.plist"),
        contents(&[("a", "a.glif"), ("c\"", "c.glif"), ("d", "none.glif")]),
    )
    .unwrap();
    let (_, messages, status) =
        told(&at, &["ufo", "A.ufo", "-o", "B.ufo", "--report", "r.json", "--penalty", "20"]);
    assert!(messages.starts_with("fontcrunch: A.ufo/glyphs/none.glif: "), "{messages}");
    assert_eq!(status, Some(2));
    let version = env!("CARGO_PKG_VERSION");
    let expected = format!(
        r#"{{
  "shape": 1,
  "version": "{version}",
  "settings": {{"penalty": 20, "whole_units": false, "closed": true, "prepare": true, "cubic": false, "keep_unless_fewer": true}},
  "counts": {{"crunched": 1, "kept": 0, "refused": 1, "failed": 1, "earlier": 0}},
  "points": {{"before": 14, "after": 13}},
  "stopped": null,
  "files": [
    {{"name": "a", "file": "B.ufo/glyphs/a.glif", "fate": "crunched", "before": 7, "after": 6}},
    {{"name": "c\"", "file": "B.ufo/glyphs/c.glif", "fate": "refused", "before": 7, "after": 7, "refusal": 7, "contour": 1, "words": "contour 1, run 0: 1,299 units on half units; --whole-units takes twice that"}},
    {{"name": "d", "file": "B.ufo/glyphs/none.glif", "fate": "failed", "words": "A.ufo/glyphs/none.glif: No such file or directory (os error 2)"}}
  ]
}}
"#
    );
    assert_eq!(fs::read_to_string(at.join("r.json")).unwrap(), expected);
}

// ---- cubic outlines

const CUBIC: &str = "<glyph name=\"o\"><outline>\n<contour><point x=\"5\" y=\"7\" type=\"move\" name=\"top\"/></contour>\n\
     <contour><point x=\"0\" y=\"100\" type=\"curve\"/><point x=\"55\" y=\"100\"/><point x=\"100\" y=\"55\"/>\
     <point x=\"100\" y=\"0\" type=\"curve\"/><point x=\"40\" y=\"0\" type=\"line\"/><point x=\"20\" y=\"0\" type=\"line\"/>\
     <point x=\"0\" y=\"0\" type=\"line\"/></contour>\n</outline></glyph>";

#[test]
fn cubic_files_are_taken_where_that_is_asked_for() {
    let at = folder("ufo_cubic");
    fs::write(at.join("o.glif"), CUBIC).unwrap();
    let (_, messages, status) = told(&at, &["glif", "o.glif", "--closed"]);
    assert_eq!(status, Some(1));
    assert!(
        messages.ends_with("o.glif: contour 0, point 0: a move alone, an anchor of format 1; try --cubic\n"),
        "{messages}"
    );
    let (made, messages, status) = told(&at, &["glif", "o.glif", "--closed", "--cubic"]);
    assert_eq!((messages.as_str(), status), ("", Some(0)));
    // the anchor and all between contours is as it stood, and the curve is that of the entries
    let (head, rest) = made.split_once("<contour><point x=\"0\"").unwrap();
    assert_eq!(head, CUBIC.split_once("<contour><point x=\"0\"").unwrap().0);
    let points = [
        Point::on(0, 100),
        Point::off(55, 100),
        Point::off(100, 55),
        Point::on(100, 0),
        Point::on(40, 0),
        Point::on(20, 0),
        Point::on(0, 0),
    ];
    let quads = fontcrunch::from_cubics(&points).unwrap();
    let mut cruncher = Cruncher::new(Settings::default().with_closed(true));
    let crunched = cruncher.crunch(&quads).unwrap().points;
    let alone = format!("<glyph><outline><contour><point x=\"0\"{}", rest);
    assert_eq!(glif::read(alone.as_bytes()).unwrap(), [fontcrunch::explicit(&crunched).unwrap()]);
    assert!(!made.contains("type=\"curve\""));
    // a refusal tells the contour as the file has it
    let long = CUBIC.replace("55", "900").replace("100", "1000");
    fs::write(at.join("p.glif"), long).unwrap();
    let (_, messages, _) = told(&at, &["glif", "p.glif", "--closed", "--cubic"]);
    assert!(messages.contains("p.glif: contour 1, run "), "{messages}");
}

#[test]
fn a_cubic_ufo() {
    let at = folder("ufo_cubics");
    ufo(&at.join("A.ufo"), &[("o", "o.glif", vec![]), ("a", "a.glif", vec![lines()])]);
    fs::write(at.join("A.ufo/glyphs/o.glif"), CUBIC).unwrap();
    assert!(told(&at, &["ufo", "A.ufo", "-o", "B.ufo"])
        .0
        .starts_with("2 glyphs: 1 crunched, 0 kept, 1 refused\n"));
    let (out, _, status) = told(&at, &["ufo", "A.ufo", "-o", "C.ufo", "--cubic"]);
    assert!(out.starts_with("2 glyphs: 2 crunched, 0 kept, 0 refused\npoints: 12 before, "), "{out}");
    assert_eq!(status, Some(0));
}

// ---- folders as they are found

#[test]
fn names_are_those_of_the_list() {
    let at = folder("ufo_names");
    let odd = "a b&c \u{e9} (1).xml";
    ufo(&at.join("A.ufo"), &[("a&b", odd, vec![lines()]), ("twice", odd, vec![lines()])]);
    assert_eq!(
        told(&at, &["ufo", "A.ufo", "-o", "B.ufo"]).0.lines().next(),
        Some("1 glyph: 1 crunched, 0 kept, 0 refused")
    );
    // a name that leads elsewhere is told and not followed
    fs::write(at.join("secret.glif"), file("s", &[lines()])).unwrap();
    let list = [("x", "../../secret.glif"), ("y", "/etc/passwd"), ("z", ""), ("a", odd)];
    fs::write(at.join("A.ufo/glyphs/contents.plist"), contents(&list)).unwrap();
    let (out, messages, status) = told(&at, &["ufo", "A.ufo", "-o", "C.ufo"]);
    assert_eq!((out.lines().next(), status), (Some("1 glyph: 1 crunched, 0 kept, 0 refused"), Some(2)));
    assert!(messages.contains("glyph x: '../../secret.glif' is no name of a file"), "{messages}");
    assert_eq!(messages.lines().count(), 3);
    // without a list every file of that ending is a glyph
    fs::remove_file(at.join("A.ufo/glyphs/contents.plist")).unwrap();
    fs::write(at.join("A.ufo/glyphs/q.glif"), file("q", &[lines()])).unwrap();
    let (out, messages, status) = told(&at, &["ufo", "A.ufo", "-o", "D.ufo"]);
    assert_eq!((out.lines().next(), status), (Some("1 glyph: 1 crunched, 0 kept, 0 refused"), Some(0)));
    assert!(messages.contains("glyphs/contents.plist: is missing: every file there"), "{messages}");
    fs::write(at.join("A.ufo/glyphs/contents.plist"), "<plist>\n<dict></plist>").unwrap();
    let (out, messages, status) = told(&at, &["ufo", "A.ufo", "-o", "E.ufo"]);
    assert_eq!((out.as_str(), status), ("", Some(2)));
    assert_eq!(messages, "fontcrunch: A.ufo/glyphs/contents.plist:2:7: </plist> closes the element dict\n");
    assert!(!at.join("E.ufo").exists());
}

#[test]
fn folders_that_are_no_place_to_write_are_told() {
    let at = folder("ufo_places");
    usual(&at.join("A.ufo"));
    let before = held(&at);
    fs::write(at.join("file"), "").unwrap();
    fs::create_dir(at.join("empty")).unwrap();
    symlink("A.ufo", at.join("link.ufo")).unwrap();
    for (words, message) in [
        (&["ufo", "A.ufo", "-o", "A.ufo"][..], "A.ufo: is A.ufo itself; --in-place writes there"),
        (&["ufo", "A.ufo", "-o", "link.ufo"], "link.ufo: is A.ufo itself; --in-place writes there"),
        (
            &["ufo", "A.ufo", "-o", "A.ufo/data/B.ufo"],
            "A.ufo/data/B.ufo: lies in A.ufo, which is copied to it",
        ),
        (&["ufo", "A.ufo", "-o", "."], ".: holds A.ufo, which is copied to it"),
        (&["ufo", "A.ufo", "-o", "file"], "file: is there, and is no folder"),
        (&["ufo", "file", "-o", "B.ufo"], "file: is no folder; a UFO is one, and a zipped one is not read"),
        (&["ufo", "empty", "-o", "B.ufo"], "empty: is no UFO: it has no folder glyphs"),
        (&["ufo", "none.ufo", "-o", "B.ufo"], "none.ufo: No such file or directory (os error 2)"),
    ] {
        assert_eq!(
            told(&at, words),
            (String::new(), format!("fontcrunch: {message}\n"), Some(2)),
            "{words:?}"
        );
    }
    fs::remove_file(at.join("file")).unwrap();
    fs::remove_file(at.join("link.ufo")).unwrap();
    fs::remove_dir(at.join("empty")).unwrap();
    assert_eq!(held(&at), before);
    // what another has put there is not mixed with
    fs::create_dir_all(at.join("B.ufo/glyphs")).unwrap();
    fs::write(at.join("B.ufo/glyphs/other.glif"), "").unwrap();
    let (_, messages, status) = told(&at, &["ufo", "A.ufo", "-o", "B.ufo"]);
    let message =
        "B.ufo: is there and has glyphs/other.glif, which A.ufo has not; name another folder, or remove it";
    assert_eq!((messages, status), (format!("fontcrunch: {message}\n"), Some(2)));
    assert_eq!(held(&at.join("B.ufo")).len(), 1);
}

#[test]
fn a_second_call_writes_nothing_again() {
    let at = folder("ufo_again");
    usual(&at.join("A.ufo"));
    let first = told(&at, &["ufo", "A.ufo", "-o", "deep/er/B.ufo"]);
    let times = |at: &Path| -> Vec<_> {
        held(at).keys().map(|place| fs::metadata(at.join(place)).unwrap().modified().unwrap()).collect()
    };
    let out = at.join("deep/er/B.ufo");
    let before = (held(&out), times(&out));
    assert_eq!(told(&at, &["ufo", "A.ufo", "-o", "deep/er/B.ufo"]), first);
    assert_eq!((held(&out), times(&out)), before);
    // what was changed there is made again
    fs::write(out.join("glyphs/a.glif"), "half").unwrap();
    fs::write(out.join("metainfo.plist"), "half").unwrap();
    told(&at, &["ufo", "A.ufo", "-o", "deep/er/B.ufo"]);
    assert_eq!(held(&out), before.0);
}

#[test]
fn modes_stay() {
    let at = folder("ufo_modes");
    usual(&at.join("A.ufo"));
    let mode = |path: &Path| fs::metadata(path).unwrap().permissions().mode() & 0o777;
    let set =
        |path: &str, mode| fs::set_permissions(at.join(path), fs::Permissions::from_mode(mode)).unwrap();
    for (path, to) in [
        ("A.ufo/glyphs/a.glif", 0o640),
        ("A.ufo/glyphs/b.glif", 0o444),
        ("A.ufo/metainfo.plist", 0o600),
        ("A.ufo/glyphs", 0o750),
    ] {
        set(path, to);
    }
    told(&at, &["ufo", "A.ufo", "-o", "B.ufo"]);
    for (path, expected) in [
        ("B.ufo/glyphs/a.glif", 0o640),
        ("B.ufo/glyphs/b.glif", 0o444),
        ("B.ufo/metainfo.plist", 0o600),
        ("B.ufo/glyphs", 0o750),
    ] {
        assert_eq!(mode(&at.join(path)), expected, "{path}");
    }
    told(&at, &["ufo", "A.ufo", "--in-place"]);
    assert_eq!(mode(&at.join("A.ufo/glyphs/a.glif")), 0o640);
    assert_eq!(held(&at.join("A.ufo")), held(&at.join("B.ufo")));
}

#[test]
fn links_are_followed_once_and_never_written_through() {
    let at = folder("ufo_links");
    usual(&at.join("A.ufo"));
    fs::create_dir_all(at.join("elsewhere/images")).unwrap();
    fs::write(at.join("elsewhere/l.glif"), file("l", &[lines()])).unwrap();
    fs::write(at.join("elsewhere/images/i.png"), "png").unwrap();
    symlink("../../elsewhere/l.glif", at.join("A.ufo/glyphs/l.glif")).unwrap();
    symlink("../elsewhere/images", at.join("A.ufo/images")).unwrap();
    fs::write(at.join("A.ufo/glyphs/contents.plist"), contents(&[("l", "l.glif")])).unwrap();
    let (out, messages, _) = told(&at, &["ufo", "A.ufo", "-o", "B.ufo"]);
    assert_eq!((out.lines().next(), messages.as_str()), (Some("1 glyph: 1 crunched, 0 kept, 0 refused"), ""));
    assert!(fs::symlink_metadata(at.join("B.ufo/glyphs/l.glif")).unwrap().is_file());
    assert_eq!(fs::read_to_string(at.join("B.ufo/images/i.png")).unwrap(), "png");
    // in place a file elsewhere would change
    let before = held(&at);
    let (_, messages, status) = told(&at, &["ufo", "A.ufo", "--in-place"]);
    assert_eq!(messages, "fontcrunch: A.ufo/glyphs/l.glif: a symbolic link is not changed in place\n");
    assert_eq!((held(&at), status), (before, Some(2)));
    // one that leads round, one that leads nowhere
    symlink("..", at.join("A.ufo/round")).unwrap();
    symlink("nowhere", at.join("A.ufo/dangling")).unwrap();
    fs::remove_dir_all(at.join("B.ufo")).unwrap();
    let (_, messages, status) = told(&at, &["ufo", "A.ufo", "-o", "../ufo_links_out.ufo"]);
    assert!(messages.contains("a symbolic link leads back to a folder that it lies in"), "{messages}");
    assert!(messages.contains("A.ufo/dangling: No such file or directory"), "{messages}");
    assert_eq!(status, Some(2));
    let _ = fs::remove_dir_all(at.join("../ufo_links_out.ufo"));
    // the gate refuses links in the tree
    fs::remove_dir_all(at).unwrap();
}

#[test]
fn a_file_that_cannot_be_read_loses_no_other() {
    let at = folder("ufo_unread");
    usual(&at.join("A.ufo"));
    fs::remove_file(at.join("A.ufo/glyphs/b.glif")).unwrap();
    fs::create_dir(at.join("A.ufo/glyphs/b.glif")).unwrap();
    assert!(Command::new("mkfifo").arg(at.join("A.ufo/pipe")).status().unwrap().success());
    let (out, messages, status) = told(&at, &["ufo", "A.ufo", "-o", "B.ufo"]);
    assert!(out.starts_with("4 glyphs: 1 crunched, 1 kept, 1 refused, 1 not done\n"), "{out}");
    let lines: Vec<&str> = messages.lines().collect();
    assert_eq!(
        lines,
        [
            "fontcrunch: A.ufo/pipe: is neither a file nor a folder, and is left out",
            "fontcrunch: A.ufo/glyphs/b.glif: is no file"
        ]
    );
    assert_eq!(status, Some(2));
}

#[test]
fn a_full_disk_ends_it_and_the_next_call_goes_on() {
    let at = folder("ufo_full");
    usual(&at.join("A.ufo"));
    fs::write(at.join("A.ufo/features.fea"), vec![b'#'; 100_000]).unwrap();
    // a file of more than 8 blocks cannot be written, as on a disk that is full
    let words =
        format!("trap '' XFSZ; ulimit -f 8; exec {} ufo A.ufo -o B.ufo", env!("CARGO_BIN_EXE_fontcrunch"));
    let output = Command::new("sh").args(["-c", &words]).current_dir(&at).output().unwrap();
    assert_eq!(output.status.code(), Some(2));
    let messages = text(&output.stderr);
    assert!(messages.starts_with("fontcrunch: B.ufo/features.fea: File too large"), "{messages}");
    assert!(text(&output.stdout).contains("4 not done"));
    assert!(!at.join("B.ufo/features.fea").exists() && !at.join("B.ufo/metainfo.plist").exists());
    assert_eq!(ours(&at.join("B.ufo")), 0);
    assert_eq!(
        told(&at, &["ufo", "A.ufo", "-o", "B.ufo"]),
        (USUAL_SUMMARY.to_owned(), String::new(), Some(1))
    );
}

// ---- files one by one

#[test]
fn files_go_to_a_folder_or_stay_in_place() {
    let at = folder("ufo_files");
    for (name, contours) in [("a.glif", vec![lines()]), ("b.glif", vec![triangle()]), ("c.glif", vec![bow()])]
    {
        fs::write(at.join(name), file("g", &contours)).unwrap();
    }
    let (out, messages, status) =
        told(&at, &["glif", "-o", "out/deep", "a.glif", "b.glif", "./c.glif", "none.glif"]);
    assert!(out.starts_with("4 files: 1 crunched, 1 kept, 1 refused, 1 not done\n"), "{out}");
    assert_eq!(
        (messages.as_str(), status),
        ("fontcrunch: none.glif: No such file or directory (os error 2)\n", Some(2))
    );
    for name in ["b.glif", "c.glif"] {
        assert_eq!(fs::read(at.join(name)).unwrap(), fs::read(at.join("out/deep").join(name)).unwrap());
    }
    let crunched = fs::read(at.join("out/deep/a.glif")).unwrap();
    assert_eq!(Some(&crunched), by_entries(&fs::read(at.join("a.glif")).unwrap()).as_ref());
    assert_eq!(ours(&at.join("out/deep")), 0);
    for (words, message) in [
        (&["glif", "-o", ".", "a.glif"][..], "a.glif: is to be read and written; --in-place does that"),
        (
            &["glif", "-o", "o", "a.glif", "out/deep/a.glif"],
            "a.glif and out/deep/a.glif would both be written to o/a.glif",
        ),
    ] {
        assert_eq!(told(&at, words), (String::new(), format!("fontcrunch: {message}\n"), Some(2)));
    }
    let (_, messages, status) = told(&at, &["glif", "--in-place", "a.glif", "b.glif"]);
    assert_eq!((messages.as_str(), status), ("", Some(0)));
    assert_eq!(fs::read(at.join("a.glif")).unwrap(), crunched);
    assert_eq!(ours(&at), 0);
}

// ---- interrupts

/// A UFO that takes a second or more, and one that it becomes.
fn slow(at: &Path, glyphs: i16) -> BTreeMap<PathBuf, Vec<u8>> {
    let names: Vec<String> = (0..glyphs).map(|k| format!("g{k:02}")).collect();
    let glyphs: Vec<_> = names
        .iter()
        .zip(0..)
        .map(|(name, k)| (name.as_str(), name.as_str(), vec![wave(k), lines()]))
        .collect();
    ufo(&at.join("A.ufo"), &glyphs);
    assert_eq!(told(at, &["ufo", "A.ufo", "-o", "whole.ufo", "-j", "2"]).2, Some(0));
    held(&at.join("whole.ufo"))
}

/// Starts a call and kills it some time after it has done what is asked; false where it had ended before.
fn killed(at: &Path, words: &[&str], after: Duration, has_done: impl Fn() -> bool) -> bool {
    let mut child = command().current_dir(at).args(words).stdout(Stdio::null()).spawn().unwrap();
    while !has_done() && child.try_wait().unwrap().is_none() {
        thread::sleep(Duration::from_millis(1));
    }
    thread::sleep(after);
    let at_work = child.try_wait().unwrap().is_none();
    child.kill().unwrap();
    child.wait().unwrap();
    at_work
}

/// Tries what a busy machine may be too late for until it comes in time.
fn in_time(mut comes: impl FnMut() -> bool) {
    assert!((0..50).any(|_| comes()), "each call ended before it was met");
}

#[test]
fn killed_twenty_times_no_file_is_half() {
    let at = folder("ufo_killed");
    let whole = slow(&at, 40);
    let words = ["ufo", "A.ufo", "-o", "B.ufo"];
    for k in 0..20 {
        let done = || at.join(format!("B.ufo/glyphs/g{k:02}")).exists();
        in_time(|| {
            let in_time = killed(&at, &words, Duration::from_millis(k * 7 % 12), done);
            if !in_time {
                fs::remove_dir_all(at.join("B.ufo")).unwrap();
            }
            in_time
        });
        for (place, bytes) in held(&at.join("B.ufo")) {
            assert_eq!(bytes, whole[&place], "{place:?}");
        }
        assert!(!at.join("B.ufo/metainfo.plist").exists());
    }
    let (out, messages, status) = told(&at, &words);
    assert_eq!((messages.as_str(), status), ("", Some(0)));
    let earlier = out.split_once("; ").unwrap().1.split_once(" of these by an earlier call\n").unwrap().0;
    assert!(earlier.parse::<usize>().unwrap() >= 20, "{out}");
    assert_eq!(held(&at.join("B.ufo")), whole);
    assert_eq!((ours(&at.join("B.ufo")), ours(&at.join("B.ufo/glyphs"))), (0, 0));
}

#[test]
fn killed_in_place_no_glyph_is_crunched_twice() {
    let at = folder("ufo_killed_in_place");
    let whole = slow(&at, 16);
    let before = held(&at.join("A.ufo"));
    let words = ["ufo", "A.ufo", "--in-place"];
    for k in 0..8 {
        let place = PathBuf::from(format!("glyphs/g{k:02}"));
        let done = || fs::read(at.join("A.ufo").join(&place)).unwrap() != before[&place];
        in_time(|| {
            let in_time = killed(&at, &words, Duration::from_millis(k * 5 % 9), done);
            if !in_time {
                before
                    .iter()
                    .for_each(|(place, bytes)| fs::write(at.join("A.ufo").join(place), bytes).unwrap());
            }
            in_time
        });
        for (place, bytes) in held(&at.join("A.ufo")) {
            assert!(bytes == whole[&place] || bytes == before[&place], "{place:?}");
        }
    }
    // a copy of what is half done says so, and has no journal
    let (_, messages, _) = told(&at, &["ufo", "A.ufo", "-o", "C.ufo"]);
    assert!(messages.contains("glyphs/.fontcrunch-journal: was left by a call in place"), "{messages}");
    assert_eq!(ours(&at.join("C.ufo/glyphs")), 0);
    told(&at, &words);
    assert_eq!(held(&at.join("A.ufo")), whole);
    assert_eq!(ours(&at.join("A.ufo/glyphs")), 0);
}

/// A call that is sent a signal after its third glyph; none where it had ended before.
fn interrupted(at: &Path, signal: &str) -> Option<Output> {
    let _ = fs::remove_dir_all(at.join("B.ufo"));
    let child = command()
        .current_dir(at)
        .args(["ufo", "A.ufo", "-o", "B.ufo"])
        .stdout(Stdio::null())
        .stderr(Stdio::piped())
        .spawn()
        .unwrap();
    while !at.join("B.ufo/glyphs/g02").exists() {
        thread::sleep(Duration::from_millis(1));
    }
    assert!(Command::new("kill").args([signal, &child.id().to_string()]).status().unwrap().success());
    let output = child.wait_with_output().unwrap();
    // ended by the signal itself
    output.status.code().is_none().then_some(output)
}

#[test]
fn an_interrupt_leaves_no_temporary_file_and_the_next_call_goes_on() {
    let at = folder("ufo_interrupted");
    let whole = slow(&at, 10);
    for signal in ["-INT", "-TERM", "-HUP"] {
        let mut met = None;
        in_time(|| {
            met = interrupted(&at, signal);
            met.is_some()
        });
        let output = met.unwrap();
        assert_eq!(
            text(&output.stderr),
            "fontcrunch: interrupted: what is written is whole, and the same call goes on from there\n"
        );
        // the journal alone
        assert_eq!(ours(&at.join("B.ufo/glyphs")), 1);
        assert!(told(&at, &["ufo", "A.ufo", "-o", "B.ufo"]).0.contains(" by an earlier call\n"));
        assert_eq!(held(&at.join("B.ufo")), whole);
    }
}

#[test]
fn two_calls_do_not_work_in_one_folder() {
    let at = folder("ufo_two");
    let whole = slow(&at, 10);
    in_time(|| {
        let _ = fs::remove_dir_all(at.join("B.ufo"));
        let mut first = command()
            .current_dir(&at)
            .args(["ufo", "A.ufo", "-o", "B.ufo"])
            .stdout(Stdio::null())
            .spawn()
            .unwrap();
        while !at.join("B.ufo/glyphs/g00").exists() {
            thread::sleep(Duration::from_millis(1));
        }
        let (_, messages, status) = told(&at, &["ufo", "A.ufo", "-o", "B.ufo"]);
        assert!(first.wait().unwrap().success());
        assert_eq!(held(&at.join("B.ufo")), whole);
        (messages.as_str(), status)
            == ("fontcrunch: B.ufo/glyphs: another fontcrunch is at work there\n", Some(2))
    });
}

#[test]
fn a_journal_of_other_settings_or_bytes_counts_for_nothing() {
    let at = folder("ufo_journal");
    ufo(&at.join("A.ufo"), &[("a", "a.glif", vec![lines()])]);
    told(&at, &["ufo", "A.ufo", "-o", "whole.ufo", "--penalty=20"]);
    for journal in ["", "x", "fontcrunch 0\n6 6 6\n", "\u{0}\n\n"] {
        fs::create_dir_all(at.join("B.ufo/glyphs")).unwrap();
        fs::write(at.join("B.ufo/.fontcrunch-2-2.tmp"), "half").unwrap();
        fs::write(at.join("B.ufo/glyphs/.fontcrunch-journal"), journal).unwrap();
        fs::write(at.join("B.ufo/glyphs/.fontcrunch-1-1.tmp"), "half").unwrap();
        let (out, _, _) = told(&at, &["ufo", "A.ufo", "-o", "B.ufo", "--penalty=20"]);
        assert!(!out.contains("earlier"), "{out}");
        assert_eq!(held(&at.join("B.ufo")), held(&at.join("whole.ufo")));
        assert_eq!((ours(&at.join("B.ufo")), ours(&at.join("B.ufo/glyphs"))), (0, 0));
    }
}

// ---- progress

#[test]
fn how_far_it_is_stands_on_a_terminal_alone() {
    let at = folder("ufo_progress");
    usual(&at.join("A.ufo"));
    assert_eq!(told(&at, &["ufo", "A.ufo", "-o", "B.ufo"]).1, "");
    let words = format!("{} ufo A.ufo -o C.ufo", env!("CARGO_BIN_EXE_fontcrunch"));
    // script lends the command a terminal
    let Ok(output) = Command::new("script")
        .args(["-qec", &words, "/dev/null"])
        .current_dir(&at)
        .stdin(Stdio::null())
        .output()
    else {
        return;
    };
    let shown = text(&output.stdout);
    assert!(shown.contains("\r[1/4] ") && shown.contains("\r[4/4] "), "{shown}");
    let quiet = Command::new("script")
        .args(["-qec", &format!("{words}q -q"), "/dev/null"])
        .current_dir(&at)
        .stdin(Stdio::null())
        .output()
        .unwrap();
    assert!(!text(&quiet.stdout).contains("[1/4]"));
}

#[test]
fn a_closed_pipe_ends_it_quietly() {
    let at = folder("ufo_pipe");
    usual(&at.join("A.ufo"));
    let mut child = command()
        .current_dir(&at)
        .args(["ufo", "A.ufo", "-o", "B.ufo"])
        .stdout(Stdio::piped())
        .stderr(Stdio::piped())
        .spawn()
        .unwrap();
    drop(child.stdout.take());
    assert_eq!(text(&child.wait_with_output().unwrap().stderr), "");
    assert!(at.join("B.ufo/metainfo.plist").exists());
    // where nothing is to be told, nothing is
    let name = path(&at, "A.ufo");
    assert_eq!(run(&["ufo", &name, "-o", &path(&at, "C.ufo"), "-q"], b"").stderr, b"");
}
