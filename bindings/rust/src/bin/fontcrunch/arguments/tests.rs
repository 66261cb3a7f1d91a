use super::*;
use crate::recipe::Recipe;

fn asked(words: &[&str]) -> Result<Request, String> {
    read(words.iter().map(OsString::from))
}

fn job(words: &[&str]) -> Job {
    match asked(words) {
        Ok(Request::Crunch(job)) => job,
        other => panic!("{words:?}: {other:?}"),
    }
}

fn fault(words: &[&str]) -> String {
    asked(words).unwrap_err()
}

fn file(name: &str) -> Input {
    Input::File(name.into())
}

#[test]
fn files_and_standard_input() {
    assert_eq!(job(&[]).inputs, [Input::Standard]);
    assert_eq!(job(&["a", "-", "b"]).inputs, [file("a"), Input::Standard, file("b")]);
    assert_eq!(job(&["--", "--svg", "-"]).inputs, [file("--svg"), file("-")]);
}

#[test]
fn a_picture() {
    for words in [["--svg", "p", "a"], ["a", "--svg", "p"]] {
        let job = job(&words);
        assert_eq!((job.inputs, job.drawing.picture), (vec![file("a")], Some("p".into())));
    }
    assert_eq!(job(&["--svg=a=b"]).drawing.picture, Some("a=b".into()));
    assert_eq!(job(&[]).drawing.picture, None);
}

#[test]
fn only_the_first_word_names_a_tool() {
    for (word, tool) in [("crunch", Tool::Crunch), ("clean", Tool::Clean { crunch: false })] {
        let job = job(&[word, word]);
        assert_eq!((job.tool, job.inputs), (tool, vec![file(word)]));
    }
    for words in [&["a", "clean"][..], &["--", "clean"], &["--penalty", "16", "clean"]] {
        let job = job(words);
        assert_eq!((job.tool, job.inputs.last()), (Tool::Crunch, Some(&file("clean"))), "{words:?}");
    }
}

#[test]
fn cleaning_and_cubics() {
    assert_eq!(job(&["clean"]).tool, Tool::Clean { crunch: false });
    assert_eq!(job(&["clean", "--crunch", "a"]).tool, Tool::Clean { crunch: true });
    assert_eq!(job(&["idle"]).tool, Tool::Idle { crunch: false });
    assert_eq!(job(&["idle", "--crunch", "a"]).tool, Tool::Idle { crunch: true });
    assert_eq!(job(&["cubic"]).tool, Tool::Cubic { crunch: false });
    assert_eq!(job(&["cubic", "a", "--crunch"]).tool, Tool::Cubic { crunch: true });
    assert_eq!(job(&["explicit", "a"]).tool, Tool::Explicit { crunch: false });
    assert_eq!(job(&["explicit", "--closed", "--crunch"]).tool, Tool::Explicit { crunch: true });
    assert!(fault(&["--crunch"]).contains("option of clean"));
    assert!(fault(&["crunch", "--crunch"]).contains("option of clean"));
    assert!(fault(&["clean", "--svg", "p"]).contains("--svg"));
}

#[test]
fn why() {
    assert_eq!(job(&["why"]).tool, Tool::Why { index: false });
    assert_eq!(job(&["why", "--index", "a"]).tool, Tool::Why { index: true });
    assert!(fault(&["--index"]).contains("option of why"));
    assert!(fault(&["clean", "--index"]).contains("option of why"));
    assert!(fault(&["why", "--crunch"]).contains("option of clean"));
    assert!(fault(&["why", "--svg", "p"]).contains("--svg"));
}

#[test]
fn chains() {
    assert_eq!(job(&["chain", "0"]).tool, Tool::Chain { run: 0, segments: false });
    assert_eq!(job(&["chain", "--segments", "2"]).tool, Tool::Chain { run: 2, segments: true });
    let checked = job(&["check", "--penalty", "16", "12", "3", "-"]);
    assert_eq!(checked.tool, Tool::Check { run: 12 });
    assert_eq!(checked.inputs, [file("3"), Input::Standard]);
    assert_eq!(checked.settings, Settings::of_crate());
    assert!(matches!(job(&["chain", "99999999999999"]).tool, Tool::Chain { run, .. } if run > 1024));
    for words in [&["chain"][..], &["check"], &["chain", "a", "0"], &["chain", "-1"], &["check", "--", "0"]] {
        assert!(asked(words).is_err(), "{words:?}");
    }
    assert!(fault(&["chain", "letter.txt"]).contains("number of a run"));
    assert!(fault(&["chain", "0", "--svg", "p"]).contains("--svg"));
}

#[test]
fn lookups_that_fell() {
    for words in
        [&[][..], &["crunch"], &["chain", "0"], &["check", "0"], &["editions", "--penalty=1", "--penalty=2"]]
    {
        assert!(!job(words).fallen.told, "{words:?}");
        let with = [words, &["--fallen"]].concat();
        assert_eq!(job(&with), Job { fallen: Fallen { told: true }, ..job(words) });
        assert!(job(&[&with[..], &["--fallen", "a"]].concat()).fallen.told);
    }
    assert!(job(&["chain", "--fallen", "--segments", "0"]).fallen.told);
    assert!(job(&["--svg", "p", "--fallen"]).fallen.told);
    for words in
        [&["why"][..], &["clean", "--crunch"], &["cubic", "--crunch"], &["glyph", "crunch"], &["glif", "a"]]
    {
        let wrong = fault(&[words, &["--fallen"]].concat());
        assert!(wrong.contains("--fallen is an option of crunch, editions, chain and check"), "{words:?}");
    }
    assert!(fault(&["--fallen=1"]).contains("no option --fallen=1"));
}

#[test]
fn the_penalty_is_32_and_that_of_a_picture_16() {
    assert_eq!(job(&[]).settings, Settings::default());
    assert_eq!(job(&["crunch"]).settings, Settings::default());
    assert_eq!(job(&["clean", "--crunch"]).settings, Settings::default());
    assert_eq!(job(&["--svg", "p"]).settings, Settings::of_crate());
    assert_eq!(job(&["--svg", "p", "--penalty", "32"]).settings, Settings::default());
    assert_eq!(job(&["--penalty", "20", "--svg", "p"]).settings.penalty, 20);
}

#[test]
fn a_penalty_is_any_whole_number() {
    for (word, penalty) in
        [("16", 16), ("0", 0), ("257", 257), ("007", 7), ("99999999999999999999", u32::MAX)]
    {
        assert_eq!(job(&["--penalty", word]).settings.penalty, penalty);
        assert_eq!(job(&["clean", &format!("--penalty={word}"), "--crunch"]).settings.penalty, penalty);
    }
    for word in ["", "x", "1.5", "-1", "+1", "0x10", "16 ", "\u{661}"] {
        assert!(fault(&["--penalty", word]).contains("whole number"), "{word}");
        assert!(fault(&[&format!("--penalty={word}")]).contains("whole number"), "{word}");
    }
    assert!(fault(&["--penalty"]).contains("whole number"));
    assert!(fault(&["--penalty", "16", "--penalty", "16"]).contains("twice"));
}

#[test]
fn whole_units() {
    assert!(!job(&[]).settings.whole_units);
    assert_eq!(job(&["--whole-units"]).settings, Settings::default().with_whole_units(true));
    assert!(job(&["cubic", "--whole-units", "--crunch"]).settings.whole_units);
    let drawn = Settings::of_crate().with_whole_units(true);
    assert_eq!(job(&["--svg", "p", "--whole-units"]).settings, drawn);
    assert!(fault(&["--whole-units=1"]).contains("no option --whole-units=1"));
}

#[test]
fn closed() {
    assert!(!job(&[]).settings.closed);
    assert_eq!(job(&["--closed"]).settings, Settings::default().with_closed(true));
    let drawn = Settings::default().with_penalty(16).with_whole_units(true).with_closed(true);
    assert_eq!(job(&["--whole-units", "--svg", "p", "--closed"]).settings, drawn);
}

#[test]
fn settings_are_for_what_crunches() {
    for tool in ["clean", "idle", "cubic", "explicit", "why"] {
        assert!(fault(&[tool, "--penalty", "16"]).contains("--penalty is for crunching"), "{tool}");
        assert!(fault(&[tool, "--whole-units"]).contains("--whole-units is for crunching"), "{tool}");
        assert!(fault(&[tool, "--closed"]).contains("--closed is for crunching"), "{tool}");
    }
}

#[test]
fn glyphs() {
    for (word, step) in [("read", Step::Read), ("write", Step::Write), ("crunch", Step::Crunch)] {
        let job = job(&["glyph", word, "read", "-"]);
        let tool = Tool::Glyph { step, explicit: false };
        assert_eq!((job.tool, job.inputs), (tool, vec![file("read"), Input::Standard]));
    }
    for words in [&["glyph"][..], &["glyph", "clean"], &["glyph", "--closed"], &["glyph", "--", "read"]] {
        assert!(fault(words).contains("needs read, write or crunch"), "{words:?}");
    }
    assert_eq!(job(&["glyph", "crunch"]).settings, Settings::default());
    let all = Settings::default().with_penalty(20).with_whole_units(true).with_closed(true);
    for words in [
        ["glyph", "crunch", "--penalty=20", "--whole-units", "--closed"],
        ["glyph", "--closed", "--penalty=20", "crunch", "--whole-units"],
    ] {
        assert_eq!(job(&words).settings, all);
    }
    for word in ["read", "write"] {
        assert!(fault(&["glyph", word, "--closed"]).contains("--closed is for crunching"));
    }
    assert_eq!(job(&["glyph", "read", "--jobs", "4"]).jobs, 4);
    let explicit = Tool::Glyph { step: Step::Crunch, explicit: true };
    for words in
        [["glyph", "crunch", "--explicit", "--closed"], ["glyph", "--closed", "--explicit", "crunch"]]
    {
        assert_eq!(job(&words).tool, explicit);
    }
    for words in [&["glyph", "read", "--explicit"][..], &["glif", "crunch", "--explicit"], &["--explicit"]] {
        assert!(fault(words).contains("--explicit is an option of glyph crunch"), "{words:?}");
    }
    assert!(fault(&["glyph", "crunch", "--svg", "p"]).contains("--svg"));
}

#[test]
fn two_penalties() {
    for words in
        [["--penalty=16", "--closed", "--penalty", "32"], ["--closed", "--penalty", "16", "--penalty=32"]]
    {
        let job = job(&[&["editions"][..], &words, &["a"]].concat());
        assert_eq!((job.tool, job.inputs), (Tool::Editions { penalty: 32 }, vec![file("a")]));
        assert_eq!(job.settings, Settings::default().with_penalty(16).with_closed(true));
    }
    for words in [&["editions"][..], &["editions", "--penalty", "16"], &["editions", "a", "b"]] {
        assert!(fault(words).contains("two penalties"), "{words:?}");
    }
    assert!(fault(&["editions", "--penalty=1", "--penalty=2", "--penalty=3"]).contains("twice"));
    assert!(fault(&["editions", "--penalty=1", "--penalty", "x"]).contains("--penalty needs"));
}

#[test]
fn lines_of_files_or_one_file() {
    for (word, step) in [("read", Step::Read), ("write", Step::Write), ("crunch", Step::Crunch)] {
        assert_eq!(job(&["glif", word, "-"]).tool, Tool::Glif { step });
    }
    let settings = Settings::default().with_penalty(20).with_closed(true);
    for words in [["a.glif", "--closed", "--penalty=20"], ["--closed", "a.glif", "--penalty=20"]] {
        let asked = read([&["glif"][..], &words].concat().into_iter().map(Into::into));
        assert_eq!(asked, Ok(Request::File(settings, More::default(), "a.glif".into())));
    }
    for words in
        [&["glif"][..], &["glif", "a", "b"], &["glif", "a", "-"], &["glif", "-"], &["glif", "--closed"]]
    {
        assert!(fault(words).contains("glif needs"), "{words:?}");
    }
    assert!(fault(&["glif", "read", "--closed"]).contains("--closed is for crunching"));
}

#[test]
fn jobs() {
    assert_eq!(job(&[]).jobs, 1);
    assert_eq!(job(&["why", "--jobs", "4"]).jobs, 4);
    assert_eq!(job(&["--jobs=256"]).jobs, 256);
    for word in ["0", "257", "-1", "x", "", "99999999999"] {
        assert!(fault(&["--jobs", word]).contains("1 to 256"), "{word}");
    }
    assert!(fault(&["--jobs", "2", "--jobs", "2"]).contains("twice"));
}

#[test]
fn wrong_words() {
    assert!(fault(&["--svg"]).contains("needs a file"));
    assert!(fault(&["--svg="]).contains("needs a file"));
    assert!(fault(&["--svg", "a", "--svg", "b"]).contains("twice"));
    assert!(fault(&["--runs"]).contains("no option --runs"));
    assert!(fault(&["clean", "--crunch=yes"]).contains("no option --crunch=yes"));
    assert!(fault(&["-x"]).contains("no option -x"));
}

const TOOLS: [&str; 13] = [
    "crunch", "ufo", "editions", "trace", "why", "chain", "check", "glyph", "glif", "clean", "idle", "cubic",
    "explicit",
];

#[test]
fn each_tool_has_a_page() {
    assert_eq!(asked(&["--version"]), Ok(Request::Version));
    assert_eq!(asked(&["a", "--help"]), Ok(Request::Help(None)));
    assert!(help(None).starts_with("Crunches TrueType contours"));
    for tool in TOOLS {
        for words in [[tool, "--help"], [tool, "-h"]] {
            assert_eq!(asked(&words), Ok(Request::Help(Tool::named(tool.as_ref()))));
        }
        let page = help(Tool::named(tool.as_ref()));
        assert!(page.contains(&format!("fontcrunch {tool}")) || tool == "crunch", "{tool}");
        assert!(help(None).contains(&format!("\n{tool} ")), "{tool}");
        assert!(page.contains("\nExample:\n  $ ") && page.ends_with("was wrong.\n"), "{tool}");
        // but for an answer of JSON, which is as long as it is
        assert!(page.lines().all(|line| line.len() <= 132 || line.starts_with("  {")), "{tool}");
        // settings by the same names and words wherever runs are worked; editions has two penalties
        let has_settings = page.contains("--penalty N    what each piece adds");
        assert_eq!(has_settings, !["why", "editions"].contains(&tool), "{tool}");
    }
}

#[test]
fn a_fault_says_where_to_read_on() {
    assert!(fault(&["--runs"]).ends_with("; see fontcrunch --help"));
    for tool in TOOLS {
        assert!(fault(&[tool, "--runs"]).ends_with(&format!("; see fontcrunch {tool} --help")));
    }
}

#[test]
fn help_tells_every_refusal_that_can_be_met() {
    for number in 2..=17 {
        assert!(help(None).contains(&format!("refused {number}: ")));
    }
    assert!(help(Tool::named("why".as_ref())).contains("refused 11: "));
    assert!(!help(Tool::named("why".as_ref())).contains("refused 16: "));
}

fn files(words: &[&str]) -> FilesJob {
    match asked(words) {
        Ok(Request::Files(job) | Request::Ufo(job)) => job,
        other => panic!("{words:?}: {other:?}"),
    }
}

#[test]
fn help_is_a_word_too() {
    assert_eq!(asked(&["help"]), Ok(Request::Help(None)));
    assert_eq!(asked(&["help", "ufo"]), Ok(Request::Help(Some(Tool::Ufo))));
    for words in [&["help", "x"][..], &["help", "why", "chain"]] {
        assert!(fault(words).contains("help is followed by the name of a tool"), "{words:?}");
    }
    assert_eq!(job(&["./help"]).inputs, [file("./help")]);
}

#[test]
fn whole_files_are_closed_prepared_and_kept_unless_fewer() {
    let closed = Settings::default().with_closed(true);
    let usual = Recipe { settings: closed, prepare: true, keep: true, cubic: false };
    let ufo = files(&["ufo", "a.ufo", "-o", "b.ufo"]);
    assert_eq!(
        ufo,
        FilesJob {
            recipe: usual,
            quiet: false,
            jobs: 1,
            inputs: vec!["a.ufo".into()],
            out: Some("b.ufo".into()),
            report: None
        }
    );
    assert_eq!(files(&["ufo", "--output=b.ufo", "a.ufo"]), ufo);
    let two = files(&["glif", "a", "-o", "d", "b", "-j4", "--report", "r", "--cubic", "-q", "--penalty=20"]);
    assert_eq!(
        (two.inputs, two.out, two.report),
        (vec!["a".into(), "b".into()], Some("d".into()), Some("r".into()))
    );
    assert_eq!((two.jobs, two.quiet, two.recipe.cubic, two.recipe.settings.penalty), (4, true, true, 20));
    let words = ["ufo", "a.ufo", "--in-place", "--no-closed", "--no-prepare", "--no-keep-unless-fewer"];
    let without = files(&words);
    let plain = Recipe { settings: Settings::default(), prepare: false, keep: false, cubic: false };
    assert_eq!((without.recipe, without.out), (plain, None));
    for words in [
        &["ufo"][..],
        &["ufo", "a"],
        &["ufo", "-o", "b"],
        &["ufo", "a", "b", "-o", "c"],
        &["ufo", "-", "-o", "c"],
        &["glif", "a", "-", "-o", "c"],
    ] {
        assert!(fault(words).contains(" needs one "), "{words:?}");
    }
    assert!(fault(&["ufo", "a", "-o", "b", "--in-place"]).contains("exclude each other"));
    assert!(fault(&["ufo", "a", "-o", "b", "-o", "c"]).contains("-o is given twice"));
    assert!(fault(&["ufo", "a", "-o"]).contains("-o needs a folder"));
    assert!(fault(&["ufo", "a", "-o", "b", "--report="]).contains("--report needs a file"));
}

#[test]
fn options_are_for_tools_that_they_change() {
    for (words, told) in [
        (&["why", "--prepare"][..], "--prepare is an option for crunching"),
        (&["chain", "0", "--prepare"], "--prepare is an option for crunching"),
        (&["clean", "--prepare"], "--prepare is an option for crunching"),
        (&["--keep-unless-fewer"], "--keep-unless-fewer is an option of glyph crunch, glif and ufo"),
        (&["glyph", "read", "--keep-unless-fewer"], "--keep-unless-fewer is an option of"),
        (&["glyph", "crunch", "--cubic"], "--cubic is an option of glif and ufo"),
        (&["--words"], "--words is an option of why"),
        (&["check", "0", "--with-contour"], "--with-contour is an option of chain"),
        (&["chain", "0", "--with-contour", "--segments"], "reads no segments and no fallen"),
        (&["chain", "0", "--with-contour", "--fallen"], "reads no segments and no fallen"),
        (&["-o", "b"], "-o is an option of ufo, and of glif with files"),
        (&["glif", "read", "--in-place"], "--in-place is an option of ufo, and of glif with files"),
        (&["glif", "a", "--report", "r"], "--report is an option of ufo"),
        (&["--no-closed"], "--no-closed is an option of ufo"),
        (&["glif", "a", "--no-prepare"], "--no-prepare is an option of ufo"),
    ] {
        assert!(fault(words).contains(told), "{words:?}: {}", fault(words));
    }
    for words in [
        &["--prepare"][..],
        &["editions", "--penalty=1", "--penalty=2", "--prepare"],
        &["cubic", "--crunch", "--prepare"],
        &["explicit", "--crunch", "--prepare"],
        &["clean", "--crunch", "--prepare"],
        &["glyph", "crunch", "--prepare"],
        &["glif", "crunch", "--prepare"],
    ] {
        assert!(job(words).more.prepare, "{words:?}");
    }
    assert!(job(&["why", "-q"]).more.quiet);
    assert_eq!(job(&["-j", "3"]).jobs, 3);
    assert!(fault(&["-j"]).contains("1 to 256"));
    assert!(fault(&["-jx"]).contains("no option -jx"));
}
