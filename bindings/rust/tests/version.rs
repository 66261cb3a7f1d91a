//! The version is that of the header, and refusals have its words.

use std::fs;
use std::path::Path;
use std::process::Command;

use fontcrunch::{Refusal, VERSION};

fn header() -> String {
    fs::read_to_string(Path::new(env!("CARGO_MANIFEST_DIR")).join("../../include/fontcrunch.h")).unwrap()
}

#[test]
fn of_the_header_and_the_command() {
    assert!(header().contains(&format!("#define FONTCRUNCH_VERSION \"{VERSION}\"\n")));
    let said = Command::new(env!("CARGO_BIN_EXE_fontcrunch")).arg("--version").output().unwrap();
    assert_eq!(String::from_utf8(said.stdout).unwrap(), format!("fontcrunch {VERSION}\n"));
}

#[test]
fn words_of_the_header() {
    let header = header();
    for refusal in (1..=21).filter_map(Refusal::from_number) {
        let said = refusal.to_string();
        let words = said.split_once(": ").unwrap().1;
        assert!(header.contains(&format!("return \"{words}\";")), "{said}");
    }
}
