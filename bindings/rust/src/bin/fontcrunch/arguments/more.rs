//! The words that are neither settings nor a tool's own: what is done before and after crunching, what is told, and
//! where whole files go.

use std::ffi::{OsStr, OsString};
use std::path::PathBuf;

use fontcrunch::Settings;

use super::{once, parted, Step, Tool};
use crate::recipe::Recipe;

/// What is done with a line besides, and what is told.
#[derive(Clone, Copy, Debug, Default, PartialEq, Eq)]
pub struct More {
    /// No notes.
    pub quiet: bool,
    /// Contours are prepared before they are crunched.
    pub prepare: bool,
    /// What does not get smaller stays as it is.
    pub keep: bool,
    /// Cubic contours of GLIF are taken.
    pub cubic: bool,
    /// Of `why`: the reasons in words.
    pub words: bool,
    /// Of `chain`: the contour before its chain.
    pub with_contour: bool,
}

/// Whole files, each crunched to a file.
#[derive(Debug, PartialEq, Eq)]
pub struct FilesJob {
    pub recipe: Recipe,
    pub quiet: bool,
    pub jobs: usize,
    pub inputs: Vec<PathBuf>,
    /// The folder that they go to; where there is none, each is written in its place.
    pub out: Option<PathBuf>,
    pub report: Option<PathBuf>,
}

/// The words so far. What has a default that differs by tool is None as long as nothing is said of it.
#[derive(Default)]
pub struct MoreChosen {
    quiet: bool,
    closed: Option<bool>,
    prepare: Option<bool>,
    keep: Option<bool>,
    cubic: bool,
    words: bool,
    with_contour: bool,
    pub out: Option<PathBuf>,
    pub in_place: bool,
    pub report: Option<PathBuf>,
}

const FILES_ARE_FOR: &str = "of ufo, and of glif with files";

impl MoreChosen {
    /// Takes an option that is one of these, and from the words its value where that is the next; false where it is
    /// none.
    pub fn take(&mut self, word: &OsStr, words: &mut impl Iterator<Item = OsString>) -> Result<bool, String> {
        match parted(word) {
            ("--quiet" | "-q", None) => self.quiet = true,
            ("--prepare", None) => self.prepare = Some(true),
            ("--no-prepare", None) => self.prepare = Some(false),
            ("--no-closed", None) => self.closed = Some(false),
            ("--keep-unless-fewer", None) => self.keep = Some(true),
            ("--no-keep-unless-fewer", None) => self.keep = Some(false),
            ("--cubic", None) => self.cubic = true,
            ("--words", None) => self.words = true,
            ("--with-contour", None) => self.with_contour = true,
            ("--in-place", None) => self.in_place = true,
            ("-o" | "--output", value) => {
                let name = value.or_else(|| words.next()).filter(|name| !name.is_empty());
                once("-o", &mut self.out, name.ok_or("-o needs a folder to write")?.into())?;
            }
            ("--report", value) => {
                let name = value.or_else(|| words.next()).filter(|name| !name.is_empty());
                once("--report", &mut self.report, name.ok_or("--report needs a file to write")?.into())?;
            }
            _ => return Ok(false),
        }
        Ok(true)
    }

    /// Whether whole files are to be written to files.
    pub fn writes_files(&self) -> bool {
        self.out.is_some() || self.in_place
    }

    /// An option where it would change nothing is a wrong command line.
    pub fn fit(&self, tool: Tool, whole_file: bool) -> Result<(), String> {
        let crunches = tool.works_runs() && !matches!(tool, Tool::Chain { .. } | Tool::Check { .. });
        let glif = matches!(tool, Tool::Glif { step: Step::Crunch } | Tool::Ufo);
        let glyph = matches!(tool, Tool::Glyph { step: Step::Crunch, .. });
        let files = tool == Tool::Ufo || whole_file && self.writes_files();
        let negative = |choice: Option<bool>| choice == Some(false);
        let unfit = [
            (self.prepare == Some(true) && !crunches, "--prepare", "for crunching"),
            (
                self.keep == Some(true) && !glif && !glyph,
                "--keep-unless-fewer",
                "of glyph crunch, glif and ufo",
            ),
            (self.cubic && !glif, "--cubic", "of glif and ufo"),
            (self.words && !matches!(tool, Tool::Why { .. }), "--words", "of why"),
            (self.with_contour && !matches!(tool, Tool::Chain { .. }), "--with-contour", "of chain"),
            (self.out.is_some() && !files, "-o", FILES_ARE_FOR),
            (self.in_place && !files, "--in-place", FILES_ARE_FOR),
            (self.report.is_some() && !files, "--report", FILES_ARE_FOR),
            (negative(self.closed) && !files, "--no-closed", FILES_ARE_FOR),
            (negative(self.prepare) && !files, "--no-prepare", FILES_ARE_FOR),
            (negative(self.keep) && !files, "--no-keep-unless-fewer", FILES_ARE_FOR),
        ];
        match unfit.into_iter().find(|(is_unfit, ..)| *is_unfit) {
            Some((_, name, tools)) => Err(format!("{name} is an option {tools}")),
            None => Ok(()),
        }
    }

    /// For lines, and for one file that goes to standard output.
    pub fn more(&self) -> More {
        More {
            quiet: self.quiet,
            prepare: self.prepare.unwrap_or(false),
            keep: self.keep.unwrap_or(false),
            cubic: self.cubic,
            words: self.words,
            with_contour: self.with_contour,
        }
    }

    /// For files that go to files: closed, prepared, and kept unless fewer, where nothing else is said.
    pub fn recipe(&self, settings: Settings) -> Recipe {
        Recipe {
            settings: settings.with_closed(self.closed.unwrap_or(true)),
            prepare: self.prepare.unwrap_or(true),
            keep: self.keep.unwrap_or(true),
            cubic: self.cubic,
        }
    }
}
