//! What the command line asks for.

mod drawing;
mod help;
mod more;
mod settings;

use std::ffi::{OsStr, OsString};
use std::path::PathBuf;

use fontcrunch::{Settings, DEFAULT_PENALTY};

use crate::fallen::Fallen;
use crate::{chain_line, contour_line, glif, glyph};

pub use drawing::Drawing;
pub use help::{help, version};
use more::MoreChosen;
pub use more::{FilesJob, More};
use settings::Chosen;

#[derive(Debug, PartialEq, Eq)]
pub enum Request {
    /// Of a tool, where the first word names one.
    Help(Option<Tool>),
    Version,
    Crunch(Job),
    /// One file of UFO's GLIF, crunched to standard output.
    File(Settings, More, PathBuf),
    /// Files of UFO's GLIF, each crunched to a file.
    Files(FilesJob),
    /// A whole UFO.
    Ufo(FilesJob),
    /// One such file, and a page of it.
    FilePage(Job, PathBuf),
}

/// What to do with contours, at which settings, what answers tell besides, by how many threads, and where to draw
/// them.
#[derive(Debug, PartialEq, Eq)]
pub struct Job {
    pub tool: Tool,
    pub settings: Settings,
    pub fallen: Fallen,
    pub more: More,
    pub jobs: usize,
    pub inputs: Vec<Input>,
    pub drawing: Drawing,
    /// Where it is not, whoever asks is told which one holds.
    pub penalty_given: bool,
}

/// What is done with each contour. A first word that names a tool asks for it; without one, contours are crunched.
#[derive(Clone, Copy, Debug, Default, PartialEq, Eq)]
pub enum Tool {
    #[default]
    Crunch,
    Trace,
    Clean {
        /// and then crunch
        crunch: bool,
    },
    Idle {
        /// and then crunch
        crunch: bool,
    },
    Cubic {
        /// and then crunch
        crunch: bool,
    },
    Explicit {
        /// and then crunch
        crunch: bool,
    },
    Why {
        /// of the segment whose index comes first on each line
        index: bool,
    },
    Chain {
        run: usize,
        /// with the segments that each piece replaces
        segments: bool,
    },
    Check {
        run: usize,
    },
    Glyph {
        step: Step,
        /// with implied points written out before
        explicit: bool,
    },
    Glif {
        step: Step,
    },
    Ufo,
    Editions {
        /// of the second edition; the first has that of the settings
        penalty: u32,
    },
}

/// What is done with a glyph description, or with a file of UFO's GLIF.
#[derive(Clone, Copy, Debug, PartialEq, Eq)]
pub enum Step {
    Read,
    Write,
    Crunch,
}

impl Step {
    fn named(word: &OsStr) -> Option<Step> {
        match word.to_str() {
            Some("read") => Some(Step::Read),
            Some("write") => Some(Step::Write),
            Some("crunch") => Some(Step::Crunch),
            _ => None,
        }
    }
}

impl Tool {
    fn named(word: &OsStr) -> Option<Tool> {
        match word.to_str() {
            Some("crunch") => Some(Tool::Crunch),
            Some("trace") => Some(Tool::Trace),
            Some("clean") => Some(Tool::Clean { crunch: false }),
            Some("idle") => Some(Tool::Idle { crunch: false }),
            Some("cubic") => Some(Tool::Cubic { crunch: false }),
            Some("explicit") => Some(Tool::Explicit { crunch: false }),
            Some("why") => Some(Tool::Why { index: false }),
            Some("chain") => Some(Tool::Chain { run: 0, segments: false }),
            Some("check") => Some(Tool::Check { run: 0 }),
            Some("glyph") => Some(Tool::Glyph { step: Step::Read, explicit: false }),
            Some("glif") => Some(Tool::Glif { step: Step::Read }),
            Some("ufo") => Some(Tool::Ufo),
            Some("editions") => Some(Tool::Editions { penalty: 0 }),
            _ => None,
        }
    }

    /// Whether runs are worked, so that settings mean something.
    fn works_runs(self) -> bool {
        match self {
            Tool::Crunch | Tool::Trace | Tool::Ufo => true,
            Tool::Chain { .. } | Tool::Check { .. } | Tool::Editions { .. } => true,
            Tool::Clean { crunch }
            | Tool::Idle { crunch }
            | Tool::Cubic { crunch }
            | Tool::Explicit { crunch } => crunch,
            Tool::Glyph { step, .. } | Tool::Glif { step } => step == Step::Crunch,
            Tool::Why { .. } => false,
        }
    }

    /// What the tool needs to know before any file, where it needs something.
    fn needs(self) -> Option<&'static str> {
        match self {
            Tool::Chain { .. } | Tool::Check { .. } => Some(NEEDS_RUN),
            Tool::Glyph { .. } => Some(NEEDS_STEP),
            Tool::Glif { .. } => Some(NEEDS_GLIF),
            Tool::Ufo => Some(NEEDS_UFO),
            Tool::Editions { .. } => Some(NEEDS_PENALTIES),
            _ => None,
        }
    }

    /// The bytes that a line may have.
    pub fn longest_line(self) -> usize {
        match self {
            Tool::Check { .. } => chain_line::LONGEST_LINE,
            Tool::Glyph { .. } => glyph::LONGEST_LINE,
            Tool::Glif { .. } => glif::LONGEST_LINE,
            _ => contour_line::LONGEST_LINE,
        }
    }
}

#[derive(Debug, PartialEq, Eq)]
pub enum Input {
    Standard,
    File(PathBuf),
}

/// A request, or what is wrong with the words and where to read on.
pub fn read(words: impl IntoIterator<Item = OsString>) -> Result<Request, String> {
    let mut words = words.into_iter().peekable();
    if words.next_if(|word| word == "help").is_some() {
        return help_for(words);
    }
    let named = words.peek().and_then(|word| Tool::named(word));
    let page = match named {
        Some(_) => format!(" {}", words.next().unwrap_or_default().to_string_lossy()),
        None => String::new(),
    };
    read_for(named, words).map_err(|wrong| format!("{wrong}; see fontcrunch{page} --help"))
}

/// What `fontcrunch help` and `fontcrunch help TOOL` ask for.
fn help_for(mut words: impl Iterator<Item = OsString>) -> Result<Request, String> {
    let Some(word) = words.next() else {
        return Ok(Request::Help(None));
    };
    match (Tool::named(&word), words.next()) {
        (Some(tool), None) => Ok(Request::Help(Some(tool))),
        _ => Err("help is followed by the name of a tool, or by nothing; see fontcrunch --help".to_owned()),
    }
}

/// The request of the words after the tool's name.
fn read_for(named: Option<Tool>, mut words: impl Iterator<Item = OsString>) -> Result<Request, String> {
    let mut asked = Asked { tool: named.unwrap_or_default(), ..Asked::default() };
    while let Some(word) = words.next() {
        match word.to_str() {
            Some("--help" | "-h") => return Ok(Request::Help(named)),
            Some("--version" | "-V") => return Ok(Request::Version),
            Some("--") => {
                asked.inputs.extend(words.by_ref().map(|name| Input::File(name.into())));
            }
            Some("-") => asked.inputs.push(Input::Standard),
            _ if is_option(&word) => asked.take_option(&word, &mut words)?,
            _ => asked.take_word(word)?,
        }
    }
    asked.request()
}

/// Each thread has rows of a megabyte.
const MOST_JOBS: u32 = 256;

const NEEDS_RUN: &str = "chain and check need the number of a run before any file, as in: chain 0";

const NEEDS_STEP: &str = "glyph needs read, write or crunch before any file, as in: glyph read";

const NEEDS_GLIF: &str =
    "glif needs one file of GLIF, or files and -o DIR, or read, write or crunch before any file of lines, as in: glif A.glif, glif read";

const NEEDS_UFO: &str = "ufo needs one folder, and -o OUT or --in-place, as in: ufo IN.ufo -o OUT.ufo";

const EXPLICIT_IS_FOR: &str = "--explicit is an option of glyph crunch";

const NEEDS_PENALTIES: &str = "editions needs two penalties: --penalty A --penalty B";

/// What the words so far ask for.
#[derive(Default)]
struct Asked {
    tool: Tool,
    has_needed: bool,
    whole_file: bool,
    settings: Chosen,
    fallen: Fallen,
    more: MoreChosen,
    jobs: Option<u32>,
    inputs: Vec<Input>,
    drawing: Drawing,
}

impl Asked {
    /// A file; but first what the tool needs, where it needs something.
    fn take_word(&mut self, word: OsString) -> Result<(), String> {
        match &mut self.tool {
            Tool::Chain { run, .. } | Tool::Check { run } if !self.has_needed => {
                *run = whole_number(&word).ok_or(NEEDS_RUN)? as usize;
            }
            Tool::Glyph { step, .. } if !self.has_needed => *step = Step::named(&word).ok_or(NEEDS_STEP)?,
            Tool::Glif { step } if !self.has_needed => match Step::named(&word) {
                Some(named) => *step = named,
                None => {
                    *step = Step::Crunch;
                    self.whole_file = true;
                    self.inputs.push(Input::File(word.into()));
                }
            },
            Tool::Editions { .. } => {
                self.inputs.push(Input::File(word.into()));
                return Ok(());
            }
            _ => self.inputs.push(Input::File(word.into())),
        }
        self.has_needed = true;
        Ok(())
    }

    /// The penalty of a second edition; whether it is one.
    fn take_second(
        &mut self,
        word: &OsStr,
        words: &mut impl Iterator<Item = OsString>,
    ) -> Result<bool, String> {
        let Tool::Editions { penalty } = &mut self.tool else {
            return Ok(false);
        };
        let (name, value) = parted(word);
        if name != "--penalty" || self.has_needed || !self.settings.has_penalty() {
            return Ok(false);
        }
        *penalty = settings::penalty(value.or_else(|| words.next()))?;
        self.has_needed = true;
        Ok(true)
    }

    /// An option whose value, where it has one, follows it as a word of its own or after a `=`.
    fn take_option(
        &mut self,
        word: &OsStr,
        words: &mut impl Iterator<Item = OsString>,
    ) -> Result<(), String> {
        let taken = self.take_second(word, words)? || self.settings.take(word, words)?;
        if taken || self.more.take(word, words)? {
            return Ok(());
        }
        if self.drawing.take(self.tool, word, words)? {
            return Ok(());
        }
        match parted(word) {
            ("-j", value) => self.by_jobs(value.or_else(|| words.next())),
            (short, None) if joined_jobs(short).is_some() => self.by_jobs(joined_jobs(short)),
            ("--jobs", value) => self.by_jobs(value.or_else(|| words.next())),
            ("--crunch", None) => self.then_crunch(),
            ("--explicit", None) => self.made_explicit(),
            ("--index", None) => self.by_index(),
            ("--segments", None) => self.with_segments(),
            ("--fallen", None) => self.with_fallen(),
            _ => Err(no_option(word)),
        }
    }

    fn then_crunch(&mut self) -> Result<(), String> {
        match &mut self.tool {
            Tool::Clean { crunch }
            | Tool::Idle { crunch }
            | Tool::Cubic { crunch }
            | Tool::Explicit { crunch } => *crunch = true,
            _ => return Err("--crunch is an option of clean, idle, cubic and explicit".to_owned()),
        }
        Ok(())
    }

    fn made_explicit(&mut self) -> Result<(), String> {
        match &mut self.tool {
            Tool::Glyph { explicit, .. } => *explicit = true,
            _ => return Err(EXPLICIT_IS_FOR.to_owned()),
        }
        Ok(())
    }

    fn by_index(&mut self) -> Result<(), String> {
        match &mut self.tool {
            Tool::Why { index } => *index = true,
            _ => return Err("--index is an option of why".to_owned()),
        }
        Ok(())
    }

    fn with_segments(&mut self) -> Result<(), String> {
        match &mut self.tool {
            Tool::Chain { segments, .. } => *segments = true,
            _ => return Err("--segments is an option of chain".to_owned()),
        }
        Ok(())
    }

    fn with_fallen(&mut self) -> Result<(), String> {
        match self.tool {
            Tool::Crunch | Tool::Editions { .. } | Tool::Chain { .. } | Tool::Check { .. } => {
                self.fallen.told = true;
                Ok(())
            }
            _ => Err("--fallen is an option of crunch, editions, chain and check".to_owned()),
        }
    }

    fn by_jobs(&mut self, number: Option<OsString>) -> Result<(), String> {
        let number = number.as_deref().and_then(whole_number).filter(|jobs| (1..=MOST_JOBS).contains(jobs));
        let jobs = number.ok_or_else(|| format!("--jobs needs a number of threads, 1 to {MOST_JOBS}"))?;
        once("--jobs", &mut self.jobs, jobs)
    }

    /// Settings where no run is worked would change nothing, unsaid.
    fn no_settings(&self) -> Result<(), String> {
        match self.settings.first_given() {
            None => Ok(()),
            Some(name) => Err(format!(
                "{name} is for crunching: clean --crunch, idle --crunch, cubic --crunch, explicit --crunch, glyph crunch, glif crunch"
            )),
        }
    }

    fn request(mut self) -> Result<Request, String> {
        let (tool, whole_file) = (self.tool, self.whole_file);
        self.more.fit(tool, whole_file)?;
        if let (Tool::Chain { segments, .. }, true) = (tool, self.more.more().with_contour) {
            if segments || self.fallen.told {
                return Err(
                    "--with-contour gives lines for check, which reads no segments and no fallen".to_owned()
                );
            }
        }
        let files = tool == Tool::Ufo || whole_file && self.more.writes_files();
        let more = std::mem::take(&mut self.more);
        let mut job = Job { more: more.more(), ..self.job()? };
        if files {
            return Asked::files(job, more);
        }
        if !whole_file {
            return Ok(Request::Crunch(job));
        }
        match (job.inputs.pop(), job.inputs.is_empty()) {
            (Some(Input::File(name)), true) if job.drawing.page.is_some() => Ok(Request::FilePage(job, name)),
            (Some(Input::File(name)), true) => Ok(Request::File(job.settings, job.more, name)),
            _ => Err(NEEDS_GLIF.to_owned()),
        }
    }

    /// Of whole files that go to files: either to a folder or in place.
    fn files(job: Job, more: MoreChosen) -> Result<Request, String> {
        let needs = if job.tool == Tool::Ufo { NEEDS_UFO } else { NEEDS_GLIF };
        let path = |input| match input {
            Input::File(path) => Ok(path),
            Input::Standard => Err(needs.to_owned()),
        };
        let files = FilesJob {
            recipe: more.recipe(job.settings),
            quiet: job.more.quiet,
            jobs: job.jobs,
            inputs: job.inputs.into_iter().map(path).collect::<Result<_, String>>()?,
            out: more.out,
            report: more.report,
        };
        match (job.tool, files.out.is_some(), more.in_place) {
            (_, true, true) => Err("-o and --in-place exclude each other".to_owned()),
            (_, false, false) => Err(needs.to_owned()),
            (Tool::Ufo, ..) if files.inputs.len() != 1 => Err(needs.to_owned()),
            (Tool::Ufo, ..) => Ok(Request::Ufo(files)),
            _ => Ok(Request::Files(files)),
        }
    }

    fn job(mut self) -> Result<Job, String> {
        if let Some(needs) = self.tool.needs().filter(|_| !self.has_needed) {
            return Err(needs.to_owned());
        }
        if !self.tool.works_runs() {
            self.no_settings()?;
            if let Tool::Glyph { explicit: true, .. } = self.tool {
                return Err(EXPLICIT_IS_FOR.to_owned());
            }
        }
        if self.inputs.is_empty() {
            self.inputs.push(Input::Standard);
        }
        self.drawing.fits(self.tool)?;
        // the desk and the studios' preview rely on that of the Rust, and pass it by its name
        let looked_at = self.drawing.is_asked() || self.tool == Tool::Trace;
        let usual = if looked_at { Settings::of_crate().penalty } else { DEFAULT_PENALTY };
        let settings = self.settings.with_usual(usual);
        let penalty_given = self.settings.has_penalty() || !looked_at;
        let jobs = self.jobs.unwrap_or(1) as usize;
        let Asked { tool, fallen, inputs, drawing, .. } = self;
        Ok(Job { tool, settings, fallen, more: More::default(), jobs, inputs, drawing, penalty_given })
    }
}

/// An option's name, and its value where that follows it after a `=`. No name is other than Unicode.
pub fn parted(word: &OsStr) -> (&str, Option<OsString>) {
    let text = word.to_str().unwrap_or_default();
    match text.split_once('=') {
        Some((name, value)) => (name, Some(value.into())),
        None => (text, None),
    }
}

pub fn no_option(word: &OsStr) -> String {
    format!("there is no option {}", word.to_string_lossy())
}

/// The number in `-j4`.
fn joined_jobs(word: &str) -> Option<OsString> {
    word.strip_prefix("-j").filter(|rest| rest.starts_with(|c: char| c.is_ascii_digit())).map(OsString::from)
}

fn once<T>(name: &str, place: &mut Option<T>, value: T) -> Result<(), String> {
    match place.replace(value) {
        None => Ok(()),
        Some(_) => Err(format!("{name} is given twice")),
    }
}

/// Digits alone. A number too large to be held is out of every range, as the largest is that can be.
pub fn whole_number(word: &OsStr) -> Option<u32> {
    let digits = word.as_encoded_bytes();
    if digits.is_empty() || !digits.iter().all(u8::is_ascii_digit) {
        return None;
    }
    Some(digits.iter().fold(0, |n: u32, d| n.saturating_mul(10).saturating_add(u32::from(d - b'0'))))
}

fn is_option(word: &OsStr) -> bool {
    word.as_encoded_bytes().starts_with(b"-")
}

#[cfg(test)]
mod tests;
