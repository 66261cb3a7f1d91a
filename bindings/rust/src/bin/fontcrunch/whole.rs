//! Whole files of GLIF, each crunched to a file: spread over threads, written beside and renamed, and none done again
//! that an interrupted call has done.

use std::collections::HashMap;
use std::fs::{self, Permissions};
use std::io::{self, IsTerminal, Write};
use std::path::{Path, PathBuf};
use std::sync::atomic::{AtomicBool, AtomicUsize, Ordering};
use std::sync::mpsc::{channel, Sender};
use std::thread;

use fontcrunch::Cruncher;

use crate::arguments::FilesJob;
use crate::beside::{self, folder_of, Beside};
use crate::journal::{Journal, Line};
use crate::recipe::{Became, Points, Recipe};
use crate::sha256;

/// A file to be crunched: the glyph's name, where it is read, and where it is written.
#[derive(Debug)]
pub struct Item {
    pub name: String,
    pub from: PathBuf,
    pub to: PathBuf,
}

/// What became of a file.
#[derive(Clone, Debug, PartialEq, Eq)]
pub enum Fate {
    Crunched,
    Kept,
    Refused {
        number: u32,
        contour: Option<usize>,
        words: String,
    },
    /// It could not be read or written.
    Failed {
        words: String,
    },
}

#[derive(Debug)]
pub struct Outcome {
    pub fate: Fate,
    pub points: Points,
    /// By an earlier call, which was interrupted.
    pub earlier: bool,
    pub notes: Vec<String>,
}

/// What became of all of them, in their order.
pub struct Outcomes {
    /// None where the work was given up before.
    pub each: Vec<Option<Outcome>>,
    /// Why it was given up.
    pub stopped: Option<String>,
}

/// Where nothing more can be written, the work is given up.
struct GivenUp(String);

/// The journals of the folders that are written to: as long as they are held, no other call works there.
pub struct Journals(HashMap<PathBuf, Journal>);

impl Journals {
    /// A folder that is not there has none: what is to be read there is not there either.
    pub fn open(items: &[Item], recipe: &Recipe) -> Result<Journals, String> {
        let mut journals = HashMap::new();
        for item in items {
            let folder = folder_of(&item.to);
            if !journals.contains_key(folder) && folder.is_dir() {
                let journal = Journal::open(folder, recipe)
                    .map_err(|error| format!("{}: {error}", folder.display()))?;
                journals.insert(folder.to_owned(), journal);
            }
        }
        Ok(Journals(journals))
    }

    fn of(&self, item: &Item) -> Option<&Journal> {
        self.0.get(folder_of(&item.to))
    }

    /// The call is whole.
    pub fn remove(self) {
        for (folder, journal) in self.0 {
            journal.remove();
            beside::sync_folder(&folder);
        }
    }
}

impl Outcomes {
    /// Where the work was given up before the first.
    pub fn none(items: &[Item], stopped: String) -> Outcomes {
        Outcomes { each: items.iter().map(|_| None).collect(), stopped: Some(stopped) }
    }
}

/// Does them all.
pub fn work(items: &[Item], job: &FilesJob, journals: &Journals) -> Outcomes {
    let mut outcomes = Outcomes { each: items.iter().map(|_| None).collect(), stopped: None };
    let next = AtomicUsize::new(0);
    let stop = AtomicBool::new(false);
    thread::scope(|scope| {
        let (sender, done) = channel();
        for _ in 0..job.jobs.min(items.len()) {
            let belt = Belt { items, job, journals, next: &next, stop: &stop, done: sender.clone() };
            scope.spawn(move || belt.work_off());
        }
        drop(sender);
        let mut progress = Progress::new(items.len(), job.quiet);
        for (at, outcome) in done {
            progress.tell(&items[at].name);
            match outcome {
                Ok(outcome) => outcomes.each[at] = Some(outcome),
                Err(GivenUp(why)) => outcomes.stopped = outcomes.stopped.take().or(Some(why)),
            }
        }
        progress.end();
    });
    outcomes
}

/// What a thread has of the work.
struct Belt<'a> {
    items: &'a [Item],
    job: &'a FilesJob,
    journals: &'a Journals,
    next: &'a AtomicUsize,
    stop: &'a AtomicBool,
    done: Sender<(usize, Result<Outcome, GivenUp>)>,
}

impl Belt<'_> {
    fn work_off(self) {
        let mut cruncher = self.job.recipe.cruncher();
        while !self.stop.load(Ordering::SeqCst) {
            let at = self.next.fetch_add(1, Ordering::SeqCst);
            let Some(item) = self.items.get(at) else {
                return;
            };
            let outcome = self.done_with(&mut cruncher, item);
            if outcome.is_err() {
                self.stop.store(true, Ordering::SeqCst);
            }
            if self.done.send((at, outcome)).is_err() {
                return;
            }
        }
    }

    fn done_with(&self, cruncher: &mut Cruncher, item: &Item) -> Result<Outcome, GivenUp> {
        let in_place = self.job.out.is_none();
        let read = match read(item, in_place) {
            Ok(read) => read,
            Err(words) => return Ok(Outcome::failed(words)),
        };
        let before = sha256::hex(&read.bytes);
        let name = item.to.file_name().unwrap_or_default();
        let journal = self.journals.of(item);
        if let Some(line) = journal.and_then(|journal| journal.of(name)) {
            if is_done(line, &before, &item.to, in_place) {
                return Ok(Outcome {
                    fate: line.fate.clone(),
                    points: line.points,
                    earlier: true,
                    notes: vec![],
                });
            }
        }
        let (outcome, made) = followed(&self.job.recipe, cruncher, &read.bytes);
        let bytes = made.as_deref().unwrap_or(&read.bytes);
        let line =
            Line { before, after: sha256::hex(bytes), fate: outcome.fate.clone(), points: outcome.points };
        let add = || journal.map_or(Ok(()), |journal| journal.add(name, &line, in_place));
        put(&item.to, bytes, read.mode, add)
            .map_err(|error| GivenUp(format!("{}: {error}", item.to.display())))?;
        Ok(outcome)
    }
}

impl Outcome {
    fn failed(words: String) -> Outcome {
        Outcome { fate: Fate::Failed { words }, points: Points::default(), earlier: false, notes: Vec::new() }
    }
}

/// Whether an earlier call has done it: its bytes before and after are those of the line.
fn is_done(line: &Line, before: &str, to: &Path, in_place: bool) -> bool {
    if in_place {
        return line.after == before;
    }
    line.before == before && fs::read(to).is_ok_and(|bytes| sha256::hex(&bytes) == line.after)
}

/// What becomes of a file, and its new bytes where it has some.
fn followed(recipe: &Recipe, cruncher: &mut Cruncher, bytes: &[u8]) -> (Outcome, Option<Vec<u8>>) {
    let outcome = |fate, points| Outcome { fate, points, earlier: false, notes: Vec::new() };
    match recipe.follow(cruncher, bytes) {
        Became::Crunched { bytes: made, points } => {
            let notes = recipe.notes(cruncher, bytes, &made);
            (Outcome { notes, ..outcome(Fate::Crunched, points) }, Some(made))
        }
        // the file's points are those that it had
        Became::Kept { points } => (outcome(Fate::Kept, Points { after: points.before, ..points }), None),
        Became::Refused { refusal, seen, points } => {
            let contour = seen.as_ref().and_then(|seen| seen.contour);
            let words = seen.map(|seen| seen.of_line()).unwrap_or_default();
            let fate = Fate::Refused { number: refusal.number(), contour, words };
            (outcome(fate, Points { before: points, after: points }), None)
        }
    }
}

/// A file that was read.
struct Held {
    bytes: Vec<u8>,
    mode: Permissions,
}

/// A file, or why it cannot be had. What is no plain file is not opened: a pipe might never end.
fn read(item: &Item, in_place: bool) -> Result<Held, String> {
    let told = |error: io::Error| format!("{}: {error}", item.from.display());
    if in_place && fs::symlink_metadata(&item.from).map_err(told)?.is_symlink() {
        return Err(format!("{}: a symbolic link is not changed in place", item.from.display()));
    }
    let about = fs::metadata(&item.from).map_err(told)?;
    if !about.is_file() {
        return Err(format!("{}: is no file", item.from.display()));
    }
    Ok(Held { bytes: fs::read(&item.from).map_err(told)?, mode: about.permissions() })
}

/// Writes a file, where it does not stand there with these bytes. `add` is called when all is ready but the renaming.
pub fn put(
    to: &Path,
    bytes: &[u8],
    mode: Permissions,
    add: impl FnOnce() -> io::Result<()>,
) -> io::Result<()> {
    if stands(to, bytes) {
        add()?;
        return set_mode(to, mode);
    }
    let mut beside = Beside::create(to)?;
    beside.write_all(bytes)?;
    beside.sync(Some(mode))?;
    add()?;
    beside.rename()
}

/// Whether a plain file of that name has these bytes.
fn stands(path: &Path, bytes: &[u8]) -> bool {
    let plain =
        fs::symlink_metadata(path).is_ok_and(|about| about.is_file() && about.len() == bytes.len() as u64);
    plain && fs::read(path).is_ok_and(|held| held == bytes)
}

pub fn set_mode(path: &Path, mode: Permissions) -> io::Result<()> {
    match fs::metadata(path)?.permissions() == mode {
        true => Ok(()),
        false => fs::set_permissions(path, mode),
    }
}

/// A line on a terminal that says how far the work is; elsewhere nothing.
struct Progress {
    of: usize,
    done: usize,
    shown: bool,
}

impl Progress {
    fn new(of: usize, quiet: bool) -> Progress {
        Progress { of, done: 0, shown: !quiet && io::stderr().is_terminal() }
    }

    fn tell(&mut self, name: &str) {
        self.done += 1;
        if self.shown {
            let name: String = name.chars().filter(|c| !c.is_control()).take(60).collect();
            let _ = write!(io::stderr(), "\r[{}/{}] {name}\x1b[K", self.done, self.of);
        }
    }

    fn end(&self) {
        if self.shown {
            let _ = write!(io::stderr(), "\r\x1b[K");
        }
    }
}
