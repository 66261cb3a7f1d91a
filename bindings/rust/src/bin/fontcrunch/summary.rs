//! What became of whole files, told at the end: a summary on standard output, what went wrong on standard error, and a
//! report where one is asked for.

use std::collections::BTreeMap;
use std::io::{self, Write};

use fontcrunch::Refusal;

use crate::arguments::FilesJob;
use crate::beside;
use crate::picture::svg::{counted, grouped};
use crate::recipe::Points;
use crate::report;
use crate::service::{complain, Status};
use crate::whole::{Fate, Item, Outcome, Outcomes};

/// What is told besides what became of each file.
#[derive(Default)]
pub struct Told {
    /// What a file is called: a glyph, a file.
    pub what: &'static str,
    pub wrong: Vec<String>,
    pub notes: Vec<String>,
}

/// How many files had each fate, and their points.
#[derive(Debug, Default, PartialEq, Eq)]
pub struct Counts {
    pub crunched: usize,
    pub kept: usize,
    pub refused: usize,
    /// Not read or not written, or not come to.
    pub failed: usize,
    /// Of these, by an earlier call.
    pub earlier: usize,
    pub points: Points,
}

impl Counts {
    fn of(each: &[Option<Outcome>]) -> Counts {
        let mut counts = Counts::default();
        for outcome in each {
            let number = match outcome.as_ref().map(|outcome| &outcome.fate) {
                Some(Fate::Crunched) => &mut counts.crunched,
                Some(Fate::Kept) => &mut counts.kept,
                Some(Fate::Refused { .. }) => &mut counts.refused,
                Some(Fate::Failed { .. }) | None => &mut counts.failed,
            };
            *number += 1;
            if let Some(outcome) = outcome {
                counts.earlier += usize::from(outcome.earlier);
                counts.points.before += outcome.points.before;
                counts.points.after += outcome.points.after;
            }
        }
        counts
    }
}

/// Tells it all, and says how it went.
pub fn tell(job: &FilesJob, items: &[Item], outcomes: &Outcomes, told: Told) -> Status {
    let counts = Counts::of(&outcomes.each);
    let mut status = if counts.refused > 0 { Status::SomeRefused } else { Status::AllCrunched };
    if !job.quiet {
        told.notes.iter().for_each(|note| complain(note));
        notes(items, outcomes);
    }
    let failed = outcomes.each.iter().flatten().filter_map(|outcome| match &outcome.fate {
        Fate::Failed { words } => Some(words),
        _ => None,
    });
    for message in told.wrong.iter().chain(failed).chain(&outcomes.stopped) {
        complain(message);
        status = Status::Wrong;
    }
    let text = text(items, outcomes, &counts, told.what);
    if let Err(error) = io::stdout().lock().write_all(text.as_bytes()) {
        status = Status::Wrong;
        if error.kind() != io::ErrorKind::BrokenPipe {
            complain(&format!("(standard output): {error}"));
        }
    }
    if let Some(path) = &job.report {
        let text = report::text(job, items, outcomes, &counts);
        if let Err(error) = beside::write(path, text.as_bytes(), None) {
            complain(&format!("{}: {error}", path.display()));
            status = Status::Wrong;
        }
    }
    status
}

fn notes(items: &[Item], outcomes: &Outcomes) {
    for (item, outcome) in items.iter().zip(&outcomes.each) {
        for note in outcome.iter().flat_map(|outcome| &outcome.notes) {
            complain(&format!("{}: {note}", item.from.display()));
        }
    }
}

fn text(items: &[Item], outcomes: &Outcomes, counts: &Counts, what: &str) -> String {
    let Counts { crunched, kept, refused, failed, earlier, points } = counts;
    let mut text = format!(
        "{}: {} crunched, {} kept, {} refused",
        counted(items.len(), what),
        grouped(*crunched),
        grouped(*kept),
        grouped(*refused)
    );
    if *failed > 0 {
        text.push_str(&format!(", {} not done", grouped(*failed)));
    }
    if *earlier > 0 {
        text.push_str(&format!("; {} of these by an earlier call", grouped(*earlier)));
    }
    text.push_str(&format!("\npoints: {} before, {} after\n", grouped(points.before), grouped(points.after)));
    text + &refusals(items, outcomes)
}

/// By number, and for each the files with their contours.
fn refusals(items: &[Item], outcomes: &Outcomes) -> String {
    let mut by_number: BTreeMap<u32, Vec<String>> = BTreeMap::new();
    for (item, outcome) in items.iter().zip(&outcomes.each) {
        if let Some(Fate::Refused { number, words, .. }) = outcome.as_ref().map(|outcome| &outcome.fate) {
            let colon = if words.is_empty() { "" } else { ": " };
            by_number.entry(*number).or_default().push(format!("  {}{colon}{words}\n", plain(&item.name)));
        }
    }
    by_number
        .into_iter()
        .map(|(number, lines)| {
            let reason = Refusal::from_number(number).map_or(String::new(), |refusal| refusal.to_string());
            format!("{reason} ({})\n{}", grouped(lines.len()), lines.concat())
        })
        .collect()
}

/// A name for a line: what would end the line, or move about on a screen, is escaped.
fn plain(name: &str) -> String {
    let each = |c: char| if c.is_control() { c.escape_unicode().to_string() } else { c.to_string() };
    name.chars().map(each).collect()
}
