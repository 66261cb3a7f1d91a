//! The option --report: what became of whole files, as JSON. docs/UFO.md has its shape.

use std::fmt::Write as _;

use fontcrunch::trace::quoted;

use crate::arguments::FilesJob;
use crate::summary::Counts;
use crate::whole::{Fate, Item, Outcome, Outcomes};

/// The shape's own number: it rises where a member changes its meaning or goes.
const SHAPE: u32 = 1;

pub fn text(job: &FilesJob, items: &[Item], outcomes: &Outcomes, counts: &Counts) -> String {
    let recipe = &job.recipe;
    let settings = recipe.settings;
    let mut text = format!(
        "{{\n  \"shape\": {SHAPE},\n  \"version\": {},\n  \"settings\": {{\"penalty\": {}, \"whole_units\": {}, \
         \"closed\": {}, \"prepare\": {}, \"cubic\": {}, \"keep_unless_fewer\": {}}},\n",
        quoted(env!("CARGO_PKG_VERSION")),
        settings.penalty,
        settings.whole_units,
        settings.closed,
        recipe.prepare,
        recipe.cubic,
        recipe.keep
    );
    let _ = write!(
        text,
        "  \"counts\": {{\"crunched\": {}, \"kept\": {}, \"refused\": {}, \"failed\": {}, \"earlier\": {}}},\n  \
         \"points\": {{\"before\": {}, \"after\": {}}},\n  \"stopped\": {},\n  \"files\": [",
        counts.crunched,
        counts.kept,
        counts.refused,
        counts.failed,
        counts.earlier,
        counts.points.before,
        counts.points.after,
        outcomes.stopped.as_deref().map_or("null".to_owned(), quoted)
    );
    for (at, (item, outcome)) in items.iter().zip(&outcomes.each).enumerate() {
        text.push_str(if at == 0 { "\n    " } else { ",\n    " });
        text.push_str(&file(item, outcome.as_ref()));
    }
    text.push_str("\n  ]\n}\n");
    text
}

fn file(item: &Item, outcome: Option<&Outcome>) -> String {
    let name = quoted(&item.name);
    let path = quoted(&item.to.to_string_lossy());
    let Some(Outcome { fate, points, .. }) = outcome else {
        return format!("{{\"name\": {name}, \"file\": {path}, \"fate\": \"failed\"}}");
    };
    let head = format!("{{\"name\": {name}, \"file\": {path}");
    let points = format!("\"before\": {}, \"after\": {}", points.before, points.after);
    match fate {
        Fate::Crunched => format!("{head}, \"fate\": \"crunched\", {points}}}"),
        Fate::Kept => format!("{head}, \"fate\": \"kept\", {points}}}"),
        Fate::Refused { number, contour, words } => {
            let contour = contour.map_or("null".to_owned(), |contour| contour.to_string());
            let words = quoted(words);
            format!(
                "{head}, \"fate\": \"refused\", {points}, \"refusal\": {number}, \"contour\": {contour}, \
                 \"words\": {words}}}"
            )
        }
        Fate::Failed { words } => format!("{head}, \"fate\": \"failed\", \"words\": {}}}", quoted(words)),
    }
}
