//! The page of whole fonts and UFOs: a small picture a glyph, and each glyph to be pointed at.

use std::fs;
use std::io::{self, Read, Write};
use std::path::{Path, PathBuf};
use std::sync::atomic::{AtomicUsize, Ordering};
use std::sync::mpsc::{sync_channel, SyncSender};
use std::thread;

use fontcrunch::{Cruncher, Refusal};

use crate::arguments::{Input, Job, Tool};
use crate::destination::Destination;
use crate::service::{complain, Status};
use crate::sketch::Sketch;

use super::{font, letter_text, ufo, At, Page};

/// A glyph to be traced.
struct Upload {
    name: String,
    from: From,
}

enum From {
    Description(Vec<u8>),
    File(PathBuf),
}

/// A glyph traced: its letter, its points before and after, and whether it is refused.
struct Traced {
    letter: String,
    before: usize,
    after: usize,
    refused: bool,
    message: Option<String>,
}

/// The font or UFO that a page is asked of, and the page's file; none where lines are. Wrong where it is not by itself, or
/// something is asked for that a font has not.
pub fn font_of(job: &Job) -> Result<Option<(&Path, &Path)>, String> {
    let (Tool::Crunch, Some(page)) = (job.tool, &job.drawing.page) else {
        return Ok(None);
    };
    let path = |input: &'_ Input| matches!(input, Input::File(path) if is_font(path));
    match &job.inputs[..] {
        inputs if !inputs.iter().any(path) => Ok(None),
        _ if job.drawing.picture.is_some() => Err("--svg draws lines, and no font".to_owned()),
        _ if job.fallen.told => Err("--fallen is told of lines, and of no font".to_owned()),
        [Input::File(font)] => Ok(Some((font, page))),
        _ => Err("--html takes one font or UFO by itself".to_owned()),
    }
}

fn is_font(path: &Path) -> bool {
    if path.is_dir() {
        return true;
    }
    let mut start = [0; 4];
    let read = fs::File::open(path).and_then(|mut file| file.read_exact(&mut start));
    read.is_ok() && font::is_font(&start)
}

/// The page of a font or UFO; on standard output a line of counts, where the page does not go there.
pub fn run(job: &Job, path: &Path, page: &Path, at: At) -> Status {
    let name = path.to_string_lossy();
    let told = |error: io::Error| format!("{}: {error}", page.display());
    let done = uploads(path).map_err(|error| format!("{name}: {error}")).and_then(|(uploads, composite)| {
        let title = path.file_name().map_or(name.clone(), |file| file.to_string_lossy());
        let goes = Destination::of(page).map_err(told)?;
        let mut made = Page::of_font(goes.path(), at, &title).map_err(told)?;
        if composite > 0 {
            made.more = format!("{composite} composite, made of these, are not shown");
        }
        write_page(job, made, goes, &uploads).map_err(told)
    });
    done.unwrap_or_else(|message| {
        complain(&message);
        Status::Wrong
    })
}

/// The glyphs that have outlines of their own, and how many are composite.
fn uploads(path: &Path) -> Result<(Vec<Upload>, usize), String> {
    if path.is_dir() {
        let files = ufo::glyphs(path)?;
        return Ok((
            files.into_iter().map(|(name, file)| Upload { name, from: From::File(file) }).collect(),
            0,
        ));
    }
    let bytes = fs::read(path).map_err(|error| error.to_string())?;
    let glyphs = font::glyphs(&bytes)?;
    // a composite's number of contours is below zero
    let (composite, simple): (Vec<_>, Vec<_>) =
        glyphs.into_iter().partition(|glyph| glyph.description.first().is_some_and(|&byte| byte >= 0x80));
    let upload =
        |glyph: font::Glyph| Upload { name: glyph.name, from: From::Description(glyph.description.to_vec()) };
    Ok((simple.into_iter().map(upload).collect(), composite.len()))
}

fn write_page(job: &Job, mut page: Page, goes: Destination, uploads: &[Upload]) -> io::Result<Status> {
    let (mut before, mut after, mut refused, mut shown, mut failed) = (0, 0, 0, 0, false);
    in_order(job, uploads, |traced| {
        if let Some(message) = traced.message {
            complain(&message);
            failed = true;
        }
        // a glyph with no outline has no picture
        if traced.before == 0 && !traced.refused {
            return Ok(());
        }
        shown += 1;
        before += traced.before;
        after += traced.after;
        refused += usize::from(traced.refused);
        page.add_letter(&traced.letter)
    })?;
    page.end()?;
    let counts_shown = !goes.is_standard_output();
    goes.finish()?;
    if counts_shown {
        let glyphs = if shown == 1 { "glyph" } else { "glyphs" };
        writeln!(io::stdout(), "{shown} {glyphs}, {refused} refused, {before} points before, {after} after")?;
    }
    Ok(match (failed, refused) {
        (true, _) => Status::Wrong,
        (false, 0) => Status::AllCrunched,
        _ => Status::SomeRefused,
    })
}

/// Traces glyphs by the job's threads, and hands them on in their order.
fn in_order(job: &Job, uploads: &[Upload], mut take: impl FnMut(Traced) -> io::Result<()>) -> io::Result<()> {
    let next = AtomicUsize::new(0);
    thread::scope(|scope| {
        let (send, receive) = sync_channel(64 * job.jobs);
        for _ in 0..job.jobs {
            let (send, next) = (send.clone(), &next);
            scope.spawn(move || work_off(job, uploads, next, &send));
        }
        drop(send);
        let mut waiting = std::collections::BTreeMap::new();
        let mut due = 0;
        for (i, traced) in receive {
            waiting.insert(i, traced);
            while let Some(traced) = waiting.remove(&due) {
                take(traced)?;
                due += 1;
            }
        }
        Ok(())
    })
}

fn work_off(job: &Job, uploads: &[Upload], next: &AtomicUsize, send: &SyncSender<(usize, Traced)>) {
    let mut cruncher = Cruncher::new(job.settings);
    loop {
        let i = next.fetch_add(1, Ordering::Relaxed);
        let Some(upload) = uploads.get(i) else {
            return;
        };
        if send.send((i, traced(&mut cruncher, upload))).is_err() {
            return;
        }
    }
}

fn traced(cruncher: &mut Cruncher, upload: &Upload) -> Traced {
    let mut message = None;
    let sketch = match &upload.from {
        From::Description(bytes) => Sketch::of_description(cruncher, bytes, true),
        From::File(path) => match fs::read(path) {
            Ok(bytes) => Sketch::of_glif(cruncher, &bytes),
            Err(error) => {
                message = Some(format!("{}: {error}", path.display()));
                Sketch::of_nothing(Refusal::Malformed)
            }
        },
    };
    let letter = letter_text(&upload.name, &sketch);
    let Sketch::Glyph { contours, refused, stood } = sketch else {
        return Traced { letter, before: 0, after: 0, refused: false, message };
    };
    // what is refused stays as it stands
    if refused.is_some() {
        return Traced { letter, before: stood, after: stood, refused: true, message };
    }
    let came = contours.iter().filter_map(|trace| trace.result.as_ref().ok());
    let after = came.map(|crunched| crunched.points.len()).sum();
    Traced { letter, before: stood, after, refused: false, message }
}
