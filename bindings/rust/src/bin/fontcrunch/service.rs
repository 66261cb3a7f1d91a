//! Each line of the inputs answered, and drawn where that is asked.

use std::fs;
use std::io::{self, BufWriter, Write};
use std::path::Path;

use fontcrunch::{Cruncher, DEFAULT_PENALTY};

use crate::arguments::{Input, Job, Tool};
use crate::glif;
use crate::inputs::{read_all, Lane, Source};
use crate::jobs;
use crate::outlet::{Canvas, Outlet};
use crate::page::{self, At, Page};
use crate::picture::Picture;
use crate::sketch::Sketch;
use crate::worker::Worker;

/// The exit status: the worst that was met.
#[derive(Clone, Copy, Debug, PartialEq, Eq, PartialOrd, Ord)]
pub enum Status {
    AllCrunched = 0,
    SomeRefused = 1,
    Wrong = 2,
}

pub fn run(job: &Job) -> Status {
    tell_penalty(job);
    if let Some(wrong) = drawn_over(job) {
        return stopped(&wrong);
    }
    match page::font_of(job) {
        Ok(None) => answer_lines(job),
        Ok(Some((font, page))) => page::run(job, font, page, at(job)),
        Err(wrong) => stopped(&wrong),
    }
}

fn stopped(wrong: &str) -> Status {
    complain(wrong);
    Status::Wrong
}

fn answer_lines(job: &Job) -> Status {
    let mut outlet = Outlet::new(BufWriter::new(io::stdout()));
    start_drawings(job, &mut outlet);
    if job.jobs > 1 {
        return jobs::run(job, outlet);
    }
    let mut desk = Desk { worker: Worker::new(job), outlet };
    if let Err(error) = read_all(job, &mut desk) {
        desk.outlet.answers_fail(&error);
    }
    desk.outlet.finish()
}

/// One file of GLIF, crunched to standard output, and a page of it.
pub fn file_page(job: &Job, path: &Path) -> Status {
    tell_penalty(job);
    let Some(page) = &job.drawing.page else {
        return glif::crunch_file(job.settings, job.more, path);
    };
    if is_same_file(&Input::File(path.to_owned()), page) {
        return stopped(&format!("{}: is to be read and drawn to", page.to_string_lossy()));
    }
    if page == Path::new("-") {
        return stopped("--html -: standard output is for the file that comes out");
    }
    let mut outlet = Outlet::new(io::sink());
    start_drawings(job, &mut outlet);
    if let Ok(bytes) = fs::read(path) {
        let sketch = Sketch::of_glif(&mut Cruncher::new(job.settings), &bytes);
        outlet.draw(&Source { name: path.to_string_lossy().into(), line: 0 }, &sketch);
    }
    outlet.finish().max(glif::crunch_file(job.settings, job.more, path))
}

/// A note of which penalty holds where whoever looks has named none.
fn tell_penalty(job: &Job) {
    if !job.penalty_given && !job.more.quiet {
        complain(&format!(
            "the penalty is {}, that of Settings::of_crate(), since none is given; an order's default is another, {DEFAULT_PENALTY}",
            job.settings.penalty
        ));
    }
}

fn at(job: &Job) -> At {
    let second = match job.tool {
        Tool::Editions { penalty } => Some(penalty),
        _ => None,
    };
    At { settings: job.settings, second, given: job.penalty_given }
}

fn start_drawings<W: Write>(job: &Job, outlet: &mut Outlet<W>) {
    if let Some(path) = &job.drawing.picture {
        outlet.start_drawing(path, |written| {
            let drawing = &job.drawing;
            let picture = Picture::create(written, job.settings, drawing.together, job.penalty_given)?;
            Ok(Box::new(picture) as Box<dyn Canvas>)
        });
    }
    if let Some(path) = &job.drawing.page {
        outlet.start_drawing(path, |written| {
            Page::create(written, at(job)).map(|page| Box::new(page) as Box<dyn Canvas>)
        });
    }
}

/// A drawing would empty a file before it is read, and two drawings each other.
fn drawn_over(job: &Job) -> Option<String> {
    let drawings = [&job.drawing.picture, &job.drawing.page];
    let over =
        drawings.into_iter().flatten().find(|path| job.inputs.iter().any(|input| is_same_file(input, path)));
    if let Some(path) = over {
        return Some(format!("{}: is to be read and drawn to", path.to_string_lossy()));
    }
    match drawings {
        [Some(picture), Some(page)] if picture == page => {
            Some(format!("{}: is to be a picture and a page", page.to_string_lossy()))
        }
        _ => None,
    }
}

/// One line on standard error. Where even that cannot be written, nothing is left to tell.
pub fn complain(message: &str) {
    let _ = writeln!(io::stderr(), "fontcrunch: {message}");
}

/// Answers each line as it comes.
struct Desk<W> {
    worker: Worker,
    outlet: Outlet<W>,
}

impl<W: Write> Lane for Desk<W> {
    fn take_line(&mut self, source: Source, line: &[u8]) -> io::Result<()> {
        let answer = self.worker.answer(line);
        self.outlet.take(&source, answer)
    }

    fn wrong(&mut self, message: String) -> io::Result<()> {
        self.outlet.wrong(&message);
        Ok(())
    }

    fn note(&mut self, message: String) -> io::Result<()> {
        self.outlet.note(&message);
        Ok(())
    }

    fn flush(&mut self) -> io::Result<()> {
        self.outlet.flush()
    }
}

fn is_same_file(input: &Input, path: &Path) -> bool {
    let Input::File(read) = input else {
        return false;
    };
    match (fs::canonicalize(read), fs::canonicalize(path)) {
        (Ok(read), Ok(drawn)) => read == drawn,
        _ => false,
    }
}
