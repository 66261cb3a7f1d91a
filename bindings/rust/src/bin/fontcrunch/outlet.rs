//! Where answers go: standard output, standard error, pictures and pages, and the exit status.

use std::io::{self, ErrorKind, Write};
use std::path::Path;

use crate::destination::Destination;
use crate::inputs::Source;
use crate::service::{complain, Status};
use crate::sketch::Sketch;
use crate::worker::Answer;

/// A file that contours are drawn to as they come.
pub trait Canvas: Send {
    fn add(&mut self, source: &Source, sketch: &Sketch) -> io::Result<()>;

    fn finish(self: Box<Self>) -> io::Result<()>;
}

pub struct Outlet<W> {
    answers: W,
    drawings: Vec<Drawing>,
    /// Where a drawing goes to standard output, answers do not.
    answers_shown: bool,
    status: Status,
}

/// A picture or a page under way.
struct Drawing {
    name: String,
    canvas: Box<dyn Canvas>,
    goes: Destination,
}

impl<W: Write> Outlet<W> {
    pub fn new(answers: W) -> Outlet<W> {
        Outlet { answers, drawings: vec![], answers_shown: true, status: Status::AllCrunched }
    }

    /// What is drawn on is created by the path of the file that is written.
    pub fn start_drawing(&mut self, path: &Path, create: impl FnOnce(&Path) -> io::Result<Box<dyn Canvas>>) {
        let name = path.to_string_lossy().into_owned();
        match Destination::of(path).and_then(|goes| Ok((create(goes.path())?, goes))) {
            Ok((canvas, goes)) => {
                self.answers_shown &= !goes.is_standard_output();
                self.drawings.push(Drawing { name, canvas, goes });
            }
            Err(error) => self.wrong(&format!("{name}: {error}")),
        }
    }

    pub fn take(&mut self, source: &Source, answer: Answer) -> io::Result<()> {
        if let Some(sketch) = &answer.sketch {
            self.draw(source, sketch);
        }
        self.status = self.status.max(answer.status);
        if !answer.messages.is_empty() {
            // where both go to one file, lines stand in their order, whoever answered them
            self.flush()?;
        }
        for message in &answer.messages {
            complain(&format!("{}:{}: {message}", source.name, source.line));
        }
        match answer.text.filter(|_| self.answers_shown) {
            Some(text) => writeln!(self.answers, "{text}"),
            None => Ok(()),
        }
    }

    /// What was answered goes out.
    pub fn flush(&mut self) -> io::Result<()> {
        self.answers.flush()
    }

    pub fn wrong(&mut self, message: &str) {
        self.status = Status::Wrong;
        self.note(message);
    }

    /// Something is said, and nothing is wrong.
    pub fn note(&mut self, message: &str) {
        // a failure is met again when the next answer is written
        let _ = self.flush();
        complain(message);
    }

    /// A reader that has seen enough needs no message.
    pub fn answers_fail(&mut self, error: &io::Error) {
        self.status = Status::Wrong;
        if error.kind() != ErrorKind::BrokenPipe {
            complain(&format!("(standard output): {error}"));
        }
    }

    /// A drawing that fails is given up; the answers go on.
    pub fn draw(&mut self, source: &Source, sketch: &Sketch) {
        for mut drawing in std::mem::take(&mut self.drawings) {
            match drawing.canvas.add(source, sketch) {
                Ok(()) => self.drawings.push(drawing),
                Err(error) => self.wrong(&format!("{}: {error}", drawing.name)),
            }
        }
    }

    /// Drawings are ended; the worst that was met.
    pub fn finish(mut self) -> Status {
        for Drawing { name, canvas, goes } in std::mem::take(&mut self.drawings) {
            match canvas.finish().and_then(|()| goes.finish()) {
                Err(error) if error.kind() == ErrorKind::BrokenPipe => self.status = Status::Wrong,
                Err(error) => self.wrong(&format!("{name}: {error}")),
                Ok(()) => {}
            }
        }
        self.status
    }
}
