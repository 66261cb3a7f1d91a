//! The lines of the inputs, in their order.

use std::fs::File;
use std::io::{self, Read};
use std::path::Path;
use std::sync::Arc;

use crate::arguments::{Input, Job};
use crate::kinds;
use crate::stream::{Lines, Stopped};

/// Where a line came from.
pub struct Source {
    pub name: Arc<str>,
    pub line: u64,
}

/// Where lines go to be answered in their order. An error says that answers can no longer be written.
pub trait Lane {
    fn take_line(&mut self, source: Source, line: &[u8]) -> io::Result<()>;

    /// An input cannot be read, or not further.
    fn wrong(&mut self, message: String) -> io::Result<()>;

    /// Something is to be said of an input that is answered all the same.
    fn note(&mut self, message: String) -> io::Result<()>;

    /// Input is going to be waited for: what was answered goes out first.
    fn flush(&mut self) -> io::Result<()>;
}

pub fn read_all(job: &Job, lane: &mut impl Lane) -> io::Result<()> {
    let longest = job.tool.longest_line();
    job.inputs.iter().try_for_each(|input| match input {
        Input::Standard => {
            read_input("(standard input)", Lines::new(io::stdin().lock(), longest), lane).map(|_| ())
        }
        Input::File(path) => read_file(path, longest, job.more.quiet, lane),
    })
}

fn read_file(path: &Path, longest: usize, quiet: bool, lane: &mut impl Lane) -> io::Result<()> {
    let name = path.to_string_lossy();
    if path.is_dir() {
        return lane.wrong(format!("{name}: {}", kinds::of_folder(path)));
    }
    match File::open(path) {
        Ok(file) => match read_input(&name, Lines::new(file, longest), lane)? {
            Held::Nothing if !quiet => lane.note(format!("{name}: is empty")),
            _ => Ok(()),
        },
        Err(error) => lane.wrong(format!("{name}: {error}")),
    }
}

/// Whether an input had anything to be answered or told.
#[derive(PartialEq, Eq)]
enum Held {
    Nothing,
    Something,
}

/// An input that cannot be read to its end is told, and what it held so far is answered. One that holds no lines by
/// how it begins is told once.
fn read_input(name: &str, mut lines: Lines<impl Read>, lane: &mut impl Lane) -> io::Result<Held> {
    let name: Arc<str> = name.into();
    let mut held = Held::Nothing;
    for number in 1.. {
        match lines.next(|| lane.flush()) {
            Ok(Some(line)) => {
                held = Held::Something;
                if let Some(kind) = kinds::of_start(line).filter(|_| number == 1) {
                    lane.wrong(format!("{name}: {kind}"))?;
                    break;
                }
                lane.take_line(Source { name: name.clone(), line: number }, line)?;
            }
            Ok(None) => break,
            Err(Stopped::Writing(error)) => return Err(error),
            Err(Stopped::Reading(error)) => {
                held = Held::Something;
                lane.wrong(format!("{name}: {error}"))?;
                break;
            }
        }
    }
    lane.flush()?;
    Ok(held)
}
