//! What a call on whole files has done in a folder, so that the next one after an interrupt need not do it again. It is
//! a file of that folder, from the first file that is worked until the call has ended, and holds a line for each file:
//! the digests of its bytes before and after, and what became of it. A line counts only where the bytes are those.

use std::collections::HashMap;
use std::ffi::OsStr;
use std::fs::{self, File, OpenOptions, TryLockError};
use std::io::{self, Read, Seek, SeekFrom, Write};
use std::path::{Path, PathBuf};
use std::sync::Mutex;

use crate::beside::{remove_temporary, OURS};
use crate::glyph::{hex_of, of_hex};
use crate::recipe::{Points, Recipe};
use crate::whole::Fate;

pub struct Journal {
    path: PathBuf,
    file: Mutex<File>,
    done: HashMap<Vec<u8>, Line>,
}

/// What is known of a file that is done.
#[derive(Clone, Debug, PartialEq, Eq)]
pub struct Line {
    pub before: String,
    pub after: String,
    pub fate: Fate,
    pub points: Points,
}

impl Journal {
    /// The journal of a folder, which no other call may have. One that was kept at another recipe, or by another
    /// version, says nothing.
    pub fn open(folder: &Path, recipe: &Recipe) -> io::Result<Journal> {
        let path = folder.join(format!("{OURS}journal"));
        let mut file = OpenOptions::new().read(true).write(true).create(true).truncate(false).open(&path)?;
        match file.try_lock() {
            Err(TryLockError::WouldBlock) => {
                return Err(io::Error::new(io::ErrorKind::WouldBlock, "another fontcrunch is at work there"))
            }
            // where a file system has no locks, there is none
            Ok(()) | Err(TryLockError::Error(_)) => {}
        }
        remove_temporary(folder);
        let mut text = String::new();
        // what is no text is no journal of ours
        let _ = file.read_to_string(&mut text);
        let head = head(recipe);
        let (done, whole) = match text.strip_prefix(&head) {
            Some(lines) => (read(lines), head.len() + lines.rfind('\n').map_or(0, |end| end + 1)),
            None => (HashMap::new(), 0),
        };
        file.set_len(whole as u64)?;
        file.seek(SeekFrom::End(0))?;
        if whole == 0 {
            file.write_all(head.as_bytes())?;
        }
        Ok(Journal { path, file: Mutex::new(file), done })
    }

    /// What is known of a file of that name.
    pub fn of(&self, name: &OsStr) -> Option<&Line> {
        self.done.get(name.as_encoded_bytes())
    }

    /// A file is done, or will be as soon as it is renamed. Where its old bytes are lost by that, the line is on the disk first.
    pub fn add(&self, name: &OsStr, line: &Line, lasting: bool) -> io::Result<()> {
        let text = written(name.as_encoded_bytes(), line);
        let mut file = match self.file.lock() {
            Ok(file) => file,
            Err(poisoned) => poisoned.into_inner(),
        };
        file.write_all(text.as_bytes())?;
        if lasting {
            file.sync_data()?;
        }
        Ok(())
    }

    /// The call has ended, and nothing is left to be done.
    pub fn remove(self) {
        let _ = fs::remove_file(&self.path);
    }
}

fn head(recipe: &Recipe) -> String {
    let Recipe { settings, prepare, keep, cubic } = recipe;
    format!(
        "fontcrunch {} penalty={} whole={} closed={} prepare={prepare} keep={keep} cubic={cubic}\n",
        env!("CARGO_PKG_VERSION"),
        settings.penalty,
        settings.whole_units,
        settings.closed
    )
}

fn written(name: &[u8], line: &Line) -> String {
    let Line { before, after, fate, points } = line;
    let (kind, number, contour, words) = match fate {
        Fate::Crunched => ("crunched", 0, None, ""),
        Fate::Kept => ("kept", 0, None, ""),
        Fate::Refused { number, contour, words } => ("refused", *number, *contour, words.as_str()),
        // what was not done is done again
        Fate::Failed { .. } => return String::new(),
    };
    let contour = contour.map_or("-".to_owned(), |contour| contour.to_string());
    format!(
        "{} {before} {after} {kind} {} {} {number} {contour} {}.\n",
        hex_of(name),
        points.before,
        points.after,
        hex_of(words.as_bytes())
    )
}

/// The lines that are whole.
fn read(text: &str) -> HashMap<Vec<u8>, Line> {
    text.split_inclusive('\n').filter(|line| line.ends_with(".\n")).filter_map(read_line).collect()
}

fn read_line(text: &str) -> Option<(Vec<u8>, Line)> {
    let words: Vec<&str> = text.trim_end_matches(".\n").split(' ').collect();
    let [name, before, after, kind, points_before, points_after, number, contour, said] = words[..] else {
        return None;
    };
    let fate = match kind {
        "crunched" => Fate::Crunched,
        "kept" => Fate::Kept,
        "refused" => Fate::Refused {
            number: number.parse().ok()?,
            contour: contour.parse().ok(),
            words: String::from_utf8(of_hex(said.as_bytes())?).ok()?,
        },
        _ => return None,
    };
    let points = Points { before: points_before.parse().ok()?, after: points_after.parse().ok()? };
    let line = Line { before: before.to_owned(), after: after.to_owned(), fate, points };
    Some((of_hex(name.as_bytes())?, line))
}

#[cfg(test)]
mod tests {
    use super::*;

    #[test]
    fn lines_are_read_as_they_were_written_and_half_ones_are_not() {
        let points = Points { before: 12, after: 9 };
        let (before, after) = ("a".repeat(64), "b".repeat(64));
        let fates = [
            Fate::Crunched,
            Fate::Kept,
            Fate::Refused { number: 7, contour: Some(3), words: "run 1:\n\t10 units".to_owned() },
            Fate::Refused { number: 19, contour: None, words: String::new() },
        ];
        for fate in fates {
            let line = Line { before: before.clone(), after: after.clone(), fate, points };
            let text = written(b"a b\xff.glif", &line);
            let expected = HashMap::from([(b"a b\xff.glif".to_vec(), line)]);
            assert_eq!(read(&text), expected);
            for end in 0..text.len() {
                assert!(read(&text[..end]).is_empty(), "{end}");
            }
        }
    }
}
