//! A file written beside the one that it is to be, and then renamed: whoever reads the name sees the old bytes or the
//! new ones, whole.

use std::fs::{self, File, OpenOptions, Permissions};
use std::io::{self, Write};
use std::path::{Path, PathBuf};
use std::process;
use std::sync::atomic::{AtomicU64, Ordering};

use crate::interrupt::Named;

/// How the names of our own files in other people's folders begin.
pub const OURS: &str = ".fontcrunch-";
const TEMPORARY: &str = ".tmp";

pub struct Beside {
    target: PathBuf,
    path: PathBuf,
    file: Option<File>,
    named: Option<Named>,
}

impl Beside {
    /// An empty file in the folder of the target, which need not exist.
    pub fn create(target: &Path) -> io::Result<Beside> {
        static NEXT: AtomicU64 = AtomicU64::new(0);
        let folder = folder_of(target);
        loop {
            let number = NEXT.fetch_add(1, Ordering::Relaxed);
            let path = folder.join(format!("{OURS}{}-{number}{TEMPORARY}", process::id()));
            let named = Named::new(&path);
            match OpenOptions::new().read(true).write(true).create_new(true).open(&path) {
                Ok(file) => {
                    let (file, named) = (Some(file), Some(named));
                    return Ok(Beside { target: target.to_owned(), path, file, named });
                }
                // of a process of the same number that was killed
                Err(error) if error.kind() == io::ErrorKind::AlreadyExists => continue,
                Err(error) => return Err(error),
            }
        }
    }

    pub fn path(&self) -> &Path {
        &self.path
    }

    pub fn write_all(&mut self, bytes: &[u8]) -> io::Result<()> {
        match &mut self.file {
            Some(file) => file.write_all(bytes),
            None => Ok(()),
        }
    }

    /// All that was written is on the disk.
    pub fn sync(&mut self, mode: Option<Permissions>) -> io::Result<()> {
        let Some(file) = &self.file else {
            return Ok(());
        };
        if let Some(mode) = mode {
            file.set_permissions(mode)?;
        }
        file.sync_all()
    }

    /// It takes the target's name.
    pub fn rename(mut self) -> io::Result<()> {
        self.file = None;
        fs::rename(&self.path, &self.target)?;
        self.named = None;
        Ok(())
    }
}

/// Where it was not renamed, it goes.
impl Drop for Beside {
    fn drop(&mut self) {
        if self.named.is_some() {
            let _ = fs::remove_file(&self.path);
        }
    }
}

/// A whole file, with a mode where it has one.
pub fn write(target: &Path, bytes: &[u8], mode: Option<Permissions>) -> io::Result<()> {
    let mut beside = Beside::create(target)?;
    beside.write_all(bytes)?;
    beside.sync(mode)?;
    beside.rename()
}

/// Where a file of that name stands or will stand.
pub fn folder_of(path: &Path) -> &Path {
    path.parent().filter(|folder| !folder.as_os_str().is_empty()).unwrap_or(Path::new("."))
}

/// Removes what a program that was killed has left in a folder.
pub fn remove_temporary(folder: &Path) {
    let Ok(entries) = fs::read_dir(folder) else {
        return;
    };
    for entry in entries.flatten() {
        let name = entry.file_name();
        let name = name.as_encoded_bytes();
        if name.starts_with(OURS.as_bytes()) && name.ends_with(TEMPORARY.as_bytes()) {
            let _ = fs::remove_file(entry.path());
        }
    }
}

/// The names of a folder are on the disk; where that cannot be asked for, nothing is lost but certainty.
pub fn sync_folder(folder: &Path) {
    if let Ok(folder) = File::open(folder) {
        let _ = folder.sync_all();
    }
}
