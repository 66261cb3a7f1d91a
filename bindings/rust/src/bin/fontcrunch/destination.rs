//! Where a picture or a page goes: to a file that is written beside its place and renamed at the end, so that an
//! interrupt leaves an old one whole; or to standard output, for `-`.

use std::fs::{self, File, Permissions};
use std::io;
use std::path::{Path, PathBuf};

use crate::beside::Beside;

pub enum Destination {
    /// A file that is written as the drawing comes: a device, which nothing can be put in the place of.
    There(PathBuf),
    /// A new file, which gets the mode of the one in whose place it comes.
    Beside(Beside, Option<Permissions>),
    /// Standard output, from a file of the folder for temporary ones.
    StandardOutput(Beside),
}

impl Destination {
    pub fn of(path: &Path) -> io::Result<Destination> {
        if path == Path::new("-") {
            let folder = std::env::temp_dir();
            return Ok(Destination::StandardOutput(Beside::create(&folder.join("drawing"))?));
        }
        match fs::metadata(path) {
            Ok(about) if !about.is_file() => Ok(Destination::There(path.to_owned())),
            // a link stays, and what it leads to is written
            Ok(about) => {
                Ok(Destination::Beside(Beside::create(&path.canonicalize()?)?, Some(about.permissions())))
            }
            Err(_) => Ok(Destination::Beside(Beside::create(path)?, None)),
        }
    }

    /// The file to write.
    pub fn path(&self) -> &Path {
        match self {
            Destination::There(path) => path,
            Destination::Beside(beside, _) | Destination::StandardOutput(beside) => beside.path(),
        }
    }

    pub fn is_standard_output(&self) -> bool {
        matches!(self, Destination::StandardOutput(_))
    }

    /// What was written goes where it belongs.
    pub fn finish(self) -> io::Result<()> {
        match self {
            Destination::There(_) => Ok(()),
            Destination::Beside(mut beside, mode) => {
                beside.sync(mode)?;
                beside.rename()
            }
            Destination::StandardOutput(beside) => {
                io::copy(&mut File::open(beside.path())?, &mut io::stdout().lock()).map(|_| ())
            }
        }
    }
}
