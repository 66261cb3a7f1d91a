//! The words that ask for a picture or a page.

use std::ffi::{OsStr, OsString};
use std::path::PathBuf;

use super::{once, parted, Step, Tool};

/// What is drawn beside the answers, and to which files.
#[derive(Debug, Default, PartialEq, Eq)]
pub struct Drawing {
    pub picture: Option<PathBuf>,
    /// With all contours of a file in one frame.
    pub together: bool,
    pub page: Option<PathBuf>,
}

impl Drawing {
    /// Takes an option that is about drawing, and from the words its value where that is the next; false where it is
    /// none.
    pub fn take(
        &mut self,
        tool: Tool,
        word: &OsStr,
        words: &mut impl Iterator<Item = OsString>,
    ) -> Result<bool, String> {
        match parted(word) {
            ("--svg", _) if tool != Tool::Crunch => {
                return Err("--svg draws crunched contours alone".to_owned())
            }
            ("--svg", value) => self.picture_to(value.or_else(|| words.next()))?,
            ("--html", value) => self.page_to(value.or_else(|| words.next()))?,
            ("--together", None) => self.together = true,
            _ => return Ok(false),
        }
        Ok(true)
    }

    fn picture_to(&mut self, name: Option<OsString>) -> Result<(), String> {
        let name = name.filter(|name| !name.is_empty()).ok_or("--svg needs a file to write")?;
        once("--svg", &mut self.picture, name.into())
    }

    fn page_to(&mut self, name: Option<OsString>) -> Result<(), String> {
        let name = name.filter(|name| !name.is_empty()).ok_or("--html needs a file to write")?;
        once("--html", &mut self.page, name.into())
    }

    /// What is wrong with drawing for that tool, once all words are read.
    pub fn fits(&self, tool: Tool) -> Result<(), String> {
        if self.together && self.picture.is_none() {
            return Err("--together is an option of --svg: a page always shows a letter's contours together"
                .to_owned());
        }
        let shows = match tool {
            Tool::Crunch | Tool::Editions { .. } => true,
            Tool::Glyph { step, .. } | Tool::Glif { step } => step == Step::Crunch,
            _ => false,
        };
        if self.page.is_some() && !shows {
            return Err("--html is an option of crunch, editions, glyph crunch and glif".to_owned());
        }
        Ok(())
    }

    /// Whether a desk or a studio looks at what comes out: each passes the penalty of the Rust.
    pub fn is_asked(&self) -> bool {
        self.picture.is_some() || self.page.is_some()
    }
}
