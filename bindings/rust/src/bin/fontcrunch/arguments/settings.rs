//! The words that are settings, by the same rules for every tool that works runs.

use std::ffi::{OsStr, OsString};

use fontcrunch::Settings;

use super::{once, parted, whole_number};

/// A number outside the range is no fault of the words: the library refuses by it, after 1 to 5.
pub fn penalty(number: Option<OsString>) -> Result<u32, String> {
    let number = number.as_deref().and_then(whole_number);
    number.ok_or_else(|| "--penalty needs a whole number of sixteenths, 1 to 256".to_owned())
}

/// The settings that the words so far ask for.
#[derive(Default)]
pub struct Chosen {
    penalty: Option<u32>,
    whole_units: bool,
    closed: bool,
}

impl Chosen {
    /// Takes an option that is a setting, and from the words its value where that is the next; false where it is
    /// none.
    pub fn take(&mut self, word: &OsStr, words: &mut impl Iterator<Item = OsString>) -> Result<bool, String> {
        match parted(word) {
            ("--penalty", value) => self.at_penalty(value.or_else(|| words.next()))?,
            ("--whole-units", None) => self.whole_units = true,
            ("--closed", None) => self.closed = true,
            _ => return Ok(false),
        }
        Ok(true)
    }

    fn at_penalty(&mut self, number: Option<OsString>) -> Result<(), String> {
        once("--penalty", &mut self.penalty, penalty(number)?)
    }

    pub fn has_penalty(&self) -> bool {
        self.penalty.is_some()
    }

    /// The name of a setting that is given.
    pub fn first_given(&self) -> Option<&'static str> {
        let given = [
            (self.penalty.is_some(), "--penalty"),
            (self.whole_units, "--whole-units"),
            (self.closed, "--closed"),
        ];
        given.into_iter().find(|(is_given, _)| *is_given).map(|(_, name)| name)
    }

    /// The settings, at the usual penalty where none is given.
    pub fn with_usual(&self, penalty: u32) -> Settings {
        Settings::default()
            .with_penalty(self.penalty.unwrap_or(penalty))
            .with_whole_units(self.whole_units)
            .with_closed(self.closed)
    }
}
