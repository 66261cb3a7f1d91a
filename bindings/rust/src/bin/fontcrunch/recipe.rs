//! What becomes of a whole file of GLIF.

use fontcrunch::{glif, Cruncher, Refusal, Settings};

use crate::cubic_glif;
use crate::look::{self, Hints, Seen};
use crate::notes;

/// How a file is crunched.
#[derive(Clone, Copy, Debug, PartialEq, Eq)]
pub struct Recipe {
    pub settings: Settings,
    /// Each contour is prepared before.
    pub prepare: bool,
    /// A file that does not get fewer points stays as it is.
    pub keep: bool,
    /// Cubic contours are made quads before, and one-point `move` contours stay as they stand.
    pub cubic: bool,
}

/// What became of a file.
#[derive(Debug, PartialEq, Eq)]
pub enum Became {
    Crunched {
        bytes: Vec<u8>,
        points: Points,
    },
    /// As it was, since it has no fewer points after.
    Kept {
        points: Points,
    },
    Refused {
        refusal: Refusal,
        seen: Option<Seen>,
        points: usize,
    },
}

/// The points of a file as they stand in it, before and after crunching.
#[derive(Clone, Copy, Debug, Default, PartialEq, Eq)]
pub struct Points {
    pub before: usize,
    pub after: usize,
}

impl Recipe {
    pub fn cruncher(self) -> Cruncher {
        Cruncher::new(self.settings)
    }

    /// The file crunched by a cruncher of these settings, as it stands after.
    pub fn follow(self, cruncher: &mut Cruncher, bytes: &[u8]) -> Became {
        let before = stand_in(bytes);
        match self.crunched(cruncher, bytes) {
            Ok(made) => {
                let points = Points { before, after: stand_in(&made) };
                if self.keep && points.after >= points.before {
                    Became::Kept { points }
                } else {
                    Became::Crunched { bytes: made, points }
                }
            }
            Err((refusal, seen)) => Became::Refused { refusal, seen, points: before },
        }
    }

    fn crunched(self, cruncher: &mut Cruncher, bytes: &[u8]) -> Result<Vec<u8>, (Refusal, Option<Seen>)> {
        let quads = match self.cubic {
            true => cubic_glif::quads(bytes)?,
            false => None,
        };
        let file = quads.as_ref().map_or(bytes, |quads| &quads.bytes);
        let crunch = if self.prepare { Cruncher::prepared_glif } else { Cruncher::crunch_glif };
        let made = crunch(cruncher, file).map_err(|refusal| {
            let hints = Hints { may_cubic: !self.cubic, ..Hints::default() };
            let seen = look::at_glif(cruncher, file, refusal, self.prepare, hints);
            (
                refusal,
                seen.map(|seen| match &quads {
                    Some(quads) => quads.numbered(seen),
                    None => seen,
                }),
            )
        })?;
        Ok(match quads {
            Some(quads) => quads.with_anchors(made),
            None => made,
        })
    }

    /// What is to be said of the contours of a file that was crunched to another.
    pub fn notes(self, cruncher: &mut Cruncher, before: &[u8], after: &[u8]) -> Vec<String> {
        let (Ok(before), Ok(after)) = (glif::read(before), glif::read(after)) else {
            return Vec::new();
        };
        let pairs = before.iter().zip(&after).enumerate();
        let told = pairs.flat_map(|(k, (before, after))| {
            // what was prepared has no idle control
            let before = if self.prepare { fontcrunch::prepared(before) } else { Ok(before.clone()) };
            let notes = notes::of(cruncher, &before.unwrap_or_default(), after);
            notes.into_iter().map(move |note| format!("contour {k}: {note}"))
        });
        told.collect()
    }
}

/// The points of a file as they stand in it. Where the second reader does not read what the proved one reads, those that enter
/// are counted.
pub fn stand_in(bytes: &[u8]) -> usize {
    let enter = || glif::read(bytes).map_or(0, |contours| contours.iter().map(Vec::len).sum());
    look::points_in(bytes).unwrap_or_else(enter)
}
