//! What a caller chooses.

/// The penalty of [`Settings::default`], 2.0.
pub const DEFAULT_PENALTY: u32 = 32;

/// The penalty of the Rust that this follows, 1.0.
pub const CRATE_PENALTY: u32 = 16;

/// What a caller chooses; see [`Cruncher::new`](crate::Cruncher::new).
///
/// They are made of one of the two sets that have names, with others in the place of some:
///
/// ```
/// use fontcrunch::Settings;
///
/// let gentle = Settings::default().with_penalty(64).with_closed(true);
/// assert_eq!((gentle.penalty, gentle.whole_units, gentle.closed), (64, false, true));
/// ```
///
/// Other settings may be added, so that they cannot be written with all their fields outside of this crate.
#[derive(Clone, Copy, Debug, PartialEq, Eq)]
#[non_exhaustive]
pub struct Settings {
    /// What each piece adds to a score, in sixteenths. A larger one asks for fewer pieces. Refused by 16 where
    /// it is not from 1 to 256.
    pub penalty: u32,
    /// Whether breaks are rounded to whole units instead of half ones, for engines that misdraw implied points
    /// on half units. It serves these together with `closed`, and only then: in closed mode no implied point lies
    /// on a half unit, while the mode of the Rust drops points that are no exact midpoints, on whole units too.
    pub whole_units: bool,
    /// Whether a last run goes round from the last corner to the first, so that nothing is lost. Then points come
    /// out in order, from the first corner on, which stays also where it is implied; the start is not written again
    /// at the end, and implied points are those that OpenType implies. Without it the mode is that of the Rust which
    /// this follows.
    pub closed: bool,
}

impl Settings {
    /// Those of the Rust that this follows, whose points come out with them.
    pub const fn of_crate() -> Settings {
        Settings { penalty: CRATE_PENALTY, whole_units: false, closed: false }
    }

    /// The same with another [`penalty`](Settings::penalty).
    pub const fn with_penalty(self, penalty: u32) -> Settings {
        Settings { penalty, ..self }
    }

    /// The same with breaks on [`whole_units`](Settings::whole_units), or on half ones.
    pub const fn with_whole_units(self, whole_units: bool) -> Settings {
        Settings { whole_units, ..self }
    }

    /// The same in [`closed`](Settings::closed) mode, or in the crate's.
    pub const fn with_closed(self, closed: bool) -> Settings {
        Settings { closed, ..self }
    }
}

/// A gentler penalty than the Rust's: display families came out with too many pieces.
impl Default for Settings {
    fn default() -> Settings {
        Settings { penalty: DEFAULT_PENALTY, whole_units: false, closed: false }
    }
}

#[cfg(test)]
mod tests {
    use super::*;

    #[test]
    fn the_two_sets_that_have_names() {
        assert_eq!(Settings::default(), Settings { penalty: 32, whole_units: false, closed: false });
        assert_eq!(Settings::of_crate(), Settings { penalty: 16, whole_units: false, closed: false });
    }
}
