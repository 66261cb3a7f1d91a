//! Why a segment starts at a corner.

use std::fmt;

/// Which of the tests that make a segment's start a corner hold there. Where none holds, it is no corner.
#[derive(Clone, Copy, Debug, Default, PartialEq, Eq, Hash)]
pub struct Reasons {
    /// A sign turn in x: the product was negative in either of the two rounds.
    pub x: bool,
    /// A sign turn in y.
    pub y: bool,
    /// A zero tangent before.
    pub before: bool,
    /// A zero tangent after.
    pub after: bool,
    /// An angle. It never stands beside a zero tangent.
    pub angle: bool,
}

impl Reasons {
    /// The library has a bit for each.
    pub(crate) const fn of_bits(bits: u32) -> Reasons {
        Reasons {
            x: bits & 1 != 0,
            y: bits & 2 != 0,
            before: bits & 4 != 0,
            after: bits & 8 != 0,
            angle: bits & 16 != 0,
        }
    }

    /// Whether some reason holds.
    pub const fn is_corner(self) -> bool {
        self.x || self.y || self.before || self.after || self.angle
    }
}

/// The names of those that hold, in the order of the fields, with commas between them.
impl fmt::Display for Reasons {
    fn fmt(&self, f: &mut fmt::Formatter<'_>) -> fmt::Result {
        let names = [
            (self.x, "x"),
            (self.y, "y"),
            (self.before, "before"),
            (self.after, "after"),
            (self.angle, "angle"),
        ];
        let held: Vec<&str> = names.iter().filter(|(holds, _)| *holds).map(|(_, name)| *name).collect();
        f.write_str(&held.join(","))
    }
}
