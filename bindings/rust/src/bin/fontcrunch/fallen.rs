//! The option --fallen: how many lookups fell past the samples, at the end of an answer.

/// Whether answers tell it.
#[derive(Clone, Copy, Debug, Default, PartialEq, Eq)]
pub struct Fallen {
    pub told: bool,
}

impl Fallen {
    /// An answer, and after it the number where it is told.
    pub fn after(self, answer: String, number: usize) -> String {
        if self.told {
            format!("{answer} fallen {number}")
        } else {
            answer
        }
    }
}
