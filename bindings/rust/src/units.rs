//! The figure of a manifest.
use std::fmt;

/// What an accepted manifest comes to.
#[derive(Clone, Copy, Debug, PartialEq, Eq, Hash)]
pub struct Units {
    /// Its state words, which is its largest slot end.
    pub words: u64,
    /// Four for each state word, and one for each connector.
    pub units: u64,
}

impl Units {
    pub(crate) fn of_answer(answer: [u64; 16]) -> Self {
        Units { words: answer[0], units: answer[1] }
    }
}

impl fmt::Display for Units {
    fn fmt(&self, f: &mut fmt::Formatter<'_>) -> fmt::Result {
        write!(f, "{} state words, {} units", self.words, self.units)
    }
}
