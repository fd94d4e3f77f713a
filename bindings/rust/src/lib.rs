//! Judges execution manifests: a safe interface of the C library handover_c, which is proved to answer as its header
//! `include/handover.h` says, for bytes of any content and length.
//!
//! A [`Desk`] owns the memory that a call needs and uses it again. The functions of [`lent`] are the same calls with
//! memory that the caller lends; they allocate nothing.
//!
//! ```
//! use lurmashek::{Desk, Options, Section, Verdict};
//!
//! let mut desk = Desk::new();
//! let empty = [0; 45]; // the shortest manifest: portable, eleven lists without entries
//! let starts = desk.decode_manifest(&empty, Options::default())?;
//! assert_eq!(starts.at(Section::Blocks), 5);
//!
//! let refusal = desk.units(&empty[..44], Options::default()).unwrap_err();
//! assert_eq!(refusal.to_string(), "refused by question 3 at byte 41: bytes missing");
//!
//! let verdict = desk.compare_manifests(&empty, Options::default(), &empty, Options::default())?;
//! assert_eq!(verdict, Verdict::Compatible);
//! # Ok::<(), Box<dyn std::error::Error>>(())
//! ```
#![deny(unsafe_code)]

mod desk;
pub mod lent;
mod refusal;
mod section;
#[allow(unsafe_code)]
mod sys;
mod units;
mod verdict;

pub use desk::Desk;
pub use refusal::{Refusal, Side, SideRefusal};
pub use section::{Section, Starts};
pub use units::Units;
pub use verdict::{Part, Verdict};

/// The most bytes of a manifest, or of a manifest and its tail; more are refused by question 1.
pub const MOST_BYTES: usize = 67_108_864;

/// The least words of the index for a manifest of so many bytes; fewer are refused by question 2.
pub const fn index_words(bytes: usize) -> usize {
    bytes / 2 + 16
}

/// How a manifest is judged.
#[derive(Clone, Copy, Debug, PartialEq, Eq, Hash)]
pub struct Options {
    /// The offset of the manifest's first byte: those of refusals count from it, and stop at 2^64 - 1.
    pub base: u64,
    /// The execution revision under which the manifest was written: question 31 is asked under 2 only.
    pub revision: u32,
}

impl Default for Options {
    /// Base 0 and revision 2.
    fn default() -> Self {
        Options { base: 0, revision: 2 }
    }
}
