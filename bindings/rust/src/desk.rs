//! The calls with indexes that are kept from one call to the next.
use std::fmt;

use crate::{index_words, lent, Options, Refusal, SideRefusal, Starts, Units, Verdict, MOST_BYTES};

/// Judges manifests. It owns the indexes that the calls need and uses them again: for a manifest two bytes of index for
/// each byte of the longest so far, and as much for the target's where manifests are compared.
#[derive(Default)]
pub struct Desk {
    index: Vec<u32>,
    target_index: Vec<u32>,
}

impl Desk {
    /// A desk without indexes; the first call allocates.
    pub fn new() -> Self {
        Self::default()
    }

    /// Judges a manifest.
    pub fn decode_manifest(&mut self, bytes: &[u8], options: Options) -> Result<Starts, Refusal> {
        lent::decode_manifest(bytes, options, lend(&mut self.index, bytes.len(), 0))
    }

    /// Judges a manifest and its tail, which is what follows it in a snapshot: connector values, state words and flags.
    /// The options are the manifest's; offsets in the tail count on from the manifest's end.
    pub fn decode_tail(&mut self, manifest: &[u8], tail: &[u8], options: Options) -> Result<Starts, Refusal> {
        lent::decode_tail(manifest, tail, options, lend(&mut self.index, manifest.len(), tail.len()))
    }

    /// Judges a manifest and counts its units.
    pub fn units(&mut self, bytes: &[u8], options: Options) -> Result<Units, Refusal> {
        lent::units(bytes, options, lend(&mut self.index, bytes.len(), 0))
    }

    /// Judges a snapshot's manifest, then the target's, and compares them.
    pub fn compare_manifests(
        &mut self,
        snapshot: &[u8],
        snapshot_options: Options,
        target: &[u8],
        target_options: Options,
    ) -> Result<Verdict, SideRefusal> {
        let index = lend(&mut self.index, snapshot.len(), 0);
        let target_index = lend(&mut self.target_index, target.len(), 0);
        lent::compare_manifests(snapshot, snapshot_options, index, target, target_options, target_index)
    }
}

/// Indexes are long and hold nothing of interest between calls, so they are not shown.
impl fmt::Debug for Desk {
    fn fmt(&self, f: &mut fmt::Formatter<'_>) -> fmt::Result {
        f.debug_struct("Desk").finish_non_exhaustive()
    }
}

/// The words that a call on a manifest and a tail needs, and no more, since a call clears all that it is lent. Too many
/// bytes are refused by question 1, before the index is looked at, and need none.
fn lend(index: &mut Vec<u32>, manifest: usize, tail: usize) -> &mut [u32] {
    let words = if manifest + tail > MOST_BYTES { 0 } else { index_words(manifest) };
    if index.len() < words {
        *index = vec![0; words];
    }
    &mut index[..words]
}
