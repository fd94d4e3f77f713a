//! The calls with indexes that the caller lends: they allocate nothing.
//!
//! An index needs [`index_words`](crate::index_words) words for its manifest, of any content; one with fewer is refused
//! by question 2 and left as it was. After acceptance an index holds the twelve starts and then zeros, after any other
//! refusal zeros. A target's index is left as it was where the snapshot's manifest is refused.
use crate::refusal::{Refusal, Side, SideRefusal};
use crate::sys::{self, Called};
use crate::{Options, Starts, Units, Verdict};

/// Judges a manifest.
pub fn decode_manifest(bytes: &[u8], options: Options, index: &mut [u32]) -> Result<Starts, Refusal> {
    accepted(sys::decode_manifest(bytes, options, index)).map(Starts::of_answer)
}

/// Judges a manifest and its tail, which is what follows it in a snapshot: connector values, state words and flags.
/// Options and index are the manifest's; offsets in the tail count on from the manifest's end.
pub fn decode_tail(manifest: &[u8], tail: &[u8], options: Options, index: &mut [u32]) -> Result<Starts, Refusal> {
    accepted(sys::decode_tail(manifest, tail, options, index)).map(Starts::of_answer)
}

/// Judges a manifest and counts its units.
pub fn units(bytes: &[u8], options: Options, index: &mut [u32]) -> Result<Units, Refusal> {
    accepted(sys::units(bytes, options, index)).map(Units::of_answer)
}

/// Judges a snapshot's manifest, then the target's, and compares them.
pub fn compare_manifests(
    snapshot: &[u8],
    snapshot_options: Options,
    snapshot_index: &mut [u32],
    target: &[u8],
    target_options: Options,
    target_index: &mut [u32],
) -> Result<Verdict, SideRefusal> {
    let called =
        sys::compare_manifests(snapshot, snapshot_options, snapshot_index, target, target_options, target_index);
    let side = if called.answer[1] == 0 { Side::Snapshot } else { Side::Target };
    accepted(called).map(Verdict::of_answer).map_err(|refusal| SideRefusal { side, refusal })
}

/// The answer of a call that said yes to all questions.
fn accepted(called: Called) -> Result<[u64; 16], Refusal> {
    match called.question {
        0 => Ok(called.answer),
        question => Err(Refusal { question, offset: called.answer[0] }),
    }
}
