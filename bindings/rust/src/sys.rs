//! The C interface of `include/handover.h`. All unsafe code of the crate is here.
//!
//! What the header asks of its callers holds for slices and references: their pointers are aligned and not null, also
//! to nothing at all, and what is lent to be written overlaps nothing else. The functions touch no other memory and
//! keep no pointer.
use crate::Options;

extern "C" {
    fn handover_decode_manifest(
        bytes: *const u8,
        n: usize,
        base: u64,
        revision: u32,
        index: *mut u32,
        words: usize,
        answer: &mut [u64; 16],
    ) -> u32;
    fn handover_decode_tail(
        manifest: *const u8,
        manifest_n: usize,
        tail: *const u8,
        tail_n: usize,
        base: u64,
        revision: u32,
        index: *mut u32,
        words: usize,
        answer: &mut [u64; 16],
    ) -> u32;
    fn handover_units(
        bytes: *const u8,
        n: usize,
        base: u64,
        revision: u32,
        index: *mut u32,
        words: usize,
        answer: &mut [u64; 16],
    ) -> u32;
    fn handover_compare_manifests(
        snapshot: *const u8,
        snapshot_n: usize,
        snapshot_base: u64,
        snapshot_revision: u32,
        snapshot_index: *mut u32,
        snapshot_words: usize,
        target: *const u8,
        target_n: usize,
        target_base: u64,
        target_revision: u32,
        target_index: *mut u32,
        target_words: usize,
        answer: &mut [u64; 16],
    ) -> u32;
}

/// What a call leaves: its result, which is 0 or the number of the question that was answered no, and its answer.
pub struct Called {
    pub question: u32,
    pub answer: [u64; 16],
}

fn called(call: impl FnOnce(&mut [u64; 16]) -> u32) -> Called {
    let mut answer = [0; 16];
    let question = call(&mut answer);
    Called { question, answer }
}

pub fn decode_manifest(bytes: &[u8], options: Options, index: &mut [u32]) -> Called {
    let Options { base, revision } = options;
    let (b, n, i, words) = (bytes.as_ptr(), bytes.len(), index.as_mut_ptr(), index.len());
    // SAFETY: pointers and lengths are those of two slices, which are lent until the call ends.
    called(|answer| unsafe { handover_decode_manifest(b, n, base, revision, i, words, answer) })
}

pub fn decode_tail(manifest: &[u8], tail: &[u8], options: Options, index: &mut [u32]) -> Called {
    let Options { base, revision } = options;
    let (m, n, t, tail_n) = (manifest.as_ptr(), manifest.len(), tail.as_ptr(), tail.len());
    let (i, words) = (index.as_mut_ptr(), index.len());
    // SAFETY: pointers and lengths are those of three slices, which are lent until the call ends.
    called(|answer| unsafe { handover_decode_tail(m, n, t, tail_n, base, revision, i, words, answer) })
}

pub fn units(bytes: &[u8], options: Options, index: &mut [u32]) -> Called {
    let Options { base, revision } = options;
    let (b, n, i, words) = (bytes.as_ptr(), bytes.len(), index.as_mut_ptr(), index.len());
    // SAFETY: pointers and lengths are those of two slices, which are lent until the call ends.
    called(|answer| unsafe { handover_units(b, n, base, revision, i, words, answer) })
}

pub fn compare_manifests(
    snapshot: &[u8],
    snapshot_options: Options,
    snapshot_index: &mut [u32],
    target: &[u8],
    target_options: Options,
    target_index: &mut [u32],
) -> Called {
    let (s, t) = (snapshot_options, target_options);
    // SAFETY: pointers and lengths are those of four slices, which are lent until the call ends.
    called(|answer| unsafe {
        handover_compare_manifests(
            snapshot.as_ptr(),
            snapshot.len(),
            s.base,
            s.revision,
            snapshot_index.as_mut_ptr(),
            snapshot_index.len(),
            target.as_ptr(),
            target.len(),
            t.base,
            t.revision,
            target_index.as_mut_ptr(),
            target_index.len(),
            answer,
        )
    })
}
