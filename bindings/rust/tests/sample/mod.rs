//! The repository's sample, and variants of it.

/// The shortest manifest that is accepted: portable, eleven lists without entries.
pub const EMPTY: [u8; 45] = [0; 45];

/// A heating loop with 12 state words and 7 connectors. Its first block is the PID controller, its second slot starts
/// where the controller's ends and has 4 words.
pub fn heating() -> Vec<u8> {
    include_bytes!("../../../../samples/heating.manifest").to_vec()
}

/// The same with another number of state words for the controller: in its block, as the length of its slot, and as
/// where the second slot starts.
pub fn heating_with_state(words: u64) -> Vec<u8> {
    let mut bytes = heating();
    for at in [82, 1063, 1081] {
        assert_eq!(bytes[at..at + 8], 8u64.to_le_bytes());
        bytes[at..at + 8].copy_from_slice(&words.to_le_bytes());
    }
    bytes
}
