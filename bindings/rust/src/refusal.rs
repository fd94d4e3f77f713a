//! Refusals, and the questions in words.
use std::error::Error;
use std::fmt;

/// Why bytes are not accepted: the first question that was answered no, and where.
#[derive(Clone, Copy, Debug, PartialEq, Eq, Hash)]
pub struct Refusal {
    /// 1 to 32 for a manifest, 33 to 38 for a tail, 39 for units.
    pub question: u32,
    /// It counts from the base, and is 0 for the questions 1, 2 and 39.
    pub offset: u64,
}

impl Refusal {
    /// What the question found.
    pub fn text(&self) -> &'static str {
        match self.question {
            n @ 1..=39 => FOUND[n as usize - 1],
            _ => "an unknown question",
        }
    }
}

impl fmt::Display for Refusal {
    fn fmt(&self, f: &mut fmt::Formatter<'_>) -> fmt::Result {
        write!(f, "refused by question {} at byte {}: {}", self.question, self.offset, self.text())
    }
}

impl Error for Refusal {}

/// The two manifests of a comparison.
#[derive(Clone, Copy, Debug, PartialEq, Eq, Hash)]
pub enum Side {
    Snapshot,
    Target,
}

impl Side {
    /// `snapshot` or `target`.
    pub fn name(self) -> &'static str {
        match self {
            Side::Snapshot => "snapshot",
            Side::Target => "target",
        }
    }
}

/// Why two manifests are not compared: the first of them that is refused.
#[derive(Clone, Copy, Debug, PartialEq, Eq, Hash)]
pub struct SideRefusal {
    pub side: Side,
    pub refusal: Refusal,
}

impl fmt::Display for SideRefusal {
    fn fmt(&self, f: &mut fmt::Formatter<'_>) -> fmt::Result {
        write!(f, "the {}'s manifest is {}", self.side.name(), self.refusal)
    }
}

impl Error for SideRefusal {}

/// What is found where a question is answered no, from question 1 on; nothing that JSON would escape.
const FOUND: [&str; 39] = [
    "more than 67108864 bytes",
    "too short an index",
    "bytes missing",
    "a string too long",
    "text that is not UTF-8",
    "an unknown tag or Boolean byte",
    "a count above what the bytes left can hold",
    "members of an enum class that are not all different",
    "a key not above the one before",
    "bytes left over",
    "an enum class without members",
    "a block whose kind, revision and state length do not fit",
    "an enum parameter of an unlisted class, or with an ordinal out of range",
    "a block's port of another owner, direction or place",
    "the ports of the blocks are not the connectors",
    "the enum classes are not those that are named",
    "a connection not from a known output to a known input",
    "the schedule does not hold each block once",
    "the connector order does not hold each connector once",
    "not as many drivers as connectors, or a driver's key that is not known",
    "the slots are not those of the stateful blocks",
    "a slot whose length is not its block's",
    "a slot that ends at 2^64 or above",
    "slots that do not start at 0 and join",
    "an external input that is not a known input, or is there twice",
    "a boundary output whose source is not a known output, or whose name is there twice",
    "an external path with two types",
    "the input definitions are not those of the external paths, with their types",
    "a bound of another type than its definition's, or a Boolean or String",
    "a bound whose ordinal is out of range",
    "the target's tag and the blocks' classes disagree",
    "an empty target string",
    "not as many values as connectors",
    "a value for an unknown connector",
    "a value of another type than its connector's",
    "an enum value whose ordinal is out of range",
    "not as many state words as the slots have",
    "flags that are not 0",
    "more than 2^64 - 1 units",
];
