//! The verdict on two manifests.
use std::fmt;

use crate::Section;

/// What in a section differs. Parts 1 to 12 are those of a block.
#[derive(Clone, Copy, Debug, PartialEq, Eq, PartialOrd, Ord, Hash)]
pub enum Part {
    /// The whole entry in the sections 2, 4 and 12, the whole section in 1 and 5 to 11.
    Whole = 0,
    Key,
    Class,
    Kind,
    Revision,
    StateLength,
    ParameterName,
    ParameterValue,
    ParameterCount,
    Input,
    InputCount,
    Output,
    OutputCount,
    /// In the sections 2, 3, 4 and 12.
    EntryCount,
}

impl Part {
    /// All parts in the order of their numbers.
    pub const ALL: [Part; 14] = [
        Part::Whole,
        Part::Key,
        Part::Class,
        Part::Kind,
        Part::Revision,
        Part::StateLength,
        Part::ParameterName,
        Part::ParameterValue,
        Part::ParameterCount,
        Part::Input,
        Part::InputCount,
        Part::Output,
        Part::OutputCount,
        Part::EntryCount,
    ];

    /// 0 to 13.
    pub fn number(self) -> u32 {
        self as u32
    }

    /// Its name in small letters, as `state length`.
    pub fn name(self) -> &'static str {
        match self {
            Part::Whole => "whole",
            Part::Key => "key",
            Part::Class => "class",
            Part::Kind => "kind",
            Part::Revision => "revision",
            Part::StateLength => "state length",
            Part::ParameterName => "parameter name",
            Part::ParameterValue => "parameter value",
            Part::ParameterCount => "number of parameters",
            Part::Input => "input",
            Part::InputCount => "number of inputs",
            Part::Output => "output",
            Part::OutputCount => "number of outputs",
            Part::EntryCount => "number of entries",
        }
    }
}

/// What two accepted manifests come to.
#[derive(Clone, Copy, Debug, PartialEq, Eq, Hash)]
pub enum Verdict {
    /// All twelve sections hold the same entries in the same order.
    Compatible,
    /// The first difference. Places count from 0, and are 0 where a part has none; the place of a number of entries,
    /// parameters or ports is the smaller number.
    Differs {
        section: Section,
        part: Part,
        /// The place of the entry in its section.
        entry: u64,
        /// The place of the parameter or port in its block.
        inner: u64,
    },
}

impl Verdict {
    pub(crate) fn of_answer(answer: [u64; 16]) -> Self {
        let [number, part, entry, inner, ..] = answer;
        if number == 0 {
            return Verdict::Compatible;
        }
        Verdict::Differs { section: Section::ALL[number as usize - 1], part: Part::ALL[part as usize], entry, inner }
    }
}

impl fmt::Display for Verdict {
    fn fmt(&self, f: &mut fmt::Formatter<'_>) -> fmt::Result {
        let Verdict::Differs { section, part, entry, inner } = *self else {
            return f.write_str("compatible");
        };
        write!(f, "differs in section {} ({}), ", section.number(), section.name())?;
        write!(f, "part {} ({}), entry {entry}, inner place {inner}", part.number(), part.name())
    }
}
