//! The twelve sections of a manifest.
use std::fmt;

/// A section.
#[derive(Clone, Copy, Debug, PartialEq, Eq, PartialOrd, Ord, Hash)]
pub enum Section {
    Portability = 1,
    EnumClasses,
    Blocks,
    Connectors,
    Connections,
    Schedule,
    ConnectorOrder,
    Drivers,
    Slots,
    ExternalInputs,
    BoundaryOutputs,
    InputDefinitions,
}

impl Section {
    /// All sections in their order.
    pub const ALL: [Section; 12] = [
        Section::Portability,
        Section::EnumClasses,
        Section::Blocks,
        Section::Connectors,
        Section::Connections,
        Section::Schedule,
        Section::ConnectorOrder,
        Section::Drivers,
        Section::Slots,
        Section::ExternalInputs,
        Section::BoundaryOutputs,
        Section::InputDefinitions,
    ];

    /// 1 to 12.
    pub fn number(self) -> u32 {
        self as u32
    }

    /// Its name in small letters, as `enum classes`.
    pub fn name(self) -> &'static str {
        match self {
            Section::Portability => "portability",
            Section::EnumClasses => "enum classes",
            Section::Blocks => "blocks",
            Section::Connectors => "connectors",
            Section::Connections => "connections",
            Section::Schedule => "schedule",
            Section::ConnectorOrder => "connector order",
            Section::Drivers => "drivers",
            Section::Slots => "slots",
            Section::ExternalInputs => "external inputs",
            Section::BoundaryOutputs => "boundary outputs",
            Section::InputDefinitions => "input definitions",
        }
    }
}

/// Where the sections of an accepted manifest start, counted from its first byte.
#[derive(Clone, Copy, Debug, PartialEq, Eq, Hash)]
pub struct Starts(pub [u32; 12]);

impl Starts {
    /// Where a section starts.
    pub fn at(&self, section: Section) -> u32 {
        self.0[section as usize - 1]
    }

    /// The first twelve words are the starts; the library has them as numbers of 32 bits, too.
    pub(crate) fn of_answer(answer: [u64; 16]) -> Self {
        Starts(std::array::from_fn(|i| answer[i] as u32))
    }
}

/// The starts in the order of the sections, with a space between two.
impl fmt::Display for Starts {
    fn fmt(&self, f: &mut fmt::Formatter<'_>) -> fmt::Result {
        let numbers = self.0.map(|start| start.to_string());
        f.write_str(&numbers.join(" "))
    }
}
