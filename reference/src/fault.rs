//! What can be wrong with a control line.

/// A fault of one control line.
#[derive(Clone, Copy, Debug, PartialEq, Eq)]
pub enum Fault {
    /// The control line is malformed.
    Malformed,
    /// A size is passed inside the control line.
    Size,
    /// An entry before `patterns=shell`, or another pattern kind.
    PatternKind,
    /// More than 64 names from `:define`.
    TooManyNames,
}

impl Fault {
    /// The answer number of the fault.
    pub fn number(self) -> u32 {
        match self {
            Fault::Malformed => 14,
            Fault::Size => 15,
            Fault::PatternKind => 16,
            Fault::TooManyNames => 18,
        }
    }
}
