//! Answers.

use std::error::Error;
use std::fmt;
use std::ops::RangeInclusive;

use crate::cause::Cause;

/// The one answer to a question.
#[derive(Clone, Debug, PartialEq, Eq)]
#[must_use]
#[non_exhaustive]
pub enum Answer {
    /// The command may be run.
    Permit(Permission),
    /// It may be run once the user has given the password.
    Password(Permission),
    /// No entry accepts the question.
    NoEntry,
    /// The deciding entry does not allow this number of arguments.
    StoppedByNargs { line: usize },
    /// An argument does not match an argument pattern that covers it.
    StoppedByArgument { line: usize },
    /// The path is longer than 1,024 bytes.
    StoppedByPath { line: usize },
    /// The question or the table is at fault, and nothing was decided.
    Refused(Refusal),
}

/// What is told beside a permit. A line is the number, from 1, of the first physical line of the
/// deciding control line.
#[derive(Clone, Debug, PartialEq, Eq)]
pub struct Permission {
    pub line: usize,
    /// The program to run.
    pub path: String,
    /// The options that are set, as they stand in the table.
    pub uid: Option<String>,
    pub euid: Option<String>,
    pub gid: Option<String>,
    pub egid: Option<String>,
    /// Whether `auth=y` is in force.
    pub auth: bool,
    /// For how many minutes a password holds, where it is set.
    pub timeout: Option<i16>,
    /// How many arguments are allowed, where it is set.
    pub nargs: Option<RangeInclusive<u8>>,
}

/// Why nothing was decided. A place is counted in bytes of the table, from 0.
#[derive(Clone, Copy, Debug, PartialEq, Eq)]
#[non_exhaustive]
pub enum Refusal {
    /// The question is not as [`Question`](crate::Question) says.
    Question,
    /// The table has more than 32,768 bytes.
    LongTable,
    /// The byte at this place may not stand in a table.
    RefusedByte { place: usize },
    /// The table is cut short; its last control line begins at this place.
    CutShort { place: usize },
    /// The control line that begins at this place is at fault.
    Line { cause: Cause, place: usize },
}

impl Answer {
    /// The number of the answer: 0 to 5 for a decision, 10 to 18 for a refusal.
    #[must_use]
    pub fn number(&self) -> u8 {
        match self {
            Answer::Permit(_) => 0,
            Answer::Password(_) => 1,
            Answer::NoEntry => 2,
            Answer::StoppedByNargs { .. } => 3,
            Answer::StoppedByArgument { .. } => 4,
            Answer::StoppedByPath { .. } => 5,
            Answer::Refused(refusal) => refusal.number(),
        }
    }

    /// Whether the table gave a decision.
    #[must_use]
    pub fn is_decision(&self) -> bool {
        !matches!(self, Answer::Refused(_))
    }
}

impl Refusal {
    /// The number of the refusal.
    #[must_use]
    pub fn number(self) -> u8 {
        match self {
            Refusal::Question => 10,
            Refusal::LongTable => 11,
            Refusal::RefusedByte { .. } => 12,
            Refusal::CutShort { .. } => 13,
            Refusal::Line { cause, .. } => cause.refusal(),
        }
    }

    /// The place told beside the number.
    #[must_use]
    pub fn place(self) -> usize {
        match self {
            Refusal::Question => 0,
            Refusal::LongTable => 32_768,
            Refusal::RefusedByte { place }
            | Refusal::CutShort { place }
            | Refusal::Line { place, .. } => place,
        }
    }

    /// One sentence: what is wrong, and what to do.
    #[must_use]
    pub fn words(self) -> &'static str {
        match self {
            Refusal::Question => "the question is not of the form that is asked for; correct it",
            Refusal::LongTable => {
                "the table has more than 32,768 bytes; remove comments or entries"
            }
            Refusal::RefusedByte { .. } => {
                "a table holds plain ASCII text only, and no carriage return, accented letter or \
                 curly quote; remove or replace this byte"
            }
            Refusal::CutShort { .. } => {
                "the table ends before this line does; copy the whole table again, or end the \
                 line with a newline that is not behind a backslash"
            }
            Refusal::Line { cause, .. } => cause.words(),
        }
    }
}

impl fmt::Display for Refusal {
    fn fmt(&self, to: &mut fmt::Formatter) -> fmt::Result {
        write!(to, "refused {}: {}", self.number(), self.words())
    }
}

impl Error for Refusal {}
