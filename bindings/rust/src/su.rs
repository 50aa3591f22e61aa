//! Answers from a su file.

use std::error::Error;
use std::fmt;

use crate::question::zero_ended;
use crate::raw::{self, su, SU_REPORT_LENGTH};

/// Who asks to become whom.
///
/// Any bytes may stand in it; what is not as said here is answered by [`SuRefusal::Question`].
#[derive(Clone, Copy, Debug, PartialEq, Eq)]
pub struct SuQuestion<'a> {
    /// Whom the user wants to become: 1 to 32 letters, digits, `.`, `_` and `-`.
    pub target: &'a [u8],
    /// Who asks, of the same form.
    pub user: &'a [u8],
    /// The groups of the user, at most 32 of the same form.
    pub groups: &'a [&'a [u8]],
}

/// The one answer to a question. A line is the number, from 1, of the deciding line.
#[derive(Clone, Copy, Debug, PartialEq, Eq)]
#[must_use]
pub enum SuAnswer {
    /// `NOPASS`: the user becomes the target, and no password is asked for.
    NoPassword { line: usize },
    /// `OWNPASS`: the user becomes the target once his or her own password is given.
    OwnPassword { line: usize },
    /// No rule applies.
    NoRule,
    /// `DENY`: the user does not become the target, and no password is asked for.
    Deny { line: usize },
    /// The question or the file is at fault, and nothing was decided.
    Refused(SuRefusal),
}

/// Why nothing was decided. A place is counted in bytes of the file, from 0.
#[derive(Clone, Copy, Debug, PartialEq, Eq)]
pub enum SuRefusal {
    /// The question is not as [`SuQuestion`] says.
    Question,
    /// The file has more than 32,768 bytes.
    LongFile,
    /// The byte at this place may not stand in a su file.
    RefusedByte { place: usize },
    /// The file is cut short; its last line begins at this place.
    CutShort { place: usize },
    /// The line that begins at this place is malformed, whether it would apply or not.
    Line { place: usize },
}

/// Answers a question from a su file. The first line whose rule applies decides, and yet all lines
/// are read before the answer.
///
/// Where a file gives a decision, each beginning of it gives the same one,
/// [`NoRule`](SuAnswer::NoRule) or [`CutShort`](SuRefusal::CutShort).
///
/// # Panics
///
/// Where the library that was linked gives an answer that this crate does not know.
pub fn su_answer(file: &[u8], question: &SuQuestion) -> SuAnswer {
    let groups = zero_ended(question.groups);
    let mut report = [0; SU_REPORT_LENGTH];
    // Every slice's pointer is valid for its length and not null, and the array is our own.
    let number = unsafe {
        raw::supertab_su_answer(
            file.as_ptr(),
            file.len(),
            question.target.as_ptr(),
            question.target.len(),
            question.user.as_ptr(),
            question.user.len(),
            groups.as_ptr(),
            groups.len(),
            report.as_mut_ptr(),
            report.len(),
        )
    };
    let line = usize::try_from(report[0]).expect("no line and no place is below zero");
    let place = line;
    match number {
        su::NOPASS => SuAnswer::NoPassword { line },
        su::OWNPASS => SuAnswer::OwnPassword { line },
        su::NO_RULE => SuAnswer::NoRule,
        su::DENY => SuAnswer::Deny { line },
        su::BAD_QUESTION => SuAnswer::Refused(SuRefusal::Question),
        su::LONG_FILE => SuAnswer::Refused(SuRefusal::LongFile),
        su::REFUSED_BYTE => SuAnswer::Refused(SuRefusal::RefusedByte { place }),
        su::CUT_SHORT => SuAnswer::Refused(SuRefusal::CutShort { place }),
        su::MALFORMED => SuAnswer::Refused(SuRefusal::Line { place }),
        _ => panic!("the library gave the answer {number} from a su file"),
    }
}

impl SuAnswer {
    /// The number of the answer: 0 to 3 for a decision, 10 to 14 for a refusal.
    #[must_use]
    pub fn number(self) -> u8 {
        match self {
            SuAnswer::NoPassword { .. } => su::NOPASS,
            SuAnswer::OwnPassword { .. } => su::OWNPASS,
            SuAnswer::NoRule => su::NO_RULE,
            SuAnswer::Deny { .. } => su::DENY,
            SuAnswer::Refused(refusal) => refusal.number(),
        }
    }

    /// Whether the file gave a decision.
    #[must_use]
    pub fn is_decision(self) -> bool {
        !matches!(self, SuAnswer::Refused(_))
    }
}

impl SuRefusal {
    /// The number of the refusal.
    #[must_use]
    pub fn number(self) -> u8 {
        match self {
            SuRefusal::Question => su::BAD_QUESTION,
            SuRefusal::LongFile => su::LONG_FILE,
            SuRefusal::RefusedByte { .. } => su::REFUSED_BYTE,
            SuRefusal::CutShort { .. } => su::CUT_SHORT,
            SuRefusal::Line { .. } => su::MALFORMED,
        }
    }

    /// The place told beside the number.
    #[must_use]
    pub fn place(self) -> usize {
        match self {
            SuRefusal::Question => 0,
            SuRefusal::LongFile => 32_768,
            SuRefusal::RefusedByte { place }
            | SuRefusal::CutShort { place }
            | SuRefusal::Line { place } => place,
        }
    }

    /// One sentence: what is wrong, and what to do.
    #[must_use]
    pub fn words(self) -> &'static str {
        match self {
            SuRefusal::Question => "the question is not of the form that is asked for; correct it",
            SuRefusal::LongFile => {
                "the su file has more than 32,768 bytes; remove comments or rules"
            }
            SuRefusal::RefusedByte { .. } => {
                "a su file holds plain ASCII text only, and no carriage return, accented letter or \
                 curly quote; remove or replace this byte"
            }
            SuRefusal::CutShort { .. } => {
                "the su file ends before this line does; copy the whole file again, or end the line \
                 with a newline"
            }
            SuRefusal::Line { .. } => {
                "the line is not of the form TO:FROM:ACTION; write ALL, names parted by commas or \
                 ALL EXCEPT and such names on either side, GROUP before the names only in FROM, and \
                 DENY, NOPASS or OWNPASS at the end, with no blanks but single ones beside EXCEPT \
                 and behind GROUP"
            }
        }
    }
}

impl fmt::Display for SuRefusal {
    fn fmt(&self, to: &mut fmt::Formatter) -> fmt::Result {
        write!(to, "refused {}: {}", self.number(), self.words())
    }
}

impl Error for SuRefusal {}
