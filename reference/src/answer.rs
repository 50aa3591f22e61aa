//! Answers, and the call that takes a table, a question and a lent buffer.

use crate::bytes::first_refused;
use crate::lines::control_lines;
use crate::options::{needs_password, Options, Range};
use crate::question::Question;
use crate::reader::Reader;

/// The most bytes of a table.
pub const TABLE_LENGTH: usize = 32_768;

/// The fewest bytes of an answer buffer.
pub const BUFFER_LENGTH: usize = 2_048;

/// The most bytes of a path.
pub const PATH_LENGTH: usize = 1_024;

/// The one answer to a question.
#[derive(Clone, Debug, PartialEq, Eq)]
pub enum Answer {
    Permit(Permission),
    PermitAfterPassword(Permission),
    NoEntry,
    StoppedByNargs { line: usize },
    StoppedByArgument { line: usize },
    StoppedByPath { line: usize },
    Refused { number: u32, place: usize },
}

/// What is told beside a permit.
#[derive(Clone, Debug, PartialEq, Eq)]
pub struct Permission {
    pub line: usize,
    pub path: Vec<u8>,
    pub uid: Option<Vec<u8>>,
    pub euid: Option<Vec<u8>>,
    pub gid: Option<Vec<u8>>,
    pub egid: Option<Vec<u8>>,
    pub auth: bool,
    pub timeout: Option<i32>,
    pub nargs: Option<Range>,
}

impl Answer {
    /// The number of the answer.
    pub fn number(&self) -> u32 {
        match self {
            Answer::Permit(_) => 0,
            Answer::PermitAfterPassword(_) => 1,
            Answer::NoEntry => 2,
            Answer::StoppedByNargs { .. } => 3,
            Answer::StoppedByArgument { .. } => 4,
            Answer::StoppedByPath { .. } => 5,
            Answer::Refused { number, .. } => *number,
        }
    }

    /// The line or place told beside the number.
    pub fn line_or_place(&self) -> usize {
        match self {
            Answer::Permit(permission) | Answer::PermitAfterPassword(permission) => permission.line,
            Answer::NoEntry => 0,
            Answer::StoppedByNargs { line }
            | Answer::StoppedByArgument { line }
            | Answer::StoppedByPath { line } => *line,
            Answer::Refused { place, .. } => *place,
        }
    }

    /// What is told beside a permit, if the answer is one.
    pub fn permission(&self) -> Option<&Permission> {
        match self {
            Answer::Permit(permission) | Answer::PermitAfterPassword(permission) => {
                Some(permission)
            }
            _ => None,
        }
    }

    /// The bytes that the answer writes at the beginning of the buffer.
    pub fn written(&self) -> Vec<u8> {
        let mut bytes = Vec::new();
        if let Some(permission) = self.permission() {
            bytes.extend_from_slice(&permission.path);
            bytes.push(0);
            for id in [&permission.uid, &permission.euid, &permission.gid, &permission.egid] {
                bytes.extend_from_slice(id.as_deref().unwrap_or_default());
                bytes.push(0);
            }
        }
        bytes
    }
}

fn refused(number: u32, place: usize) -> Answer {
    Answer::Refused { number, place }
}

/// Answer a question from a table; the buffer is changed by a permit only.
pub fn answer(table: &[u8], question: &Question, buffer: &mut [u8]) -> Answer {
    if buffer.len() < BUFFER_LENGTH {
        return refused(17, 0);
    }
    let answer = answer_from_table(table, question);
    let written = answer.written();
    buffer[..written.len()].copy_from_slice(&written);
    answer
}

fn answer_from_table(table: &[u8], question: &Question) -> Answer {
    if !question.is_good() {
        return refused(10, 0);
    }
    if table.len() > TABLE_LENGTH {
        return refused(11, TABLE_LENGTH);
    }
    if let Some(place) = first_refused(table) {
        return refused(12, place);
    }
    let lines = control_lines(table);
    let mut reader = Reader::new(question);
    for line in &lines.whole {
        if let Err(fault) = reader.read(line) {
            return refused(fault.number(), line.begin);
        }
    }
    if let Some(place) = lines.cut {
        return refused(13, place);
    }
    reader.decision()
}

/// Try the deciding entry: nargs, argument patterns, path length, password.
pub fn decide(question: &Question, line: usize, path: Vec<u8>, options: Options) -> Answer {
    if options.nargs.is_some_and(|range| !range.holds(question.arguments.len())) {
        return Answer::StoppedByNargs { line };
    }
    if options.arguments.iter().any(|pattern| !pattern.failures(&question.arguments).is_empty()) {
        return Answer::StoppedByArgument { line };
    }
    if path.len() > PATH_LENGTH {
        return Answer::StoppedByPath { line };
    }
    let auth = options.auth.unwrap_or(false);
    let permission = Permission {
        line,
        path,
        uid: options.uid,
        euid: options.euid,
        gid: options.gid,
        egid: options.egid,
        auth,
        timeout: options.timeout,
        nargs: options.nargs,
    };
    if needs_password(auth, permission.timeout, question.age) {
        Answer::PermitAfterPassword(permission)
    } else {
        Answer::Permit(permission)
    }
}
