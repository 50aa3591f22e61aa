//! Question lines and the lines printed for them.

use crate::answer::{self, Answer, Permission, BUFFER_LENGTH};
use crate::question::Question;

/// The most bytes of a question line, its newline not counted.
pub const LINE_LENGTH: usize = 32_768;

/// The line, without its newline, printed for one question line without its newline.
pub fn reply(table: &[u8], question_line: &[u8]) -> Vec<u8> {
    let Some(question) = read_question_line(question_line) else {
        return b"refused 10 0".to_vec();
    };
    let mut buffer = [0; BUFFER_LENGTH];
    printed(&answer::answer(table, &question, &mut buffer))
}

/// Read `COMMAND USER GROUPS HOST MINUTE AGE ARGS`; a line not of this form gives nothing.
pub fn read_question_line(line: &[u8]) -> Option<Question> {
    let pieces: Vec<&[u8]> = line.split(|byte| *byte == b' ').collect();
    if line.len() > LINE_LENGTH || pieces.len() < 6 {
        return None;
    }
    let groups = match pieces[2] {
        b"-" => Vec::new(),
        joined => joined.split(|byte| *byte == b',').map(<[u8]>::to_vec).collect(),
    };
    let age = match pieces[5] {
        b"-" => None,
        written => Some(read_age(written)?),
    };
    Some(Question {
        command: pieces[0].to_vec(),
        user: pieces[1].to_vec(),
        groups,
        host: pieces[3].to_vec(),
        minute: read_number(pieces[4])?,
        age,
        arguments: pieces[6..].iter().map(|piece| piece.to_vec()).collect(),
    })
}

/// The value of one or more digits, held at the greatest number there is.
fn read_number(text: &[u8]) -> Option<u64> {
    if text.is_empty() || !text.iter().all(u8::is_ascii_digit) {
        return None;
    }
    let add_digit =
        |value: u64, digit: &u8| value.saturating_mul(10).saturating_add(u64::from(digit - b'0'));
    Some(text.iter().fold(0, add_digit))
}

/// An age is an optional `-` and digits that give a signed number of 32 bits.
fn read_age(text: &[u8]) -> Option<i32> {
    let value = match text.strip_prefix(b"-") {
        Some(rest) => -i128::from(read_number(rest)?),
        None => i128::from(read_number(text)?),
    };
    i32::try_from(value).ok()
}

/// The line that tells an answer.
fn printed(answer: &Answer) -> Vec<u8> {
    match answer {
        Answer::Permit(permission) => printed_permission("permit", permission),
        Answer::PermitAfterPassword(permission) => printed_permission("password", permission),
        Answer::NoEntry => b"none".to_vec(),
        Answer::StoppedByNargs { line } => format!("stopped {line} nargs").into_bytes(),
        Answer::StoppedByArgument { line } => format!("stopped {line} arg").into_bytes(),
        Answer::StoppedByPath { line } => format!("stopped {line} path").into_bytes(),
        Answer::Refused { number, place } => format!("refused {number} {place}").into_bytes(),
    }
}

fn printed_permission(word: &str, permission: &Permission) -> Vec<u8> {
    let mut text = format!("{word} {} ", permission.line).into_bytes();
    text.extend_from_slice(&permission.path);
    let ids = [
        (" uid=", &permission.uid),
        (" euid=", &permission.euid),
        (" gid=", &permission.gid),
        (" egid=", &permission.egid),
    ];
    for (name, id) in ids {
        if let Some(id) = id {
            text.extend_from_slice(name.as_bytes());
            text.extend_from_slice(id);
        }
    }
    text
}
