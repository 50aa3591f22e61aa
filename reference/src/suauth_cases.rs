//! Cases of su files: a file and a question on one line, and their answers.

use crate::cases::read_list;
use crate::hexadecimal;
use crate::suauth::{self, Action, Answer, Question};

/// The line, without its newline, printed for one case line without its newline.
pub fn reply(case_line: &[u8]) -> Vec<u8> {
    match read_case(case_line) {
        Some((file, question)) => printed(suauth::answer(&file, &question)).into_bytes(),
        None => b"bad case".to_vec(),
    }
}

/// Read the file and the question of a case line; one not of the form gives nothing.
pub fn read_case(line: &[u8]) -> Option<(Vec<u8>, Question)> {
    let fields: Vec<&[u8]> = line.split(|byte| *byte == b'\t').collect();
    let [file, target, user, groups] = fields[..] else {
        return None;
    };
    let question = Question {
        target: hexadecimal::read(target)?,
        user: hexadecimal::read(user)?,
        groups: read_list(groups, hexadecimal::read)?,
    };
    Some((hexadecimal::read(file)?, question))
}

/// The line that tells an answer.
fn printed(answer: Answer) -> String {
    match answer {
        Answer::Rule { action, line } => {
            let word = match action {
                Action::Deny => "DENY",
                Action::NoPassword => "NOPASS",
                Action::OwnPassword => "OWNPASS",
            };
            format!("{word} {line}")
        }
        Answer::NoRule => "none".to_string(),
        Answer::Refused { number, place } => format!("{number} {place}"),
    }
}
