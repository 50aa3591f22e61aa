//! Cases: a table, a question and a buffer length on one line, and their answers.

use crate::answer::{self, Answer, BUFFER_LENGTH};
use crate::hexadecimal;
use crate::question::Question;

/// The line, without its newline, printed for one case line without its newline.
pub fn reply(case_line: &[u8]) -> Vec<u8> {
    match read_case(case_line) {
        Some(case) => {
            // All buffers that are long enough are answered alike.
            let length = case.buffer_length.min(BUFFER_LENGTH as u64) as usize;
            let mut buffer = vec![0; length];
            printed(&answer::answer(&case.table, &case.question, &mut buffer)).into_bytes()
        }
        None => b"bad case".to_vec(),
    }
}

/// One case.
pub struct Case {
    pub table: Vec<u8>,
    pub question: Question,
    pub buffer_length: u64,
}

/// Read a case line; one not of the form gives nothing.
pub fn read_case(line: &[u8]) -> Option<Case> {
    let fields: Vec<&[u8]> = line.split(|byte| *byte == b'\t').collect();
    let [table, command, user, groups, host, minute, age, arguments, buffer_length] = fields[..]
    else {
        return None;
    };
    let question = Question {
        command: hexadecimal::read(command)?,
        user: hexadecimal::read(user)?,
        groups: read_list(groups, hexadecimal::read)?,
        host: hexadecimal::read(host)?,
        minute: read_unsigned(minute)?,
        age: read_age(age)?,
        arguments: read_list(arguments, hexadecimal::read)?,
    };
    let table = hexadecimal::read(table)?;
    Some(Case { table, question, buffer_length: read_unsigned(buffer_length)? })
}

/// A list is `-` for none, or pieces joined by commas, so that nothing at all is one empty piece.
pub fn read_list<T>(text: &[u8], read_piece: impl Fn(&[u8]) -> Option<T>) -> Option<Vec<T>> {
    if text == b"-" {
        return Some(Vec::new());
    }
    text.split(|byte| *byte == b',').map(read_piece).collect()
}

/// Read an unsigned decimal number of 64 bits.
pub fn read_unsigned(text: &[u8]) -> Option<u64> {
    if !text.iter().all(u8::is_ascii_digit) {
        return None;
    }
    std::str::from_utf8(text).ok()?.parse().ok()
}

/// Read an age: `never`, or a signed decimal number of 32 bits.
pub fn read_age(text: &[u8]) -> Option<Option<i32>> {
    if text == b"never" {
        return Some(None);
    }
    let digits = text.strip_prefix(b"-").unwrap_or(text);
    if !digits.iter().all(u8::is_ascii_digit) {
        return None;
    }
    Some(Some(std::str::from_utf8(text).ok()?.parse().ok()?))
}

/// The line that tells an answer with all its values.
fn printed(answer: &Answer) -> String {
    let beginning = format!("{} {}", answer.number(), answer.line_or_place());
    let Some(permission) = answer.permission() else {
        return beginning;
    };
    let mut words = vec![beginning, hexadecimal::write(&permission.path)];
    for id in [&permission.uid, &permission.euid, &permission.gid, &permission.egid] {
        words.push(id.as_ref().map_or("-".to_string(), |id| hexadecimal::write(id)));
    }
    words.push(if permission.auth { "y" } else { "n" }.to_string());
    words.push(permission.timeout.map_or("-".to_string(), |minutes| minutes.to_string()));
    let nargs = permission.nargs.map(|range| format!("{}-{}", range.first, range.last));
    words.push(nargs.unwrap_or("-".to_string()));
    words.push(answer.written().len().to_string());
    words.join(" ")
}
