//! Cases of log records: fields to write or bytes to read on one line, and their answers.

use crate::cases::{read_age, read_unsigned};
use crate::hexadecimal;
use crate::record::{self, Fields, Refusal, RECORD_LENGTH};

/// The line, without its newline, printed for one line of fields to write.
pub fn reply_to_writing(case_line: &[u8]) -> Vec<u8> {
    reply(read_writing(case_line).map(|fields| {
        let mut bytes = [0; RECORD_LENGTH];
        record::write(&fields, &mut bytes).map(|()| hexadecimal::write(&bytes))
    }))
}

/// The line, without its newline, printed for one line of bytes to read.
pub fn reply_to_reading(case_line: &[u8]) -> Vec<u8> {
    reply(read_reading(case_line).map(|bytes| record::read(&bytes).map(|fields| printed(&fields))))
}

/// The answer of a case, if the line was one.
fn reply(answer: Option<Result<String, Refusal>>) -> Vec<u8> {
    let text = match answer {
        Some(Ok(told)) => told,
        Some(Err(refusal)) => format!("refused {}", refusal.number()),
        None => "bad case".to_string(),
    };
    text.into_bytes()
}

/// Read a line of number, line, minute, auth and age; one not of the form gives nothing.
pub fn read_writing(line: &[u8]) -> Option<Fields> {
    let fields: Vec<&[u8]> = line.split(|byte| *byte == b'\t').collect();
    let [number, line, minute, auth, age] = fields[..] else {
        return None;
    };
    let minute = u16::try_from(read_unsigned(minute)?).ok()?;
    Some(Fields {
        number: u8::try_from(read_unsigned(number)?).ok()?,
        line: u16::try_from(read_unsigned(line)?).ok()?,
        minute: u32::from(minute),
        auth: match auth {
            b"y" => true,
            b"n" => false,
            _ => return None,
        },
        age: read_age(age)?,
    })
}

/// Read a line of bytes, which is `-` for none; one not of the form gives nothing.
pub fn read_reading(line: &[u8]) -> Option<Vec<u8>> {
    match line {
        b"-" => Some(Vec::new()),
        b"" => None,
        digits => hexadecimal::read(digits),
    }
}

/// The line that tells the fields of a record.
fn printed(fields: &Fields) -> String {
    let Fields { number, line, minute, auth, age } = fields;
    let age = age.map_or("never".to_string(), |age| age.to_string());
    format!("{number} {line} {minute} {} {age}", u8::from(*auth))
}
