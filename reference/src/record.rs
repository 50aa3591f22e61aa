//! Log records: the eight bytes that are kept of one decision.

use crate::times::WEEK;

/// The bytes of a record.
pub const RECORD_LENGTH: usize = 8;

/// The largest size of an age that is stored.
pub const LARGEST_AGE: u32 = 16_777_215;

/// The version of every record.
const VERSION: u64 = 1;

/// The bits of the fields, most significant first: version, answer number, line, minute of the
/// week, effective auth, whether the age is below zero, and the size of the age.
const WIDTHS: [u32; 7] = [3, 5, 16, 14, 1, 1, 24];

/// What is told of a decision, to the writer or by the reader.
#[derive(Clone, Copy, Debug, PartialEq, Eq)]
pub struct Fields {
    /// The number of the answer.
    pub number: u8,
    pub line: u16,
    /// The minute of the week.
    pub minute: u32,
    /// The effective auth.
    pub auth: bool,
    /// The age of the last authentication in minutes, or nothing for never.
    pub age: Option<i32>,
}

/// Why a record is neither written nor read.
#[derive(Clone, Copy, Debug, PartialEq, Eq)]
pub enum Refusal {
    /// The record has another version.
    Version,
    /// The answer number is not a known one.
    Number,
    /// The minute is past the week.
    Minute,
    /// There are not eight bytes.
    Length,
}

impl Refusal {
    /// The number of the refusal, of a list of its own.
    pub fn number(self) -> u8 {
        match self {
            Refusal::Version => 1,
            Refusal::Number => 2,
            Refusal::Minute => 3,
            Refusal::Length => 4,
        }
    }
}

/// Write a record; one that is refused leaves the bytes as they were.
pub fn write(fields: &Fields, record: &mut [u8]) -> Result<(), Refusal> {
    if record.len() != RECORD_LENGTH {
        return Err(Refusal::Length);
    }
    check(fields.number, fields.minute)?;
    let line = if has_line(fields.number) { fields.line } else { 0 };
    let auth = has_auth(fields.number) && fields.auth;
    let (below_zero, size) = match fields.age {
        None => (true, 0),
        Some(age) => (age < 0, age.unsigned_abs().min(LARGEST_AGE)),
    };
    let bytes = packed([
        VERSION,
        u64::from(fields.number),
        u64::from(line),
        u64::from(fields.minute),
        u64::from(auth),
        u64::from(below_zero),
        u64::from(size),
    ]);
    record.copy_from_slice(&bytes);
    Ok(())
}

/// Read a record; line and auth are told as they stand there, whatever the answer is.
pub fn read(record: &[u8]) -> Result<Fields, Refusal> {
    let bytes: [u8; RECORD_LENGTH] = record.try_into().map_err(|_| Refusal::Length)?;
    let [version, number, line, minute, auth, below_zero, size] = unpacked(bytes);
    if version != VERSION {
        return Err(Refusal::Version);
    }
    let (number, minute) = (number as u8, minute as u32);
    check(number, minute)?;
    let size = size as i32;
    let age = match (below_zero == 1, size) {
        (true, 0) => None,
        (true, size) => Some(-size),
        (false, size) => Some(size),
    };
    Ok(Fields { number, line: line as u16, minute, auth: auth == 1, age })
}

/// What reader and writer refuse alike, the number before the minute.
fn check(number: u8, minute: u32) -> Result<(), Refusal> {
    if !matches!(number, 0..=5 | 11..=23) {
        return Err(Refusal::Number);
    }
    if u64::from(minute) >= WEEK {
        return Err(Refusal::Minute);
    }
    Ok(())
}

/// Whether the line of a known answer is kept: "no entry" and refusals have none.
fn has_line(number: u8) -> bool {
    number <= 5 && number != 2
}

/// Whether the auth of a known answer is kept: only permits have one.
fn has_auth(number: u8) -> bool {
    number <= 1
}

/// The values of all fields, one behind the other.
fn packed(values: [u64; 7]) -> [u8; RECORD_LENGTH] {
    let mut bits: u64 = 0;
    for (value, width) in values.into_iter().zip(WIDTHS) {
        assert!(value >> width == 0, "{value} has more than {width} bits");
        bits = (bits << width) | value;
    }
    bits.to_be_bytes()
}

/// The values of all fields.
fn unpacked(bytes: [u8; RECORD_LENGTH]) -> [u64; 7] {
    let mut bits = u64::from_be_bytes(bytes);
    WIDTHS.map(|width| {
        let value = bits >> (u64::BITS - width);
        bits <<= width;
        value
    })
}
