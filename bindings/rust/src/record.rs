//! Log records: an answer in eight bytes.

use std::error::Error;
use std::fmt;

use crate::answer::Answer;
use crate::raw::{self, field, FIELDS_LENGTH, RECORD_LENGTH};

/// The fields of a log record.
#[derive(Clone, Copy, Debug, PartialEq, Eq, Hash)]
pub struct Fields {
    /// The number of the answer, 0 to 5 or 11 to 23.
    pub number: u8,
    /// The deciding line. The writer stores 0 for the answer 2 and for refusals.
    pub line: u16,
    /// The minute of the week, 0 to 10,079.
    pub minute: u16,
    /// Whether `auth=y` was in force. The writer stores it for the answers 0 and 1 only.
    pub auth: bool,
    /// The minutes since the user last gave the password, `None` for never. The writer stores a size
    /// above 16,777,215 as that, with the sign.
    pub age: Option<i32>,
}

/// Why a record was not written, or not read; nothing of it is shown.
#[derive(Clone, Copy, Debug, PartialEq, Eq, Hash)]
pub enum RecordRefusal {
    /// The record is of another version than 1.
    Version,
    /// The answer's number is none of 0 to 5 and 11 to 23.
    Number,
    /// The minute of the week is above 10,079.
    Minute,
    /// There are not eight bytes.
    Length,
}

impl RecordRefusal {
    /// The number of the refusal, in a list of its own.
    #[must_use]
    pub fn number(self) -> u8 {
        match self {
            RecordRefusal::Version => 1,
            RecordRefusal::Number => 2,
            RecordRefusal::Minute => 3,
            RecordRefusal::Length => 4,
        }
    }

    /// One sentence: what is wrong, and what to do.
    #[must_use]
    pub fn words(self) -> &'static str {
        match self {
            RecordRefusal::Version => {
                "the record is of another version than 1; read it with a program that knows it"
            }
            RecordRefusal::Number => {
                "the answer number is none of 0 to 5 and 11 to 23; leave such an answer out of the \
                 log, and look for damage in a log that has one"
            }
            RecordRefusal::Minute => {
                "the minute of the week is above 10,079; count it from Monday 0:00, and look for \
                 damage in a log that has one"
            }
            RecordRefusal::Length => {
                "a record has eight bytes, no fewer and no more; pass eight at a time, and look \
                 for a cut in a log that leaves some over"
            }
        }
    }

    /// The refusal with this number.
    fn from_number(number: u8) -> RecordRefusal {
        match number {
            1 => RecordRefusal::Version,
            2 => RecordRefusal::Number,
            3 => RecordRefusal::Minute,
            4 => RecordRefusal::Length,
            _ => panic!("the library refused a record with {number}"),
        }
    }
}

impl fmt::Display for RecordRefusal {
    fn fmt(&self, to: &mut fmt::Formatter) -> fmt::Result {
        write!(to, "refused {}: {}", self.number(), self.words())
    }
}

impl Error for RecordRefusal {}

/// Packs the fields into a record. A number that is not known is refused ahead of a bad minute.
///
/// What a record does not store is dropped, as [`Fields`] says, so that [`read_record`] gives back
/// the stored fields.
///
/// # Panics
///
/// Where the library that was linked gives a refusal that this crate does not know.
pub fn write_record(fields: &Fields) -> Result<[u8; RECORD_LENGTH], RecordRefusal> {
    packed(fields.number, fields.line, fields.minute.into(), fields.auth, fields.age)
}

/// Reads a record. The first of [`RecordRefusal::Length`], [`RecordRefusal::Version`],
/// [`RecordRefusal::Number`] and [`RecordRefusal::Minute`] that applies is told.
///
/// The bits are told as they stand, a line or auth beside an answer that has none too.
///
/// # Panics
///
/// Where the library that was linked gives a refusal or a field that this crate does not know.
pub fn read_record(record: &[u8]) -> Result<Fields, RecordRefusal> {
    let mut numbers = [0; FIELDS_LENGTH];
    // The slice's pointer is valid for its length and not null, and the array is our own.
    let result = unsafe {
        raw::supertab_record_read(
            record.as_ptr(),
            record.len(),
            numbers.as_mut_ptr(),
            numbers.len(),
        )
    };
    if result != 0 {
        return Err(RecordRefusal::from_number(result));
    }
    let small = |index: usize| u16::try_from(numbers[index]).expect("a field has 16 bits");
    Ok(Fields {
        number: u8::try_from(numbers[field::NUMBER]).expect("a number has 8 bits"),
        line: small(field::LINE),
        minute: small(field::MINUTE),
        auth: numbers[field::AUTH] != 0,
        age: (numbers[field::AUTHENTICATED] != 0)
            .then(|| i32::try_from(numbers[field::AGE]).expect("an age has 32 bits")),
    })
}

impl Answer {
    /// The record of this answer to a question with this minute and this age.
    ///
    /// [`Refusal::Question`](crate::Refusal::Question) has no record: it is refused by
    /// [`RecordRefusal::Number`].
    ///
    /// # Panics
    ///
    /// Where the line has more than 16 bits, which none of [`answer`](crate::answer()) has.
    pub fn record(
        &self,
        minute: u32,
        age: Option<i32>,
    ) -> Result<[u8; RECORD_LENGTH], RecordRefusal> {
        let (line, auth) = match self {
            Answer::Permit(permission) | Answer::Password(permission) => {
                (permission.line, permission.auth)
            }
            Answer::StoppedByNargs { line }
            | Answer::StoppedByArgument { line }
            | Answer::StoppedByPath { line } => (*line, false),
            Answer::NoEntry | Answer::Refused(_) => (0, false),
        };
        let line = u16::try_from(line).expect("a table has at most 32,768 lines");
        packed(self.number(), line, minute, auth, age)
    }
}

/// Calls the library for a record.
fn packed(
    number: u8,
    line: u16,
    minute: u32,
    auth: bool,
    age: Option<i32>,
) -> Result<[u8; RECORD_LENGTH], RecordRefusal> {
    let mut record = [0; RECORD_LENGTH];
    // The array is our own.
    let result = unsafe {
        raw::supertab_record_write(
            number,
            line,
            minute,
            auth,
            age.is_some(),
            age.unwrap_or(0),
            record.as_mut_ptr(),
            record.len(),
        )
    };
    match result {
        0 => Ok(record),
        refused => Err(RecordRefusal::from_number(refused)),
    }
}
