//! One call of a record function of the static library, what the reference says it must give, and
//! the difference.

use rule_table::record::{self, Fields};
use supertab::raw::{self, field, FIELDS_LENGTH, RECORD_LENGTH, SMALL_FIELDS};

use crate::call::before;
use crate::guards::{guarded, twice, unguarded, GUARDS, GUARD_BYTE, GUARD_NUMBER};
use crate::lent::Lent;

/// What a call that writes a record is given.
#[derive(Clone, Debug, PartialEq, Eq)]
pub struct Writing {
    pub number: u8,
    pub line: u16,
    pub minute: u32,
    pub auth: bool,
    pub authenticated: bool,
    pub age: i32,
    /// What the bytes hold beforehand.
    pub record: Vec<u8>,
}

/// What a call that reads a record is given.
#[derive(Clone, Debug, PartialEq, Eq)]
pub struct Reading {
    pub record: Vec<u8>,
    /// What the numbers hold beforehand.
    pub fields: Vec<i64>,
}

/// What a call gives: its result, and what it leaves in lent memory.
#[derive(Clone, Debug, PartialEq, Eq)]
pub struct Outcome {
    pub result: u8,
    pub record: Vec<u8>,
    /// No numbers where a record is written.
    pub fields: Vec<i64>,
}

impl Writing {
    /// Fields to be written into eight bytes.
    pub fn of_fields(fields: &Fields) -> Writing {
        Writing {
            number: fields.number,
            line: fields.line,
            minute: fields.minute,
            auth: fields.auth,
            authenticated: fields.age.is_some(),
            age: fields.age.unwrap_or(0),
            record: before(RECORD_LENGTH),
        }
    }

    /// What the reference says the call must give.
    pub fn expected(&self) -> Outcome {
        let fields = Fields {
            number: self.number,
            line: self.line,
            minute: self.minute,
            auth: self.auth,
            age: self.authenticated.then_some(self.age),
        };
        let mut record = self.record.clone();
        let result = match record::write(&fields, &mut record) {
            Ok(()) => 0,
            Err(refusal) => refusal.number(),
        };
        Outcome { result, record, fields: Vec::new() }
    }
}

impl Reading {
    /// Bytes to be read into just enough numbers.
    pub fn of_bytes(bytes: &[u8]) -> Reading {
        Reading { record: bytes.to_vec(), fields: vec![-99; FIELDS_LENGTH] }
    }

    /// What the reference says the call must give.
    pub fn expected(&self) -> Outcome {
        let mut fields = self.fields.clone();
        let result = if fields.len() < FIELDS_LENGTH {
            SMALL_FIELDS
        } else {
            match record::read(&self.record) {
                Ok(told) => {
                    fields[..FIELDS_LENGTH].copy_from_slice(&numbers(&told));
                    0
                }
                Err(refusal) => refusal.number(),
            }
        };
        Outcome { result, record: self.record.clone(), fields }
    }
}

/// The fields as the numbers that the header says.
fn numbers(told: &Fields) -> [i64; FIELDS_LENGTH] {
    let mut numbers = [0; FIELDS_LENGTH];
    numbers[field::NUMBER] = i64::from(told.number);
    numbers[field::LINE] = i64::from(told.line);
    numbers[field::MINUTE] = i64::from(told.minute);
    numbers[field::AUTH] = i64::from(told.auth);
    if let Some(age) = told.age {
        numbers[field::AUTHENTICATED] = 1;
        numbers[field::AGE] = i64::from(age);
    }
    numbers
}

impl Outcome {
    /// The answer line of a case that writes.
    pub fn printed_record(&self) -> String {
        match self.result {
            0 => self.record.iter().map(|byte| format!("{byte:02x}")).collect(),
            refusal => format!("refused {refusal}"),
        }
    }

    /// The answer line of a case that reads.
    pub fn printed_fields(&self) -> String {
        if self.result != 0 {
            return format!("refused {}", self.result);
        }
        let told = |index: usize| self.fields[index];
        let age = match (told(field::AUTHENTICATED), told(field::AGE)) {
            (0, 0) => "never".to_string(),
            (1, age) => age.to_string(),
            // The header knows no others.
            (other, age) => format!("{other}?{age}"),
        };
        let [number, line, minute, auth] =
            [field::NUMBER, field::LINE, field::MINUTE, field::AUTH].map(told);
        format!("{number} {line} {minute} {auth} {age}")
    }
}

/// The memory that calls are given.
pub struct Caller {
    record: Lent,
    fields: Lent,
}

impl Caller {
    pub fn new() -> Caller {
        Caller { record: Lent::new(1), fields: Lent::new(1) }
    }

    /// Write a record; what a call does beside the memory that it was lent is an error.
    pub fn write(&mut self, writing: &Writing) -> Result<Outcome, String> {
        twice(|behind| self.write_between(writing, behind), difference)
    }

    /// Read a record; what a call does beside the memory that it was lent is an error.
    pub fn read(&mut self, reading: &Reading) -> Result<Outcome, String> {
        twice(|behind| self.read_between(reading, behind), difference)
    }

    fn write_between(&mut self, writing: &Writing, behind: usize) -> Result<Outcome, String> {
        let record = guarded(&writing.record, GUARD_BYTE, behind);
        // The place is that of so many bytes behind the guards.
        let result = unsafe {
            raw::supertab_record_write(
                writing.number,
                writing.line,
                writing.minute,
                writing.auth,
                writing.authenticated,
                writing.age,
                self.record.put(&record).add(GUARDS),
                writing.record.len(),
            )
        };
        let record = unguarded(self.record.last(record.len()), GUARD_BYTE, behind)?;
        Ok(Outcome { result, record, fields: Vec::new() })
    }

    fn read_between(&mut self, reading: &Reading, behind: usize) -> Result<Outcome, String> {
        let record = guarded(&reading.record, GUARD_BYTE, behind);
        let fields = guarded(&reading.fields, GUARD_NUMBER, behind);
        // Each place is that of so many bytes or numbers behind the guards.
        let result = unsafe {
            raw::supertab_record_read(
                self.record.put(&record).add(GUARDS),
                reading.record.len(),
                self.fields.put_numbers(&fields).add(GUARDS),
                reading.fields.len(),
            )
        };
        let record = unguarded(self.record.last(record.len()), GUARD_BYTE, behind)?;
        let fields = unguarded(self.fields.last_numbers(fields.len()), GUARD_NUMBER, behind)?;
        Ok(Outcome { result, record, fields })
    }
}

/// How an outcome differs from what it must be, if it does.
pub fn difference(got: &Outcome, wanted: &Outcome) -> Option<String> {
    if got.result != wanted.result {
        return Some(format!("the result {} instead of {}", got.result, wanted.result));
    }
    if got.record != wanted.record {
        return Some(format!("the bytes {:02x?} instead of {:02x?}", got.record, wanted.record));
    }
    if got.fields != wanted.fields {
        return Some(format!("the numbers {:?} instead of {:?}", got.fields, wanted.fields));
    }
    None
}

#[cfg(test)]
mod tests {
    use super::*;

    #[test]
    fn fields_that_the_header_does_not_know() {
        let read = |authenticated: i64, age: i64| Outcome {
            result: 0,
            record: Vec::new(),
            fields: vec![0, 3, 1, 1, authenticated, age],
        };
        assert_eq!(read(0, 0).printed_fields(), "0 3 1 1 never");
        assert_eq!(read(1, 0).printed_fields(), "0 3 1 1 0");
        assert_eq!(read(1, -5).printed_fields(), "0 3 1 1 -5");
        assert_eq!(read(0, 5).printed_fields(), "0 3 1 1 0?5");
    }
}
