//! Monthly figures: what is counted of many log records, batch by batch.

use crate::record::{self, Fields, RECORD_LENGTH};

/// The most records that are given to the same figures.
pub const LIMIT: u64 = 1_000_000;

const MINUTES_OF_AN_HOUR: usize = 60;
const HOURS_OF_A_DAY: usize = 24;
const DAYS_OF_A_WEEK: usize = 7;

/// One more than the largest answer number of a record.
const ANSWERS: usize = 24;

/// The figures of the records given so far.
#[derive(Clone, Debug, Default, PartialEq, Eq)]
pub struct Figures {
    /// How many records have each answer, at its number; no record has one from 6 to 10.
    pub answers: [u64; ANSWERS],
    /// How many records are of each weekday, Monday first.
    pub weekdays: [u64; DAYS_OF_A_WEEK],
    /// How many records are of each hour of the day.
    pub hours: [u64; HOURS_OF_A_DAY],
    /// The sum of the ages below zero, of records with answer 0 or 1.
    pub below_zero_sum: i64,
    /// The sum of the other ages of such records; "never" is none.
    pub age_sum: i64,
    /// How many these others are.
    pub age_count: u64,
    /// How many records were given that no reader takes.
    pub refused: u64,
    /// How many records were given.
    pub given: u64,
}

/// Why a batch, or a part of it, is not among the records given.
#[derive(Clone, Copy, Debug, PartialEq, Eq)]
pub enum Refusal {
    /// The bytes of the batch are no multiple of eight.
    NotWhole,
    /// So many records of the batch lie past the limit.
    PastLimit(u64),
}

impl Refusal {
    /// The number of the refusal, of a list of its own.
    pub fn number(self) -> u8 {
        match self {
            Refusal::NotWhole => 1,
            Refusal::PastLimit(_) => 2,
        }
    }
}

impl Figures {
    /// Give a batch of records; those that are refused leave the figures as they were.
    pub fn feed(&mut self, batch: &[u8]) -> Result<(), Refusal> {
        if !batch.len().is_multiple_of(RECORD_LENGTH) {
            return Err(Refusal::NotWhole);
        }
        let mut past_limit = 0;
        for record in batch.chunks_exact(RECORD_LENGTH) {
            if self.given < LIMIT {
                self.give(record);
            } else {
                past_limit += 1;
            }
        }
        if past_limit > 0 {
            return Err(Refusal::PastLimit(past_limit));
        }
        Ok(())
    }

    /// Give one record; one that no reader takes counts as refused only.
    fn give(&mut self, record: &[u8]) {
        self.given += 1;
        match record::read(record) {
            Ok(fields) => self.count(&fields),
            Err(_) => self.refused += 1,
        }
    }

    fn count(&mut self, fields: &Fields) {
        let hour_of_the_week = fields.minute as usize / MINUTES_OF_AN_HOUR;
        self.answers[usize::from(fields.number)] += 1;
        self.weekdays[hour_of_the_week / HOURS_OF_A_DAY] += 1;
        self.hours[hour_of_the_week % HOURS_OF_A_DAY] += 1;
        if fields.number == 0 || fields.number == 1 {
            match fields.age.map(i64::from) {
                None => {}
                Some(age) if age < 0 => self.below_zero_sum += age,
                Some(age) => {
                    self.age_sum += age;
                    self.age_count += 1;
                }
            }
        }
    }
}
