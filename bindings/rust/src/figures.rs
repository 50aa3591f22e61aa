//! Figures of log records: how many of each answer, weekday and hour, and the sums of their ages.

use std::error::Error;
use std::fmt;

use crate::raw::{self, figure, FIGURES_LENGTH};

/// What is counted of the log records given so far, which are at most
/// [`FIGURES_LIMIT`](crate::FIGURES_LIMIT).
///
/// A record that [`read_record`](crate::read_record) refuses is counted by [`given`](Figures::given)
/// and [`refused`](Figures::refused) only. The counts of all answers and the refused ones make those
/// given; so do the weekdays and the refused ones, and the hours and the refused ones.
#[derive(Clone, Debug, PartialEq, Eq)]
pub struct Figures {
    numbers: [i64; FIGURES_LENGTH],
}

impl Figures {
    /// The figures of no records.
    ///
    /// # Panics
    ///
    /// Where the library that was linked does not give them.
    #[must_use]
    pub fn new() -> Figures {
        let mut numbers = [0; FIGURES_LENGTH];
        // The array is our own.
        let result = unsafe { raw::supertab_figures_new(numbers.as_mut_ptr(), numbers.len()) };
        assert_eq!(result, 0, "the library gave {result} for new figures");
        Figures { numbers }
    }

    /// Adds a batch of records of eight bytes, one behind the other; none is a batch too. How the
    /// records are divided into batches changes no figure.
    ///
    /// With [`FiguresRefusal::PastLimit`] the records of the batch before the limit count; with
    /// [`FiguresRefusal::NotWhole`] none does.
    ///
    /// # Panics
    ///
    /// Where the library that was linked gives a result that this crate does not know.
    pub fn feed(&mut self, batch: &[u8]) -> Result<(), FiguresRefusal> {
        let mut past_limit = [0];
        // The slice's pointer is valid for its length and not null, and the two arrays are our own.
        let result = unsafe {
            raw::supertab_figures_feed(
                self.numbers.as_mut_ptr(),
                self.numbers.len(),
                batch.as_ptr(),
                batch.len(),
                past_limit.as_mut_ptr(),
                past_limit.len(),
            )
        };
        match result {
            0 => Ok(()),
            1 => Err(FiguresRefusal::NotWhole),
            2 => Err(FiguresRefusal::PastLimit(count(past_limit[0]))),
            _ => panic!("the library refused a batch with {result}"),
        }
    }

    /// How many records have the answer with this number; 0 for one that no record has.
    #[must_use]
    pub fn answered(&self, number: u8) -> u64 {
        self.count_of(figure::ANSWERS, 24, number.into())
    }

    /// How many records are of this weekday, from 0 for Monday to 6 for Sunday; 0 for a later one.
    #[must_use]
    pub fn on_weekday(&self, day: usize) -> u64 {
        self.count_of(figure::WEEKDAYS, 7, day)
    }

    /// How many records are of this hour of the day, from 0 to 23; 0 for a later one.
    #[must_use]
    pub fn in_hour(&self, hour: usize) -> u64 {
        self.count_of(figure::HOURS, 24, hour)
    }

    /// The sum of the ages below zero of the records with answer 0 or 1.
    #[must_use]
    pub fn sum_below_zero(&self) -> i64 {
        self.numbers[figure::BELOW_ZERO_SUM]
    }

    /// The sum of the other ages of the records with answer 0 or 1; "never" is not among them. Their
    /// mean is this sum by [`age_count`](Figures::age_count).
    #[must_use]
    pub fn age_sum(&self) -> i64 {
        self.numbers[figure::AGE_SUM]
    }

    /// How many ages [`age_sum`](Figures::age_sum) is the sum of.
    #[must_use]
    pub fn age_count(&self) -> u64 {
        count(self.numbers[figure::AGE_COUNT])
    }

    /// How many records [`read_record`](crate::read_record) refuses.
    #[must_use]
    pub fn refused(&self) -> u64 {
        count(self.numbers[figure::REFUSED])
    }

    /// How many records were given, the refused ones too; those past the limit are not among them.
    #[must_use]
    pub fn given(&self) -> u64 {
        count(self.numbers[figure::GIVEN])
    }

    /// The count at this index of a group of so many, which begins at `first`; 0 behind the group.
    fn count_of(&self, first: usize, size: usize, index: usize) -> u64 {
        if index < size {
            count(self.numbers[first + index])
        } else {
            0
        }
    }
}

impl Default for Figures {
    /// The figures of no records.
    fn default() -> Figures {
        Figures::new()
    }
}

/// A count of the library.
fn count(number: i64) -> u64 {
    u64::try_from(number).expect("no count is below zero")
}

/// Why a batch, or records of one, are not among those given.
#[derive(Clone, Copy, Debug, PartialEq, Eq, Hash)]
pub enum FiguresRefusal {
    /// The bytes of the batch are no multiple of eight; nothing of it is looked at, also past the
    /// limit.
    NotWhole,
    /// So many records at the end of the batch lie past the limit; those before them count.
    PastLimit(u64),
}

impl FiguresRefusal {
    /// The number of the refusal, in a list of its own.
    #[must_use]
    pub fn number(self) -> u8 {
        match self {
            FiguresRefusal::NotWhole => 1,
            FiguresRefusal::PastLimit(_) => 2,
        }
    }

    /// One sentence: what is wrong, and what to do.
    #[must_use]
    pub fn words(self) -> &'static str {
        match self {
            FiguresRefusal::NotWhole => {
                "the batch ends within a record; feed whole records of eight bytes, and look for a \
                 cut in a log that leaves some over"
            }
            FiguresRefusal::PastLimit(_) => {
                "the figures take no more than 1,000,000 records; feed the later ones to new figures"
            }
        }
    }
}

impl fmt::Display for FiguresRefusal {
    fn fmt(&self, to: &mut fmt::Formatter) -> fmt::Result {
        write!(to, "refused {}", self.number())?;
        if let FiguresRefusal::PastLimit(records) = self {
            write!(to, " for {records} {}", if *records == 1 { "record" } else { "records" })?;
        }
        write!(to, ": {}", self.words())
    }
}

impl Error for FiguresRefusal {}
