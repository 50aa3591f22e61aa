//! One call of a figures function of the static library, what the reference says it must give, and
//! the difference.

use std::array::from_fn;
use std::ops::{Range, RangeInclusive};

use rule_table::figures::{Figures, Refusal};
use rule_table::record::LARGEST_AGE;
use supertab::raw::{self, figure, FIGURES_LENGTH, FIGURES_LIMIT, UNUSABLE_FIGURES};

use crate::guards::{guarded, twice, unguarded, GUARDS, GUARD_BYTE, GUARD_NUMBER};
use crate::lent::Lent;

/// The numbers that are kept for later: they are not looked at, and 0 afterwards.
pub const RESERVED: [usize; 4] = [31, 61, 62, 63];

/// The counts that make the number given, each kind together with the refused records.
const KINDS: [(&str, Range<usize>); 3] =
    [("answers", 0..24), ("weekdays", 24..31), ("hours", 32..56)];

/// The largest sum of ages.
const LARGEST_SUM: i64 = LARGEST_AGE as i64 * FIGURES_LIMIT as i64;

/// What a number of the figures may be; nothing is told of those that are no count and no sum.
pub fn bounds(index: usize) -> Option<RangeInclusive<i64>> {
    match index {
        6..=10 => None,
        _ if RESERVED.contains(&index) => None,
        figure::BELOW_ZERO_SUM => Some(-LARGEST_SUM..=0),
        figure::AGE_SUM => Some(0..=LARGEST_SUM),
        _ => Some(0..=FIGURES_LIMIT as i64),
    }
}

/// Whether each kind of counts and the refused records make the number given.
pub fn laws(numbers: &[i64]) -> Result<(), String> {
    let (refused, given) = (numbers[figure::REFUSED], numbers[figure::GIVEN]);
    for (name, indices) in KINDS {
        let counted: i64 = numbers[indices].iter().sum();
        if counted + refused != given {
            return Err(format!("{counted} by {name} and {refused} refused of {given} given"));
        }
    }
    Ok(())
}

/// The figures as the numbers that the header says.
pub fn numbers(figures: &Figures) -> [i64; FIGURES_LENGTH] {
    let mut numbers = [0; FIGURES_LENGTH];
    let mut put = |index: usize, counts: &[u64]| {
        for (place, count) in counts.iter().enumerate() {
            numbers[index + place] = *count as i64;
        }
    };
    put(figure::ANSWERS, &figures.answers);
    put(figure::WEEKDAYS, &figures.weekdays);
    put(figure::HOURS, &figures.hours);
    put(figure::AGE_COUNT, &[figures.age_count, figures.refused, figures.given]);
    numbers[figure::BELOW_ZERO_SUM] = figures.below_zero_sum;
    numbers[figure::AGE_SUM] = figures.age_sum;
    numbers
}

/// The figures that numbers tell, if they are within their bounds.
fn told(numbers: &[i64]) -> Option<Figures> {
    let good = |index: usize| bounds(index).is_none_or(|bounds| bounds.contains(&numbers[index]));
    if numbers.len() < FIGURES_LENGTH || !(0..FIGURES_LENGTH).all(good) {
        return None;
    }
    let count = |index: usize| numbers[index] as u64;
    Some(Figures {
        answers: from_fn(|number| count(figure::ANSWERS + number)),
        weekdays: from_fn(|weekday| count(figure::WEEKDAYS + weekday)),
        hours: from_fn(|hour| count(figure::HOURS + hour)),
        below_zero_sum: numbers[figure::BELOW_ZERO_SUM],
        age_sum: numbers[figure::AGE_SUM],
        age_count: count(figure::AGE_COUNT),
        refused: count(figure::REFUSED),
        given: count(figure::GIVEN),
    })
}

/// What a call that adds a batch is given.
#[derive(Clone, Debug)]
pub struct Feeding<'a> {
    pub figures: Vec<i64>,
    pub batch: &'a [u8],
    /// What the numbers for refused records hold beforehand.
    pub refused: Vec<i64>,
}

/// What a call gives: its result, and what it leaves in lent memory.
#[derive(Clone, Debug, PartialEq, Eq)]
pub struct Outcome {
    pub result: u8,
    pub figures: Vec<i64>,
    /// No numbers where figures are made.
    pub refused: Vec<i64>,
}

impl Feeding<'_> {
    /// What the reference says the call must give.
    pub fn expected(&self) -> Outcome {
        let mut outcome = Outcome {
            result: UNUSABLE_FIGURES,
            figures: self.figures.clone(),
            refused: self.refused.clone(),
        };
        let Some(mut figures) = told(&self.figures).filter(|_| !self.refused.is_empty()) else {
            return outcome;
        };
        let fed = figures.feed(self.batch);
        outcome.result = fed.map_or_else(Refusal::number, |()| 0);
        let refused = match fed {
            Ok(()) => 0,
            Err(Refusal::PastLimit(records)) => records as i64,
            Err(Refusal::NotWhole) => return outcome,
        };
        outcome.figures[..FIGURES_LENGTH].copy_from_slice(&numbers(&figures));
        outcome.refused[0] = refused;
        outcome
    }
}

/// What a call that makes figures must give for numbers that hold this beforehand.
pub fn expected_new(before: &[i64]) -> Outcome {
    let mut figures = before.to_vec();
    let result = match figures.get_mut(..FIGURES_LENGTH) {
        Some(first) => {
            first.fill(0);
            0
        }
        None => UNUSABLE_FIGURES,
    };
    Outcome { result, figures, refused: Vec::new() }
}

/// How an outcome differs from what it must be, if it does.
pub fn difference(got: &Outcome, wanted: &Outcome) -> Option<String> {
    if got.result != wanted.result {
        return Some(format!("the result {} instead of {}", got.result, wanted.result));
    }
    if got.refused != wanted.refused {
        return Some(format!("{:?} past the limit instead of {:?}", got.refused, wanted.refused));
    }
    let places = got.figures.iter().zip(&wanted.figures).enumerate();
    let wrong: Vec<String> = places
        .filter(|(_, (got, wanted))| got != wanted)
        .map(|(index, (got, wanted))| format!("{got} instead of {wanted} at {index}"))
        .collect();
    (!wrong.is_empty()).then(|| format!("the figures {}", wrong.join(", ")))
}

/// The memory that calls are given.
pub struct Caller {
    figures: Lent,
    batch: Lent,
    refused: Lent,
}

impl Caller {
    pub fn new() -> Caller {
        Caller { figures: Lent::new(1), batch: Lent::new(1), refused: Lent::new(1) }
    }

    /// Make figures; what a call does beside the memory that it was lent is an error.
    pub fn make(&mut self, before: &[i64]) -> Result<Outcome, String> {
        twice(|behind| self.make_between(before, behind), difference)
    }

    /// Add a batch; what a call does beside the memory that it was lent is an error.
    pub fn feed(&mut self, feeding: &Feeding) -> Result<Outcome, String> {
        twice(|behind| self.feed_between(feeding, behind), difference)
    }

    fn make_between(&mut self, before: &[i64], behind: usize) -> Result<Outcome, String> {
        let figures = guarded(before, GUARD_NUMBER, behind);
        // The place is that of so many numbers behind the guards.
        let result = unsafe {
            let place = self.figures.put_numbers(&figures).add(GUARDS);
            raw::supertab_figures_new(place, before.len())
        };
        let figures = unguarded(self.figures.last_numbers(figures.len()), GUARD_NUMBER, behind)?;
        Ok(Outcome { result, figures, refused: Vec::new() })
    }

    fn feed_between(&mut self, feeding: &Feeding, behind: usize) -> Result<Outcome, String> {
        let figures = guarded(&feeding.figures, GUARD_NUMBER, behind);
        let batch = guarded(feeding.batch, GUARD_BYTE, behind);
        let refused = guarded(&feeding.refused, GUARD_NUMBER, behind);
        // Each place is that of so many bytes or numbers behind the guards.
        let result = unsafe {
            raw::supertab_figures_feed(
                self.figures.put_numbers(&figures).add(GUARDS),
                feeding.figures.len(),
                self.batch.put(&batch).add(GUARDS),
                feeding.batch.len(),
                self.refused.put_numbers(&refused).add(GUARDS),
                feeding.refused.len(),
            )
        };
        if self.batch.last(batch.len()) != batch {
            return Err("the batch was changed".to_string());
        }
        let figures = unguarded(self.figures.last_numbers(figures.len()), GUARD_NUMBER, behind)?;
        let refused = unguarded(self.refused.last_numbers(refused.len()), GUARD_NUMBER, behind)?;
        Ok(Outcome { result, figures, refused })
    }

    /// The answer line of a case: what the call gives for each batch, and the figures of all.
    pub fn answered(&mut self, batches: &[Vec<u8>]) -> Result<String, String> {
        let mut figures = self.make(&[-99; FIGURES_LENGTH])?.figures;
        let mut results = Vec::new();
        for batch in batches {
            let outcome = self.feed(&Feeding { figures, batch, refused: vec![-99] })?;
            results.push(printed_result(&outcome));
            figures = outcome.figures;
        }
        Ok(format!("{} | {}", results.join(" "), printed(&figures)))
    }
}

/// What is told of one batch.
fn printed_result(outcome: &Outcome) -> String {
    match (outcome.result, outcome.refused[0]) {
        (0, 0) => "ok".to_string(),
        (1, -99) => "1".to_string(),
        (2, records) => format!("2:{records}"),
        // The header knows no others.
        (result, records) => format!("{result}?{records}"),
    }
}

/// What is told of the figures, and behind them each number that is not the 0 of the header.
fn printed(numbers: &[i64]) -> String {
    let [answers, weekdays, hours] = KINDS.map(|(_, indices)| indices);
    let known = answers.filter(|number| bounds(*number).is_some());
    let rest = &numbers[figure::BELOW_ZERO_SUM..=figure::GIVEN];
    let kinds = [
        joined(known.map(|number| numbers[number]), ","),
        joined(weekdays.map(|index| numbers[index]), ","),
        joined(hours.map(|index| numbers[index]), ","),
        joined(rest.iter().copied(), "/"),
    ];
    let zeros = (0..FIGURES_LENGTH).filter(|index| bounds(*index).is_none());
    let others: String = zeros
        .filter(|index| numbers[*index] != 0)
        .map(|index| format!(" {index}?{}", numbers[index]))
        .collect();
    kinds.join("/") + &others
}

fn joined(numbers: impl Iterator<Item = i64>, between: &str) -> String {
    let words: Vec<String> = numbers.map(|number| number.to_string()).collect();
    words.join(between)
}

/// Figures of the library in memory that stays where it is, for many calls.
pub struct Fed {
    pub figures: Vec<i64>,
    refused: [i64; 1],
}

impl Fed {
    pub fn new() -> Fed {
        let mut figures = vec![-99; FIGURES_LENGTH];
        // The numbers are our own.
        let result = unsafe { raw::supertab_figures_new(figures.as_mut_ptr(), figures.len()) };
        assert_eq!(result, 0, "64 numbers are enough for figures");
        Fed { figures, refused: [-99] }
    }

    /// Add a batch: the result, and how many records lie past the limit.
    pub fn feed(&mut self, batch: &[u8]) -> (u8, i64) {
        // Every slice's pointer is valid for its length and not null; two of them are our own.
        let result = unsafe {
            raw::supertab_figures_feed(
                self.figures.as_mut_ptr(),
                self.figures.len(),
                batch.as_ptr(),
                batch.len(),
                self.refused.as_mut_ptr(),
                self.refused.len(),
            )
        };
        (result, self.refused[0])
    }
}

#[cfg(test)]
mod tests {
    use super::*;

    /// Numbers that are all different, and 0 where the header says so.
    fn apart() -> Vec<i64> {
        let value = |index: usize| match index {
            figure::BELOW_ZERO_SUM => -156,
            index => 100 + index as i64,
        };
        (0..FIGURES_LENGTH).map(|index| bounds(index).map_or(0, |_| value(index))).collect()
    }

    #[test]
    fn figures_and_numbers() {
        let figures = told(&apart()).expect("all of them are within their bounds");
        assert_eq!(numbers(&figures)[..], apart());
        assert_eq!((figures.answers[23], figures.weekdays[6], figures.hours[23]), (123, 130, 155));
        assert_eq!((figures.below_zero_sum, figures.age_sum), (-156, 157));
        assert_eq!((figures.age_count, figures.refused, figures.given), (158, 159, 160));
    }

    #[test]
    fn what_is_printed() {
        let mut numbers = apart();
        let good = "100,101,102,103,104,105,111,112,113,114,115,116,117,118,119,120,121,122,123/\
            124,125,126,127,128,129,130/\
            132,133,134,135,136,137,138,139,140,141,142,143,144,145,146,147,148,149,150,151,152,\
            153,154,155/-156/157/158/159/160";
        assert_eq!(printed(&numbers), good);
        numbers[8] = 5;
        numbers[63] = -1;
        assert_eq!(printed(&numbers), format!("{good} 8?5 63?-1"));
        for (result, refused, word) in [
            (0, 0, "ok"),
            (1, -99, "1"),
            (2, 7, "2:7"),
            (0, 1, "0?1"),
            (1, 0, "1?0"),
            (255, 0, "255?0"),
        ] {
            let outcome = Outcome { result, figures: Vec::new(), refused: vec![refused] };
            assert_eq!(printed_result(&outcome), word);
        }
    }

    #[test]
    fn laws_of_counts() {
        let mut numbers = [0; FIGURES_LENGTH];
        assert_eq!(laws(&numbers), Ok(()));
        for index in [figure::ANSWERS + 23, figure::WEEKDAYS + 6, figure::HOURS + 23] {
            numbers[index] = 3;
        }
        numbers[figure::REFUSED] = 4;
        numbers[figure::GIVEN] = 7;
        assert_eq!(laws(&numbers), Ok(()));
        for index in [0, 23, 24, 30, 32, 55, figure::REFUSED, figure::GIVEN] {
            let mut wrong = numbers;
            wrong[index] += 1;
            assert!(laws(&wrong).is_err(), "at {index}");
        }
    }
}
