//! Figures at their edges: every length, every number at its bounds, the limit, every first byte and
//! every minute of a record.

use supertab::raw::{figure, FIGURES_LENGTH, FIGURES_LIMIT, RECORD_LENGTH, UNUSABLE_FIGURES};

use crate::call::before;
use crate::counts::{result_is, seen, Counts};
use crate::figures_both::Both;
use crate::figures_call::{bounds, Feeding, Outcome, RESERVED};
use crate::figures_random::figures_of;

/// A permit at age 7 and one with password at age -7, both on Monday at 0:00, "no entry" on Sunday
/// at 23:59, and one of another version.
const RECORDS: [[u8; RECORD_LENGTH]; 4] = [
    [0x20, 0, 9, 0, 2, 0, 0, 7],
    [0x21, 0, 9, 0, 3, 0, 0, 7],
    [0x22, 0, 0, 0x9D, 0x7C, 0, 0, 7],
    [0x40, 0, 9, 0, 2, 0, 0, 7],
];

/// What the numbers behind the figures hold, and those for refused records.
const BEHIND: [i64; 3] = [-101, 102, i64::MIN];
const REFUSED: [i64; 2] = [-99, -98];

/// Check all edges.
pub fn run(counts: &mut Counts) {
    let mut both = Both::new();
    made(counts, &mut both);
    array_lengths(counts, &mut both);
    batch_lengths(counts, &mut both);
    limit(counts, &mut both);
    number_bounds(counts, &mut both);
    reserved(counts, &mut both);
    records(counts, &mut both);
    println!("edges: {}", seen(&both.results));
}

/// The four records so many times over, and a part of them.
fn batch(bytes: usize) -> Vec<u8> {
    RECORDS.concat().into_iter().cycle().take(bytes).collect()
}

/// Figures with so much room before the limit, and numbers behind them.
fn figures(room: usize) -> Vec<i64> {
    let mut figures = figures_of(&RECORDS.concat(), (FIGURES_LIMIT - room) / RECORDS.len());
    let left = (FIGURES_LIMIT - room) % RECORDS.len();
    let more = figures_of(&batch(left * RECORD_LENGTH), 1);
    figures.iter_mut().zip(more).for_each(|(number, more)| *number += more);
    [&figures[..], &BEHIND].concat()
}

/// Add a batch with both, where the result is known without the reference.
fn fed(both: &mut Both, figures: &[i64], batch: &[u8], wanted: u8) -> Result<Outcome, String> {
    let feeding = Feeding { figures: figures.to_vec(), batch, refused: REFUSED.to_vec() };
    let got = both.feed(&feeding)?;
    result_is(got.result, wanted)?;
    Ok(got)
}

/// Numbers for new figures, from none to some more than are needed.
fn made(counts: &mut Counts, both: &mut Both) {
    for length in 0..=FIGURES_LENGTH + 6 {
        let before: Vec<i64> = (0..length as i64).map(|index| -99 - index).collect();
        let wanted = if length < FIGURES_LENGTH { UNUSABLE_FIGURES } else { 0 };
        let result = both.make(&before).and_then(|got| result_is(got.result, wanted));
        counts.count(|| format!("{length} numbers for new figures"), result);
    }
}

/// Every length of the two arrays of numbers; where one is too short, 255 comes first.
fn array_lengths(counts: &mut Counts, both: &mut Both) {
    for (room, bytes, result) in [(5, 0, 0), (5, 8, 0), (5, 13, 1), (0, 8, 2), (0, 3, 1)] {
        let batch = batch(bytes);
        let whole = figures(room);
        for (length, refused) in (0..=whole.len()).flat_map(|length| [0, 1, 2].map(|n| (length, n)))
        {
            let feeding = Feeding {
                figures: whole[..length].to_vec(),
                batch: &batch,
                refused: REFUSED[..refused].to_vec(),
            };
            let usable = length >= FIGURES_LENGTH && refused > 0;
            let wanted = if usable { result } else { UNUSABLE_FIGURES };
            let result = both.feed(&feeding).and_then(|got| result_is(got.result, wanted));
            let from = || format!("{bytes} bytes for {length} numbers and {refused} for refused");
            counts.count(from, result);
        }
    }
}

/// Every length of a batch to some records, before the limit and behind it.
fn batch_lengths(counts: &mut Counts, both: &mut Both) {
    for room in [FIGURES_LIMIT, 1_000, 2, 1, 0] {
        for bytes in 0..=5 * RECORD_LENGTH {
            let wanted = match (bytes % RECORD_LENGTH, bytes / RECORD_LENGTH > room) {
                (0, false) => 0,
                (0, true) => 2,
                _ => 1,
            };
            for batch in [batch(bytes), before(bytes)] {
                let result = fed(both, &figures(room), &batch, wanted).map(|_| ());
                counts.count(|| format!("{bytes} bytes where {room} have room"), result);
            }
        }
    }
}

/// Batches up to the limit and past it, by so many records; the earlier ones count.
fn limit(counts: &mut Counts, both: &mut Both) {
    for (room, records) in (0..=9).flat_map(|room| (0..=12).map(move |records| (room, records))) {
        let wanted = if records > room { 2 } else { 0 };
        let checked = fed(both, &figures(room), &batch(records * RECORD_LENGTH), wanted);
        let result = checked.and_then(|got| {
            let past = records.saturating_sub(room);
            let given = FIGURES_LIMIT - room + records - past;
            let told = (got.refused[0], got.figures[figure::GIVEN]);
            if told == (past as i64, given as i64) {
                Ok(())
            } else {
                Err(format!("{told:?} past the limit and given instead of {:?}", (past, given)))
            }
        });
        counts.count(|| format!("{records} records where {room} have room"), result);
    }
}

/// Every count and sum at its bounds, which are figures, and past them, which are none.
fn number_bounds(counts: &mut Counts, both: &mut Both) {
    for (index, bounds) in (0..FIGURES_LENGTH).filter_map(|index| Some((index, bounds(index)?))) {
        let (least, most) = bounds.into_inner();
        for (value, bytes, wanted) in [
            (least, 0, 0),
            (most, 0, 0),
            (least, 5, 1),
            (most, 5, 1),
            (least - 1, 0, UNUSABLE_FIGURES),
            (most + 1, 0, UNUSABLE_FIGURES),
            (least - 1, 5, UNUSABLE_FIGURES),
            (most + 1, 5, UNUSABLE_FIGURES),
            (least - 1, 16, UNUSABLE_FIGURES),
            (most + 1, 16, UNUSABLE_FIGURES),
            (i64::MIN, 8, UNUSABLE_FIGURES),
            (i64::MAX, 8, UNUSABLE_FIGURES),
            // The low 32 bits alone would be a good number.
            (1 << 32, 8, UNUSABLE_FIGURES),
            (-1 << 32, 8, UNUSABLE_FIGURES),
        ] {
            // A sum has more than 32 bits.
            if wanted == UNUSABLE_FIGURES && (least..=most).contains(&value) {
                continue;
            }
            for room in [FIGURES_LIMIT, 3, 0] {
                let mut figures = figures(room);
                figures[index] = value;
                let result = fed(both, &figures, &batch(bytes), wanted).map(|_| ());
                counts.count(|| format!("{value} at {index}, and {bytes} bytes"), result);
            }
        }
    }
}

/// Numbers that are kept for later hold anything, and none of it is looked at.
fn reserved(counts: &mut Counts, both: &mut Both) {
    for (index, value) in RESERVED
        .into_iter()
        .flat_map(|index| [1, -1, i64::MIN, i64::MAX].map(|value| (index, value)))
    {
        for (room, bytes, answers, wanted) in [
            (3, 0, 0, 0),
            (3, 8, 0, 0),
            (3, 24, 0, 0),
            (3, 32, 0, 2),
            (0, 8, 0, 2),
            (3, 5, 0, 1),
            (3, 8, -1, UNUSABLE_FIGURES),
        ] {
            let mut figures = figures(room);
            figures[index] = value;
            figures[figure::ANSWERS] += answers * FIGURES_LIMIT as i64;
            let checked = fed(both, &figures, &batch(bytes), wanted);
            let result = checked.and_then(|got| {
                let left = if wanted == 0 || wanted == 2 { 0 } else { value };
                if got.figures[index] == left {
                    Ok(())
                } else {
                    Err(format!("{} at {index} instead of {left}", got.figures[index]))
                }
            });
            counts.count(|| format!("{value} at {index}, and {bytes} bytes"), result);
        }
    }
}

/// Every first byte, which is version and number, and every minute of 14 bits with auth and sign, at
/// an age and at none.
fn records(counts: &mut Counts, both: &mut Both) {
    let none = vec![0; FIGURES_LENGTH];
    let mut check = |record: [u8; RECORD_LENGTH]| {
        let result = fed(both, &none, &record, 0).map(|_| ());
        counts.count(|| format!("the record {record:02x?}"), result);
    };
    for (first, sign) in (0..=255).flat_map(|first| [0, 1].map(|sign| (first, sign))) {
        check([first, 0, 9, 0, sign, 1, 2, 3]);
    }
    for [high, low] in (0..=u16::MAX).map(u16::to_be_bytes) {
        check([0x21, 0, 9, high, low, 0, 0, 0]);
        check([0x20, 0xFF, 0xFF, high, low, 0xFF, 0xFF, 0xFF]);
    }
}
