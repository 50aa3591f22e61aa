//! Batches of log records and figures to begin with: random ones, many at an edge.

use rule_table::figures::Figures;
use supertab::raw::{FIGURES_LENGTH, FIGURES_LIMIT, RECORD_LENGTH};

use crate::figures_call::{bounds, numbers, Feeding, RESERVED};
use crate::random::Random;
use crate::record_random::bytes;

/// A record, good or not: many are permits, whose ages are summed, and many at the edge of an hour.
pub fn record(random: &mut Random) -> Vec<u8> {
    let mut record = bytes(random);
    record.resize(RECORD_LENGTH, 0);
    if random.one_in(2) {
        record[0] = 0x20 | (random.byte() & 1);
    }
    if random.one_in(2) {
        let minute = 60 * random.below(169) + [0, 59][random.below(2)];
        let middle = (4 * minute) as u16 | u16::from(record[4] & 0b11);
        record[3..5].copy_from_slice(&middle.to_be_bytes());
    }
    record
}

/// So many records one behind the other.
pub fn records(random: &mut Random, count: usize) -> Vec<u8> {
    (0..count).flat_map(|_| record(random)).collect()
}

/// A batch: none, few or some records, and a few times a part of one.
pub fn batch(random: &mut Random) -> Vec<u8> {
    let count = match random.below(8) {
        0 => 0,
        1 | 2 => 1,
        3 => random.below(200),
        _ => random.below(12),
    };
    let mut batch = records(random, count);
    if random.one_in(8) {
        batch.extend(&record(random)[..1 + random.below(RECORD_LENGTH - 1)]);
    }
    batch
}

/// Figures to begin with: of no record, of a few, or of a few that were given so often that the
/// limit is reached or close.
pub fn start(random: &mut Random) -> [i64; FIGURES_LENGTH] {
    let count = [1, 2, 4, 5, 8, 10, 16, 20, 25][random.below(9)];
    let times = match random.below(4) {
        0 => 0,
        1 => 1,
        2 => random.below(FIGURES_LIMIT / count + 1),
        _ => FIGURES_LIMIT / count - random.below(3),
    };
    figures_of(&records(random, count), times)
}

/// The figures of a batch that was given so often, all within the limit.
pub fn figures_of(batch: &[u8], times: usize) -> [i64; FIGURES_LENGTH] {
    let mut figures = Figures::default();
    assert_eq!(figures.feed(batch), Ok(()));
    assert!(figures.given as usize * times <= FIGURES_LIMIT);
    numbers(&figures).map(|number| number * times as i64)
}

/// Any number, of any size.
pub fn any_number(random: &mut Random) -> i64 {
    let [high, low] = [(); 2].map(|()| i64::from(random.number()));
    ((high << 32) | low) >> random.below(64)
}

/// Change what a call is given: a number that is kept for later, a few times one that must be within
/// bounds, or how long an array is.
pub fn damage(random: &mut Random, feeding: &mut Feeding) {
    if random.one_in(4) {
        feeding.figures[RESERVED[random.below(RESERVED.len())]] = any_number(random);
    }
    match random.below(40) {
        0 => feeding.figures.truncate(random.below(FIGURES_LENGTH)),
        1 => feeding.refused.clear(),
        2 => {
            let index = random.below(FIGURES_LENGTH);
            if let Some(bounds) = bounds(index) {
                let past = [bounds.start() - 1, bounds.end() + 1, i64::MIN, i64::MAX];
                feeding.figures[index] = past[random.below(past.len())];
            }
        }
        _ => {}
    }
}
