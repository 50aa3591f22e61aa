//! Batches of log records, which request (x) is about: the call and the reference beside each other
//! at the edges, on a million records divided in several ways, and on random series of batches.

use rule_table::figures::{Figures, LIMIT};
use supertab::raw::{figure, FIGURES_LENGTH, FIGURES_LIMIT, RECORD_LENGTH};

use crate::counts::{seen, Counts};
use crate::figures_both::Both;
use crate::figures_call::{bounds, laws, numbers, Fed, Feeding};
use crate::figures_edges;
use crate::figures_random::{any_number, batch, damage, records, start};
use crate::random::Random;

/// From so many rounds on every result must have been seen.
const ENOUGH: u64 = 1_000;

/// So many records are given past the limit.
const MORE: usize = 6;

/// The sizes of batches in which the same records are given.
const SIZES: [usize; 5] = [1, 7, 4_096, FIGURES_LIMIT, FIGURES_LIMIT + MORE];

/// How many checks passed and failed; failures are printed, and a random one with the seed that
/// shows it.
pub fn run(rounds: u64, seed: u64) -> (u64, u64) {
    let mut counts = Counts::default();
    figures_edges::run(&mut counts);
    million(&mut counts, seed);
    let mut both = Both::new();
    for round in 0..rounds {
        let own_seed = seed.wrapping_add(round);
        let from = || format!("compare --batches 1 {own_seed}");
        series(&mut both, &mut Random::new(own_seed), |result| counts.count(from, result));
    }
    println!("{rounds} series: {}", seen(&both.results));
    if rounds >= ENOUGH {
        counts.count(|| "results".to_string(), both.all_seen());
    }
    (counts.passed, counts.failed)
}

/// Give random batches to both, one after the other, and all that were whole once more as one batch,
/// which must come to the same.
fn series(both: &mut Both, random: &mut Random, mut count: impl FnMut(Result<(), String>)) {
    let start = start(random);
    let behind: Vec<i64> = (0..random.below(4)).map(|_| any_number(random)).collect();
    let mut figures = [&start[..], &behind].concat();
    let mut whole = Vec::new();
    for _ in 0..1 + random.below(6) {
        let batch = batch(random);
        let refused = (0..1 + random.below(3)).map(|_| any_number(random)).collect();
        let mut feeding = Feeding { figures: figures.clone(), batch: &batch, refused };
        damage(random, &mut feeding);
        match both.feed(&feeding) {
            Ok(got) => {
                count(Ok(()));
                if got.result == 0 || got.result == 2 {
                    figures = got.figures;
                    whole.extend(batch);
                }
            }
            Err(wrong) => return count(Err(wrong)),
        }
    }
    let at_once = Feeding { figures: start.to_vec(), batch: &whole, refused: vec![-99] };
    count(both.feed(&at_once).and_then(|got| {
        if got.figures == figures[..FIGURES_LENGTH] {
            Ok(())
        } else {
            Err(format!("at once {:?}, in batches {figures:?}", got.figures))
        }
    }));
}

/// As many records as are allowed, and some more, in batches of several sizes: all come to the
/// figures of the reference.
fn million(counts: &mut Counts, seed: u64) {
    let records = records(&mut Random::new(seed), FIGURES_LIMIT + MORE);
    let (allowed, more) = records.split_at(FIGURES_LIMIT * RECORD_LENGTH);
    let mut reference = Figures::default();
    counts.count(
        || "the reference".to_string(),
        match (reference.feed(allowed), reference.given) {
            (Ok(()), LIMIT) => Ok(()),
            other => Err(format!("{other:?} for {LIMIT} records")),
        },
    );
    let wanted = numbers(&reference);
    let never = (0..FIGURES_LENGTH).find(|index| bounds(*index).is_some() && wanted[*index] == 0);
    counts.count(
        || "random records".to_string(),
        never.map_or(Ok(()), |index| Err(format!("none of them counts at {index}"))),
    );
    for size in SIZES {
        for given in [allowed, &records] {
            let result = divided(given, size, &wanted, more);
            let number = given.len() / RECORD_LENGTH;
            counts.count(|| format!("{number} records in batches of {size}"), result);
        }
    }
    let refused = wanted[figure::REFUSED];
    println!("{FIGURES_LIMIT} records, {refused} of them refused, in batches of {SIZES:?}");
}

/// Give records in batches of a size and then some more; what each batch gives is known.
fn divided(records: &[u8], size: usize, wanted: &[i64], more: &[u8]) -> Result<(), String> {
    let mut fed = Fed::new();
    let mut given = 0;
    for batch in records.chunks(size * RECORD_LENGTH).chain([more, &[]]) {
        let before = given;
        given += batch.len() / RECORD_LENGTH;
        let past = given.saturating_sub(FIGURES_LIMIT.max(before)) as i64;
        let told = (if past > 0 { 2 } else { 0 }, past);
        let got = fed.feed(batch);
        if got != told {
            return Err(format!("{got:?} instead of {told:?} behind {before} records"));
        }
    }
    laws(&fed.figures)?;
    if fed.figures != wanted {
        return Err(format!("{:?} instead of {wanted:?}", fed.figures));
    }
    Ok(())
}
