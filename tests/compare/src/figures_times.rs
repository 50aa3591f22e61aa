//! The time of figures: the call beside the reference on the same records in one run.

use std::hint::black_box;
use std::time::Instant;

use rule_table::figures::Figures;
use supertab::raw::{FIGURES_LIMIT, RECORD_LENGTH};

use crate::bench::TRIES;
use crate::figures_call::{numbers, Fed};
use crate::figures_random::records;
use crate::random::Random;

/// The sizes of batches in which the records are given.
const SIZES: [usize; 3] = [1, 4_096, FIGURES_LIMIT];

/// Time as many records as are allowed in batches of several sizes; the number of sizes for which
/// the figures are wrong.
pub fn run() -> usize {
    let mut wrong = 0;
    let records = records(&mut Random::new(1), FIGURES_LIMIT);
    println!("figures    records    batch  call records/s  reference records/s  times faster");
    for size in SIZES {
        let called = call(&records, size).figures;
        let counted = numbers(&reference(&records, size));
        if called != counted {
            println!("batches of {size}: {called:?} instead of {counted:?}");
            wrong += 1;
            continue;
        }
        let mut best = (0.0, 0.0);
        for _ in 0..TRIES {
            best.0 = records_a_second(|| call(black_box(&records), size)).max(best.0);
            best.1 = records_a_second(|| reference(black_box(&records), size)).max(best.1);
        }
        println!(
            "figures {:10} {size:8} {:15.0} {:20.0} {:13.2}",
            FIGURES_LIMIT,
            best.0,
            best.1,
            best.0 / best.1
        );
    }
    wrong
}

fn records_a_second<T>(count: impl FnOnce() -> T) -> f64 {
    let begin = Instant::now();
    black_box(count());
    FIGURES_LIMIT as f64 / begin.elapsed().as_secs_f64()
}

/// The figures of the library for records in batches of a size.
fn call(records: &[u8], size: usize) -> Fed {
    let mut fed = Fed::new();
    for batch in records.chunks(size * RECORD_LENGTH) {
        black_box(fed.feed(batch));
    }
    fed
}

/// The figures of the reference for the same.
fn reference(records: &[u8], size: usize) -> Figures {
    let mut figures = Figures::default();
    for batch in records.chunks(size * RECORD_LENGTH) {
        let _ = black_box(figures.feed(batch));
    }
    figures
}
