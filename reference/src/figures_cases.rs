//! Cases of monthly figures: batches of log records on one line, and what they come to.

use crate::cases::{read_list, read_unsigned};
use crate::figures::{Figures, Refusal};
use crate::hexadecimal;

/// The most bytes of a batch that a case may ask for, so that a slip in it does not take all memory.
const MOST_BYTES: usize = 1 << 30;

/// The line, without its newline, printed for one line of batches.
pub fn reply(case_line: &[u8]) -> Vec<u8> {
    let Some(batches) = read_batches(case_line) else {
        return b"bad case".to_vec();
    };
    let mut figures = Figures::default();
    let results: Vec<String> =
        batches.iter().map(|batch| printed_result(figures.feed(batch))).collect();
    format!("{} | {}", results.join(" "), printed(&figures)).into_bytes()
}

/// Read a line of batches; one not of the form gives nothing.
pub fn read_batches(line: &[u8]) -> Option<Vec<Vec<u8>>> {
    read_list(line, read_batch)
}

/// Read hexadecimal digits, or `HEX*N`, which is these bytes so many times over.
fn read_batch(text: &[u8]) -> Option<Vec<u8>> {
    let Some(star) = text.iter().position(|byte| *byte == b'*') else {
        return hexadecimal::read(text);
    };
    let bytes = hexadecimal::read(&text[..star])?;
    let times = usize::try_from(read_unsigned(&text[star + 1..])?).ok()?;
    if bytes.len().checked_mul(times)? > MOST_BYTES {
        return None;
    }
    Some(bytes.repeat(times))
}

/// What is told of one batch.
fn printed_result(result: Result<(), Refusal>) -> String {
    match result {
        Ok(()) => "ok".to_string(),
        Err(refusal @ Refusal::NotWhole) => refusal.number().to_string(),
        Err(refusal @ Refusal::PastLimit(records)) => format!("{}:{records}", refusal.number()),
    }
}

/// What is told of the figures: all counts of a kind joined by commas, the kinds by slashes.
fn printed(figures: &Figures) -> String {
    let known = [&figures.answers[..=5], &figures.answers[11..]].concat();
    let counts = [&known[..], &figures.weekdays[..], &figures.hours[..]].map(joined);
    let Figures { below_zero_sum, age_sum, age_count, refused, given, .. } = figures;
    format!("{}/{below_zero_sum}/{age_sum}/{age_count}/{refused}/{given}", counts.join("/"))
}

fn joined(counts: &[u64]) -> String {
    let words: Vec<String> = counts.iter().map(u64::to_string).collect();
    words.join(",")
}
