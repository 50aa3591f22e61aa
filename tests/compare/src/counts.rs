//! How many checks passed and failed.

/// So many failures are printed at most.
const PRINTED: u64 = 20;

/// How many checks passed and failed.
#[derive(Default)]
pub struct Counts {
    pub passed: u64,
    pub failed: u64,
}

impl Counts {
    /// Count a check; one that failed is printed with what it came from.
    pub fn count(&mut self, from: impl Fn() -> String, result: Result<(), String>) {
        match result {
            Ok(()) => self.passed += 1,
            Err(wrong) => {
                self.failed += 1;
                if self.failed <= PRINTED {
                    println!("{}: {wrong}", from());
                }
            }
        }
    }
}

/// Each number that was seen, and how often.
pub fn seen(counts: &[u64]) -> String {
    let seen = (0..counts.len()).filter(|number| counts[*number] > 0);
    let words: Vec<String> = seen.map(|number| format!("{number}: {}", counts[number])).collect();
    words.join(", ")
}

/// Check a result that is known without the reference.
pub fn result_is(got: u8, wanted: u8) -> Result<(), String> {
    if got == wanted {
        Ok(())
    } else {
        Err(format!("the result {got} instead of {wanted}"))
    }
}
