//! The call and the reference beside each other on batches of log records.

use supertab::raw::{figure, FIGURES_LENGTH, RECORD_LENGTH, UNUSABLE_FIGURES};

use crate::figures_call::{difference, expected_new, laws, Caller, Feeding, Outcome, RESERVED};

/// So many bytes of a batch are printed at most.
const PRINTED: usize = 400;

/// The call and the reference beside each other, and how often the call gave each result.
pub struct Both {
    caller: Caller,
    pub results: [u64; 256],
}

impl Both {
    pub fn new() -> Both {
        Both { caller: Caller::new(), results: [0; 256] }
    }

    /// Make figures where the numbers hold this beforehand.
    pub fn make(&mut self, before: &[i64]) -> Result<Outcome, String> {
        let got = self.caller.make(before)?;
        match difference(&got, &expected_new(before)) {
            None => Ok(got),
            Some(wrong) => Err(wrong),
        }
    }

    /// Add a batch with both.
    pub fn feed(&mut self, feeding: &Feeding) -> Result<Outcome, String> {
        self.compared(feeding).map_err(|wrong| {
            let Feeding { figures, batch, refused } = feeding;
            let shown = &batch[..batch.len().min(PRINTED)];
            let bytes = batch.len();
            format!("{wrong}\n  {figures:?}\n  {bytes} bytes: {shown:02x?}\n  {refused:?}")
        })
    }

    fn compared(&mut self, feeding: &Feeding) -> Result<Outcome, String> {
        let got = self.caller.feed(feeding)?;
        self.results[usize::from(got.result)] += 1;
        alone(feeding, &got)?;
        match difference(&got, &feeding.expected()) {
            None => Ok(got),
            Some(wrong) => Err(wrong),
        }
    }

    /// Whether each result was given.
    pub fn all_seen(&self) -> Result<(), String> {
        let mut results = [0, 1, 2, usize::from(UNUSABLE_FIGURES)].into_iter();
        match results.find(|result| self.results[*result] == 0) {
            Some(result) => Err(format!("no batch gave {result}")),
            None => Ok(()),
        }
    }
}

/// What is said without the reference: 1 and 255 change nothing; 0 and 2 leave the later numbers,
/// clear those that are kept for later, count each record that is not past the limit as given, and
/// keep the laws.
fn alone(feeding: &Feeding, got: &Outcome) -> Result<(), String> {
    let result = got.result;
    if result != 0 && result != 2 {
        if got.figures != feeding.figures || got.refused != feeding.refused {
            return Err(format!("the refusal {result} changed the numbers"));
        }
        return Ok(());
    }
    if got.figures[FIGURES_LENGTH..] != feeding.figures[FIGURES_LENGTH..]
        || got.refused[1..] != feeding.refused[1..]
    {
        return Err("a later number was changed".to_string());
    }
    if let Some(index) = RESERVED.into_iter().find(|index| got.figures[*index] != 0) {
        return Err(format!("{} at {index}, which is kept for later", got.figures[index]));
    }
    let given = got.figures[figure::GIVEN] - feeding.figures[figure::GIVEN];
    let records = (feeding.batch.len() / RECORD_LENGTH) as i64;
    if given + got.refused[0] != records {
        return Err(format!("{given} given and {} past the limit of {records}", got.refused[0]));
    }
    if (result == 2) != (got.refused[0] > 0) {
        return Err(format!("the result {result} with {} past the limit", got.refused[0]));
    }
    if laws(&feeding.figures).is_ok() {
        laws(&got.figures)?;
    }
    Ok(())
}
