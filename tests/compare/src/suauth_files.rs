//! Su files, which request (xiv) is about: the call and the reference beside each other on random
//! files and questions, on random bytes in every argument, and on the cuts of each file that gives a
//! decision.

use supertab::raw::{su, SMALL_SU_REPORT};

use crate::counts::{seen, Counts};
use crate::random::Random;
use crate::suauth_call::{difference, Asked, Caller, Outcome};
use crate::suauth_cuts;
use crate::suauth_random::asked;

/// From so many rounds on every result must have been seen.
const ENOUGH: u64 = 20_000;

/// Of a file up to so many bytes every cut is tried; of a longer one, whose cuts would take seconds,
/// a few.
const ALL_CUTS: usize = 2_048;
const FEW_CUTS: usize = 40;

const RESULTS: [u8; 10] = [
    su::NOPASS,
    su::OWNPASS,
    su::NO_RULE,
    su::DENY,
    su::BAD_QUESTION,
    su::LONG_FILE,
    su::REFUSED_BYTE,
    su::CUT_SHORT,
    su::MALFORMED,
    SMALL_SU_REPORT,
];

/// How many checks passed and failed; failures are printed with the seed that shows them alone.
pub fn run(rounds: u64, seed: u64) -> (u64, u64) {
    let mut counts = Counts::default();
    let mut caller = Caller::new();
    let mut results = [0; 256];
    let (mut cut_files, mut cuts) = (0, 0);
    for round in 0..rounds {
        let own_seed = seed.wrapping_add(round);
        let random = &mut Random::new(own_seed);
        let asked = asked(random);
        let from = || format!("compare --su-files 1 {own_seed}");
        match compared(&mut caller, &asked) {
            Ok(whole) => {
                results[usize::from(whole.result)] += 1;
                counts.count(from, Ok(()));
                if whole.is_decision() {
                    let tried = cut(&mut caller, random, &asked, &whole);
                    cut_files += 1;
                    cuts += tried.as_ref().unwrap_or(&0);
                    counts.count(from, tried.map(|_| ()));
                }
            }
            Err(wrong) => counts.count(from, Err(wrong)),
        }
    }
    println!("{rounds} files: {}", seen(&results));
    println!("{cut_files} of them cut, {cuts} cuts");
    if rounds >= ENOUGH {
        let never = RESULTS.iter().find(|result| results[usize::from(**result)] == 0);
        let all = never.map_or(Ok(()), |result| Err(format!("no call gave {result}")));
        counts.count(|| "results".to_string(), all);
    }
    (counts.passed, counts.failed)
}

/// Ask both.
fn compared(caller: &mut Caller, asked: &Asked) -> Result<Outcome, String> {
    let told = |wrong: String| format!("{wrong}\n  {asked:?}");
    let got = caller.call(asked).map_err(told)?;
    match difference(&got, &asked.expected()) {
        None => Ok(got),
        Some(wrong) => Err(told(wrong)),
    }
}

/// Ask the cuts of a file that gives a decision.
fn cut(
    caller: &mut Caller,
    random: &mut Random,
    asked: &Asked,
    whole: &Outcome,
) -> Result<u64, String> {
    let length = asked.file.len();
    let few = (0..FEW_CUTS).map(|_| random.below(length + 1)).collect();
    let cuts: Vec<usize> = if length <= ALL_CUTS { (0..=length).collect() } else { few };
    suauth_cuts::check(&asked.file, whole, cuts, |file| caller.call_with_file(asked, file))
        .map_err(|wrong| format!("{wrong}\n  {asked:?}"))
}
