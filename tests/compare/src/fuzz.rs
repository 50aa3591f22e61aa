//! Random and damaged bytes in every argument of the call, compared with the reference.

use supertab::raw::{report, REPORT_LENGTH, SMALL_REPORT};
use supertab::Cause;

use crate::call::{before, difference, Asked, Caller, Outcome};
use crate::grammar::{self, Grammar, Question};
use crate::random::Random;

/// From so many rounds on every answer and every cause must have been seen.
const ENOUGH: u64 = 100_000;

/// Bytes that mean something in a table.
const MARKS: &[u8] = b"\\\\\n\n\n   ##''\"\"$()X{}{},[]-!@:=~*?/\tac09<>_.y";

/// How many rounds passed and failed; failures are printed with the seed that shows them alone.
pub fn run(rounds: u64, seed: u64) -> (u64, u64) {
    let mut caller = Caller::new();
    let mut seen = Seen::default();
    let (mut passed, mut failed) = (0, 0);
    for round in 0..rounds {
        let own_seed = seed.wrapping_add(round);
        let asked = asked(&mut Random::new(own_seed));
        let got = caller.call(&asked);
        seen.count(&got);
        match wrong(&asked, &got) {
            None => passed += 1,
            Some(wrong) => {
                failed += 1;
                println!("compare --fuzz 1 {own_seed}: {wrong}\n  {asked:?}");
            }
        }
    }
    println!("{}", seen.printed());
    if rounds >= ENOUGH {
        if seen.all() {
            passed += 1;
        } else {
            failed += 1;
            println!("some answer or cause was never given");
        }
    }
    (passed, failed)
}

/// What is wrong with an outcome, if anything is.
fn wrong(asked: &Asked, got: &Outcome) -> Option<String> {
    // Only a permit may change the buffer; this is said without the reference.
    if got.number > 1 && got.buffer != asked.buffer {
        return Some(format!("the answer {} changed the buffer", got.number));
    }
    difference(got, &asked.expected())
}

/// How often each answer and each cause was given.
struct Seen {
    answers: [u64; 256],
    causes: [u64; 28],
}

impl Default for Seen {
    fn default() -> Seen {
        Seen { answers: [0; 256], causes: [0; 28] }
    }
}

impl Seen {
    fn count(&mut self, outcome: &Outcome) {
        self.answers[usize::from(outcome.number)] += 1;
        if outcome.number != SMALL_REPORT {
            let cause = usize::try_from(outcome.report[report::CAUSE]).unwrap_or(0);
            self.causes[if cause < self.causes.len() { cause } else { 0 }] += 1;
        }
    }

    fn all(&self) -> bool {
        let mut numbers = (0..=5).chain(10..=18).chain([usize::from(SMALL_REPORT)]);
        numbers.all(|number| self.answers[number] > 0)
            && (1..self.causes.len()).all(|cause| self.causes[cause] > 0)
    }

    fn printed(&self) -> String {
        let answers: Vec<String> = (0..256)
            .filter(|number| self.answers[*number] > 0)
            .map(|number| format!("{number}: {}", self.answers[number]))
            .collect();
        let causes: Vec<String> = (1..self.causes.len())
            .filter_map(|number| Some((Cause::from_number(number)?, self.causes[number])))
            .map(|(cause, count)| format!("{cause:?}: {count}"))
            .collect();
        format!("answers {}\ncauses {}", answers.join(", "), causes.join(", "))
    }
}

/// One call's arguments.
fn asked(random: &mut Random) -> Asked {
    let question = grammar::question(random);
    let table = table(random, &question);
    let mut groups = supertab::zero_ended(&question.groups);
    let mut arguments = supertab::zero_ended(&question.arguments);
    let mut asked = Asked {
        table,
        command: question.command,
        user: question.user,
        groups: Vec::new(),
        host: question.host,
        minute: question.minute,
        authenticated: question.age.is_some(),
        age: question.age.unwrap_or_else(|| random.number() as i32),
        arguments: Vec::new(),
        buffer: Vec::new(),
        report: Vec::new(),
    };
    // Most questions stay good, so that the table is read at all.
    match random.below(60) {
        0 => damage(random, MARKS, &mut asked.command),
        1 => damage(random, MARKS, &mut asked.user),
        2 => damage(random, MARKS, &mut groups),
        3 => damage(random, MARKS, &mut asked.host),
        4 => damage(random, MARKS, &mut arguments),
        5 => asked.minute = random.number(),
        6 => asked.age = random.number() as i32,
        7 => {
            for bytes in [&mut asked.command, &mut asked.user, &mut asked.host] {
                *bytes = any_bytes(random, 40);
            }
            groups = any_bytes(random, 100);
            arguments = any_bytes(random, 100);
        }
        _ => {}
    }
    asked.groups = groups;
    asked.arguments = arguments;
    let buffer_length = match random.below(40) {
        0 => random.below(2_048),
        1 => 2_047,
        _ => 2_048 + random.below(30),
    };
    asked.buffer = before(buffer_length);
    let report_length = match random.below(60) {
        0 => random.below(REPORT_LENGTH),
        1 => REPORT_LENGTH - 1,
        _ => REPORT_LENGTH + random.below(3),
    };
    asked.report = (0..report_length).map(|_| i64::from(random.number()) - (1 << 31)).collect();
    asked
}

/// A table: of the grammar, damaged, of marks, or of any bytes.
fn table(random: &mut Random, question: &Question) -> Vec<u8> {
    match random.below(20) {
        0..=8 => Grammar { random, question }.table(),
        9..=15 => {
            let mut table = Grammar { random, question }.table();
            damage(random, MARKS, &mut table);
            table
        }
        16 => {
            let mut table = Grammar { random, question }.table();
            let other = Grammar { random, question }.table();
            let (at, from) = (random.below(table.len() + 1), random.below(other.len() + 1));
            table.truncate(at);
            table.extend_from_slice(&other[from..]);
            table
        }
        17 | 18 => {
            let mut table = b":global patterns=shell\n".to_vec();
            table.extend((0..random.below(80)).map(|_| MARKS[random.below(MARKS.len())]));
            table
        }
        _ => any_bytes(random, 300),
    }
}

/// Any bytes, fewer than so many.
pub fn any_bytes(random: &mut Random, most: usize) -> Vec<u8> {
    (0..random.below(most)).map(|_| random.byte()).collect()
}

/// Some bytes changed, put in, taken out, doubled, or the rest cut off; most new ones are marks.
pub fn damage(random: &mut Random, marks: &[u8], bytes: &mut Vec<u8>) {
    for _ in 0..1 + random.below(4) {
        let place = random.below(bytes.len() + 1);
        let byte = if random.one_in(8) { random.byte() } else { marks[random.below(marks.len())] };
        match random.below(12) {
            0 => bytes.truncate(place),
            1..=4 if place < bytes.len() => bytes[place] = byte,
            5..=8 => bytes.insert(place, byte),
            9 if place < bytes.len() => {
                let end = bytes.len().min(place + random.below(30));
                let copy = bytes[place..end].to_vec();
                bytes.splice(place..place, copy);
            }
            _ if place < bytes.len() => {
                bytes.remove(place);
            }
            _ => {}
        }
    }
}
