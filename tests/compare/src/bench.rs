//! The time of the call beside that of the reference, on the same tables in one run.

use std::hint::black_box;
use std::time::Instant;

use rule_table::answer;
use rule_table::question::Question;
use supertab::raw::{self, REPORT_LENGTH};

use crate::call::{before, difference, Asked, Caller};
use crate::tables::{self, Table};

/// How often both are timed; the best time of each counts.
pub const TRIES: usize = 7;

/// About how many bytes are read in one timing.
const BYTES: usize = 1 << 20;

/// Time the tables with this name, or all; the number of those that are answered wrongly.
pub fn run(name: Option<&str>) -> usize {
    let mut wrong = 0;
    let mut caller = Caller::new();
    println!("table       bytes  answer  call ns/byte  reference ns/byte  times faster");
    for table in tables::all() {
        if name.is_some_and(|name| name != table.name) {
            continue;
        }
        let asked = asked(&table);
        let outcome = caller.call(&asked);
        if let Some(difference) = difference(&outcome, &asked.expected()) {
            println!("{}: {difference}", table.name);
            wrong += 1;
            continue;
        }
        let (call, reference) = timed(&asked);
        println!(
            "{:10} {:6} {:7} {:13.2} {:18.2} {:13.2}",
            table.name,
            table.bytes.len(),
            outcome.number,
            call,
            reference,
            reference / call
        );
    }
    wrong
}

/// The best times of the call alone in nanoseconds, taken turn by turn.
pub fn nanoseconds(questions: &[Asked]) -> Vec<f64> {
    let mut best = vec![f64::INFINITY; questions.len()];
    for _ in 0..TRIES {
        for (asked, best) in questions.iter().zip(&mut best) {
            let mut buffer = asked.buffer.clone();
            let mut report = asked.report.clone();
            let bytes = asked.table.len();
            let time = one_time(bytes, || call(black_box(asked), &mut buffer, &mut report));
            *best = best.min(time);
        }
    }
    best
}

/// The time of what reads so many bytes, in nanoseconds; it is done over and over.
pub fn one_time<T>(bytes: usize, mut read: impl FnMut() -> T) -> f64 {
    let rounds = BYTES.div_ceil(bytes);
    let begin = Instant::now();
    for _ in 0..rounds {
        black_box(read());
    }
    begin.elapsed().as_nanos() as f64 / rounds as f64
}

/// Call the library so often on the tables with this name, for a profiler; the bytes that it read.
pub fn repeat(name: &str, rounds: usize) -> usize {
    let mut bytes = 0;
    for table in tables::all().iter().filter(|table| table.name == name) {
        let asked = asked(table);
        let mut buffer = asked.buffer.clone();
        let mut report = asked.report.clone();
        for _ in 0..rounds {
            black_box(call(black_box(&asked), &mut buffer, &mut report));
            bytes += table.bytes.len();
        }
    }
    bytes
}

fn asked(table: &Table) -> Asked {
    Asked {
        table: table.bytes.clone(),
        command: table.command.as_bytes().to_vec(),
        user: b"ann".to_vec(),
        groups: b"bench\0".to_vec(),
        host: b"van2".to_vec(),
        minute: 1_050,
        authenticated: true,
        age: 5,
        arguments: b"a.log\0".to_vec(),
        buffer: before(2_048),
        report: vec![0; REPORT_LENGTH],
    }
}

/// The best times of the call and of the reference in nanoseconds a byte, taken turn by turn. No
/// buffer is cleared between calls.
fn timed(asked: &Asked) -> (f64, f64) {
    let question = Question {
        command: asked.command.clone(),
        user: asked.user.clone(),
        groups: vec![b"bench".to_vec()],
        host: asked.host.clone(),
        minute: u64::from(asked.minute),
        age: Some(asked.age),
        arguments: vec![b"a.log".to_vec()],
    };
    let mut buffer = asked.buffer.clone();
    let mut report = asked.report.clone();
    let bytes = asked.table.len();
    let mut best = (f64::INFINITY, f64::INFINITY);
    for _ in 0..TRIES {
        let called = one_time(bytes, || call(black_box(asked), &mut buffer, &mut report));
        best.0 = best.0.min(called / bytes as f64);
        let table = black_box(&asked.table);
        let answered = one_time(bytes, || answer::answer(table, &question, &mut buffer));
        best.1 = best.1.min(answered / bytes as f64);
    }
    best
}

/// The call with memory of the caller, nothing copied.
fn call(asked: &Asked, buffer: &mut [u8], report: &mut [i64]) -> u8 {
    // Every slice's pointer is valid for its length, and the last two are borrowed by nobody else.
    unsafe {
        raw::supertab_answer(
            asked.table.as_ptr(),
            asked.table.len(),
            asked.command.as_ptr(),
            asked.command.len(),
            asked.user.as_ptr(),
            asked.user.len(),
            asked.groups.as_ptr(),
            asked.groups.len(),
            asked.host.as_ptr(),
            asked.host.len(),
            asked.minute,
            asked.authenticated,
            asked.age,
            asked.arguments.as_ptr(),
            asked.arguments.len(),
            buffer.as_mut_ptr(),
            buffer.len(),
            report.as_mut_ptr(),
            report.len(),
        )
    }
}
