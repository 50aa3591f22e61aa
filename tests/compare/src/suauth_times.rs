//! The time of su files: the call beside the reference on the same files in one run.

use std::hint::black_box;

use rule_table::suauth;
use supertab::raw;

use crate::bench::{one_time, TRIES};
use crate::suauth_call::{difference, Asked, Caller};

/// The most bytes of a file.
const SIZE: usize = 32_768;

/// Lines that do not apply where ann, who is in no group that they name, wants to become root.
const LINES: [&str; 6] = [
    "bin:bo:DENY\n",
    "root:kim,lee:OWNPASS\n",
    "daemon,adm:ann:NOPASS\n",
    "root:GROUP wheel:DENY\n",
    "ALL EXCEPT root:ann:DENY\n",
    "root:ALL EXCEPT GROUP ops:DENY\n",
];

/// Time all files; the number of those that are answered wrongly.
pub fn run() -> usize {
    let mut wrong = 0;
    let mut caller = Caller::new();
    println!("su file      bytes  answer  call ns/byte  reference ns/byte  times faster");
    for (name, asked) in files() {
        let got = caller.call(&asked).and_then(|got| match difference(&got, &asked.expected()) {
            None => Ok(got),
            Some(difference) => Err(difference),
        });
        match got {
            Ok(got) => {
                let (call, reference) = timed(&asked);
                println!(
                    "{name:11} {:6} {:>7} {call:13.2} {reference:18.2} {:13.2}",
                    asked.file.len(),
                    got.result,
                    reference / call
                );
            }
            Err(difference) => {
                println!("{name}: {difference}");
                wrong += 1;
            }
        }
    }
    wrong
}

/// The files, each decided by its last line or its last name, with the question.
fn files() -> Vec<(&'static str, Asked)> {
    let many: Vec<String> = (0..31).map(|number| format!("g9{number:04}")).collect();
    let many: Vec<&str> = many.iter().map(String::as_str).chain(["ops"]).collect();
    let mut files = Vec::new();
    for (name, file, groups) in [
        ("short lines", short_lines as fn(usize) -> Vec<u8>, &["ops"][..]),
        ("long list", |size| long_list("", "ann", size), &["ops"]),
        ("GROUP list", |size| long_list("GROUP ", "ops", size), &many),
    ] {
        for size in [SIZE / 4, SIZE / 2, SIZE] {
            let asked = Asked {
                file: file(size),
                target: b"root".to_vec(),
                user: b"ann".to_vec(),
                groups: supertab::zero_ended(groups),
                report: vec![-99],
            };
            files.push((name, asked));
        }
    }
    files
}

/// Short lines of each form; the last one decides.
fn short_lines(size: usize) -> Vec<u8> {
    let last = "root:ann:NOPASS";
    let mut file = String::new();
    for line in LINES.iter().cycle() {
        if file.len() + line.len() + last.len() + 1 > size {
            break;
        }
        file += line;
    }
    filled(file + last, size)
}

/// One line with a list of names of six bytes, the last one another.
fn long_list(word: &str, last: &str, size: usize) -> Vec<u8> {
    let (begin, end) = (format!("root:{word}"), format!("{last}:NOPASS"));
    let count = (size - begin.len() - end.len() - 1) / "g00000,".len();
    let names: String = (0..count).map(|number| format!("g{number:05},")).collect();
    filled(begin + &names + &end, size)
}

/// Blanks at the last line's end make the file as long as it should be.
fn filled(file: String, size: usize) -> Vec<u8> {
    let blanks = " ".repeat(size - file.len() - 1);
    (file + &blanks + "\n").into_bytes()
}

/// The best times of the call and of the reference in nanoseconds a byte, taken turn by turn.
fn timed(asked: &Asked) -> (f64, f64) {
    let question = asked.question();
    let mut report = asked.report.clone();
    let bytes = asked.file.len();
    let mut best = (f64::INFINITY, f64::INFINITY);
    for _ in 0..TRIES {
        let called = one_time(bytes, || call(black_box(asked), &mut report));
        best.0 = best.0.min(called / bytes as f64);
        let answered = one_time(bytes, || suauth::answer(black_box(&asked.file), &question));
        best.1 = best.1.min(answered / bytes as f64);
    }
    best
}

/// The call with memory of the caller, nothing copied.
fn call(asked: &Asked, report: &mut [i64]) -> u8 {
    // Every slice's pointer is valid for its length, and the report is borrowed by nobody else.
    unsafe {
        raw::supertab_su_answer(
            asked.file.as_ptr(),
            asked.file.len(),
            asked.target.as_ptr(),
            asked.target.len(),
            asked.user.as_ptr(),
            asked.user.len(),
            asked.groups.as_ptr(),
            asked.groups.len(),
            report.as_mut_ptr(),
            report.len(),
        )
    }
}

#[cfg(test)]
mod tests {
    use super::*;

    /// Every file has its size and is decided by its very end.
    #[test]
    fn files_as_they_should_be() {
        let files = files();
        assert_eq!(files.len(), 9);
        for (index, (name, asked)) in files.iter().enumerate() {
            assert_eq!(asked.file.len(), [SIZE / 4, SIZE / 2, SIZE][index % 3], "{name}");
            let lines = asked.file.iter().filter(|byte| **byte == b'\n').count();
            let outcome = asked.expected();
            assert_eq!((outcome.result, outcome.report[0]), (raw::su::NOPASS, lines as i64));
            assert_eq!(lines == 1, *name != "short lines");
        }
    }
}
