//! The call of the static library and the reference in one process.

mod batches;
mod bench;
mod call;
mod counts;
mod cuts;
mod figures_both;
mod figures_call;
mod figures_edges;
mod figures_random;
mod figures_times;
mod fuzz;
mod grammar;
mod guards;
mod lent;
mod random;
mod record_call;
mod record_random;
mod records;
mod stars;
mod suauth_call;
mod suauth_cuts;
mod suauth_files;
mod suauth_random;
mod suauth_times;
mod tables;

use std::fs;
use std::io::{self, BufRead, BufWriter, Write};
use std::path::Path;
use std::process::ExitCode;

use rule_table::{cases, figures_cases, record_cases, suauth_cases};

use call::{difference, Asked, Caller};
use record_call::{Reading, Writing};

const USAGE: &str = "usage: compare --cases < cases
           print the call's answer to each case line
       compare --check [TABLES] < cases
           compare the call with the reference on each case line, and try every cut of each table
           that gives a decision, or of the first TABLES such tables
       compare --fuzz ROUNDS SEED
           compare them on random and damaged bytes in every argument
       compare --stars ROUNDS SEED
           compare them on random patterns with many stars
       compare --record-write < cases
       compare --record-read < cases
           print what the call writes for, or reads from, each case line of log records
       compare --records ROUNDS SEED
           compare them on log records: every number with the other fields at their ends, every
           length, then random fields and bytes
       compare --figures < cases
           print what the call gives for the batches of each case line, and the figures of them
       compare --batches ROUNDS SEED
           compare them on batches of log records: every length, every number at its bounds, the
           limit, a million records divided in several ways, then random series of batches
       compare --suauth < cases
           print the call's answer to the su file and the question of each case line
       compare --su-files ROUNDS SEED
           compare them on random su files and questions, some with random bytes in every
           argument, and try every cut of each file that gives a decision (a few of a long one)
       compare --bench [TABLE]
           time them on the tables, or on those of one name; on all, also as the next three
       compare --bench figures
           time them on a million log records, in batches of several sizes
       compare --bench suauth
           time them on su files of short lines, of one long list and of one long GROUP list
       compare --bench stars
           time the call on patterns with many stars, and hold it to the limits of request (iii)
       compare --call TABLE ROUNDS
           only call the library so often on the tables of one name, for a profiler
       compare --tables FOLDER
           write those tables as files";

fn main() -> ExitCode {
    let words: Vec<String> =
        std::env::args_os().skip(1).map(|word| word.to_string_lossy().into_owned()).collect();
    let words: Vec<&str> = words.iter().map(String::as_str).collect();
    let result = match words[..] {
        ["--cases"] => answer_cases().map(|()| true),
        ["--record-write"] => write_records().map(|()| true),
        ["--record-read"] => read_records().map(|()| true),
        ["--figures"] => figures().map(|()| true),
        ["--suauth"] => answer_su_cases().map(|()| true),
        ["--check"] => check_cases(u64::MAX),
        ["--check", tables] => match tables.parse() {
            Ok(tables) => check_cases(tables),
            Err(_) => return wrong_use(),
        },
        ["--fuzz", rounds, seed] => match (rounds.parse(), seed.parse()) {
            (Ok(rounds), Ok(seed)) => Ok(counted(fuzz::run(rounds, seed))),
            _ => return wrong_use(),
        },
        ["--stars", rounds, seed] => match (rounds.parse(), seed.parse()) {
            (Ok(rounds), Ok(seed)) => Ok(counted(stars::run(rounds, seed))),
            _ => return wrong_use(),
        },
        ["--records", rounds, seed] => match (rounds.parse(), seed.parse()) {
            (Ok(rounds), Ok(seed)) => Ok(counted(records::run(rounds, seed))),
            _ => return wrong_use(),
        },
        ["--batches", rounds, seed] => match (rounds.parse(), seed.parse()) {
            (Ok(rounds), Ok(seed)) => Ok(counted(batches::run(rounds, seed))),
            _ => return wrong_use(),
        },
        ["--su-files", rounds, seed] => match (rounds.parse(), seed.parse()) {
            (Ok(rounds), Ok(seed)) => Ok(counted(suauth_files::run(rounds, seed))),
            _ => return wrong_use(),
        },
        ["--bench", "figures"] => Ok(figures_times::run() == 0),
        ["--bench", "suauth"] => Ok(suauth_times::run() == 0),
        ["--bench", "stars"] => Ok(counted(stars::times())),
        ["--bench"] => {
            let wrong = bench::run(None) + figures_times::run() + suauth_times::run();
            Ok(counted(stars::times()) && wrong == 0)
        }
        ["--bench", name] => Ok(bench::run(Some(name)) == 0),
        ["--call", name, rounds] => match rounds.parse() {
            Ok(rounds) => {
                let bytes = bench::repeat(name, rounds);
                println!("{bytes} bytes");
                Ok(bytes > 0)
            }
            Err(_) => return wrong_use(),
        },
        ["--tables", folder] => write_tables(Path::new(folder)).map(|()| true),
        _ => return wrong_use(),
    };
    match result {
        Ok(true) => ExitCode::SUCCESS,
        Ok(false) => ExitCode::FAILURE,
        Err(error) => {
            eprintln!("compare: {error}");
            ExitCode::from(2)
        }
    }
}

fn wrong_use() -> ExitCode {
    eprintln!("{USAGE}");
    ExitCode::from(2)
}

/// Print how many passed and failed, and tell whether none failed.
fn counted((passed, failed): (u64, u64)) -> bool {
    println!("{passed} passed, {failed} failed");
    failed == 0
}

/// Do something with each line of standard input, its number and its bytes.
fn for_lines(mut each: impl FnMut(u64, &[u8]) -> io::Result<()>) -> io::Result<()> {
    let mut input = io::stdin().lock();
    let mut line = Vec::new();
    let mut number = 0;
    while input.read_until(b'\n', &mut line)? > 0 {
        number += 1;
        each(number, line.strip_suffix(b"\n").unwrap_or(&line))?;
        line.clear();
    }
    Ok(())
}

/// Print one line for each line of standard input that is a case.
fn reply_to_cases(mut reply: impl FnMut(&[u8]) -> Option<String>) -> io::Result<()> {
    let mut output = BufWriter::new(io::stdout().lock());
    for_lines(|_, line| {
        let printed = reply(line).unwrap_or_else(|| "bad case".to_string());
        writeln!(output, "{printed}")
    })?;
    output.flush()
}

fn answer_cases() -> io::Result<()> {
    let mut caller = Caller::new();
    reply_to_cases(|line| {
        let case = cases::read_case(line)?;
        Some(caller.call(&Asked::of_case(&case)).printed())
    })
}

fn write_records() -> io::Result<()> {
    let mut caller = record_call::Caller::new();
    reply_to_cases(|line| {
        let fields = record_cases::read_writing(line)?;
        let got = caller.write(&Writing::of_fields(&fields));
        Some(got.map_or_else(|wrong| wrong, |got| got.printed_record()))
    })
}

fn read_records() -> io::Result<()> {
    let mut caller = record_call::Caller::new();
    reply_to_cases(|line| {
        let bytes = record_cases::read_reading(line)?;
        let got = caller.read(&Reading::of_bytes(&bytes));
        Some(got.map_or_else(|wrong| wrong, |got| got.printed_fields()))
    })
}

fn figures() -> io::Result<()> {
    let mut caller = figures_call::Caller::new();
    reply_to_cases(|line| {
        let batches = figures_cases::read_batches(line)?;
        Some(caller.answered(&batches).unwrap_or_else(|wrong| wrong))
    })
}

fn answer_su_cases() -> io::Result<()> {
    let mut caller = suauth_call::Caller::new();
    reply_to_cases(|line| {
        let (file, question) = suauth_cases::read_case(line)?;
        let got = caller.call(&suauth_call::Asked::of_case(file, &question));
        Some(got.map_or_else(|wrong| wrong, |got| got.printed()))
    })
}

/// Compare on each case; of the first so many tables that give a decision, try every cut.
fn check_cases(tables: u64) -> io::Result<bool> {
    let mut caller = Caller::new();
    let (mut passed, mut failed) = (0, 0);
    let (mut cut_tables, mut cuts) = (0, 0);
    for_lines(|number, line| {
        let mut count = |wrong: Option<String>| match wrong {
            None => passed += 1,
            Some(wrong) => {
                failed += 1;
                println!("case {number}: {wrong}\n  {}", String::from_utf8_lossy(line));
            }
        };
        let Some(case) = cases::read_case(line) else {
            count(Some("bad case".to_string()));
            return Ok(());
        };
        let asked = Asked::of_case(&case);
        let whole = caller.call(&asked);
        count(difference(&whole, &asked.expected()));
        if whole.is_decision() && cut_tables < tables {
            cut_tables += 1;
            match cuts::check(&mut caller, &asked, &whole) {
                Ok(tried) => {
                    cuts += tried;
                    count(None);
                }
                Err(wrong) => count(Some(wrong)),
            }
        }
        Ok(())
    })?;
    println!("{cut_tables} tables with all cuts, {cuts} cuts");
    Ok(counted((passed, failed)))
}

fn write_tables(folder: &Path) -> io::Result<()> {
    for table in tables::all() {
        let name = format!("{}-{}.tab", table.name, table.bytes.len());
        fs::write(folder.join(name), &table.bytes)?;
    }
    Ok(())
}
