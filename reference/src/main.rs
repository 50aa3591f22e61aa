//! The program: answers question lines or cases from standard input.

use std::fs::File;
use std::io::{self, BufRead, BufWriter, ErrorKind, Read, Write};
use std::process::ExitCode;

use rule_table::{answer, cases, figures_cases, program, record_cases, suauth_cases};

const USAGE: &str = "usage: reference TABLE < questions
       reference --cases < cases
       reference --record-write < cases
       reference --record-read < cases
       reference --figures < cases
       reference --suauth < cases";

fn main() -> ExitCode {
    let arguments: Vec<_> = std::env::args_os().skip(1).collect();
    let [argument] = &arguments[..] else {
        return fail(USAGE);
    };
    match argument.to_str() {
        Some("--cases") => finish(reply_to_lines(cases::reply)),
        Some("--record-write") => finish(reply_to_lines(record_cases::reply_to_writing)),
        Some("--record-read") => finish(reply_to_lines(record_cases::reply_to_reading)),
        Some("--figures") => finish(reply_to_lines(figures_cases::reply)),
        Some("--suauth") => finish(reply_to_lines(suauth_cases::reply)),
        Some(other) if other.starts_with('-') => fail(USAGE),
        _ => match read_table(argument) {
            Ok(table) => finish(reply_to_lines(|line| program::reply(&table, line))),
            Err(error) => {
                let name = argument.to_string_lossy();
                fail(&format!("reference: cannot read the table {name}: {error}"))
            }
        },
    }
}

/// Read a table, but of one that is too long not more than is needed to see it.
fn read_table(name: &std::ffi::OsStr) -> io::Result<Vec<u8>> {
    let mut table = Vec::new();
    let most = answer::TABLE_LENGTH as u64 + 1;
    File::open(name)?.take(most).read_to_end(&mut table)?;
    Ok(table)
}

/// Why no further lines are answered.
enum Failure {
    Input(io::Error),
    Output(io::Error),
}

/// Print one line for each line of standard input.
fn reply_to_lines(reply: impl Fn(&[u8]) -> Vec<u8>) -> Result<(), Failure> {
    let mut input = io::stdin().lock();
    let mut output = BufWriter::new(io::stdout().lock());
    let mut line = Vec::new();
    while input.read_until(b'\n', &mut line).map_err(Failure::Input)? > 0 {
        let content = line.strip_suffix(b"\n").unwrap_or(&line);
        let mut printed = reply(content);
        printed.push(b'\n');
        output.write_all(&printed).map_err(Failure::Output)?;
        line.clear();
    }
    output.flush().map_err(Failure::Output)
}

/// The exit status after the last line; a reader that went away is no failure.
fn finish(result: Result<(), Failure>) -> ExitCode {
    match result {
        Ok(()) => ExitCode::SUCCESS,
        Err(Failure::Output(error)) if error.kind() == ErrorKind::BrokenPipe => ExitCode::SUCCESS,
        Err(Failure::Output(error)) => {
            fail(&format!("reference: cannot write standard output: {error}"))
        }
        Err(Failure::Input(error)) => {
            fail(&format!("reference: cannot read standard input: {error}"))
        }
    }
}

fn fail(message: &str) -> ExitCode {
    // Nobody is left to tell if standard error cannot be written.
    let _ = writeln!(io::stderr(), "{message}");
    ExitCode::from(2)
}
