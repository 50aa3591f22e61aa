//! Checks a table as `supertab --check` does, and has an exit status: 0 where the table is good,
//! 1 where it is refused, 2 where it cannot be read, or the question or the use is wrong.
//!
//!     check TABLE ['COMMAND USER GROUPS HOST MINUTE AGE ARGS']
//!
//! `docs/check-words.md` says what is printed.

use std::fs::File;
use std::io::{self, Read, Write};
use std::process::ExitCode;

use supertab::{answer, Answer, Question, Refusal};

/// One byte more than a table may have, which is enough to see that it is too long.
const MOST: u64 = 32_769;

/// What is asked where no question is given.
const QUESTION: &str = "check root - localhost 0 -";

fn main() -> ExitCode {
    let arguments: Vec<String> =
        std::env::args_os().skip(1).map(|word| word.to_string_lossy().into_owned()).collect();
    let (name, line) = match &arguments[..] {
        [name] => (name, QUESTION),
        [name, line] => (name, line.as_str()),
        _ => return fail("use: check TABLE ['COMMAND USER GROUPS HOST MINUTE AGE ARGS']"),
    };
    let table = match read(name) {
        Ok(table) => table,
        Err(error) => return fail(&format!("{name}: {error}")),
    };
    match answered(&table, line.as_bytes()) {
        Some(Answer::Refused(Refusal::Question)) | None => {
            fail(&format!("{line}: not a question: COMMAND USER GROUPS HOST MINUTE AGE ARGS"))
        }
        Some(Answer::Refused(refusal)) => print(&shown(name, &table, refusal), 1),
        Some(_) => print(format!("{}: ok for \"{line}\"\n", masked(name)).as_bytes(), 0),
    }
}

/// Read a table, or standard input for `-`, no further than is needed.
fn read(name: &str) -> io::Result<Vec<u8>> {
    let mut table = Vec::new();
    if name == "-" {
        io::stdin().lock().take(MOST).read_to_end(&mut table)?;
    } else {
        File::open(name)?.take(MOST).read_to_end(&mut table)?;
    }
    Ok(table)
}

/// Ask the question of a question line; a line not of the form gives nothing.
fn answered(table: &[u8], line: &[u8]) -> Option<Answer> {
    let pieces: Vec<&[u8]> = line.split(|byte| *byte == b' ').collect();
    let [command, user, groups, host, minute, age, arguments @ ..] = &pieces[..] else {
        return None;
    };
    let groups: Vec<&[u8]> = match *groups {
        b"-" => Vec::new(),
        joined => joined.split(|byte| *byte == b',').collect(),
    };
    let age = match *age {
        b"-" => None,
        written => {
            let sign: i64 = if written.starts_with(b"-") { -1 } else { 1 };
            let minutes = sign * number(written.strip_prefix(b"-").unwrap_or(written))?;
            Some(i32::try_from(minutes).ok()?)
        }
    };
    let minute = u32::try_from(number(minute)?).ok()?;
    Some(answer(table, &Question { command, user, groups: &groups, host, minute, age, arguments }))
}

/// The value of one or more digits, if it has 63 bits: more are too many for a minute and an age.
fn number(text: &[u8]) -> Option<i64> {
    if !text.iter().all(u8::is_ascii_digit) {
        return None;
    }
    std::str::from_utf8(text).ok()?.parse().ok()
}

/// A name without the bytes that would move a terminal's cursor.
fn masked(name: &str) -> String {
    name.chars().map(|c| if c.is_ascii_control() { '?' } else { c }).collect()
}

/// The lines that tell a refusal.
fn shown(name: &str, table: &[u8], refusal: Refusal) -> Vec<u8> {
    let name = masked(name);
    if refusal == Refusal::LongTable {
        return format!("{name}: {refusal}\n").into_bytes();
    }
    let place = refusal.place();
    let begin = table[..place].iter().rposition(|byte| *byte == b'\n').map_or(0, |end| end + 1);
    let rest = &table[begin..];
    let line = &rest[..rest.iter().position(|byte| *byte == b'\n').unwrap_or(rest.len())];
    let number = 1 + table[..begin].iter().filter(|byte| **byte == b'\n').count();
    let mut shown = format!("{name}:{number}:{}: {refusal}\n", place - begin + 1).into_bytes();
    let printable = |byte: &u8| *byte == b'\t' || (0x20..=0x7E).contains(byte);
    shown.extend(line.iter().map(|byte| if printable(byte) { *byte } else { b'?' }));
    shown.push(b'\n');
    let before = line[..place - begin].iter();
    shown.extend(before.map(|byte| if *byte == b'\t' { b'\t' } else { b' ' }));
    shown.extend_from_slice(b"^\n");
    shown
}

/// Print, and end with a status.
fn print(text: &[u8], status: u8) -> ExitCode {
    match io::stdout().write_all(text) {
        Ok(()) => ExitCode::from(status),
        Err(error) => fail(&format!("standard output: {error}")),
    }
}

fn fail(message: &str) -> ExitCode {
    // Nobody is left to tell if standard error cannot be written.
    let _ = writeln!(io::stderr(), "check: {message}");
    ExitCode::from(2)
}
