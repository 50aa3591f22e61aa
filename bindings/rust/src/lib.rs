//! Who may run which command, from a rule table in the style of super.tab.
//!
//! A safe way to call the static library `libsupertab_c.a`, whose answers, log records and figures
//! are proved to be those of the definitions. Nothing is kept between calls. A table or a su file
//! that was cut in the middle of a line decides nothing: it is refused.
//!
//! ```
//! use supertab::{answer, Answer, Question};
//!
//! let table = b":global patterns=shell\nsetclock /sbin/setclock ann,bo auth=y timeout=15\n";
//! let question = Question {
//!     command: b"setclock",
//!     user: b"ann",
//!     groups: &[],
//!     host: b"van2",
//!     minute: 1_049,
//!     age: Some(15),
//!     arguments: &[],
//! };
//! match answer(table, &question) {
//!     Answer::Permit(permission) => assert_eq!(permission.path, "/sbin/setclock"),
//!     other => panic!("not permitted: {other:?}"),
//! }
//! ```
//!
//! A decision fits into the eight bytes of a log record:
//!
//! ```
//! use supertab::{read_record, Answer, Fields};
//!
//! let record = Answer::StoppedByNargs { line: 5 }.record(1_049, Some(15))?;
//! assert_eq!(record, [0x23, 0x00, 0x05, 0x10, 0x64, 0x00, 0x00, 0x0f]);
//! let fields = Fields { number: 3, line: 5, minute: 1_049, auth: false, age: Some(15) };
//! assert_eq!(read_record(&record), Ok(fields));
//! # Ok::<(), supertab::RecordRefusal>(())
//! ```
//!
//! Records of a log are counted in batches:
//!
//! ```
//! use supertab::Figures;
//!
//! let mut figures = Figures::new();
//! // A permit on Monday at 17:29, the password given 15 minutes before; and a record of no version.
//! figures.feed(&[0x20, 0x00, 0x03, 0x10, 0x66, 0x00, 0x00, 0x0f])?;
//! figures.feed(&[0; 8])?;
//! assert_eq!((figures.answered(0), figures.on_weekday(0), figures.in_hour(17)), (1, 1, 1));
//! assert_eq!((figures.age_sum(), figures.age_count()), (15, 1));
//! assert_eq!((figures.refused(), figures.given()), (1, 2));
//! # Ok::<(), supertab::FiguresRefusal>(())
//! ```
//!
//! Who may become whom is answered from a su file:
//!
//! ```
//! use supertab::{su_answer, SuAnswer, SuQuestion, SuRefusal};
//!
//! let file = b"root:chris,birddog:OWNPASS\nroot:ALL EXCEPT GROUP wheel:DENY\n";
//! let question = SuQuestion { target: b"root", user: b"ann", groups: &[b"crew"] };
//! assert_eq!(su_answer(file, &question), SuAnswer::Deny { line: 2 });
//! // The second line, which begins at the byte 27, lost its end.
//! let cut = SuAnswer::Refused(SuRefusal::CutShort { place: 27 });
//! assert_eq!(su_answer(&file[..40], &question), cut);
//! ```
//!
//! A thread that calls the library needs a stack of [`raw::STACK`] bytes; those that Rust starts have more.
//! The archive, which is built for x86-64 Linux, is looked for in the folder that `SUPERTAB_LIB_DIR` names when the crate is built,
//! or else in `target/staticlib` of the repository, where `tools/build` leaves it.

mod answer;
mod cause;
mod figures;
mod question;
pub mod raw;
mod record;
mod su;

pub use answer::{Answer, Permission, Refusal};
pub use cause::Cause;
pub use figures::{Figures, FiguresRefusal};
pub use question::{zero_ended, Question};
pub use raw::{FIGURES_LIMIT, RECORD_LENGTH};
pub use record::{read_record, write_record, Fields, RecordRefusal};
pub use su::{su_answer, SuAnswer, SuQuestion, SuRefusal};

use raw::{report, BUFFER_LENGTH, REPORT_LENGTH};

/// Answers a question from a table.
///
/// # Panics
///
/// Where the library that was linked gives an answer that this crate does not know.
pub fn answer(table: &[u8], question: &Question) -> Answer {
    let groups = zero_ended(question.groups);
    let arguments = zero_ended(question.arguments);
    let mut buffer = [0; BUFFER_LENGTH];
    let mut numbers = [0; REPORT_LENGTH];
    // Every slice's pointer is valid for its length and not null, and the two arrays are our own.
    let number = unsafe {
        raw::supertab_answer(
            table.as_ptr(),
            table.len(),
            question.command.as_ptr(),
            question.command.len(),
            question.user.as_ptr(),
            question.user.len(),
            groups.as_ptr(),
            groups.len(),
            question.host.as_ptr(),
            question.host.len(),
            question.minute,
            question.age.is_some(),
            question.age.unwrap_or(0),
            arguments.as_ptr(),
            arguments.len(),
            buffer.as_mut_ptr(),
            buffer.len(),
            numbers.as_mut_ptr(),
            numbers.len(),
        )
    };
    told(number, &numbers, &buffer)
}

/// The answer that a number, a report and a buffer tell.
fn told(number: u8, numbers: &[i64; REPORT_LENGTH], buffer: &[u8]) -> Answer {
    let at = |index: usize| usize::try_from(numbers[index]).expect("no place is below zero");
    let line = at(report::LINE_OR_PLACE);
    let place = line;
    match number {
        0 => Answer::Permit(permission(numbers, buffer)),
        1 => Answer::Password(permission(numbers, buffer)),
        2 => Answer::NoEntry,
        3 => Answer::StoppedByNargs { line },
        4 => Answer::StoppedByArgument { line },
        5 => Answer::StoppedByPath { line },
        10 => Answer::Refused(Refusal::Question),
        11 => Answer::Refused(Refusal::LongTable),
        12 => Answer::Refused(Refusal::RefusedByte { place }),
        13 => Answer::Refused(Refusal::CutShort { place }),
        14 | 15 | 16 | 18 => match Cause::from_number(at(report::CAUSE)) {
            Some(cause) if cause.refusal() == number => {
                Answer::Refused(Refusal::Line { cause, place })
            }
            _ => panic!("the library gave the cause {} for {number}", numbers[report::CAUSE]),
        },
        _ => panic!("the library gave the answer {number}"),
    }
}

/// What is told beside a permit.
fn permission(numbers: &[i64; REPORT_LENGTH], buffer: &[u8]) -> Permission {
    let at = |index: usize| usize::try_from(numbers[index]).expect("no place is below zero");
    let string = |begin: usize, end: usize| {
        // All bytes that a table and a command may hold are ASCII, so that nothing is lost.
        String::from_utf8_lossy(&buffer[begin..end]).into_owned()
    };
    // An option that is not set is an empty string, and none can be set to one.
    let id =
        |index: usize| Some(string(at(index - 1) + 1, at(index))).filter(|name| !name.is_empty());
    let small = |index: usize| u8::try_from(numbers[index]).expect("nargs is at most 64");
    Permission {
        line: at(report::LINE_OR_PLACE),
        path: string(0, at(report::PATH_END)),
        uid: id(report::UID_END),
        euid: id(report::EUID_END),
        gid: id(report::GID_END),
        egid: id(report::EGID_END),
        auth: numbers[report::AUTH] != 0,
        timeout: (numbers[report::TIMEOUT_SET] != 0)
            .then(|| i16::try_from(numbers[report::TIMEOUT]).expect("a timeout has 16 bits")),
        nargs: (numbers[report::NARGS_SET] != 0)
            .then(|| small(report::NARGS_LOW)..=small(report::NARGS_HIGH)),
    }
}
