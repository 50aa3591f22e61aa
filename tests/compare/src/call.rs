//! One call of the static library, what the reference says it must give, and the difference.

use rule_table::answer::{self, Answer};
use rule_table::cases::Case;
use rule_table::question::{zero_ended_strings, Question};
use supertab::raw::{self, report, REPORT_LENGTH, SMALL_REPORT};
use supertab::{zero_ended, Cause};

use crate::lent::Lent;

/// How many bytes are lent for one argument at first.
const ROOM: usize = 1 << 16;

/// What a call is given.
#[derive(Clone, Debug, PartialEq, Eq)]
pub struct Asked {
    pub table: Vec<u8>,
    pub command: Vec<u8>,
    pub user: Vec<u8>,
    /// Zero-ended strings, or any other bytes.
    pub groups: Vec<u8>,
    pub host: Vec<u8>,
    pub minute: u32,
    pub authenticated: bool,
    pub age: i32,
    /// Zero-ended strings, or any other bytes.
    pub arguments: Vec<u8>,
    /// What the buffer holds beforehand.
    pub buffer: Vec<u8>,
    /// What the report holds beforehand.
    pub report: Vec<i64>,
}

/// What a call gives.
#[derive(Clone, Debug, PartialEq, Eq)]
pub struct Outcome {
    pub number: u8,
    pub buffer: Vec<u8>,
    pub report: Vec<i64>,
}

impl Outcome {
    pub fn is_decision(&self) -> bool {
        self.number <= 5
    }

    /// The answer line of a case, told from the report and the buffer alone.
    pub fn printed(&self) -> String {
        let told = |index: usize| self.report[index];
        let mut words = vec![self.number.to_string(), told(report::LINE_OR_PLACE).to_string()];
        if self.number <= 1 {
            let mut begin = 0;
            for end in report::PATH_END..=report::EGID_END {
                let string = &self.buffer[begin..told(end) as usize];
                let unset = string.is_empty() && end != report::PATH_END;
                words.push(if unset { "-".to_string() } else { hexadecimal(string) });
                begin = told(end) as usize + 1;
            }
            words.push(if told(report::AUTH) == 1 { "y" } else { "n" }.to_string());
            words.push(match told(report::TIMEOUT_SET) {
                0 => "-".to_string(),
                _ => told(report::TIMEOUT).to_string(),
            });
            words.push(match told(report::NARGS_SET) {
                0 => "-".to_string(),
                _ => format!("{}-{}", told(report::NARGS_LOW), told(report::NARGS_HIGH)),
            });
            words.push(told(report::WRITTEN).to_string());
        }
        words.join(" ")
    }
}

fn hexadecimal(bytes: &[u8]) -> String {
    bytes.iter().map(|byte| format!("{byte:02x}")).collect()
}

impl Asked {
    /// What a case asks. All buffers that are long enough, and all minutes past the week, are
    /// answered alike.
    pub fn of_case(case: &Case) -> Asked {
        let question = &case.question;
        Asked {
            table: case.table.clone(),
            command: question.command.clone(),
            user: question.user.clone(),
            groups: zero_ended(&question.groups),
            host: question.host.clone(),
            minute: question.minute.min(u64::from(u32::MAX)) as u32,
            authenticated: question.age.is_some(),
            age: question.age.unwrap_or(0),
            arguments: zero_ended(&question.arguments),
            buffer: before(case.buffer_length.min(4_096) as usize),
            report: vec![-99; REPORT_LENGTH],
        }
    }

    /// The question as the reference takes it. Bytes behind the last zero byte make a list that is
    /// none; an empty group stands for them, which makes the question bad likewise.
    fn question(&self) -> Question {
        let (groups, groups_rest) = zero_ended_strings(&self.groups);
        let (arguments, arguments_rest) = zero_ended_strings(&self.arguments);
        let mut groups: Vec<Vec<u8>> = groups.iter().map(|group| group.to_vec()).collect();
        if !groups_rest.is_empty() || !arguments_rest.is_empty() {
            groups.push(Vec::new());
        }
        Question {
            command: self.command.clone(),
            user: self.user.clone(),
            groups,
            host: self.host.clone(),
            minute: u64::from(self.minute),
            age: self.authenticated.then_some(self.age),
            arguments: arguments.iter().map(|argument| argument.to_vec()).collect(),
        }
    }

    /// What the reference says the call must give; the cause is left at 0.
    pub fn expected(&self) -> Outcome {
        let mut buffer = self.buffer.clone();
        let mut numbers = self.report.clone();
        if numbers.len() < REPORT_LENGTH {
            return Outcome { number: SMALL_REPORT, buffer, report: numbers };
        }
        let answer = answer::answer(&self.table, &self.question(), &mut buffer);
        numbers[..REPORT_LENGTH].copy_from_slice(&expected_report(&answer));
        Outcome { number: answer.number() as u8, buffer, report: numbers }
    }
}

/// Bytes that a buffer holds beforehand, none of them zero and neighbours apart.
pub fn before(length: usize) -> Vec<u8> {
    (0..length).map(|place| 1 + (place % 251) as u8).collect()
}

/// The report of an answer, as the header says it; the cause is left at 0.
fn expected_report(answer: &Answer) -> [i64; REPORT_LENGTH] {
    let mut numbers = [0; REPORT_LENGTH];
    numbers[report::LINE_OR_PLACE] = answer.line_or_place() as i64;
    let Some(permission) = answer.permission() else {
        return numbers;
    };
    let written = answer.written();
    numbers[report::WRITTEN] = written.len() as i64;
    numbers[report::AUTH] = i64::from(permission.auth);
    if let Some(timeout) = permission.timeout {
        numbers[report::TIMEOUT_SET] = 1;
        numbers[report::TIMEOUT] = i64::from(timeout);
    }
    if let Some(nargs) = permission.nargs {
        numbers[report::NARGS_SET] = 1;
        numbers[report::NARGS_LOW] = i64::from(nargs.first);
        numbers[report::NARGS_HIGH] = i64::from(nargs.last);
    }
    let zeros = (0..written.len()).filter(|place| written[*place] == 0);
    for (index, place) in (report::PATH_END..=report::EGID_END).zip(zeros) {
        numbers[index] = place as i64;
    }
    numbers
}

/// The memory that calls are given.
pub struct Caller {
    table: Lent,
    command: Lent,
    user: Lent,
    groups: Lent,
    host: Lent,
    arguments: Lent,
    buffer: Lent,
    report: Lent,
}

impl Caller {
    pub fn new() -> Caller {
        Caller {
            table: Lent::new(ROOM),
            command: Lent::new(ROOM),
            user: Lent::new(ROOM),
            groups: Lent::new(ROOM),
            host: Lent::new(ROOM),
            arguments: Lent::new(ROOM),
            buffer: Lent::new(ROOM),
            report: Lent::new(ROOM),
        }
    }

    /// Call the static library.
    pub fn call(&mut self, asked: &Asked) -> Outcome {
        self.call_with_table(asked, &asked.table)
    }

    /// Call the static library with another table.
    pub fn call_with_table(&mut self, asked: &Asked, table: &[u8]) -> Outcome {
        // Each place is that of so many bytes or numbers, and no two of them overlap.
        let number = unsafe {
            raw::supertab_answer(
                self.table.put(table),
                table.len(),
                self.command.put(&asked.command),
                asked.command.len(),
                self.user.put(&asked.user),
                asked.user.len(),
                self.groups.put(&asked.groups),
                asked.groups.len(),
                self.host.put(&asked.host),
                asked.host.len(),
                asked.minute,
                asked.authenticated,
                asked.age,
                self.arguments.put(&asked.arguments),
                asked.arguments.len(),
                self.buffer.put(&asked.buffer),
                asked.buffer.len(),
                self.report.put_numbers(&asked.report),
                asked.report.len(),
            )
        };
        Outcome {
            number,
            buffer: self.buffer.last(asked.buffer.len()).to_vec(),
            report: self.report.last_numbers(asked.report.len()).to_vec(),
        }
    }
}

/// What is wrong with the cause in a report: the reference knows none, so that it is held to the
/// answer only.
fn wrong_cause(outcome: &Outcome) -> Option<String> {
    let told = outcome.report[report::CAUSE];
    let has_cause = matches!(outcome.number, 14 | 15 | 16 | 18);
    let refusal = usize::try_from(told).ok().and_then(Cause::from_number).map(Cause::refusal);
    let good = if has_cause { refusal == Some(outcome.number) } else { told == 0 };
    (!good).then(|| format!("the cause {told} for the answer {}", outcome.number))
}

/// How an outcome differs from what it must be, if it does.
pub fn difference(got: &Outcome, wanted: &Outcome) -> Option<String> {
    if got.number != wanted.number {
        let place = |outcome: &Outcome| outcome.report.first().copied().unwrap_or(0);
        return Some(format!(
            "the answer {} {} instead of {} {}",
            got.number,
            place(got),
            wanted.number,
            place(wanted)
        ));
    }
    if got.number != SMALL_REPORT {
        if let Some(wrong) = wrong_cause(got) {
            return Some(wrong);
        }
    }
    for (index, (told, right)) in got.report.iter().zip(&wanted.report).enumerate() {
        if told != right && (index != report::CAUSE || got.number == SMALL_REPORT) {
            return Some(format!("report[{index}] is {told} instead of {right}"));
        }
    }
    let place = got.buffer.iter().zip(&wanted.buffer).position(|(told, right)| told != right);
    place.map(|place| format!("the buffer differs at {place}"))
}
