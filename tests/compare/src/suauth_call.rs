//! One call of the su file's function of the static library, what the reference says it must give,
//! and the difference.

use rule_table::question::zero_ended_strings;
use rule_table::suauth::{self, Action, Answer, Question};
use supertab::raw::{self, su, SMALL_SU_REPORT, SU_REPORT_LENGTH};
use supertab::zero_ended;

use crate::guards::{guarded, twice, unguarded, GUARDS, GUARD_BYTE, GUARD_NUMBER};
use crate::lent::Lent;

/// What a call is given.
#[derive(Clone, Debug, PartialEq, Eq)]
pub struct Asked {
    pub file: Vec<u8>,
    pub target: Vec<u8>,
    pub user: Vec<u8>,
    /// Zero-ended strings, or any other bytes.
    pub groups: Vec<u8>,
    /// What the report holds beforehand.
    pub report: Vec<i64>,
}

/// What a call gives: its result, and what it leaves in the report.
#[derive(Clone, Debug, PartialEq, Eq)]
pub struct Outcome {
    pub result: u8,
    pub report: Vec<i64>,
}

impl Outcome {
    pub fn is_decision(&self) -> bool {
        [su::NOPASS, su::OWNPASS, su::NO_RULE, su::DENY].contains(&self.result)
    }

    /// The answer line of a case, told from the result and the report alone.
    pub fn printed(&self) -> String {
        match (self.result, self.report[0]) {
            (su::DENY, line) => format!("DENY {line}"),
            (su::NOPASS, line) => format!("NOPASS {line}"),
            (su::OWNPASS, line) => format!("OWNPASS {line}"),
            (su::NO_RULE, 0) => "none".to_string(),
            (refusal @ su::BAD_QUESTION..=su::MALFORMED, place) => format!("{refusal} {place}"),
            // The header knows no others.
            (result, told) => format!("{result}?{told}"),
        }
    }
}

impl Asked {
    /// What a case asks.
    pub fn of_case(file: Vec<u8>, question: &Question) -> Asked {
        Asked {
            file,
            target: question.target.clone(),
            user: question.user.clone(),
            groups: zero_ended(&question.groups),
            report: vec![-99; SU_REPORT_LENGTH],
        }
    }

    /// The question as the reference takes it. Bytes behind the last zero byte make a list that is
    /// none; an empty group stands for them, which makes the question bad likewise.
    pub fn question(&self) -> Question {
        let (groups, rest) = zero_ended_strings(&self.groups);
        let mut groups: Vec<Vec<u8>> = groups.iter().map(|group| group.to_vec()).collect();
        if !rest.is_empty() {
            groups.push(Vec::new());
        }
        Question { target: self.target.clone(), user: self.user.clone(), groups }
    }

    /// What the reference says the call must give.
    pub fn expected(&self) -> Outcome {
        self.expected_of(&self.file)
    }

    /// What the reference says the call must give for another file.
    pub fn expected_of(&self, file: &[u8]) -> Outcome {
        let mut report = self.report.clone();
        if report.len() < SU_REPORT_LENGTH {
            return Outcome { result: SMALL_SU_REPORT, report };
        }
        let (result, told) = match suauth::answer(file, &self.question()) {
            Answer::Rule { action: Action::NoPassword, line } => (su::NOPASS, line),
            Answer::Rule { action: Action::OwnPassword, line } => (su::OWNPASS, line),
            Answer::Rule { action: Action::Deny, line } => (su::DENY, line),
            Answer::NoRule => (su::NO_RULE, 0),
            Answer::Refused { number, place } => (number, place),
        };
        report[0] = told as i64;
        Outcome { result, report }
    }
}

/// How an outcome differs from what it must be, if it does.
pub fn difference(got: &Outcome, wanted: &Outcome) -> Option<String> {
    (got != wanted).then(|| {
        format!(
            "the result {} with {:?} instead of {} with {:?}",
            got.result, got.report, wanted.result, wanted.report
        )
    })
}

/// The memory that calls are given.
pub struct Caller {
    file: Lent,
    target: Lent,
    user: Lent,
    groups: Lent,
    report: Lent,
}

impl Caller {
    pub fn new() -> Caller {
        Caller {
            file: Lent::new(1),
            target: Lent::new(1),
            user: Lent::new(1),
            groups: Lent::new(1),
            report: Lent::new(1),
        }
    }

    /// Call the static library; what a call does beside the memory that it was lent is an error.
    pub fn call(&mut self, asked: &Asked) -> Result<Outcome, String> {
        twice(|behind| self.call_between(asked, &asked.file, behind), difference)
    }

    /// Call the static library once, with another file.
    pub fn call_with_file(&mut self, asked: &Asked, file: &[u8]) -> Result<Outcome, String> {
        self.call_between(asked, file, 0)
    }

    fn call_between(
        &mut self,
        asked: &Asked,
        file: &[u8],
        behind: usize,
    ) -> Result<Outcome, String> {
        let [file_bytes, target, user, groups] = [file, &asked.target, &asked.user, &asked.groups]
            .map(|bytes| guarded(bytes, GUARD_BYTE, behind));
        let report = guarded(&asked.report, GUARD_NUMBER, behind);
        // Each place is that of so many bytes or numbers behind the guards.
        let result = unsafe {
            raw::supertab_su_answer(
                self.file.put(&file_bytes).add(GUARDS),
                file.len(),
                self.target.put(&target).add(GUARDS),
                asked.target.len(),
                self.user.put(&user).add(GUARDS),
                asked.user.len(),
                self.groups.put(&groups).add(GUARDS),
                asked.groups.len(),
                self.report.put_numbers(&report).add(GUARDS),
                asked.report.len(),
            )
        };
        for (name, lent, bytes) in [
            ("file", &self.file, file_bytes),
            ("target", &self.target, target),
            ("user", &self.user, user),
            ("groups", &self.groups, groups),
        ] {
            if lent.last(bytes.len()) != bytes {
                return Err(format!("the call changed what it was lent to read: {name}"));
            }
        }
        let report = unguarded(self.report.last_numbers(report.len()), GUARD_NUMBER, behind)?;
        Ok(Outcome { result, report })
    }
}

#[cfg(test)]
mod tests {
    use super::*;

    fn asked(file: &[u8], groups: &[u8], report: &[i64]) -> Asked {
        let (target, user) = (b"root".to_vec(), b"ann".to_vec());
        Asked {
            file: file.to_vec(),
            target,
            user,
            groups: groups.to_vec(),
            report: report.to_vec(),
        }
    }

    #[test]
    fn what_is_expected() {
        for (file, groups, result, told) in [
            (&b"\nroot:ann:NOPASS\n"[..], &b""[..], 0, 2),
            (b"root:GROUP ops:OWNPASS\n", b"dev\0ops\0", 1, 1),
            (b"root:bo:DENY\n", b"", 2, 0),
            (b"#\n#\nroot:ann:DENY\n", b"", 3, 3),
            (b"", b"ops", 10, 0),
            (b"", b"ops\0\0", 10, 0),
            (b"#\nx\n", b"", 14, 2),
        ] {
            let outcome = asked(file, groups, &[7, 8, 9]).expected();
            assert_eq!(outcome, Outcome { result, report: vec![told, 8, 9] });
        }
        assert_eq!(asked(b"", b"", &[]).expected(), Outcome { result: 255, report: Vec::new() });
    }

    #[test]
    fn what_is_printed() {
        for (result, told, line) in [
            (0, 4, "NOPASS 4"),
            (1, 5, "OWNPASS 5"),
            (2, 0, "none"),
            (3, 6, "DENY 6"),
            (11, 32_768, "11 32768"),
            (14, 0, "14 0"),
            (2, 1, "2?1"),
            (4, 1, "4?1"),
            (15, 0, "15?0"),
            (255, -99, "255?-99"),
        ] {
            assert_eq!(Outcome { result, report: vec![told] }.printed(), line);
        }
    }

    #[test]
    fn differences() {
        let outcome = Outcome { result: 3, report: vec![1, 5] };
        assert_eq!(difference(&outcome, &outcome), None);
        for (result, report) in [(0, vec![1, 5]), (3, vec![2, 5]), (3, vec![1, 6])] {
            assert!(difference(&Outcome { result, report }, &outcome).is_some());
        }
    }
}
