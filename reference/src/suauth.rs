//! The su file: who may become whom with which password, by the first line that applies.

use crate::answer::TABLE_LENGTH;
use crate::bytes::{first_refused, is_blank};
use crate::question::{is_good_login, GROUPS, LOGIN_LENGTH};

/// Words that stand for something else in the file and so are no names there.
const WORDS: [&[u8]; 3] = [b"ALL", b"EXCEPT", b"GROUP"];

/// A question, good or not: may the user become the target?
#[derive(Clone, Debug, PartialEq, Eq)]
pub struct Question {
    pub target: Vec<u8>,
    pub user: Vec<u8>,
    pub groups: Vec<Vec<u8>>,
}

impl Question {
    /// Whether the question has the form asked for; `ALL`, `EXCEPT` and `GROUP` are names here.
    pub fn is_good(&self) -> bool {
        is_good_login(&self.target, LOGIN_LENGTH)
            && is_good_login(&self.user, LOGIN_LENGTH)
            && self.groups.len() <= GROUPS
            && self.groups.iter().all(|group| is_good_login(group, LOGIN_LENGTH))
    }
}

/// What a rule does with an attempt that it applies to.
#[derive(Clone, Copy, Debug, PartialEq, Eq)]
pub enum Action {
    Deny,
    NoPassword,
    OwnPassword,
}

/// The one answer to a question.
#[derive(Clone, Copy, Debug, PartialEq, Eq)]
pub enum Answer {
    /// The action of the deciding rule, and the number of its line, from 1.
    Rule {
        action: Action,
        line: usize,
    },
    NoRule,
    Refused {
        number: u8,
        place: usize,
    },
}

/// The two sides of a line and its action.
struct Rule<'file> {
    line: usize,
    to: Id<'file>,
    from: Id<'file>,
    action: Action,
}

/// Whom one side of a line speaks of.
enum Id<'file> {
    All,
    Only(Names<'file>),
    AllExcept(Names<'file>),
}

/// A comma list.
enum Names<'file> {
    Users(Vec<&'file [u8]>),
    Groups(Vec<&'file [u8]>),
}

/// A line is not of the form.
#[derive(Debug)]
struct Malformed;

/// Answer a question from an su file; all lines are read before the answer.
pub fn answer(file: &[u8], question: &Question) -> Answer {
    if !question.is_good() {
        return Answer::Refused { number: 10, place: 0 };
    }
    if file.len() > TABLE_LENGTH {
        return Answer::Refused { number: 11, place: TABLE_LENGTH };
    }
    if let Some(place) = first_refused(file) {
        return Answer::Refused { number: 12, place };
    }
    let mut rules = Vec::new();
    let mut begin = 0;
    let mut number = 1;
    while let Some(length) = file[begin..].iter().position(|byte| *byte == b'\n') {
        match read_line(&file[begin..begin + length], number) {
            Ok(rule) => rules.extend(rule),
            Err(Malformed) => return Answer::Refused { number: 14, place: begin },
        }
        begin += length + 1;
        number += 1;
    }
    // What is left has no newline: a line that was cut, which is not looked at.
    if begin < file.len() {
        return Answer::Refused { number: 13, place: begin };
    }
    match rules.iter().find(|rule| rule.applies(question)) {
        Some(rule) => Answer::Rule { action: rule.action, line: rule.line },
        None => Answer::NoRule,
    }
}

impl Rule<'_> {
    fn applies(&self, question: &Question) -> bool {
        self.to.includes(&question.target, &[])
            && self.from.includes(&question.user, &question.groups)
    }
}

impl Id<'_> {
    fn includes(&self, user: &[u8], groups: &[Vec<u8>]) -> bool {
        match self {
            Id::All => true,
            Id::Only(names) => names.hold(user, groups),
            Id::AllExcept(names) => !names.hold(user, groups),
        }
    }
}

impl Names<'_> {
    /// Whether the user, or one of the groups, is in the list.
    fn hold(&self, user: &[u8], groups: &[Vec<u8>]) -> bool {
        match self {
            Names::Users(users) => users.contains(&user),
            Names::Groups(names) => groups.iter().any(|group| names.contains(&&group[..])),
        }
    }
}

/// Read a line without its newline; a blank one and a comment have no rule.
fn read_line(line: &[u8], number: usize) -> Result<Option<Rule<'_>>, Malformed> {
    let text = without_outer_blanks(line);
    if text.is_empty() || text[0] == b'#' {
        return Ok(None);
    }
    let fields: Vec<&[u8]> = text.split(|byte| *byte == b':').collect();
    let [to, from, action] = fields[..] else {
        return Err(Malformed);
    };
    let to = read_id(to)?;
    if let Id::Only(Names::Groups(_)) | Id::AllExcept(Names::Groups(_)) = to {
        return Err(Malformed);
    }
    let from = read_id(from)?;
    let action = match action {
        b"DENY" => Action::Deny,
        b"NOPASS" => Action::NoPassword,
        b"OWNPASS" => Action::OwnPassword,
        _ => return Err(Malformed),
    };
    Ok(Some(Rule { line: number, to, from, action }))
}

/// A line without the blanks at its two ends.
fn without_outer_blanks(line: &[u8]) -> &[u8] {
    let Some(first) = line.iter().position(|byte| !is_blank(*byte)) else {
        return &[];
    };
    let last = line.iter().rposition(|byte| !is_blank(*byte)).unwrap_or(first);
    &line[first..=last]
}

/// Read one side of a line. Every blank parts, so that two of them, or one in a wrong place, make
/// an empty word or one word too many.
fn read_id(text: &[u8]) -> Result<Id<'_>, Malformed> {
    let words: Vec<&[u8]> = text.split(|byte| is_blank(*byte)).collect();
    match words[..] {
        [b"ALL"] => Ok(Id::All),
        [b"ALL", b"EXCEPT", b"GROUP", list] => Ok(Id::AllExcept(Names::Groups(read_list(list)?))),
        [b"ALL", b"EXCEPT", list] => Ok(Id::AllExcept(Names::Users(read_list(list)?))),
        [b"GROUP", list] => Ok(Id::Only(Names::Groups(read_list(list)?))),
        [list] => Ok(Id::Only(Names::Users(read_list(list)?))),
        _ => Err(Malformed),
    }
}

/// Read one or more names parted by commas.
fn read_list(text: &[u8]) -> Result<Vec<&[u8]>, Malformed> {
    let names: Vec<&[u8]> = text.split(|byte| *byte == b',').collect();
    let is_name = |name: &&[u8]| is_good_login(name, LOGIN_LENGTH) && !WORDS.contains(name);
    if names.iter().all(is_name) {
        Ok(names)
    } else {
        Err(Malformed)
    }
}
