//! User and group conditions.

use crate::fault::Fault;
use crate::glob;
use crate::pattern::{self, Kind};
use crate::question::Question;

/// Whom a condition speaks of.
#[derive(Clone, Copy, Debug, PartialEq, Eq)]
pub enum Subject {
    User,
    Group,
}

/// One user or group field of an entry.
pub struct UserCondition {
    negated: bool,
    subject: Subject,
    alternatives: Vec<Alternative>,
}

/// One brace-free alternative, parted into its name and its host.
pub struct Alternative {
    pub name: Vec<u8>,
    pub host: Option<Vec<u8>>,
}

impl Alternative {
    /// Part a brace-free expansion at its first free `@`; a bad form gives nothing.
    pub fn read(text: &[u8]) -> Option<Alternative> {
        if text.contains(&b':') || text.contains(&b'~') {
            return None;
        }
        let signs = glob::free_places(text, b'@');
        let (name, host) = match signs[..] {
            [] => (text, None),
            [sign] => (&text[..sign], Some(&text[sign + 1..])),
            _ => return None,
        };
        if !is_good_part(name) || !host.is_none_or(is_good_part) {
            return None;
        }
        Some(Alternative { name: name.to_vec(), host: host.map(<[u8]>::to_vec) })
    }

    fn applies(&self, subject: Subject, question: &Question) -> bool {
        let name_matches = match subject {
            Subject::User => glob::matches(&self.name, &question.user),
            Subject::Group => question.groups.iter().any(|group| glob::matches(&self.name, group)),
        };
        let host_matches = match &self.host {
            Some(host) => glob::matches(host, &question.host),
            None => true,
        };
        name_matches && host_matches
    }
}

fn is_good_part(part: &[u8]) -> bool {
    !part.is_empty() && part[0] != b'!'
}

impl UserCondition {
    /// Read what follows the prefix of a user or group condition.
    pub fn read(negated: bool, subject: Subject, text: &[u8]) -> Result<UserCondition, Fault> {
        let mut alternatives = Vec::new();
        for expansion in pattern::expansions(Kind::Condition, text)? {
            alternatives.push(Alternative::read(&expansion).ok_or(Fault::Malformed)?);
        }
        Ok(UserCondition { negated, subject, alternatives })
    }

    fn applies(&self, question: &Question) -> bool {
        self.alternatives.iter().any(|alternative| alternative.applies(self.subject, question))
    }
}

/// The rightmost condition that applies decides; without one only root is accepted.
pub fn accept(conditions: &[UserCondition], question: &Question) -> bool {
    match conditions.iter().rev().find(|condition| condition.applies(question)) {
        Some(condition) => !condition.negated,
        None => question.user == b"root",
    }
}
