//! Entries.

use crate::bytes::{find, is_blank};
use crate::fault::Fault;
use crate::options::{self, Place, Setting};
use crate::pattern::{self, Kind};
use crate::question::Question;
use crate::times::{self, TimeCondition};
use crate::users::{self, Subject, UserCondition};
use crate::variables::Variables;

/// A command pattern's brace-free expansions and the path that goes with it.
struct Pair {
    command: Vec<Vec<u8>>,
    path: Vec<u8>,
}

/// A well-formed entry.
pub struct Entry {
    pairs: Vec<Pair>,
    users: Vec<UserCondition>,
    times: Vec<TimeCondition>,
    pub settings: Vec<Setting>,
}

impl Entry {
    /// Read an entry from its fields as written.
    pub fn read(fields: &[Vec<u8>], variables: &Variables) -> Result<Entry, Fault> {
        let mut entry =
            Entry { pairs: Vec::new(), users: Vec::new(), times: Vec::new(), settings: Vec::new() };
        // The command pattern of the form with two fields, until its path is met.
        let mut command = None;
        for (index, field) in fields.iter().enumerate() {
            let text = variables.text(field)?;
            let only_pairs_so_far = entry.pairs.len() == index;
            if let (true, Some(colons)) = (only_pairs_so_far, find(&text, b"::")) {
                let command = pattern::expansions(Kind::Plain, &text[..colons])?;
                let path = full_path(&text[colons + 2..])?;
                entry.pairs.push(Pair { command, path });
            } else if index == 0 {
                command = Some(pattern::expansions(Kind::Plain, &text)?);
            } else if let Some(command) = command.take() {
                if find(&text, b"::").is_some() {
                    return Err(Fault::Malformed);
                }
                entry.pairs.push(Pair { command, path: full_path(&text)? });
            } else {
                entry.read_other_field(&text)?;
            }
        }
        let part_missing = entry.pairs.is_empty() || entry.users.is_empty();
        if part_missing || options::has_one_twice(&entry.settings) {
            return Err(Fault::Malformed);
        }
        Ok(entry)
    }

    /// Read an option or a condition.
    fn read_other_field(&mut self, text: &[u8]) -> Result<(), Fault> {
        if let Some(setting) = options::read(Place::Entry, text)? {
            self.settings.push(setting);
            return Ok(());
        }
        let (negated, rest) = match text.strip_prefix(b"!") {
            Some(rest) => (true, rest),
            None => (false, text),
        };
        if let Some(pattern) = rest.strip_prefix(b"time~") {
            self.times.push(TimeCondition::read(negated, pattern)?);
        } else if let Some(pattern) = rest.strip_prefix(b"group~") {
            self.users.push(UserCondition::read(negated, Subject::Group, pattern)?);
        } else if let Some(pattern) = rest.strip_prefix(b"user~") {
            self.users.push(UserCondition::read(negated, Subject::User, pattern)?);
        } else if text.contains(&b'=') {
            return Err(Fault::Malformed);
        } else {
            self.users.push(UserCondition::read(negated, Subject::User, rest)?);
        }
        Ok(())
    }

    /// The path for the question, each `*` replaced by the command, if the entry accepts it.
    pub fn accepted_path(&self, question: &Question) -> Option<Vec<u8>> {
        let matches = |pair: &&Pair| pattern::any_matches(&pair.command, &question.command);
        let pair = self.pairs.iter().find(matches)?;
        if !users::accept(&self.users, question) || !times::accept(&self.times, question.minute) {
            return None;
        }
        let mut path = Vec::new();
        for &byte in &pair.path {
            if byte == b'*' {
                path.extend_from_slice(&question.command);
            } else {
                path.push(byte);
            }
        }
        Some(path)
    }
}

/// A full path begins with a slash and has no blank.
fn full_path(text: &[u8]) -> Result<Vec<u8>, Fault> {
    if text.first() != Some(&b'/') || text.iter().any(|byte| is_blank(*byte)) {
        return Err(Fault::Malformed);
    }
    Ok(text.to_vec())
}
