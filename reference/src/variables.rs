//! Variables, and the text of a field after substitution and quote removal.

use crate::bytes::{begins_name, is_quote, is_word};
use crate::fault::Fault;

/// The most bytes of a field's text.
pub const FIELD_LENGTH: usize = 1_024;

/// The most bytes of a variable's name.
pub const NAME_LENGTH: usize = 64;

/// The most bytes of a variable's text.
pub const TEXT_LENGTH: usize = 256;

/// The most different names from `:define`.
pub const NAMES: usize = 64;

/// What can be wrong with any field.
#[derive(Clone, Copy, Debug, PartialEq, Eq)]
pub enum TextFault {
    /// A `$` that stands before no known name.
    BadReference,
    /// The text is too long.
    Long,
}

impl From<TextFault> for Fault {
    fn from(fault: TextFault) -> Fault {
        match fault {
            TextFault::BadReference => Fault::Malformed,
            TextFault::Long => Fault::Size,
        }
    }
}

/// The built-in variables of one question and those defined so far.
pub struct Variables {
    caller: Vec<u8>,
    host: Vec<u8>,
    defined: Vec<(Vec<u8>, Vec<u8>)>,
}

impl Variables {
    /// The built-in variables only.
    pub fn new(user: &[u8], host: &[u8]) -> Variables {
        Variables { caller: user.to_vec(), host: host.to_vec(), defined: Vec::new() }
    }

    /// The text of a variable, if its name is known.
    pub fn lookup(&self, name: &[u8]) -> Option<&[u8]> {
        match name {
            b"CALLER" => Some(&self.caller),
            b"HOST" => Some(&self.host),
            b"IS_USERTAB" => Some(b"no"),
            _ => self.defined.iter().find(|pair| pair.0 == name).map(|pair| pair.1.as_slice()),
        }
    }

    /// Define a variable that is not built in, or replace its text.
    pub fn define(&mut self, name: &[u8], text: &[u8]) -> Result<(), Fault> {
        if let Some(pair) = self.defined.iter_mut().find(|pair| pair.0 == name) {
            pair.1 = text.to_vec();
            return Ok(());
        }
        if self.defined.len() == NAMES {
            return Err(Fault::TooManyNames);
        }
        self.defined.push((name.to_vec(), text.to_vec()));
        Ok(())
    }

    /// The text of a field: quotes removed and variables replaced.
    pub fn text(&self, field: &[u8]) -> Result<Vec<u8>, TextFault> {
        let mut text = Vec::with_capacity(field.len());
        let mut quote = None;
        let mut place = 0;
        while place < field.len() {
            let byte = field[place];
            if quote == Some(byte) {
                quote = None;
            } else if quote.is_none() && is_quote(byte) {
                quote = Some(byte);
            } else if byte == b'$' && quote != Some(b'\'') {
                let reference = reference_at(&field[place..]).ok_or(TextFault::BadReference)?;
                let value = self.lookup(reference.name).ok_or(TextFault::BadReference)?;
                text.extend_from_slice(value);
                place += reference.length;
                continue;
            } else {
                text.push(byte);
            }
            place += 1;
        }
        if text.len() > FIELD_LENGTH {
            return Err(TextFault::Long);
        }
        Ok(text)
    }
}

/// Whether a name is one of the three built-in ones.
pub fn is_built_in(name: &[u8]) -> bool {
    matches!(name, b"CALLER" | b"HOST" | b"IS_USERTAB")
}

/// Whether a name has the form of a variable's name.
pub fn is_variable_name(name: &[u8]) -> bool {
    !name.is_empty() && name_length(name) == name.len()
}

/// The number of bytes of the variable's name that a text begins with.
fn name_length(text: &[u8]) -> usize {
    if !text.first().is_some_and(|first| begins_name(*first)) {
        return 0;
    }
    text.iter().take_while(|byte| is_word(**byte)).count()
}

/// A reference `$NAME` or `$(NAME)` and the number of its bytes.
struct Reference<'field> {
    name: &'field [u8],
    length: usize,
}

/// The reference that a text beginning with `$` begins with, if it is a good one.
fn reference_at(text: &[u8]) -> Option<Reference<'_>> {
    let in_parentheses = text.get(1) == Some(&b'(');
    let begin = if in_parentheses { 2 } else { 1 };
    let end = begin + name_length(&text[begin..]);
    if end == begin {
        return None;
    }
    let name = &text[begin..end];
    if !in_parentheses {
        return Some(Reference { name, length: end });
    }
    if text.get(end) != Some(&b')') {
        return None;
    }
    Some(Reference { name, length: end + 1 })
}
