//! From a table to control lines, and from a control line to its fields as written.

use crate::bytes::{is_blank, is_quote, is_word};
use crate::fault::Fault;

/// The most bytes a joined line may have, its comments counted and its newline not.
pub const JOINED_LENGTH: usize = 4_096;

/// The most fields a control line may have.
pub const FIELDS: usize = 64;

/// One whole control line of a table.
#[derive(Clone, Copy, Debug, PartialEq, Eq)]
pub struct ControlLine<'table> {
    /// The place of its first byte.
    pub begin: usize,
    /// The place just after the newline that ends it.
    pub end: usize,
    /// The number, from 1, of its first physical line.
    pub number: usize,
    /// The number of its physical lines.
    pub physical_lines: usize,
    /// Its bytes without the newline that ends it.
    pub bytes: &'table [u8],
}

/// A table parted into control lines.
#[derive(Debug, PartialEq, Eq)]
pub struct ControlLines<'table> {
    pub whole: Vec<ControlLine<'table>>,
    /// Where the cut control line begins, if the table is cut short.
    pub cut: Option<usize>,
}

/// Part a table at each newline that is not directly after a backslash.
pub fn control_lines(table: &[u8]) -> ControlLines<'_> {
    let mut whole = Vec::new();
    let mut begin = 0;
    let mut number = 1;
    let mut physical_lines = 0;
    for place in 0..table.len() {
        if table[place] != b'\n' {
            continue;
        }
        physical_lines += 1;
        if place > 0 && table[place - 1] == b'\\' {
            continue;
        }
        let end = place + 1;
        let bytes = &table[begin..place];
        whole.push(ControlLine { begin, end, number, physical_lines, bytes });
        begin = end;
        number += physical_lines;
        physical_lines = 0;
    }
    let cut = if begin < table.len() { Some(begin) } else { None };
    ControlLines { whole, cut }
}

/// A control line after its physical lines are joined.
#[derive(Debug, PartialEq, Eq)]
pub struct Joined {
    /// The number of bytes of the joined line, comments counted.
    pub length: usize,
    /// Whether each continuation line that needs an indent has one.
    pub indented: bool,
    /// The joined line without its comments.
    pub text: Vec<u8>,
}

/// Join the physical lines of a control line and leave out its comments.
pub fn join(line: &[u8]) -> Joined {
    let all_comment = line.first() == Some(&b'#');
    let mut joined = Joined { length: 0, indented: true, text: Vec::with_capacity(line.len()) };
    let mut quote = None;
    let mut comment = false;
    let mut place = 0;
    while place < line.len() {
        let byte = line[place];
        if byte == b'\\' && line.get(place + 1) == Some(&b'\n') {
            place += 2;
            let begins_blank = line.get(place).is_some_and(|next| is_blank(*next));
            if !all_comment && !begins_blank {
                joined.indented = false;
            }
            while line.get(place).is_some_and(|next| is_blank(*next)) {
                place += 1;
            }
            let after_word = joined.text.last().is_some_and(|last| is_word(*last));
            if comment || after_word {
                joined.text.push(b' ');
                joined.length += 1;
            }
            comment = all_comment;
            continue;
        }
        place += 1;
        joined.length += 1;
        if quote.is_none() && byte == b'#' {
            comment = true;
        }
        if comment {
            continue;
        }
        if quote == Some(byte) {
            quote = None;
        } else if quote.is_none() && is_quote(byte) {
            quote = Some(byte);
        }
        joined.text.push(byte);
    }
    joined
}

/// Part a joined line at its blanks outside quotes; an open quote gives nothing.
pub fn part_fields(text: &[u8]) -> Option<Vec<Vec<u8>>> {
    let mut fields = Vec::new();
    let mut begin = 0;
    let mut quote = None;
    for (place, &byte) in text.iter().enumerate() {
        if quote.is_none() && is_blank(byte) {
            if begin < place {
                fields.push(text[begin..place].to_vec());
            }
            begin = place + 1;
        } else if quote == Some(byte) {
            quote = None;
        } else if quote.is_none() && is_quote(byte) {
            quote = Some(byte);
        }
    }
    if begin < text.len() {
        fields.push(text[begin..].to_vec());
    }
    if quote.is_some() {
        return None;
    }
    Some(fields)
}

/// What can be wrong with a control line before its fields are looked at.
#[derive(Clone, Copy, Debug, PartialEq, Eq)]
pub enum LineFault {
    /// The joined line is too long.
    Long,
    /// A continuation line has no indent, or the line begins with a blank and has a field.
    Indent,
    /// A quote is open at the line's end.
    Quote,
    /// The line has too many fields.
    Fields,
}

impl From<LineFault> for Fault {
    fn from(fault: LineFault) -> Fault {
        match fault {
            LineFault::Long | LineFault::Fields => Fault::Size,
            LineFault::Indent | LineFault::Quote => Fault::Malformed,
        }
    }
}

/// The fields of a control line as written: joined, comments gone, quotes still there.
pub fn fields_as_written(line: &[u8]) -> Result<Vec<Vec<u8>>, LineFault> {
    let joined = join(line);
    if joined.length > JOINED_LENGTH {
        return Err(LineFault::Long);
    }
    let blank_first = line.first().is_some_and(|first| is_blank(*first));
    let has_field = joined.text.iter().any(|byte| !is_blank(*byte));
    if !joined.indented || (blank_first && has_field) {
        return Err(LineFault::Indent);
    }
    let fields = part_fields(&joined.text).ok_or(LineFault::Quote)?;
    if fields.len() > FIELDS {
        return Err(LineFault::Fields);
    }
    Ok(fields)
}

/// Whether fields as written are those of a line that begins with a colon.
pub fn is_colon_line(fields: &[Vec<u8>]) -> bool {
    fields.first().is_some_and(|first| first.first() == Some(&b':'))
}
