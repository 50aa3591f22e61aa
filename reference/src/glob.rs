//! Brace-free patterns: sets, escapes, wildcards, and the match with a whole name.

/// One thing that a brace-free pattern is made of.
enum Token {
    /// Any run of bytes.
    AnyRun,
    /// Any one byte.
    AnyByte,
    /// This byte.
    Byte(u8),
    /// A byte in the set, or outside it.
    Set(Set),
}

/// A well-formed set that a text begins with.
pub struct Set {
    negated: bool,
    ranges: Vec<(u8, u8)>,
    /// The number of bytes from `[` to `]`, both counted.
    pub length: usize,
}

/// The set that a text beginning with `[` begins with, if it is well formed.
pub fn set_at(text: &[u8]) -> Option<Set> {
    let close = text.iter().position(|byte| *byte == b']')?;
    let negated = text.get(1) == Some(&b'!');
    let begin = if negated { 2 } else { 1 };
    if close <= begin {
        return None;
    }
    let ranges = ranges(&text[begin..close]);
    if ranges.iter().any(|range| range.0 > range.1) {
        return None;
    }
    Some(Set { negated, ranges, length: close + 1 })
}

/// The ranges of a set's content, read left to right; a plain byte is a range of one.
fn ranges(content: &[u8]) -> Vec<(u8, u8)> {
    let mut ranges = Vec::new();
    let mut place = 0;
    while place < content.len() {
        let first = content[place];
        if place + 2 < content.len() && content[place + 1] == b'-' {
            ranges.push((first, content[place + 2]));
            place += 3;
        } else {
            ranges.push((first, first));
            place += 1;
        }
    }
    ranges
}

impl Set {
    fn holds(&self, byte: u8) -> bool {
        let inside = self.ranges.iter().any(|range| range.0 <= byte && byte <= range.1);
        inside != self.negated
    }
}

/// The token that a text of at least one byte begins with, and the number of its bytes.
///
/// A byte that begins no well-formed set or escape stands for itself.
fn token_at(text: &[u8]) -> (Token, usize) {
    match text[0] {
        b'*' => (Token::AnyRun, 1),
        b'?' => (Token::AnyByte, 1),
        b'\\' if text.len() > 1 => (Token::Byte(text[1]), 2),
        b'[' => match set_at(text) {
            Some(set) => {
                let length = set.length;
                (Token::Set(set), length)
            }
            None => (Token::Byte(b'['), 1),
        },
        byte => (Token::Byte(byte), 1),
    }
}

/// Whether a brace-free pattern matches the whole name.
pub fn matches(pattern: &[u8], name: &[u8]) -> bool {
    // For each number of bytes, whether the tokens so far match just that many of the name.
    let mut reached = vec![false; name.len() + 1];
    reached[0] = true;
    let mut place = 0;
    while place < pattern.len() {
        let (token, length) = token_at(&pattern[place..]);
        place += length;
        if let Token::AnyRun = token {
            for count in 1..=name.len() {
                reached[count] = reached[count] || reached[count - 1];
            }
        } else {
            for count in (1..=name.len()).rev() {
                reached[count] = reached[count - 1] && matches_byte(&token, name[count - 1]);
            }
            reached[0] = false;
        }
        if !reached.contains(&true) {
            return false;
        }
    }
    reached[name.len()]
}

fn matches_byte(token: &Token, byte: u8) -> bool {
    match token {
        Token::AnyRun | Token::AnyByte => true,
        Token::Byte(wanted) => byte == *wanted,
        Token::Set(set) => set.holds(byte),
    }
}

/// The places of the bytes outside sets and not after a backslash that are the given byte.
pub fn free_places(pattern: &[u8], sought: u8) -> Vec<usize> {
    let mut places = Vec::new();
    let mut place = 0;
    while place < pattern.len() {
        if pattern[place] == sought {
            places.push(place);
        }
        place += token_at(&pattern[place..]).1;
    }
    places
}
