//! Patterns with brace lists: their form, depth, number of expansions, and the expansions.

use crate::fault::Fault;
use crate::glob;

/// How deep written braces may go.
pub const DEPTH: usize = 4;

/// The most brace-free expansions of a field.
pub const EXPANSIONS: usize = 64;

/// How the bytes of a pattern are read.
#[derive(Clone, Copy, Debug, PartialEq, Eq)]
pub enum Kind {
    /// A command or argument pattern: commas at the top level are plain.
    Plain,
    /// A user or group condition: commas at the top level part alternatives.
    Condition,
    /// A time condition: as a condition, but without sets and escapes.
    Time,
}

/// A pattern's alternatives at its top level.
pub struct Pattern<'text> {
    alternatives: Vec<Sequence<'text>>,
}

/// Pieces that stand one after the other.
type Sequence<'text> = Vec<Piece<'text>>;

/// A part of a pattern.
enum Piece<'text> {
    /// Bytes without brace lists.
    Text(&'text [u8]),
    /// The alternatives of one brace list.
    List(Vec<Sequence<'text>>),
}

impl<'text> Pattern<'text> {
    /// Read a pattern; a malformed one gives nothing.
    pub fn read(kind: Kind, text: &'text [u8]) -> Option<Pattern<'text>> {
        let mut reader = PatternReader { kind, text, place: 0 };
        let mut alternatives = vec![reader.sequence(kind != Kind::Plain)?];
        while reader.next_is(b',') {
            reader.place += 1;
            alternatives.push(reader.sequence(true)?);
        }
        // What is left begins with a `}` outside a list.
        if reader.place < text.len() {
            return None;
        }
        Some(Pattern { alternatives })
    }

    /// How deep the written braces go.
    pub fn depth(&self) -> usize {
        deepest(&self.alternatives)
    }

    /// The number of brace-free expansions, or nothing if it is over the limit.
    pub fn number(&self) -> Option<usize> {
        let number = count_alternatives(&self.alternatives);
        if number > EXPANSIONS {
            return None;
        }
        Some(number)
    }

    /// All brace-free expansions, or nothing if the depth or the number is over its limit.
    pub fn expansions(&self) -> Option<Vec<Vec<u8>>> {
        if self.depth() > DEPTH {
            return None;
        }
        self.number()?;
        Some(expand_alternatives(&self.alternatives))
    }
}

/// The brace-free expansions of a pattern, its form looked at before its depth and number.
pub fn expansions(kind: Kind, text: &[u8]) -> Result<Vec<Vec<u8>>, Fault> {
    let pattern = Pattern::read(kind, text).ok_or(Fault::Malformed)?;
    pattern.expansions().ok_or(Fault::Size)
}

/// Whether one of the brace-free expansions matches the whole name.
pub fn any_matches(expansions: &[Vec<u8>], name: &[u8]) -> bool {
    expansions.iter().any(|expansion| glob::matches(expansion, name))
}

/// The place up to which a pattern is read.
struct PatternReader<'text> {
    kind: Kind,
    text: &'text [u8],
    place: usize,
}

impl<'text> PatternReader<'text> {
    fn next_is(&self, byte: u8) -> bool {
        self.text.get(self.place) == Some(&byte)
    }

    /// Read pieces up to the end, a `}`, or a comma where commas part.
    fn sequence(&mut self, commas_part: bool) -> Option<Sequence<'text>> {
        let mut pieces = Vec::new();
        let ends = |byte: u8| byte == b'}' || (byte == b',' && commas_part);
        while let Some(&byte) = self.text.get(self.place) {
            if ends(byte) {
                break;
            }
            if byte == b'{' {
                pieces.push(Piece::List(self.list()?));
                continue;
            }
            let begin = self.place;
            while self.text.get(self.place).is_some_and(|next| *next != b'{' && !ends(*next)) {
                self.place += self.length_of_next()?;
            }
            pieces.push(Piece::Text(&self.text[begin..self.place]));
        }
        Some(pieces)
    }

    /// Read a brace list with its braces.
    fn list(&mut self) -> Option<Vec<Sequence<'text>>> {
        self.place += 1;
        let mut alternatives = vec![self.sequence(true)?];
        while self.next_is(b',') {
            self.place += 1;
            alternatives.push(self.sequence(true)?);
        }
        if !self.next_is(b'}') {
            return None;
        }
        self.place += 1;
        Some(alternatives)
    }

    /// The number of bytes of the set, escape or plain byte that is next.
    fn length_of_next(&self) -> Option<usize> {
        let rest = &self.text[self.place..];
        if self.kind == Kind::Time {
            return Some(1);
        }
        match rest[0] {
            b'\\' if rest.len() < 2 => None,
            b'\\' => Some(2),
            b'[' => glob::set_at(rest).map(|set| set.length),
            _ => Some(1),
        }
    }
}

/// The greatest depth of the lists in some alternatives.
fn deepest(alternatives: &[Sequence]) -> usize {
    let pieces = alternatives.iter().flatten();
    pieces.map(depth_of_piece).max().unwrap_or(0)
}

fn depth_of_piece(piece: &Piece) -> usize {
    match piece {
        Piece::Text(_) => 0,
        Piece::List(alternatives) => 1 + deepest(alternatives),
    }
}

/// The number of expansions, where anything over the limit counts as one more than it.
fn count_alternatives(alternatives: &[Sequence]) -> usize {
    let sum = |total: usize, sequence| capped(total + count_sequence(sequence));
    alternatives.iter().fold(0, sum)
}

fn count_sequence(sequence: &Sequence) -> usize {
    sequence.iter().fold(1, |product, piece| match piece {
        Piece::Text(_) => product,
        Piece::List(alternatives) => capped(product * count_alternatives(alternatives)),
    })
}

fn capped(number: usize) -> usize {
    number.min(EXPANSIONS + 1)
}

fn expand_alternatives(alternatives: &[Sequence]) -> Vec<Vec<u8>> {
    alternatives.iter().flat_map(expand_sequence).collect()
}

/// Every expansion of the pieces so far is followed by every expansion of the next piece.
fn expand_sequence(sequence: &Sequence) -> Vec<Vec<u8>> {
    let mut expansions = vec![Vec::new()];
    for piece in sequence {
        match piece {
            Piece::Text(text) => {
                for expansion in &mut expansions {
                    expansion.extend_from_slice(text);
                }
            }
            Piece::List(alternatives) => {
                let continuations = expand_alternatives(alternatives);
                let mut longer = Vec::new();
                for expansion in &expansions {
                    for continuation in &continuations {
                        longer.push([expansion.as_slice(), continuation.as_slice()].concat());
                    }
                }
                expansions = longer;
            }
        }
    }
    expansions
}
