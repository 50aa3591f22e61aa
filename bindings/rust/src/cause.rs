//! The causes for which a control line is refused.

use std::fmt;

/// Why a control line is refused; [`Cause::words`] says it in a sentence.
#[derive(Clone, Copy, Debug, PartialEq, Eq, Hash)]
#[non_exhaustive]
pub enum Cause {
    /// The joined line has more than 4,096 bytes.
    LineLength,
    /// A continuation line, or the line itself, is not indented as it must be.
    Indent,
    /// A quote is open at the line's end.
    OpenQuote,
    /// There are more than 64 fields.
    FieldCount,
    /// `$` before no name, or before an unknown one.
    Variable,
    /// A field has more than 1,024 bytes after substitution.
    FieldLength,
    /// A set is open, empty or has a range that runs backwards, a brace list is open, a `}` closes
    /// none, or a backslash is last.
    Pattern,
    /// Braces are more than 4 deep, or have more than 64 expansions.
    PatternSize,
    /// The name of a variable has more than 64 bytes.
    NameLength,
    /// The text of a variable has more than 256 bytes.
    TextLength,
    /// A user or group name in an option has more than 64 bytes.
    IdLength,
    /// A fifth `:if` stands inside the others.
    IfDepth,
    /// A user or group alternative has an empty part, a second `@`, or a byte that cannot stand
    /// there.
    Alternative,
    /// A time item is none of the forms.
    TimeItem,
    /// No option has the name before `=` on this kind of line.
    OptionName,
    /// The value is none that the option takes.
    OptionValue,
    /// The pattern kind is not `shell`.
    PatternKind,
    /// An entry stands before `patterns=shell`.
    EntryTooEarly,
    /// No line begins with this colon word.
    ColonWord,
    /// The name of a variable is malformed or built in.
    DefineName,
    /// The operator is neither `==` nor `!=`.
    Operator,
    /// `::` stands behind the pairs.
    LatePair,
    /// The path does not begin with `/`, or has a blank.
    Path,
    /// A field stands behind the last one that the line takes.
    SurplusField,
    /// A part of the line is missing.
    MissingPart,
    /// The same option stands twice.
    OptionTwice,
    /// There are more than 64 names.
    TooManyNames,
}

/// What is told for each cause, in the order of their numbers: the answer, and the words of
/// `docs/check-words.md`.
#[rustfmt::skip]
const TOLD: [(Cause, u8, &str); 27] = [
    (Cause::LineLength, 15, "the line has more than 4,096 bytes, its continuation lines and comments counted; make several lines of it"),
    (Cause::Indent, 14, "the indent is wrong: a line that goes on from a backslash must begin with a blank, and any other line with a field must not; add or remove the blank"),
    (Cause::OpenQuote, 14, "a quote is still open at the end of the line; close it with the same quote, or remove it"),
    (Cause::FieldCount, 15, "the line has more than 64 fields; make several lines of it"),
    (Cause::Variable, 14, "a $ does not stand before a known name; correct the name, define it on an earlier line, or put the $ in single quotes"),
    (Cause::FieldLength, 15, "a field has more than 1,024 bytes once its variables are replaced; shorten it, or make several fields of it"),
    (Cause::Pattern, 14, "a pattern is broken: a [ or { is not closed, a set is empty or a range in it runs backwards, a } closes nothing, or a backslash is last; correct it, or put a backslash before a byte that stands for itself"),
    (Cause::PatternSize, 15, "the braces of a field are more than 4 deep or stand for more than 64 alternatives; make several fields or lines of it"),
    (Cause::NameLength, 15, "the name of a variable has more than 64 bytes; choose a shorter one"),
    (Cause::TextLength, 15, "the text of a variable has more than 256 bytes; shorten it, or share it out over several variables"),
    (Cause::IdLength, 15, "a user or group name in an option has more than 64 bytes; correct it"),
    (Cause::IfDepth, 15, "a fifth :if stands inside four others; leave one of them out"),
    (Cause::Alternative, 14, "a user, group or host pattern is empty, or has a colon, a ~, a second @ or a ! of its own; write USER@HOST, with ! and then user~, group~ or time~ only in front of it, and CmdPat::FullPath only first on the line"),
    (Cause::TimeItem, 14, "a time is in none of the forms 8:30-17/mon, >=8:30/mon (or >, <=, <) and mon; write it so, its start not after its end and nothing later than 24:00"),
    (Cause::OptionName, 14, "a field is none of the options that this line takes; correct the name before its =, or remove the field"),
    (Cause::OptionValue, 14, "an option does not take this value; write a user or group name for an id, y or n for auth, -32768 to 32767 for timeout, n or m-n up to 64 for nargs"),
    (Cause::PatternKind, 16, "no other kind of patterns is known than shell; write patterns=shell"),
    (Cause::EntryTooEarly, 16, "an entry stands before any line that says :global patterns=shell; put that line above it"),
    (Cause::ColonWord, 14, "no line begins with this word; write :define, :global, :global_options or :if"),
    (Cause::DefineName, 14, "the name behind :define is CALLER, HOST or IS_USERTAB, or not a letter or underscore followed by letters, digits and underscores; choose another"),
    (Cause::Operator, 14, "the second word behind :if is neither == nor !=; write one of them, with a blank on either side"),
    (Cause::LatePair, 14, "a :: stands in a path or an option; put all CmdPat::FullPath fields first on the line, and write no other ::"),
    (Cause::Path, 14, "the path does not begin with a slash, or has a blank in it; write it from the slash on, without blanks"),
    (Cause::SurplusField, 14, "a field stands behind the text of :define; put quotes round a text with blanks, or remove the field"),
    (Cause::MissingPart, 14, "a part of the line is missing; write a command, a path and a user or group in an entry, a name and a text behind :define, an option behind :global, A == B and a rest behind :if"),
    (Cause::OptionTwice, 14, "the same option stands twice on the line; keep one of the two"),
    (Cause::TooManyNames, 18, "more than 64 names are defined; remove one, or give a new text to one that is no longer needed"),
];

impl Cause {
    /// The cause with this number, which is 1 for the first.
    #[must_use]
    pub fn from_number(number: usize) -> Option<Cause> {
        TOLD.get(number.checked_sub(1)?).map(|told| told.0)
    }

    /// The number of the cause, from 1 to 27.
    #[must_use]
    pub fn number(self) -> usize {
        self as usize + 1
    }

    /// The answer that the cause gives: 14, 15, 16 or 18.
    #[must_use]
    pub fn refusal(self) -> u8 {
        TOLD[self as usize].1
    }

    /// One sentence: what is wrong, and what to do.
    #[must_use]
    pub fn words(self) -> &'static str {
        TOLD[self as usize].2
    }
}

impl fmt::Display for Cause {
    fn fmt(&self, to: &mut fmt::Formatter) -> fmt::Result {
        to.write_str(self.words())
    }
}
