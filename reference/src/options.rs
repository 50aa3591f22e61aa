//! Options of entries and of `:global` lines.

use crate::bytes::{digits, find, is_login};
use crate::fault::Fault;
use crate::pattern::{self, Kind};

/// The most bytes of a user or group name in an option.
pub const ID_LENGTH: usize = 64;

/// The most digits of a number in an option.
const DIGITS: usize = 5;

/// The most arguments that an option can speak of.
const ARGUMENTS: u32 = 64;

/// On which kind of line an option stands.
#[derive(Clone, Copy, Debug, PartialEq, Eq)]
pub enum Place {
    Global,
    Entry,
}

/// One option as set on a line.
#[derive(Clone, Debug, PartialEq, Eq)]
pub enum Setting {
    Uid(Vec<u8>),
    Euid(Vec<u8>),
    Gid(Vec<u8>),
    Egid(Vec<u8>),
    Auth(bool),
    Timeout(i32),
    Nargs(Range),
    Argument(ArgumentPattern),
    PatternsShell,
}

/// From a number to another, both counted.
#[derive(Clone, Copy, Debug, PartialEq, Eq)]
pub struct Range {
    pub first: u32,
    pub last: u32,
}

impl Range {
    /// Read `n` or `m-n` with m not above n.
    fn read(text: &[u8]) -> Option<Range> {
        let range = match text.iter().position(|byte| *byte == b'-') {
            Some(dash) => Range {
                first: digits(&text[..dash], DIGITS)?,
                last: digits(&text[dash + 1..], DIGITS)?,
            },
            None => {
                let number = digits(text, DIGITS)?;
                Range { first: number, last: number }
            }
        };
        if range.first > range.last || range.last > ARGUMENTS {
            return None;
        }
        Some(range)
    }

    pub fn holds(&self, number: usize) -> bool {
        self.first as usize <= number && number <= self.last as usize
    }
}

/// A pattern that the arguments at some positions, counted from 1, must match.
#[derive(Clone, Debug, PartialEq, Eq)]
pub struct ArgumentPattern {
    pub positions: Range,
    expansions: Vec<Vec<u8>>,
}

impl ArgumentPattern {
    /// The positions covered by the pattern whose argument fails it.
    pub fn failures(&self, arguments: &[Vec<u8>]) -> Vec<usize> {
        let fails = |position: &usize| {
            self.positions.holds(*position)
                && !pattern::any_matches(&self.expansions, &arguments[position - 1])
        };
        (1..=arguments.len()).filter(fails).collect()
    }
}

/// The name of an option, with its numbers if it is an argument pattern.
enum Name {
    Uid,
    Euid,
    Gid,
    Egid,
    Auth,
    Timeout,
    Nargs,
    Argument(Range),
    Patterns,
}

/// The option's name that a text is, if it may stand on this kind of line.
fn name(place: Place, text: &[u8]) -> Option<Name> {
    match text {
        b"uid" => Some(Name::Uid),
        b"euid" => Some(Name::Euid),
        b"gid" => Some(Name::Gid),
        b"egid" => Some(Name::Egid),
        b"auth" => Some(Name::Auth),
        b"timeout" => Some(Name::Timeout),
        b"nargs" => Some(Name::Nargs),
        b"patterns" if place == Place::Global => Some(Name::Patterns),
        _ => {
            let positions = Range::read(text.strip_prefix(b"arg")?)?;
            if positions.first == 0 {
                return None;
            }
            Some(Name::Argument(positions))
        }
    }
}

/// Read a field's text as an option; a text that begins with no option's name gives nothing.
pub fn read(place: Place, text: &[u8]) -> Result<Option<Setting>, Fault> {
    let Some(equals) = text.iter().position(|byte| *byte == b'=') else {
        return Ok(None);
    };
    let Some(name) = name(place, &text[..equals]) else {
        return Ok(None);
    };
    let value = &text[equals + 1..];
    let setting = match name {
        Name::Uid => Setting::Uid(id(value)?),
        Name::Euid => Setting::Euid(id(value)?),
        Name::Gid => Setting::Gid(id(value)?),
        Name::Egid => Setting::Egid(id(value)?),
        Name::Auth => Setting::Auth(yes_or_no(value).ok_or(Fault::Malformed)?),
        Name::Timeout => Setting::Timeout(timeout(value).ok_or(Fault::Malformed)?),
        Name::Nargs => Setting::Nargs(Range::read(value).ok_or(Fault::Malformed)?),
        Name::Argument(positions) => {
            let expansions = pattern::expansions(Kind::Plain, value)?;
            Setting::Argument(ArgumentPattern { positions, expansions })
        }
        Name::Patterns if value == b"shell" => Setting::PatternsShell,
        Name::Patterns => return Err(Fault::PatternKind),
    };
    // On an entry a field with two colons side by side is no option either.
    if place == Place::Entry && find(text, b"::").is_some() {
        return Err(Fault::Malformed);
    }
    Ok(Some(setting))
}

/// An id's size is looked at before its form.
fn id(value: &[u8]) -> Result<Vec<u8>, Fault> {
    if value.len() > ID_LENGTH {
        return Err(Fault::Size);
    }
    let is_name = !value.is_empty() && value.iter().all(|byte| is_login(*byte));
    if !is_name && value != b"<owner>" && value != b"<caller>" {
        return Err(Fault::Malformed);
    }
    Ok(value.to_vec())
}

fn yes_or_no(value: &[u8]) -> Option<bool> {
    match value {
        b"y" => Some(true),
        b"n" => Some(false),
        _ => None,
    }
}

fn timeout(value: &[u8]) -> Option<i32> {
    let number = match value.strip_prefix(b"-") {
        Some(rest) => -(digits(rest, DIGITS)? as i32),
        None => digits(value, DIGITS)? as i32,
    };
    if !(-32_768..=32_767).contains(&number) {
        return None;
    }
    Some(number)
}

/// Whether an option other than an argument pattern stands twice among those of one line.
pub fn has_one_twice(settings: &[Setting]) -> bool {
    let same = |one: &Setting, other: &Setting| {
        std::mem::discriminant(one) == std::mem::discriminant(other)
            && !matches!(one, Setting::Argument(_))
    };
    let repeated =
        |index: usize| settings[..index].iter().any(|other| same(&settings[index], other));
    (0..settings.len()).any(repeated)
}

/// Options in force, those that are not set being nothing.
#[derive(Clone, Debug, Default, PartialEq, Eq)]
pub struct Options {
    pub uid: Option<Vec<u8>>,
    pub euid: Option<Vec<u8>>,
    pub gid: Option<Vec<u8>>,
    pub egid: Option<Vec<u8>>,
    pub auth: Option<bool>,
    pub timeout: Option<i32>,
    pub nargs: Option<Range>,
    pub arguments: Vec<ArgumentPattern>,
}

impl Options {
    /// Set options: an argument pattern is added, any other option is replaced.
    pub fn apply(&mut self, settings: &[Setting]) {
        for setting in settings {
            match setting.clone() {
                Setting::Uid(name) => self.uid = Some(name),
                Setting::Euid(name) => self.euid = Some(name),
                Setting::Gid(name) => self.gid = Some(name),
                Setting::Egid(name) => self.egid = Some(name),
                Setting::Auth(auth) => self.auth = Some(auth),
                Setting::Timeout(minutes) => self.timeout = Some(minutes),
                Setting::Nargs(range) => self.nargs = Some(range),
                Setting::Argument(pattern) => self.arguments.push(pattern),
                Setting::PatternsShell => {}
            }
        }
    }
}

/// Whether a password is needed; a missing timeout counts as 0.
pub fn needs_password(auth: bool, timeout: Option<i32>, age: Option<i32>) -> bool {
    let limit = timeout.unwrap_or(0);
    let is_fresh = match age {
        Some(minutes) => limit > 0 && 0 <= minutes && minutes <= limit,
        None => false,
    };
    auth && !is_fresh
}
