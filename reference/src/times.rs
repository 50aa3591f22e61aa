//! Time conditions.

use crate::bytes::digits;
use crate::fault::Fault;
use crate::pattern::{self, Kind};

/// The minutes of one day.
const DAY: i32 = 24 * 60;

/// The minutes of one week.
pub const WEEK: u64 = 7 * 24 * 60;

/// The days of the week, Monday first.
const DAY_NAMES: [&str; 7] =
    ["monday", "tuesday", "wednesday", "thursday", "friday", "saturday", "sunday"];

/// One time condition of an entry.
pub struct TimeCondition {
    negated: bool,
    items: Vec<TimeItem>,
}

/// The minutes from the first to the last, both counted, of one day or of every day.
pub struct TimeItem {
    first: i32,
    last: i32,
    day: Day,
}

/// The day of a time item.
#[derive(Clone, Copy, PartialEq, Eq)]
enum Day {
    Every,
    /// The day's number, Monday being 0.
    Only(i32),
}

impl TimeCondition {
    /// Read what follows `time~`.
    pub fn read(negated: bool, text: &[u8]) -> Result<TimeCondition, Fault> {
        let mut items = Vec::new();
        for expansion in pattern::expansions(Kind::Time, text)? {
            items.push(TimeItem::read(&expansion).ok_or(Fault::Malformed)?);
        }
        Ok(TimeCondition { negated, items })
    }
}

impl TimeItem {
    /// Read one brace-free item; a bad form gives nothing.
    pub fn read(text: &[u8]) -> Option<TimeItem> {
        if let Some(rest) = text.strip_prefix(b"<=") {
            return TimeItem::compared(rest, |clock| (0, clock));
        }
        if let Some(rest) = text.strip_prefix(b">=") {
            return TimeItem::compared(rest, |clock| (clock, DAY - 1));
        }
        if let Some(rest) = text.strip_prefix(b"<") {
            return TimeItem::compared(rest, |clock| (0, clock - 1));
        }
        if let Some(rest) = text.strip_prefix(b">") {
            return TimeItem::compared(rest, |clock| (clock + 1, DAY - 1));
        }
        if let Some(day) = day(text) {
            return Some(TimeItem { first: 0, last: DAY - 1, day });
        }
        let (clocks, day) = part_day(text)?;
        let dash = clocks.iter().position(|byte| *byte == b'-')?;
        let first = clock(&clocks[..dash])?;
        let last = clock(&clocks[dash + 1..])?;
        if first > last {
            return None;
        }
        Some(TimeItem { first, last, day })
    }

    /// Read `hh[:mm][/day]`, which follows a comparison, and form the minutes from it.
    fn compared(text: &[u8], minutes: fn(i32) -> (i32, i32)) -> Option<TimeItem> {
        let (written, day) = part_day(text)?;
        let (first, last) = minutes(clock(written)?);
        Some(TimeItem { first, last, day })
    }

    /// Whether a minute of the week is one of the item's.
    pub fn matches(&self, minute_of_week: u64) -> bool {
        let minute_of_week = minute_of_week as i32;
        let minute = minute_of_week % DAY;
        let day = Day::Only(minute_of_week / DAY);
        self.first <= minute && minute <= self.last && (self.day == Day::Every || self.day == day)
    }
}

/// Part a text at its first slash into what stands before it and a day.
fn part_day(text: &[u8]) -> Option<(&[u8], Day)> {
    match text.iter().position(|byte| *byte == b'/') {
        Some(slash) => Some((&text[..slash], day(&text[slash + 1..])?)),
        None => Some((text, Day::Every)),
    }
}

/// A day is `*`, or a name or the first three or more letters of it.
fn day(text: &[u8]) -> Option<Day> {
    if text == b"*" {
        return Some(Day::Every);
    }
    if text.len() < 3 {
        return None;
    }
    let lower = text.to_ascii_lowercase();
    let number = DAY_NAMES.iter().position(|name| name.as_bytes().starts_with(&lower))?;
    Some(Day::Only(number as i32))
}

/// The minute of the day of `hh[:mm]`, not after 24:00.
fn clock(text: &[u8]) -> Option<i32> {
    let (hours, minutes) = match text.iter().position(|byte| *byte == b':') {
        Some(colon) => {
            let written = &text[colon + 1..];
            if written.len() != 2 {
                return None;
            }
            (digits(&text[..colon], 2)?, digits(written, 2)?)
        }
        None => (digits(text, 2)?, 0),
    };
    if minutes > 59 {
        return None;
    }
    let minute = (hours * 60 + minutes) as i32;
    if minute > DAY {
        return None;
    }
    Some(minute)
}

/// What one time item, in the order written, says of the minute asked for.
#[derive(Clone, Copy, Debug, PartialEq, Eq)]
pub struct Verdict {
    /// Whether the item's condition is negated.
    pub negated: bool,
    /// Whether the item matches.
    pub matches: bool,
}

/// The rightmost matching item decides; without one all items must be negated.
pub fn accept_verdicts(verdicts: &[Verdict]) -> bool {
    match verdicts.iter().rev().find(|verdict| verdict.matches) {
        Some(verdict) => !verdict.negated,
        None => verdicts.iter().all(|verdict| verdict.negated),
    }
}

/// Whether an entry's time conditions accept a minute of the week.
pub fn accept(conditions: &[TimeCondition], minute_of_week: u64) -> bool {
    let mut verdicts = Vec::new();
    for condition in conditions {
        for item in &condition.items {
            let matches = item.matches(minute_of_week);
            verdicts.push(Verdict { negated: condition.negated, matches });
        }
    }
    accept_verdicts(&verdicts)
}
