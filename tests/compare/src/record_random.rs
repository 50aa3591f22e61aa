//! Fields and bytes of log records: their ends, and random ones.

use supertab::raw::{FIELDS_LENGTH, RECORD_LENGTH};

use crate::random::Random;
use crate::record_call::Writing;

/// The answer numbers that a record may have.
pub const KNOWN: [u8; 19] = [0, 1, 2, 3, 4, 5, 11, 12, 13, 14, 15, 16, 17, 18, 19, 20, 21, 22, 23];

/// The last minute of the week.
pub const LAST_MINUTE: u32 = 10_079;

/// The largest size of an age that is stored.
pub const CAP: i32 = 16_777_215;

/// Lines where a byte or a bit more begins.
pub const LINES: [u16; 7] = [0, 1, 255, 256, 32_767, 32_768, 65_535];

/// Minutes at the ends of the week, of 14 bits and of 16 bits, and some whose low bits alone would
/// be a good one.
pub const MINUTES: [u32; 11] = [
    0,
    1,
    LAST_MINUTE - 1,
    LAST_MINUTE,
    LAST_MINUTE + 1,
    16_383,
    16_384,
    65_535,
    65_536,
    65_536 + LAST_MINUTE,
    u32::MAX,
];

/// Ages at zero, at the cap and at the ends of 32 bits.
pub const AGES: [i32; 13] = [
    0,
    1,
    -1,
    CAP - 1,
    CAP,
    CAP + 1,
    2 * CAP + 2,
    1 - CAP,
    -CAP,
    -CAP - 1,
    -2 * CAP - 2,
    i32::MAX,
    i32::MIN,
];

/// Fields to write: most of them good, many at their ends.
pub fn writing(random: &mut Random) -> Writing {
    let number = match random.below(8) {
        0 => random.byte(),
        1 => random.below(32) as u8,
        _ => end(random, &KNOWN),
    };
    let minute = match random.below(16) {
        0 => random.number(),
        1 => random.below(65_536) as u32,
        2..=4 => end(random, &MINUTES),
        _ => random.below(10_080) as u32,
    };
    let line = if random.one_in(4) { end(random, &LINES) } else { random.number() as u16 };
    let age = match random.below(4) {
        0 => random.number() as i32,
        1 => end(random, &AGES),
        _ => random.below(2 * CAP as usize + 1) as i32 - CAP,
    };
    let length =
        if random.one_in(30) { random.below(3 * RECORD_LENGTH + 1) } else { RECORD_LENGTH };
    Writing {
        number,
        line,
        minute,
        auth: random.one_in(2),
        authenticated: !random.one_in(6),
        age,
        record: (0..length).map(|_| random.byte()).collect(),
    }
}

fn end<T: Copy>(random: &mut Random, ends: &[T]) -> T {
    ends[random.below(ends.len())]
}

/// What the numbers hold beforehand; a few times they are too few.
pub fn numbers_before(random: &mut Random) -> Vec<i64> {
    let room = match random.below(60) {
        0 => random.below(FIELDS_LENGTH),
        1 => FIELDS_LENGTH - 1,
        _ => FIELDS_LENGTH + random.below(3),
    };
    (0..room).map(|_| i64::from(random.number()) - (1 << 31)).collect()
}

/// Bytes to read: most of them a good record, a few not even eight.
pub fn bytes(random: &mut Random) -> Vec<u8> {
    let mut record = good_record(random);
    match random.below(16) {
        0 => record[0] = random.byte(),
        1 => record[0] = 0x20 | (random.byte() & 0x1F),
        2 => record[3] = random.byte(),
        // About half of these minutes are past the week, by a few only.
        3 => record[3..5].copy_from_slice(&[0x9D, random.byte()]),
        4 => record.truncate(random.below(RECORD_LENGTH)),
        5 => record.extend((0..1 + random.below(2 * RECORD_LENGTH)).map(|_| random.byte())),
        6 => record.fill_with(|| random.byte()),
        _ => {}
    }
    record
}

/// A record that a reader takes, a line or auth beside any answer, its age often at an end.
pub fn good_record(random: &mut Random) -> Vec<u8> {
    let number = end(random, &KNOWN);
    let minute = match random.below(4) {
        0 => end(random, &[0, 1, LAST_MINUTE]),
        _ => random.below(10_080) as u32,
    };
    let (line, auth) =
        if random.one_in(2) { (0, 0) } else { (random.number() as u16, random.number() & 1) };
    let sign = random.number() & 1;
    let size = match random.below(4) {
        0 => end(random, &[0, 1, CAP as u32]),
        _ => random.number() & CAP as u32,
    };
    let [line_high, line_low] = line.to_be_bytes();
    let [middle_high, middle_low] = ((4 * minute + 2 * auth + sign) as u16).to_be_bytes();
    let [_, size_high, size_middle, size_low] = size.to_be_bytes();
    vec![
        0x20 | number,
        line_high,
        line_low,
        middle_high,
        middle_low,
        size_high,
        size_middle,
        size_low,
    ]
}
