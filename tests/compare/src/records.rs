//! Log records, which request (ii) is about: the call and the reference beside each other on fields
//! at their ends, on random ones, on random bytes, on flipped bits and on every length.

use supertab::raw::{field, FIELDS_LENGTH, RECORD_LENGTH, SMALL_FIELDS};

use crate::call::before;
use crate::counts::{result_is, seen, Counts};
use crate::random::Random;
use crate::record_call::{difference, Caller, Outcome, Reading, Writing};
use crate::record_random::{bytes, good_record, numbers_before, writing};
use crate::record_random::{AGES, CAP, KNOWN, LAST_MINUTE, LINES, MINUTES};

/// From so many rounds on every result and every known number must have been seen.
const ENOUGH: u64 = 10_000;

/// The bits of one in so many random records are flipped.
const FLIPPED: usize = 16;

/// How many checks passed and failed; failures are printed, and a random one with the seed that
/// shows it alone.
pub fn run(rounds: u64, seed: u64) -> (u64, u64) {
    let mut counts = Counts::default();
    ends(&mut counts);
    lengths(&mut counts);
    let mut both = Both::new();
    let mut flipped = 0;
    for round in 0..rounds {
        let own_seed = seed.wrapping_add(round);
        let random = &mut Random::new(own_seed);
        let writing = writing(random);
        let numbers = numbers_before(random);
        let from = || format!("compare --records 1 {own_seed}");
        counts.count(from, write_and_read(&mut both, &writing, &numbers));
        let reading = Reading { record: bytes(random), fields: numbers };
        counts.count(from, read_and_write(&mut both, &reading));
        if random.one_in(FLIPPED) {
            flipped += 1;
            counts.count(from, flip(&mut both, &good_record(random)));
        }
    }
    println!("{rounds} rounds: {}", both.printed());
    println!("{flipped} records with each bit flipped; numbers read {}", seen(&both.numbers));
    if rounds >= ENOUGH {
        counts.count(|| "results".to_string(), both.all_seen());
    }
    (counts.passed, counts.failed)
}

/// The call and the reference beside each other, and how often the call gave each result.
struct Both {
    caller: Caller,
    written: [u64; 256],
    read: [u64; 256],
    /// How often a record with each number was read.
    numbers: [u64; 32],
}

impl Both {
    fn new() -> Both {
        Both { caller: Caller::new(), written: [0; 256], read: [0; 256], numbers: [0; 32] }
    }

    /// Write a record with both.
    fn write(&mut self, writing: &Writing) -> Result<Outcome, String> {
        let got = self.caller.write(writing).map_err(|wrong| format!("{wrong}\n  {writing:?}"))?;
        self.written[usize::from(got.result)] += 1;
        // Only a record that is written changes the bytes; this is said without the reference.
        if got.result != 0 && got.record != writing.record {
            return Err(format!("the refusal {} changed the bytes\n  {writing:?}", got.result));
        }
        match difference(&got, &writing.expected()) {
            None => Ok(got),
            Some(wrong) => Err(format!("{wrong}\n  {writing:?}")),
        }
    }

    /// Read a record with both.
    fn read(&mut self, reading: &Reading) -> Result<Outcome, String> {
        let got = self.caller.read(reading).map_err(|wrong| format!("{wrong}\n  {reading:?}"))?;
        self.read[usize::from(got.result)] += 1;
        // Only a record that is read changes the numbers; this is said without the reference.
        if got.result != 0 && got.fields != reading.fields {
            return Err(format!("the refusal {} changed the numbers\n  {reading:?}", got.result));
        }
        if let Some(wrong) = difference(&got, &reading.expected()) {
            return Err(format!("{wrong}\n  {reading:?}"));
        }
        if got.result == 0 {
            self.numbers[got.fields[field::NUMBER] as usize] += 1;
        }
        Ok(got)
    }

    /// Whether each result was given and each known number was read.
    fn all_seen(&self) -> Result<(), String> {
        if let Some(result) = [0, 2, 3, 4].into_iter().find(|result| self.written[*result] == 0) {
            return Err(format!("no write gave {result}"));
        }
        let mut results = [0, 1, 2, 3, 4, usize::from(SMALL_FIELDS)].into_iter();
        if let Some(result) = results.find(|result| self.read[*result] == 0) {
            return Err(format!("no read gave {result}"));
        }
        match KNOWN.iter().find(|number| self.numbers[usize::from(**number)] == 0) {
            Some(number) => Err(format!("no record with the number {number} was read")),
            None => Ok(()),
        }
    }

    fn printed(&self) -> String {
        format!("writing {}; reading {}", seen(&self.written), seen(&self.read))
    }
}

/// Every number, good or not, with every other field at its ends.
fn ends(counts: &mut Counts) {
    let mut both = Both::new();
    let never = [0, 5, -1, i32::MIN].map(|age| (false, age));
    let ages: Vec<(bool, i32)> = AGES.map(|age| (true, age)).into_iter().chain(never).collect();
    let numbers = vec![-99; FIELDS_LENGTH + 1];
    for number in 0..=255 {
        for (line, minute) in LINES.iter().flat_map(|line| MINUTES.map(|minute| (*line, minute))) {
            for (auth, (authenticated, age)) in
                [false, true].into_iter().flat_map(|auth| ages.iter().map(move |age| (auth, *age)))
            {
                let record = before(RECORD_LENGTH);
                let writing = Writing { number, line, minute, auth, authenticated, age, record };
                let result = write_and_read(&mut both, &writing, &numbers);
                counts.count(|| "ends".to_string(), result);
            }
        }
    }
    println!("fields at their ends: {}", both.printed());
}

/// Numbers and minutes to write, and the result for eight bytes.
const WRITTEN: [(u8, u32, u8); 5] =
    [(0, 0, 0), (2, LAST_MINUTE, 0), (10, 0, 2), (23, LAST_MINUTE + 1, 3), (255, u32::MAX, 2)];

/// Bytes to read, and the result for enough numbers: a good record, one of another version and one
/// with an unknown number, then the same past the week.
const READ: [([u8; RECORD_LENGTH], u8); 6] = [
    ([0x20, 0, 9, 0, 2, 0, 0, 7], 0),
    ([0x40, 0, 9, 0, 2, 0, 0, 7], 1),
    ([0x2A, 0, 9, 0, 2, 0, 0, 7], 2),
    ([0x20, 0, 9, 0x9D, 0x82, 0, 0, 7], 3),
    ([0x4A, 0, 9, 0x9D, 0x82, 0, 0, 7], 1),
    ([0x2A, 0, 9, 0x9D, 0x82, 0, 0, 7], 2),
];

/// Every length of the record and of the numbers up to some more than is right.
fn lengths(counts: &mut Counts) {
    let mut both = Both::new();
    for length in 0..=3 * RECORD_LENGTH {
        for (number, minute, result) in WRITTEN {
            let writing = Writing {
                number,
                line: 9,
                minute,
                auth: true,
                authenticated: true,
                age: -7,
                record: before(length),
            };
            let wanted = if length == RECORD_LENGTH { result } else { 4 };
            let checked = both.write(&writing).and_then(|got| result_is(got.result, wanted));
            counts.count(|| format!("writing {length} bytes"), checked);
        }
        for (pattern, result) in READ {
            let record: Vec<u8> = pattern.into_iter().cycle().take(length).collect();
            for room in 0..2 * FIELDS_LENGTH {
                let fields = (0..room as i64).map(|index| -99 - index).collect();
                let reading = Reading { record: record.clone(), fields };
                let wanted = match (room < FIELDS_LENGTH, length == RECORD_LENGTH) {
                    (true, _) => SMALL_FIELDS,
                    (false, false) => 4,
                    (false, true) => result,
                };
                let checked = both.read(&reading).and_then(|got| result_is(got.result, wanted));
                counts.count(|| format!("reading {length} bytes for {room} numbers"), checked);
            }
        }
    }
    println!("lengths: {}", both.printed());
}

/// Write a record and, where none refuses it, read it back: the fields are those that are stored.
fn write_and_read(both: &mut Both, writing: &Writing, numbers: &[i64]) -> Result<(), String> {
    let written = both.write(writing)?;
    if written.result != 0 || numbers.len() < FIELDS_LENGTH {
        return Ok(());
    }
    let read = both.read(&Reading { record: written.record, fields: numbers.to_vec() })?;
    let stored = [&stored(writing)[..], &numbers[FIELDS_LENGTH..]].concat();
    if read.result != 0 || read.fields != stored {
        let got = (read.result, read.fields);
        return Err(format!("read back as {got:?} instead of {stored:?}\n  {writing:?}"));
    }
    Ok(())
}

/// The fields that request (ii) says are stored: auth for 0 and 1 only, no line for 2 and refusals,
/// the age up to the cap.
fn stored(writing: &Writing) -> [i64; FIELDS_LENGTH] {
    let mut fields = [0; FIELDS_LENGTH];
    fields[field::NUMBER] = i64::from(writing.number);
    fields[field::LINE] = if keeps_line(writing.number) { i64::from(writing.line) } else { 0 };
    fields[field::MINUTE] = i64::from(writing.minute);
    fields[field::AUTH] = i64::from(writing.auth && keeps_auth(writing.number));
    if writing.authenticated {
        fields[field::AUTHENTICATED] = 1;
        fields[field::AGE] = i64::from(writing.age.clamp(-CAP, CAP));
    }
    fields
}

fn keeps_line(number: u8) -> bool {
    [0, 1, 3, 4, 5].contains(&number)
}

fn keeps_auth(number: u8) -> bool {
    [0, 1].contains(&number)
}

/// Read a record and, where none refuses it, write its fields: the same bytes come back, but for a
/// line or auth that is not kept.
fn read_and_write(both: &mut Both, reading: &Reading) -> Result<(), String> {
    let read = both.read(reading)?;
    if read.result != 0 {
        return Ok(());
    }
    let told = |index: usize| read.fields[index];
    let number = told(field::NUMBER) as u8;
    let writing = Writing {
        number,
        line: told(field::LINE) as u16,
        minute: told(field::MINUTE) as u32,
        auth: told(field::AUTH) == 1,
        authenticated: told(field::AUTHENTICATED) == 1,
        age: told(field::AGE) as i32,
        record: before(RECORD_LENGTH),
    };
    let mut kept = reading.record.clone();
    if !keeps_line(number) {
        kept[1..3].fill(0);
    }
    if !keeps_auth(number) {
        kept[4] &= !0b10;
    }
    let written = both.write(&writing)?;
    if written.result != 0 || written.record != kept {
        let got = (written.result, written.record);
        return Err(format!("written again as {got:02x?} instead of {kept:02x?}\n  {reading:?}"));
    }
    Ok(())
}

/// Flip each bit of a good record: no other record reads as the same fields.
fn flip(both: &mut Both, record: &[u8]) -> Result<(), String> {
    let whole = both.read(&Reading::of_bytes(record))?;
    if whole.result != 0 {
        return Err(format!("a good record is refused with {}\n  {record:02x?}", whole.result));
    }
    for bit in 0..8 * record.len() {
        let mut flipped = record.to_vec();
        flipped[bit / 8] ^= 0x80 >> (bit % 8);
        let got = both.read(&Reading::of_bytes(&flipped))?;
        if got.result == 0 && got.fields == whole.fields {
            return Err(format!("bit {bit} changes no field\n  {record:02x?}"));
        }
    }
    Ok(())
}
