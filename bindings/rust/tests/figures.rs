//! Figures of log records: counts and sums worked out by hand, divisions into batches, the limit,
//! refusals, and the laws of the counts.
//!
//! A record here is its first byte (version 001 and the answer's number), the line, minute * 4 +
//! auth * 2 + sign, and the size of the age.

use supertab::{read_record, Figures, FiguresRefusal, FIGURES_LIMIT, RECORD_LENGTH};

type Record = [u8; RECORD_LENGTH];

/// The greatest size of an age that is stored.
const CAP: i64 = 16_777_215;

/// A permit on Monday at 10:00 (600 * 4 + 2 = 0x0962) with age 30.
const PERMIT: Record = [0x20, 0x00, 0x07, 0x09, 0x62, 0x00, 0x00, 0x1e];
/// The same with the greatest age.
const OLDEST: Record = [0x20, 0x00, 0x07, 0x09, 0x62, 0xff, 0xff, 0xff];
/// A password on Sunday at 23:59 (10,079 * 4 + 3 = 0x9d7f) with the least age.
const LEAST: Record = [0x21, 0xff, 0xff, 0x9d, 0x7f, 0xff, 0xff, 0xff];
/// A permit on Tuesday at 0:00 (1,440 * 4 = 0x1680) with age 0.
const ZERO: Record = [0x20, 0x00, 0x01, 0x16, 0x80, 0x00, 0x00, 0x00];
/// It is of version 0.
const REFUSED: Record = [0; RECORD_LENGTH];

/// Fifteen records whose figures [`by_hand`] has.
const WORKED: [Record; 15] = [
    PERMIT,
    REFUSED,
    // A password on Monday at 17:29 (1,049 * 4 + 3 = 0x1067), never given before.
    [0x21, 0x00, 0x03, 0x10, 0x67, 0x00, 0x00, 0x00],
    // A permit on Monday at 0:00, never.
    [0x20, 0x00, 0x05, 0x00, 0x01, 0x00, 0x00, 0x00],
    ZERO,
    // A password on Monday at 23:59 (1,439 * 4 + 1 = 0x167d), age -5.
    [0x21, 0x00, 0x01, 0x16, 0x7d, 0x00, 0x00, 0x05],
    // Version 2.
    [0x40, 0x00, 0x07, 0x09, 0x62, 0x00, 0x00, 0x1e],
    // No entry on Sunday at 23:59, age 15.
    [0x22, 0x00, 0x00, 0x9d, 0x7c, 0x00, 0x00, 0x0f],
    // The numbers 6, 10 and 24.
    [0x26, 0x00, 0x07, 0x09, 0x62, 0x00, 0x00, 0x1e],
    [0x2a, 0x00, 0x07, 0x09, 0x62, 0x00, 0x00, 0x1e],
    [0x38, 0x00, 0x07, 0x09, 0x62, 0x00, 0x00, 0x1e],
    // The refusal 23 on Sunday at 23:59, the least age.
    [0x37, 0x00, 0x00, 0x9d, 0x7d, 0xff, 0xff, 0xff],
    LEAST,
    // A permit at minute 10,080 (10,080 * 4 = 0x9d80), age 30.
    [0x20, 0x00, 0x07, 0x9d, 0x80, 0x00, 0x00, 0x1e],
    OLDEST,
];

/// The figures of whole records that no limit stops.
fn figures_of(bytes: &[u8]) -> Figures {
    let mut figures = Figures::new();
    assert_eq!(figures.feed(bytes), Ok(()));
    figures
}

/// The counts that are not 0, each behind its index.
fn some(counts: Vec<u64>) -> Vec<(usize, u64)> {
    counts.into_iter().enumerate().filter(|(_, count)| *count != 0).collect()
}

/// The answers, weekdays and hours that have records, each with its count.
fn counts(figures: &Figures) -> [Vec<(usize, u64)>; 3] {
    [
        some((0..=255).map(|number| figures.answered(number)).collect()),
        some((0..100).map(|day| figures.on_weekday(day)).collect()),
        some((0..100).map(|hour| figures.in_hour(hour)).collect()),
    ]
}

/// The sum below zero, the other ages' sum and count, refused and given.
fn others(figures: &Figures) -> (i64, i64, u64, u64, u64) {
    let (below, sum) = (figures.sum_below_zero(), figures.age_sum());
    (below, sum, figures.age_count(), figures.refused(), figures.given())
}

/// Each group of counts and the refused records make those given.
fn assert_whole(figures: &Figures) {
    for group in counts(figures) {
        let sum: u64 = group.iter().map(|(_, count)| count).sum();
        assert_eq!(sum + figures.refused(), figures.given(), "{figures:?}");
    }
}

/// Random numbers that are the same in every run.
struct Chance(u64);

impl Chance {
    fn below(&mut self, end: usize) -> usize {
        self.0 =
            self.0.wrapping_mul(6_364_136_223_846_793_005).wrapping_add(1_442_695_040_888_963_407);
        (self.0 >> 33) as usize % end
    }
}

#[test]
fn no_records() {
    let figures = Figures::new();
    assert_eq!(counts(&figures), [vec![], vec![], vec![]]);
    assert_eq!(others(&figures), (0, 0, 0, 0, 0));
    assert_eq!(figures, Figures::default());
    assert_eq!(figures, figures_of(&[]));
}

#[test]
fn by_hand() {
    let figures = figures_of(WORKED.as_flattened());
    let answers = vec![(0, 4), (1, 3), (2, 1), (23, 1)];
    // Monday, Tuesday, Sunday.
    let weekdays = vec![(0, 5), (1, 1), (6, 3)];
    let hours = vec![(0, 2), (10, 2), (17, 1), (23, 4)];
    assert_eq!(counts(&figures), [answers, weekdays, hours]);
    // -5 - 16,777,215; 30 + 0 + 16,777,215.
    assert_eq!(others(&figures), (-16_777_220, 16_777_245, 3, 6, 15));
    assert_whole(&figures);
}

#[test]
fn other_batches() {
    let (bytes, whole) = (WORKED.as_flattened(), figures_of(WORKED.as_flattened()));
    for first in 0..=WORKED.len() {
        for second in first..=WORKED.len() {
            let mut figures = figures_of(&bytes[..first * RECORD_LENGTH]);
            assert_eq!(figures.feed(&bytes[first * RECORD_LENGTH..second * RECORD_LENGTH]), Ok(()));
            assert_eq!(figures.feed(&bytes[second * RECORD_LENGTH..]), Ok(()));
            assert_eq!(figures, whole, "{first} {second}");
        }
    }
    let mut backwards = Figures::new();
    for record in WORKED.iter().rev() {
        assert_eq!(backwards.feed(record), Ok(()));
        assert_eq!(backwards.feed(&[]), Ok(()));
    }
    assert_eq!(backwards, whole);
}

#[test]
fn every_number() {
    for number in 0..32 {
        let mut record = PERMIT;
        record[0] = 0x20 | number;
        let figures = figures_of(&record);
        let known = number < 6 || (11..24).contains(&number);
        let wanted = match known {
            true => [vec![(number.into(), 1)], vec![(0, 1)], vec![(10, 1)]],
            false => [vec![], vec![], vec![]],
        };
        assert_eq!(counts(&figures), wanted, "{number}");
        // Only the answers 0 and 1 have ages that count.
        let ages = if number < 2 { (30, 1) } else { (0, 0) };
        assert_eq!(others(&figures), (0, ages.0, ages.1, (!known).into(), 1), "{number}");
    }
}

#[test]
fn every_minute() {
    let record = |minute: u64| (0x22 << 56 | minute << 26).to_be_bytes();
    let edges = [
        (0, 0, 0),
        (59, 0, 0),
        (60, 0, 1),
        (1_439, 0, 23),
        (1_440, 1, 0),
        (2_879, 1, 23),
        (2_880, 2, 0),
        (4_319, 2, 23),
        (4_320, 3, 0),
        (5_759, 3, 23),
        (5_760, 4, 0),
        (7_199, 4, 23),
        (7_200, 5, 0),
        (8_639, 5, 23),
        (8_640, 6, 0),
        (10_019, 6, 22),
        (10_020, 6, 23),
        (10_079, 6, 23),
    ];
    for (minute, day, hour) in edges {
        let figures = figures_of(&record(minute));
        assert_eq!(counts(&figures), [vec![(2, 1)], vec![(day, 1)], vec![(hour, 1)]], "{minute}");
    }
    let week: Vec<Record> = (0..16_384).map(record).collect();
    let figures = figures_of(week.as_flattened());
    let days = (0..7).map(|day| (day, 24 * 60)).collect();
    let hours = (0..24).map(|hour| (hour, 7 * 60)).collect();
    assert_eq!(counts(&figures), [vec![(2, 10_080)], days, hours]);
    assert_eq!(others(&figures), (0, 0, 0, 16_384 - 10_080, 16_384));
}

#[test]
fn the_limit() {
    let limit = FIGURES_LIMIT as u64;
    let whole = figures_of(&OLDEST.repeat(FIGURES_LIMIT));
    let mut full = whole.clone();
    assert_eq!(others(&full), (0, CAP * 1_000_000, limit, 0, limit));
    assert_eq!(counts(&full), [vec![(0, limit)], vec![(0, limit)], vec![(10, limit)]]);
    // What lies past it leaves the figures, and is told by the batch.
    for records in [1, 3, 1_000] {
        assert_eq!(
            full.feed(&LEAST.repeat(records)),
            Err(FiguresRefusal::PastLimit(records as u64))
        );
        assert_eq!(full, whole);
    }
    assert_eq!(full.feed(&[]), Ok(()));
    for length in [1, 7, 9, 8 * 1_000 + 4] {
        assert_eq!(full.feed(&vec![0x20; length]), Err(FiguresRefusal::NotWhole));
    }
    assert_eq!(full, whole);
    let mut at_once = Figures::new();
    let batch = OLDEST.repeat(FIGURES_LIMIT + 3);
    assert_eq!(at_once.feed(&batch), Err(FiguresRefusal::PastLimit(3)));
    assert_eq!(at_once, whole);
    let mut in_batches = Figures::new();
    for records in batch[..FIGURES_LIMIT * RECORD_LENGTH].chunks(8 * 999) {
        assert_eq!(in_batches.feed(records), Ok(()));
    }
    assert_eq!(in_batches, whole);
    let least = figures_of(&LEAST.repeat(FIGURES_LIMIT));
    assert_eq!(others(&least), (-CAP * 1_000_000, 0, 0, 0, limit));
}

#[test]
fn refused_records_count_for_the_limit() {
    let mut figures = figures_of(&REFUSED.repeat(FIGURES_LIMIT - 2));
    // The first two are within the limit, the last is not.
    let batch = [PERMIT, ZERO, LEAST];
    assert_eq!(figures.feed(batch.as_flattened()), Err(FiguresRefusal::PastLimit(1)));
    assert_eq!(counts(&figures), [vec![(0, 2)], vec![(0, 1), (1, 1)], vec![(0, 1), (10, 1)]]);
    assert_eq!(others(&figures), (0, 30, 2, 999_998, 1_000_000));
    assert_whole(&figures);
    // A record past the limit is refused by it, whatever the record is.
    assert_eq!(figures.feed(&REFUSED), Err(FiguresRefusal::PastLimit(1)));
    assert_eq!(others(&figures), (0, 30, 2, 999_998, 1_000_000));
}

#[test]
fn no_whole_records() {
    let whole = figures_of(&PERMIT);
    let mut figures = whole.clone();
    for length in (1..=32).filter(|length| length % 8 != 0) {
        let batch = &WORKED.as_flattened()[..length];
        assert_eq!(figures.feed(batch), Err(FiguresRefusal::NotWhole), "{length}");
        assert_eq!(figures, whole, "{length}");
    }
    // Also where its whole records would pass the limit.
    let mut batch = PERMIT.repeat(FIGURES_LIMIT + 1);
    batch.push(0x20);
    assert_eq!(figures.feed(&batch), Err(FiguresRefusal::NotWhole));
    assert_eq!(figures, whole);
}

#[test]
fn behind_the_groups() {
    let figures = figures_of(&[PERMIT, LEAST].as_flattened().repeat(1_000));
    for index in [24, 31, 32, 56, 255] {
        assert_eq!(figures.answered(index), 0);
        assert_eq!(figures.in_hour(index.into()), 0);
    }
    for index in [7, 8, 9, 24, usize::MAX] {
        assert_eq!(figures.on_weekday(index), 0);
    }
    assert_eq!(figures.in_hour(usize::MAX), 0);
}

#[test]
fn as_the_records_are_read() {
    let mut chance = Chance(29);
    let mut records = vec![];
    for _ in 0..20_000 {
        let mut record = [(); RECORD_LENGTH].map(|()| chance.below(256) as u8);
        if chance.below(5) != 0 {
            record[0] =
                0x20 | [0, 1, 2, 5, 6, 10, 11, 23, 24, chance.below(32) as u8][chance.below(10)];
        }
        if chance.below(4) == 0 {
            record[5..].fill(0);
        }
        records.push(record);
    }
    let (mut figures, mut rest) = (Figures::new(), records.as_flattened());
    while !rest.is_empty() {
        let (batch, later) = rest.split_at(rest.len().min(8 * chance.below(700)));
        assert_eq!(figures.feed(batch), Ok(()));
        assert_whole(&figures);
        rest = later;
    }
    let mut wanted = [vec![0; 256], vec![0; 100], vec![0; 100]];
    let (mut below, mut sum, mut count, mut refused) = (0, 0, 0, 0);
    for record in &records {
        let Ok(fields) = read_record(record) else {
            refused += 1;
            continue;
        };
        let minute = usize::from(fields.minute);
        wanted[0][usize::from(fields.number)] += 1;
        wanted[1][minute / 1_440] += 1;
        wanted[2][minute % 1_440 / 60] += 1;
        match fields.age.map(i64::from) {
            Some(age) if fields.number < 2 && age < 0 => below += age,
            Some(age) if fields.number < 2 => (sum, count) = (sum + age, count + 1),
            _ => {}
        }
    }
    assert_eq!(counts(&figures), wanted.map(some));
    assert_eq!(others(&figures), (below, sum, count, refused, 20_000));
}

#[test]
fn told_in_words() {
    let refusals = [
        (FiguresRefusal::NotWhole, 1, "refused 1: "),
        (FiguresRefusal::PastLimit(1), 2, "refused 2 for 1 record: "),
        (FiguresRefusal::PastLimit(3), 2, "refused 2 for 3 records: "),
    ];
    for (refusal, number, front) in refusals {
        assert_eq!(refusal.number(), number);
        assert_eq!(refusal.to_string(), format!("{front}{}", refusal.words()));
        // What is wrong, and what to do.
        assert_eq!(refusal.words().split("; ").count(), 2, "{refusal}");
    }
}
