//! Monthly figures: records are built from their fields, and what they come to is worked out here.

use rule_table::figures::{Figures, Refusal, LIMIT};
use rule_table::figures_cases::reply;
use rule_table::record::{write, Fields, RECORD_LENGTH};

/// A permit on Monday at 0:00 at age 0.
const PERMIT: Fields = Fields { number: 0, line: 3, minute: 0, auth: false, age: Some(0) };

/// Records that no reader takes: another version, an unknown number, a minute past the week.
const REFUSED: [[u8; RECORD_LENGTH]; 3] =
    [[0x40, 0, 0, 0, 0, 0, 0, 9], [0x2A, 0, 0, 0, 0, 0, 0, 9], [0x20, 0, 0, 0x9D, 0x80, 0, 0, 9]];

fn written(fields: Fields) -> [u8; RECORD_LENGTH] {
    let mut record = [0; RECORD_LENGTH];
    assert_eq!(write(&fields, &mut record), Ok(()), "{fields:?}");
    record
}

/// The figures of one batch that is not refused.
fn figures_of(batch: &[u8]) -> Figures {
    let mut figures = Figures::default();
    assert_eq!(figures.feed(batch), Ok(()));
    figures
}

/// Records of all kinds, good and bad, so many of them.
fn mixed(records: usize) -> Vec<u8> {
    let known: Vec<u8> = (0..=5).chain(11..=23).collect();
    let ages = [Some(0), Some(7), Some(-9), None, Some(i32::MAX), Some(i32::MIN)];
    let record = |place: usize| {
        if place % 10 == 9 {
            return REFUSED[place / 10 % 3];
        }
        let minute = (place * 997 % 10_080) as u32;
        let (number, age) = (known[place % known.len()], ages[place % ages.len()]);
        written(Fields { number, minute, age, ..PERMIT })
    };
    (0..records).flat_map(record).collect()
}

/// "How many of each answer number."
#[test]
fn answers() {
    for number in (0..=5).chain(11..=23) {
        let record = written(Fields { number, ..PERMIT });
        let figures = figures_of(&record.repeat(3));
        for (place, count) in figures.answers.into_iter().enumerate() {
            let wanted = if place == usize::from(number) { 3 } else { 0 };
            assert_eq!(count, wanted, "the count of {place} after records of {number}");
        }
    }
}

/// "How many per weekday and per hour of the day": every minute of the week.
#[test]
fn weekdays_and_hours() {
    let mut minutes = 0..10_080;
    let mut all = Figures::default();
    for weekday in 0..7 {
        for hour in 0..24 {
            for minute in minutes.by_ref().take(60) {
                let record = written(Fields { minute, ..PERMIT });
                let figures = figures_of(&record);
                assert_eq!(figures.weekdays[weekday], 1, "minute {minute}");
                assert_eq!(figures.hours[hour], 1, "minute {minute}");
                assert_eq!(figures.weekdays.iter().sum::<u64>(), 1, "minute {minute}");
                assert_eq!(figures.hours.iter().sum::<u64>(), 1, "minute {minute}");
                assert_eq!(all.feed(&record), Ok(()));
            }
        }
    }
    assert_eq!(all.weekdays, [1_440; 7]);
    assert_eq!(all.hours, [420; 24]);
}

/// "The sum of ages of records with answer 0 or 1, apart for those below zero and the rest (ages of
/// 'never' in neither), and the mean age of the latter as sum and count."
#[test]
fn ages() {
    for (age, below_zero_sum, age_sum, age_count) in [
        (None, 0, 0, 0),
        (Some(0), 0, 0, 1),
        (Some(1), 0, 1, 1),
        (Some(-1), -1, 0, 0),
        (Some(16_777_215), 0, 16_777_215, 1),
        (Some(16_777_216), 0, 16_777_215, 1),
        (Some(i32::MAX), 0, 16_777_215, 1),
        (Some(-16_777_215), -16_777_215, 0, 0),
        (Some(i32::MIN), -16_777_215, 0, 0),
    ] {
        for number in (0..=5).chain(11..=23) {
            let figures = figures_of(&written(Fields { number, age, ..PERMIT }));
            let wanted = if number <= 1 { (below_zero_sum, age_sum, age_count) } else { (0, 0, 0) };
            let got = (figures.below_zero_sum, figures.age_sum, figures.age_count);
            assert_eq!(got, wanted, "{age:?} beside {number}");
        }
    }
    let ages = [Some(10), Some(-3), None, Some(0), Some(-4), Some(20)];
    let batch = ages.map(|age| written(Fields { age, ..PERMIT })).concat();
    let figures = figures_of(&batch);
    assert_eq!((figures.below_zero_sum, figures.age_sum, figures.age_count), (-7, 30, 3));
}

/// "A record that (ii) refuses counts as refused only."
#[test]
fn refused_records() {
    for record in REFUSED {
        let figures = figures_of(&record.repeat(4));
        assert_eq!(figures, Figures { refused: 4, given: 4, ..Figures::default() });
    }
}

/// "The answer counts and the refused records together make the number given; so do weekday counts
/// and refused ones."
#[test]
fn what_makes_the_number_given() {
    for records in [0, 1, 9, 10, 1_000] {
        let figures = figures_of(&mixed(records));
        assert_eq!(figures.given, records as u64);
        assert_eq!(figures.refused, records as u64 / 10);
        for counts in [&figures.answers[..], &figures.weekdays[..], &figures.hours[..]] {
            assert_eq!(counts.iter().sum::<u64>() + figures.refused, figures.given);
        }
    }
}

/// "Dividing the records into other batches of whole records changes no figure."
#[test]
fn other_batches() {
    let records = mixed(500);
    let whole = figures_of(&records);
    for size in [1, 2, 3, 7, 64, 499, 500] {
        let mut figures = Figures::default();
        for batch in records.chunks(size * RECORD_LENGTH) {
            assert_eq!(figures.feed(batch), Ok(()));
            assert_eq!(figures.feed(&[]), Ok(()));
        }
        assert_eq!(figures, whole, "batches of {size}");
    }
}

/// "1, a whole batch whose bytes are no multiple of eight"; it "leaves the figures".
#[test]
fn not_whole() {
    let records = mixed(4);
    let before = figures_of(&records);
    for length in 0..=records.len() {
        let mut figures = before.clone();
        let result = figures.feed(&records[..length]);
        if length % RECORD_LENGTH == 0 {
            assert_eq!(result, Ok(()), "{length}");
            assert_eq!(figures.given, 4 + length as u64 / 8, "{length}");
        } else {
            assert_eq!(result, Err(Refusal::NotWhole), "{length}");
            assert_eq!(figures, before, "{length}");
        }
    }
}

/// "2, with how many, each record past the limit; the batch's earlier ones count."
#[test]
fn past_the_limit() {
    let record = written(Fields { age: Some(5), ..PERMIT });
    let almost = record.repeat(LIMIT as usize - 2);
    for (more, past) in [(0, 0), (1, 0), (2, 0), (3, 1), (9, 7)] {
        let mut figures = figures_of(&almost);
        let wanted = if past > 0 { Err(Refusal::PastLimit(past)) } else { Ok(()) };
        assert_eq!(figures.feed(&record.repeat(more)), wanted, "{more} more");
        let given = LIMIT - 2 + more.min(2) as u64;
        assert_eq!((figures.given, figures.answers[0]), (given, given), "{more} more");
        assert_eq!(figures.age_sum, 5 * given as i64, "{more} more");
    }
}

/// Past the limit nothing counts, an empty batch is none too many, and 1 is still 1.
#[test]
fn behind_the_limit() {
    let mut figures = figures_of(&REFUSED[0].repeat(LIMIT as usize));
    let full = Figures { refused: LIMIT, given: LIMIT, ..Figures::default() };
    assert_eq!(figures, full);
    for (batch, result) in [
        (mixed(0), Ok(())),
        (mixed(1), Err(Refusal::PastLimit(1))),
        (mixed(7), Err(Refusal::PastLimit(7))),
        (mixed(1)[1..].to_vec(), Err(Refusal::NotWhole)),
    ] {
        assert_eq!(figures.feed(&batch), result);
        assert_eq!(figures, full);
    }
}

#[test]
fn refusal_numbers() {
    assert_eq!([Refusal::NotWhole, Refusal::PastLimit(3)].map(Refusal::number), [1, 2]);
}

fn answered(case: &str) -> String {
    String::from_utf8(reply(case.as_bytes())).expect("plain text")
}

/// What is told where nothing was counted.
const NOTHING: &str = "0,0,0,0,0,0,0,0,0,0,0,0,0,0,0,0,0,0,0/0,0,0,0,0,0,0/\
    0,0,0,0,0,0,0,0,0,0,0,0,0,0,0,0,0,0,0,0,0,0,0,0/0/0/0/0/0";

#[test]
fn case_answers() {
    assert_eq!(answered("-"), format!(" | {NOTHING}"));
    assert_eq!(answered(""), format!("ok | {NOTHING}"));
    assert_eq!(answered(",,"), format!("ok ok ok | {NOTHING}"));
    assert_eq!(answered("20,*3,20*0,20*7"), format!("1 ok ok 1 | {NOTHING}"));
    // A permit at age 5 and a refused table on Sunday in the last minute, each told in its place.
    assert_eq!(
        answered("2000030006000005,3700009d7dffffff*2"),
        "ok ok | 1,0,0,0,0,0,0,0,0,0,0,0,0,0,0,0,0,0,2/1,0,0,0,0,0,2/\
        1,0,0,0,0,0,0,0,0,0,0,0,0,0,0,0,0,0,0,0,0,0,0,2/0/5/1/0/3"
    );
    // "No entry" is the third, 11 the seventh; ages below zero of answer 1, and a refused record.
    assert_eq!(
        answered("22000000f0000005,2b00000000000000,2100000001000004*3,ffffffffffffffff"),
        "ok ok ok ok | 0,3,1,0,0,0,1,0,0,0,0,0,0,0,0,0,0,0,0/5,0,0,0,0,0,0/\
        4,1,0,0,0,0,0,0,0,0,0,0,0,0,0,0,0,0,0,0,0,0,0,0/-12/0/0/1/6"
    );
    assert_eq!(
        answered("ffffffffffffffff*1000002,00,ff,ffffffffffffffff*2,"),
        format!("2:2 1 1 2:2 ok | {}", NOTHING.replace("/0/0/0/0/0", "/0/0/0/1000000/1000000"))
    );
}

#[test]
fn bad_cases() {
    for bad in
        ["2", "2g", "--", "-,", "20\t", " ", "20*", "20*-1", "20*1*1", "20**1", "20*+1", "2*2"]
    {
        assert_eq!(answered(bad), "bad case", "{bad:?}");
    }
    for too_large in ["20*18446744073709551615", "2020*9223372036854775808", "20*1073741825"] {
        assert_eq!(answered(too_large), "bad case", "{too_large:?}");
    }
}
