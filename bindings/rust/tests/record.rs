//! Log records: bytes worked out by hand from the layout, what is dropped, caps, refusals in order.
//!
//! The layout, most significant bit first: version 3 (1), number 5, line 16, minute 14, auth 1, age
//! below zero 1, size of the age 24; "never" is the sign with size 0.

use supertab::{answer, read_record, write_record, RECORD_LENGTH};
use supertab::{Answer, Cause, Fields, Permission, Question, RecordRefusal, Refusal};

/// The greatest size of an age that is stored.
const CAP: i32 = 16_777_215;

const PLAIN: Fields = Fields { number: 0, line: 7, minute: 600, auth: true, age: Some(30) };

/// Known numbers by the paper: 0 to 5 and 11 to 23.
fn known(number: u8) -> bool {
    number < 6 || (11..24).contains(&number)
}

/// What a record of these fields stores.
fn stored(fields: Fields) -> Fields {
    Fields {
        line: if [0, 1, 3, 4, 5].contains(&fields.number) { fields.line } else { 0 },
        auth: fields.auth && fields.number < 2,
        age: fields.age.map(|age| age.clamp(-CAP, CAP)),
        ..fields
    }
}

fn write(fields: Fields) -> [u8; RECORD_LENGTH] {
    write_record(&fields).unwrap_or_else(|refusal| panic!("{fields:?}: {refusal}"))
}

#[test]
fn by_hand() {
    // 001 00000, 7, 600 in 14 bits with auth 1 and sign 0 (600 * 4 + 2 = 0x0962), 30.
    assert_eq!(write(PLAIN), [0x20, 0x00, 0x07, 0x09, 0x62, 0x00, 0x00, 0x1e]);
    // 001 00010; line and auth are dropped, and the sign alone is "never".
    let none = Fields { number: 2, line: 7, minute: 0, auth: true, age: None };
    assert_eq!(write(none), [0x22, 0x00, 0x00, 0x00, 0x01, 0x00, 0x00, 0x00]);
    // 001 10111; 10,079 * 4 + 1 = 0x9d7d; the least age is stored as the cap.
    let least =
        Fields { number: 23, line: 65_535, minute: 10_079, auth: true, age: Some(i32::MIN) };
    assert_eq!(write(least), [0x37, 0x00, 0x00, 0x9d, 0x7d, 0xff, 0xff, 0xff]);
    // 001 00001; all bits that a record can have beside this number.
    let most = Fields { number: 1, line: 65_535, minute: 10_079, auth: true, age: Some(-CAP) };
    assert_eq!(write(most), [0x21, 0xff, 0xff, 0x9d, 0x7f, 0xff, 0xff, 0xff]);
    // 001 00101; age 0 has no sign.
    let path = Fields { number: 5, line: 258, minute: 1, auth: false, age: Some(0) };
    assert_eq!(write(path), [0x25, 0x01, 0x02, 0x00, 0x04, 0x00, 0x00, 0x00]);
}

#[test]
fn what_was_written_is_read_as_stored() {
    let ages = [0, 1, -1, 30, CAP - 1, CAP, CAP + 1, i32::MAX, 1 - CAP, -CAP, -CAP - 1, i32::MIN];
    for number in (0..=255).filter(|number| known(*number)) {
        for line in [0, 1, 255, 256, 32_768, 65_535] {
            for minute in [0, 1, 600, 8_191, 8_192, 10_079] {
                for auth in [false, true] {
                    for age in ages.into_iter().map(Some).chain([None]) {
                        let fields = Fields { number, line, minute, auth, age };
                        let record = write(fields);
                        assert_eq!(read_record(&record), Ok(stored(fields)), "{fields:?}");
                        assert_eq!(write(stored(fields)), record, "{fields:?}");
                    }
                }
            }
        }
    }
}

#[test]
fn caps() {
    let age = |age: i32| write(Fields { age: Some(age), ..PLAIN });
    assert_ne!(age(CAP - 1), age(CAP));
    assert_eq!(age(CAP + 1), age(CAP));
    assert_eq!(age(i32::MAX), age(CAP));
    assert_ne!(age(1 - CAP), age(-CAP));
    assert_eq!(age(-CAP - 1), age(-CAP));
    assert_eq!(age(i32::MIN), age(-CAP));
    assert_ne!(age(0), write(Fields { age: None, ..PLAIN }));
}

#[test]
fn the_reader_takes_any_bits() {
    // Line 7 and auth beside the answers 2 and 11.
    let record = [0x22, 0x00, 0x07, 0x09, 0x62, 0x00, 0x00, 0x1e];
    assert_eq!(read_record(&record), Ok(Fields { number: 2, ..PLAIN }));
    let record = [0x2b, 0x00, 0x07, 0x09, 0x62, 0x00, 0x00, 0x1e];
    assert_eq!(read_record(&record), Ok(Fields { number: 11, ..PLAIN }));
}

#[test]
fn every_bit_counts() {
    let record = write(PLAIN);
    for bit in 0..64 {
        let other = (u64::from_be_bytes(record) ^ (1 << bit)).to_be_bytes();
        assert_ne!(read_record(&other), Ok(PLAIN), "bit {bit}");
    }
}

#[test]
fn the_writer_refuses() {
    for number in 0..=255 {
        let fields = Fields { number, ..PLAIN };
        let refused = (!known(number)).then_some(RecordRefusal::Number);
        assert_eq!(write_record(&fields).err(), refused, "{number}");
        // The number goes ahead of the minute.
        for minute in [10_080, 16_383, 16_384, 65_535] {
            let refused = refused.unwrap_or(RecordRefusal::Minute);
            assert_eq!(write_record(&Fields { minute, ..fields }), Err(refused), "{number}");
        }
    }
}

#[test]
fn the_reader_refuses() {
    let record = |version: u64, number: u64, minute: u64| {
        (version << 61 | number << 56 | minute << 26).to_be_bytes()
    };
    for version in 0..8 {
        for number in 0..32 {
            for minute in [0, 10_079, 10_080, 16_383] {
                let refused = match (version, known(number as u8), minute) {
                    (0 | 2.., _, _) => Some(RecordRefusal::Version),
                    (1, false, _) => Some(RecordRefusal::Number),
                    (1, true, 10_080..) => Some(RecordRefusal::Minute),
                    _ => None,
                };
                let read = read_record(&record(version, number, minute));
                assert_eq!(read.err(), refused, "{version} {number} {minute}");
            }
        }
    }
    // The length goes ahead of all, whatever the bytes are.
    for length in (0..8).chain(9..=24) {
        for byte in [0x00, 0x20, 0xff] {
            assert_eq!(read_record(&vec![byte; length]), Err(RecordRefusal::Length), "{length}");
        }
    }
}

#[test]
fn answers() {
    let table = b":global patterns=shell\nsetclock /sbin/setclock ann auth=y timeout=15 nargs=0\n";
    let asked = Question {
        command: b"setclock",
        user: b"ann",
        groups: &[],
        host: b"van2",
        minute: 1_049,
        age: Some(15),
        arguments: &[],
    };
    let record = |question: &Question| {
        answer(table, question).record(question.minute, question.age).and_then(|r| read_record(&r))
    };
    let permit = Fields { number: 0, line: 2, minute: 1_049, auth: true, age: Some(15) };
    assert_eq!(record(&asked), Ok(permit));
    let password = Fields { number: 1, age: None, ..permit };
    assert_eq!(record(&Question { age: None, ..asked }), Ok(password));
    let none = Fields { number: 2, line: 0, auth: false, ..permit };
    assert_eq!(record(&Question { user: b"bo", ..asked }), Ok(none));
    let stopped = Fields { number: 3, auth: false, ..permit };
    assert_eq!(record(&Question { arguments: &[b"a"], ..asked }), Ok(stopped));
    // A bad question has no record, whatever its minute is.
    let refused = Err(RecordRefusal::Number);
    assert_eq!(record(&Question { command: b"../x", ..asked }), refused);
    assert_eq!(record(&Question { minute: 10_080, ..asked }), refused);
}

#[test]
fn every_answer_has_its_record() {
    let permission = Permission {
        line: 32_768,
        path: "/p".to_string(),
        uid: None,
        euid: None,
        gid: None,
        egid: None,
        auth: false,
        timeout: None,
        nargs: None,
    };
    let with_auth = Permission { auth: true, ..permission.clone() };
    let told = [
        (Answer::Permit(permission.clone()), 0, 32_768, false),
        (Answer::Permit(with_auth.clone()), 0, 32_768, true),
        (Answer::Password(permission), 1, 32_768, false),
        (Answer::Password(with_auth), 1, 32_768, true),
        (Answer::NoEntry, 2, 0, false),
        (Answer::StoppedByNargs { line: 1 }, 3, 1, false),
        (Answer::StoppedByArgument { line: 2 }, 4, 2, false),
        (Answer::StoppedByPath { line: 3 }, 5, 3, false),
        (Answer::Refused(Refusal::LongTable), 11, 0, false),
        (Answer::Refused(Refusal::RefusedByte { place: 9 }), 12, 0, false),
        (Answer::Refused(Refusal::CutShort { place: 9 }), 13, 0, false),
        (Answer::Refused(Refusal::Line { cause: Cause::Indent, place: 9 }), 14, 0, false),
        (Answer::Refused(Refusal::Line { cause: Cause::TooManyNames, place: 9 }), 18, 0, false),
    ];
    for (answer, number, line, auth) in told {
        let fields = Fields { number, line, minute: 10_079, auth, age: Some(-5) };
        let record = answer.record(10_079, Some(-5)).expect("it has a record");
        assert_eq!(read_record(&record), Ok(fields), "{answer:?}");
        // Numbers of 14 or 16 bits would take 16,384 or 65,536 for 0.
        for minute in [10_080, 16_384, 65_536, u32::MAX] {
            assert_eq!(answer.record(minute, None), Err(RecordRefusal::Minute), "{answer:?}");
        }
    }
}

#[test]
fn told_in_words() {
    let refusals = [
        RecordRefusal::Version,
        RecordRefusal::Number,
        RecordRefusal::Minute,
        RecordRefusal::Length,
    ];
    for (number, refusal) in (1..).zip(refusals) {
        assert_eq!(refusal.number(), number);
        assert_eq!(refusal.to_string(), format!("refused {number}: {}", refusal.words()));
        // What is wrong, and what to do.
        assert_eq!(refusal.words().split("; ").count(), 2, "{refusal}");
    }
}
