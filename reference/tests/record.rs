//! Log records: each expected record is written out bit by bit, parted at its fields.
//!
//! The fields are version 3 bits, answer number 5, line 16, minute 14, auth 1, sign 1, size 24.
#![allow(clippy::unusual_byte_groupings)]

use rule_table::record::{read, write, Fields, Refusal};
use rule_table::record_cases::{reply_to_reading, reply_to_writing};

/// What a refused write must leave.
const BEFORE: [u8; 8] = [0xA1, 0xB2, 0xC3, 0xD4, 0xE5, 0xF6, 0x17, 0x28];

/// A permit of line 3 at minute 1, auth in force, at age 5.
const PERMIT: Fields = Fields { number: 0, line: 3, minute: 1, auth: true, age: Some(5) };

const PERMIT_BITS: u64 = 0b001_00000_0000000000000011_00000000000001_1_0_000000000000000000000101;

/// All known answer numbers.
fn known() -> impl Iterator<Item = u8> {
    (0..=5).chain(11..=23)
}

/// The bits of the record that is written.
fn written(fields: Fields) -> u64 {
    let mut record = BEFORE;
    assert_eq!(write(&fields, &mut record), Ok(()), "{fields:?}");
    u64::from_be_bytes(record)
}

/// Check that a write is refused and leaves the bytes as they were.
fn check_refused_write(fields: Fields, refusal: Refusal) {
    let mut record = BEFORE;
    assert_eq!(write(&fields, &mut record), Err(refusal), "{fields:?}");
    assert_eq!(record, BEFORE, "{fields:?}");
}

fn read_bits(bits: u64) -> Result<Fields, Refusal> {
    read(&bits.to_be_bytes())
}

/// "Version 3 bits (1), answer number 5, line 16, minute of the week 14, effective auth 1, age
/// below zero 1, size of the age 24", most significant first.
#[test]
fn every_field_in_its_place() {
    assert_eq!(written(PERMIT), PERMIT_BITS);
    assert_eq!(PERMIT_BITS, 0x20_0003_0006_000005);
    let zero = Fields { number: 0, line: 0, minute: 0, auth: false, age: Some(0) };
    let records = [
        (zero, 0b001_00000_0000000000000000_00000000000000_0_0_000000000000000000000000),
        (
            Fields { number: 5, ..zero },
            0b001_00101_0000000000000000_00000000000000_0_0_000000000000000000000000,
        ),
        (
            Fields { number: 23, ..zero },
            0b001_10111_0000000000000000_00000000000000_0_0_000000000000000000000000,
        ),
        (
            Fields { line: 65_535, ..zero },
            0b001_00000_1111111111111111_00000000000000_0_0_000000000000000000000000,
        ),
        (
            Fields { line: 32_768, ..zero },
            0b001_00000_1000000000000000_00000000000000_0_0_000000000000000000000000,
        ),
        // 10,079 is 8,192 + 1,024 + 512 + 256 + 64 + 16 + 8 + 4 + 2 + 1.
        (
            Fields { minute: 10_079, ..zero },
            0b001_00000_0000000000000000_10011101011111_0_0_000000000000000000000000,
        ),
        (
            Fields { auth: true, ..zero },
            0b001_00000_0000000000000000_00000000000000_1_0_000000000000000000000000,
        ),
        (
            Fields { age: Some(-1), ..zero },
            0b001_00000_0000000000000000_00000000000000_0_1_000000000000000000000001,
        ),
        (
            Fields { number: 1, line: 43_690, minute: 8_193, auth: true, age: Some(-8_388_609) },
            0b001_00001_1010101010101010_10000000000001_1_1_100000000000000000000001,
        ),
    ];
    for (fields, bits) in records {
        assert_eq!(written(fields), bits, "{fields:?}");
        assert_eq!(read_bits(bits), Ok(fields), "{bits:064b}");
    }
}

/// "Larger sizes are stored as 16,777,215", on both sides of zero.
#[test]
fn ages_up_to_the_cap() {
    for (age, bits, stored) in [
        (0, 0b0_000000000000000000000000, 0),
        (1, 0b0_000000000000000000000001, 1),
        (-1, 0b1_000000000000000000000001, -1),
        (16_777_214, 0b0_111111111111111111111110, 16_777_214),
        (16_777_215, 0b0_111111111111111111111111, 16_777_215),
        (16_777_216, 0b0_111111111111111111111111, 16_777_215),
        (i32::MAX, 0b0_111111111111111111111111, 16_777_215),
        (-16_777_214, 0b1_111111111111111111111110, -16_777_214),
        (-16_777_215, 0b1_111111111111111111111111, -16_777_215),
        (-16_777_216, 0b1_111111111111111111111111, -16_777_215),
        (i32::MIN, 0b1_111111111111111111111111, -16_777_215),
    ] {
        for number in known() {
            let fields = Fields { number, age: Some(age), ..PERMIT };
            assert_eq!(written(fields) & 0x1FF_FFFF, bits, "{age} beside {number}");
            let read_back = read_bits(written(fields)).expect("it was written");
            assert_eq!(read_back.age, Some(stored), "{age} beside {number}");
        }
    }
}

/// "'Never' is the sign bit with size 0."
#[test]
fn never() {
    let never = 0b001_00000_0000000000000011_00000000000001_1_1_000000000000000000000000;
    assert_eq!(written(Fields { age: None, ..PERMIT }), never);
    assert_eq!(read_bits(never), Ok(Fields { age: None, ..PERMIT }));
    // Age 0 has no sign, so that it is another record.
    let zero = 0b001_00000_0000000000000011_00000000000001_1_0_000000000000000000000000;
    assert_eq!(written(Fields { age: Some(0), ..PERMIT }), zero);
    assert_eq!(read_bits(zero), Ok(Fields { age: Some(0), ..PERMIT }));
    let cut_short = Fields { number: 13, line: 0, minute: 0, auth: false, age: None };
    let bits = 0b001_01101_0000000000000000_00000000000000_0_1_000000000000000000000000;
    assert_eq!(written(cut_short), bits);
}

/// "The writer stores auth 0 for all answers but 0 and 1, and line 0 for 2 and refusals."
#[test]
fn what_the_writer_drops() {
    for number in known() {
        let given = Fields { number, line: 65_535, minute: 7, auth: true, age: Some(9) };
        let stored = match number {
            0 | 1 => given,
            3..=5 => Fields { auth: false, ..given },
            _ => Fields { line: 0, auth: false, ..given },
        };
        assert_eq!(read_bits(written(given)), Ok(stored), "{number}");
        assert_eq!(written(stored), written(given), "{number}");
    }
    let given = Fields { number: 2, ..PERMIT };
    let bits = 0b001_00010_0000000000000000_00000000000001_0_0_000000000000000000000101;
    assert_eq!(written(given), bits);
    let given = Fields { number: 4, ..PERMIT };
    let bits = 0b001_00100_0000000000000011_00000000000001_0_0_000000000000000000000101;
    assert_eq!(written(given), bits);
    let given = Fields { number: 11, ..PERMIT };
    let bits = 0b001_01011_0000000000000000_00000000000001_0_0_000000000000000000000101;
    assert_eq!(written(given), bits);
}

/// "The reader takes any bits there."
#[test]
fn what_the_reader_takes() {
    for number in known() {
        let bits = PERMIT_BITS | u64::from(number) << 56;
        assert_eq!(read_bits(bits), Ok(Fields { number, ..PERMIT }), "{number}");
    }
    assert_eq!(
        read_bits(0b001_00010_1111111111111111_10011101011111_1_1_111111111111111111111111),
        Ok(Fields { number: 2, line: 65_535, minute: 10_079, auth: true, age: Some(-16_777_215) })
    );
}

/// "A reader must refuse any other version", and tells that before any other fault but the length.
#[test]
fn versions() {
    let rest = PERMIT_BITS & !(0b111 << 61);
    for version in [0b000, 0b010, 0b011, 0b100, 0b101, 0b110, 0b111] {
        assert_eq!(read_bits(version << 61 | rest), Err(Refusal::Version), "{version}");
        // Number 31 and minute 16,383 are bad as well.
        assert_eq!(read_bits(version << 61 | 0x1FFF_FFFF_FFFF_FFFF), Err(Refusal::Version));
    }
    assert_eq!(read_bits(0b001 << 61 | rest), Ok(PERMIT));
}

/// "Known numbers are 0 to 5 and 11 to 23"; the writer and the reader refuse the others.
#[test]
fn unknown_numbers() {
    for number in (6..=10).chain(24..=255) {
        check_refused_write(Fields { number, ..PERMIT }, Refusal::Number);
        // The number is told before the minute.
        check_refused_write(Fields { number, minute: 10_080, ..PERMIT }, Refusal::Number);
    }
    for number in (6..=10).chain(24..=31) {
        assert_eq!(read_bits(PERMIT_BITS | number << 56), Err(Refusal::Number), "{number}");
        let past_the_week = PERMIT_BITS | number << 56 | 0b11111111111111 << 26;
        assert_eq!(read_bits(past_the_week), Err(Refusal::Number), "{number}");
    }
}

/// "A minute above 10,079 is refused as well", by both and for every answer.
#[test]
fn minutes() {
    for number in known() {
        // The low bits of the third and of the fifth would be a good minute.
        for minute in [10_080, 16_383, 16_384 + 10_079, 65_535, 65_536, u32::MAX] {
            check_refused_write(Fields { number, minute, ..PERMIT }, Refusal::Minute);
        }
        let front = 0b001 << 61 | u64::from(number) << 56;
        // 10,080 is one more than 0b10011101011111.
        assert_eq!(read_bits(front | 0b10011101100000 << 26), Err(Refusal::Minute), "{number}");
        assert_eq!(read_bits(front | 0b11111111111111 << 26), Err(Refusal::Minute), "{number}");
        let last = read_bits(front | 0b10011101011111 << 26).expect("the last minute");
        assert_eq!((last.number, last.minute), (number, 10_079));
    }
}

/// "4 not eight bytes, first of all."
#[test]
fn lengths() {
    let wrong = Fields { number: 10, minute: 10_080, ..PERMIT };
    for length in (0..=24).filter(|length| *length != 8) {
        for fields in [PERMIT, wrong] {
            let mut record = vec![0xE7; length];
            assert_eq!(write(&fields, &mut record), Err(Refusal::Length), "{length}");
            assert_eq!(record, vec![0xE7; length]);
        }
        let mut good = PERMIT_BITS.to_be_bytes().to_vec();
        good.resize(length, 0);
        assert_eq!(read(&good), Err(Refusal::Length), "{length}");
        assert_eq!(read(&vec![0xFF; length]), Err(Refusal::Length), "{length}");
    }
}

/// "One set of stored fields has one record": each changed bit makes other fields or a refusal.
#[test]
fn one_record_for_one_set_of_fields() {
    for number in known() {
        for age in [None, Some(0), Some(-1), Some(16_777_215), Some(-16_777_215)] {
            let fields = Fields { number, age, ..PERMIT };
            let bits = written(fields);
            let stored = read_bits(bits);
            for place in 0..64 {
                assert_ne!(read_bits(bits ^ 1 << place), stored, "{fields:?} at bit {place}");
            }
        }
    }
}

#[test]
fn refusal_numbers() {
    let refusals = [Refusal::Version, Refusal::Number, Refusal::Minute, Refusal::Length];
    assert_eq!(refusals.map(Refusal::number), [1, 2, 3, 4]);
}

fn writing(case: &str) -> String {
    String::from_utf8(reply_to_writing(case.as_bytes())).expect("plain text")
}

fn reading(case: &str) -> String {
    String::from_utf8(reply_to_reading(case.as_bytes())).expect("plain text")
}

#[test]
fn case_answers() {
    assert_eq!(writing("0\t3\t1\ty\t5"), "2000030006000005");
    assert_eq!(writing("0\t3\t1\tn\tnever"), "2000030005000000");
    assert_eq!(writing("23\t65535\t10079\ty\t-2147483648"), "3700009d7dffffff");
    assert_eq!(writing("10\t0\t0\tn\t0"), "refused 2");
    assert_eq!(writing("255\t0\t65535\tn\t0"), "refused 2");
    assert_eq!(writing("0\t0\t10080\tn\t0"), "refused 3");
    assert_eq!(writing("0\t0\t65535\tn\t2147483647"), "refused 3");
    assert_eq!(reading("2000030006000005"), "0 3 1 1 5");
    assert_eq!(reading("2000030005000000"), "0 3 1 0 never");
    assert_eq!(reading("37ffff9d7fffffff"), "23 65535 10079 1 -16777215");
    assert_eq!(reading("0000030006000005"), "refused 1");
    assert_eq!(reading("2a00030006000005"), "refused 2");
    assert_eq!(reading("2000039d80000005"), "refused 3");
    for other_length in ["-", "20", "20000300060000", "200003000600000500"] {
        assert_eq!(reading(other_length), "refused 4", "{other_length}");
    }
}

#[test]
fn bad_cases() {
    let good = ["0", "3", "1", "y", "5"];
    assert_eq!(writing(&good.join("\t")), "2000030006000005");
    for (place, bad) in [
        (0, ""),
        (0, "256"),
        (0, "-1"),
        (0, "+1"),
        (0, "never"),
        (0, "99999999999999999999"),
        (1, ""),
        (1, "65536"),
        (1, "-1"),
        (1, "0x1"),
        (2, ""),
        (2, "65536"),
        (2, "-1"),
        (2, " 1"),
        (3, ""),
        (3, "1"),
        (3, "Y"),
        (3, "yes"),
        (4, ""),
        (4, "-"),
        (4, "+1"),
        (4, "Never"),
        (4, "2147483648"),
        (4, "-2147483649"),
        (4, "--1"),
        (4, "5\t"),
    ] {
        let mut fields = good;
        fields[place] = bad;
        assert_eq!(writing(&fields.join("\t")), "bad case", "{bad:?} in field {place}");
    }
    assert_eq!(writing(&good[..4].join("\t")), "bad case");
    assert_eq!(writing(""), "bad case");
    for bad in ["", "2", "200003000600000", "2g", "--", "-20", "20\t", " 20", "20 "] {
        assert_eq!(reading(bad), "bad case", "{bad:?}");
    }
}
