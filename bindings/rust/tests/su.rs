//! Su files: the example of suauth(5) ("001") and questions worked out by hand, every form of a line,
//! refusals in their order, every cut.

use supertab::{su_answer, SuAnswer, SuQuestion, SuRefusal};

/// The example of 001, whose rules are the lines 6, 11, 18 and 19.
const EXAMPLE: &[u8] = include_bytes!("../../../docs/worked.suauth");

/// A good line of 14 bytes, which the lines under test stand behind.
const FIRST: &str = "root:ann:DENY\n";

const NO_GROUP: &[&[u8]] = &[];

/// The question of this user for this target.
fn asks<'a>(target: &'a str, user: &'a str, groups: &'a [&'a [u8]]) -> SuQuestion<'a> {
    SuQuestion { target: target.as_bytes(), user: user.as_bytes(), groups }
}

/// The questions to the example with their answers.
fn example_questions() -> Vec<(SuQuestion<'static>, SuAnswer)> {
    let wheel: &[&[u8]] = &[b"wheel"];
    let three: &[&[u8]] = &[b"crew", b"bench", b"wheel"];
    let crew: &[&[u8]] = &[b"crew", b"wheels"];
    vec![
        (asks("root", "chris", NO_GROUP), SuAnswer::OwnPassword { line: 6 }),
        (asks("root", "birddog", wheel), SuAnswer::OwnPassword { line: 6 }),
        (asks("root", "terry", NO_GROUP), SuAnswer::Deny { line: 11 }),
        (asks("root", "ann", crew), SuAnswer::Deny { line: 11 }),
        (asks("root", "root", NO_GROUP), SuAnswer::Deny { line: 11 }),
        (asks("root", "terry", wheel), SuAnswer::NoRule),
        (asks("root", "ann", three), SuAnswer::NoRule),
        (asks("terry", "birddog", NO_GROUP), SuAnswer::NoPassword { line: 18 }),
        (asks("birddog", "terry", wheel), SuAnswer::NoPassword { line: 19 }),
        (asks("terry", "chris", NO_GROUP), SuAnswer::NoRule),
        (asks("birddog", "birddog", wheel), SuAnswer::NoRule),
        // Names are compared whole, and in their case.
        (asks("roo", "chris", NO_GROUP), SuAnswer::NoRule),
        (asks("root", "chri", wheel), SuAnswer::NoRule),
        (asks("Root", "chris", NO_GROUP), SuAnswer::NoRule),
    ]
}

#[test]
fn the_example_of_001() {
    for (question, expected) in example_questions() {
        assert_eq!(su_answer(EXAMPLE, &question), expected, "{question:?}");
    }
}

/// What a file cut after so many bytes answers where the whole gives a decision, by demand 3: within
/// a line its beginning; between lines the answer of the whole where its line is there.
fn cut_answer(file: &[u8], length: usize, whole: SuAnswer) -> SuAnswer {
    let begin = file[..length].iter().rposition(|byte| *byte == b'\n').map_or(0, |last| last + 1);
    if begin != length {
        return SuAnswer::Refused(SuRefusal::CutShort { place: begin });
    }
    let whole_lines = file[..length].iter().filter(|byte| **byte == b'\n').count();
    match whole {
        SuAnswer::NoPassword { line }
        | SuAnswer::OwnPassword { line }
        | SuAnswer::Deny { line }
            if line <= whole_lines =>
        {
            whole
        }
        _ => SuAnswer::NoRule,
    }
}

#[test]
fn every_cut_of_the_example() {
    for (question, whole) in example_questions() {
        for length in 0..=EXAMPLE.len() {
            let expected = cut_answer(EXAMPLE, length, whole);
            assert_eq!(su_answer(&EXAMPLE[..length], &question), expected, "{question:?} {length}");
        }
    }
}

#[test]
fn forms() {
    let long = "x".repeat(32);
    let by_long = format!("{long}:GROUP {long}:DENY");
    let groups: &[&[u8]] = &[b"g", b"h"];
    let long_group: &[&[u8]] = &[long.as_bytes()];
    let ann = asks("root", "ann", groups);
    let alone = asks("root", "ann", NO_GROUP);
    let named = |target, user| asks(target, user, NO_GROUP);
    let applies = [
        ("ALL:ALL:DENY", ann),
        ("bo,root:bo,ann:DENY", ann),
        ("root,root:ann,ann:DENY", ann),
        ("ALL EXCEPT bo,kim:ALL EXCEPT bo,kim:DENY", ann),
        ("root:GROUP g:DENY", ann),
        ("root:GROUP x,h:DENY", ann),
        ("root:ALL EXCEPT GROUP x,y:DENY", ann),
        ("root:ALL EXCEPT GROUP g:DENY", alone),
        // A tab is a blank too.
        (" \t root:ALL\tEXCEPT\tGROUP\tx:DENY\t ", ann),
        ("\troot:GROUP\tg:DENY", ann),
        ("ALL EXCEPT\tbo:ALL\tEXCEPT bo:DENY ", ann),
        (&by_long, asks(&long, "ann", long_group)),
        // They are no names in the file, but in a question they are.
        ("ALL:ALL EXCEPT ann:DENY", named("ALL", "EXCEPT")),
        // Lines that are skipped are counted.
        ("#\n\n \t\n\t # :::\nroot:ann:DENY", ann),
    ];
    for (line, question) in applies {
        let lines = line.matches('\n').count() + 1;
        let file = format!("{line}\n");
        assert_eq!(su_answer(file.as_bytes(), &question), SuAnswer::Deny { line: lines }, "{line}");
    }
    let passed_over = [
        ("bo:ann:DENY", ann),
        ("root:bo:DENY", ann),
        ("ALL EXCEPT bo,root:ann:DENY", ann),
        ("root:ALL EXCEPT bo,ann:DENY", ann),
        ("root:ALL EXCEPT GROUP x,h:DENY", ann),
        ("root:GROUP ann:DENY", ann),
        ("root:g:DENY", ann),
        ("root:GROUP g:DENY", alone),
        ("root:ALL EXCEPT ALLY:DENY", named("root", "ALLY")),
        ("ann:root:DENY", named("root", "ALL")),
        ("# root:ann:DENY", ann),
    ];
    for (line, question) in passed_over {
        let file = format!("{line}\n");
        assert_eq!(su_answer(file.as_bytes(), &question), SuAnswer::NoRule, "{line}");
    }
    // The first line that applies decides.
    let two = b"root:bo:DENY\nroot:GROUP h:NOPASS\nroot:ann:DENY\n";
    assert_eq!(su_answer(two, &ann), SuAnswer::NoPassword { line: 2 });
    assert_eq!(su_answer(two, &alone), SuAnswer::Deny { line: 3 });
}

#[test]
fn malformed_lines() {
    let long = format!("root:{}:DENY", "x".repeat(33));
    let long_group = format!("root:GROUP {}:DENY", "x".repeat(33));
    let malformed = [
        "root",
        "root:ann",
        "root:ann:DENY:",
        "root:ann:DENY:DENY",
        ":ann:DENY",
        "root::DENY",
        "root:ann:",
        "::",
        "root:ann:deny",
        "root:ann:PASS",
        "root:ann:DENY # comment",
        "root :ann:DENY",
        "root: ann:DENY",
        "root:ann :DENY",
        "root:ann: DENY",
        "root:ann, bo:DENY",
        "root:ann bo:DENY",
        "root:ann,:DENY",
        "root:,ann:DENY",
        "root:ann,,bo:DENY",
        "root:a/b:DENY",
        "root:*:DENY",
        &long,
        &long_group,
        "ALL,root:ann:DENY",
        "root:EXCEPT:DENY",
        "root:GROUP:DENY",
        "root:ann,GROUP:DENY",
        "root:GROUP ALL:DENY",
        "root:GROUP g,EXCEPT:DENY",
        "root:ALL EXCEPT:DENY",
        "root:ALL EXCEPT ALL:DENY",
        "root:ALL  EXCEPT ann:DENY",
        "root:ALL EXCEPT  ann:DENY",
        "root:GROUP  g:DENY",
        "root:ALL EXCEPTann:DENY",
        "root:GROUPg h:DENY",
        "root:ann EXCEPT bo:DENY",
        "root:ann,GROUP g:DENY",
        "root:GROUP g EXCEPT ann:DENY",
        "root:GROUP g,GROUP h:DENY",
        "GROUP g:ann:DENY",
        "ALL EXCEPT GROUP g:ann:DENY",
    ];
    let place = FIRST.len();
    let refused = SuAnswer::Refused(SuRefusal::Line { place });
    for line in malformed {
        // Behind the line that decides, and ahead of a cut line or of another malformed one.
        for rest in ["", "\n", "root:ann:DE", "x\n"] {
            for blank in ["", " ", "\t "] {
                let file = format!("{FIRST}{blank}{line}\n{rest}");
                for user in ["ann", "bo"] {
                    let question = asks("root", user, NO_GROUP);
                    assert_eq!(su_answer(file.as_bytes(), &question), refused, "{file}");
                }
            }
        }
    }
}

#[test]
fn questions() {
    let group: &[u8] = b"g";
    let good = asks("root", "ann", &[b"bench", b"ops"]);
    assert_eq!(su_answer(FIRST.as_bytes(), &good), SuAnswer::Deny { line: 1 });
    let most = SuQuestion { groups: &[group; 32], ..good };
    assert_eq!(su_answer(FIRST.as_bytes(), &most), SuAnswer::Deny { line: 1 });
    let bad = [
        SuQuestion { target: b"", ..good },
        SuQuestion { target: b"ro:ot", ..good },
        SuQuestion { target: &[b'x'; 33], ..good },
        SuQuestion { user: b"", ..good },
        SuQuestion { user: b"a b", ..good },
        SuQuestion { user: &[b'x'; 33], ..good },
        SuQuestion { groups: &[b""], ..good },
        SuQuestion { groups: &[b"a,b"], ..good },
        SuQuestion { groups: &[b"bench", &[b'x'; 33]], ..good },
        SuQuestion { groups: &[group; 33], ..good },
        // A zero byte does not make two groups of one.
        SuQuestion { groups: &[b"bench\0ops"], ..good },
    ];
    let refused = SuAnswer::Refused(SuRefusal::Question);
    for question in bad {
        // 10 comes ahead of the file's faults.
        for file in [FIRST.as_bytes(), b"x\n", b"x", b"\x80", &[b'\n'; 32_769]] {
            assert_eq!(su_answer(file, &question), refused, "{question:?}");
        }
    }
}

#[test]
fn files() {
    let ann = asks("root", "ann", NO_GROUP);
    let refused = |file: &[u8]| match su_answer(file, &ann) {
        SuAnswer::Refused(refusal) => refusal,
        other => panic!("{other:?}"),
    };
    assert_eq!(su_answer(b"", &ann), SuAnswer::NoRule);
    assert_eq!(su_answer(&[b'\n'; 32_768], &ann), SuAnswer::NoRule);
    assert_eq!(refused(&[b'\n'; 32_769]), SuRefusal::LongFile);
    // 11 comes ahead of 12.
    assert_eq!(refused(&[0; 32_769]), SuRefusal::LongFile);
    let mut longest = vec![b'\n'; 32_768 - FIRST.len()];
    longest.extend(FIRST.as_bytes());
    assert_eq!(su_answer(&longest, &ann), SuAnswer::Deny { line: 32_755 });
    // 12 comes ahead of 14 and 13; the first such byte is told.
    for byte in (0..=255).filter(|byte| !matches!(byte, b'\t' | b'\n' | 0x20..=0x7e)) {
        let place = FIRST.len() + 3;
        let file = [FIRST.as_bytes(), b"x\n#", &[byte, 0x80], b"\nroot:ann:DE"].concat();
        assert_eq!(refused(&file), SuRefusal::RefusedByte { place }, "{byte}");
    }
    // A comment or blanks that are not ended are cut too.
    for rest in ["r", "root:ann:DENY", "# x", " ", "x"] {
        let file = format!("{FIRST}{rest}");
        assert_eq!(refused(file.as_bytes()), SuRefusal::CutShort { place: FIRST.len() }, "{rest}");
    }
    // No backslash joins lines.
    assert_eq!(refused(b"# x\\\nroot:ann\n"), SuRefusal::Line { place: 5 });
}

#[test]
fn told_in_words() {
    let refusals = [
        (SuRefusal::Question, 10, 0),
        (SuRefusal::LongFile, 11, 32_768),
        (SuRefusal::RefusedByte { place: 7 }, 12, 7),
        (SuRefusal::CutShort { place: 8 }, 13, 8),
        (SuRefusal::Line { place: 9 }, 14, 9),
    ];
    for (refusal, number, place) in refusals {
        assert_eq!((refusal.number(), refusal.place()), (number, place));
        assert_eq!(refusal.to_string(), format!("refused {number}: {}", refusal.words()));
        // What is wrong, and what to do.
        assert_eq!(refusal.words().split("; ").count(), 2, "{refusal}");
        let answer = SuAnswer::Refused(refusal);
        assert_eq!((answer.number(), answer.is_decision()), (number, false));
    }
    let decisions = [
        SuAnswer::NoPassword { line: 1 },
        SuAnswer::OwnPassword { line: 1 },
        SuAnswer::NoRule,
        SuAnswer::Deny { line: 1 },
    ];
    for (number, answer) in (0..).zip(decisions) {
        assert_eq!((answer.number(), answer.is_decision()), (number, true));
    }
}
