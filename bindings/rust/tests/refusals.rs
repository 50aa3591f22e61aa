//! Refusals: questions and tables that are not as they must be.

use supertab::{
    answer, Answer, Cause, FiguresRefusal, Question, RecordRefusal, Refusal, SuRefusal,
};

const TABLE: &[u8] = b":global patterns=shell\nc /p *\n";

const GOOD: Question<'static> = Question {
    command: b"c",
    user: b"ann",
    groups: &[b"bench", b"ops"],
    host: b"h",
    minute: 10_079,
    age: None,
    arguments: &[b"", b"a b"],
};

fn refused(table: &[u8], question: &Question) -> Refusal {
    match answer(table, question) {
        Answer::Refused(refusal) => refusal,
        other => panic!("{other:?}"),
    }
}

#[test]
fn questions() {
    assert_eq!(answer(TABLE, &GOOD).number(), 0);
    let long_argument = [b'a'; 257];
    let group: &[u8] = b"g";
    let bad = [
        Question { command: b"", ..GOOD },
        Question { command: b"a:b", ..GOOD },
        Question { user: b"a b", ..GOOD },
        Question { host: b"", ..GOOD },
        Question { minute: 10_080, ..GOOD },
        Question { minute: u32::MAX, ..GOOD },
        Question { groups: &[b""], ..GOOD },
        Question { groups: &[group; 33], ..GOOD },
        Question { arguments: &[b"\n"], ..GOOD },
        Question { arguments: &[&long_argument], ..GOOD },
        Question { arguments: &[group; 65], ..GOOD },
        // A zero byte does not make two strings of one.
        Question { groups: &[b"bench\0ops"], ..GOOD },
        Question { arguments: &[b"a\0b"], ..GOOD },
        Question { arguments: &[b"\0"], ..GOOD },
    ];
    for question in bad {
        assert_eq!(refused(TABLE, &question), Refusal::Question, "{question:?}");
        // 10 comes ahead of the table's faults.
        assert_eq!(refused(b"\x80", &question), Refusal::Question, "{question:?}");
    }
}

#[test]
fn tables() {
    assert_eq!(answer(&b"\n".repeat(32_768), &GOOD), Answer::NoEntry);
    assert_eq!(refused(&b"\n".repeat(32_769), &GOOD), Refusal::LongTable);
    assert_eq!(refused(b"#\r\n", &GOOD), Refusal::RefusedByte { place: 1 });
    assert_eq!(refused(b"#\nab", &GOOD), Refusal::CutShort { place: 2 });
    assert_eq!(refused(b"ab\\\n", &GOOD), Refusal::CutShort { place: 0 });
    let early = Refusal::Line { cause: Cause::EntryTooEarly, place: 2 };
    assert_eq!(refused(b"#\nc /p *\n", &GOOD), early);
    let quote = Refusal::Line { cause: Cause::OpenQuote, place: 23 };
    assert_eq!(refused(b":global patterns=shell\nc /p 'ann\n", &GOOD), quote);
    // A whole line's fault comes ahead of the cut.
    assert_eq!(refused(b":global patterns=shell\nc /p 'ann\nc /p", &GOOD), quote);
}

#[test]
fn told_in_words() {
    let refusal = Refusal::Line { cause: Cause::OptionTwice, place: 7 };
    assert_eq!((refusal.number(), refusal.place()), (14, 7));
    assert_eq!(refusal.to_string(), format!("refused 14: {}", Cause::OptionTwice));
    assert_eq!((Refusal::LongTable.number(), Refusal::LongTable.place()), (11, 32_768));
    assert!(!Answer::Refused(refusal).is_decision());
    assert!(Answer::NoEntry.is_decision());
}

/// Every refusal is an error, so that `?` takes it.
#[test]
fn errors() {
    fn first_word(error: impl std::error::Error + 'static) -> String {
        let boxed: Box<dyn std::error::Error> = Box::new(error);
        boxed.to_string().split(':').next().unwrap_or_default().to_owned()
    }
    assert_eq!(first_word(Refusal::CutShort { place: 2 }), "refused 13");
    assert_eq!(first_word(SuRefusal::Line { place: 2 }), "refused 14");
    assert_eq!(first_word(RecordRefusal::Version), "refused 1");
    assert_eq!(first_word(FiguresRefusal::NotWhole), "refused 1");
}
