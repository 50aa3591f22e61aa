//! The list of causes, the answer numbers, those from a su file, the report's indices, those of a
//! record's fields and those of figures stand in several places, for the reader of each; here they
//! are held to each other.

use std::fs;
use std::path::Path;

use supertab::raw::{self, field, figure, report, su};
use supertab::{Cause, FiguresRefusal, RecordRefusal, Refusal};

/// A file of the repository.
fn file(name: &str) -> String {
    let path = Path::new(env!("CARGO_MANIFEST_DIR")).join("../..").join(name);
    fs::read_to_string(&path).unwrap_or_else(|error| panic!("{}: {error}", path.display()))
}

fn causes() -> Vec<Cause> {
    (1..).map_while(Cause::from_number).collect()
}

/// The constants of the header whose names begin with a prefix, in order, without it.
fn constants(prefix: &str) -> Vec<(String, usize)> {
    let named = |line: &str| {
        let (name, value) = line.trim().strip_prefix(prefix)?.split_once(" = ")?;
        Some((name.to_string(), value.trim_end_matches(',').parse().ok()?))
    };
    file("include/supertab.h").lines().filter_map(named).collect()
}

/// `OpenQuote` as `OPEN_QUOTE`.
fn upper(name: &str) -> String {
    let mut written = String::new();
    for letter in name.chars() {
        if letter.is_uppercase() && !written.is_empty() {
            written.push('_');
        }
        written.push(letter.to_ascii_uppercase());
    }
    written
}

#[test]
fn causes_of_the_proved_code() {
    let source = file("crates/fault/src/lib.rt");
    let variants = source.split_once("pub enum Cause {").expect("the enum").1;
    let variants = variants.split_once("\n}").expect("its end").0;
    let names: Vec<&str> = variants
        .lines()
        .map(str::trim)
        .filter(|line| !line.starts_with("//"))
        .filter_map(|line| line.strip_suffix(','))
        .collect();
    let ours: Vec<String> = causes().iter().map(|cause| format!("{cause:?}")).collect();
    assert_eq!(names, ours);
    // The arms of the match: causes parted by bars, and the number of all of them.
    let numbers = source.split_once("pub fn number(self)").expect("the numbers").1;
    let arms = numbers.split_once("match self {").expect("the match").1;
    let mut told = Vec::new();
    for arm in arms.split_once('}').expect("its end").0.split(",\n") {
        let Some((causes, number)) = arm.split_once(" => ") else {
            continue;
        };
        for cause in causes.split('|') {
            told.push((cause.trim().replace("Cause::", ""), number.to_string()));
        }
    }
    assert_eq!(told.len(), ours.len());
    for cause in causes() {
        let row = (format!("{cause:?}"), cause.refusal().to_string());
        assert!(told.contains(&row), "{row:?}");
    }
}

#[test]
fn causes_of_the_header() {
    let ours: Vec<(String, usize)> =
        causes().iter().map(|cause| (upper(&format!("{cause:?}")), cause.number())).collect();
    assert_eq!(constants("SUPERTAB_CAUSE_"), ours);
    // The comment above each begins with the answer.
    let header = file("include/supertab.h");
    for cause in causes() {
        let constant = format!("SUPERTAB_CAUSE_{} =", upper(&format!("{cause:?}")));
        let before = header.split_once(&constant).expect("the constant").0;
        let comment = before.rsplit_once("/*").expect("its comment").1;
        assert!(comment.starts_with(&format!(" {}: ", cause.refusal())), "{constant}{comment}");
    }
}

#[test]
fn answers_of_the_header() {
    // 01's table of answer numbers, with the one for a report that is too short.
    let others = ["BUFFER_", "REPORT_", "CAUSE_", "RECORD_", "FIELD", "FIGURE", "SU_", "STACK"];
    let numbers: Vec<usize> = constants("SUPERTAB_")
        .into_iter()
        .filter(|(name, _)| !others.iter().any(|other| name.starts_with(other)))
        .map(|(_, number)| number)
        .collect();
    let papers: Vec<usize> = (0..=5).chain(10..=18).chain([raw::SMALL_REPORT.into()]).collect();
    assert_eq!(numbers, papers);
    assert_eq!(constants("SUPERTAB_BUFFER_"), [("LENGTH".to_string(), raw::BUFFER_LENGTH)]);
    assert_eq!(constants("SUPERTAB_STACK"), [(String::new(), raw::STACK)]);
}

#[test]
fn report_of_the_header() {
    let ours = [
        ("LENGTH", raw::REPORT_LENGTH),
        ("LINE_OR_PLACE", report::LINE_OR_PLACE),
        ("WRITTEN", report::WRITTEN),
        ("AUTH", report::AUTH),
        ("TIMEOUT_SET", report::TIMEOUT_SET),
        ("TIMEOUT", report::TIMEOUT),
        ("NARGS_SET", report::NARGS_SET),
        ("NARGS_LOW", report::NARGS_LOW),
        ("NARGS_HIGH", report::NARGS_HIGH),
        ("PATH_END", report::PATH_END),
        ("UID_END", report::UID_END),
        ("EUID_END", report::EUID_END),
        ("GID_END", report::GID_END),
        ("EGID_END", report::EGID_END),
        ("CAUSE", report::CAUSE),
    ]
    .map(|(name, number)| (name.to_string(), number));
    assert_eq!(constants("SUPERTAB_REPORT_"), ours);
}

#[test]
fn records_of_the_header() {
    let refusal = |refusal: RecordRefusal| usize::from(refusal.number());
    let ours = [
        ("DONE", 0),
        ("VERSION", refusal(RecordRefusal::Version)),
        ("NUMBER", refusal(RecordRefusal::Number)),
        ("MINUTE", refusal(RecordRefusal::Minute)),
        ("BYTES", refusal(RecordRefusal::Length)),
        ("SMALL_FIELDS", raw::SMALL_FIELDS.into()),
        ("LENGTH", raw::RECORD_LENGTH),
    ]
    .map(|(name, number)| (name.to_string(), number));
    assert_eq!(constants("SUPERTAB_RECORD_"), ours);
    assert_eq!(constants("SUPERTAB_FIELDS_"), [("LENGTH".to_string(), raw::FIELDS_LENGTH)]);
    let ours = [
        ("NUMBER", field::NUMBER),
        ("LINE", field::LINE),
        ("MINUTE", field::MINUTE),
        ("AUTH", field::AUTH),
        ("AUTHENTICATED", field::AUTHENTICATED),
        ("AGE", field::AGE),
    ]
    .map(|(name, number)| (name.to_string(), number));
    assert_eq!(constants("SUPERTAB_FIELD_"), ours);
}

#[test]
fn figures_of_the_header() {
    let ours = [
        ("DONE", 0),
        ("NOT_WHOLE", FiguresRefusal::NotWhole.number().into()),
        ("PAST_LIMIT", FiguresRefusal::PastLimit(1).number().into()),
        ("UNUSABLE", raw::UNUSABLE_FIGURES.into()),
        ("LENGTH", raw::FIGURES_LENGTH),
        ("LIMIT", raw::FIGURES_LIMIT),
    ]
    .map(|(name, number)| (name.to_string(), number));
    assert_eq!(constants("SUPERTAB_FIGURES_"), ours);
    let ours = [
        ("ANSWERS", figure::ANSWERS),
        ("WEEKDAYS", figure::WEEKDAYS),
        ("HOURS", figure::HOURS),
        ("BELOW_ZERO_SUM", figure::BELOW_ZERO_SUM),
        ("AGE_SUM", figure::AGE_SUM),
        ("AGE_COUNT", figure::AGE_COUNT),
        ("REFUSED", figure::REFUSED),
        ("GIVEN", figure::GIVEN),
    ]
    .map(|(name, number)| (name.to_string(), number));
    assert_eq!(constants("SUPERTAB_FIGURE_"), ours);
}

#[test]
fn su_answers_of_the_header() {
    let ours = [
        ("NOPASS", su::NOPASS.into()),
        ("OWNPASS", su::OWNPASS.into()),
        ("NO_RULE", su::NO_RULE.into()),
        ("DENY", su::DENY.into()),
        ("BAD_QUESTION", su::BAD_QUESTION.into()),
        ("LONG_FILE", su::LONG_FILE.into()),
        ("REFUSED_BYTE", su::REFUSED_BYTE.into()),
        ("CUT_SHORT", su::CUT_SHORT.into()),
        ("MALFORMED", su::MALFORMED.into()),
        ("SMALL_REPORT", raw::SMALL_SU_REPORT.into()),
        ("REPORT_LENGTH", raw::SU_REPORT_LENGTH),
    ]
    .map(|(name, number)| (name.to_string(), number));
    assert_eq!(constants("SUPERTAB_SU_"), ours);
}

#[test]
fn words_of_the_page() {
    let page = file("docs/check-words.md");
    let row = |number: &str, name: &str, refusal: u8, words: &str| {
        let row = format!("| {number}| `{name}` | {refusal} | `{words}` |\n");
        assert!(page.contains(&row), "{row}");
    };
    for cause in causes() {
        let number = format!("{} ", cause.number());
        row(&number, &format!("{cause:?}"), cause.refusal(), cause.words());
    }
    let whole = [
        ("LongTable", Refusal::LongTable),
        ("RefusedByte", Refusal::RefusedByte { place: 0 }),
        ("CutShort", Refusal::CutShort { place: 0 }),
    ];
    for (name, refusal) in whole {
        row("", name, refusal.number(), refusal.words());
    }
}
