//! What several tests share.
#![allow(dead_code)]

use rule_table::answer::{answer, Answer};
use rule_table::question::Question;

/// The line that most tables begin with.
pub const G: &str = ":global patterns=shell\n";

/// The worked table.
pub const WORKED: &str = ":global patterns=shell
:define Crew ann,bo
setclock /sbin/setclock $(Crew),t* !tmp auth=y timeout=15
batlog /opt/batlog ann@van* time~{>=17:30/mon,<=8/tues} !time~0-1/tues
cal/* /opt/*/run group~bench nargs=0-2
";

/// The question that is asked unless a test says otherwise.
pub fn question() -> Question {
    Question {
        command: b"c".to_vec(),
        user: b"ann".to_vec(),
        groups: Vec::new(),
        host: b"h".to_vec(),
        minute: 0,
        age: None,
        arguments: Vec::new(),
    }
}

/// A question with another command.
pub fn command(command: &str) -> Question {
    Question { command: command.as_bytes().to_vec(), ..question() }
}

/// A question by another user.
pub fn user(user: &str) -> Question {
    Question { user: user.as_bytes().to_vec(), ..question() }
}

/// A question at another minute.
pub fn minute(minute: u64) -> Question {
    Question { minute, ..question() }
}

/// A question with arguments.
pub fn arguments(arguments: &[&str]) -> Question {
    Question {
        arguments: arguments.iter().map(|argument| argument.as_bytes().to_vec()).collect(),
        ..question()
    }
}

/// The answer, with a buffer that is just long enough and is looked at afterwards.
pub fn full_answer(table: &[u8], question: &Question) -> Answer {
    let mut buffer = vec![0xEE; 2_048];
    let answer = answer(table, question, &mut buffer);
    let mut expected = Vec::new();
    if let Answer::Permit(permission) | Answer::PermitAfterPassword(permission) = &answer {
        let ids = [&permission.uid, &permission.euid, &permission.gid, &permission.egid];
        expected.extend_from_slice(&permission.path);
        expected.push(0);
        for id in ids {
            expected.extend(id.iter().flatten());
            expected.push(0);
        }
    }
    expected.resize(2_048, 0xEE);
    assert_eq!(buffer, expected, "the buffer after {answer:?}");
    answer
}

/// The answer's number and its line or place.
pub fn asked(table: &str, question: &Question) -> (u32, usize) {
    let answer = full_answer(table.as_bytes(), question);
    (answer.number(), answer.line_or_place())
}

/// Ask the usual question and compare.
pub fn check(table: &str, number: u32, line_or_place: usize) {
    assert_eq!(asked(table, &question()), (number, line_or_place), "{table:?}");
}

/// Ask the usual question of a table behind the usual first line, and compare the number.
///
/// A decision but 2 is on line 2, and a refusal at place 23.
pub fn check_line(line: &str, number: u32) {
    let beside = match number {
        2 => 0,
        0..=5 => 2,
        _ => 23,
    };
    check(&format!("{G}{line}\n"), number, beside);
}

/// The path of a permit.
pub fn path(table: &str, question: &Question) -> String {
    let answer = full_answer(table.as_bytes(), question);
    let permission = answer.permission().unwrap_or_else(|| panic!("{table:?} gives {answer:?}"));
    String::from_utf8(permission.path.clone()).expect("a path has plain bytes")
}
