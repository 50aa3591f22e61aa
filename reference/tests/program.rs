//! The program itself: its modes, its messages and its exit status.

mod common;

use std::io::Write;
use std::process::{Command, Output, Stdio};

use common::WORKED;
use rule_table::cases;
use rule_table::hexadecimal;

fn run(arguments: &[&str], input: &[u8]) -> Output {
    let mut child = Command::new(env!("CARGO_BIN_EXE_reference"))
        .args(arguments)
        .stdin(Stdio::piped())
        .stdout(Stdio::piped())
        .stderr(Stdio::piped())
        .spawn()
        .expect("the program starts");
    // The program may end before it reads its input.
    let _ = child.stdin.take().expect("a pipe").write_all(input);
    child.wait_with_output().expect("the program ends")
}

fn hex(text: &str) -> String {
    hexadecimal::write(text.as_bytes())
}

#[test]
fn questions_from_standard_input() {
    let name = format!("{}/worked.tab", env!("CARGO_TARGET_TMPDIR"));
    std::fs::write(&name, WORKED).expect("a table is written");
    let output = run(&[&name], b"setclock ann - van2 1049 15\n\n\xff\xfe\nsetclock bo - h 0 -");
    assert_eq!(
        output.stdout,
        b"permit 3 /sbin/setclock\nrefused 10 0\nrefused 10 0\npassword 3 /sbin/setclock\n"
    );
    assert_eq!(output.status.code(), Some(0));
    assert_eq!(run(&[&name], b"").stdout, b"");
}

/// "A question line has at most 32,768 bytes": leading zeros of the minute fill it up.
#[test]
fn the_longest_question_line() {
    let name = format!("{}/longest.tab", env!("CARGO_TARGET_TMPDIR"));
    std::fs::write(&name, WORKED).expect("a table is written");
    let line = |zeros: usize| format!("setclock ann - van2 {}1049 15", "0".repeat(zeros));
    let room = 32_768 - line(0).len();
    let good = run(&[&name], line(room).as_bytes());
    assert_eq!(good.stdout, b"permit 3 /sbin/setclock\n");
    let long = run(&[&name], line(room + 1).as_bytes());
    assert_eq!(long.stdout, b"refused 10 0\n");
}

#[test]
fn a_table_that_cannot_be_read() {
    for name in ["/nonexistent/table", "/"] {
        let output = run(&[name], b"c ann - h 0 -\n");
        assert_eq!(output.status.code(), Some(2));
        assert_eq!(output.stdout, b"");
        let message = String::from_utf8(output.stderr).unwrap();
        assert!(message.contains(name) && message.contains("os error"), "{message}");
    }
}

#[test]
fn usage() {
    for arguments in [
        &[][..],
        &["--unknown"],
        &["a", "b"],
        &["--cases", "x"],
        &["--record-write", "x"],
        &["--record-read", "x"],
        &["--suauth", "x"],
    ] {
        let output = run(arguments, b"");
        assert_eq!(output.status.code(), Some(2));
        assert_eq!(output.stdout, b"");
        assert!(output.stderr.starts_with(b"usage: "));
    }
}

#[test]
fn a_reader_that_goes_away() {
    let mut child = Command::new(env!("CARGO_BIN_EXE_reference"))
        .arg("--cases")
        .stdin(Stdio::piped())
        .stdout(Stdio::piped())
        .stderr(Stdio::piped())
        .spawn()
        .expect("the program starts");
    drop(child.stdout.take());
    let _ = child.stdin.take().expect("a pipe").write_all(&b"x\n".repeat(100_000));
    let output = child.wait_with_output().expect("the program ends");
    assert_eq!(output.stderr, b"");
    assert_eq!(output.status.code(), Some(0));
}

fn case(fields: &[&str]) -> String {
    String::from_utf8(cases::reply(fields.join("\t").as_bytes())).unwrap()
}

#[test]
fn case_answers() {
    let table = hex(":global patterns=shell\nc /p ann uid=u egid=<owner> auth=y timeout=-3 nargs=2\nd /p * arg1=a\n");
    let (c, d, ann, h) = (hex("c"), hex("d"), hex("ann"), hex("h"));
    let two = format!("{},", hex("x"));
    let ask =
        |command: &str, groups: &str, minute: &str, age: &str, arguments: &str, buffer: &str| {
            case(&[&table, command, &ann, groups, &h, minute, age, arguments, buffer])
        };
    let long = format!("1 2 {} {} - - {} y -3 2-2 15", hex("/p"), hex("u"), hex("<owner>"));
    assert_eq!(ask(&c, "-", "0", "never", &two, "2048"), long);
    assert_eq!(ask(&c, "-", "0", "5", "", "2048"), "3 2");
    assert_eq!(
        ask(&d, "-", "0", "5", "-", "18446744073709551615"),
        format!("0 3 {} - - - - n - - 7", hex("/p"))
    );
    assert_eq!(ask(&d, "-", "0", "-5", "", "2048"), "4 3");
    assert_eq!(ask(&ann, "-", "0", "5", "-", "2048"), "2 0");
    assert_eq!(ask(&d, "-", "0", "5", "-", "2047"), "17 0");
    for (groups, minute, arguments) in [
        ("", "0", "-"),
        ("-", "18446744073709551615", "-"),
        ("61,", "0", "-"),
        ("-", "0", "00"),
        ("6100", "0", "-"),
    ] {
        assert_eq!(ask(&d, groups, minute, "5", arguments, "2048"), "10 0");
    }
    assert_eq!(case(&["80", &d, &ann, "-", &h, "0", "never", "-", "2048"]), "12 0");
    assert_eq!(case(&["", &d, &ann, "-", &h, "0", "never", "-", "2048"]), "2 0");
    assert_eq!(case(&[&hex("x"), &d, &ann, "-", &h, "0", "never", "-", "2048"]), "13 0");
}

#[test]
fn bad_cases() {
    let good = ["", "63", "61", "-", "68", "0", "never", "-", "2048"];
    assert_eq!(case(&good), "2 0");
    for (index, bad) in [
        (0, "6"),
        (1, "6g"),
        (3, "6"),
        (4, "-"),
        (5, ""),
        (5, "-1"),
        (5, "18446744073709551616"),
        (6, "-"),
        (6, ""),
        (6, "2147483648"),
        (6, "-2147483649"),
        (6, "+1"),
        (7, "61,x"),
        (8, ""),
        (8, "+1"),
        (8, "2048\t"),
    ] {
        let mut fields = good;
        fields[index] = bad;
        assert_eq!(case(&fields), "bad case", "{bad:?} in field {index}");
    }
    assert_eq!(case(&good[..8]), "bad case");
    let output = run(&["--cases"], b"bad\n\t63\t61\t-\t68\t0\tnever\t-\t2048\n");
    assert_eq!(output.stdout, b"bad case\n2 0\n");
}

/// Both modes of log records go on behind a bad case, and the last line needs no newline.
#[test]
fn record_modes() {
    let output = run(&["--record-write"], b"0\t3\t1\ty\t5\nbad\n10\t0\t0\tn\t0");
    assert_eq!(output.stdout, b"2000030006000005\nbad case\nrefused 2\n");
    assert_eq!(output.status.code(), Some(0));
    let output = run(&["--record-read"], b"2000030006000005\nbad\n\n-\n");
    assert_eq!(output.stdout, b"0 3 1 1 5\nbad case\nbad case\nrefused 4\n");
    assert_eq!(output.status.code(), Some(0));
}

/// The mode of su files goes on behind a bad case, and the last line needs no newline.
#[test]
fn su_mode() {
    let output = run(&["--suauth"], b"613a623a44454e590a\t61\t62\t-\nbad\n61\t61\t62\t-");
    assert_eq!(output.stdout, b"DENY 1\nbad case\n13 0\n");
    assert_eq!(output.status.code(), Some(0));
}
