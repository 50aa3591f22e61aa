//! Every limit, exactly at it and one past it.

mod common;

use common::{asked, check, check_line, minute, question, G};
use rule_table::answer::{answer, Answer};
use rule_table::question::Question;

/// A control line of the given number of bytes, without its newline, that permits.
fn line_of(length: usize) -> String {
    let beginning = "c /p ann #";
    format!("{beginning}{}", "x".repeat(length - beginning.len()))
}

#[test]
fn table() {
    let mut table = format!("{G}c /p ann\n");
    while table.len() + 101 <= 32_768 {
        table += &format!("#{}\n", "x".repeat(99));
    }
    table += &"\n".repeat(32_768 - table.len());
    check(&table, 0, 2);
    table.push('\n');
    check(&table, 11, 32_768);
}

#[test]
fn buffer() {
    let table = format!("{G}c /p ann\n");
    for (length, number) in [(0, 17), (2_047, 17), (2_048, 0), (4_000, 0)] {
        let mut buffer = vec![7; length];
        assert_eq!(answer(table.as_bytes(), &question(), &mut buffer).number(), number, "{length}");
        if number == 17 {
            assert_eq!(buffer, vec![7; length]);
        }
    }
}

#[test]
fn joined_line() {
    check_line(&line_of(4_096), 0);
    check_line(&line_of(4_097), 15);
    // A join in a comment counts one, and one that vanishes counts nothing.
    check_line(&format!("{}\\\n    ", line_of(4_095)), 0);
    check_line(&format!("{}\\\n    ", line_of(4_096)), 15);
    check_line(&format!("\\\n    {}", line_of(4_096)), 0);
    check_line(&format!("\\\n    {}", line_of(4_097)), 15);
}

#[test]
fn fields() {
    check_line(&format!("c /p ann{}", " bo".repeat(61)), 0);
    check_line(&format!("c /p ann{}", " bo".repeat(62)), 15);
    check_line(&format!(":if a == a c /p ann{}", " bo".repeat(57)), 0);
    check_line(&format!(":if a == a c /p ann{}", " bo".repeat(58)), 15);
    check_line(&format!(":if a == b{}", " $".repeat(60)), 2);
    check_line(&format!(":if a == b{}", " $".repeat(61)), 15);
}

#[test]
fn field_length() {
    check_line(&format!("c /{} ann", "p".repeat(1_023)), 0);
    check_line(&format!("c /{} ann", "p".repeat(1_024)), 15);
    // Quotes don't count, and a variable counts with its text.
    check_line(&format!("c '/{}' ann", "p".repeat(1_023)), 0);
    let define = format!(":define X {}", "p".repeat(256));
    check(&format!("{G}{define}\nc /$X$X$(X){} ann\n", "p".repeat(255)), 0, 3);
    check(&format!("{G}{define}\nc /$X$X$X$X ann\n"), 15, 23 + define.len() + 1);
    // A built-in text is as long as the question makes it.
    let wide = Question { host: vec![b'h'; 255], ..question() };
    let table = format!("{G}c /$HOST$HOST$HOST$(HOST){} ann\n", "p".repeat(3));
    assert_eq!(asked(&table, &wide), (0, 2));
    let table = format!("{G}c /$HOST$HOST$HOST$(HOST){} ann\n", "p".repeat(4));
    assert_eq!(asked(&table, &wide), (15, 23));
}

#[test]
fn braces() {
    for (open, number) in [(4, 0), (5, 15)] {
        let deep = format!("{}x{}", "{".repeat(open), "}".repeat(open));
        check_line(&format!("{deep}::/x c::/p ann"), number);
        check_line(&format!("c /p {deep},ann"), number);
        check_line(&format!("c /p group~{deep} ann"), number);
        check_line(&format!("c /p ann !time~{}", deep.replace('x', "tue")), number);
        check_line(&format!("c /p ann arg1={deep}"), number);
    }
}

#[test]
fn expansions() {
    for (last, number) in [("{a,b}", 0), ("{a,b}{a}{,b}", 15), ("{a,b},c", 15), ("{a,b}c", 0)] {
        let many = format!("{{a,b}}{{,}}{{a,b}}{{a,b,{{c,d}}}}{last}");
        check_line(&format!("c /p ann x{many}"), number);
    }
    for (number_of, number) in [(64, 0), (65, 15)] {
        let list = vec!["ann"; number_of].join(",");
        check_line(&format!("c /p {list}"), number);
        check_line(&format!("{{{list}}}::/x c::/p ann"), number);
        check_line(&format!("c /p ann arg1={{{list}}}"), number);
        check_line(&format!("c /p ann !time~{}", list.replace("ann", "tue")), number);
    }
    // Far past the limit.
    check_line(&format!("c /p {}", "{a,b}".repeat(200)), 15);
}

#[test]
fn variables() {
    for (length, number) in [(64, 2), (65, 15)] {
        check_line(&format!(":define {} y", "x".repeat(length)), number);
    }
    for (length, number) in [(256, 2), (257, 15)] {
        check_line(&format!(":define X {}", "y".repeat(length)), number);
    }
    let mut table = G.to_string();
    for index in 0..64 {
        table += &format!(":define X{index} y\n");
    }
    check(&table, 2, 0);
    check(&format!("{table}:define X63 z\n"), 2, 0);
    check(&format!("{table}:define X64 z\n"), 18, table.len());
}

#[test]
fn ids() {
    for option in ["uid", "euid", "gid", "egid"] {
        for (length, number) in [(0, 14), (1, 0), (64, 0), (65, 15)] {
            check_line(&format!("c /p ann {option}={}", "x".repeat(length)), number);
        }
    }
}

#[test]
fn nested_if() {
    for (depth, number) in [(4, 0), (5, 15)] {
        check_line(&format!("{}c /p ann", ":if a == a ".repeat(depth)), number);
    }
}

#[test]
fn numbers_in_options() {
    for (option, number) in [
        ("timeout=-32768", 0),
        ("timeout=-32769", 14),
        ("timeout=32767", 0),
        ("timeout=32768", 14),
        ("nargs=0-64", 0),
        ("nargs=0-65", 14),
        ("nargs=65", 14),
        ("nargs=00000", 0),
        ("nargs=000000", 14),
        ("arg1=x", 0),
        ("arg0=x", 14),
        ("arg64=x", 0),
        ("arg65=x", 14),
        ("arg1-64=x", 0),
        ("arg1-65=x", 14),
        ("arg00064=x", 0),
        ("arg000064=x", 14),
        ("nargs=0-0", 0),
        ("arg3-3=x", 0),
        ("arg4-3=x", 14),
    ] {
        check_line(&format!("c /p ann {option}"), number);
    }
    let sixty_four = Question { arguments: vec![Vec::new(); 64], ..question() };
    assert_eq!(asked(&format!("{G}c /p ann nargs=64\n"), &sixty_four), (0, 2));
    assert_eq!(asked(&format!("{G}c /p ann nargs=0-63\n"), &sixty_four), (3, 2));
    assert_eq!(asked(&format!("{G}c /p ann arg64=x\n"), &sixty_four), (4, 2));
}

#[test]
fn times() {
    for (item, number) in [
        ("<23:59", 0),
        ("<23:60", 14),
        ("<=24:00", 0),
        ("<=24:01", 14),
        ("mon", 0),
        ("mo", 14),
        ("monday", 0),
        ("mondayy", 14),
        ("0-0", 0),
        ("0-1", 0),
        ("1-0", 14),
        ("000-1", 14),
        ("<=24", 0),
        ("<=25", 14),
    ] {
        check_line(&format!("c /p ann time~{item}"), number);
    }
}

#[test]
fn path() {
    let wide = Question { command: vec![b'c'; 204], ..question() };
    assert_eq!(asked(&format!("{G}* /*****{} ann\n", "p".repeat(3)), &wide), (0, 2));
    assert_eq!(asked(&format!("{G}* /*****{} ann\n", "p".repeat(4)), &wide), (5, 2));
}

#[test]
fn question_sizes() {
    let table = format!("{G}* /p *\n");
    let repeated = |count: usize| vec![b'x'; count];
    for (count, number) in [(0, 10), (1, 0), (256, 0), (257, 10)] {
        assert_eq!(asked(&table, &Question { command: repeated(count), ..question() }).0, number);
    }
    for (count, number) in [(0, 10), (1, 0), (32, 0), (33, 10)] {
        assert_eq!(asked(&table, &Question { user: repeated(count), ..question() }).0, number);
        assert_eq!(
            asked(&table, &Question { groups: vec![repeated(count)], ..question() }).0,
            number
        );
    }
    for (count, number) in [(0, 0), (32, 0), (33, 10)] {
        assert_eq!(
            asked(&table, &Question { groups: vec![repeated(3); count], ..question() }).0,
            number
        );
    }
    for (count, number) in [(0, 10), (1, 0), (255, 0), (256, 10)] {
        assert_eq!(asked(&table, &Question { host: repeated(count), ..question() }).0, number);
    }
    for (count, number) in [(0, 0), (64, 0), (65, 10)] {
        assert_eq!(
            asked(&table, &Question { arguments: vec![repeated(3); count], ..question() }).0,
            number
        );
    }
    for (count, number) in [(0, 0), (256, 0), (257, 10)] {
        assert_eq!(
            asked(&table, &Question { arguments: vec![repeated(count)], ..question() }).0,
            number
        );
    }
    for (asked_minute, number) in [(0, 0), (10_079, 0), (10_080, 10), (u64::MAX, 10), (1 << 32, 10)]
    {
        assert_eq!(asked(&table, &minute(asked_minute)).0, number);
    }
}

#[test]
fn bytes_of_a_table() {
    for byte in 0..=255_u8 {
        let mut table = format!("{G}#").into_bytes();
        table.extend_from_slice(&[byte, b'\n']);
        let expected = match byte {
            b'\t' | b'\n' | 0x20..=0x7E if byte != b'\\' => Answer::NoEntry,
            b'\\' => Answer::Refused { number: 13, place: 23 },
            _ => Answer::Refused { number: 12, place: 24 },
        };
        assert_eq!(common::full_answer(&table, &question()), expected, "byte {byte}");
    }
}
