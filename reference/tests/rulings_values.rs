//! The rulings on times, options, and questions.

mod common;

use common::{arguments, asked, check_line, command, minute, question, user, G};
use rule_table::program::reply;
use rule_table::question::Question;

#[test]
fn times() {
    for nothing in ["24-24", ">24", ">=24:00", "<0", ">23:59", "24:00-24"] {
        for asked_minute in [0, 1_439, 1_440, 10_079] {
            let question = minute(asked_minute);
            assert_eq!(
                asked(&format!("{G}c /p ann time~{nothing}\n"), &question),
                (2, 0),
                "{nothing}"
            );
            assert_eq!(
                asked(&format!("{G}c /p ann !time~{nothing}\n"), &question),
                (0, 2),
                "{nothing}"
            );
        }
    }
    for bad in [
        "9-8",
        "8",
        "8/mon",
        "25",
        "<25",
        "24:01-24:01",
        "<24:01",
        "8:60-9",
        "8:5-9",
        "8:005-9",
        "008-9",
        "-9",
        "8-",
        "<",
        "<=",
        "mo",
        "mondays",
        "8-9/",
        "8-9/x",
        "/mon",
        "8-9/mon/tue",
        "8-9-10",
        "<8-9",
        "",
        "8 -9",
        "{8-9,}",
        "8-9,",
        "!8-9",
        "8-9/**",
        "\\8-9",
        "[8]-9",
        "8-9/[mon]",
        "8::00-9",
        ">>8",
        "=8",
        "8-9}",
        "{8-9",
        "time~8-9",
        "8-9@h",
        "mon~",
    ] {
        check_line(&format!("c /p ann time~'{bad}'"), 14);
    }
    for (good, hits, misses) in [
        ("MON", 0, 1_440),
        ("tUeSd", 1_440, 0),
        ("wednesday", 2_880, 0),
        ("thurs", 4_320, 0),
        ("fri", 5_760, 0),
        ("SATURDAY", 7_200, 0),
        ("sun", 10_079, 0),
        ("8-17/{mon,tues}", 1_440 + 1_020, 1_440 + 1_021),
        ("8:00-9:30/*", 480, 479),
        ("8:00-9:30", 570, 571),
        ("<1", 59, 60),
        ("<=1", 60, 61),
        (">1/mon", 61, 60),
        (">=1", 60, 59),
        ("{<1,>23}", 59, 60),
        ("<1,>23", 1_381, 1_380),
        ("0-0", 0, 1),
        ("00:00-00:00", 1_440, 1),
    ] {
        let table = format!("{G}c /p ann time~{good}\n");
        assert_eq!(asked(&table, &minute(hits)), (0, 2), "{good} at {hits}");
        assert_eq!(asked(&table, &minute(misses)), (2, 0), "{good} at {misses}");
    }
    assert_eq!(asked(&format!("{G}c /p ann time~*\n"), &minute(77)), (0, 2));
    assert_eq!(asked(&format!("{G}c /p ann time~0-24\n"), &minute(1_439)), (0, 2));
    // A set or a backslash hides nothing after `time~`.
    check_line("c /p ann time~[{]", 14);
    check_line("c /p ann 'time~{{{{{[}}}}}'", 15);
}

#[test]
fn rightmost_time_decides() {
    check_line("c /p ann time~<8 !time~0-1", 2);
    check_line("c /p ann !time~0-1 time~<8", 0);
    check_line("c /p ann !time~9-10 time~8-9", 2);
    check_line("c /p ann !time~9-10 !time~tue", 0);
}

#[test]
fn option_forms() {
    for bad in [
        "uid=",
        "uid=a/b",
        "uid=<Owner>",
        "uid=<owner>x",
        "auth=",
        "auth=Y",
        "auth=yes",
        "timeout=",
        "timeout=-",
        "timeout=+1",
        "timeout=123456",
        "timeout=000001",
        "timeout=--1",
        "nargs=",
        "nargs=-",
        "nargs=1-",
        "nargs=-1",
        "nargs=2-1",
        "nargs=1-2-3",
        "nargs=x",
        "nargs=000001",
        "arg=a",
        "arg0=a",
        "arg65=a",
        "arg2-1=a",
        "arg000001=a",
        "arg1-=a",
        "argx=a",
        "arg0-1=a",
        "patterns=shell",
        "patterns=x",
        "patterns=",
        "uid=a uid=a",
        "auth=y auth=n",
        "nargs=1 nargs=1-2",
        "timeout=1 timeout=1",
    ] {
        check_line(&format!("c /p ann {bad}"), 14);
    }
    for good in [
        "uid=a.b_c-D9",
        "euid=<caller>",
        "gid=<owner>",
        "egid=0",
        "auth=n",
        "timeout=00015",
        "timeout=-0",
        "timeout=-00005",
        "nargs=00000",
        "nargs=0-00064",
        "arg00001=a",
        "arg1-64=*",
        "arg1= arg1= arg1=a",
        "uid=a euid=a gid=a egid=a",
    ] {
        check_line(&format!("c /p ann {good}"), 0);
    }
    check_line(&format!("c /p ann uid={}", "/".repeat(65)), 15);
    // An option twice waits for the faults of later fields.
    check_line("c /p ann uid=a uid=b {{{{{a}}}}}", 15);
}

#[test]
fn argument_patterns() {
    let empty = format!("{G}c /p ann arg1=\n");
    assert_eq!(asked(&empty, &arguments(&[""])), (0, 2));
    assert_eq!(asked(&empty, &arguments(&["a"])), (4, 2));
    assert_eq!(asked(&empty, &arguments(&[])), (0, 2));
    let ranged = format!("{G}c /p ann arg2-3=[a-z]* arg3=*x\n");
    assert_eq!(asked(&ranged, &arguments(&["9", "a"])), (0, 2));
    assert_eq!(asked(&ranged, &arguments(&["9", "9"])), (4, 2));
    assert_eq!(asked(&ranged, &arguments(&["9", "a", "b"])), (4, 2));
    assert_eq!(asked(&ranged, &arguments(&["9", "a", "bx", "9"])), (0, 2));
    assert_eq!(asked(&format!("{G}c /p ann arg1=a,b\n"), &arguments(&["a,b"])), (0, 2));
    // A global pattern and the entry's own add up.
    let both = format!("{G}:global arg1=a*\nc /p ann arg1=*b\n");
    assert_eq!(asked(&both, &arguments(&["ab"])), (0, 3));
    assert_eq!(asked(&both, &arguments(&["b"])), (4, 3));
    assert_eq!(asked(&both, &arguments(&["a"])), (4, 3));
}

#[test]
fn search_stops_at_the_deciding_entry() {
    let table = format!("{G}c /p ann nargs=1\nc /q ann\n");
    assert_eq!(asked(&table, &question()), (3, 2));
    // The order of trial is nargs, argument patterns, path length, password.
    let long = format!("/{}", "*".repeat(5));
    let wide = Question { command: vec![b'c'; 256], arguments: vec![b"a".to_vec()], ..question() };
    assert_eq!(asked(&format!("{G}* {long} ann nargs=0 arg1=b auth=y\n"), &wide), (3, 2));
    assert_eq!(asked(&format!("{G}* {long} ann arg1=b auth=y\n"), &wide), (4, 2));
    assert_eq!(asked(&format!("{G}* {long} ann auth=y\n"), &wide), (5, 2));
    assert_eq!(asked(&format!("{G}* /* ann auth=y\n"), &wide), (1, 2));
}

#[test]
fn passwords() {
    for (options, age, number) in [
        ("auth=y", Some(0), 1),
        ("auth=y timeout=0", Some(0), 1),
        ("auth=y timeout=-5", Some(0), 1),
        ("auth=y timeout=5", None, 1),
        ("auth=y timeout=5", Some(0), 0),
        ("auth=y timeout=5", Some(5), 0),
        ("auth=y timeout=5", Some(6), 1),
        ("auth=y timeout=5", Some(-1), 1),
        ("timeout=5", None, 0),
        ("auth=n timeout=5", Some(6), 0),
        ("auth=y timeout=5", Some(i32::MIN), 1),
        ("auth=y timeout=5", Some(i32::MAX), 1),
        ("", None, 0),
    ] {
        let table = format!("{G}c /p ann {options}\n");
        let question = Question { age, ..question() };
        assert_eq!(asked(&table, &question), (number, 2), "{options} {age:?}");
    }
}

#[test]
fn question_lines() {
    let table = format!("{G}c /p ann nargs=0\n* /* ann arg1= uid=u egid=g\n");
    let printed = |line: &str| String::from_utf8(reply(table.as_bytes(), line.as_bytes())).unwrap();
    assert_eq!(printed("c ann - h 0 -"), "permit 2 /p");
    assert_eq!(printed("c ann - h 0 - "), "stopped 2 nargs");
    assert_eq!(printed("d ann - h 0 - "), "permit 3 /d uid=u egid=g");
    assert_eq!(printed("d ann - h 0 - x"), "stopped 3 arg");
    assert_eq!(printed("c bo - h 0 -"), "none");
    assert_eq!(printed("c ann -,x,- h 00010079 -00002147483648"), "permit 2 /p");
    for bad in [
        "",
        " ",
        "c",
        "c ann - h 0",
        "c  ann - h 0 -",
        " c ann - h 0 -",
        "c ann  h 0 -",
        "c ann a, h 0 -",
        "c ann ,a h 0 -",
        "c ann - h 10080 -",
        "c ann - h +1 -",
        "c ann - h -1 -",
        "c ann - h  -",
        "c ann - h 0 +1",
        "c ann - h 0 --1",
        "c ann - h 0 never",
        "c ann - h 0 2147483648",
        "c ann - h 0 -2147483649",
        "c ann - h 0 99999999999999999999999",
        "c ann - h 99999999999999999999999 -",
        "c ann - h 0  x",
        "a/ ann - h 0 -",
        "/a ann - h 0 -",
        "a//b ann - h 0 -",
        "./a ann - h 0 -",
        "a/.. ann - h 0 -",
        "a:b ann - h 0 -",
        "c ann - h 0 -\r",
        "c\tann - h 0 -",
        "c ann - h 0 - \u{7f}",
        "c an/n - h 0 -",
    ] {
        assert_eq!(printed(bad), "refused 10 0", "{bad:?}");
    }
    assert_eq!(reply(b"\xff", b"c ann - h 0 -"), b"refused 12 0");
    assert_eq!(reply(b"\xff", b"c ann - h x -"), b"refused 10 0");
}

#[test]
fn question_forms() {
    for good in ["a", "a/b", "...", ".a/..b", "!~*[]{}\\\"'$#%", "-"] {
        assert!(command(good).is_good(), "{good}");
    }
    for bad in [
        "", "/", "/a", "a/", "a//b", ".", "..", "a/./b", "a/../b", "../a", "a:b", "a b", "a\tb",
        "a\u{7f}",
    ] {
        assert!(!command(bad).is_good(), "{bad}");
    }
    for bad in ["", "a b", "a/b", "a:b", "\u{e9}", "a@b"] {
        assert!(!user(bad).is_good(), "{bad}");
    }
    assert!(arguments(&["", " ~"]).is_good());
    assert!(!arguments(&["\t"]).is_good());
    assert!(!arguments(&["\u{7f}"]).is_good());
}
