//! The rulings on entries and patterns.

mod common;

use common::{asked, check, check_line, command, question, user, G};
use rule_table::pattern::{any_matches, expansions, Kind};
use rule_table::question::Question;

fn matches(pattern: &str, name: &str) -> bool {
    let expansions = expansions(Kind::Plain, pattern.as_bytes()).expect("a good pattern");
    any_matches(&expansions, name.as_bytes())
}

#[test]
fn pairs_and_paths() {
    check_line("[::]::/p ann", 14);
    check_line("c::/p ann", 0);
    check_line("x::/x c::/p ann", 0);
    check_line("c::p ann", 14);
    check_line("c:::/p ann", 14);
    check_line("c::'/p q' ann", 14);
    check_line("c::/p ann d::/q", 14);
    check_line("c /p::q ann", 14);
    check_line("c /p d::/q ann", 14);
    check_line("c /p ann arg1=a::b", 14);
    check_line("c /p ann arg1=a:b", 0);
    check_line("c p ann", 14);
    check_line("c '/p q' ann", 14);
    check_line("c \"/p\tq\" ann", 14);
    check_line("c '' ann", 14);
    check_line("c", 14);
    check_line("c /p", 14);
    check_line("c::/p", 14);
    check_line("c /p uid=a time~*", 14);
    // As long as all fields so far hold two colons, so does a field that looks like an option.
    check_line("x::/x arg1=a::/b c::/p ann", 0);
    check_line("c=~!:d /p ann", 2);
    check_line("c /=~!: ann", 0);
    // Commas at the top level are plain in a command pattern.
    check_line("c,d /p ann", 2);
    assert_eq!(asked(&format!("{G}c,d /p ann\n"), &command("c,d")), (0, 2));
    assert_eq!(asked(&format!("{G}{{c,d}} /p ann\n"), &command("d")), (0, 2));
}

#[test]
fn users() {
    check_line("c /p !bo", 2);
    assert_eq!(asked(&format!("{G}c /p !bo\n"), &user("root")), (0, 2));
    assert_eq!(asked(&format!("{G}c /p !root\n"), &user("root")), (2, 0));
    assert_eq!(asked(&format!("{G}c /p ann time~>24\n"), &user("root")), (2, 0));
    check_line("c /p !ann ann", 0);
    check_line("c /p ann !ann", 2);
    check_line("c /p ann !{a*,b}", 2);
    check(&format!("{G}c /p ann !ann\nc /q ann\n"), 0, 3);
    check_line("c /p ann@h", 0);
    check_line("c /p ann@x", 2);
    check_line("c /p ann@{x,h}", 0);
    check_line("c /p ann@+h", 2);
    let listed = format!("{G}c /p ann@x,h\n");
    check(&listed, 2, 0);
    assert_eq!(asked(&listed, &user("h")), (0, 2));
    let on_x = Question { host: b"x".to_vec(), ..question() };
    assert_eq!(asked(&listed, &on_x), (0, 2));
    let grouped = Question { groups: vec![b"x".to_vec(), b"ops".to_vec()], ..question() };
    assert_eq!(asked(&format!("{G}c /p group~ops@h\n"), &grouped), (0, 2));
    assert_eq!(asked(&format!("{G}c /p group~ops@g\n"), &grouped), (2, 0));
    assert_eq!(asked(&format!("{G}c /p ann !group~o*\n"), &grouped), (2, 0));
    check_line("c /p group~*", 2);
}

#[test]
fn user_forms() {
    for bad in [
        "@h",
        "ann@",
        "ann@h@h",
        "ann,",
        "{ann,}",
        "!!ann",
        "user~!ann",
        "ann@!h",
        "ann:",
        ":ann",
        "a\\:",
        "[:]",
        "a~b",
        "a\\~b",
        "[~]",
        "user~user~ann",
        "group~user~ann",
        "!",
        "user~",
        "group~",
        "!user~",
        "User~ann",
        "~ann",
        "a},{b",
        "time~ann:",
    ] {
        check_line(&format!("c /p ann {bad}"), 14);
    }
    for good in [
        "\\!x",
        "x\\@y",
        "x[@]y",
        "\\\\@h",
        "user~a=b",
        "!user~a=b",
        "group~a=b",
        "!group~a,b",
        "^x",
        "[[a]]",
    ] {
        check_line(&format!("c /p ann {good}"), 0);
    }
    // The backslash takes one byte with it, so this `@` parts, and a second one is bad.
    check_line("c /p ann \\\\@h@h", 14);
    check_line("c /p ann \\@@h", 0);
}

#[test]
fn equals_signs() {
    for bad in
        ["a=b", "!a=b", "foo~a=b", "a\\=b", "a[=]b", "{a=b", "!uid=x", "=", "UID=x", "maxlen=3"]
    {
        check_line(&format!("c /p ann {bad}"), 14);
    }
    // The equals sign is told at once, ahead of a depth that is too great.
    check_line("c /p ann {{{{{a}}}}}=", 14);
    check_line("c /p ann user~{{{{{a}}}}}=", 15);
    check_line("c /p ann arg0={{{{{a}}}}}", 14);
    check_line("c /p ann arg1={{{{{a}}}}}", 15);
    check_line("c /p ann {{{{{a}}}}}::", 15);
    check_line("c /p ann arg1={{{{{a}}}}}::", 15);
}

#[test]
fn pattern_forms() {
    for bad in [
        "[]", "[!]", "[]a]", "[z-a]", "[", "[a", "{", "{a", "}", "a\\", "{a\\}", "{a,{b}", "{[}",
        "[a-\\]",
    ] {
        check_line(&format!("{bad} /p ann"), 14);
        // A blank behind keeps a last backslash from joining.
        check_line(&format!("c /p {bad} "), 14);
        check_line(&format!("c /p ann arg1={bad} "), 14);
    }
    check_line("c /p {{{{{a}}}}}[]", 14);
    check_line("c /p a},{b", 14);
    check_line("c /p {{{{a}}}},ann", 0);
    check_line("c /p {{{{{a}}}}},ann", 15);
    // Braces that come from a variable count as written.
    check(&format!("{G}:define L {{{{{{a}}}}}}\nc /p {{$L}},ann\n"), 0, 3);
    check(&format!("{G}:define L {{{{{{a}}}}}}\nc /p {{{{$L}}}},ann\n"), 15, 41);
}

#[test]
fn matching() {
    for (pattern, name) in [
        ("*", ""),
        ("*", "a/b"),
        ("a*c*", "abcabc"),
        ("?", "/"),
        ("[a-c]", "b"),
        ("[!a-c]", "d"),
        ("[a-]", "a"),
        ("[a-]", "-"),
        ("[a-c-e]", "b"),
        ("[a-c-e]", "-"),
        ("[a-c-e]", "e"),
        ("[--a]", "A"),
        ("[!-a]", "b"),
        ("[a!]", "!"),
        ("[\\]", "\\"),
        ("[{,}]", ","),
        ("[{,}]", "{"),
        ("\\*", "*"),
        ("\\[", "["),
        ("\\{a\\}", "{a}"),
        ("a,b", "a,b"),
        ("{a,b}c", "bc"),
        ("{a,}b", "b"),
        ("{}", ""),
        ("{a\\,b}", "a,b"),
        ("{[,]x,y}", ",x"),
        ("{a{b,c},d}", "ac"),
        ("^a", "^a"),
        ("[^a]", "^"),
        ("[[a]]", "[]"),
        ("[[a]]", "a]"),
        ("]", "]"),
        ("a]", "a]"),
        ("", ""),
    ] {
        assert!(matches(pattern, name), "{pattern} and {name}");
    }
    for (pattern, name) in [
        ("", "a"),
        ("a", "ab"),
        ("b", "ab"),
        ("?", ""),
        ("[a-c]", "d"),
        ("[!a-c]", "a"),
        ("[a-c-e]", "d"),
        ("[a-]", "b"),
        ("\\*", "a"),
        ("{a\\,b}", "a"),
        ("{a,b}", "a,b"),
        ("[!-a]", "-"),
        ("[^a]", "b"),
        ("[!a]", ""),
        ("*a", "ab"),
        ("A", "a"),
    ] {
        assert!(!matches(pattern, name), "{pattern} and {name}");
    }
}
