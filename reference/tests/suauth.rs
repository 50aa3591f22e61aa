//! The su file: each test has the sentence that it comes from, of the request ("02"), of its
//! rulings ("R"), of the manual page ("001") or of the scope paper ("01").

use rule_table::suauth::{answer, Action, Answer, Question};
use rule_table::suauth_cases::reply;

/// The example file of 001.
const EXAMPLE: &str = "# sample /etc/suauth file
#
# A couple of privileged usernames may
# su to root with their own password.
#
root:chris,birddog:OWNPASS
#
# Anyone else may not su to root unless in
# group wheel. This is how BSD does things.
#
root:ALL EXCEPT GROUP wheel:DENY
#
# Perhaps terry and birddog are accounts
# owned by the same person.
# Access can be arranged between them
# with no password.
#
terry:birddog:NOPASS
birddog:terry:NOPASS
#
";

const NONE: Answer = Answer::NoRule;

fn deny(line: usize) -> Answer {
    Answer::Rule { action: Action::Deny, line }
}

fn no_password(line: usize) -> Answer {
    Answer::Rule { action: Action::NoPassword, line }
}

fn own_password(line: usize) -> Answer {
    Answer::Rule { action: Action::OwnPassword, line }
}

fn refused(number: u8, place: usize) -> Answer {
    Answer::Refused { number, place }
}

fn question(target: &str, user: &str, groups: &[&str]) -> Question {
    let bytes = |text: &str| text.as_bytes().to_vec();
    let groups = groups.iter().map(|group| bytes(group)).collect();
    Question { target: bytes(target), user: bytes(user), groups }
}

/// May ann, who is in the groups ops and dev, become root?
fn asked(file: &str) -> Answer {
    answer(file.as_bytes(), &question("root", "ann", &["ops", "dev"]))
}

fn check(file: &str, wanted: Answer) {
    assert_eq!(asked(file), wanted, "{file:?}");
}

/// Check that a line is good wherever it stands: it decides with NOPASS, or the next one denies.
fn check_good(line: &str, applies: bool) {
    let wanted = if applies { no_password(2) } else { deny(3) };
    check(&format!("#\n{line}\nALL:ALL:DENY\n"), wanted);
}

/// Check that a line refuses the file at its beginning, before and behind a line that decides.
fn check_malformed(line: &str) {
    check(&format!("{line}\nALL:ALL:DENY\n"), refused(14, 0));
    check(&format!("ALL:ALL:DENY\n{line}\n"), refused(14, 13));
}

/// 001: its own example, asked as its comments say.
#[test]
fn the_example_of_the_manual() {
    for (target, user, groups, wanted) in [
        ("root", "chris", &[][..], own_password(6)),
        ("root", "birddog", &["wheel"], own_password(6)),
        ("root", "ann", &["wheel"], NONE),
        ("root", "ann", &["ops", "wheel"], NONE),
        ("root", "ann", &["ops"], deny(11)),
        ("root", "wheel", &[], deny(11)),
        ("terry", "birddog", &[], no_password(18)),
        ("birddog", "terry", &[], no_password(19)),
        ("terry", "terry", &[], NONE),
        ("terry", "chris", &["wheel"], NONE),
        ("ann", "root", &[], NONE),
    ] {
        let question = question(target, user, groups);
        assert_eq!(answer(EXAMPLE.as_bytes(), &question), wanted, "{question:?}");
    }
}

/// 02: "ALL, a comma list, ALL EXCEPT a list".
#[test]
fn the_to_side() {
    for (id, applies) in [
        ("ALL", true),
        ("root", true),
        ("bin,root,bo", true),
        ("bin,bo,roo,roott,Root", false),
        ("ALL EXCEPT root", false),
        ("ALL EXCEPT bin,root", false),
        ("ALL EXCEPT bin,bo,ops", true),
        ("ALL\tEXCEPT bin", true),
        ("ALL EXCEPT\tbin", true),
        ("ann", false),
    ] {
        check_good(&format!("{id}:ALL:NOPASS"), applies);
    }
}

/// 02: "GROUP lists on the from side only, also after EXCEPT"; R: "`ALL EXCEPT GROUP g` applies to
/// whoever has none of the groups".
#[test]
fn the_from_side() {
    for (id, applies) in [
        ("ALL", true),
        ("ann", true),
        ("bo,ann", true),
        ("root,ops,dev", false),
        ("ALL EXCEPT ann", false),
        ("ALL EXCEPT bo,ann", false),
        ("ALL EXCEPT root,ops", true),
        ("GROUP ops", true),
        ("GROUP\tdev", true),
        ("GROUP x,dev", true),
        ("GROUP root,ann,op,opss", false),
        ("ALL EXCEPT GROUP dev", false),
        ("ALL EXCEPT GROUP x,ops", false),
        ("ALL\tEXCEPT\tGROUP\tx,y", true),
        ("ALL EXCEPT GROUP ann", true),
    ] {
        check_good(&format!("ALL:{id}:NOPASS"), applies);
    }
}

/// What is no id on either side, parted at bars.
const NO_ID: &str = "ann,GROUP g|GROUP g EXCEPT ann|ann EXCEPT bo|ALL,ann|ann,ALL|EXCEPT|GROUP|\
    EXCEPT ann|ALL EXCEPT|ALL EXCEPT ALL|ALL EXCEPT EXCEPT|ALL EXCEPT GROUP|\
    ALL EXCEPT EXCEPT ann|ALL GROUP g|ALL ann|ALL EXCEPT ann EXCEPT bo|ann bo|\
    ann, bo|ann ,bo||,|ann,|,ann|ann,,bo|ALL  EXCEPT ann|ALL EXCEPT  ann|\
    ALL EXCEPT \tann|ALLEXCEPT ann|ALL EXCEPT ann |an/n|an#n|*";

/// What is no id on the from side either, parted at bars.
const NO_FROM_ID: &str =
    "ann | ann|\tann|GROUP ALL|GROUP g,EXCEPT|GROUP GROUP|GROUP GROUP g|GROUP  g|\
    GROUP |GROUP g,|GROUP g h|GROUP EXCEPT g|ALL EXCEPT GROUP  g|ALL EXCEPT GROUP |\
    ALL EXCEPT GROUP g,,h|ALL EXCEPT GROUP ALL|ALL EXCEPT ann,GROUP g";

/// R: "Exactly the forms named"; 02: "ALL, EXCEPT and GROUP are no names in the file".
#[test]
fn other_forms() {
    for id in NO_ID.split('|') {
        check_malformed(&format!("x:{id}:DENY"));
        check_malformed(&format!("{id}:x:DENY"));
    }
    for id in NO_FROM_ID.split('|') {
        check_malformed(&format!("x:{id}:DENY"));
    }
    for id in ["GROUP g", "ALL EXCEPT GROUP g", "GROUP g,h"] {
        check_malformed(&format!("{id}:x:DENY"));
        check_good(&format!("x:{id}:DENY"), false);
    }
    for name in ["all", "All", "ALLE", "AL", "Except", "GROUPS", "GROUP-ops"] {
        check_good(&format!("{name}:{name}:DENY"), false);
    }
}

/// Lines with an unknown action or a wrong number of colons, parted at bars.
const NO_RULES: &str =
    "x:y:|x:y:deny|x:y:DEN|x:y:DENYY|x:y:PASS|x:y:DENY,NOPASS|x:y:DENY:|x:y:DENY:x|\
    x:y|x|:|::|x::DENY|:y:DENY|x:DENY|x:y:DENY#|x:y:DENY #";

/// 02: "actions DENY, NOPASS, OWNPASS"; "an unknown action .. or a wrong number of colons refuses
/// the file at that line".
#[test]
fn actions_and_colons() {
    check("root:ann:DENY\n", deny(1));
    check("root:ann:NOPASS\n", no_password(1));
    check("root:ann:OWNPASS\n", own_password(1));
    for line in NO_RULES.split('|') {
        check_malformed(line);
    }
}

/// 02: "blanks only at a line's two ends"; R: "a blank is a space or a tab".
#[test]
fn blanks() {
    for line in [
        " root:ann:NOPASS",
        "root:ann:NOPASS ",
        "\t  root:ann:NOPASS \t\t",
        " root:GROUP\tops:NOPASS\t",
    ] {
        check_good(line, true);
    }
    for line in ["x :y:DENY", "x: y:DENY", "x:y :DENY", "x:y: DENY", "x:y:DE NY", "x\t:y:DENY"] {
        check_malformed(line);
    }
    check(" \t x:y:deny\n", refused(14, 0));
    check("#\n \t x:y:deny\n", refused(14, 2));
}

/// 02: "blank lines and those beginning `#`, leading blanks aside, are skipped"; R: "`#` only at a
/// line's beginning".
#[test]
fn lines_without_a_rule() {
    for line in ["", " ", "\t \t", "#", "  # x:y:z:", "\t#root:ann:DENY", "#\\"] {
        check(&format!("{line}\nroot:ann:NOPASS\n"), no_password(2));
        check(&format!("{line}\n"), NONE);
    }
    check("\n\n#\n\n \nroot:ann:NOPASS\n", no_password(6));
    check("", NONE);
    check("\n", NONE);
}

/// 02: "every newline ends a line"; R: "no joins".
#[test]
fn no_joins() {
    check("# a comment \\\nroot:ann:NOPASS\n", no_password(2));
    check("root:ann\\\n :NOPASS\n", refused(14, 0));
    check("root:ann:NOPASS\\\n\n", refused(14, 0));
}

/// 02: "first applicable line decides".
#[test]
fn the_first_applicable_line() {
    check("bo:ann:DENY\nroot:bo:DENY\nroot:ann:OWNPASS\nroot:ann:DENY\n", own_password(3));
    check("root:ann:DENY\nroot:ann:NOPASS\n", deny(1));
    check("root:ALL EXCEPT ann:DENY\nALL EXCEPT root:ann:DENY\n", NONE);
}

/// R: "All lines are read before the answer: a fault behind the deciding rule refuses".
#[test]
fn a_fault_behind_the_deciding_line() {
    check("root:ann:DENY\nx:y:z\n", refused(14, 14));
    check("root:ann:DENY\n\nx:y:z\nx\n", refused(14, 15));
}

/// 01: names of "1 to 32 bytes of letters, digits, `.`, `_`, `-`"; R: "a name of 33 bytes is 14;
/// lists have no limit".
#[test]
fn names() {
    let (longest, long) = ("n".repeat(32), "n".repeat(33));
    for id in [&longest[..], "a", ".", "_", "-", "0", "-.-", "Z_9.-"] {
        let question = question(id, id, &[id]);
        for line in [format!("{id}:{id}:DENY\n"), format!("x,{id}:GROUP x,{id}:DENY\n")] {
            assert_eq!(answer(line.as_bytes(), &question), deny(1), "{line:?}");
        }
    }
    for line in [
        format!("{long}:x:DENY"),
        format!("x:{long}:DENY"),
        format!("x:x,{long}:DENY"),
        format!("x:GROUP {long}:DENY"),
        format!("ALL EXCEPT {long}:x:DENY"),
        format!("x:ALL EXCEPT GROUP {long}:DENY"),
    ] {
        check_malformed(&line);
    }
    let list = vec!["x"; 16_000].join(",");
    check(&format!("root:{list},ann:DENY\n"), deny(1));
}

/// 01: the question; R: "In the question they are names" of ALL, EXCEPT and GROUP.
#[test]
fn questions() {
    let file = b"ALL EXCEPT x:ALL EXCEPT y:NOPASS\nALL:GROUP z:DENY\n";
    let (longest, long) = ("n".repeat(32), "n".repeat(33));
    let (most, more) = (["g"; 32], ["g"; 33]);
    for (target, user, groups, wanted) in [
        ("ALL", "EXCEPT", &["GROUP", "ALL"][..], no_password(1)),
        ("x", "GROUP", &["ALL", "z"], deny(2)),
        ("x", "y", &["EXCEPT"], NONE),
        (&longest, &longest, &[&longest], no_password(1)),
        ("root", "ann", &most, no_password(1)),
        ("root", "ann", &more, refused(10, 0)),
        (&long, "ann", &[], refused(10, 0)),
        ("root", &long, &[], refused(10, 0)),
        ("root", "ann", &[&long], refused(10, 0)),
        ("", "ann", &[], refused(10, 0)),
        ("root", "", &[], refused(10, 0)),
        ("root", "ann", &["g", ""], refused(10, 0)),
        ("ro ot", "ann", &[], refused(10, 0)),
        ("root", "an,n", &[], refused(10, 0)),
        ("root", "ann", &["a:b"], refused(10, 0)),
        ("root\n", "ann", &[], refused(10, 0)),
    ] {
        let question = question(target, user, groups);
        assert_eq!(answer(file, &question), wanted, "{question:?}");
    }
}

/// 01's order: 10, 11, 12, then lines in order, the first faulty one (14), a cut line last (13).
#[test]
fn order() {
    let bad = question("", "ann", &[]);
    let long = format!("\u{1}x\nx{}", "#".repeat(32_765));
    assert_eq!(long.len(), 32_769);
    for file in ["\u{1}", "x\n", "x", "root:ann:DENY\n", "", &long] {
        assert_eq!(answer(file.as_bytes(), &bad), refused(10, 0));
    }
    check(&long, refused(11, 32_768));
    check("x\nx\u{1}\u{2}", refused(12, 3));
    check("root:ann:DENY\nx\nx:y:z\n#", refused(14, 14));
    check("root:ann:DENY\nx", refused(13, 14));
    check("root:ann:DENY\nx:y:DENY", refused(13, 14));
}

/// 01: "table over 32,768 bytes", "byte other than tab, newline, 0x20 to 0x7E".
#[test]
fn sizes_and_bytes() {
    let line = "root:ann:DENY\n";
    let comment = |length: usize| format!("#{}\n", "x".repeat(length - line.len() - 2));
    check(&format!("{}{line}", comment(32_768)), deny(2));
    check(&format!("{}{line}", comment(32_769)), refused(11, 32_768));
    for byte in 0..=255_u8 {
        let file = [b"#".as_slice(), &[byte], b"\nroot:ann:DENY\n"].concat();
        let wanted = match byte {
            b'\n' => deny(3),
            b'\t' | 0x20..=0x7E => deny(2),
            _ => refused(12, 1),
        };
        assert_eq!(answer(&file, &question("root", "ann", &[])), wanted, "byte {byte}");
    }
}

/// R: "A cut comment is 13"; so is every other line that lost its newline, and it is not looked at.
#[test]
fn cut_lines() {
    for cut in ["#", " ", "\t", "x", "root:ann:DENY", " # x", ":::"] {
        check(cut, refused(13, 0));
        check(&format!("root:ann:DENY\n{cut}"), refused(13, 14));
        check(&format!("x:y:DENY\n\n{cut}"), refused(13, 10));
    }
}

/// 02: "The cut rule of demand 3 holds here too": what every cut of the example answers.
#[test]
fn every_cut_of_the_example() {
    let ends: Vec<usize> = EXAMPLE
        .bytes()
        .enumerate()
        .filter(|(_, byte)| *byte == b'\n')
        .map(|(at, _)| at + 1)
        .collect();
    for (target, user, deciding_line, wanted) in [
        ("root", "chris", 6, own_password(6)),
        ("root", "ann", 11, deny(11)),
        ("birddog", "terry", 19, no_password(19)),
        ("ann", "terry", usize::MAX, NONE),
    ] {
        let question = question(target, user, &[]);
        for cut in 0..=EXAMPLE.len() {
            let whole_lines = ends.iter().filter(|end| **end <= cut).count();
            let begin = if whole_lines == 0 { 0 } else { ends[whole_lines - 1] };
            let wanted = match (begin == cut, whole_lines >= deciding_line) {
                (false, _) => refused(13, begin),
                (true, false) => NONE,
                (true, true) => wanted,
            };
            let got = answer(&EXAMPLE.as_bytes()[..cut], &question);
            assert_eq!(got, wanted, "{question:?} cut at {cut}");
        }
    }
}

fn replied(case: &str) -> String {
    String::from_utf8(reply(case.as_bytes())).expect("plain text")
}

/// The file is `a:b:DENY` or `a:GROUP g:NOPASS` and the like, in hexadecimal digits.
#[test]
fn case_answers() {
    assert_eq!(replied("613a623a44454e590a\t61\t62\t-"), "DENY 1");
    assert_eq!(replied("0a613a623a4e4f504153530a\t61\t62\t-"), "NOPASS 2");
    assert_eq!(replied("613a47524f555020673a4f574e504153530a\t61\t62\t68,67"), "OWNPASS 1");
    assert_eq!(replied("613a623a44454e590a\t62\t62\t-"), "none");
    assert_eq!(replied("\t61\t62\t-"), "none");
    assert_eq!(replied("613a623a44454e59\t61\t62\t-"), "13 0");
    assert_eq!(replied("0a610a\t61\t62\t-"), "14 1");
    assert_eq!(replied("0a6100\t61\t62\t-"), "12 2");
    assert_eq!(replied("\t\t62\t-"), "10 0");
    assert_eq!(replied("\t61\t62\t"), "10 0");
    assert_eq!(replied("\t61\t62\t67,"), "10 0");
}

#[test]
fn bad_cases() {
    for bad in [
        "",
        "\t61\t62",
        "\t61\t62\t-\t",
        "6\t61\t62\t-",
        "\t6g\t62\t-",
        "\t61\t-\t-",
        "\t61\t62\t67,-",
    ] {
        assert_eq!(replied(bad), "bad case", "{bad:?}");
    }
}
