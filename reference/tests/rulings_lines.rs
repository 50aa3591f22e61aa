//! The rulings on control lines, fields, substitution, and lines that begin with a colon.

mod common;

use common::{arguments, asked, check, check_line, command, full_answer, path, question, user, G};
use rule_table::lines::{fields_as_written, join, LineFault};

fn fields(line: &str) -> Vec<String> {
    let fields = fields_as_written(line.as_bytes()).expect("a good line");
    fields.into_iter().map(|field| String::from_utf8(field).unwrap()).collect()
}

#[test]
fn first_byte_and_joins() {
    check_line("\\\n #x\\\n c /p ann", 0);
    check_line("\\\n c /p ann", 0);
    check(" c /p ann\n", 14, 0);
    check_line(" \"\"", 14);
    check_line("c /p ann\\\n", 14);
    check_line("c /p 'an'\\\n n", 0);
    check_line("#x\\\nc /p ann", 2);
    check_line("#x\\\n\\\n \"'c", 2);
    check_line(" #x\\\n c /p ann", 14);
    check_line(" \t#x", 2);
    check_line("c /p ann #x\\\nbo", 14);
}

#[test]
fn join_bytes() {
    assert_eq!(fields("c /p user1\\\n\tuser2\\\n  user3"), ["c", "/p", "user1", "user2", "user3"]);
    assert_eq!(fields("c /p {user1,\\\n user2,\\\n \t user3}"), ["c", "/p", "{user1,user2,user3}"]);
    assert_eq!(fields("c\\\n d"), ["c", "d"]);
    assert_eq!(fields("c_\\\n d9\\\n e"), ["c_", "d9", "e"]);
    assert_eq!(fields("c#x-\\\n d"), ["c", "d"]);
    assert_eq!(fields("\"a\\\n b\" 'c-\\\n d'"), ["\"a b\"", "'c-d'"]);
    assert_eq!(fields("a\\\\\n b"), ["a\\b"]);
    assert_eq!(fields("a\\ b"), ["a\\", "b"]);
    assert_eq!(fields("a\\#b"), ["a\\"]);
    assert_eq!(fields("a'#'b#c"), ["a'#'b"]);
    assert_eq!(fields("X\"a b\"Y'd e' %&;`"), ["X\"a b\"Y'd e'", "%&;`"]);
    assert_eq!(fields("'\"' \"'\""), ["'\"'", "\"'\""]);
}

#[test]
fn joined_lengths() {
    assert_eq!(join(b"ab\\\nc").length, 4);
    assert_eq!(join(b"a-\\\nc").length, 3);
    assert_eq!(join(b"a#-\\\n  c").length, 5);
    assert_eq!(join(b"#-\\\n\\\n  c").length, 5);
    assert!(!join(b"a-\\\nc").indented);
    assert!(join(b"#-\\\nc").indented);
}

#[test]
fn length_limits_blanks_and_comments() {
    let blanks = " ".repeat(4_097);
    assert_eq!(fields_as_written(blanks.as_bytes()), Err(LineFault::Long));
    check_line(&blanks, 15);
    check_line(&format!("#{}", "x".repeat(4_096)), 15);
    check_line(&format!("#{}", "x".repeat(4_095)), 2);
}

#[test]
fn fields_and_substitution() {
    check(&format!("{G}:define E ''\nc /p ann $E\n"), 14, 36);
    check_line("\":define\" X y", 14);
    check(&format!("{G}:define D :define\n$D X y\n"), 14, 41);
    check_line("\"\"::/p ann", 2);
    check_line("::/p ann", 14);
    // Behind a join and a comment the first field still tells a colon line.
    check_line("\\\n #x\\\n :define X y", 2);
    check_line("\\\n #x\\\n :nothing X y", 14);
    check(&format!("{G}:def\"ine\" X ann\nc /p $X\n"), 0, 3);
    check("$q /p ann\n", 16, 0);
    check(&format!("{G}:define W fine\n:de$W X ann\nc /p $X\n"), 0, 4);
    check(&format!("{G}:define N X\n:define $N ann\nc /p $X\n"), 0, 4);
    check(&format!("{G}:define O ==\n:if a $O a c /p ann\n"), 0, 3);
    check(&format!("{G}:define U user~\nc /p $(U)ann\n"), 0, 3);
    check(&format!("{G}:define O nargs=\nc /p ann $(O)1\n"), 3, 3);
    check(&format!("{G}:define C c\n$C /p ann\n"), 0, 3);
    check(&format!("{G}:define P /p\nc $P ann\n"), 0, 3);
    check(&format!("{G}:define S ::\nc$S/p ann\n"), 0, 3);
    check(&format!("{G}:define L bo,ann\nc /p $L\n"), 0, 3);
    check(&format!("{G}:define L '{{bo,ann'\nc /p $L}}\n"), 0, 3);
}

#[test]
fn references() {
    check(&format!("{G}:define X an\nc /p $X\"\"n\n"), 0, 3);
    check(&format!("{G}:define X an\nc /p $Xn\n"), 14, 36);
    check(&format!("{G}:define X an\nc /p $(X)n\n"), 0, 3);
    check_line("c /p ann$", 14);
    check_line("c /p $\"CALLER\"", 14);
    check_line("c /p \"$CALLER\"", 0);
    check_line("c /p '$CALLER'", 2);
    check_line("c /p $(\"CALLER\")", 14);
    check_line("c /p $(CALLER", 14);
    check_line("c /p $()", 14);
    check_line("c /p $$", 14);
    check_line("c /p $1", 14);
    check_line("c /p \\$CALLER", 0);
    check_line("c /p ann \\$q", 14);
    check_line(&format!("c /p ${}", "x".repeat(65)), 14);
    check_line("c /p $CALLER@$HOST", 0);
    check_line(":if $IS_USERTAB == no c /p ann", 0);
    // A text is neither split nor replaced again, and its quotes are plain.
    check(&format!("{G}:define X \"bo ann\"\nc /p $X\n"), 2, 0);
    check(&format!("{G}:define X '$CALLER'\nc /p $X\n"), 2, 0);
    check(&format!("{G}:define X \"'ann'\"\nc /p $X\n"), 2, 0);
}

#[test]
fn define_lines() {
    check_line(":define", 14);
    check_line(":define X", 14);
    check_line(":define X \"\"", 2);
    check_line(":define X y z", 14);
    check_line(":define X y $q", 14);
    check_line(&format!(":define X y {}", "z".repeat(1_025)), 15);
    check_line(":define X {[}]", 2);
    check_line(":define 1X y", 14);
    check_line(":define X-Y y", 14);
    check_line(":define \"\" y", 14);
    check_line(&format!(":define {} y", "-".repeat(65)), 15);
    for name in ["CALLER", "HOST", "IS_USERTAB"] {
        check_line(&format!(":define {name} y"), 14);
        // The built-in name is a fault of its field, ahead of a text that is too long.
        check_line(&format!(":define {name} {}", "y".repeat(257)), 14);
    }
    check(&format!("{G}:define X bo\n:define X ann\nc /p $X\n"), 0, 4);
    // Sizes are those after substitution, and an equals sign in a text is plain.
    let full = format!("{G}:define X {}\n", "y".repeat(256));
    check(&format!("{full}:define Y $X\n"), 2, 0);
    check(&format!("{full}:define Y $(X)y\n"), 15, full.len());
    check(&format!("{full}:define Y$X z\n"), 15, full.len());
    check_line(":define X a=b", 2);
    check_line(":definex X y", 14);
    check_line(":include /x", 14);
    check_line(":Define X y", 14);
    check_line(":", 14);
}

#[test]
fn if_lines() {
    check_line(":if a == a c /p ann", 0);
    check_line(":if a != a c /p ann", 2);
    check_line(":if a != b c /p ann", 0);
    check_line(":if a == b c $q {", 2);
    check_line(":if a == a", 14);
    check_line(":if a == b", 14);
    check_line(":if a == b \"\"", 2);
    check_line(":if a ~ a c /p ann", 14);
    check_line(":if a=b == \"a=b\" c /p ann", 0);
    check_line(":if '' != $CALLER c /p ann", 0);
    check_line(":if a", 14);
    check_line(":if", 14);
    let four = ":if a == a ".repeat(4);
    check_line(&format!("{four}c /p ann"), 0);
    check_line(&format!("{four}:if"), 15);
    check_line(&format!(":if a == b {four}:if"), 2);
    check_line(&format!("{four}:if a == a c /p ann"), 15);
    // The rest of an `:if` is a colon line by its first byte as written.
    check_line(":if a == a \":define\" X y", 14);
    check(":if a == a :global patterns=shell\n:if a == a \\\n c /p ann\n", 0, 2);
    // A fault is at the place of the outermost line, a decision on its line.
    check_line(":if a == a :if b == b \\\n c p ann", 14);
    check_line(":if a == a :if b == b \\\n c /p ann", 0);
    check(":if a == b c /p ann\n", 2, 0);
    check(":if a == a c /p ann\n", 16, 0);
    check(":if a -- a c /p ann\n", 14, 0);
}

#[test]
fn global_lines() {
    check(":global\n", 14, 0);
    check(":global ann\n", 14, 0);
    check(":global_options patterns=shell\nc /p ann\n", 0, 2);
    check(":global patterns=\n", 16, 0);
    check(":global patterns=regex\n", 16, 0);
    check(":global patterns=shell patterns=x\n", 16, 0);
    check(":global patterns=shell patterns=shell\n", 14, 0);
    check(":global uid=a uid=b patterns=x\n", 16, 0);
    check(":global uid= patterns=x\n", 14, 0);
    check(":global ann patterns=x\n", 14, 0);
    check(":global arg1=\n", 2, 0);
    check(&format!("{G}:global arg1=a::b\nc /p ann\n"), 0, 3);
    check(":global user~a=b\n", 14, 0);
    check(":global auth=y patterns=shell\nc /p ann\n", 1, 2);
    check("/ / patterns=shell\n", 16, 0);
    check_line("/ / uid=a", 14);
    let both = format!("{G}:global arg1=a*\n:global arg1=*b arg2=c\nc /p ann\n");
    assert_eq!(asked(&both, &arguments(&["ab", "c"])), (0, 4));
    assert_eq!(asked(&both, &arguments(&["ax", "c"])), (4, 4));
    assert_eq!(asked(&both, &arguments(&["xb", "c"])), (4, 4));
    assert_eq!(asked(&both, &arguments(&["ab", "d"])), (4, 4));
    // Options are in force from the next line, and entries before it are not changed.
    check(&format!("{G}c /p ann\n:global auth=y\n"), 0, 2);
    check(&format!("{G}:global auth=y\nc /p ann auth=n\n"), 0, 3);
}

#[test]
fn options_told() {
    let table =
        format!("{G}:global uid=a euid=b timeout=-5\nc /p ann uid=<owner> nargs=0-3 egid=x\n");
    let answer = full_answer(table.as_bytes(), &question());
    let permission = answer.permission().expect("a permit");
    assert_eq!(permission.uid.as_deref(), Some(&b"<owner>"[..]));
    assert_eq!(permission.euid.as_deref(), Some(&b"b"[..]));
    assert_eq!(permission.gid, None);
    assert_eq!(permission.egid.as_deref(), Some(&b"x"[..]));
    assert!(!permission.auth);
    assert_eq!(permission.timeout, Some(-5));
    assert_eq!(permission.nargs.map(|range| (range.first, range.last)), Some((0, 3)));
    assert_eq!(answer.written(), b"/p\0<owner>\0b\0\0x\0");
}

#[test]
fn paths() {
    let table = format!("{G}* /a/*/b*\\{{x}}[*] ann\n");
    assert_eq!(path(&table, &command("c*d")), "/a/c*d/bc*d\\{x}[c*d]");
    assert_eq!(path(&format!("{G}x::/x c::/one *::/two ann\n"), &command("c")), "/one");
    assert_eq!(path(&format!("{G}c::/a::b*: ann\n"), &command("c")), "/a::bc:");
    assert_eq!(asked(&format!("{G}'' /p ann\n"), &user("ann")), (2, 0));
}
