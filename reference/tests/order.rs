//! The order of faults: of two neighbouring steps the earlier one is told.

mod common;

use common::{asked, check, check_line, question, G};
use rule_table::answer::answer;
use rule_table::lines::{fields_as_written, LineFault};
use rule_table::question::Question;
use rule_table::variables::{TextFault, Variables};

fn long(count: usize) -> String {
    "x".repeat(count)
}

#[test]
fn buffer_question_table_bytes_lines() {
    let bad_question = Question { minute: 10_080, ..question() };
    let mut short = [0; 2_047];
    assert_eq!(answer(b"", &bad_question, &mut short).number(), 17);
    let oversized = format!("\u{1}{}\n", long(32_768));
    assert_eq!(asked(&oversized, &bad_question), (10, 0));
    assert_eq!(asked(&oversized, &question()), (11, 32_768));
    check("x\n\u{1}\u{2}", 12, 2);
    check("x\n", 16, 0);
}

#[test]
fn lines_in_table_order() {
    check(&format!("{G}c p ann\nc /p {{{{{{{{{{a}}}}}}}}}}\n"), 14, 23);
    check(&format!("{G}c /p {{{{{{{{{{a}}}}}}}}}}\nc p ann\n"), 15, 23);
    // A good entry decides only after all lines are looked at.
    check(&format!("{G}c /p ann\nc p ann\n"), 14, 32);
    // A cut line is last, and is not looked at.
    check(&format!("{G}c p ann\nc p ann"), 14, 23);
    check(&format!("{G}c /p ann\nc p '{}", long(5_000)), 13, 32);
    check(&format!("{G}c /p ann\\\n"), 13, 23);
    check(&format!("{G}c /p ann"), 13, 23);
}

#[test]
fn steps_inside_a_line() {
    let too_long = format!("'\\\nb{}", " x".repeat(2_500));
    assert_eq!(fields_as_written(too_long.as_bytes()), Err(LineFault::Long));
    let blank_and_long = format!(" {}", " x".repeat(2_500));
    assert_eq!(fields_as_written(blank_and_long.as_bytes()), Err(LineFault::Long));
    let no_indent = format!("'\\\nb{}", " x".repeat(65));
    assert_eq!(fields_as_written(no_indent.as_bytes()), Err(LineFault::Indent));
    assert_eq!(fields_as_written(b" 'x"), Err(LineFault::Indent));
    let open_quote = format!("{}'", "x ".repeat(65));
    assert_eq!(fields_as_written(open_quote.as_bytes()), Err(LineFault::Quote));
    let many = "x ".repeat(65);
    assert_eq!(fields_as_written(many.as_bytes()), Err(LineFault::Fields));

    // The same with the numbers of the answers.
    check_line(&too_long, 15);
    check_line(&no_indent, 14);
    check_line(&open_quote, 14);
    check_line(&format!("$q{}", " x".repeat(64)), 15);
}

#[test]
fn pattern_kind_after_the_line_and_before_its_fields() {
    check(&format!("{}\n", "x ".repeat(2_049)), 15, 0);
    check("c\\\nd\n", 14, 0);
    check(" c\n", 14, 0);
    check("c '\n", 14, 0);
    check(&format!("{}\n", "x ".repeat(65)), 15, 0);
    check("$q p {\n", 16, 0);
    check(&format!("{} p {{\n", long(1_025)), 16, 0);
    check("c\n", 16, 0);
}

#[test]
fn fields_left_to_right() {
    let deep = "{{{{{a}}}}}";
    check_line(&format!("[ /p {deep}"), 14);
    check_line(&format!("{deep} p ["), 15);
    check_line(&format!("c p {deep}"), 14);
    check_line(&format!("c /p {deep} $q"), 15);
    check_line(&format!("c /p $q {deep}"), 14);
    check_line(&format!("c /p uid= {deep}"), 14);
    check_line(&format!("c::p {deep}::/p"), 14);
    check_line(&format!("{deep}::p ann"), 15);
    check_line(&format!(":define 1 {}", long(257)), 14);
    check_line(&format!(":define {} $q", long(65)), 15);
    check_line(&format!(":define X {} $q", long(257)), 15);
    check_line(&format!(":if {} $q b c", long(1_025)), 15);
    check_line(&format!(":if a ~ {} c", long(1_025)), 14);
    check_line(&format!(":if a $q {} c", long(1_025)), 14);
    check_line(&format!(":x {}", long(1_025)), 14);
    check_line(":global ann patterns=x", 14);
    check_line(":global patterns=x ann", 16);
    check_line(&format!(":global patterns=x uid={}", long(65)), 16);
}

#[test]
fn steps_inside_a_field() {
    let variables = Variables::new(b"ann", b"h");
    let both = format!("{}$q", long(1_025));
    assert_eq!(variables.text(both.as_bytes()), Err(TextFault::BadReference));
    // A bad `$` comes before the length.
    check_line(&format!("c /p ann,{both}"), 14);
    check_line(&format!(":define X {both}"), 14);
    // The length comes before the braces and sets, and before what is told at once.
    check_line(&format!("c /p ann,{}[", long(1_025)), 15);
    check_line(&format!("c /p {}=", long(1_025)), 15);
    check_line(&format!("c /p ann arg0={}", long(1_025)), 15);
    check_line(&format!("c x{} ann", long(1_024)), 15);
    check_line(&format!(":x{}", long(1_024)), 15);
    // Braces and sets come before depth and number.
    check_line("c /p {{{{{a}}}}}[]", 14);
    check_line(&format!("c /p {}}}", "{a,b}".repeat(7)), 14);
    // Depth and number come before any other form.
    check_line("c /p {{{{{a}}}}}@", 15);
    check_line(&format!("c /p {}~", "{a,b}".repeat(7)), 15);
    check_line("c /p ann time~{{{{{x}}}}}", 15);
    check_line("{{{{{a}}}}}::p ann", 15);
    // Other sizes come before any other form.
    check_line(&format!("c /p ann uid={}", "/".repeat(65)), 15);
    check_line(&format!(":define {} y", "-".repeat(65)), 15);
}

#[test]
fn whole_line_last() {
    // A part missing, or an option twice, waits for the faults of all fields.
    check_line(&format!("c /p uid={}", long(65)), 15);
    check_line(&format!("c /p uid=a uid={}", long(65)), 15);
    check_line("{{{{{a}}}}}", 15);
    check_line(&format!(":define {}", long(65)), 15);
    check_line(&format!(":if {}", long(1_025)), 15);
    check_line(":global patterns=x patterns=x", 16);
    check_line("c /p uid=a uid=a", 14);
}

#[test]
fn too_many_names_come_last() {
    let mut table = String::new();
    for index in 0..64 {
        table += &format!(":define X{index} y\n");
    }
    let place = table.len();
    check(&format!("{table}:define Y\n"), 14, place);
    check(&format!("{table}:define Y {}\n", long(257)), 15, place);
    check(&format!("{table}:define Y a b\n"), 14, place);
    check(&format!("{table}:define Y a\nc\n"), 18, place);
    check(&format!("{table}c\n:define Y a\n"), 16, place);
}
