//! Random tables: no panic, one answer of the stated kind, and what cuts of a table give.

mod common;

use common::{full_answer, question, G};
use rule_table::answer::Answer;
use rule_table::lines::control_lines;
use rule_table::question::Question;

/// A small generator of pseudo-random numbers.
struct Random(u64);

impl Random {
    fn below(&mut self, limit: usize) -> usize {
        self.0 ^= self.0 << 13;
        self.0 ^= self.0 >> 7;
        self.0 ^= self.0 << 17;
        (self.0.wrapping_mul(0x2545_F491_4F6C_DD1D) >> 33) as usize % limit
    }

    fn one_in(&mut self, limit: usize) -> bool {
        self.below(limit) == 0
    }

    fn pick<'a>(&mut self, choices: &[&'a str]) -> &'a str {
        choices[self.below(choices.len())]
    }
}

fn name(random: &mut Random) -> String {
    let plain = [
        "ann", "bo", "tmp", "root", "a*", "?nn", "[a-c]*", "[!a]o", "\\ann", "*", "$CALLER", "$X",
        "$(Y)", "'ann'",
    ];
    match random.below(6) {
        0 => format!("{{{},{}}}", name(random), name(random)),
        1 => format!("{},{}", name(random), name(random)),
        _ => random.pick(&plain).to_string(),
    }
}

fn time(random: &mut Random) -> String {
    let items = [
        "8-17",
        "0-24/mon",
        ">=17:30/tues",
        "<8",
        "*",
        "sat",
        "{mon,tue}",
        "0-8/{mon,sun}",
        ">23:59",
    ];
    random.pick(&items).to_string()
}

fn field(random: &mut Random) -> String {
    let not = if random.one_in(3) { "!" } else { "" };
    match random.below(8) {
        0 | 1 => format!("{not}{}", name(random)),
        2 => {
            format!("{not}user~{}@{}", name(random), random.pick(&["h", "van*", "$HOST", "{h,i}"]))
        }
        3 => format!("{not}group~{}", random.pick(&["bench", "b*", "ops,bench"])),
        4 => format!("{not}time~{}", time(random)),
        5 => random
            .pick(&["uid=u", "euid=<owner>", "gid=g", "egid=<caller>", "auth=y", "timeout=15"])
            .to_string(),
        6 => {
            random.pick(&["nargs=0-1", "nargs=1", "arg1=a*", "arg1-2=[a-z]*", "arg2="]).to_string()
        }
        _ => random.pick(&["ann", "*"]).to_string(),
    }
}

fn separator(random: &mut Random) -> &'static str {
    ["  ", " ", " ", " ", " ", "\t", " \\\n  ", " #note\\\n "][random.below(8)]
}

fn entry(random: &mut Random) -> String {
    let command = random.pick(&["c", "d", "c*", "{c,d}", "*", "[cd]", "x"]);
    let path = random.pick(&["/p", "/opt/*/run", "/$X"]);
    let mut line = if random.one_in(3) {
        format!("{command}::{path} e::/e")
    } else {
        format!("{command}{}{path}", separator(random))
    };
    line += separator(random);
    line += random.pick(&["ann", "*", "!tmp", "{ann,bo}"]);
    for _ in 0..random.below(4) {
        line += separator(random);
        line += &field(random);
    }
    line
}

fn line(random: &mut Random) -> String {
    match random.below(10) {
        0 => format!(
            ":define {} {}",
            random.pick(&["X", "Y", "Z"]),
            random.pick(&["ann", "'a b'", "bo,ann", "\"\""])
        ),
        1 => format!(
            ":global {}",
            random.pick(&["auth=y", "timeout=3 auth=n", "uid=g", "arg1=*", "nargs=0-2"])
        ),
        2 => format!(":if $CALLER {} ann {}", random.pick(&["==", "!="]), line(random)),
        3 => random.pick(&["", "# note", "#a\\\nb", " # indented", "\t"]).to_string(),
        _ => entry(random),
    }
}

fn table(random: &mut Random) -> Vec<u8> {
    let mut table = format!("{G}:define X ann\n:define Y bo\n");
    for _ in 0..random.below(6) {
        table += &line(random);
        table += "\n";
    }
    table.into_bytes()
}

fn mutate(random: &mut Random, table: &mut Vec<u8>) {
    const BYTES: &[u8] = b"\\\n\n #'\"$(){}[],:=~!@*?-/\t<>a0\x00\x80";
    for _ in 0..1 + random.below(4) {
        let place = random.below(table.len());
        let byte = BYTES[random.below(BYTES.len())];
        match random.below(10) {
            0 => table.truncate(place + 1),
            1..=3 => table[place] = byte,
            4..=6 => table.insert(place, byte),
            _ if table.len() > 1 => {
                table.remove(place);
            }
            _ => {}
        }
    }
}

fn any_question(random: &mut Random) -> Question {
    let bytes = |text: &str| text.as_bytes().to_vec();
    let arguments = ["a", "b", "", "zz"];
    Question {
        command: bytes(random.pick(&["c", "d", "e", "c/d"])),
        user: bytes(random.pick(&["ann", "ann", "bo", "tmp", "root"])),
        groups: if random.one_in(2) { vec![bytes("x"), bytes("bench")] } else { Vec::new() },
        host: bytes(random.pick(&["h", "van2"])),
        minute: random.below(10_080) as u64,
        age: [None, Some(0), Some(10), Some(-3)][random.below(4)],
        arguments: (0..random.below(3)).map(|_| bytes(random.pick(&arguments))).collect(),
    }
}

/// The line or place beside an answer is one that the table has.
fn check_beside(table: &[u8], answer: &Answer) {
    let lines = control_lines(table);
    let beside = answer.line_or_place();
    match answer.number() {
        0 | 1 | 3 | 4 | 5 => assert!(lines.whole.iter().any(|line| line.number == beside)),
        2 => assert_eq!(beside, 0),
        12 => assert!(table[beside] != b'\t' && !(0x20..0x7F).contains(&table[beside])),
        13 => assert_eq!(Some(beside), lines.cut),
        14 | 15 | 16 | 18 => assert!(lines.whole.iter().any(|line| line.begin == beside)),
        number => panic!("no number for a good question and a short table: {number}"),
    }
}

/// Every cut of a table that gives a decision: the same answer once the deciding line is whole,
/// no entry before it, and 13 in the midst of a control line.
fn check_cuts(table: &[u8], question: &Question, whole: &Answer) {
    let lines = control_lines(table).whole;
    let deciding_end =
        lines.iter().find(|line| line.number == whole.line_or_place()).map(|line| line.end);
    for cut in 0..=table.len() {
        let begins = lines.iter().map(|line| line.end).filter(|end| *end <= cut).max().unwrap_or(0);
        let expected = if begins != cut {
            Answer::Refused { number: 13, place: begins }
        } else if deciding_end.is_some_and(|end| end <= cut) {
            whole.clone()
        } else {
            Answer::NoEntry
        };
        // The buffer is compared inside.
        assert_eq!(full_answer(&table[..cut], question), expected, "cut at {cut}");
    }
}

fn check_table(random: &mut Random, table: &[u8], seen: &mut [usize; 19]) {
    let question = any_question(random);
    let answer = full_answer(table, &question);
    assert_eq!(answer, full_answer(table, &question), "the answer is always the same");
    seen[answer.number() as usize] += 1;
    check_beside(table, &answer);
    if answer.number() <= 5 {
        check_cuts(table, &question, &answer);
    }
}

#[test]
fn tables_from_the_grammar() {
    let mut random = Random(0x1234_5678_9ABC_DEF1);
    let mut seen = [0; 19];
    for _ in 0..3_000 {
        let table = table(&mut random);
        check_table(&mut random, &table, &mut seen);
    }
    // The tables reach every kind of decision that short paths allow, and most are good.
    for number in [0, 1, 2, 3, 4] {
        assert!(seen[number] > 20, "{number} is seen {} times", seen[number]);
    }
    assert!(seen[..6].iter().sum::<usize>() > 1_000, "{seen:?}");
}

#[test]
fn mutated_tables() {
    let mut random = Random(0xFEDC_BA98_7654_3211);
    let mut seen = [0; 19];
    for _ in 0..6_000 {
        let mut table = table(&mut random);
        mutate(&mut random, &mut table);
        check_table(&mut random, &table, &mut seen);
    }
    for number in [0, 2, 12, 13, 14, 16] {
        assert!(seen[number] > 20, "{number} is seen {} times", seen[number]);
    }
}

#[test]
fn tables_of_any_bytes() {
    let mut random = Random(0x0F0F_1234_0F0F_4321);
    let mut seen = [0; 19];
    const BYTES: &[u8] = b"\\\\\n\n\n  ##''\"\"$(X)CALLER{}{},[]:=~!@*?-//\tac0";
    for _ in 0..6_000 {
        let mut table = G.as_bytes().to_vec();
        for _ in 0..random.below(60) {
            table.push(BYTES[random.below(BYTES.len())]);
        }
        check_table(&mut random, &table, &mut seen);
    }
    assert!(seen[13] > 20 && seen[14] > 20 && seen[2] > 20, "{seen:?}");
}

#[test]
fn worked_table_at_every_cut() {
    let table = common::WORKED.as_bytes();
    for command in ["setclock", "batlog", "cal/adc", "none"] {
        for minute in [0, 1_050, 1_500] {
            let question = Question {
                command: command.as_bytes().to_vec(),
                groups: vec![b"bench".to_vec()],
                host: b"van2".to_vec(),
                minute,
                ..question()
            };
            let whole = full_answer(table, &question);
            assert!(whole.number() <= 5);
            check_cuts(table, &question, &whole);
        }
    }
}
