//! Patterns with many stars: random pairs of a pattern and a name beside the reference, and the
//! time of the search, which request (iii) limits.

use supertab::raw::REPORT_LENGTH;

use crate::bench::nanoseconds;
use crate::call::{before, difference, Asked, Caller};
use crate::grammar::literal;
use crate::random::Random;
use crate::tables::SIZE;

/// From so many pairs on a fifth of them at least must match, and a fifth must not.
const ENOUGH: u64 = 1_000;

/// How many random pairs passed and failed; failures are printed with the seed that shows them
/// alone.
pub fn run(rounds: u64, seed: u64) -> (u64, u64) {
    let mut caller = Caller::new();
    let (mut passed, mut failed, mut matched) = (0, 0, 0);
    for round in 0..rounds {
        let own_seed = seed.wrapping_add(round);
        let asked = pair(&mut Random::new(own_seed));
        let got = caller.call(&asked);
        matched += u64::from(got.number == 0);
        // A pair that is refused says nothing of the search.
        let refused = (!got.is_decision()).then(|| format!("refused with {}", got.number));
        match difference(&got, &asked.expected()).or(refused) {
            None => passed += 1,
            Some(wrong) => {
                failed += 1;
                let table = String::from_utf8_lossy(&asked.table);
                println!("compare --stars 1 {own_seed}: {wrong}\n  {}", table.escape_debug());
            }
        }
    }
    println!("{rounds} pairs of a pattern and a name, {matched} match");
    if rounds >= ENOUGH {
        if matched >= rounds / 5 && rounds - matched >= rounds / 5 {
            passed += 1;
        } else {
            failed += 1;
            println!("too few pairs match, or too many");
        }
    }
    (passed, failed)
}

/// Where a pattern stands on the line that is asked.
enum Place {
    Command,
    Argument,
    User,
    Host,
}

/// One pattern and one name, as a table of one entry and a question.
fn pair(random: &mut Random) -> Asked {
    let (place, most, alphabet): (Place, usize, &[u8]) = match random.below(8) {
        0..=3 => (Place::Command, 256, random.pick(&[b"ab", b"abc", b"ab*", b"a]-"])),
        4 | 5 => (Place::Argument, 256, random.pick(&[b"ab", b"abc", b"a* ", b"a[]"])),
        6 => (Place::User, 32, random.pick(&[b"ab", b"abc", b"a-."])),
        _ => (Place::Host, 255, random.pick(&[b"ab", b"abc", b"a-."])),
    };
    let longest = match random.below(64) {
        0 => most,
        1..=7 => most.min(64),
        _ => 12,
    };
    let least = usize::from(!matches!(place, Place::Argument));
    let length = least + random.below(longest + 1 - least);
    let name: Vec<u8> = (0..length).map(|_| alphabet[random.below(alphabet.len())]).collect();
    let count = random.below(16);
    let mut pattern = if random.one_in(3) {
        any_pattern(random, alphabet, 1 + count)
    } else {
        pattern(random, &name, count)
    };
    // Only an argument's pattern may be empty.
    if pattern.is_empty() && least > 0 {
        pattern.push('*');
    }
    let mut asked = asked(b"c");
    let line = match place {
        Place::Command => {
            asked.command = name;
            format!("'{pattern}' /p ann\n")
        }
        Place::Argument => {
            asked.arguments = [&name[..], b"\0"].concat();
            format!("c /p ann 'arg1={pattern}'\n")
        }
        Place::User => {
            asked.user = name;
            format!("c /p '{pattern}'\n")
        }
        Place::Host => {
            asked.host = name;
            format!("c /p 'ann@{pattern}'\n")
        }
    };
    asked.table.extend_from_slice(line.as_bytes());
    asked
}

/// A question by ann on h for a command, and a table without an entry.
fn asked(command: &[u8]) -> Asked {
    Asked {
        table: b":global patterns=shell\n".to_vec(),
        command: command.to_vec(),
        user: b"ann".to_vec(),
        groups: Vec::new(),
        host: b"h".to_vec(),
        minute: 600,
        authenticated: false,
        age: 0,
        arguments: Vec::new(),
        buffer: before(2_048),
        report: vec![0; REPORT_LENGTH],
    }
}

/// A pattern with about so many stars that matches the name, or in one of three cases a damaged one.
pub fn pattern(random: &mut Random, name: &[u8], stars: usize) -> String {
    let mut tokens = Vec::new();
    let mut place = 0;
    while place < name.len() {
        if random.below(name.len()) < stars {
            tokens.push("*".to_string());
            place += random.below(4).min(name.len() - place);
            continue;
        }
        tokens.push(token(random, name[place]));
        place += 1;
    }
    if tokens.len() < 2 * stars && random.one_in(2) {
        tokens.push("*".to_string());
    }
    if random.one_in(3) && !tokens.is_empty() {
        let at = random.below(tokens.len());
        match random.below(3) {
            0 => tokens[at] = token(random, b'a'),
            1 => tokens.insert(at, token(random, b'b')),
            _ => {
                tokens.remove(at);
            }
        }
    }
    tokens.concat()
}

/// A pattern of so many random tokens.
fn any_pattern(random: &mut Random, alphabet: &[u8], length: usize) -> String {
    (0..length)
        .map(|_| {
            let byte = alphabet[random.below(alphabet.len())];
            if random.one_in(3) {
                "*".to_string()
            } else {
                token(random, byte)
            }
        })
        .collect()
}

/// A token that takes the byte.
fn token(random: &mut Random, byte: u8) -> String {
    let letter = byte.is_ascii_alphanumeric().then_some(byte as char);
    match (random.below(12), letter) {
        (0, _) => "?".to_string(),
        (1, _) => "[!Q]".to_string(),
        (2, Some(letter)) => format!("[{letter}-z]"),
        (3, Some(letter)) => format!("[xy{letter}]"),
        (4, Some(letter)) => format!("\\{letter}"),
        _ => literal(byte),
    }
}

/// How often the times are looked at, at most.
const LOOKS: usize = 3;

/// Patterns with nine stars: what stands between them found at once or late, and side by side with
/// the longest search behind them.
const NINE_STARS: [&str; 3] = ["*a*b*c*d*e*f*g*h*i", "*a*a*a*a*a*a*a*a*b", "*********aaaaaaaab"];

/// As long, without a star.
const NO_STAR: &str = "xaxbxcxdxexfxgxhxi";

/// Print what stars cost, and tell how many of the limits on it hold and do not.
///
/// Other work on the machine can spoil a look at it; a limit that is passed is passed each time.
pub fn times() -> (u64, u64) {
    let mut counts = look();
    for _ in 1..LOOKS {
        if counts.1 > 0 {
            println!("once more");
            counts = look();
        }
    }
    counts
}

fn look() -> (u64, u64) {
    let mut limits = Limits { passed: 0, failed: 0 };
    println!("nine stars on every line of 32 KB, ns a line");
    let times = a_line(&[NO_STAR, NINE_STARS[0], NINE_STARS[1], NINE_STARS[2]], 16);
    let plain = times[0];
    for (pattern, with) in NINE_STARS.iter().zip(&times[1..]) {
        let ratio = with / plain;
        println!("  {pattern}  16 bytes: {with:6.0}, without {plain:6.0}, {ratio:5.2} times");
        limits.at_most("a line with stars beside one without", ratio, 2.0);
    }
    let [long, long_plain] = [format!("*{}b", "a".repeat(31)), "x".repeat(33)];
    let patterns = [&long, &long_plain, NO_STAR, NINE_STARS[0], NINE_STARS[1], NINE_STARS[2]];
    let times = a_line(&patterns, 256);
    // 31 bytes that match and one that does not, at each of 225 starts, and 31 at the name's end.
    let one = (times[0] - times[1]) / (225 * 32 + 31) as f64;
    println!("one test takes {one:.2} ns");
    for (pattern, with) in NINE_STARS.iter().zip(&times[3..]) {
        let extra = with - times[2];
        let tests = extra / one;
        let most = (pattern.len() * 256) as f64;
        println!(
            "  {pattern} 256 bytes: {extra:6.0} more, as {tests:5.0} tests, {most:.0} allowed"
        );
        limits.at_most("the tests of a line", tests, most);
    }
    println!(
        "nine stars on a name of so many bytes, ns for each byte of the pattern and of the name"
    );
    for late in [false, true] {
        let mut first = None;
        for bytes in [64, 128, 256] {
            let last = if late { "a".repeat(bytes / 4) } else { String::new() };
            let pattern = format!("{}*{last}b", "*a".repeat(8));
            let times = a_line(&[&pattern, &"x".repeat(pattern.len())], bytes);
            let taken = (times[0] - times[1]) / (pattern.len() * bytes) as f64;
            println!("  {bytes:3} bytes, a pattern of {:2}: {taken:.3}", pattern.len());
            limits.at_most("the time beside that of all tests", taken, one);
            if !late {
                limits.at_most("growth", taken, 1.5 * *first.get_or_insert(taken));
            }
        }
    }
    (limits.passed, limits.failed)
}

/// How many limits held and were passed.
struct Limits {
    passed: u64,
    failed: u64,
}

impl Limits {
    fn at_most(&mut self, what: &str, value: f64, most: f64) {
        if value <= most {
            self.passed += 1;
        } else {
            self.failed += 1;
            println!("  {what}: {value:.4} is over {most:.4}");
        }
    }
}

/// For each command pattern the time of one line of a full table whose lines all have it, asked for
/// a command of so many bytes `a`.
fn a_line(patterns: &[&str], bytes: usize) -> Vec<f64> {
    let tables = patterns.iter().map(|pattern| {
        let mut asked = asked(&b"a".repeat(bytes));
        let line = format!("{pattern} /sbin/setclock ann,bo,t* !tmp auth=y timeout=15 # note\n");
        let lines = (SIZE - asked.table.len()) / line.len();
        asked.table.extend(line.repeat(lines).bytes());
        (asked, lines as f64)
    });
    let (questions, lines): (Vec<Asked>, Vec<f64>) = tables.unzip();
    nanoseconds(&questions).iter().zip(lines).map(|(time, lines)| time / lines).collect()
}
