//! Random questions, and random tables that mean something for them.

use crate::random::Random;
use crate::stars;

const USERS: [&str; 7] = ["ann", "bo", "tmp", "root", "kim", "a.b-c", "x"];
const GROUPS: [&str; 5] = ["bench", "guest", "z", "b_1", "staff"];
const HOSTS: [&str; 4] = ["h", "van2", "van.dock", "H"];
const COMMANDS: [&str; 10] =
    ["c", "cc", "d", "cal/adc", "setclock", "a*b", "x/y/z", "a,b", "c]", "!c"];
const ARGUMENTS: [&str; 9] = ["", "a", "b", "-v", "a b", "f.txt", "a,b", "ab", "*"];
const DAYS: [&str; 8] = ["mon", "tue", "WED", "thurs", "fri", "saturday", "sun", "*"];
const EARLY: [&str; 4] = ["0", "8", "08:30", "0:00"];
const LATE: [&str; 5] = ["17", "24", "12:05", "23:59", "24:00"];

/// A question's parts before they are put into one call.
#[derive(Clone)]
pub struct Question {
    pub command: Vec<u8>,
    pub user: Vec<u8>,
    pub groups: Vec<Vec<u8>>,
    pub host: Vec<u8>,
    pub minute: u32,
    pub age: Option<i32>,
    pub arguments: Vec<Vec<u8>>,
}

/// A good question, now and then one at a limit.
pub fn question(random: &mut Random) -> Question {
    let ages = [
        None,
        None,
        Some(0),
        Some(1),
        Some(15),
        Some(16),
        Some(-1),
        Some(i32::MIN),
        Some(i32::MAX),
    ];
    let group_count = if random.one_in(200) { 32 + random.below(2) } else { random.below(3) };
    let argument_count = if random.one_in(200) { 63 + random.below(3) } else { random.below(4) };
    Question {
        command: name(random, &COMMANDS, 256),
        user: name(random, &USERS, 32),
        groups: (0..group_count).map(|_| name(random, &GROUPS, 32)).collect(),
        host: name(random, &HOSTS, 255),
        minute: if random.one_in(20) { 10_079 + random.below(2) as u32 } else { week(random) },
        age: ages[random.below(ages.len())],
        arguments: (0..argument_count).map(|_| name(random, &ARGUMENTS, 256)).collect(),
    }
}

/// What stands for a byte in a pattern.
pub fn literal(byte: u8) -> String {
    match byte {
        b'*' | b'?' | b'[' | b']' | b'{' | b'}' | b'\\' | b',' => format!("\\{}", byte as char),
        0x21..=0x7E => (byte as char).to_string(),
        _ => "?".to_string(),
    }
}

fn week(random: &mut Random) -> u32 {
    random.below(10_080) as u32
}

/// One of the names, or rarely one that has just the most bytes, or one more.
fn name(random: &mut Random, names: &[&str], most: usize) -> Vec<u8> {
    if random.one_in(300) {
        return vec![b'a'; most + random.below(2)];
    }
    random.pick(names).as_bytes().to_vec()
}

/// Lines that come of the grammar.
pub struct Grammar<'a> {
    pub random: &'a mut Random,
    pub question: &'a Question,
}

impl Grammar<'_> {
    fn one_in(&mut self, times: usize) -> bool {
        self.random.one_in(times)
    }

    fn pick(&mut self, choices: &[&'static str]) -> String {
        self.random.pick(choices).to_string()
    }

    /// One of the good choices, or rarely one of those that may be at fault.
    fn choose(&mut self, good: &[&'static str], bad: &[&'static str]) -> String {
        let rarely = self.one_in(50);
        self.pick(if rarely { bad } else { good })
    }

    /// A whole table; one in four has some line at a limit.
    pub fn table(&mut self) -> Vec<u8> {
        let mut table = String::new();
        if !self.one_in(40) {
            table += &self.pick(&[
                ":global patterns=shell\n",
                ":global patterns=shell\n",
                ":global patterns=shell\n",
                ":global_options auth=y patterns=shell timeout=15\n",
                ":if $CALLER == $(CALLER) :global 'patterns'=shell\n",
            ]);
        }
        table += &self.pick(&["", ":define X ann\n:define Y bo,\"a b\"\n", ":define X x\n"]);
        for _ in 0..self.random.below(6) {
            table += &self.line(0);
            table.push('\n');
        }
        if self.one_in(4) {
            table += &self.limit();
            table.push('\n');
        }
        if self.one_in(150) {
            let filler = self.pick(&["\n", "# a note of some length\n", "c /p nobody\n"]);
            table += &filler.repeat((32_760 - table.len().min(32_760)) / filler.len());
            table += &"\n".repeat(self.random.below(20));
        }
        table.into_bytes()
    }

    fn line(&mut self, depth: usize) -> String {
        match self.random.below(14) {
            0 => format!(
                ":define {} {}",
                self.choose(&["X", "Y", "Z_1"], &["CALLER", "9", "$X", ""]),
                self.choose(&["ann", "'a b'", "bo,ann", "$HOST", "*", "{a,b}"], &["a b", "", "$Q"])
            ),
            1 => {
                let options: Vec<String> =
                    (0..1 + self.random.below(2)).map(|_| self.option()).collect();
                format!(":global {}", options.join(" "))
            }
            2 if depth < 5 => format!(
                ":if {} {} {} {}",
                self.pick(&["$CALLER", "$HOST", "a", "$IS_USERTAB"]),
                self.choose(&["==", "!="], &["=", "<"]),
                self.pick(&["ann", "h", "a", "no", "''"]),
                self.line(depth + 1)
            ),
            3 => self.choose(&["", "# note", "#a\\\nb", " # note", "\t"], &[" x", "\\\n", ":x"]),
            _ => self.entry(),
        }
    }

    /// An entry, most often one that the question meets.
    fn entry(&mut self) -> String {
        let command = self.command();
        let path = self.choose(&["/p", "/opt/*/run", "/$CALLER", "/a/*/*"], &["p", "'/a b'"]);
        let mut line = match self.random.below(5) {
            0 => format!("{command}::{path}{}d*::/d", self.blank()),
            1 => format!("x::/x{}{command}::{path}", self.blank()),
            _ => format!("{command}{}{path}", self.blank()),
        };
        line += &self.blank();
        line += &self.who();
        for _ in 0..self.random.below(4) {
            line += &self.blank();
            line += &self.field();
        }
        line += &self.choose(&[""], &[" x::/y", " '", " auth=y auth=y", " uid=a uid=b"]);
        line
    }

    fn command(&mut self) -> String {
        let name = self.question.command.clone();
        self.pattern(&name, &["c", "d*", "*", "{c,d}", "[a-d]", "?"])
    }

    /// A pattern, most often one that matches the name.
    fn pattern(&mut self, name: &[u8], others: &[&'static str]) -> String {
        let plain: String = name.iter().map(|byte| literal(*byte)).collect();
        match self.random.below(15) {
            0..=4 => plain,
            5 => "*".to_string(),
            6 => format!("{{{},{plain}}}", self.random.pick(others)),
            7 => format!("{{{plain},q{{r,}}}}"),
            8 => format!("[!Q]{}", if name.len() > 1 { "*" } else { "" }),
            9 => plain + &self.choose(&["*", "{,x}", ""], &["[z-a]", "}", "{", "\\", "[]"]),
            10 => "?".repeat(name.len()),
            11 => format!("*{}", plain.chars().last().unwrap_or('x')),
            12 => {
                let stars = 2 + self.random.below(8);
                stars::pattern(self.random, name, stars)
            }
            _ => self.random.pick(others).to_string(),
        }
    }

    fn field(&mut self) -> String {
        let not = if self.one_in(4) { "!" } else { "" };
        match self.random.below(9) {
            0..=2 => {
                let who = self.who();
                format!("{not}{who}")
            }
            3 => {
                let name = self.question.groups.first().cloned().unwrap_or_default();
                let group = self.pattern(&name, &["bench", "b*", "ops,bench", "z"]);
                format!("{not}group~{group}")
            }
            4 => {
                let time = self.time();
                format!("{not}time~{time}")
            }
            5 | 6 => self.option(),
            7 => {
                let who = self.who();
                let name = self.question.host.clone();
                let host = self.pattern(&name, &["h", "van*", "$HOST", "{h,i}"]);
                let more = self.choose(&[""], &["@a", ",!b", ",", ":"]);
                format!("{not}user~{who}@{host}{more}")
            }
            _ => self.choose(
                &["ann,bo", "*", "!tmp", "$CALLER", "$(HOST)", "\"a\"'b'"],
                &["a~b", "''", "$X", "$(Y)", "$", "$(X", "user~group~a"],
            ),
        }
    }

    fn who(&mut self) -> String {
        let name = self.question.user.clone();
        self.pattern(&name, &["ann", "bo", "t*", "root", "[a-c]*", "$CALLER", "x,y"])
    }

    fn time(&mut self) -> String {
        let minute = self.question.minute % 1_440;
        let item = match self.random.below(7) {
            0 => self.random.pick(&DAYS).to_string(),
            1 => format!("0-24/{}", self.random.pick(&DAYS)),
            2 => format!("{}-{}", self.random.pick(&EARLY), self.random.pick(&LATE)),
            3 => {
                let sign = self.random.pick(&["<", ">", "<=", ">="]);
                format!("{sign}{}/{}", self.random.pick(&LATE), self.random.pick(&DAYS))
            }
            4 => {
                let sign = self.random.pick(&["<", ">", "<=", ">="]);
                format!("{sign}{}:{:02}", minute / 60, minute % 60)
            }
            5 => self.choose(&["*"], &["24:01-24:02", "7:5-8", "mo", "8-7", "[m]on", "8"]),
            _ => self.pick(&["0-24", "{8-17,0-1}/mon", "{mon,tue}"]),
        };
        match self.random.below(4) {
            0 => format!("{{{item},{}}}", self.random.pick(&DAYS)),
            1 => format!("{item},{}", self.random.pick(&DAYS)),
            _ => item,
        }
    }

    fn option(&mut self) -> String {
        let count = self.question.arguments.len();
        match self.random.below(9) {
            0 => format!("nargs={}", if self.one_in(3) { count + 1 } else { count }),
            1 => format!("nargs=0-{}", count + self.random.below(3)),
            2 => {
                let name = self.question.arguments.first().cloned().unwrap_or_default();
                format!("arg1={}", self.pattern(&name, &["a*", "", "[a-z]*", "{a,b}"]))
            }
            3 => self.choose(
                &["arg1-64=*", "arg2=?*", "arg64=", "arg1=[a-z]*"],
                &["arg65=a", "arg0=a", "arg2-1=a", "arg1=a::b", "nargs=65", "nargs=2-1"],
            ),
            4 => self.choose(&["auth=y", "auth=n"], &["auth=Y", "auth="]),
            5 => self.choose(
                &["timeout=15", "timeout=-0", "timeout=32767", "timeout=-32768"],
                &["timeout=32768", "timeout=-32769", "timeout=000001", "timeout=+1"],
            ),
            6 => self.choose(
                &["uid=root", "gid=bin"],
                &["patterns=shell", "patterns=regex", "pattern=shell", "a=b"],
            ),
            _ => self.choose(
                &["euid=op", "egid=g.1-_", "egid=<caller>", "euid=<owner>"],
                &["uid=", "gid=a/b", "uid=<root>"],
            ),
        }
    }

    /// What parts two fields.
    fn blank(&mut self) -> String {
        let blanks = [" ", " ", " ", " ", "  ", "\t", " \\\n  ", " #note\\\n "];
        self.choose(&blanks, &["\\\n", "#", "\\\n "])
    }

    /// A line at a limit, or one past it.
    fn limit(&mut self) -> String {
        let over = self.random.below(2);
        let entry = |field: &str| format!("c /p ann {field}");
        match self.random.below(12) {
            0 => format!("c /p ann #{}", "x".repeat(4_096 - 10 + over)),
            1 => format!("c /p{}", " a".repeat(62 + over)),
            2 => entry(&"x".repeat(1_024 + over)),
            3 => entry(&format!("{}a{}", "{".repeat(4 + over), "}".repeat(4 + over))),
            4 => entry(&format!("a{}", ",x".repeat(63 + over))),
            5 => entry(&format!("{}{}", "{a,b}".repeat(6), "{c,}".repeat(over))),
            6 => format!(":define {} x", "N".repeat(64 + over)),
            7 => format!(":define N {}", "x".repeat(256 + over)),
            8 => entry(&format!("{}={}", self.pick(&["uid", "egid"]), "x".repeat(64 + over))),
            9 => format!("{}c /p ann", ":if a == a ".repeat(4 + over)),
            10 => {
                let names: Vec<String> =
                    (0..64 + over).map(|number| format!(":define N{number} x")).collect();
                names.join("\n")
            }
            _ => {
                // A path of about 1,024 bytes.
                let stars = 1 + self.random.below(4);
                let rest = 1_023usize.saturating_sub(stars * self.question.command.len());
                let command = self.command();
                let path = format!("/{}{}", "*".repeat(stars), "p".repeat(rest + over));
                format!("{command} {} *", &path[..path.len().min(1_024)])
            }
        }
    }
}
