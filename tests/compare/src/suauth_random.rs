//! Random questions about su files, random files that mean something for them, and damaged ones.

use rule_table::suauth::Question;

use crate::fuzz::{any_bytes, damage};
use crate::random::Random;
use crate::suauth_call::Asked;

const USERS: [&str; 8] = ["root", "bin", "ann", "bo", "kim", "a", "x.y-z_0", "-"];
const GROUPS: [&str; 6] = ["wheel", "ops", "dev", "ann", ".", "g"];

/// Names in a question, and no names in a file.
const WORDS: [&str; 3] = ["ALL", "EXCEPT", "GROUP"];

const ACTIONS: [&str; 3] = ["DENY", "NOPASS", "OWNPASS"];

/// What is no action.
const OTHER_ACTIONS: [&str; 8] =
    ["", "deny", "DENYX", "NOPAS", "PASS", "DENY,DENY", "DENY:", "DENY #"];

/// What is no id on either side.
const NO_IDS: [&str; 12] = [
    "",
    "ann,",
    ",ann",
    "ann,,bo",
    "ann bo",
    "ann, bo",
    "ann EXCEPT bo",
    "EXCEPT ann",
    "ALL EXCEPT",
    "ALL ann",
    "ann,GROUP ops",
    "ALL EXCEPT EXCEPT ann",
];

/// Bytes that mean something in a file.
const MARKS: &[u8] = b":::,,,  \t\n\n\n##ALLEXCEPTGROUPDENYOWNPASSannroot.-_\\";

/// The most bytes of a file, and of a name.
const FILE_LENGTH: usize = 32_768;
const NAME_LENGTH: usize = 32;

/// A good question, now and then one at a limit or past it.
pub fn question(random: &mut Random) -> Question {
    let count = if random.one_in(100) { 31 + random.below(3) } else { random.below(4) };
    Question {
        target: name_asked(random, &USERS),
        user: name_asked(random, &USERS),
        groups: (0..count).map(|_| name_asked(random, &GROUPS)).collect(),
    }
}

fn name_asked(random: &mut Random, names: &[&str]) -> Vec<u8> {
    match random.below(100) {
        0 => "n".repeat(NAME_LENGTH + random.below(2)).into_bytes(),
        1..=4 => random.pick(&WORDS).as_bytes().to_vec(),
        _ => random.pick(names).as_bytes().to_vec(),
    }
}

/// What a call is given: most often a good question about a file of the grammar.
pub fn asked(random: &mut Random) -> Asked {
    let question = question(random);
    let file = file(random, &question);
    let mut asked = Asked::of_case(file, &question);
    match random.below(60) {
        0 => damage(random, MARKS, &mut asked.target),
        1 => damage(random, MARKS, &mut asked.user),
        2 => damage(random, MARKS, &mut asked.groups),
        3 => asked.groups = any_bytes(random, 100),
        4 => {
            asked.target = any_bytes(random, 40);
            asked.user = any_bytes(random, 40);
        }
        _ => {}
    }
    let report_length = if random.one_in(50) { 0 } else { 1 + random.below(4) };
    asked.report = (0..report_length).map(|_| i64::from(random.number()) - (1 << 31)).collect();
    asked
}

/// A file: of the grammar, damaged, two of them in one, of marks, or of any bytes.
fn file(random: &mut Random, question: &Question) -> Vec<u8> {
    let mut file = Grammar { random, question }.file();
    match random.below(20) {
        0..=10 => {}
        11..=15 => damage(random, MARKS, &mut file),
        16 => {
            let other = Grammar { random, question }.file();
            let (at, from) = (random.below(file.len() + 1), random.below(other.len() + 1));
            file.truncate(at);
            file.extend_from_slice(&other[from..]);
        }
        17 => file.truncate(random.below(file.len() + 1)),
        18 => file = (0..random.below(60)).map(|_| MARKS[random.below(MARKS.len())]).collect(),
        _ => file = any_bytes(random, 200),
    }
    file
}

/// Writes files for a question.
struct Grammar<'a> {
    random: &'a mut Random,
    question: &'a Question,
}

impl Grammar<'_> {
    /// A file of mostly good lines; now and then it is as long as a file may be, or a few bytes off.
    fn file(&mut self) -> Vec<u8> {
        let mut file = String::new();
        for _ in 0..self.random.below(8) {
            file += &self.line();
            file.push('\n');
        }
        if self.random.one_in(500) {
            let length = FILE_LENGTH - 2 + self.random.below(5);
            let filler =
                *self.random.pick(&[&"\n", &"# a note\n", &"nobody:ALL EXCEPT ann:DENY\n"]);
            let room = length.saturating_sub(file.len());
            file.insert_str(0, &filler.repeat(room / filler.len()));
            file += &"\n".repeat(length.saturating_sub(file.len()));
        }
        file.into_bytes()
    }

    fn line(&mut self) -> String {
        match self.random.below(8) {
            0 => self
                .random
                .pick(&["", "", " ", "\t ", "#", "# note", " \t#a:b:c", "#\\"])
                .to_string(),
            _ => {
                let [before, behind] = [(); 2].map(|()| self.outer_blanks());
                let (to, from, action) = (self.to(), self.from(), self.action());
                let colon =
                    if self.random.one_in(200) { self.random.pick(&["", " :", "::"]) } else { ":" };
                format!("{before}{to}:{from}{colon}{action}{behind}")
            }
        }
    }

    /// Blanks at an end of a line, most often none.
    fn outer_blanks(&mut self) -> &'static str {
        if self.random.one_in(8) {
            self.random.pick(&[" ", "\t", "  ", " \t "])
        } else {
            ""
        }
    }

    /// A blank between two words; rarely it is not just one.
    fn blank(&mut self) -> &'static str {
        if self.random.one_in(100) {
            self.random.pick(&["", "  ", "\t ", " \t"])
        } else {
            self.random.pick(&[" ", " ", " ", "\t"])
        }
    }

    fn action(&mut self) -> String {
        let rarely = self.random.one_in(100);
        let actions = if rarely { &OTHER_ACTIONS[..] } else { &ACTIONS };
        self.random.pick(actions).to_string()
    }

    fn to(&mut self) -> String {
        if self.random.one_in(150) {
            return self.groups();
        }
        let target = self.question.target.clone();
        self.names_or_all(&target)
    }

    fn from(&mut self) -> String {
        let user = self.question.user.clone();
        match self.random.below(5) {
            0 => self.groups(),
            1 => {
                let (before, behind) = (self.blank(), self.blank());
                format!("ALL{before}EXCEPT{behind}{}", self.groups())
            }
            _ => self.names_or_all(&user),
        }
    }

    /// ALL, a list or ALL EXCEPT a list; rarely none of them.
    fn names_or_all(&mut self, asked: &[u8]) -> String {
        if self.random.one_in(100) {
            return self.random.pick(&NO_IDS).to_string();
        }
        match self.random.below(5) {
            0 => "ALL".to_string(),
            1 => {
                let (before, behind) = (self.blank(), self.blank());
                format!("ALL{before}EXCEPT{behind}{}", self.list(&USERS, asked))
            }
            _ => self.list(&USERS, asked),
        }
    }

    fn groups(&mut self) -> String {
        let groups = &self.question.groups;
        let asked = match groups.len() {
            0 => b"ops".to_vec(),
            count => groups[self.random.below(count)].clone(),
        };
        let blank = self.blank();
        format!("GROUP{blank}{}", self.list(&GROUPS, &asked))
    }

    /// A list of names, in every other one the name that is asked for; now and then it is long.
    fn list(&mut self, names: &[&str], asked: &[u8]) -> String {
        let count =
            if self.random.one_in(300) { self.random.below(300) } else { self.random.below(3) };
        let mut list: Vec<String> = (0..1 + count).map(|_| self.name(names)).collect();
        let asked = String::from_utf8_lossy(asked).into_owned();
        // A word of the file is no name there; most often it is left out.
        if self.random.one_in(2) && (!WORDS.contains(&&asked[..]) || self.random.one_in(20)) {
            let place = self.random.below(list.len());
            list[place] = asked;
        }
        list.join(",")
    }

    fn name(&mut self, names: &[&str]) -> String {
        match self.random.below(400) {
            0 => self.random.pick(&WORDS).to_string(),
            1 => self.random.pick(&["an/n", "a*", "a\\", "a#", "é"]).to_string(),
            2..=5 => "n".repeat(NAME_LENGTH - 1 + self.random.below(3)),
            6..=9 => self.random.pick(&["all", "ALLE", "Group", "GROUPS", "except"]).to_string(),
            _ => self.random.pick(names).to_string(),
        }
    }
}
