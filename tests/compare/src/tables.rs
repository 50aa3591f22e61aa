//! The tables whose reading is timed.

/// The most bytes of a table.
pub const SIZE: usize = 32_768;

/// A table with its name and the command that ann on van2 asks it for.
pub struct Table {
    pub name: &'static str,
    pub bytes: Vec<u8>,
    pub command: &'static str,
}

/// All tables, in the order in which they are printed.
pub fn all() -> Vec<Table> {
    let table = |name, bytes| Table { name, bytes, command: "setclock" };
    let mut tables = vec![
        table("t324", t324(true)),
        table("t324p", t324(false)),
        table("def64", def64(SIZE)),
        table("worked", include_bytes!("../../../docs/worked.tab").to_vec()),
    ];
    for size in [SIZE / 4, SIZE / 2, SIZE] {
        tables.push(table("continued", continued(size)));
    }
    for size in [SIZE / 4, SIZE / 2, SIZE] {
        tables.push(table("indented", indented(size)));
    }
    for size in [SIZE / 4, SIZE / 2, SIZE] {
        tables.push(table("newlines", b"\n".repeat(size)));
    }
    for size in [SIZE / 4, SIZE / 2, SIZE] {
        tables.push(table("entries", entries(size)));
    }
    tables
}

/// 324 entries on 32,768 bytes, the last but two deciding; with brace lists, or without any.
fn t324(braces: bool) -> Vec<u8> {
    let conditions = if braces {
        [
            "$(Crew),t* !tmp",
            "ann@van* kim",
            "group~bench !user~lee",
            "user~{kim,lee,bo}@{van,shop}*",
            "ann,bo,t* !tmp@shop",
            "group~{bench,field} !tmp",
        ]
    } else {
        [
            "$(Crew),t* !tmp",
            "ann@van* kim",
            "group~bench !user~lee",
            "user~kim,lee,bo@van*",
            "ann,bo,t* !tmp@shop",
            "group~bench,field !tmp",
        ]
    };
    let second_time = if braces { "time~{>=17:30/mon,<=8/tues}" } else { "time~>=17:30/mon" };
    let times = ["time~8-18/mon", second_time, "", "", "!time~0-1/tues", ""];
    let arguments = if braces { "arg1-2={a,b}* nargs=2" } else { "arg1-2=a* nargs=2" };
    let options = [
        "auth=y timeout=15",
        "nargs=0-2",
        "uid=root gid=bin",
        "auth=n nargs=1 arg1=*.log",
        "timeout=30 uid=op",
        arguments,
    ];
    let mut lines = Vec::new();
    for i in 0..324 {
        let decides = i == 321;
        let name = match i {
            _ if decides => "setclock".to_string(),
            _ if i % 11 == 5 && braces => format!("t{{ar,ool{}}}x", i % 90),
            _ if i % 9 == 4 => format!("cal{:02}/*", i % 90),
            _ => format!("tool{i:03}"),
        };
        let path = name.replace('*', "x").replace(['{', '}', ','], "");
        let condition = if decides { "ann,bo" } else { conditions[i % 6] };
        let time = if decides { "" } else { times[(i / 2) % 6] };
        let mut line = format!("{name} /opt/field/bin/{path} {condition}");
        for word in [time, options[i % 6]] {
            if !word.is_empty() {
                line += " ";
                line += word;
            }
        }
        lines.push(line);
    }
    padded(lines)
}

/// The lines behind their head, with joins and comments up to the full size.
fn padded(lines: Vec<String>) -> Vec<u8> {
    let mut table = String::from(":global patterns=shell\n:define Crew ann,bo\n");
    let total: usize = table.len() + lines.iter().map(|line| line.len() + 1).sum::<usize>();
    let mut padding = SIZE - total;
    let note = "see the note of the field crew on the van".repeat(3);
    let count = lines.len();
    for (index, mut line) in lines.into_iter().enumerate() {
        let mut share = padding / (count - index);
        if index % 5 == 0 && share >= 6 {
            let blank = line.rfind(' ').expect("a line has fields");
            line.replace_range(blank..=blank, " \\\n   ");
            share -= 5;
            padding -= 5;
        }
        if share >= 3 {
            let comment = format!(" # {}", &note[..note.len().min(share - 3)]);
            padding -= comment.len();
            line += &comment;
        }
        table += &line;
        table.push('\n');
    }
    let mut table = table.into_bytes();
    table.resize(SIZE, b'\n');
    table
}

/// 64 definitions, blank lines, and an entry at the end.
fn def64(size: usize) -> Vec<u8> {
    let mut table = b":global patterns=shell\n".to_vec();
    for i in 0..64 {
        table.extend_from_slice(format!(":define N{i} text{i}\n").as_bytes());
    }
    let entry = b"setclock /p ann\n";
    table.resize(size - entry.len(), b'\n');
    table.extend_from_slice(entry);
    table
}

/// One control line, continued over and over, and too long.
fn continued(size: usize) -> Vec<u8> {
    let mut table = b"c /p".to_vec();
    while table.len() < size {
        table.extend_from_slice(b" user\\\n");
    }
    table.truncate(size - 1);
    while table.last().is_some_and(|byte| b"\\\n ".contains(byte)) {
        table.pop();
    }
    table.resize(size - 1, b'x');
    table.push(b'\n');
    table
}

/// One good control line of 64 fields, a physical line each, with long indents.
fn indented(size: usize) -> Vec<u8> {
    let mut table = b":global patterns=shell\nsetclock\\\n /p".to_vec();
    let indent = (size - table.len()) / 62 - 6;
    for _ in 0..62 {
        table.extend_from_slice(b"\\\n");
        table.extend(b" ".repeat(indent));
        table.extend_from_slice(b"user");
    }
    table.push(b'\n');
    table.resize(size, b'\n');
    table
}

/// The same entry over and over, each of which accepts.
fn entries(size: usize) -> Vec<u8> {
    let mut table = b":global patterns=shell\n".to_vec();
    let entry = b"setclock /sbin/setclock ann,bo,t* !tmp auth=y timeout=15 # note\n";
    while table.len() + entry.len() <= size {
        table.extend_from_slice(entry);
    }
    table.resize(size, b'\n');
    table
}

#[cfg(test)]
mod tests {
    use super::*;

    #[test]
    fn sizes() {
        for table in all() {
            let quarters = table.bytes.len() * 4 / SIZE;
            let full = [1, 2, 4].contains(&quarters) && table.bytes.len() * 4 % SIZE == 0;
            assert!(full || table.name == "worked", "{} {}", table.name, table.bytes.len());
            assert_eq!(table.bytes.last(), Some(&b'\n'));
        }
    }

    #[test]
    fn entries_of_t324() {
        for braces in [true, false] {
            let table = String::from_utf8(t324(braces)).expect("only ASCII");
            assert_eq!(table.matches(" /opt/field/bin/").count(), 324);
            assert_eq!(table.contains('{'), braces);
        }
    }
}
