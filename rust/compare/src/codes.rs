//! Random third sections of configurations, the codes that set interlock: good ones and bad ones.

use crate::random::Random;

/// The codes that a packet may fail with.
pub const FAILURES: [u8; 60] = {
    let mut codes = [0; 60];
    let mut at = 0;
    while at < 60 {
        // 16 and 17 octal are none.
        codes[at] = at as u8 + if at < 12 { 2 } else { 4 };
        at += 1;
    }
    codes
};

/// A good section: no code, one, some, all but some, or all sixty.
pub fn good(random: &mut Random) -> String {
    Section::of(good_codes(random)).text()
}

fn good_codes(random: &mut Random) -> Vec<u8> {
    let mut codes = FAILURES.to_vec();
    match random.weighted(&[12, 12, 10, 36, 30]) {
        0 => codes.clear(),
        1 => codes = vec![any_code(random)],
        // What the bulletin sets interlock for, less the end of data and of the medium.
        2 => codes = vec![0o02, 0o06, 0o11, 0o13, 0o14],
        3 => {
            let percent = *random.pick(&[5, 20, 50, 50, 80, 95]);
            codes.retain(|_| random.percent(percent));
        }
        _ => {}
    }
    codes
}

/// A code, often the first or the last or beside 16 and 17.
fn any_code(random: &mut Random) -> u8 {
    let any = *random.pick(&FAILURES);
    *random.pick(&[0o02, 0o03, 0o07, 0o10, 0o15, 0o20, 0o76, 0o77, any, any])
}

/// A section as it is written: its lines, and what is in the place of their count.
struct Section {
    codes: Vec<u8>,
    lines: Vec<String>,
    count: String,
}

const COUNTS: &[&str] = &[
    "", "00", "000", "01", "02", "060", "59", "60", "61", "62", "63", "64", "74", "77", "99", "100", "256", "316",
    "60 ", " 60", "0 ", " 0", "6 0", "+1", "-1", "-0", "1.", "1\r", "0\r", "0\t", "\0", "x", "o1", "0x1", "3C",
    "03 00", "# 1", "SELECT", "BOARD", "DECK", "256", "65536", "65537",
];
const LARGE_COUNTS: &[&str] = &["4294967296", "4294967297", "18446744073709551616", "18446744073709551617"];
const NO_CODES: &[&str] = &[
    "00", "01", "16", "17", "08", "09", "18", "19", "28", "38", "48", "58", "68", "69", "78", "79", "80", "81", "87",
    "90", "99", "0", "1", "2", "3", "7", "002", "003", "077", "016", "100", "101", "102", "177", "1F", "1f", "0A",
    "0a", "3E", "FF", "", " ", " 2", "2 ", "02 ", " 02", "0 2", "02 00", "03 00", "\t2", "02\t", "02\r", "\r", "+2",
    "-2", "2.", "0o2", "0x2", "x2", "2x", "\x002", "0/", "/0", ":0", "0:", "7:", ":7", "７７", "02\u{b}",
];
/// What follows a section that should be the last.
const MORE: &[&str] = &["\n", "0\n", "0", "02\n", "77\n", "x", " ", "\r\n", "#\n", "SELECT\n", "03 00\n"];

/// A section that is bad, or nearly so.
pub fn bad(random: &mut Random) -> String {
    let mut section = Section::of(good_codes(random));
    match random.weighted(&[5, 13, 9, 12, 17, 7, 7, 5, 5, 5, 15]) {
        // Missing.
        0 => return String::new(),
        1 => section.spoil_count(random),
        // Lines too few or too many.
        2 => {
            let other = section.lines.len() as isize + *random.pick(&[-2, -1, -1, 1, 1, 2]);
            section.count = other.max(0).to_string();
        }
        3 => section.spoil_line(random),
        4 => return with_no_code(random, section.codes).text(),
        5 => section.repeat(random),
        6 => section.descend(random),
        // No last LF.
        7 => {
            let mut text = section.text();
            text.pop();
            return text;
        }
        8 => return section.text() + *random.pick(MORE),
        // Written in decimal or hexadecimal.
        9 => {
            let decimal = random.percent(50);
            let line = |code: &u8| if decimal { format!("{code:02}") } else { format!("{code:02X}") };
            section.lines = section.codes.iter().map(line).collect();
        }
        _ => section.misspell(random),
    }
    section.text()
}

/// A number that is no code, where it ascends; of all sixty one is left out.
fn with_no_code(random: &mut Random, mut codes: Vec<u8>) -> Section {
    codes.push(*random.pick(&[0o00, 0o01, 0o16, 0o16, 0o16, 0o17, 0o17, 0o17, 0o100, 0o177]));
    codes.sort_unstable();
    if codes.len() > 60 {
        codes.remove(random.below(codes.len()));
    }
    Section::of(codes)
}

impl Section {
    fn of(codes: Vec<u8>) -> Section {
        let lines: Vec<String> = codes.iter().map(|code| format!("{code:02o}")).collect();
        let count = lines.len().to_string();
        Section { codes, lines, count }
    }

    fn text(&self) -> String {
        let lines: String = self.lines.iter().map(|line| format!("{line}\n")).collect();
        format!("{}\n{lines}", self.count)
    }

    fn count_lines(&mut self) {
        self.count = self.lines.len().to_string();
    }

    /// No count, or another one.
    fn spoil_count(&mut self, random: &mut Random) {
        match random.below(10) {
            0 | 1 => self.count.insert(0, '0'),
            2 => self.count = random.pick(LARGE_COUNTS).to_string(),
            _ => self.count = random.pick(COUNTS).to_string(),
        }
    }

    /// A line that is none, put in or in the place of a good one.
    fn spoil_line(&mut self, random: &mut Random) {
        let bad = random.pick(NO_CODES).to_string();
        if self.lines.is_empty() || random.percent(50) {
            let at = random.below(self.lines.len() + 1);
            self.lines.insert(at, bad);
            self.count_lines();
        } else {
            let at = random.below(self.lines.len());
            self.lines[at] = bad;
        }
    }

    /// A code twice, at once or later.
    fn repeat(&mut self, random: &mut Random) {
        self.lines.truncate(59);
        if self.lines.is_empty() {
            self.lines.push("02".into());
        }
        let at = random.below(self.lines.len());
        let to = if random.percent(60) { at + 1 } else { random.within(at + 1..=self.lines.len()) };
        self.lines.insert(to, self.lines[at].clone());
        self.count_lines();
    }

    fn descend(&mut self, random: &mut Random) {
        if self.lines.len() < 2 {
            self.lines = vec!["20".into(), "07".into()];
            self.count_lines();
        } else if random.percent(50) {
            let at = random.below(self.lines.len() - 1);
            self.lines.swap(at, at + 1);
        } else {
            self.lines.reverse();
        }
    }

    /// A line that is nearly a code, often the first.
    fn misspell(&mut self, random: &mut Random) {
        if self.codes.is_empty() {
            self.codes.push(any_code(random));
            self.lines.push(String::new());
            self.count_lines();
        }
        let at = if random.percent(60) { 0 } else { random.below(self.lines.len()) };
        self.lines[at] = nearly(random, self.codes[at]);
    }
}

/// A code as a lax reader would take it.
fn nearly(random: &mut Random, code: u8) -> String {
    match random.below(10) {
        0 => format!("{code:o}"),
        1 => format!("{code:03o}"),
        2 => format!(" {code:02o}"),
        3 => format!("{code:02o} "),
        4 => format!("{code:02o}\r"),
        5 => format!("{code:02o}\t"),
        6 => format!("{code:02o}."),
        7 => format!("{code:02o} {code:02o}"),
        8 => format!("0o{code:o}"),
        _ => format!("+{code:o}"),
    }
}
