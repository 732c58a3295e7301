//! What a run has seen, for its count.

use std::collections::BTreeMap;

use ordinary::configuration::{BadLine, Configuration};

use crate::subject::Subject;

/// What a run has seen.
#[derive(Default)]
pub struct Tally {
    pub inputs: u64,
    pub calls: u64,
    pub bytes: u64,
    pub differences: u64,
    /// How often each sort of answer came, which sorts of failures were reported, what was met of heads that are given
    /// back, and which types of cards came.
    pub answers: BTreeMap<String, u64>,
}

impl Tally {
    pub fn add(&mut self, subject: Subject, calls: usize, input: &[u8], output: &[u8]) {
        self.inputs += 1;
        self.calls += calls as u64;
        self.bytes += input.len() as u64;
        // The desk shows cards of any bytes: what its answers are is counted where the input is made.
        let output = if subject == Subject::Desk { b"" } else { output };
        for line in output.split(|&byte| byte == b'\n').filter(|line| !line.is_empty()) {
            *self.answers.entry(sort_of(subject, line)).or_default() += 1;
        }
        if subject == Subject::Listing {
            if let Some(section) = bad_section(input) {
                *self.answers.entry(format!("bad in {section}")).or_default() += 1;
            }
        }
    }
}

/// Where the first bad or missing line of a configuration stands.
fn bad_section(text: &[u8]) -> Option<&'static str> {
    let BadLine(bad) = Configuration::from_text(text).err()?;
    let lines: Vec<&[u8]> = text.split(|&byte| byte == b'\n').collect();
    // A count before the bad line is a good one.
    let count = |line: usize| {
        let line = lines.get(line - 1).and_then(|line| std::str::from_utf8(line).ok());
        line.and_then(|line| line.parse().ok()).unwrap_or(0)
    };
    let mut at = 1;
    for section in ["the channels", "the down units", "the codes"] {
        if bad == at || bad <= at + count(at) {
            return Some(section);
        }
        at += count(at) + 1;
    }
    Some("what follows")
}

/// The answer without what is its own: the error number, the refusal, the word.
fn sort_of(subject: Subject, line: &[u8]) -> String {
    let line = String::from_utf8_lossy(line);
    let words: Vec<&str> = line.split(' ').collect();
    match (subject, &words[..]) {
        (_, ["SP", _, "ER", number]) => format!("card error {number:0>2}"),
        (_, [_, "SCH", "ACK"]) => "deck taken".into(),
        (Subject::Cards | Subject::Deck, ["SCH", "ER", "11"]) => "deck refused".into(),
        (Subject::Cards, ["SP", _, "NO", number]) => format!("not written, refusal {number:0>2}"),
        (Subject::Cards, ["PMT", length]) => format!("table of {length:0>3}"),
        (Subject::Cards, ["END", "OF", "CARDS"]) => "deck read".into(),
        (Subject::Cards, _) if line.starts_with('=') => "row of a table".into(),
        (Subject::Cards, _) => {
            let card_type = line.split(',').nth(1).unwrap_or("");
            format!("written {}", card_type.trim_end_matches(|c: char| c.is_ascii_digit()))
        }
        (Subject::Deck, _) => "request in the schedule".into(),
        (Subject::Desk, _) => "line printed".into(),
        (Subject::Listing | Subject::Shift, ["ER", "14", "LINE", number]) => match number.parse() {
            Ok(0..=19) => format!("bad line {number:0>2}"),
            _ => "bad line 20 or later".into(),
        },
        (Subject::Listing, _) => "channel listed".into(),
        (Subject::Shift, ["NO", number]) => format!("refusal {number:0>2}"),
        (Subject::Shift, ["NO", number, _, lacking]) => format!("refusal {number:0>2} for {lacking}"),
        (Subject::Shift, ["ACK"]) => "accepted".into(),
        (Subject::Shift, ["ACK", "ENDED", code]) => format!("status ended {code}"),
        (Subject::Shift, ["ACK", word @ ("BLANK" | "LISTED" | "MOVING" | "STOPPING")]) => format!("status {word}"),
        (Subject::Shift, ["ACK", _, _]) => "completed".into(),
        (Subject::Shift, ["ACK", _, _, "IB", ..]) => "selected".into(),
        (Subject::Shift, ["ACK", _, _, _, _]) => "started".into(),
        (Subject::Shift, ["UNIT", _, "HELD", _, "RETURNING", marks @ ..]) => {
            format!("board UNIT RETURNING{}", if marks.is_empty() { "" } else { " with a mark" })
        }
        (Subject::Shift, [word @ ("PLACE" | "UNIT" | "CORE" | "DRUM" | "MOVES" | "LISTED"), ..]) => {
            format!("board {word}")
        }
        (Subject::Shift, [_, _, word @ ("WAITS" | "RUNS" | "CLOSES" | "SUSPENDED")]) => format!("board request {word}"),
        (Subject::Shift, ["END", "OF", "BOARD"]) => "board end".into(),
        (Subject::Shift, [word @ ("DWN" | "AVL" | "SEL" | "DEL"), "ACK"]) => format!("message {word} accepted"),
        (Subject::Shift, [word @ ("DWN" | "AVL" | "SEL" | "DEL" | "---"), number, "IN", "ER"]) => {
            format!("message {word} error {number:0>2}")
        }
        (Subject::Shift, ["??"]) => "no call".into(),
        (Subject::Shift, _) => "echo".into(),
    }
}
