//! Good configurations with one word or line that is telling.

use ordinary::numbers::Kind;

use crate::random::Random;

const COUNTS: &[&str] = &["0", "1", "16", "17", "60", "61", "255", "256", "257", "258"];
const UNIT_COUNTS: &[&str] = &["0", "0", "0", "16", "17", "17", "17", "18", "256", "272", "016"];
const LENGTHS: &[&str] = &["35328", "35329", "35330", "035330", "999999", "1000000", "1000001", "16"];
const NUMBERS: &[&str] = &[
    "0",
    "00",
    "1",
    "01",
    "001",
    "2",
    "9",
    "09",
    "10",
    "15",
    "16",
    "17",
    "18",
    "99",
    "100",
    "255",
    "256",
    "257",
    "0256",
    "35329",
    "35330",
    "035330",
    "1000000",
    "1000001",
    "9999999",
    "99999999",
    "4294967296",
    "4294967297",
    "18446744073709551616",
    "18446744073709551617",
    "-1",
    "+1",
    "1.",
    "",
    "x",
    "1 ",
    " 1",
    "\t1",
    "\u{0}",
    "1\r",
    "a0",
];
const NO_KINDS: &[&str] = &[
    "ma", "mc", "Cr", "pT", "M", "C", "P", "T", "R", "MAA", "MCC", "CRP", "PTT", "MC1", "CR0", "CP", "PP", "HP", "JP",
    "PC", "RC", "TP", "CM", "TM", "CC", "MM", "IB", "DB", "MC,CR", "MC/", "",
];

/// The text with a word changed, put in or left out on one line, or with a line too many or in another place.
pub fn spoilt(random: &mut Random, good: &[u8]) -> Vec<u8> {
    let text = String::from_utf8_lossy(good);
    let mut lines: Vec<String> = text.lines().map(String::from).collect();
    let at = telling_line(random, &lines);
    let mut words: Vec<String> = lines[at].split(' ').map(String::from).collect();
    spoil_words(random, &mut words);
    if words.is_empty() {
        spoil_lines(random, &mut lines, at);
    } else {
        lines[at] = words.join(" ");
    }
    let mut text = lines.join("\n");
    if !random.percent(5) {
        text.push('\n');
    }
    text.into_bytes()
}

/// The number of the line to spoil. Channels, the drum's and counts are few lines of many.
fn telling_line(random: &mut Random, lines: &[String]) -> usize {
    let channels = lines[0].parse().unwrap_or(0);
    let drum = lines.iter().position(|line| line.contains("MD")).unwrap_or(0);
    match random.below(12) {
        0..=4 => random.within(0..=channels),
        5 => drum,
        6 | 7 => channels + 1,
        _ => random.below(lines.len()),
    }
}

/// Spoils the words of a line; none are left where the lines are to be spoilt instead.
fn spoil_words(random: &mut Random, words: &mut Vec<String>) {
    match random.weighted(&[45, 15, 10, 10, 20]) {
        // The kind or the number of units, on a channel's line.
        0 | 1 if words.len() == 3 && words[1] != "MD" && random.percent(70) => {
            if random.percent(60) {
                words[2] = random.pick(UNIT_COUNTS).to_string();
            } else {
                words[1] = random.pick(NO_KINDS).to_string();
            }
        }
        0 if words.contains(&"MD".to_string()) && random.percent(60) => words[2] = random.pick(LENGTHS).to_string(),
        0 if words.len() == 1 && random.percent(60) => words[0] = random.pick(COUNTS).to_string(),
        0 => {
            let word = random.below(words.len());
            words[word] = random.pick(NUMBERS).to_string();
        }
        1 => {
            let word = random.below(words.len());
            let kinds = [Kind::WITH_UNITS.map(Kind::letters).as_slice(), &["MD", "ma", "M", "MAA", ""]].concat();
            words[word] = random.pick(&kinds).to_string();
        }
        2 => {
            let word = random.within(0..=words.len());
            words.insert(word, random.pick(&["", "0", "00", "MA"]).to_string());
        }
        3 => {
            words.remove(random.below(words.len()));
        }
        _ => words.clear(),
    }
}

/// A line more, a line in another place, or another drum.
fn spoil_lines(random: &mut Random, lines: &mut Vec<String>, at: usize) {
    let to = random.below(lines.len());
    let line = lines[at].clone();
    match random.below(5) {
        // A drum, perhaps a second one.
        4 => {
            let channel = line.get(..2).unwrap_or("00").to_string();
            lines[at] = format!("{channel} MD 40000");
        }
        0 => lines.insert(at, random.pick(&["", "0", "00 00", "00 MA 1", "15 15", "02", "77"]).to_string()),
        1 => lines.push(random.pick(&["", "0", "x", "15 15", "77"]).to_string()),
        2 => lines.insert(to, line),
        _ => lines.swap(at, to),
    }
}
