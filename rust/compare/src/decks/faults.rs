//! Faults on PTY and FAC cards, and of a group as a whole.

use super::group::Group;
use super::{CARD_CHARACTERS, LETTERS, LETTERS_AND_DIGITS};
use crate::random::Random;

const PRIORITIES: &[&str] = &[
    "", "A", "Z", "Z63", "Z62", "Z6", "01Z", "01Z63", "63Z62", "00A", "01A", "63A", "64A", "99A9", "A64", "A063",
    "A63", "A00", "0A", "1A5", "012A", "AA", "A5A", "5", "05", "A-1", "1AA", "01AA", "0101A", "01A640", "01A64", "a5",
    "A5.", "A/5", "01A0", "010A1",
];

/// What is telling in a field of a PTY card, counted from 0.
fn telling(field: usize) -> &'static [&'static str] {
    match field {
        0 => &["", "ABCDEFG", "A-1", "A/", "ABCDEF", "TOOLONG1", "A*B"],
        2 => &["", "1", "3", "0", "00", "99", "002", "X", "2X", "-2", "A"],
        3 => &["R", "P", "SS", "X", "-", "S1", "S"],
        4 => &["", "-A", "ABCDEFGHIJKL", "ABCDEFGHIJKLM", "A/B", "A-", "-"],
        5 => &["X", "II", "I", "1"],
        6 | 12 => &["Z", "X", "TT", "T", "1", "*"],
        7 => &["", "ABCDEFG", "A-", "*A"],
        8 => &["", "X", "SP", "E", "I", "R"],
        9 => PRIORITIES,
        10 => &["", "X", "PC", "S"],
        11 => &["", "12345", "X", "1X", "-1", "0000", "00001"],
        _ => &["ABCDEFG", "A-", "*", "ABCDEF", "-"],
    }
}

pub fn spoil_pty(random: &mut Random, fields: &mut Vec<String>) {
    let at = match random.below(14) {
        1 => 9,
        at => at,
    };
    while fields.len() <= at {
        fields.push(String::new());
    }
    match random.weighted(&[30, 25, 20, 15, 10]) {
        // Of any content.
        0 => {
            let length = random.weighted(&[2, 3, 3, 2, 2, 2, 3, 3, 1, 1, 1, 1, 2, 2, 1]);
            let alphabet = *random.pick(&[LETTERS_AND_DIGITS, CARD_CHARACTERS, "SPTACZI", "0123456789", "-A1"]);
            fields[at] = random.text(alphabet, length);
        }
        1 => fields[at] = random.pick(telling(at)).to_string(),
        // One character more or less.
        2 => {
            if random.percent(50) || fields[at].is_empty() {
                let last = random.text(CARD_CHARACTERS, 1);
                fields[at] += &last;
            } else {
                fields[at].pop();
            }
        }
        // Too many or too few fields.
        3 => {
            if random.percent(60) {
                fields.resize(random.within(13..=17), String::new());
            } else {
                fields.truncate(random.within(2..=13));
            }
        }
        // A field put in or left out.
        _ => {
            if random.percent(50) {
                fields.remove(at);
            } else {
                fields.insert(at, String::new());
            }
        }
    }
}

/// Entries of FAC cards, nearly all of them wrong.
const WRONG_ENTRIES: &[&str] = &[
    "",
    "IB",
    "IB/",
    "/1",
    "IB/0",
    "IB/00",
    "IB/001",
    "IB1/1",
    "IB0/1",
    "DB0/1",
    "MD0/1",
    "MD/0",
    "MD/000000",
    "MD/0000001",
    "MD/1000000",
    "MD/999999",
    "MT16/1",
    "MT99/1",
    "MT001/1",
    "MT/100",
    "MT/99",
    "MT/0",
    "MT/1/1",
    "MT1",
    "MTX/1",
    "M/1",
    "XX/1",
    "CP/1",
    "PP/1",
    "HP/1",
    "JP/1",
    "PC/1",
    "RC/1",
    "TP/1",
    "CM/1",
    "C/1",
    "P/1",
    "R/1",
    "MCC/1",
    "MCX/1",
    "CRP1/1",
    "PTR/1",
    "MCCR/1",
    "1MC/1",
    "-CR/1",
    "*PT/1",
    "MC16/1",
    "CR16/1",
    "PT16/1",
    "MC99/1",
    "CR015/1",
    "PT001/1",
    "MC/100",
    "CR/100",
    "PT/100",
    "MC/0",
    "CR/0",
    "PT/0",
    "MC/99",
    "CR15/99",
    "PT15/99",
    "MC",
    "CR1",
    "PT/",
    "MC/1/1",
    "CR:1/1",
    "PT1A/1",
    "CR/1",
    "CR00/1",
    "MC1/1",
    "MC01/1",
    "PT/1",
    "PT0/1",
    "MT-1/1",
    "MT:1/1",
    "MT*",
    "*MT/1",
    "1MT/1",
    "-MT/1",
    "MTT",
    "MTT/1",
    "INSTRUCTION/1",
    "DB/28",
    "DB/29",
    "DB/99",
    "PR15/99",
    "PR015/1",
    "MA1/1",
    "MA01/1",
    "MT/1",
    "MT00/1",
    "MT0/1",
    "IB/1",
    "IB/28",
    "IB/29",
    "I/1",
    "MT/A",
    "MT1A/1",
    "MT1/1A",
];

pub fn spoil_fac(random: &mut Random, group: &mut Group) {
    let Some(fields) = group.others.first_mut() else { return };
    // An earlier fault may have left no entry.
    while fields.len() < 3 {
        fields.push("IB/1".into());
    }
    match random.weighted(&[45, 15, 10, 10, 10, 10]) {
        0 => {
            let at = random.within(2..=fields.len());
            fields.insert(at, random.pick(WRONG_ENTRIES).to_string());
        }
        1 => {
            let at = random.within(2..=fields.len());
            let length = random.below(9);
            let alphabet = *random.pick(&["MATPRDIBC0123456789/", CARD_CHARACTERS]);
            fields.insert(at, random.text(alphabet, length));
        }
        // An entry twice, perhaps written otherwise.
        2 => {
            let again = fields[random.within(2..=fields.len() - 1)].clone();
            fields.push(if random.percent(50) { again } else { written_otherwise(&again) });
        }
        // No IB, or no entry at all.
        3 => {
            if random.percent(50) {
                fields.retain(|field| !field.starts_with("IB"));
            } else {
                fields.truncate(2);
            }
        }
        4 => fields[0] = random.pick(&["", "OTHER", "A1", "J0", "J1", "-"]).to_string(),
        _ => {
            let db = *random.pick(&[1, 14, 27, 28, 29, 30, 99]);
            let without_ib = random.percent(50);
            fields.retain(|field| !(field.starts_with("DB") || without_ib && field.starts_with("IB")));
            fields.push(format!("DB/{db}"));
        }
    }
}

/// An entry with a zero before its logical channel, or with 0 for none; another n.
fn written_otherwise(entry: &str) -> String {
    let Some((name, _)) = entry.split_once('/') else { return entry.to_string() };
    let digits = name.find(|c: char| c.is_ascii_digit()).unwrap_or(name.len());
    let (code, logical) = name.split_at(digits);
    format!("{code}0{logical}/3")
}

/// Cards too many, too few, in another order, or of another type, or another number of them.
pub fn spoil_structure(random: &mut Random, group: &mut Group) {
    let Group { pty, others, is_counted } = group;
    let id = &pty[0];
    let count = others.len() + 1;
    match random.below(9) {
        0 => others.clear(),
        1 => others.extend(others.first().cloned()),
        2 => others.push(vec![id.clone(), "TAL".into(), "X/1".into()]),
        3 => others.insert(0, vec![id.clone(), random.pick(&["TAL", "PM0", "XYZ"]).to_string(), "X/1".into()]),
        4 => {
            if let Some(fac) = others.first_mut().filter(|fac| fac.len() > 1) {
                fac[1] = random.pick(&["FA", "FACC", "", "fac", "TAL", "F-C", "PTY"]).to_string();
            }
        }
        5 => {
            for _ in 0..random.within(1..=100) {
                others.push(vec![random.text(LETTERS, 1), random.pick(&["FAC", "TRN", "PM1", ""]).to_string()]);
            }
        }
        6 => others.insert(random.below(2).min(others.len()), vec![String::new()]),
        // FAC elsewhere.
        7 => others.rotate_left(count.min(2) - 1),
        _ => {
            pty[2] = random.pick(&[count - 1, count + 1, 0, 16, 17, 99]).to_string();
            *is_counted = false;
        }
    }
    // Cards that came or went without being counted.
    if *is_counted && random.percent(30) {
        pty[2] = count.to_string();
        *is_counted = false;
    }
}
