//! Lines that are no calls, or nearly none.

use super::Writer;
use crate::random::{damage, Random, ODD_BYTES};

const LENGTHS: &[usize] = &[0, 1, 5, 20, 254, 255, 256, 257, 300, 5000];
const CALLS: &[&str] = &[
    "SELECT",
    "START 3",
    "STATUS 0 0",
    "BOARD",
    "END 15",
    "RELEASE A",
    "DECK",
    "SUBMIT 0 0 02 3 0",
    "CUT 3",
    "FAIL 3 2",
    "RETURN 0 3",
    "RETURN 0 3 0",
];
const CALLS_WITHOUT_LAST: &[&str] = &[
    "START",
    "DONE",
    "CUT",
    "END",
    "ABORT",
    "RELEASE",
    "DELETE",
    "START 3",
    "STATUS 0",
    "DOWN 3",
    "FAIL 3",
    "SUBMIT 0 0 02 3",
    "RETURN 0 3",
];
const NUMBERS: &[&str] =
    &["", "0", "000000003", "0000000003", "999999999", "1000000000", "4294967299", "-0", "+3", "3.", "0x3", "3a", "８"];

impl Writer<'_> {
    pub(super) fn noise(&mut self) -> Vec<u8> {
        let length = *self.random.pick(LENGTHS);
        let mut line = match self.random.below(9) {
            0 => Vec::new(),
            1 => format!("#{}", self.random.text("abc #?", length)).into_bytes(),
            2 => self.random.text("SELECT BOARD 0123", length).into_bytes(),
            3 => (0..length).map(|_| *self.random.pick(ODD_BYTES)).filter(|&byte| byte != b'\n').collect(),
            4 => nearly_call(self.random).into_bytes(),
            5 => format!("{} {}", self.random.pick(CALLS_WITHOUT_LAST), self.random.pick(NUMBERS)).into_bytes(),
            6 => zeros(self.random, length).into_bytes(),
            _ => self.damaged_submission(),
        };
        if line == b"DECK" {
            line.push(b' ');
        }
        line.push(b'\n');
        line
    }

    fn damaged_submission(&mut self) -> Vec<u8> {
        let mut line = self.submit();
        line.pop();
        damage(self.random, &mut line);
        line.retain(|&byte| byte != b'\n');
        line
    }
}

/// A call with spaces or words too many, or too few.
fn nearly_call(random: &mut Random) -> String {
    let before = if random.percent(10) { " " } else { "" };
    format!("{before}{}{}", random.pick(CALLS), random.pick(&["", " ", "  ", " 0", " 0 0", "\r", "\t", "."]))
}

/// A word and zeros, of this length in all.
fn zeros(random: &mut Random, length: usize) -> String {
    let word = *random.pick(&["START", "RELEASE", "DELETE", "KEY", "KEY SEL", "#"]);
    let digits = length.saturating_sub(word.len() + 1);
    format!("{word} {}", "0".repeat(digits))
}
