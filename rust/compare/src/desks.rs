//! Random input of the desk: a repair deck, the day's deck and the lines that are asked.

use ordinary::desk::Desk;

use crate::decks::{LETTERS_AND_DIGITS, TERMINATION};
use crate::random::{damage, Random};
use crate::scripts::Script;

mod cards;
mod decks;
mod lines;
mod met;

/// IDs, most of which begin or end alike.
const IDS: &[&str] = &["A", "A1", "A11", "AA1", "1", "01", "B7", "C3", "ABCDEF", "ABCDE", "000000", "ZZZZZZ", "PTY"];
/// First fields that are no ID, some of them only just.
const NO_IDS: &[&[u8]] = &[
    b"",
    b"a1",
    b"A-1",
    b"A1/",
    b"A1:",
    b"@A1",
    b"A[",
    b"A1\r",
    b"\tA1",
    b"A\x001",
    b"A1\x80",
    b"\xff",
    b"ABCDEFG",
    b"AAAAAAAA",
    b"*",
    b"b7",
];

/// What an input is made of.
struct Desks<'r> {
    random: &'r mut Random,
    /// The first fields of its cards, which are asked for as well. Some are no IDs.
    names: Vec<Vec<u8>>,
    /// Is it handed over line by line, and so to be short?
    is_short: bool,
}

/// An input in pieces: cards or whole decks, and the lines asked.
pub fn desk(random: &mut Random, is_short: bool) -> Script {
    let names = names(random);
    let mut desks = Desks { random, names, is_short };
    let mut pieces = desks.decks();
    // What follows in the middle of a deck is more cards.
    let are_whole = divided(&pieces.concat()).0.len() == 2;
    if are_whole || desks.random.percent(30) {
        pieces.extend(desks.lines());
    }
    if desks.random.percent(4) {
        let mut text = pieces.concat();
        for _ in 0..desks.random.within(1..=4) {
            damage(desks.random, &mut text);
        }
        pieces = vec![text];
    }
    let text = pieces.concat();
    Script { pieces, calls: asked(&text).len(), counts: met::met(&text) }
}

fn names(random: &mut Random) -> Vec<Vec<u8>> {
    let count = random.within(1..=6);
    let mut names: Vec<Vec<u8>> = (0..count).map(|_| id(random).into_bytes()).collect();
    if random.percent(40) {
        names.push(random.pick(NO_IDS).to_vec());
    }
    names
}

/// An ID, or now and then one that is a byte too long.
fn id(random: &mut Random) -> String {
    if random.percent(70) {
        return random.pick(IDS).to_string();
    }
    let length = random.within(1..=7);
    random.text(LETTERS_AND_DIGITS, length)
}

impl Desks<'_> {
    fn name(&mut self) -> Vec<u8> {
        self.random.pick(&self.names).clone()
    }
}

/// The lines of an input, each in two parts, the answer behind the second; what follows the last LF is answered at
/// the end.
pub fn conversation(text: &[u8]) -> Vec<(&[u8], Vec<u8>)> {
    let mut desk = Desk::default();
    let mut conversation = Vec::new();
    for line in text.split_inclusive(|&byte| byte == b'\n') {
        let (front, back) = line.split_at(line.len() / 2);
        let answer = line.strip_suffix(b"\n").map_or(Vec::new(), |line| desk.answer_line(line));
        conversation.extend([(front, Vec::new()), (back, answer)]);
    }
    conversation
}

/// Both decks with their termination cards, and what follows them. If the input ends before, the decks that are whole
/// and the beginning of the next.
fn divided(text: &[u8]) -> (Vec<&[u8]>, &[u8]) {
    let mut decks = Vec::new();
    let (mut from, mut at) = (0, 0);
    for line in text.split_inclusive(|&byte| byte == b'\n') {
        at += line.len();
        if decks.len() < 2 && line == TERMINATION {
            decks.push(&text[from..at]);
            from = at;
        }
    }
    (decks, &text[from..])
}

/// The lines that are asked, without their LFs.
fn asked(text: &[u8]) -> Vec<&[u8]> {
    match divided(text) {
        (decks, rest) if decks.len() == 2 => {
            rest.split_inclusive(|&byte| byte == b'\n').map(|line| line.strip_suffix(b"\n").unwrap_or(line)).collect()
        }
        _ => Vec::new(),
    }
}
