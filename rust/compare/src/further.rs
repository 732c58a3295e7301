//! Random TAL, TRN and PM cards after FAC: good ones in every division, and ones with every fault.

use crate::decks::{CARD_CHARACTERS, LETTERS_AND_DIGITS};
use crate::random::Random;

mod faults;

pub use faults::spoil;

/// The fields of a card, before spaces and the period come in. A PM card has three, and its text may have anything.
pub type Fields = Vec<String>;

/// The most cards behind FAC.
const MOST: usize = 14;
const TEXT_LENGTH: usize = 66;

/// Good further cards of a request: each kind together, the kinds in any order.
pub fn good(random: &mut Random, id: &str) -> Vec<Fields> {
    if random.percent(2) {
        return fullest(random, id);
    }
    let mut cards = Vec::new();
    let mut kinds = ["TAL", "TRN", "PM"];
    random.shuffle(&mut kinds);
    // A full group now and then.
    let full = random.percent(6);
    for (at, kind) in kinds.into_iter().enumerate() {
        let room = MOST - cards.len();
        let number = match random.weighted(&[35, 40, 20, 5]) {
            _ if full && at == 2 => room,
            0 => 0,
            1 => 1,
            2 => random.within(2..=3),
            _ => random.within(4..=MOST),
        };
        cards.extend(of_kind(random, id, kind, number.min(room)));
    }
    cards
}

/// As many cards as there can be, with as many entries or transfers as each can hold.
fn fullest(random: &mut Random, id: &str) -> Vec<Fields> {
    let increments = random.within(0..=MOST);
    let card = |card_type: &str, field: &str| {
        let fields = vec![field.to_string(); columns_of(id) / (field.len() + 1)];
        [vec![id.to_string(), card_type.into()], fields].concat()
    };
    let mut cards = vec![card("TAL", "X/1"); increments];
    cards.resize(MOST, card("TRN", "A/D/B/C"));
    cards
}

/// This many cards of a kind, of PM at most ten.
fn of_kind(random: &mut Random, id: &str, kind: &str, number: usize) -> Vec<Fields> {
    match kind {
        "TAL" => (0..number).map(|_| [vec![id.into(), "TAL".into()], increments(random, id)].concat()).collect(),
        "TRN" => {
            // A count is on one of the cards, or on none.
            let counted = random.below(number + 1);
            (0..number)
                .map(|at| [vec![id.into(), "TRN".into()], transfers(random, id, at == counted)].concat())
                .collect()
        }
        _ => digits(random, number)
            .into_iter()
            .map(|digit| vec![id.into(), format!("PM{digit}"), text(random)])
            .collect(),
    }
}

/// Digits that rise, with gaps.
fn digits(random: &mut Random, number: usize) -> Vec<usize> {
    let mut digits: Vec<usize> = (0..10).collect();
    while digits.len() > number {
        digits.remove(random.below(digits.len()));
    }
    digits
}

fn name(random: &mut Random) -> String {
    match random.below(4) {
        // Names may recur.
        0 => random.pick(&["A", "X", "TAL", "ABCDEF"]).to_string(),
        _ => {
            let length = random.within(1..=6);
            random.text(LETTERS_AND_DIGITS, length)
        }
    }
}

fn number(random: &mut Random, most: usize) -> String {
    let length = random.within(1..=most);
    let alphabet = *random.pick(&["0123456789", "0001", "9", "0"]);
    random.text(alphabet, length)
}

/// How many of the 80 columns there are for entries, each with its comma: ID, type and the period take the others.
fn columns_of(id: &str) -> usize {
    75 - id.len().min(6)
}

/// How many columns the entries of a card take at most: few, or up to column 80, now and then beyond it.
fn columns(random: &mut Random, id: &str) -> usize {
    let most = columns_of(id);
    match random.below(5) {
        0 | 1 => random.within(5..=30),
        2 => random.within(most - 10..=most),
        3 if random.percent(20) => random.within(most + 1..=most + 3),
        _ => random.within(5..=most),
    }
}

fn increments(random: &mut Random, id: &str) -> Fields {
    let columns = columns(random, id);
    let short = random.percent(20);
    let mut entries = Vec::new();
    let mut length = 0;
    loop {
        let entry = if short {
            format!("{}/{}", random.text(LETTERS_AND_DIGITS, 1), random.below(10))
        } else {
            format!("{}/{}", name(random), number(random, 5))
        };
        length += entry.len() + 1;
        if length > columns && !entries.is_empty() {
            return entries;
        }
        entries.push(entry);
    }
}

fn transfers(random: &mut Random, id: &str, is_counted: bool) -> Fields {
    let columns = columns(random, id);
    let short = random.percent(20);
    let mut fields = Vec::new();
    if is_counted {
        fields.push(number(random, 2));
        if random.percent(30) {
            return fields;
        }
    }
    let mut length: usize = fields.iter().map(|count| count.len() + 1).sum();
    loop {
        let transfer = if short { "A/T/B/C".into() } else { transfer(random) };
        length += transfer.len() + 1;
        if length > columns && !fields.is_empty() {
            return fields;
        }
        fields.push(transfer);
    }
}

fn transfer(random: &mut Random) -> String {
    let successor = match random.below(5) {
        0 => random.pick(&["*REQ", "*PLB"]).to_string(),
        _ => name(random),
    };
    let facility = *random.pick(&["D", "T", "N", "*T", "*N"]);
    format!("{}/{facility}/{successor}/{}", name(random), name(random))
}

/// A parameter card's text, most of the time one that is not too long.
fn text(random: &mut Random) -> String {
    let length = match random.below(8) {
        0 => random.below(3),
        1 => random.within(TEXT_LENGTH - 2..=TEXT_LENGTH),
        2 if random.percent(20) => random.within(TEXT_LENGTH..=TEXT_LENGTH + 2),
        _ => random.below(TEXT_LENGTH + 1),
    };
    let alphabet = *random.pick(&[CARD_CHARACTERS, CARD_CHARACTERS, "AB ,.", " ", ".", ",", "X", "A  "]);
    let mut text = random.text(alphabet, length);
    if random.percent(20) {
        text = format!("{text}{}", random.pick(&[" ", "  ", ".", ". ", " .", ","]));
        text.truncate(TEXT_LENGTH);
    }
    text
}
