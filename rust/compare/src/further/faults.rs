//! Faults of the cards after FAC.

use super::{good, of_kind, Fields, TEXT_LENGTH};
use crate::decks::CARD_CHARACTERS;
use crate::random::Random;

/// One fault in what follows PTY: `cards` are FAC and the further cards, of which there is one at least afterwards,
/// unless it was taken away.
pub fn spoil(random: &mut Random, id: &str, cards: &mut Vec<Fields>) {
    while cards.len() < 2 {
        cards.extend(good(random, id));
    }
    let at = random.within(1..=cards.len() - 1);
    match random.weighted(&[45, 12, 12, 8, 8, 8, 7]) {
        0 => spoil_content(random, &mut cards[at]),
        // Apart, not rising, or a second count.
        1 => {
            let to = random.within(1..=cards.len() - 1);
            cards.swap(at, to);
        }
        2 => {
            let to = random.within(1..=cards.len());
            let kind = *random.pick(&["TAL", "TRN", "PM"]);
            cards.splice(to..to, of_kind(random, id, kind, 1));
        }
        3 => {
            let again = cards[at].clone();
            let to = random.within(at..=cards.len());
            cards.insert(to, again);
        }
        4 => {
            let at = if random.percent(50) { cards.len() - 1 } else { at };
            cards[at][0] = random.pick(&["", "B", "A1", "OTHER", "J0", "a", "TOOLONG", "-"]).to_string();
        }
        5 => put_in_another(random, id, cards, at),
        _ => full(random, id, cards),
    }
}

/// A card of another type, or of none, in the place of one or before any.
fn put_in_another(random: &mut Random, id: &str, cards: &mut Vec<Fields>, at: usize) {
    const TYPES: &[&str] = &["FAC", "XYZ", "", "TALS", "tal", "TR", "P", "PMX", "TAL", "TRN", "PM5", "FAC."];
    let to = random.within(1..=cards.len());
    let other = vec![id.into(), random.pick(TYPES).to_string(), "X/1".into()];
    match random.below(3) {
        0 => {
            // A card that was put in may have no type.
            cards[at].truncate(1);
            cards[at].extend_from_slice(&other[1..]);
        }
        1 => cards.insert(to, other),
        _ => cards.insert(to, vec![random.pick(&["", "X", ".", ",FAC", ","]).to_string()]),
    }
}

/// A group of 15 to 18 cards, PTY among them; those that are added may be wrong too.
fn full(random: &mut Random, id: &str, cards: &mut Vec<Fields>) {
    let number = random.within(14..=17);
    cards.truncate(number);
    let kind = *random.pick(&["TAL", "TAL", "TRN", "PM"]);
    while cards.len() < number {
        let at = cards.iter().rposition(|card| card.get(1).is_some_and(|field| field == kind)).unwrap_or(0);
        cards.splice(at + 1..at + 1, of_kind(random, id, kind, 1));
    }
    if random.percent(30) {
        let last = cards.len() - 1;
        spoil_content(random, &mut cards[last]);
    }
}

fn spoil_content(random: &mut Random, card: &mut Fields) {
    match card.get(1).map_or("", String::as_str) {
        "TAL" => spoil_fields(random, card, INCREMENTS, "ABC019/-"),
        "TRN" => spoil_fields(random, card, TRANSFERS, "ABC019/*TDN"),
        _ => spoil_parameters(random, card),
    }
}

const INCREMENTS: &[&str] = &[
    "",
    "A",
    "A/",
    "/1",
    "/",
    "//",
    "A//",
    "A//1",
    "A/1/2",
    "A/1/345",
    "A/1/3456",
    "A/1234/",
    "A/12345/",
    "A/0",
    "A/00000",
    "A/99999",
    "A/000000",
    "A/100000",
    "A/4294967297",
    "A/X",
    "A/1234X",
    "A/12345X",
    "A/ABCDE",
    "A/ABCDEF",
    "A/-1",
    "A/1:",
    "ABCDEF/1",
    "ABCDEFG/1",
    "ABCDEFG/123456",
    "/123456",
    "A-/1",
    "*A/1",
    "A=B/1",
    "A-1",
    "ABCDEFGHIJ",
    "1234567",
    "a/1",
    "A/1.",
    "A/1.X",
    "A/1.,B/2",
    "A/1+",
];

const TRANSFERS: &[&str] = &[
    "",
    "0",
    "00",
    "4",
    "09",
    "99",
    "000",
    "100",
    "555",
    "X",
    "XY",
    "XYZ",
    "1X",
    "-1",
    "*",
    "ABCDEF",
    "ABCDEFG",
    "123456",
    "1234567",
    "/",
    "//",
    "///",
    "////",
    "A/",
    "A/T",
    "A/T/",
    "A/T/B",
    "A/T/B/",
    "/T/B/C",
    "A//B/C",
    "A/T//C",
    "A/T/B/C/",
    "A/T/B/C/D",
    "A/T/B/C/ABCDEFG",
    "A/T/B/ABCDEFG/",
    "ABCDEFG/T/B/C",
    "A/TTT/B/C",
    "A/*TT/B/C",
    "A/T/ABCDEFG/C",
    "A/T/B/ABCDEFG",
    "A-/T/B/C",
    "A/X/B/C",
    "A/*D/B/C",
    "A/*/B/C",
    "A/T*/B/C",
    "A/**/B/C",
    "A/TT/B/C",
    "A/T/B-/C",
    "A/T/B/C-",
    "A/T/*REQ/C",
    "A/T/*PLB/C",
    "A/T/*XYZ/C",
    "A/T/*REQ1/C",
    "A/T/*REQ12/C",
    "A/T/*REQ123/C",
    "A/T/*RE/C",
    "A/T/*/C",
    "A/T/*REQ",
    "A/T/*PLB/",
    "*REQ/T/B/C",
    "A/T/B/*REQ",
    "-/TTT/B/C",
    "ABCDEFG/X/B/C",
    "A/X/ABCDEFG/C",
    "A/TTT/-/C",
    "A/T/-/ABCDEFG",
    "A/T/ABCDEFG/-",
    "A/TTT",
    "A/T/ABCDEFG",
    "a/T/B/C",
    "A/T/B/C.",
    "A/T/B/C.X",
    "4.",
];

/// A fault in the fields from the third on.
fn spoil_fields(random: &mut Random, card: &mut Fields, telling: &[&str], alphabet: &str) {
    // An earlier fault may have left none.
    let fields = card.len().max(2);
    card.resize(fields, String::new());
    let at = if random.percent(30) { 2 } else { random.within(2..=fields) };
    // In the place of others, so that the card does not grow too long for them to be looked at.
    let end = if random.percent(60) { fields } else { at };
    match random.weighted(&[50, 15, 10, 15, 10]) {
        0 => card.splice(at..end, [random.pick(telling).to_string()]).for_each(drop),
        // Two of them, so that the one on the left answers.
        1 => {
            let (left, right) = (random.pick(telling), random.pick(telling));
            card.splice(at..end, [left.to_string(), right.to_string()]);
        }
        2 => {
            let length = random.below(9);
            card.insert(at, random.text(alphabet, length));
        }
        // One character more or less.
        3 if fields > 2 => {
            let field = &mut card[random.within(2..=fields - 1)];
            if random.percent(60) {
                let at = random.within(0..=field.len());
                field.insert_str(at, &random.text(alphabet, 1));
            } else {
                field.pop();
            }
        }
        3 => card.push(String::new()),
        _ => card.truncate(2),
    }
}

fn spoil_parameters(random: &mut Random, card: &mut Fields) {
    card.resize(3, String::new());
    match random.below(8) {
        0 | 1 => {
            const TYPES: &[&str] = &[
                "PM", "PMX", "PMO", "PM12", "PM00", "PM0X", "PM-1", "PM/", "PM:", "PMa", "P", "P0", "pm0", "XPM0",
                "PM0", "PM9", "PM.3", "PM3..", "PM 3", "MP3",
            ];
            card[1] = random.pick(TYPES).to_string();
        }
        // The period right behind the type, and what may follow it.
        2 => card[1] += *random.pick(&[".", ".", " . ", ".A", ".PM0", ".."]),
        3 => {
            card.truncate(2);
            if random.percent(40) {
                card[1] += *random.pick(&[".", ".TEXT", ". ,", ".,"]);
            }
        }
        4 | 5 => {
            let length = random.within(TEXT_LENGTH - 2..=TEXT_LENGTH + 3);
            let alphabet = *random.pick(&[CARD_CHARACTERS, " ", ".", ",", "X"]);
            card[2] = random.text(alphabet, length);
        }
        6 => {
            let odd = *random.pick(&["a", "+", "\t", "\r", "(", ";", "\u{7f}"]);
            let at = random.within(0..=card[2].len());
            card[2].insert_str(at, odd);
        }
        _ => {
            let digit = random.below(10);
            card[1] = format!("PM{digit}");
        }
    }
}
