//! Decks at the limit of length, with a termination card that is none, of noise, and with long cards.

use super::group::request;
use super::{finished, requests, Style, DECK_LENGTH, TERMINATION};
use crate::random::{damage, Random, ODD_BYTES};

/// A deck of exactly, just under and just over the longest.
pub fn at_the_limit(random: &mut Random, style: Style) -> Vec<u8> {
    let length = match random.below(10) {
        0 => *random.pick(&[32_768, 65_535, 65_536, 65_537, 100_000]),
        _ => random.within(DECK_LENGTH - 2..=DECK_LENGTH + 2),
    };
    match random.below(5) {
        0 => filled_behind(random, style, length),
        1 => filled_with_requests(random, style, length),
        2 | 3 => filled_with_bytes(random, length),
        _ => filled_with_groups(random, length),
    }
}

/// Filled behind the termination card.
fn filled_behind(random: &mut Random, style: Style, length: usize) -> Vec<u8> {
    let groups = random.within(0..=5);
    let mut deck = finished(random, style, groups);
    let filler = *random.pick(b"X\n ");
    deck.resize(length, filler);
    deck
}

/// Filled with requests before the termination card; the last card is as long as it must be.
fn filled_with_requests(random: &mut Random, style: Style, length: usize) -> Vec<u8> {
    let style = Style { ids: 1_000_000, letters: 26, precedences: 64, ..style };
    let mut deck = Vec::new();
    while deck.len() < length - TERMINATION.len() - 400 {
        let spoilt = random.percent(style.spoilt);
        deck.extend(request(random, style, spoilt));
    }
    deck.resize(length.saturating_sub(TERMINATION.len() + 1).max(deck.len()), b'X');
    deck.push(b'\n');
    deck.extend(TERMINATION);
    deck
}

/// One long card, or only blank ones.
fn filled_with_bytes(random: &mut Random, length: usize) -> Vec<u8> {
    let filler = *random.pick(b"X\n, ");
    let mut deck = vec![filler; length - TERMINATION.len() - 1];
    deck.push(b'\n');
    deck.extend(TERMINATION);
    deck
}

/// As many groups as there can be.
fn filled_with_groups(random: &mut Random, length: usize) -> Vec<u8> {
    const OPENERS: [&[u8]; 6] = [
        b",PTY\n",
        b"A,PTY.\n",
        b",PTY,\n",
        b"A,PTY,2,,P,,,M,P,A,P,1.\nA,FAC,IB/1.\n",
        // The largest parameter tables, as many as there can be.
        b"A,PTY,3,,P,,,M,P,A,P,1.\nA,FAC,IB/1.\nA,PM9,.\n",
        b"B,PTY,3,,P,,,M,P,A1,P,1.\nB,FAC,IB/1.\nB,PM9, A.\n",
    ];
    let opener = *random.pick(&OPENERS);
    let mut deck = Vec::new();
    while deck.len() + opener.len() + TERMINATION.len() <= length {
        deck.extend(opener);
    }
    deck.extend(TERMINATION);
    deck.resize(length, b' ');
    deck
}

pub fn bad_termination(random: &mut Random, style: Style) -> Vec<u8> {
    let groups = random.within(0..=3);
    let mut deck = requests(random, style, groups);
    let mut card = TERMINATION.to_vec();
    match random.below(6) {
        0 => card.clear(),
        1 => {
            card.pop();
        }
        2 => {
            let at = random.below(80);
            card[at] = *random.pick(b") +X");
        }
        3 => {
            card.insert(80, *random.pick(b") \r"));
        }
        4 => {
            card.remove(79);
        }
        _ => damage(random, &mut card),
    }
    deck.extend(card);
    if random.percent(50) {
        let groups = random.within(0..=2);
        deck.extend(requests(random, style, groups));
        if random.percent(70) {
            deck.extend(TERMINATION);
        }
    }
    deck
}

pub fn noise(random: &mut Random) -> Vec<u8> {
    let length = random.below(400);
    let mut deck: Vec<u8> = (0..length)
        .map(|_| if random.percent(20) { *random.pick(ODD_BYTES) } else { *random.pick(b"APTYFC12,,,..  \n\n/IB") })
        .collect();
    deck.push(b'\n');
    deck.extend(TERMINATION);
    deck
}

/// Cards of 78 to 83 characters, and far longer ones: one among others, or all of a request.
pub fn long_cards(random: &mut Random, style: Style) -> Vec<u8> {
    let mut deck = Vec::new();
    for _ in 0..random.within(1..=4) {
        let request = request(random, style, false);
        let cards = request.split(|&byte| byte == b'\n').filter(|card| !card.is_empty());
        let alone = random.percent(60).then(|| random.below(cards.clone().count().max(1)));
        for (at, card) in cards.enumerate() {
            let is_long = alone.is_none_or(|alone| alone == at);
            deck.extend(if is_long { stretched(random, card) } else { card.to_vec() });
            deck.push(b'\n');
        }
    }
    deck.extend(TERMINATION);
    deck
}

/// The card with blanks within or behind, up to its length.
fn stretched(random: &mut Random, card: &[u8]) -> Vec<u8> {
    let length = if random.percent(10) { random.within(200..=3000) } else { random.within(78..=83) };
    let at = if random.percent(50) { card.len() } else { random.below(card.len()) };
    let blanks = vec![b' '; length.saturating_sub(card.len())];
    [&card[..at], &blanks, &card[at..]].concat()
}
