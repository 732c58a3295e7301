//! What was met in an input of the desk, for the count of a run.

use std::collections::BTreeMap;

use ordinary::card::{is_pty, shown_id};
use ordinary::deck;
use ordinary::desk::{show, Shown};
use ordinary::fields::{is_id, loose_field, CARD_LENGTH};

use super::{asked, divided};
use crate::decks::{DECK_LENGTH, TERMINATION};

/// What is asked for and why it is answered as it is, with what the shown groups are like.
pub fn met(text: &[u8]) -> BTreeMap<String, u64> {
    let mut counts = BTreeMap::new();
    let mut count = |sort: String| *counts.entry(sort).or_default() += 1;
    let (decks, rest) = divided(text);
    let &[repair, day] = &decks[..] else {
        let place = if decks.is_empty() { "the repair deck" } else { "the day's deck" };
        let last = rest.split(|&byte| byte == b'\n').next_back();
        let how = if last == Some(&TERMINATION[..80]) { ", at its termination card without LF" } else { "" };
        count(format!("NO 11 once, the input ends in {place}{how}"));
        return counts;
    };
    for (name, deck) in [("repair deck", repair), ("day's deck", day)] {
        if (DECK_LENGTH - 1..=DECK_LENGTH + 1).contains(&deck.len()) {
            count(format!("{name} of {} bytes", deck.len()));
        }
    }
    if asked(text).is_empty() {
        count("nothing asked".into());
    } else if !rest.ends_with(b"\n") {
        let last = asked(text).last().copied().unwrap_or_default();
        count(format!("last line without LF, {}", if is_an_id(last) { "an ID" } else { "no ID" }));
    }
    for id in asked(text) {
        answered(id, repair, day, &mut count);
    }
    counts
}

/// What an ID gets of two whole decks.
fn answered(id: &[u8], repair: &[u8], day: &[u8], count: &mut impl FnMut(String)) {
    let (part, deck) = match show(id, repair, day) {
        Err(_) => return count(why_refused(id, repair, day)),
        Ok(Shown::Repair(part)) => {
            let there = show(id, TERMINATION, day).is_ok();
            count(format!("FROM REPAIR, the day's deck has {}", if there { "one too" } else { "none" }));
            (part, repair)
        }
        Ok(Shown::Day(part)) => {
            count("FROM DAY".into());
            (part, day)
        }
    };
    if groups_of(id, deck) > 1 {
        count("shown: the first of several groups in its deck".into());
    }
    let end = part.from + part.length;
    shown(part.of(deck), part.from == 0, end + TERMINATION.len() == deck.len(), count);
}

fn is_an_id(line: &[u8]) -> bool {
    std::str::from_utf8(line).is_ok_and(is_id)
}

/// How many groups of a deck have an ID.
fn groups_of(id: &[u8], deck: &[u8]) -> usize {
    let has = |card: &&&[u8]| shown_id(card).is_some_and(|shown| shown.as_bytes() == id);
    deck::cards(deck).unwrap_or_default().iter().filter(has).count()
}

fn why_refused(id: &[u8], repair: &[u8], day: &[u8]) -> String {
    let is_long = |deck: &[u8]| deck.len() > DECK_LENGTH;
    match (is_long(repair), is_long(day)) {
        (true, true) => return "NO 11, both decks too long".into(),
        (true, false) => return "NO 11, repair deck too long".into(),
        (false, true) => return "NO 11, day's deck too long".into(),
        (false, false) => {}
    }
    let cards = [repair, day].map(|deck| deck::cards(deck).unwrap_or_default()).concat();
    let first_fields = || cards.iter().filter(|card| loose_field(card, 1).as_deref() == Some(id));
    let where_else = match first_fields().next() {
        None => "",
        Some(_) if first_fields().any(|card| is_pty(card)) => ", though a PTY card has it",
        Some(_) => ", though a card has it",
    };
    let without_spaces: Vec<u8> = id.iter().copied().filter(|&byte| byte != b' ').collect();
    let what = match id {
        [] => "the empty line",
        _ if is_an_id(id) => "an ID",
        _ if id == &TERMINATION[..80] => "the termination card",
        _ if is_an_id(&without_spaces) => "an ID with spaces",
        _ if is_an_id(&id.to_ascii_uppercase()) => "small letters",
        _ if id.len() == 7 => "seven bytes",
        _ if id.len() > 7 => "more bytes",
        _ => "other bytes",
    };
    format!("NO 22, {what}{where_else}")
}

/// What a group is like.
fn shown(group: &[u8], is_first: bool, is_last: bool, count: &mut impl FnMut(String)) {
    let cards: Vec<&[u8]> = group.split(|&byte| byte == b'\n').collect();
    let cards = &cards[..cards.len() - 1];
    let pty = cards.first().copied().unwrap_or_default();
    let id = loose_field(pty, 1);
    for (holds, what) in [
        (is_first, "at the beginning of its deck"),
        (is_last, "at the end of its deck"),
        (cards.len() == 1, "a PTY card alone"),
        (cards.len() > 16, "over 16 cards"),
        (cards.iter().any(|card| card.len() > CARD_LENGTH), "a card over 80 characters"),
        (cards.iter().any(|card| card.is_empty()), "a blank card"),
        (cards.iter().any(|card| loose_field(card, 1) != id), "a card of another ID"),
        (!group.is_ascii() || group.contains(&0), "odd bytes"),
        (pty.starts_with(b" ") || !pty.starts_with(&id.unwrap_or_default()), "spaces in the PTY card's ID"),
        (!pty.windows(3).any(|bytes| bytes == b"PTY"), "spaces in PTY"),
    ] {
        if holds {
            count(format!("shown: {what}"));
        }
    }
}
