//! Two decks on the desk, the day's and a small repair deck: for an ID the request's own cards, as the text itself in
//! the deck that has them. Nothing is checked, nothing enters a schedule.

use crate::card;
use crate::deck::{self, DECK_LENGTH};
use crate::numbers::Refusal;

/// Where a request's cards stand in a deck: from the PTY card's first byte up to the last card's LF, that included.
#[derive(Clone, Copy, Debug, PartialEq, Eq)]
pub struct Part {
    pub from: usize,
    pub length: usize,
}

impl Part {
    /// The cards themselves.
    pub fn of(self, deck: &[u8]) -> &[u8] {
        &deck[self.from..][..self.length]
    }
}

/// The deck that has the cards, and where.
#[derive(Clone, Copy, Debug, PartialEq, Eq)]
pub enum Shown {
    Repair(Part),
    Day(Part),
}

/// The cards of the first group with that ID, from the repair deck if they are there, else from the day's deck. Both
/// decks are looked at before anything is searched for: a bad one is refused even if the other has the ID.
pub fn show(id: &[u8], repair: &[u8], day: &[u8]) -> Result<Shown, Refusal> {
    let in_repair = deck::cards(repair)?;
    let in_day = deck::cards(day)?;
    let from_repair = first_group(id, &in_repair).map(Shown::Repair);
    from_repair.or_else(|| first_group(id, &in_day).map(Shown::Day)).ok_or(Refusal::NoSuchGroup)
}

/// The first group with that ID among a deck's cards. A group whose ID is not well formed is no ID's, and cards before
/// the first PTY card are not either.
fn first_group(id: &[u8], cards: &[&[u8]]) -> Option<Part> {
    let mut from = 0;
    for group in deck::groups(cards) {
        // Each card has its LF in the deck.
        let length: usize = group.iter().map(|card| card.len() + 1).sum();
        if card::shown_id(group[0]).is_some_and(|shown| shown.as_bytes() == id) {
            return Some(Part { from, length });
        }
        from += length;
    }
    None
}

/// The decks as they come in, the repair deck first, and then the IDs that are asked for, line by line.
#[derive(Clone, Debug, Default)]
pub struct Desk {
    repair: Vec<u8>,
    day: Vec<u8>,
    /// How many of the decks have had their termination card.
    terminated: usize,
}

impl Desk {
    /// What is answered to a line, given without its LF: nothing to a card, and to an ID what is shown for it.
    pub fn answer_line(&mut self, line: &[u8]) -> Vec<u8> {
        let deck = match self.terminated {
            0 => &mut self.repair,
            1 => &mut self.day,
            _ => return self.answer(line),
        };
        // What is too long is not kept, one byte over tells.
        deck.extend(line.iter().chain(b"\n").take(DECK_LENGTH + 1 - deck.len()));
        self.terminated += usize::from(deck::is_termination(line));
        Vec::new()
    }

    /// What is answered when the input ends; `rest` is what stands after its last LF. A card without LF is none, but an
    /// ID is asked for all the same.
    pub fn finish(&self, rest: &[u8]) -> Vec<u8> {
        match (self.terminated, rest) {
            (0 | 1, _) => refused(Refusal::BadDeck),
            (_, []) => Vec::new(),
            (_, id) => self.answer(id),
        }
    }

    fn answer(&self, id: &[u8]) -> Vec<u8> {
        match show(id, &self.repair, &self.day) {
            Ok(Shown::Repair(part)) => [part.of(&self.repair), b"FROM REPAIR\n"].concat(),
            Ok(Shown::Day(part)) => [part.of(&self.day), b"FROM DAY\n"].concat(),
            Err(refusal) => refused(refusal),
        }
    }
}

fn refused(refusal: Refusal) -> Vec<u8> {
    format!("NO {}\n", refusal.number()).into_bytes()
}

/// All that the program prints for an input.
pub fn converse(input: &[u8]) -> Vec<u8> {
    let mut desk = Desk::default();
    let mut output = Vec::new();
    for line in input.split_inclusive(|&byte| byte == b'\n') {
        output.extend(match line.strip_suffix(b"\n") {
            Some(line) => desk.answer_line(line),
            None => return [output, desk.finish(line)].concat(),
        });
    }
    [output, desk.finish(b"")].concat()
}
