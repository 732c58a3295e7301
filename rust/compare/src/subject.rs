//! The programs that are compared: what the ordinary implementation answers, and random input for each.

use std::collections::BTreeMap;

use crate::random::Random;
use crate::scripts::Script;
use crate::{configurations, decks, desks, kinds, scripts};

#[derive(Clone, Copy, PartialEq, Eq)]
pub enum Subject {
    Cards,
    Deck,
    Desk,
    Listing,
    Shift,
}

impl Subject {
    const ALL: [Subject; 5] = [Subject::Cards, Subject::Deck, Subject::Desk, Subject::Listing, Subject::Shift];

    pub fn from_name(name: &str) -> Option<Subject> {
        Subject::ALL.into_iter().find(|subject| subject.name() == name)
    }

    pub fn name(self) -> &'static str {
        match self {
            Subject::Cards => "cards",
            Subject::Deck => "deck",
            Subject::Desk => "desk",
            Subject::Listing => "listing",
            Subject::Shift => "shift",
        }
    }

    /// What the ordinary program prints for an input.
    pub fn ordinary(self, input: &[u8]) -> Vec<u8> {
        match self {
            Subject::Cards => ordinary::cards::report(input).into_bytes(),
            Subject::Deck => ordinary::deck::report(input).into_bytes(),
            Subject::Desk => ordinary::desk::converse(input),
            Subject::Listing => ordinary::configuration::listing(input).into_bytes(),
            Subject::Shift => ordinary::shift::converse(input),
        }
    }

    /// An input in pieces that may be left out one by one, with the number of calls in it. It comes from the seed alone,
    /// and for a script from how many calls it is to have.
    pub fn input(self, seed: u64, calls: usize) -> Script {
        let mut random = Random::new(seed);
        let one = |piece| Script { pieces: vec![piece], calls: 1, counts: BTreeMap::new() };
        match self {
            Subject::Cards | Subject::Deck => {
                let deck = decks::deck(&mut random);
                let mut counts = decks::card_types(&deck);
                counts.extend(kinds::on_cards(&deck));
                Script { counts, ..one(deck) }
            }
            Subject::Desk => desks::desk(&mut random, is_talk(seed)),
            Subject::Listing => {
                let configuration = configurations::configuration(&mut random);
                let counts = configurations::met(&configuration);
                Script { counts, ..one(configuration) }
            }
            Subject::Shift => scripts::script(&mut random, if is_talk(seed) { 100 } else { calls }),
        }
    }

    /// The lines of an input with their answers, if it is one of lines that is handed over line by line.
    pub fn conversation(self, seed: u64, text: &[u8]) -> Option<Vec<(&[u8], Vec<u8>)>> {
        match self {
            Subject::Shift if is_talk(seed) => Some(scripts::conversation(text)),
            Subject::Desk if is_talk(seed) => Some(desks::conversation(text)),
            _ => None,
        }
    }
}

/// Is the input of this seed, if it is one of lines, handed over line by line?
fn is_talk(seed: u64) -> bool {
    seed.is_multiple_of(50)
}
