//! The two decks of an input, and what is nearly two decks.

use ordinary::card::is_pty;
use ordinary::fields::loose_field;

use super::cards::nearly_termination;
use super::{divided, Desks};
use crate::decks::{self, DECK_LENGTH, TERMINATION};

impl Desks<'_> {
    /// Both decks, or what is nearly two decks.
    pub(super) fn decks(&mut self) -> Vec<Vec<u8>> {
        let weights = if self.is_short { [80, 0, 5, 8, 7, 0] } else { [55, 15, 8, 8, 6, 8] };
        match self.random.weighted(&weights) {
            0 => [self.deck(), self.deck()].concat(),
            // One at the limit, or both.
            1 => match self.random.below(3) {
                0 => [self.deck_at_the_limit(), self.deck()].concat(),
                1 => [self.deck(), self.deck_at_the_limit()].concat(),
                _ => [self.deck_at_the_limit(), self.deck_at_the_limit()].concat(),
            },
            // No cards at all, or none of a group.
            2 => [self.small_deck(), self.small_deck()].concat(),
            3 => self.ended_early(),
            4 => self.badly_terminated(),
            // Decks as the other programs get them.
            _ => vec![self.other_deck(), self.other_deck()],
        }
    }

    /// A deck as it is made for the other programs. What follows its termination card there is mostly left out here,
    /// where it would belong to the next deck or to the lines.
    fn other_deck(&mut self) -> Vec<u8> {
        let deck = decks::any_for_script(self.random);
        // Its IDs are asked for too.
        let cards = deck.split(|&byte| byte == b'\n').filter(|card| is_pty(card));
        let fields: Vec<Vec<u8>> = cards.filter_map(|card| loose_field(card, 1)).collect();
        if !fields.is_empty() {
            self.names.extend((0..6).map(|_| self.random.pick(&fields).clone()));
        }
        let first = divided(&deck).0.first().map(|deck| deck.to_vec());
        first.filter(|_| self.random.percent(80)).unwrap_or(deck)
    }

    fn deck(&mut self) -> Vec<Vec<u8>> {
        let most = if self.random.percent(8) { 60 } else { 14 };
        let count = self.random.below(most);
        let mut cards = self.cards(count);
        cards.push(TERMINATION.to_vec());
        cards
    }

    fn small_deck(&mut self) -> Vec<Vec<u8>> {
        let count = self.random.below(3);
        let mut cards: Vec<Vec<u8>> = (0..count).map(|_| self.other_card()).collect();
        cards.push(TERMINATION.to_vec());
        cards
    }

    /// The input ends in one of the decks: behind any byte, behind a card, behind the first deck, or before the last LF.
    fn ended_early(&mut self) -> Vec<Vec<u8>> {
        let long = if self.is_short { 0 } else { 10 };
        let repair = if self.random.percent(long) { self.deck_at_the_limit() } else { self.deck() };
        let day = if self.random.percent(long) { self.deck_at_the_limit() } else { self.deck() };
        let first = repair.concat().len();
        let mut cards = [repair, day].concat();
        let mut text = cards.concat();
        match self.random.below(6) {
            0 => text.truncate(self.random.below(text.len())),
            1 => text.truncate(first),
            2 => text.truncate(first - 1),
            3 => text.truncate(first + self.random.below(text.len() - first)),
            4 => text.truncate(text.len() - 1),
            _ => {
                cards.truncate(self.random.below(cards.len()));
                return cards;
            }
        }
        vec![text]
    }

    /// Decks with a card that is nearly the termination card; it may be missed or not.
    fn badly_terminated(&mut self) -> Vec<Vec<u8>> {
        let mut pieces = [self.deck(), self.deck()].concat();
        let terminations: Vec<usize> = (0..pieces.len()).filter(|&at| pieces[at] == TERMINATION).collect();
        let at = *self.random.pick(&terminations);
        let nearly = nearly_termination(self.random);
        if self.random.percent(50) {
            pieces[at] = nearly;
        } else {
            pieces.insert(at, nearly);
        }
        if self.random.percent(30) {
            pieces.extend(self.deck());
        }
        pieces
    }

    /// A deck of exactly, just under and just over the longest, or far longer. What fills it stands anywhere.
    fn deck_at_the_limit(&mut self) -> Vec<Vec<u8>> {
        let length = match self.random.below(10) {
            // Its termination card across the limit, or behind it.
            0 => DECK_LENGTH + self.random.within(3..=83),
            1 => *self.random.pick(&[32_768, 40_000, 65_535, 65_536, 65_537]),
            _ => self.random.within(DECK_LENGTH - 2..=DECK_LENGTH + 2),
        };
        let count = self.random.within(1..=8);
        let mut cards = self.cards(count);
        cards.retain(|card| card.len() < 1000 && card != TERMINATION);
        let missing = length - TERMINATION.len() - cards.concat().len();
        let at = self.random.within(0..=cards.len());
        let filling = self.filling(missing);
        cards.splice(at..at, filling);
        cards.push(TERMINATION.to_vec());
        cards
    }

    /// Cards of this many bytes in all.
    fn filling(&mut self, length: usize) -> Vec<Vec<u8>> {
        let name = self.name();
        let card = match self.random.below(6) {
            0 => vec![*self.random.pick(b"X, .)"); length - 1],
            1 => Vec::new(),
            2 => [&name[..], b",PTY"].concat(),
            3 => [&name[..], b",FAC,IB/1."].concat(),
            // Only the last of its kind may count.
            4 => [TERMINATION[..80].to_vec(), self.random.pick(&[" ", "\r", ")"]).as_bytes().to_vec()].concat(),
            _ => vec![b'Y'; 99],
        };
        let mut filling = vec![[&card[..], b"\n"].concat(); length / (card.len() + 1)];
        let rest = length % (card.len() + 1);
        if rest > 0 {
            filling.push([&vec![b'Z'; rest - 1][..], b"\n"].concat());
        }
        filling
    }
}
