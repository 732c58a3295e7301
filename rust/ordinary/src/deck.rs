//! Decks of cards.

use crate::card::{self, CardError, Request};
use crate::numbers::Refusal;
use crate::schedule::Schedule;

/// The most bytes of a deck.
pub const DECK_LENGTH: usize = 16_384;

/// Shown where there is no ID.
const NO_ID: &str = "------";

/// The ID that a line shows.
pub fn shown(id: Option<&str>) -> &str {
    id.unwrap_or(NO_ID)
}

/// The line for a group that was not taken.
pub fn error_line(id: Option<&str>, error: CardError) -> String {
    format!("SP {} ER {}\n", shown(id), error.0)
}

/// What is printed for a deck that is refused, whoever reads it.
pub fn refused_deck(refusal: Refusal) -> String {
    format!("SCH ER {}\n", refusal.number())
}

/// Is this card, without its LF, the termination card? `)` in columns 1-8 and 73-80, `+` in 10-22, blanks elsewhere.
pub fn is_termination(card: &[u8]) -> bool {
    let expected = |column| match column {
        1..=8 | 73..=80 => b')',
        10..=22 => b'+',
        _ => b' ',
    };
    card.len() == 80 && card.iter().zip(1..).all(|(&byte, column)| byte == expected(column))
}

/// What became of a deck.
#[derive(Clone, Debug, Default, PartialEq, Eq)]
pub struct Outcome {
    /// The ID shown and the error of each request that was not taken, in deck order.
    pub errors: Vec<(Option<String>, CardError)>,
    /// The ID of the last request that was taken.
    pub last_good: Option<String>,
}

impl Outcome {
    pub fn error_lines(&self) -> String {
        self.errors.iter().map(|(id, error)| error_line(id.as_deref(), *error)).collect()
    }

    pub fn acknowledgement(&self) -> String {
        format!("{} SCH ACK\n", shown(self.last_good.as_deref()))
    }
}

/// Enters the requests of a deck. A card error bars only its own request.
pub fn enter(schedule: &mut Schedule, deck: &[u8]) -> Result<Outcome, Refusal> {
    let cards = cards(deck)?;
    let mut outcome = Outcome::default();
    let mut last_id = None;
    for group in groups(&cards) {
        last_id = card::shown_id(group[0]).or(last_id);
        let entered = Request::read(group).and_then(|request| {
            let id = request.id.clone();
            schedule.enter(request).map(|()| id)
        });
        match entered {
            Ok(id) => outcome.last_good = Some(id),
            Err(error) => outcome.errors.push((last_id.clone(), error)),
        }
    }
    Ok(outcome)
}

/// The cards before the termination card, without their LFs.
pub fn cards(deck: &[u8]) -> Result<Vec<&[u8]>, Refusal> {
    if deck.len() > DECK_LENGTH {
        return Err(Refusal::BadDeck);
    }
    let mut cards = Vec::new();
    for line in deck.split_inclusive(|&byte| byte == b'\n') {
        let card = line.strip_suffix(b"\n").ok_or(Refusal::BadDeck)?;
        if is_termination(card) {
            return Ok(cards);
        }
        cards.push(card);
    }
    Err(Refusal::BadDeck)
}

/// Splits cards before each PTY card; none of the groups is empty.
pub fn groups<'c, 'd>(cards: &'c [&'d [u8]]) -> impl Iterator<Item = &'c [&'d [u8]]> {
    let mut rest = cards;
    std::iter::from_fn(move || {
        let (_, others) = rest.split_first()?;
        let length = 1 + others.iter().position(|card| card::is_pty(card)).unwrap_or(others.len());
        let (group, after) = rest.split_at(length);
        rest = after;
        Some(group)
    })
}

/// What the deck program prints for a deck read into an empty schedule: errors, the schedule in selection order, the
/// last good ID.
pub fn report(deck: &[u8]) -> String {
    let mut schedule = Schedule::default();
    let outcome = match enter(&mut schedule, deck) {
        Ok(outcome) => outcome,
        Err(refusal) => return refused_deck(refusal),
    };
    let line = |request: &Request| format!("{} {}\n", request.id, request.priority);
    let scheduled: String = schedule.requests().iter().map(|scheduled| line(&scheduled.request)).collect();
    outcome.error_lines() + &scheduled + &outcome.acknowledgement()
}

#[cfg(test)]
mod tests {
    use super::*;

    pub const TERMINATION: &str = ")))))))) +++++++++++++                                                  ))))))))\n";

    #[test]
    fn k1_priorities_in_order() {
        let cards =
            "A1,PTY,2,,ECU,,T,PROG,P,02A5,P,3.\nA1,FAC,IB/2,MT1/2.\nB7,PTY,2,,LABEL,,T,PROG,P,A5,C,1.\nB7,FAC,IB/1.\n\
                     D4,PTY,2,,KEY,,T,PROG,P,01A5,C,1.\nD4,FAC,IB/1.\n";
        let deck = format!("{cards}{TERMINATION}");
        assert_eq!(report(deck.as_bytes()), "SP B7 ER 31\nD4 01A05\nA1 02A05\nD4 SCH ACK\n");
    }

    #[test]
    fn length_counts_what_follows_the_termination_card() {
        let mut deck = TERMINATION.as_bytes().to_vec();
        deck.resize(DECK_LENGTH, b'x');
        assert_eq!(report(&deck), "------ SCH ACK\n");
        deck.push(b'x');
        assert_eq!(report(&deck), "SCH ER 11\n");
    }

    #[test]
    fn an_error_leaves_the_suspended_request() {
        let deck = format!(
            "A,PTY,2,S,P,,,M,P,A1,P,1.\nA,FAC,IB/1.\nA,PTY,2,,P,,,M,P,A2,P,1.\nA,FAC,IB/29.\nA,PTY,2,,P,,,M,P,A3,P,1.\nA,FAC,IB/1.\n{TERMINATION}"
        );
        assert_eq!(report(deck.as_bytes()), "SP A ER 14\nA A03\nA SCH ACK\n");
    }
}
