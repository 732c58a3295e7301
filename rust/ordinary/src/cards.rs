//! What was read of a deck, written again: the cards program. It has no schedule and no cell.

use crate::card::{self, Request, MOST_CARDS};
use crate::deck;
use crate::fields::CARD_LENGTH;
use crate::further;
use crate::numbers::Refusal;

/// What the program prints for a deck: each group's cards as they are written and its parameter table, or its error.
pub fn report(deck: &[u8]) -> String {
    let cards = match deck::cards(deck) {
        Ok(cards) => cards,
        Err(refusal) => return deck::refused_deck(refusal),
    };
    let mut report = String::new();
    let mut last_id = None;
    for group in deck::groups(&cards) {
        last_id = card::shown_id(group[0]).or(last_id);
        report += &match Request::read(group) {
            Ok(request) => taken(last_id.as_deref(), &request),
            Err(error) => deck::error_line(last_id.as_deref(), error),
        };
    }
    report + "END OF CARDS\n"
}

/// The lines of a request that was read.
fn taken(id: Option<&str>, request: &Request) -> String {
    match written(request) {
        Ok(cards) => cards + &table(request),
        Err(refusal) => format!("SP {} NO {}\n", deck::shown(id), refusal.number()),
    }
}

fn written(request: &Request) -> Result<String, Refusal> {
    let mut room = [0; MOST_CARDS * (CARD_LENGTH + 1)];
    let length = request.write(&mut room)?;
    Ok(String::from_utf8_lossy(&room[..length]).into())
}

/// How long the parameter table is, and its rows behind `=`; nothing where there is none.
fn table(request: &Request) -> String {
    let rows = further::parameter_table(&request.further);
    if rows.is_empty() {
        return String::new();
    }
    let length: usize = rows.iter().map(String::len).sum();
    let rows: String = rows.iter().map(|row| format!("={row}\n")).collect();
    format!("PMT {length}\n{rows}")
}
