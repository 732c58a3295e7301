//! The cards that may follow FAC: TAL, TRN and PM0 to PM9. Nothing in the cell goes by them yet.

use crate::card::CardError;
use crate::fields::{self, is_card_character, loose_field, CardType};
use increments::read_increments;
use transfers::read_transfers;

mod increments;
mod transfers;

pub use increments::Increment;
pub use transfers::{FacilityType, Successor, Transfer};

/// The most characters of a parameter card's text, and a row of the parameter table.
pub const TEXT_LENGTH: usize = 66;

/// A card behind FAC.
#[derive(Clone, Debug, PartialEq, Eq)]
pub enum FurtherCard {
    /// TAL: at least one increment.
    Increments(Vec<Increment>),
    /// TRN: a receiving count, transfers, or both.
    Transfers { count: Option<u8>, transfers: Vec<Transfer> },
    /// PM and a digit: up to 66 characters as they stand, blanks too.
    Parameters { digit: u8, text: String },
}

/// A card with its type.
pub type TypedCard<'d> = (CardType, &'d [u8]);

/// The errors that are looked for in all further cards before the content of any, FAC's too: 30, 4, 23 and 24.
pub fn check_order(cards: &[TypedCard]) -> Result<(), CardError> {
    let parameter_cards = || cards.iter().filter(|(card_type, _)| *card_type == CardType::Pm).map(|(_, card)| *card);
    let digits: Vec<Option<u8>> = parameter_cards().map(pm_digit).collect();
    if digits.contains(&None) {
        return Err(CardError(30));
    }
    let are_rising = digits.is_sorted_by(|earlier, later| earlier < later);
    let are_good = parameter_cards().all(|card| read_parameters(card).is_ok());
    if !(are_together(cards, CardType::Pm) && are_good && are_rising) {
        return Err(CardError(4));
    }
    if !are_together(cards, CardType::Tal) {
        return Err(CardError(23));
    }
    if !are_together(cards, CardType::Trn) {
        return Err(CardError(24));
    }
    Ok(())
}

/// Does no other card stand between two of this type?
fn are_together(cards: &[TypedCard], card_type: CardType) -> bool {
    let is_one = |card: &&TypedCard| card.0 == card_type;
    !cards.iter().skip_while(|card| !is_one(card)).skip_while(is_one).any(|card| is_one(&card))
}

/// Reads the further cards of a group, in their order. The first card with an error answers.
pub fn read(cards: &[TypedCard]) -> Result<Vec<FurtherCard>, CardError> {
    let mut further = Vec::new();
    for (card_type, card) in cards {
        let is_counted = further.iter().any(FurtherCard::has_count);
        further.push(match card_type {
            CardType::Tal => read_increments(card)?,
            CardType::Trn => read_transfers(card, is_counted)?,
            CardType::Pm => read_parameters(card)?,
            CardType::Pty | CardType::Fac | CardType::Unknown => return Err(CardError(3)),
        });
    }
    Ok(further)
}

fn read_parameters(card: &[u8]) -> Result<FurtherCard, CardError> {
    let digit = pm_digit(card).ok_or(CardError(30))?;
    let text = fields::text_behind_type(card).filter(|text| text.len() <= TEXT_LENGTH).ok_or(CardError(4))?;
    Ok(FurtherCard::Parameters { digit, text: text.into() })
}

/// The digit of a card whose type is `PM` and one digit.
fn pm_digit(card: &[u8]) -> Option<u8> {
    match loose_field(card, 2)?[..] {
        [b'P', b'M', digit @ b'0'..=b'9'] => Some(digit - b'0'),
        _ => None,
    }
}

impl FurtherCard {
    fn has_count(&self) -> bool {
        matches!(self, FurtherCard::Transfers { count: Some(_), .. })
    }

    fn digit(&self) -> Option<u8> {
        match self {
            FurtherCard::Parameters { digit, .. } => Some(*digit),
            _ => None,
        }
    }

    fn is_good(&self) -> bool {
        match self {
            FurtherCard::Increments(increments) => !increments.is_empty() && increments.iter().all(Increment::is_good),
            FurtherCard::Transfers { count, transfers } => {
                count.is_none_or(|count| count <= 99)
                    && (count.is_some() || !transfers.is_empty())
                    && transfers.iter().all(Transfer::is_good)
            }
            FurtherCard::Parameters { digit, text } => {
                *digit <= 9 && text.len() <= TEXT_LENGTH && text.chars().all(is_card_character)
            }
        }
    }

    /// The card of a request with this ID, as it is written.
    pub fn text(&self, id: &str) -> String {
        let fields: Vec<String> = match self {
            FurtherCard::Increments(increments) => {
                let entry = |Increment { name, number }: &Increment| format!("{name}/{number}");
                ["TAL".into()].into_iter().chain(increments.iter().map(entry)).collect()
            }
            FurtherCard::Transfers { count, transfers } => {
                let count = count.map(|count| count.to_string());
                ["TRN".into()].into_iter().chain(count).chain(transfers.iter().map(Transfer::text)).collect()
            }
            FurtherCard::Parameters { digit, text } => vec![format!("PM{digit}"), text.clone()],
        };
        format!("{id},{}.", fields.join(","))
    }
}

/// Can cards hold these, in this order?
pub fn are_good(cards: &[FurtherCard]) -> bool {
    let digits: Vec<u8> = cards.iter().filter_map(FurtherCard::digit).collect();
    // Each type that comes begins once.
    let mut runs: Vec<_> = cards.iter().map(std::mem::discriminant).collect();
    runs.dedup();
    let all_begin_once = runs.iter().all(|run| runs.iter().filter(|other| *other == run).count() == 1);
    cards.iter().all(FurtherCard::is_good)
        && all_begin_once
        && digits.is_sorted_by(|earlier, later| earlier < later)
        && cards.iter().filter(|card| card.has_count()).count() <= 1
}

/// The parameter table, a row of 66 characters for each digit up to the highest; no row without parameter cards.
pub fn parameter_table(cards: &[FurtherCard]) -> Vec<String> {
    let rows = cards.iter().filter_map(FurtherCard::digit).max().map_or(0, |highest| usize::from(highest) + 1);
    let mut table = vec![" ".repeat(TEXT_LENGTH); rows];
    for card in cards {
        if let FurtherCard::Parameters { digit, text } = card {
            table[usize::from(*digit)] = format!("{text:<TEXT_LENGTH$}");
        }
    }
    table
}
