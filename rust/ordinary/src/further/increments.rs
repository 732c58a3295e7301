//! The increments of a TAL card.

use super::FurtherCard;
use crate::card::CardError;
use crate::fields::{self, is_id, strict_fields};

/// What a table grows by.
#[derive(Clone, Debug, PartialEq, Eq)]
pub struct Increment {
    pub name: String,
    pub number: u32,
}

impl Increment {
    fn read(text: &str) -> Result<Increment, CardError> {
        let (name, number) = text.split_once('/').filter(|(name, _)| is_id(name)).ok_or(CardError(5))?;
        if number.len() > 5 {
            return Err(CardError(6));
        }
        let number = fields::number(number, 1..=5).ok_or(CardError(5))?;
        Ok(Increment { name: name.into(), number })
    }

    pub(super) fn is_good(&self) -> bool {
        is_id(&self.name) && self.number <= 99_999
    }
}

pub fn read_increments(card: &[u8]) -> Result<FurtherCard, CardError> {
    let fields = strict_fields(card).filter(|fields| fields.len() > 2).ok_or(CardError(5))?;
    let increments: Result<_, _> = fields[2..].iter().map(|entry| Increment::read(entry)).collect();
    increments.map(FurtherCard::Increments)
}
