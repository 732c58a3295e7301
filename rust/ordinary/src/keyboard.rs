//! Keyboard messages: what an operator types, read into a call on the cell, and how the answer is shown.

use std::fmt;

use crate::numbers::Refusal;

/// The highest channel and unit that a message may name, configured or not: our cell ends there.
const LAST: u32 = 15;

/// The message words that are known.
#[derive(Clone, Copy, Debug, PartialEq, Eq)]
pub enum Word {
    /// Sets the down mark of a unit.
    Dwn,
    /// Clears it.
    Avl,
    /// Releases a suspended request.
    Sel,
    /// Deletes a request.
    Del,
}

impl Word {
    fn from_letters(letters: &[u8]) -> Option<Word> {
        match letters {
            b"DWN" => Some(Word::Dwn),
            b"AVL" => Some(Word::Avl),
            b"SEL" => Some(Word::Sel),
            b"DEL" => Some(Word::Del),
            _ => None,
        }
    }

    fn letters(self) -> &'static str {
        match self {
            Word::Dwn => "DWN",
            Word::Avl => "AVL",
            Word::Sel => "SEL",
            Word::Del => "DEL",
        }
    }

    /// How many fields its messages have.
    fn field_count(self) -> usize {
        match self {
            Word::Dwn | Word::Avl => 2,
            Word::Sel | Word::Del => 1,
        }
    }

    /// The call of a message with these fields. The first that is wrong answers, so each is looked at to its end before
    /// the next.
    fn call(self, fields: &[&[u8]]) -> Result<Call, FieldError> {
        match self {
            Word::Dwn => down_mark(fields, true),
            Word::Avl => down_mark(fields, false),
            Word::Sel => Ok(Call::Release(id(fields)?)),
            Word::Del => Ok(Call::Delete(id(fields)?)),
        }
    }
}

/// What a message asks of the cell; each is a call that the cell has without it.
#[derive(Clone, Debug, PartialEq, Eq)]
pub enum Call {
    Down { channel: u32, unit: u32, on: bool },
    Release(String),
    Delete(String),
}

/// What is wrong with a field, with the numbers of the bulletin's common errors. They are not those of refusals.
#[derive(Clone, Copy, Debug, PartialEq, Eq)]
#[repr(u8)]
pub enum FieldError {
    /// A field of no length: missing, without its letter, or with nothing behind it.
    NoLength = 1,
    UnitTooLarge = 5,
    /// A nondigit in a number.
    Nondigit = 10,
    ChannelTooLarge = 12,
}

/// Why a message is not done.
#[derive(Clone, Copy, Debug, PartialEq, Eq)]
pub enum Error {
    Field(FieldError),
    /// Unknown, or refused by its call.
    Refused(Refusal),
}

impl Error {
    /// The number that is shown.
    pub fn number(self) -> u8 {
        match self {
            Error::Field(error) => error as u8,
            // The bulletin's number for a channel or unit that is not there; its 1 is a field of no length.
            Error::Refused(Refusal::OutOfRange) => 31,
            Error::Refused(refusal) => refusal.number(),
        }
    }
}

/// A message as it was read.
#[derive(Clone, Debug, PartialEq, Eq)]
pub struct Message {
    /// None of an unknown message.
    pub word: Option<Word>,
    pub call: Result<Call, Error>,
}

impl Message {
    /// Reads a message of any bytes. Spaces alone part its words: a tab, a CR and a NUL are text.
    pub fn read(message: &[u8]) -> Message {
        let words: Vec<&[u8]> = message.split(|&byte| byte == b' ').filter(|word| !word.is_empty()).collect();
        match known(&words) {
            Some((word, fields)) => Message { word: Some(word), call: word.call(fields).map_err(Error::Field) },
            None => Message { word: None, call: Err(Error::Refused(Refusal::UnknownMessage)) },
        }
    }
}

/// The word and the fields of a message, unless its word is unknown or text stands after its last field.
fn known<'w, 'm>(words: &'w [&'m [u8]]) -> Option<(Word, &'w [&'m [u8]])> {
    let (first, fields) = words.split_first()?;
    let word = Word::from_letters(first)?;
    (fields.len() <= word.field_count()).then_some((word, fields))
}

/// The call of `Ccc Uuu`.
fn down_mark(fields: &[&[u8]], on: bool) -> Result<Call, FieldError> {
    let channel = number(fields.first(), b'C', FieldError::ChannelTooLarge)?;
    let unit = number(fields.get(1), b'U', FieldError::UnitTooLarge)?;
    Ok(Call::Down { channel, unit, on })
}

/// The number behind the letter of a field.
fn number(field: Option<&&[u8]>, letter: u8, too_large: FieldError) -> Result<u32, FieldError> {
    let digits = field.and_then(|field| field.strip_prefix(&[letter])).unwrap_or_default();
    if digits.is_empty() {
        return Err(FieldError::NoLength);
    }
    if !digits.iter().all(u8::is_ascii_digit) {
        return Err(FieldError::Nondigit);
    }
    let number = value(digits);
    if number > LAST {
        return Err(too_large);
    }
    Ok(number)
}

/// The value of digits, however many there are: what is too much for a number stays at the largest one.
fn value(digits: &[u8]) -> u32 {
    digits.iter().fold(0u32, |value, digit| value.saturating_mul(10).saturating_add(u32::from(digit - b'0')))
}

/// The ID that a message names. A word that is no ID is simply in no schedule.
fn id(fields: &[&[u8]]) -> Result<String, FieldError> {
    let id = fields.first().ok_or(FieldError::NoLength)?;
    Ok(String::from_utf8_lossy(id).into())
}

/// What is answered to a message.
#[derive(Clone, Copy, Debug, PartialEq, Eq)]
pub struct Answer {
    /// None of an unknown message.
    pub word: Option<Word>,
    pub outcome: Result<(), Error>,
}

impl fmt::Display for Answer {
    fn fmt(&self, f: &mut fmt::Formatter) -> fmt::Result {
        let word = self.word.map_or("---", Word::letters);
        match self.outcome {
            Ok(()) => write!(f, "{word} ACK"),
            Err(error) => write!(f, "{word} {} IN ER", error.number()),
        }
    }
}

#[cfg(test)]
mod tests;
