//! Cards as texts: their fields, and what makes a card malformed.

use std::ops::RangeInclusive;

/// The most characters of a card, its LF not counted.
pub const CARD_LENGTH: usize = 80;

/// What the second field of a card says it is.
#[derive(Clone, Copy, Debug, PartialEq, Eq)]
pub enum CardType {
    Pty,
    Fac,
    /// increments to table lengths
    Tal,
    /// facilities that are received and transferred
    Trn,
    /// parameters; `PM` and anything
    Pm,
    Unknown,
}

impl CardType {
    pub fn of(card: &[u8]) -> CardType {
        match loose_field(card, 2).as_deref() {
            Some(b"PTY") => CardType::Pty,
            Some(b"FAC") => CardType::Fac,
            Some(b"TAL") => CardType::Tal,
            Some(b"TRN") => CardType::Trn,
            Some([b'P', b'M', ..]) => CardType::Pm,
            _ => CardType::Unknown,
        }
    }
}

/// A field, counted from 1, of any card, malformed ones too: spaces dropped, up to a comma; a period or the card's end
/// ends all fields.
pub fn loose_field(card: &[u8], number: usize) -> Option<Vec<u8>> {
    let end = card.iter().position(|&byte| byte == b'.').unwrap_or(card.len());
    let field = card[..end].split(|&byte| byte == b',').nth(number - 1)?;
    Some(field.iter().copied().filter(|&byte| byte != b' ').collect())
}

/// The fields of a well-formed card, spaces dropped; `None` if it is malformed. Its first period ends it.
pub fn strict_fields(card: &[u8]) -> Option<Vec<String>> {
    let (content, rest) = card_text(card)?.split_once('.')?;
    is_blank(rest).then(|| content.replace(' ', "").split(',').map(String::from).collect())
}

/// What stands behind a card's second comma, with its spaces; `None` if the card is malformed or has no such comma.
/// Its last period ends it, so the text may have periods.
pub fn text_behind_type(card: &[u8]) -> Option<&str> {
    let (content, rest) = card_text(card)?.rsplit_once('.')?;
    content.splitn(3, ',').nth(2).filter(|_| is_blank(rest))
}

/// A card that is not too long and has card characters alone.
fn card_text(card: &[u8]) -> Option<&str> {
    let card = std::str::from_utf8(card).ok()?;
    (card.len() <= CARD_LENGTH && card.chars().all(is_card_character)).then_some(card)
}

fn is_blank(text: &str) -> bool {
    text.chars().all(|c| c == ' ')
}

pub fn is_card_character(c: char) -> bool {
    is_letter_or_digit(c) || " -/*=:,.".contains(c)
}

pub fn is_letter_or_digit(c: char) -> bool {
    c.is_ascii_uppercase() || c.is_ascii_digit()
}

/// 1 to 6 letters or digits, as IDs and names are formed.
pub fn is_id(text: &str) -> bool {
    (1..=6).contains(&text.len()) && text.chars().all(is_letter_or_digit)
}

/// Decimal digits, this many; leading zeros are allowed.
pub fn number(text: &str, digits: RangeInclusive<usize>) -> Option<u32> {
    let good = digits.contains(&text.len()) && text.bytes().all(|byte| byte.is_ascii_digit());
    good.then(|| text.parse().ok()).flatten()
}

#[cfg(test)]
mod tests {
    use super::*;

    #[test]
    fn types_are_read_loosely() {
        for (card, expected) in [
            (&b"A1,TAL,X/1."[..], CardType::Tal),
            (b" A 1 , T R N", CardType::Trn),
            (b"A1,F AC.,TAL", CardType::Fac),
            (b"\xff,PTY,\x00", CardType::Pty),
            (b"A1,PM", CardType::Pm),
            (b"A1,PM0", CardType::Pm),
            (b"A1,PMTAL", CardType::Pm),
            (b"A1,P", CardType::Unknown),
            (b"A1,pm0,", CardType::Unknown),
            (b"A1,TALS,X/1.", CardType::Unknown),
            (b"A1.,TAL,X/1.", CardType::Unknown),
            (b"A1,TAL\r", CardType::Unknown),
            (b"A1,,TAL", CardType::Unknown),
            (b"TAL", CardType::Unknown),
            (b"", CardType::Unknown),
        ] {
            assert_eq!(CardType::of(card), expected, "{}", String::from_utf8_lossy(card));
        }
    }

    #[test]
    fn the_text_goes_from_the_second_comma_to_the_last_period() {
        for (card, expected) in [
            ("A1,PM0,TEXT.", Some("TEXT")),
            ("A1,PM0,.", Some("")),
            ("A1,PM0,...", Some("..")),
            ("A1,PM0, A , B. C.  ", Some(" A , B. C")),
            ("A1,PM0.,TEXT.", Some("TEXT")),
            ("A1,PM0.A,B.", Some("B")),
            ("A1,PM0.", None),
            ("A1,PM0.,", None),
            ("A1,PM0,TEXT", None),
            ("A1,PM0,TEXT. X", None),
            ("A1,PM0,TEXT.\r", None),
            ("A1,PM0,text.", None),
            ("", None),
        ] {
            assert_eq!(text_behind_type(card.as_bytes()), expected, "{card}");
        }
    }

    #[test]
    fn eighty_characters() {
        for (blanks, good) in [(68, true), (69, false)] {
            let card = format!("A1,TAL,X/10.{}", " ".repeat(blanks));
            assert_eq!(strict_fields(card.as_bytes()).is_some(), good);
            assert_eq!(text_behind_type(card.as_bytes()).is_some(), good);
        }
    }
}
