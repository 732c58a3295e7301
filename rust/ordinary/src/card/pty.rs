//! The fields of a PTY card.

use std::ops::RangeInclusive;

use super::{CardError, MixType, Priority, Request, RunType};
use crate::fields::{is_id, is_letter_or_digit, number, strict_fields};

/// The request on a PTY card, without what other cards say, and its card count.
pub fn read_pty(card: &[u8]) -> Result<(Request, u32), CardError> {
    let fields = strict_fields(card).filter(|fields| fields.len() <= 14).ok_or(CardError(17))?;
    // A field of the right length; those left off are empty.
    let field = |number: usize, lengths: RangeInclusive<usize>| {
        let field = fields.get(number - 1).map_or("", String::as_str);
        lengths.contains(&field.len()).then_some(field).ok_or(CardError(if number == 1 { 1 } else { 18 }))
    };
    let content = |good: bool| if good { Ok(()) } else { Err(CardError(17)) };

    let id = field(1, 1..=6)?;
    content(is_id(id))?;
    let count = number(field(3, 1..=2)?, 1..=2).ok_or(CardError(17))?;
    let enters_suspended = match fields.get(3).map_or("", String::as_str) {
        "" => false,
        "S" => true,
        _ => return Err(CardError(28)),
    };
    let program = field(5, 1..=12)?;
    content(is_program(program))?;
    let run_now = field(6, 0..=1)?;
    content(["", "I"].contains(&run_now))?;
    let program_medium = field(7, 0..=1)?;
    content(["", "T", "A", "C"].contains(&program_medium))?;
    let medium = field(8, 1..=6)?;
    content(is_id(medium))?;
    let run_type = match field(9, 1..=1)? {
        "S" => RunType::Serial,
        "P" => RunType::Parallel,
        _ => return Err(CardError(17)),
    };
    let priority = Priority::read(field(10, 1..=5)?).ok_or(CardError(17))?;
    let mix = match field(11, 1..=1)? {
        "P" => MixType::Peripheral,
        "C" => MixType::Compute,
        _ => return Err(CardError(17)),
    };
    let minutes = number(field(12, 1..=4)?, 1..=4).ok_or(CardError(17))?;
    let library_medium = field(13, 0..=1)?;
    content(["", "T", "A", "C", "Z"].contains(&library_medium))?;
    let library = field(14, 0..=6)?;
    content(library.is_empty() || is_id(library))?;

    let request = Request {
        id: id.into(),
        enters_suspended,
        program: program.into(),
        run_now: run_now == "I",
        program_medium: program_medium.chars().next(),
        medium: medium.into(),
        run_type,
        priority,
        mix,
        minutes: minutes as u16,
        library_medium: library_medium.chars().next(),
        library: (!library.is_empty()).then(|| library.into()),
        entries: Vec::new(),
        further: Vec::new(),
    };
    Ok((request, count))
}

/// 1 to 12 letters, digits or hyphens, no hyphen first.
pub fn is_program(text: &str) -> bool {
    (1..=12).contains(&text.len()) && !text.starts_with('-') && text.chars().all(|c| c == '-' || is_letter_or_digit(c))
}
