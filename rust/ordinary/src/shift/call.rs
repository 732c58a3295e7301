//! The call of a line.

use crate::cell::{Completion, End, Mark, Submission};

/// A line that is a call, but `DECK`.
#[derive(Clone, Debug)]
pub enum Call {
    Select,
    Submit(Submission),
    Start(u32),
    Complete(u32, Completion),
    Return { place: u32, channel: u32, unit: u32 },
    End(u32, End),
    Mark { channel: u32, unit: u32, mark: Mark, on: bool },
    Release(String),
    Delete(String),
    Keyboard(Vec<u8>),
    Status(u32, u32),
    Board,
}

impl Call {
    /// The call of a line that has exactly the words and numbers of one.
    pub fn read(line: &[u8]) -> Option<Call> {
        // The rule of single spaces does not hold in a message.
        if let Some(message) = key_message(line) {
            return Some(Call::Keyboard(message.to_vec()));
        }
        let words: Vec<&[u8]> = line.split(|&byte| byte == b' ').collect();
        if words.iter().any(|word| word.is_empty()) {
            return None;
        }
        let n = |word| number(word, 10);
        let octal = |word| number(word, 8);
        let mark = |channel, unit, mark, on| Some(Call::Mark { channel: n(channel)?, unit: n(unit)?, mark, on });
        Some(match words[..] {
            [b"SELECT"] => Call::Select,
            [b"SUBMIT", place, packet, function, channel, x, ref h @ ..] if h.len() <= 1 => Call::Submit(Submission {
                place: n(place)?,
                packet: n(packet)?,
                function: octal(function)?,
                channel: n(channel)?,
                x: n(x)?,
                h: n(h.first().unwrap_or(&&b"0"[..]))?,
            }),
            [b"START", channel] => Call::Start(n(channel)?),
            [b"DONE", channel] => Call::Complete(n(channel)?, Completion::Full),
            [b"CUT", channel] => Call::Complete(n(channel)?, Completion::Cut),
            [b"FAIL", channel, code] => Call::Complete(n(channel)?, Completion::Failed(octal(code)?)),
            [b"RETURN", place, channel, unit] => {
                Call::Return { place: n(place)?, channel: n(channel)?, unit: n(unit)? }
            }
            [b"END", place] => Call::End(n(place)?, End::Normal),
            [b"ABORT", place] => Call::End(n(place)?, End::InError),
            [b"DOWN", channel, unit] => mark(channel, unit, Mark::Down, true)?,
            [b"UP", channel, unit] => mark(channel, unit, Mark::Down, false)?,
            [b"RESERVE", channel, unit] => mark(channel, unit, Mark::Reserved, true)?,
            [b"UNRESERVE", channel, unit] => mark(channel, unit, Mark::Reserved, false)?,
            // A word that is no ID is simply in no schedule.
            [b"RELEASE", id] => Call::Release(String::from_utf8_lossy(id).into()),
            [b"DELETE", id] => Call::Delete(String::from_utf8_lossy(id).into()),
            [b"STATUS", place, packet] => Call::Status(n(place)?, n(packet)?),
            [b"BOARD"] => Call::Board,
            _ => return None,
        })
    }
}

/// The message of a `KEY` line: all that stands behind `KEY` and one space. `KEY` alone has the empty message.
fn key_message(line: &[u8]) -> Option<&[u8]> {
    match line.strip_prefix(b"KEY")? {
        [] => Some(b""),
        [b' ', message @ ..] => Some(message),
        _ => None,
    }
}

/// One to nine digits of the base, leading zeros allowed.
fn number(word: &[u8], base: u32) -> Option<u32> {
    let is_digit = |byte: &u8| char::from(*byte).is_digit(base);
    if !(1..=9).contains(&word.len()) || !word.iter().all(is_digit) {
        return None;
    }
    Some(word.iter().fold(0, |number, digit| number * base + u32::from(digit - b'0')))
}
