//! Sequence, letter and precedence of a request.

use std::fmt;

use crate::fields::number;

/// Sequence, letter and precedence of a request.
#[derive(Clone, Copy, Debug, PartialEq, Eq)]
pub struct Priority {
    /// 1 to 63, or 0 for none.
    pub sequence: u8,
    pub letter: char,
    pub precedence: u8,
}

impl Priority {
    /// The order of selection: letter A first, then lower precedence, then lower sequence.
    pub fn key(self) -> (char, u8, u8) {
        (self.letter, self.precedence, self.sequence)
    }

    /// Same letter and precedence?
    pub fn is_beside(self, other: Priority) -> bool {
        (self.letter, self.precedence) == (other.letter, other.precedence)
    }

    pub(super) fn is_good(self) -> bool {
        self.sequence <= 63
            && self.letter.is_ascii_uppercase()
            && self.precedence <= 63
            && (self.letter, self.precedence) != ('Z', 63)
    }

    /// An optional two-digit sequence 01-63, a letter, an optional precedence 0-63 of one or two digits.
    pub(super) fn read(text: &str) -> Option<Priority> {
        let at = text.find(|c: char| c.is_ascii_uppercase())?;
        let (sequence, rest) = text.split_at(at);
        let (letter, precedence) = rest.split_at(1);
        let sequence = match sequence {
            "" => 0,
            digits => number(digits, 2..=2).filter(|&sequence| sequence >= 1)?,
        };
        let precedence = match precedence {
            "" => 63,
            digits => number(digits, 1..=2)?,
        };
        let priority =
            Priority { sequence: sequence as u8, letter: letter.chars().next()?, precedence: precedence as u8 };
        priority.is_good().then_some(priority)
    }
}

impl fmt::Display for Priority {
    fn fmt(&self, f: &mut fmt::Formatter) -> fmt::Result {
        if self.sequence > 0 {
            write!(f, "{:02}", self.sequence)?;
        }
        write!(f, "{}{:02}", self.letter, self.precedence)
    }
}
