//! The entries of a FAC card.

use super::CardError;
use crate::fields::{number, strict_fields};
use crate::numbers::{Kind, LogicalChannel};

/// The code of a FAC entry, in the order of writing.
#[derive(Clone, Copy, Debug, PartialEq, Eq, PartialOrd, Ord)]
pub enum Code {
    /// blocks of core for instructions
    Ib,
    /// blocks of core for data
    Db,
    /// words of the drum, or units of another kind
    Of(Kind),
}

impl Code {
    fn from_letters(letters: &str) -> Option<Code> {
        match letters {
            "IB" => Some(Code::Ib),
            "DB" => Some(Code::Db),
            _ => Kind::from_letters(letters.as_bytes()).map(Code::Of),
        }
    }

    fn letters(self) -> &'static str {
        match self {
            Code::Ib => "IB",
            Code::Db => "DB",
            Code::Of(kind) => kind.letters(),
        }
    }

    /// The most digits of the entry's n.
    fn digits(self) -> usize {
        match self {
            Code::Of(Kind::Md) => 6,
            _ => 2,
        }
    }

    /// May the entry name a logical channel?
    fn has_logical(self) -> bool {
        matches!(self, Code::Of(kind) if kind != Kind::Md)
    }
}

/// An entry of a FAC card; entries order as they are written.
#[derive(Clone, Copy, Debug, PartialEq, Eq, PartialOrd, Ord)]
pub struct Entry {
    pub code: Code,
    /// 0 where the code has none.
    pub logical: LogicalChannel,
    /// How many blocks, words or units, at least 1.
    pub n: u32,
}

impl Entry {
    fn read(text: &str) -> Result<Entry, CardError> {
        let letters = text.find(|c: char| !c.is_ascii_uppercase()).unwrap_or(text.len());
        let (code, rest) = text.split_at(letters);
        if code.len() > 2 {
            return Err(CardError(9));
        }
        let code = Code::from_letters(code).ok_or(CardError(11))?;
        Entry::read_rest(code, rest).filter(Entry::is_good).ok_or(CardError(13))
    }

    /// What follows the code: an optional logical channel, a slash, n.
    fn read_rest(code: Code, rest: &str) -> Option<Entry> {
        let (logical, n) = rest.split_once('/')?;
        let logical = match logical {
            "" => 0,
            digits if code.has_logical() => number(digits, 1..=2)?,
            _ => return None,
        };
        let n = number(n, 1..=code.digits())?;
        Some(Entry { code, logical: LogicalChannel(logical as u8), n })
    }

    pub(super) fn is_good(&self) -> bool {
        let most = 10_u32.pow(self.code.digits() as u32) - 1;
        let last_logical = if self.code.has_logical() { 15 } else { 0 };
        (1..=most).contains(&self.n) && self.logical.0 <= last_logical
    }

    /// Code and logical channel as they are written, 0 unwritten.
    pub fn name(&self) -> String {
        match self.logical.0 {
            0 => self.code.letters().to_string(),
            logical => format!("{}{logical}", self.code.letters()),
        }
    }
}

/// The entries of a FAC card, in the order of writing.
pub fn read_fac(card: &[u8]) -> Result<Vec<Entry>, CardError> {
    let fields = strict_fields(card).ok_or(CardError(12))?;
    let mut entries: Vec<Entry> = Vec::new();
    for text in &fields[2..] {
        let entry = Entry::read(text)?;
        if entries.iter().any(|earlier| (earlier.code, earlier.logical) == (entry.code, entry.logical)) {
            return Err(CardError(13));
        }
        entries.push(entry);
    }
    entries.sort();
    Ok(entries)
}
