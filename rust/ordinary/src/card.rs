//! Job requests on cards: reading a group of cards, and writing a request.

use std::collections::BTreeSet;

use crate::fields::{is_id, loose_field, CardType, CARD_LENGTH};
use crate::further::{self, FurtherCard, TypedCard};
use crate::numbers::{Kind, Refusal};
use entry::read_fac;
use pty::{is_program, read_pty};

mod entry;
mod priority;
mod pty;
#[cfg(test)]
mod tests;

pub use entry::{Code, Entry};
pub use priority::Priority;

/// The most cards of a request, PTY and FAC among them.
pub const MOST_CARDS: usize = 16;
/// The number of assignable core blocks.
pub const CORE_BLOCKS: u32 = 28;

/// Why a request on cards is not taken, with the requirements' number.
#[derive(Clone, Copy, Debug, PartialEq, Eq)]
pub struct CardError(pub u8);

/// May the job run beside others?
#[derive(Clone, Copy, Debug, PartialEq, Eq)]
pub enum RunType {
    /// `S`: it runs alone.
    Serial,
    /// `P`
    Parallel,
}

/// What limits the program.
#[derive(Clone, Copy, Debug, PartialEq, Eq)]
pub enum MixType {
    /// `P`
    Peripheral,
    /// `C`
    Compute,
}

/// A job request. Its entries are in the order of writing, whatever the order on the card was.
#[derive(Clone, Debug, PartialEq, Eq)]
pub struct Request {
    pub id: String,
    /// RUSH is S.
    pub enters_suspended: bool,
    pub program: String,
    /// Field 6, `I`.
    pub run_now: bool,
    /// Field 7: T, A or C.
    pub program_medium: Option<char>,
    pub medium: String,
    pub run_type: RunType,
    pub priority: Priority,
    pub mix: MixType,
    pub minutes: u16,
    /// Field 13: T, A, C or Z.
    pub library_medium: Option<char>,
    pub library: Option<String>,
    pub entries: Vec<Entry>,
    /// TAL, TRN and PM cards as they are divided and ordered. The table that PM cards fill may be equal where these are
    /// not.
    pub further: Vec<FurtherCard>,
}

impl Request {
    /// n of the entry with this code, 0 if there is none. For a kind of unit that of logical channel 0.
    pub fn asked(&self, code: Code) -> u32 {
        let entry = self.entries.iter().find(|entry| entry.code == code && entry.logical.0 == 0);
        entry.map_or(0, |entry| entry.n)
    }

    /// The entries of a kind of unit, ascending by logical channel.
    pub fn units(&self, kind: Kind) -> impl Iterator<Item = Entry> + '_ {
        self.entries.iter().copied().filter(move |entry| entry.code == Code::Of(kind))
    }

    /// Reads a group of cards, each without its LF. The first error answers.
    pub fn read(cards: &[&[u8]]) -> Result<Request, CardError> {
        let &[pty, ref others @ ..] = cards else { return Err(CardError(25)) };
        if !is_pty(pty) {
            return Err(CardError(25));
        }
        let (mut request, count) = read_pty(pty)?;
        if cards.len() > MOST_CARDS || count as usize != cards.len() {
            return Err(CardError(20));
        }
        let &[fac, ref further @ ..] = others else { return Err(CardError(28)) };
        if CardType::of(fac) != CardType::Fac {
            return Err(CardError(28));
        }
        let further: Vec<TypedCard> = further.iter().map(|card| (CardType::of(card), *card)).collect();
        if further.iter().any(|(card_type, _)| *card_type == CardType::Fac) {
            return Err(CardError(22));
        }
        if !further.iter().all(|(card_type, _)| matches!(card_type, CardType::Tal | CardType::Trn | CardType::Pm)) {
            return Err(CardError(3));
        }
        if others.iter().any(|card| loose_field(card, 1).as_deref() != Some(request.id.as_bytes())) {
            return Err(CardError(25));
        }
        further::check_order(&further)?;
        request.entries = read_fac(fac)?;
        let core = request.asked(Code::Ib) + request.asked(Code::Db);
        if core > CORE_BLOCKS {
            return Err(CardError(14));
        }
        if request.asked(Code::Ib) == 0 {
            return Err(CardError(27));
        }
        request.further = further::read(&further)?;
        Ok(request)
    }

    /// Writes all cards, each with its LF, into the front of `room` and answers their length. A refusal leaves `room`
    /// as it was.
    pub fn write(&self, room: &mut [u8]) -> Result<usize, Refusal> {
        if !self.is_good() {
            return Err(Refusal::BadRequest);
        }
        let further = self.further.iter().map(|card| card.text(&self.id));
        let cards: Vec<String> = [self.pty_card(), self.fac_card()].into_iter().chain(further).collect();
        if cards.iter().any(|card| card.len() > CARD_LENGTH) {
            return Err(Refusal::NoRoom);
        }
        let text: String = cards.iter().map(|card| format!("{card}\n")).collect();
        let room = room.get_mut(..text.len()).ok_or(Refusal::NoRoom)?;
        room.copy_from_slice(text.as_bytes());
        Ok(text.len())
    }

    /// How many cards the request has.
    fn card_count(&self) -> usize {
        2 + self.further.len()
    }

    fn is_good(&self) -> bool {
        let one_of = |letter: Option<char>, letters: &str| letter.is_none_or(|letter| letters.contains(letter));
        let different: BTreeSet<_> = self.entries.iter().map(|entry| (entry.code, entry.logical)).collect();
        is_id(&self.id)
            && is_program(&self.program)
            && one_of(self.program_medium, "TAC")
            && is_id(&self.medium)
            && self.priority.is_good()
            && self.minutes <= 9999
            && one_of(self.library_medium, "TACZ")
            && self.library.as_deref().is_none_or(is_id)
            && self.entries.iter().all(Entry::is_good)
            && different.len() == self.entries.len()
            && self.asked(Code::Ib) >= 1
            && self.asked(Code::Ib) + self.asked(Code::Db) <= CORE_BLOCKS
            && self.card_count() <= MOST_CARDS
            && further::are_good(&self.further)
    }

    fn pty_card(&self) -> String {
        let letter = |letter: Option<char>| letter.map_or(String::new(), String::from);
        let fields = [
            self.id.clone(),
            "PTY".into(),
            self.card_count().to_string(),
            if self.enters_suspended { "S" } else { "" }.into(),
            self.program.clone(),
            if self.run_now { "I" } else { "" }.into(),
            letter(self.program_medium),
            self.medium.clone(),
            match self.run_type {
                RunType::Serial => "S",
                RunType::Parallel => "P",
            }
            .into(),
            self.priority.to_string(),
            match self.mix {
                MixType::Peripheral => "P",
                MixType::Compute => "C",
            }
            .into(),
            self.minutes.to_string(),
            letter(self.library_medium),
            self.library.clone().unwrap_or_default(),
        ];
        let card = fields.join(",");
        format!("{}.", card.trim_end_matches(','))
    }

    fn fac_card(&self) -> String {
        let mut entries = self.entries.clone();
        entries.sort();
        let mut card = format!("{},FAC", self.id);
        for entry in entries {
            card += &format!(",{}/{}", entry.name(), entry.n);
        }
        card + "."
    }
}

/// Does this card open a group?
pub fn is_pty(card: &[u8]) -> bool {
    CardType::of(card) == CardType::Pty
}

/// The ID on a group's PTY card if it is well formed, whatever else is wrong with the card.
pub fn shown_id(card: &[u8]) -> Option<String> {
    let id = String::from_utf8(loose_field(card, 1)?).ok()?;
    (is_pty(card) && is_id(&id)).then_some(id)
}
