//! The receiving count and the transfers of a TRN card.

use super::FurtherCard;
use crate::card::CardError;
use crate::fields::{self, is_id, strict_fields};

/// A facility that another job gets.
#[derive(Clone, Debug, PartialEq, Eq)]
pub struct Transfer {
    /// What this program calls it.
    pub name: String,
    pub facility: FacilityType,
    pub successor: Successor,
    /// What the receiving program calls it.
    pub name_there: String,
}

/// The facility types of a TRN card.
#[derive(Clone, Copy, Debug, PartialEq, Eq)]
pub enum FacilityType {
    /// `D`
    Drum,
    /// `T`: a tape, after rewinding.
    Tape,
    /// `N`: a tape without rewinding, or another unit.
    NoRewind,
    /// `*T`: reserved when it is released at last.
    ReservedTape,
    /// `*N`: the same.
    ReservedNoRewind,
}

impl FacilityType {
    const ALL: [FacilityType; 5] = [
        FacilityType::Drum,
        FacilityType::Tape,
        FacilityType::NoRewind,
        FacilityType::ReservedTape,
        FacilityType::ReservedNoRewind,
    ];

    fn letters(self) -> &'static str {
        match self {
            FacilityType::Drum => "D",
            FacilityType::Tape => "T",
            FacilityType::NoRewind => "N",
            FacilityType::ReservedTape => "*T",
            FacilityType::ReservedNoRewind => "*N",
        }
    }

    fn read(text: &str) -> Option<FacilityType> {
        FacilityType::ALL.into_iter().find(|facility| facility.letters() == text)
    }
}

/// Who gets a facility.
#[derive(Clone, Debug, PartialEq, Eq)]
pub enum Successor {
    /// The request with this ID, in the schedule or not.
    Request(String),
    /// `*REQ`: the executive, which finds job requests there.
    JobRequests,
    /// `*PLB`: the executive, which finds a program library there.
    ProgramLibrary,
}

impl Successor {
    fn read(text: &str) -> Option<Successor> {
        match text {
            "*REQ" => Some(Successor::JobRequests),
            "*PLB" => Some(Successor::ProgramLibrary),
            _ => is_id(text).then(|| Successor::Request(text.into())),
        }
    }

    fn text(&self) -> &str {
        match self {
            Successor::Request(id) => id,
            Successor::JobRequests => "*REQ",
            Successor::ProgramLibrary => "*PLB",
        }
    }

    fn is_good(&self) -> bool {
        match self {
            Successor::Request(id) => is_id(id),
            Successor::JobRequests | Successor::ProgramLibrary => true,
        }
    }
}

impl Transfer {
    fn read(text: &str) -> Result<Transfer, CardError> {
        let mut parts = text.split('/');
        let mut part = |longest: usize| match parts.next() {
            Some(part) if part.len() > longest => Err(CardError(8)),
            part => part.ok_or(CardError(7)),
        };
        let name = read_name(part(6)?)?;
        let facility = FacilityType::read(part(2)?).ok_or(CardError(7))?;
        let successor = Successor::read(part(6)?).ok_or(CardError(7))?;
        let name_there = read_name(part(6)?)?;
        if parts.next().is_some() {
            return Err(CardError(7));
        }
        Ok(Transfer { name, facility, successor, name_there })
    }

    pub(super) fn is_good(&self) -> bool {
        is_id(&self.name) && self.successor.is_good() && is_id(&self.name_there)
    }

    pub(super) fn text(&self) -> String {
        [&self.name, self.facility.letters(), self.successor.text(), &self.name_there].join("/")
    }
}

/// `is_counted` says whether an earlier card of the group has a receiving count.
pub fn read_transfers(card: &[u8], is_counted: bool) -> Result<FurtherCard, CardError> {
    let fields = strict_fields(card).filter(|fields| fields.len() > 2).ok_or(CardError(7))?;
    let mut rest = &fields[2..];
    let mut count = None;
    // What has no slash in the first place is the count, and nowhere else.
    if !rest[0].contains('/') {
        count = Some(read_count(&rest[0], is_counted)?);
        rest = &rest[1..];
    }
    let transfers: Result<_, _> = rest.iter().map(|field| Transfer::read(field)).collect();
    Ok(FurtherCard::Transfers { count, transfers: transfers? })
}

fn read_count(text: &str, is_counted: bool) -> Result<u8, CardError> {
    if text.len() > 2 {
        return Err(CardError(8));
    }
    let count = fields::number(text, 1..=2).filter(|_| !is_counted).ok_or(CardError(7))?;
    Ok(count as u8)
}

fn read_name(text: &str) -> Result<String, CardError> {
    is_id(text).then(|| text.into()).ok_or(CardError(7))
}
