//! Kinds, numbers and refusals that every part uses.

/// A channel of the cell, 0 to 15.
#[derive(Clone, Copy, Debug, PartialEq, Eq, PartialOrd, Ord)]
pub struct ChannelNumber(pub u8);

/// A unit on its channel, 0 to 15.
#[derive(Clone, Copy, Debug, PartialEq, Eq, PartialOrd, Ord)]
pub struct UnitNumber(pub u8);

/// A logical channel on a FAC card, 0 to 15; 0 ties the units to no channel.
#[derive(Clone, Copy, Debug, PartialEq, Eq, PartialOrd, Ord)]
pub struct LogicalChannel(pub u8);

impl ChannelNumber {
    pub fn all() -> impl Iterator<Item = ChannelNumber> {
        (0..16).map(ChannelNumber)
    }

    pub fn index(self) -> usize {
        usize::from(self.0)
    }
}

impl UnitNumber {
    pub fn index(self) -> usize {
        usize::from(self.0)
    }
}

/// What a channel has; the order is that of entries on a written card.
#[derive(Clone, Copy, Debug, PartialEq, Eq, PartialOrd, Ord)]
pub enum Kind {
    /// drum
    Md,
    /// UNISERVO IIA
    Ma,
    /// UNISERVO IIIA
    Mt,
    /// printer
    Pr,
    /// UNISERVO IIIC
    Mc,
    /// card equipment: reader and punch together
    Cr,
    /// paper tape equipment: reader and punch together
    Pt,
}

impl Kind {
    /// The kinds that have units, in the order in which they are written, assigned and found lacking.
    pub const WITH_UNITS: [Kind; 6] = [Kind::Ma, Kind::Mt, Kind::Pr, Kind::Mc, Kind::Cr, Kind::Pt];

    pub fn from_letters(letters: &[u8]) -> Option<Kind> {
        match letters {
            b"MD" => Some(Kind::Md),
            b"MA" => Some(Kind::Ma),
            b"MT" => Some(Kind::Mt),
            b"PR" => Some(Kind::Pr),
            b"MC" => Some(Kind::Mc),
            b"CR" => Some(Kind::Cr),
            b"PT" => Some(Kind::Pt),
            _ => None,
        }
    }

    pub fn letters(self) -> &'static str {
        match self {
            Kind::Md => "MD",
            Kind::Ma => "MA",
            Kind::Mt => "MT",
            Kind::Pr => "PR",
            Kind::Mc => "MC",
            Kind::Cr => "CR",
            Kind::Pt => "PT",
        }
    }
}

/// Why a call is refused, with the requirements' numbers. There is no 10 any more: 18, 19 and 20 say what it was.
#[derive(Clone, Copy, Debug, PartialEq, Eq, PartialOrd, Ord)]
#[repr(u8)]
pub enum Refusal {
    /// A place, channel, unit, packet or function number out of range, or a channel or unit not configured.
    OutOfRange = 1,
    /// No job in that place, or it is closing.
    NoJob = 2,
    /// The unit or drum address is not the job's.
    NotTheJobs = 3,
    /// The function is not legal for the kind.
    IllegalFunction = 4,
    /// The packet is listed, in progress or stopping.
    PacketInUse = 5,
    ChannelBusy = 6,
    NothingStartable = 7,
    NothingInProgress = 8,
    /// Cut for a packet that is not stopping, or a failure code that is none.
    BadCompletion = 9,
    /// A deck that is too long or has no termination card.
    BadDeck = 11,
    /// A card over 80 characters, or too little room for it.
    NoRoom = 12,
    /// A request that no cards can hold.
    BadRequest = 13,
    BadConfiguration = 14,
    /// No such ID, or for release not suspended.
    NoSuchRequest = 15,
    /// The request to delete runs or closes.
    RequestRuns = 16,
    /// An unknown message word, or text after the message's last field.
    UnknownMessage = 17,
    /// A selection with all places held.
    NoPlace = 18,
    /// A selection with a place, but no candidate.
    NoCandidate = 19,
    /// A selection with candidates, none of which has an assignment.
    Lacking = 20,
    /// The unit is being returned.
    BeingReturned = 21,
    /// No group with that ID in either deck.
    NoSuchGroup = 22,
}

impl Refusal {
    pub fn number(self) -> u8 {
        self as u8
    }
}
