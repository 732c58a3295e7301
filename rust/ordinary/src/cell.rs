//! The cell: schedule, units, places with their packets, request lists, and every call on them.

use crate::assign::{Assignment, Facility};
use crate::configuration::{Channel, Configuration};
use crate::deck;
use crate::keyboard::{self, Answer, Message};
use crate::numbers::{ChannelNumber, Refusal, UnitNumber};
use crate::schedule::Schedule;

mod lists;
mod selection;

/// Places for jobs.
pub const PLACES: usize = 16;
/// Packets of a job.
pub const PACKETS: usize = 16;

/// Ends of packets that are no failures.
pub const FULL: u8 = 0o00;
pub const INTERLOCKED: u8 = 0o01;
pub const REMOVED: u8 = 0o16;
pub const CUT: u8 = 0o17;

#[derive(Clone, Copy, Debug, Default, PartialEq, Eq)]
pub struct Unit {
    /// The place of the job that holds it.
    pub holder: Option<usize>,
    /// The job has given it back, and holds it until what moves there completes.
    pub returning: bool,
    pub down: bool,
    pub reserved: bool,
    pub interlock: bool,
}

impl Unit {
    pub fn is_assignable(self) -> bool {
        self.holder.is_none() && !self.down && !self.reserved
    }

    /// No job holds it any more. Marks stay, and the interlock goes when a job is given the unit.
    fn free(&mut self) {
        self.holder = None;
        self.returning = false;
    }
}

#[derive(Clone, Copy, Debug, PartialEq, Eq)]
pub enum Mark {
    Down,
    Reserved,
}

#[derive(Clone, Copy, Debug, Default, PartialEq, Eq)]
pub enum Status {
    #[default]
    Blank,
    Listed,
    InProgress,
    Stopping,
    Ended(u8),
}

/// A packet as it was last submitted.
#[derive(Clone, Copy, Debug, Default)]
pub struct Packet {
    pub status: Status,
    pub function: u8,
    channel: u8,
    /// The unit, or on the drum channel the address.
    pub target: u32,
}

/// Which packet of which place.
#[derive(Clone, Copy, Debug, PartialEq, Eq)]
pub struct PacketName {
    pub place: usize,
    pub packet: usize,
}

#[derive(Clone, Copy, Debug, PartialEq, Eq)]
pub enum End {
    Normal,
    InError,
}

/// A job that runs, or closes once it has an end.
#[derive(Clone, Debug)]
pub struct Job {
    pub id: String,
    pub assignment: Assignment,
    pub end: Option<End>,
}

/// A place; its packets stay after the job has returned, until the next one is taken.
#[derive(Clone, Debug, Default)]
struct Place {
    job: Option<Job>,
    packets: [Packet; PACKETS],
}

/// Why nothing is selected; the first that holds.
#[derive(Clone, Debug, PartialEq, Eq)]
pub enum NoSelection {
    NoPlace,
    NoCandidate,
    /// No candidate has an assignment: the first one's ID, and what is lacking for it first.
    Lacking {
        id: String,
        facility: Facility,
    },
}

impl NoSelection {
    pub fn refusal(&self) -> Refusal {
        match self {
            NoSelection::NoPlace => Refusal::NoPlace,
            NoSelection::NoCandidate => Refusal::NoCandidate,
            NoSelection::Lacking { .. } => Refusal::Lacking,
        }
    }
}

/// A submission, with numbers as the caller gave them.
#[derive(Clone, Copy, Debug)]
pub struct Submission {
    pub place: u32,
    pub packet: u32,
    pub function: u32,
    pub channel: u32,
    /// The unit; on the drum channel the address, for 23 there L.
    pub x: u32,
    /// H for 23 on the drum channel.
    pub h: u32,
}

/// What a start has taken.
#[derive(Clone, Copy, Debug, PartialEq, Eq)]
pub struct Started {
    pub name: PacketName,
    pub function: u8,
    pub target: u32,
}

#[derive(Clone, Copy, Debug, PartialEq, Eq)]
pub enum Completion {
    Full,
    Cut,
    Failed(u32),
}

#[derive(Clone, Debug)]
pub struct Cell {
    configuration: Configuration,
    units: [[Unit; 16]; 16],
    schedule: Schedule,
    places: [Place; PLACES],
    /// What is in progress or stopping on each channel.
    moving: [Option<PacketName>; 16],
    /// The listed packets of all channels, oldest first; a channel's request list is its part of it.
    listed: Vec<PacketName>,
}

impl Cell {
    /// The fresh cell.
    pub fn new(configuration: Configuration) -> Cell {
        let mut units = [[Unit::default(); 16]; 16];
        for (channel, unit) in configuration.down() {
            units[channel.index()][unit.index()].down = true;
        }
        Cell {
            configuration,
            units,
            schedule: Schedule::default(),
            places: Default::default(),
            moving: [None; 16],
            listed: Vec::new(),
        }
    }

    pub fn configuration(&self) -> &Configuration {
        &self.configuration
    }

    pub fn schedule(&self) -> &Schedule {
        &self.schedule
    }

    pub fn unit(&self, channel: ChannelNumber, unit: UnitNumber) -> Unit {
        self.units[channel.index()][unit.index()]
    }

    /// The jobs that run or close, with their places, ascending.
    pub fn jobs(&self) -> impl Iterator<Item = (usize, &Job)> {
        self.places.iter().enumerate().filter_map(|(number, place)| Some((number, place.job.as_ref()?)))
    }

    /// What is in progress or stopping on a channel.
    pub fn moving(&self, channel: ChannelNumber) -> Option<PacketName> {
        self.moving[channel.index()]
    }

    /// The listed packets with their channels, oldest first.
    pub fn listed(&self) -> impl Iterator<Item = (ChannelNumber, PacketName)> + '_ {
        self.listed.iter().map(|&name| (ChannelNumber(self.packet(name).channel), name))
    }

    pub fn enter_deck(&mut self, deck: &[u8]) -> Result<deck::Outcome, Refusal> {
        deck::enter(&mut self.schedule, deck)
    }

    pub fn release(&mut self, id: &str) -> Result<(), Refusal> {
        self.schedule.release(id)
    }

    pub fn delete(&mut self, id: &str) -> Result<(), Refusal> {
        self.schedule.delete(id)
    }

    /// Sets or clears a mark. The two marks are independent, and the drum has none.
    pub fn mark(&mut self, channel: u32, unit: u32, mark: Mark, on: bool) -> Result<(), Refusal> {
        let unit = self.configured_unit(channel, unit)?;
        match mark {
            Mark::Down => unit.down = on,
            Mark::Reserved => unit.reserved = on,
        }
        Ok(())
    }

    /// Does what an operator's message of any bytes asks for.
    pub fn keyboard(&mut self, message: &[u8]) -> Answer {
        let Message { word, call } = Message::read(message);
        Answer { word, outcome: call.and_then(|call| self.asked(call).map_err(keyboard::Error::Refused)) }
    }

    /// The call of a message: the same as without the message, accepted and refused alike.
    fn asked(&mut self, call: keyboard::Call) -> Result<(), Refusal> {
        match call {
            keyboard::Call::Down { channel, unit, on } => self.mark(channel, unit, Mark::Down, on),
            keyboard::Call::Release(id) => self.release(&id),
            keyboard::Call::Delete(id) => self.delete(&id),
        }
    }

    /// The index of a configured channel and what is there.
    fn configured(&self, channel: u32) -> Result<(usize, Channel), Refusal> {
        let number = u8::try_from(channel).map_err(|_| Refusal::OutOfRange)?;
        let configured = self.configuration.channel(ChannelNumber(number)).ok_or(Refusal::OutOfRange)?;
        Ok((usize::from(number), configured))
    }

    /// A configured unit; the drum channel has none.
    fn configured_unit(&mut self, channel: u32, unit: u32) -> Result<&mut Unit, Refusal> {
        let (number, channel) = self.configured(channel)?;
        if unit >= u32::from(channel.unit_count()) {
            return Err(Refusal::OutOfRange);
        }
        Ok(&mut self.units[number][unit as usize])
    }

    fn running_job(&self, place: usize) -> Result<&Job, Refusal> {
        self.places[place].job.as_ref().filter(|job| job.end.is_none()).ok_or(Refusal::NoJob)
    }

    pub fn packet(&self, name: PacketName) -> &Packet {
        &self.places[name.place].packets[name.packet]
    }

    fn packet_mut(&mut self, name: PacketName) -> &mut Packet {
        &mut self.places[name.place].packets[name.packet]
    }
}
