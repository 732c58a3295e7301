//! What comes of a unit that was given back.

use ordinary::cell::Status;
use ordinary::configuration::Channel;
use ordinary::functions::{self, REMOVE_INTERLOCK, TERMINATE};
use ordinary::numbers::{ChannelNumber, Kind};

use super::{holdings, Writer};

impl Writer<'_> {
    /// One of the calls that show what has become of a unit that was given back.
    pub(super) fn after_return(&mut self, place: usize, channel: ChannelNumber, unit: u32) {
        match self.random.weighted(&[14, 12, 16, 10, 6, 6, 10, 6, 12, 10, 4]) {
            0 => self.push(b"BOARD\n".to_vec()),
            1 => {
                let cell = self.shift.cell();
                let is_used = |packet: &u32| cell.status(place as u32, *packet) != Ok(Status::Blank);
                let used: Vec<u32> = (0..16).filter(is_used).collect();
                let packet = if used.is_empty() { 0 } else { *self.random.pick(&used) };
                self.push(format!("STATUS {place} {packet}\n").into_bytes());
            }
            2 => self.submit_after_return(place, channel, unit),
            3 => {
                let by = if self.random.percent(70) { place } else { self.random.below(16) };
                self.return_unit(by, channel, unit);
            }
            4 => {
                let others = holdings(self.shift.cell(), place);
                if !others.is_empty() {
                    let (at, other) = *self.random.pick(&others);
                    self.return_unit(place, at, other);
                }
            }
            5 => self.mark_unit(channel, unit),
            6 => self.ask_for_units(channel),
            7 => self.end_job(place),
            8 => self.complete_on(channel),
            9 => {
                let cell = self.shift.cell();
                let of_job = |at: &ChannelNumber| cell.moving(*at).is_some_and(|name| name.place == place);
                let moving: Vec<ChannelNumber> = ChannelNumber::all().filter(of_job).collect();
                if !moving.is_empty() {
                    let at = *self.random.pick(&moving);
                    self.complete_on(at);
                }
            }
            _ => self.push(format!("START {}\n", channel.0).into_bytes()),
        }
    }

    /// A submission to a unit that was given back: of any function, with any packet, and by others too.
    fn submit_after_return(&mut self, place: usize, channel: ChannelNumber, unit: u32) {
        let kind = self.shift.cell().configuration().channel(channel).map_or(Kind::Ma, Channel::kind);
        let is_illegal = |function: &u8| !functions::is_legal(kind, *function);
        let illegal: Vec<u8> = (0..=functions::LAST).filter(is_illegal).collect();
        let function = match self.random.below(6) {
            0 | 1 => self.function(kind),
            2 => REMOVE_INTERLOCK,
            3 => TERMINATE,
            4 => *self.random.pick(&illegal),
            _ => 0o02,
        };
        let by = if self.random.percent(88) { place } else { self.random.below(16) };
        // That which moves is no free one.
        let moving = self.shift.cell().moving(channel).filter(|name| name.place == by && self.random.percent(30));
        let packet = moving.map_or_else(|| self.packet(by), |name| name.packet as u32);
        self.push(format!("SUBMIT {by} {packet} {function:02o} {} {unit}\n", channel.0).into_bytes());
    }

    /// A completion of what moves on a channel.
    fn complete_on(&mut self, channel: ChannelNumber) {
        let how = match self.random.below(5) {
            0 | 1 => format!("DONE {}", channel.0),
            2 | 3 => format!("CUT {}", channel.0),
            _ => format!("FAIL {} {}", channel.0, self.code()),
        };
        self.push(format!("{how}\n").into_bytes());
    }
}
