//! Submissions: to what a job holds, to a given unit or address, and of any numbers.

use std::ops::Range;

use ordinary::cell::Status;
use ordinary::configuration::Channel;
use ordinary::functions::{self, REMOVE_INTERLOCK, TERMINATE};
use ordinary::numbers::{ChannelNumber, Kind};

use super::{holdings, line, Writer};

/// The functions that are legal on some kind, 07 and 23 apart. They are written out, so that one is tried too where the
/// implementation beside does not know it.
const OF_ANY_KIND: &[u8] = &[
    0o01, 0o02, 0o03, 0o04, 0o05, 0o06, 0o10, 0o20, 0o21, 0o37, 0o40, 0o41, 0o42, 0o43, 0o44, 0o45, 0o46, 0o47, 0o50,
    0o51, 0o52, 0o53, 0o54, 0o55, 0o56, 0o61, 0o62, 0o63, 0o64, 0o66, 0o67, 0o71, 0o72, 0o73, 0o76,
];

impl Writer<'_> {
    pub(super) fn submit(&mut self) -> Vec<u8> {
        let Some((place, job)) = self.random_job() else {
            return self.random_submission();
        };
        if self.random.percent(8) {
            return self.random_submission();
        }
        let mut holdings = holdings(self.shift.cell(), place);
        // Now and then to what it has given back.
        if self.random.percent(10) {
            let given = job.assignment.units.iter().flat_map(|(_, units)| units);
            holdings = given.map(|(channel, unit)| (*channel, u32::from(unit.0))).collect();
        }
        let area = job.assignment.drum.clone();
        let drum = self.shift.cell().configuration().channels().find(|(_, channel)| channel.kind() == Kind::Md);
        let on_drum = match drum {
            Some((channel, _)) if !area.is_empty() && (holdings.is_empty() || self.random.percent(40)) => Some(channel),
            _ => None,
        };
        let packet = self.packet(place);
        match on_drum {
            Some(channel) => self.drum_submission(place, packet, channel, area),
            None if holdings.is_empty() => self.random_submission(),
            None => self.unit_submission(place, packet, &holdings),
        }
    }

    /// A submission for an address in an area of the drum, or just outside.
    fn drum_submission(&mut self, place: usize, packet: u32, channel: ChannelNumber, area: Range<u32>) -> Vec<u8> {
        let x = self.address(area.start, area.end);
        let function = self.function(Kind::Md);
        let h = self.address(area.start, area.end);
        let words = [
            self.number(place as u32),
            self.number(packet),
            self.octal(function),
            self.number(channel.0.into()),
            self.number(x),
            self.number(h),
        ];
        let words: Vec<&str> = words.iter().map(String::as_str).collect();
        let shown = if self.random.percent(if function == TERMINATE { 90 } else { 10 }) { 6 } else { 5 };
        line(&[&["SUBMIT"], &words[..shown]].concat())
    }

    /// A submission for one of these units: few of them again and again, so that lists and interlocks meet.
    fn unit_submission(&mut self, place: usize, packet: u32, units: &[(ChannelNumber, u32)]) -> Vec<u8> {
        let at = if self.random.percent(60) { 0 } else { self.random.below(units.len()) };
        let (channel, unit) = units[at];
        let kind = self.shift.cell().configuration().channel(channel).map_or(Kind::Ma, Channel::kind);
        let function = self.function(kind);
        let words = [
            self.number(place as u32),
            self.number(packet),
            self.octal(function),
            self.number(channel.0.into()),
            self.number(unit),
        ];
        let words: Vec<&str> = words.iter().map(String::as_str).collect();
        let h: &[&str] = if self.random.percent(3) { &["7"] } else { &[] };
        line(&[&["SUBMIT"], &words[..], h].concat())
    }

    fn random_submission(&mut self) -> Vec<u8> {
        let place = self.place();
        let packet = self.random.within(0..=17).to_string();
        let function = if self.random.percent(95) { self.random.below(64) } else { self.random.within(60..=600) };
        let function = self.octal(function as u8 & 0o77 | (function as u8 & 0o200));
        let channel = self.any_channel();
        let x = match self.random.below(4) {
            0 => self.random.within(35_320..=35_400),
            1 => self.random.below(1_000_010),
            _ => self.random.within(0..=17),
        };
        let x = self.number(x as u32);
        let h = self.random.below(1_000_000).to_string();
        let words = ["SUBMIT", &place, &packet, &function, &channel, &x, &h];
        let shown = if self.random.percent(30) { 7 } else { 6 };
        line(&words[..shown])
    }

    /// A submission for a unit or an address, of this function or of one that moves a block.
    pub(super) fn submit_to(&mut self, place: usize, channel: ChannelNumber, target: u32, function: Option<u8>) {
        let kind = self.shift.cell().configuration().channel(channel).map_or(Kind::Ma, Channel::kind);
        let function = function.unwrap_or(if kind == Kind::Pr { 0o02 } else { 0o42 });
        let packet = self.packet(place);
        // On the drum 23 takes that one address.
        let h = if kind == Kind::Md { format!(" {target}") } else { String::new() };
        self.push(format!("SUBMIT {place} {packet} {function:02o} {} {target}{h}\n", channel.0).into_bytes());
    }

    /// Every function number, and one that is too large, on a unit of any kind that is held. What is listed is taken off
    /// the list again.
    pub(super) fn every_function(&mut self) {
        let mut held = self.held_units();
        let configuration = self.shift.cell().configuration().clone();
        let is_of = |kind: Kind, channel| configuration.channel(channel).is_some_and(|there| there.kind() == kind);
        let kinds = Kind::WITH_UNITS.into_iter().filter(|kind| held.iter().any(|(_, at, _)| is_of(*kind, *at)));
        let kinds: Vec<Kind> = kinds.collect();
        if kinds.is_empty() {
            return;
        }
        let kind = *self.random.pick(&kinds);
        held.retain(|(_, at, _)| is_of(kind, *at));
        let (place, channel, unit) = *self.random.pick(&held);
        for function in 0..=functions::LAST + 1 {
            self.submit_to(place, channel, unit, Some(function));
            let cell = self.shift.cell();
            if cell.listed().any(|(at, name)| at == channel && name.place == place) {
                self.submit_to(place, channel, unit, Some(TERMINATE));
            }
        }
    }

    /// A packet of the place, mostly one that may be submitted.
    pub(super) fn packet(&mut self, place: usize) -> u32 {
        let usable = |packet: &u32| {
            let status = self.shift.cell().status(place as u32, *packet);
            matches!(status, Ok(Status::Blank | Status::Ended(_)))
        };
        let free: Vec<u32> = (0..16).filter(usable).collect();
        if free.is_empty() || self.random.percent(8) {
            self.random.below(16) as u32
        } else {
            *self.random.pick(&free)
        }
    }

    pub(super) fn function(&mut self, kind: Kind) -> u8 {
        match self.random.weighted(&[64, 12, 14, 6, 4]) {
            0 => {
                let legal: Vec<u8> =
                    (0..=functions::LAST).filter(|&function| functions::is_legal(kind, function)).collect();
                *self.random.pick(&legal)
            }
            1 => REMOVE_INTERLOCK,
            2 => TERMINATE,
            // One that another kind has.
            3 => {
                let is_elsewhere = |function: &u8| !functions::is_legal(kind, *function);
                let elsewhere: Vec<u8> = OF_ANY_KIND.iter().copied().filter(is_elsewhere).collect();
                *self.random.pick(&elsewhere)
            }
            _ => self.random.below(64) as u8,
        }
    }

    /// An address in an area, at its ends or just outside.
    fn address(&mut self, start: u32, end: u32) -> u32 {
        match self.random.below(12) {
            0 | 1 => start,
            2 | 3 => end - 1,
            4 => end,
            5 => start - 1,
            6 => *self.random.pick(&[0, 35_328, 35_329, 999_999_999]),
            _ => start + self.random.below((end - start) as usize) as u32,
        }
    }
}
