//! Packets that fail: with others listed around them, and with which code.

use ordinary::cell::{PacketName, Status};
use ordinary::functions::{REMOVE_INTERLOCK, TERMINATE};
use ordinary::numbers::{ChannelNumber, Kind};

use super::Writer;
use crate::codes::FAILURES;

impl Writer<'_> {
    /// A packet that moves fails: perhaps others are listed for its unit or beside it, perhaps it is stopping, perhaps
    /// its job closes. Then it is looked at what can be started, and 07 or 23 comes.
    pub(super) fn failure(&mut self) {
        let moving = ChannelNumber::all().filter_map(|at| Some((at, self.shift.cell().moving(at)?)));
        let moving: Vec<(ChannelNumber, PacketName)> = moving.collect();
        if moving.is_empty() {
            return self.push(b"BOARD\n".to_vec());
        }
        let (channel, name) = *self.random.pick(&moving);
        let target = self.shift.cell().packet(name).target;
        self.before_failure(channel, name, target);
        let cell = self.shift.cell();
        let behind = cell.listed().map(|(_, other)| other).filter(|&other| cell.packet(other).target == target);
        let looked_at: Vec<PacketName> = behind.chain([name]).collect();
        let code = self.code();
        self.push(format!("FAIL {} {code}\n", channel.0).into_bytes());
        if self.random.percent(30) {
            self.push(b"BOARD\n".to_vec());
        }
        for PacketName { place, packet } in looked_at {
            if self.random.percent(30) {
                self.push(format!("STATUS {place} {packet}\n").into_bytes());
            }
        }
        self.after_failure(channel, name.place, target);
    }

    /// Perhaps it is stopping, others are listed, or its job closes.
    fn before_failure(&mut self, channel: ChannelNumber, name: PacketName, target: u32) {
        if self.random.percent(25) {
            self.submit_to(name.place, channel, target, Some(TERMINATE));
        }
        for _ in 0..self.random.below(4) {
            self.submit_to(name.place, channel, target, None);
        }
        if self.random.percent(40) {
            let beside = self.submit();
            self.push(beside);
        }
        if self.random.percent(12) {
            let word = *self.random.pick(&["END", "ABORT"]);
            self.push(format!("{word} {}\n", name.place).into_bytes());
        }
    }

    /// What can be started is tried, and 07 or 23 comes.
    fn after_failure(&mut self, channel: ChannelNumber, place: usize, target: u32) {
        for _ in 0..self.random.below(4) {
            match self.random.below(5) {
                0 => self.submit_to(place, channel, target, Some(REMOVE_INTERLOCK)),
                1 => self.submit_to(place, channel, target, Some(TERMINATE)),
                2 => self.submit_to(place, channel, target, None),
                _ => self.push(format!("START {}\n", channel.0).into_bytes()),
            }
        }
    }

    /// A code to fail with: one of the section, one that is not there, a neighbour of one, any, or none.
    pub(super) fn code(&mut self) -> String {
        let codes = self.shift.cell().configuration().codes().to_vec();
        let others: Vec<u8> = FAILURES.into_iter().filter(|code| !codes.contains(code)).collect();
        let any = self.random.below(64) as u8;
        let code = match self.random.weighted(&[38, 32, 12, 12, 6]) {
            0 if !codes.is_empty() => *self.random.pick(&codes),
            1 if !others.is_empty() => *self.random.pick(&others),
            2 if !codes.is_empty() => {
                let code = *self.random.pick(&codes);
                *self.random.pick(&[code - 1, code + 1])
            }
            4 => *self.random.pick(&[64, 66, 100, 127]),
            _ => any,
        };
        self.octal(code)
    }

    /// Counts a failure that the cell is about to be told of, by its code, its unit and its packet.
    pub(super) fn count_failure(&mut self, line: &[u8]) {
        let Some(words) = std::str::from_utf8(line).ok().and_then(|line| line.trim_end().strip_prefix("FAIL ")) else {
            return;
        };
        let Some((channel, code)) = words.split_once(' ') else { return };
        let (Ok(channel), Ok(code)) = (channel.parse(), u8::from_str_radix(code, 8)) else { return };
        let cell = self.shift.cell();
        let (channel, codes) = (ChannelNumber(channel), cell.configuration().codes());
        let Some(name) = (channel.0 < 16).then(|| cell.moving(channel)).flatten() else { return };
        if !FAILURES.contains(&code) {
            return;
        }
        let packet = cell.packet(name);
        let on_drum = cell.configuration().channel(channel).is_some_and(|channel| channel.kind() == Kind::Md);
        let closing = cell.jobs().any(|(place, job)| place == name.place && job.end.is_some());
        let behind = cell.listed().any(|(at, other)| at == channel && cell.packet(other).target == packet.target);
        let words = [
            if on_drum { "on the drum" } else { "on a unit" },
            if codes.contains(&code) { ", code of the section" } else { ", another code" },
            match packet.status {
                _ if closing => ", job closing",
                Status::Stopping => ", stopping",
                _ => "",
            },
            if behind { ", others listed there" } else { "" },
        ];
        self.count(Some(format!("failed {}", words.concat())));
    }
}
