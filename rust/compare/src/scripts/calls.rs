//! Single calls: decks, completions, ends, marks and what is asked of requests.

use ordinary::cell::{PacketName, Status};
use ordinary::numbers::ChannelNumber;
use ordinary::schedule::State;

use super::{line, Writer};
use crate::decks;

impl Writer<'_> {
    pub(super) fn deck(&mut self) -> Vec<u8> {
        let mut piece = b"DECK\n".to_vec();
        if self.random.percent(8) {
            piece.extend(decks::any_for_script(self.random));
        } else {
            let groups = *self.random.pick(&[0, 1, 2, 3, 5, 8, 20]);
            piece.extend(decks::for_script(self.random, self.style, groups));
        }
        piece
    }

    pub(super) fn complete(&mut self) -> Vec<u8> {
        let moving: Vec<ChannelNumber> =
            ChannelNumber::all().filter(|&channel| self.shift.cell().moving(channel).is_some()).collect();
        let mut stopping = false;
        let channel = if moving.is_empty() || self.random.percent(4) {
            self.any_channel()
        } else {
            let channel = *self.random.pick(&moving);
            if let Some(PacketName { place, packet }) = self.shift.cell().moving(channel) {
                stopping = self.shift.cell().status(place as u32, packet as u32) == Ok(Status::Stopping);
            }
            self.number(channel.0.into())
        };
        match self.random.weighted(&[50, if stopping { 50 } else { 5 }, 30]) {
            0 => line(&["DONE", &channel]),
            1 => line(&["CUT", &channel]),
            _ => {
                let code = self.code();
                line(&["FAIL", &channel, &code])
            }
        }
    }

    pub(super) fn end(&mut self) -> Vec<u8> {
        let place = match self.random_job() {
            Some((place, _)) if !self.random.percent(10) => self.number(place as u32),
            _ => self.place(),
        };
        let word = if self.random.percent(60) { "END" } else { "ABORT" };
        line(&[word, &place])
    }

    pub(super) fn mark(&mut self) -> Vec<u8> {
        let word = *self.random.pick(&["DOWN", "UP", "UP", "RESERVE", "UNRESERVE", "UNRESERVE"]);
        let channel = self.any_channel();
        let configured =
            channel.parse().ok().and_then(|number| self.shift.cell().configuration().channel(ChannelNumber(number)));
        let unit = match configured {
            Some(channel) if channel.unit_count() > 0 && self.random.percent(90) => {
                self.random.below(channel.unit_count().into())
            }
            _ => self.random.within(0..=17),
        };
        let unit = self.number(unit as u32);
        line(&[word, &channel, &unit])
    }

    pub(super) fn request(&mut self) -> Vec<u8> {
        let word = if self.random.percent(60) { "RELEASE" } else { "DELETE" };
        let requests = self.shift.cell().schedule().requests();
        let suspended: Vec<&str> = requests
            .iter()
            .filter(|scheduled| word == "DELETE" || scheduled.state == State::Suspended)
            .map(|scheduled| scheduled.request.id.as_str())
            .collect();
        let id = if !suspended.is_empty() && !self.random.percent(10) {
            self.random.pick(&suspended).to_string()
        } else if !requests.is_empty() && self.random.percent(50) {
            self.random.pick(requests).request.id.clone()
        } else {
            self.random.pick(&["NOBODY", "A", "J1", "------", "TOOLONGID", "a", "J1,"]).to_string()
        };
        line(&[word, &id])
    }
}
