//! A unit that is given back: as it is, or with packets listed there, in progress or stopping, or under interlock.

use ordinary::functions::{REMOVE_INTERLOCK, TERMINATE};
use ordinary::numbers::{ChannelNumber, Kind, UnitNumber};

use super::{holdings, line, Writer};

impl Writer<'_> {
    /// A unit is given back as it stands, or with packets listed there, in progress or stopping, or under interlock,
    /// perhaps beside others that move. Then it is looked at, submitted to, given back once more and asked for by
    /// others, marks change, the job ends, and what moves completes.
    pub(super) fn give_back(&mut self) {
        let Some((place, channel, unit)) = self.held_unit().filter(|_| !self.random.percent(15)) else {
            let odd = self.odd_return();
            return self.push(odd);
        };
        match self.random.below(8) {
            0 | 1 => self.list(place, channel, unit),
            2 | 3 => self.let_move(place, channel, unit),
            4 => {
                self.let_move(place, channel, unit);
                self.submit_to(place, channel, unit, Some(TERMINATE));
                self.list(place, channel, unit);
            }
            5 => {
                self.let_lock(place, channel, unit);
                self.list(place, channel, unit);
            }
            6 => self.let_another_move(channel, unit),
            _ => {}
        }
        if self.random.percent(40) {
            self.let_move_elsewhere(place, channel);
        }
        if self.random.percent(30) {
            self.list(place, channel, unit);
        }
        if self.random.percent(20) {
            self.mark_unit(channel, unit);
        }
        if self.random.percent(5) {
            self.end_job(place);
        }
        self.return_unit(place, channel, unit);
        for _ in 0..self.random.below(9) {
            self.after_return(place, channel, unit);
        }
    }

    /// The units that running jobs hold and are not giving back, with their places.
    pub(super) fn held_units(&self) -> Vec<(usize, ChannelNumber, u32)> {
        let cell = self.shift.cell();
        let running = cell.jobs().filter(|(_, job)| job.end.is_none());
        let held = running.flat_map(|(place, _)| holdings(cell, place).into_iter().map(move |held| (place, held)));
        let held = held.filter(|(_, (channel, unit))| !cell.unit(*channel, UnitNumber(*unit as u8)).returning);
        held.map(|(place, (channel, unit))| (place, channel, unit)).collect()
    }

    fn held_unit(&mut self) -> Option<(usize, ChannelNumber, u32)> {
        let held = self.held_units();
        (!held.is_empty()).then(|| *self.random.pick(&held))
    }

    /// Some packets for a unit.
    fn list(&mut self, place: usize, channel: ChannelNumber, unit: u32) {
        for _ in 0..self.random.below(4) {
            self.submit_to(place, channel, unit, None);
        }
    }

    /// Does a packet move for this unit or address?
    fn moves_at(&self, channel: ChannelNumber, target: u32) -> bool {
        let cell = self.shift.cell();
        cell.moving(channel).is_some_and(|name| cell.packet(name).target == target)
    }

    /// Lets a block move on a unit or at an address, if some calls are enough for that.
    fn let_move(&mut self, place: usize, channel: ChannelNumber, target: u32) {
        for _ in 0..6 {
            let cell = self.shift.cell();
            if self.moves_at(channel, target) {
                return;
            }
            if cell.moving(channel).is_some() {
                self.push(format!("DONE {}\n", channel.0).into_bytes());
                continue;
            }
            let is_drum = cell.configuration().channel(channel).is_some_and(|channel| channel.kind() == Kind::Md);
            if !is_drum && cell.unit(channel, UnitNumber(target as u8)).interlock {
                self.submit_to(place, channel, target, Some(REMOVE_INTERLOCK));
            }
            let cell = self.shift.cell();
            if !cell.listed().any(|(at, name)| at == channel && cell.packet(name).target == target) {
                self.submit_to(place, channel, target, None);
            }
            self.push(format!("START {}\n", channel.0).into_bytes());
        }
    }

    /// Lets a block fail on a unit with a code that sets interlock, if there is one.
    fn let_lock(&mut self, place: usize, channel: ChannelNumber, unit: u32) {
        let codes = self.shift.cell().configuration().codes().to_vec();
        self.let_move(place, channel, unit);
        if self.moves_at(channel, unit) && !codes.is_empty() {
            let code = *self.random.pick(&codes);
            self.push(format!("FAIL {} {code:02o}\n", channel.0).into_bytes());
        }
    }

    /// Lets a block move on another unit of the channel, of any job.
    fn let_another_move(&mut self, channel: ChannelNumber, unit: u32) {
        let cell = self.shift.cell();
        let held = cell.jobs().flat_map(|(place, _)| holdings(cell, place).into_iter().map(move |held| (place, held)));
        let others: Vec<_> = held.filter(|(_, (at, other))| *at == channel && *other != unit).collect();
        if !others.is_empty() {
            let (place, (_, other)) = *self.random.pick(&others);
            self.let_move(place, channel, other);
        }
    }

    /// Lets a block of the job move on another channel, the drum too.
    fn let_move_elsewhere(&mut self, place: usize, channel: ChannelNumber) {
        let cell = self.shift.cell();
        let mut elsewhere = holdings(cell, place);
        elsewhere.retain(|(at, _)| *at != channel);
        let area = cell.drum_areas().into_iter().find(|(_, holder)| *holder == place);
        let drum = cell.configuration().channels().find(|(_, channel)| channel.kind() == Kind::Md);
        if let (Some((area, _)), Some((drum, _))) = (area, drum) {
            elsewhere.push((drum, area.start));
        }
        if !elsewhere.is_empty() {
            let (at, target) = *self.random.pick(&elsewhere);
            self.let_move(place, at, target);
        }
    }

    pub(super) fn mark_unit(&mut self, channel: ChannelNumber, unit: u32) {
        let word = *self.random.pick(&["DOWN", "UP", "UP", "RESERVE", "UNRESERVE", "UNRESERVE"]);
        self.push(format!("{word} {} {unit}\n", channel.0).into_bytes());
    }

    pub(super) fn end_job(&mut self, place: usize) {
        let word = *self.random.pick(&["END", "END", "ABORT"]);
        self.push(format!("{word} {place}\n").into_bytes());
    }

    pub(super) fn return_unit(&mut self, place: usize, channel: ChannelNumber, unit: u32) {
        let numbers = [place as u32, channel.0.into(), unit].map(|number| self.number(number));
        self.push(format!("RETURN {}\n", numbers.join(" ")).into_bytes());
    }

    /// A return that is mostly refused: numbers that are too large, the drum channel, a unit that is another job's or
    /// nobody's, a place without a job.
    fn odd_return(&mut self) -> Vec<u8> {
        let (mut place, mut channel) = (self.place(), self.any_channel());
        let mut unit = self.random.within(0..=17).to_string();
        let held = self.held_unit();
        let drum = self.shift.cell().configuration().channels().find(|(_, channel)| channel.kind() == Kind::Md);
        match (self.random.below(6), held, drum) {
            (0, _, Some((drum, _))) => {
                channel = self.number(drum.0.into());
                unit = self.random.pick(&["0", "1", "15", "16", "35329", "35330", "999999999"]).to_string();
                if let Some((holder, _)) = self.random_job() {
                    place = self.number(holder as u32);
                }
            }
            // Another's unit, or of a place without a job.
            (1 | 2, Some((_, at, other)), _) => (channel, unit) = (self.number(at.0.into()), self.number(other)),
            (3, Some((holder, at, _)), _) => (place, channel) = (self.number(holder as u32), self.number(at.0.into())),
            // Numbers that are too large, some of them small again where 8 or 16 bits run over.
            (4 | 5, Some((holder, at, other)), _) => {
                let over = *self.random.pick(&[16, 32, 256, 65_536, 999_999_984]);
                let over = [0, 1, 2].map(|number| if number == self.random.below(3) { over } else { 0 });
                place = self.number(holder as u32 + over[0]);
                channel = self.number(u32::from(at.0) + over[1]);
                unit = self.number(other + over[2]);
            }
            _ => {}
        }
        line(&["RETURN", &place, &channel, &unit])
    }
}
