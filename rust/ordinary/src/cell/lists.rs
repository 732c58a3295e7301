//! The calls on the request lists: a packet submitted, started and completed, a unit given back, a job ended.

use std::ops::RangeInclusive;

use super::{
    Cell, Completion, End, Packet, PacketName, Started, Status, Submission, Unit, CUT, FULL, INTERLOCKED, PACKETS,
    PLACES, REMOVED,
};
use crate::functions::{self, REMOVE_INTERLOCK, TERMINATE};
use crate::numbers::{Kind, Refusal};

impl Cell {
    pub fn submit(&mut self, submission: Submission) -> Result<(), Refusal> {
        let Submission { place, packet, function, channel, x, h } = submission;
        if place as usize >= PLACES || packet as usize >= PACKETS || function > u32::from(functions::LAST) {
            return Err(Refusal::OutOfRange);
        }
        let (place, packet, function) = (place as usize, packet as usize, function as u8);
        let (number, channel) = self.configured(channel)?;
        let on_drum = channel.kind() == Kind::Md;
        if !on_drum && x >= u32::from(channel.unit_count()) {
            return Err(Refusal::OutOfRange);
        }
        let job = self.running_job(place)?;
        let is_the_jobs = if !on_drum {
            self.units[number][x as usize].holder == Some(place)
        } else if function == TERMINATE {
            !job.assignment.drum.is_empty()
        } else {
            job.assignment.drum.contains(&x)
        };
        if !is_the_jobs {
            return Err(Refusal::NotTheJobs);
        }
        if !on_drum && self.units[number][x as usize].returning {
            return Err(Refusal::BeingReturned);
        }
        if !functions::is_legal(channel.kind(), function) {
            return Err(Refusal::IllegalFunction);
        }
        let name = PacketName { place, packet };
        if matches!(self.packet(name).status, Status::Listed | Status::InProgress | Status::Stopping) {
            return Err(Refusal::PacketInUse);
        }

        let submitted = |status| Packet { status, function, channel: number as u8, target: x };
        match function {
            REMOVE_INTERLOCK => {
                if !on_drum && self.units[number][x as usize].interlock {
                    self.end_listed(INTERLOCKED, |_, other| other.is_on(number, x..=x));
                    self.units[number][x as usize].interlock = false;
                }
                *self.packet_mut(name) = submitted(Status::Ended(FULL));
            }
            TERMINATE => {
                let targets = if on_drum { x..=h } else { x..=x };
                self.stop(|owner, other| owner.place == place && other.is_on(number, targets.clone()));
                *self.packet_mut(name) = submitted(Status::Ended(FULL));
            }
            _ => {
                *self.packet_mut(name) = submitted(Status::Listed);
                self.listed.push(name);
            }
        }
        Ok(())
    }

    /// Starts the oldest listed packet of the channel whose unit has no interlock.
    pub fn start(&mut self, channel: u32) -> Result<Started, Refusal> {
        let (number, channel) = self.configured(channel)?;
        if self.moving[number].is_some() {
            return Err(Refusal::ChannelBusy);
        }
        let on_drum = channel.kind() == Kind::Md;
        let startable = |packet: &Packet| {
            usize::from(packet.channel) == number && (on_drum || !self.units[number][packet.target as usize].interlock)
        };
        let at = self.listed.iter().position(|&name| startable(self.packet(name)));
        let name = self.listed.remove(at.ok_or(Refusal::NothingStartable)?);
        self.moving[number] = Some(name);
        let packet = self.packet_mut(name);
        packet.status = Status::InProgress;
        Ok(Started { name, function: packet.function, target: packet.target })
    }

    /// Completes what moves on the channel. A failure off the drum with a code that the configuration names sets the
    /// unit's interlock and ends what is listed for it; any other code ends its packet alone.
    pub fn complete(&mut self, channel: u32, completion: Completion) -> Result<PacketName, Refusal> {
        let (number, channel) = self.configured(channel)?;
        let name = self.moving[number].ok_or(Refusal::NothingInProgress)?;
        let Packet { status, target, .. } = *self.packet(name);
        let code = match completion {
            Completion::Full => FULL,
            Completion::Cut if status == Status::Stopping => CUT,
            Completion::Failed(code) if is_failure(code) => code as u8,
            _ => return Err(Refusal::BadCompletion),
        };
        self.moving[number] = None;
        self.packet_mut(name).status = Status::Ended(code);
        let failed = matches!(completion, Completion::Failed(_)) && channel.kind() != Kind::Md;
        if failed && self.configuration.sets_interlock(code) {
            self.units[number][target as usize].interlock = true;
            self.end_listed(INTERLOCKED, |_, other| other.is_on(number, target..=target));
        }
        if channel.kind() != Kind::Md && self.units[number][target as usize].returning {
            self.units[number][target as usize].free();
        }
        self.return_if_closed(name.place);
        Ok(name)
    }

    /// The job in a place gives a unit back and goes on with the others. The unit is free at once if nothing moves
    /// there, else at that completion, and until then it is held. The drum returns with its job alone.
    pub fn give_back(&mut self, place: u32, channel: u32, unit: u32) -> Result<(), Refusal> {
        if place as usize >= PLACES {
            return Err(Refusal::OutOfRange);
        }
        let Unit { holder, returning, .. } = *self.configured_unit(channel, unit)?;
        self.running_job(place as usize)?;
        if holder != Some(place as usize) {
            return Err(Refusal::NotTheJobs);
        }
        if returning {
            return Err(Refusal::BeingReturned);
        }

        let (channel, target) = (channel as usize, unit);
        self.stop(|_, packet| packet.is_on(channel, target..=target));
        let moves = self.moving[channel].is_some_and(|name| self.packet(name).target == target);
        let unit = &mut self.units[channel][target as usize];
        if moves {
            unit.returning = true;
        } else {
            unit.free();
        }
        Ok(())
    }

    /// Ends the job in a place. It closes until nothing of it moves.
    pub fn end(&mut self, place: u32, end: End) -> Result<(), Refusal> {
        if place as usize >= PLACES {
            return Err(Refusal::OutOfRange);
        }
        let place = place as usize;
        self.running_job(place)?;
        if let Some(job) = &mut self.places[place].job {
            job.end = Some(end);
        }
        self.schedule.close(place);
        self.stop(|owner, _| owner.place == place);
        self.return_if_closed(place);
        Ok(())
    }

    pub fn status(&self, place: u32, packet: u32) -> Result<Status, Refusal> {
        if place as usize >= PLACES || packet as usize >= PACKETS {
            return Err(Refusal::OutOfRange);
        }
        Ok(self.packet(PacketName { place: place as usize, packet: packet as usize }).status)
    }

    /// Takes the listed packets that pass a test off the list and ends them with a code.
    fn end_listed(&mut self, code: u8, test: impl Fn(PacketName, &Packet) -> bool) {
        let places = &mut self.places;
        self.listed.retain(|&name| {
            let packet = &mut places[name.place].packets[name.packet];
            let ends = test(name, packet);
            if ends {
                packet.status = Status::Ended(code);
            }
            !ends
        });
    }

    /// Of the packets that pass a test, takes the listed ones off the list and makes those in progress stopping.
    fn stop(&mut self, test: impl Fn(PacketName, &Packet) -> bool) {
        self.end_listed(REMOVED, &test);
        for name in self.moving.into_iter().flatten() {
            if test(name, self.packet(name)) {
                self.packet_mut(name).status = Status::Stopping;
            }
        }
    }

    /// Returns all facilities of a closing job of which nothing moves any more, and settles its request.
    fn return_if_closed(&mut self, place: usize) {
        let Some(end) = self.places[place].job.as_ref().and_then(|job| job.end) else { return };
        if self.moving.iter().flatten().any(|name| name.place == place) {
            return;
        }
        self.places[place].job = None;
        for unit in self.units.iter_mut().flatten() {
            if unit.holder == Some(place) {
                unit.free();
            }
        }
        self.schedule.finish(place, end == End::InError);
    }
}

impl Packet {
    fn is_on(&self, channel: usize, targets: RangeInclusive<u32>) -> bool {
        usize::from(self.channel) == channel && targets.contains(&self.target)
    }
}

/// May a packet fail with this code?
fn is_failure(code: u32) -> bool {
    code <= 0o77 && ![FULL, INTERLOCKED, REMOVED, CUT].map(u32::from).contains(&code)
}
