//! Selection: the first candidate with an assignment is taken into a place.

use std::ops::Range;

use super::{Cell, Job, NoSelection};
use crate::assign::{assign, Assignment, Free, ASSIGNABLE_CORE};
use crate::configuration::{Channel, DRUM_START};
use crate::numbers::{ChannelNumber, UnitNumber};
use crate::schedule::State;

impl Cell {
    /// Takes the first candidate with an assignment into the lowest free place.
    pub fn select(&mut self) -> Result<(usize, &Job), NoSelection> {
        let place = self.places.iter().position(|place| place.job.is_none()).ok_or(NoSelection::NoPlace)?;
        let (at, assignment) = self.first_that_fits()?;

        let id = self.schedule.requests()[at].request.id.clone();
        self.schedule.set_state(at, State::Running(place));
        for (channel, unit) in assignment.units.iter().flat_map(|(_, units)| units) {
            let unit = &mut self.units[channel.index()][unit.index()];
            unit.holder = Some(place);
            unit.interlock = false;
        }
        self.places[place].packets = Default::default();
        Ok((place, self.places[place].job.insert(Job { id, assignment, end: None })))
    }

    /// The position of the first candidate with an assignment, and the assignment that it gets.
    fn first_that_fits(&self) -> Result<(usize, Assignment), NoSelection> {
        let free = self.free();
        let mut why = None;
        for at in self.schedule.candidates() {
            let request = &self.schedule.requests()[at].request;
            match assign(request, &free) {
                Ok(assignment) => return Ok((at, assignment)),
                // A later candidate may still fit; if none does, the first one is named.
                Err(facility) => {
                    why.get_or_insert_with(|| NoSelection::Lacking { id: request.id.clone(), facility });
                }
            }
        }
        Err(why.unwrap_or(NoSelection::NoCandidate))
    }

    /// What is assignable now.
    fn free(&self) -> Free {
        let mut core = [false; 32];
        for block in ASSIGNABLE_CORE {
            core[block as usize] = self.core_holder(block).is_none();
        }
        let assignable = |number: ChannelNumber, count: u8| {
            (0..count).map(UnitNumber).filter(|&unit| self.unit(number, unit).is_assignable()).collect()
        };
        let with_units = |(number, channel)| match channel {
            Channel::Units { kind, count } => Some((number, kind, assignable(number, count))),
            Channel::Drum { .. } => None,
        };
        Free {
            core,
            drum: self.configuration.drum().map_or(0..0, |length| DRUM_START..length),
            drum_held: self
                .jobs()
                .map(|(_, job)| job.assignment.drum.clone())
                .filter(|area| !area.is_empty())
                .collect(),
            channels: self.configuration.channels().filter_map(with_units).collect(),
        }
    }

    /// The place of the job that holds a block of core.
    pub fn core_holder(&self, block: u32) -> Option<usize> {
        let holds = |job: &Job| job.assignment.ib.contains(&block) || job.assignment.db.contains(&block);
        self.jobs().find(|(_, job)| holds(job)).map(|(place, _)| place)
    }

    /// The held areas of the drum with their places, ascending by address.
    pub fn drum_areas(&self) -> Vec<(Range<u32>, usize)> {
        let mut areas: Vec<_> = self.jobs().map(|(place, job)| (job.assignment.drum.clone(), place)).collect();
        areas.retain(|(area, _)| !area.is_empty());
        areas.sort_by_key(|(area, _)| area.start);
        areas
    }
}
