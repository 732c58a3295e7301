//! The words of a line: numbers, places, channels.

use ordinary::cell::Job;
use ordinary::numbers::ChannelNumber;

use super::{has_something, Writer};

impl Writer<'_> {
    pub(super) fn number(&mut self, number: u32) -> String {
        match self.random.below(20) {
            0 => format!("{number:02}"),
            1 => format!("{number:09}"),
            _ => number.to_string(),
        }
    }

    pub(super) fn octal(&mut self, number: u8) -> String {
        match self.random.below(10) {
            0 => format!("{number:o}"),
            1 => format!("{number:09o}"),
            _ => format!("{number:02o}"),
        }
    }

    pub(super) fn random_job(&mut self) -> Option<(usize, Job)> {
        let mut jobs: Vec<(usize, &Job)> = self.shift.cell().jobs().collect();
        // Mostly one that has something to submit to.
        let cell = self.shift.cell();
        if jobs.iter().any(|job| has_something(cell, *job)) && self.random.percent(90) {
            jobs.retain(|job| has_something(cell, *job));
        }
        if jobs.is_empty() {
            return None;
        }
        let (place, job) = *self.random.pick(&jobs);
        Some((place, job.clone()))
    }

    pub(super) fn place(&mut self) -> String {
        let place = if self.random.percent(95) { self.random.below(16) } else { self.random.within(16..=300) };
        self.number(place as u32)
    }

    pub(super) fn any_channel(&mut self) -> String {
        let channels: Vec<ChannelNumber> =
            self.shift.cell().configuration().channels().map(|(number, _)| number).collect();
        if channels.is_empty() || self.random.percent(8) {
            let channel = if self.random.percent(80) { self.random.within(0..=17) } else { self.random.below(1000) };
            self.number(channel as u32)
        } else {
            let channel = *self.random.pick(&channels);
            self.number(channel.0.into())
        }
    }

    /// A channel with something listed, mostly.
    pub(super) fn channel_to_start(&mut self) -> String {
        let listed: Vec<ChannelNumber> = self.shift.cell().listed().map(|(channel, _)| channel).collect();
        if listed.is_empty() || self.random.percent(10) {
            self.any_channel()
        } else {
            let channel = *self.random.pick(&listed);
            self.number(channel.0.into())
        }
    }
}
