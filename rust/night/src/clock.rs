//! The clock of a night: the system's, except that it never goes back, and that its jumps are noticed.

use std::time::{Instant, SystemTime, UNIX_EPOCH};

use crate::time::{Time, SECOND};

/// What the system's clock may be off from what has passed, in milliseconds, without being called a jump.
const JUMP: i64 = SECOND as i64;

/// For the tests of this program alone: a file with two numbers, the milliseconds since 1970 that the system's clock is
/// to show, and those that have passed since the machine started. A night that runs on it records what it says there.
const TEST_CLOCK: &str = "NIGHT_TEST_CLOCK";

/// What the system's clock shows, and how much time has passed since some moment, in milliseconds. The second one is
/// never set.
#[derive(Clone, Copy, Debug)]
pub struct Reading {
    pub system: u64,
    pub passed: u64,
}

/// The time that is recorded, and by how much the system's clock has jumped, ahead or back.
#[derive(Clone, Copy, Debug, PartialEq, Eq)]
pub struct Tick {
    pub time: Time,
    pub jump: Option<i64>,
}

pub struct Clock {
    /// The last time that was recorded.
    last: Time,
    before: Option<Reading>,
    started: Instant,
    test: Option<std::ffi::OsString>,
}

impl Clock {
    /// A clock whose times are not before this one.
    pub fn after(last: Time) -> Clock {
        Clock { last, before: None, started: Instant::now(), test: std::env::var_os(TEST_CLOCK) }
    }

    pub fn tick(&mut self) -> Tick {
        let reading = self.read();
        self.take(reading)
    }

    fn read(&self) -> Reading {
        if let Some(reading) = self.test.as_ref().and_then(|file| test_reading(file)) {
            return reading;
        }
        let system = SystemTime::now().duration_since(UNIX_EPOCH).unwrap_or_default();
        Reading { system: system.as_millis() as u64, passed: self.started.elapsed().as_millis() as u64 }
    }

    fn take(&mut self, now: Reading) -> Tick {
        // What it should show: that much later than it did, or, when a night goes on, no earlier than the last call.
        let due = match self.before {
            Some(before) => before.system + now.passed.saturating_sub(before.passed),
            None => self.last.0,
        };
        let off = now.system as i64 - due as i64;
        let jumped = if self.before.is_some() { off.abs() >= JUMP } else { off <= -JUMP };
        self.before = Some(now);
        self.last = self.last.max(Time(now.system));
        Tick { time: self.last, jump: jumped.then_some(off) }
    }
}

fn test_reading(file: &std::ffi::OsStr) -> Option<Reading> {
    let text = std::fs::read_to_string(file).ok()?;
    let (system, passed) = text.trim_end().split_once(' ')?;
    Some(Reading { system: system.parse().ok()?, passed: passed.parse().ok()? })
}

#[cfg(test)]
mod tests {
    use super::*;

    /// What the clock says when the system's shows this, after so many milliseconds.
    fn ticks(last: u64, readings: &[(u64, u64)]) -> Vec<(u64, Option<i64>)> {
        let mut clock = Clock::after(Time(last));
        let take = |&(system, passed)| clock.take(Reading { system, passed });
        readings.iter().map(take).map(|tick| (tick.time.0, tick.jump)).collect()
    }

    #[test]
    fn times_are_those_of_the_system_and_never_go_back() {
        assert_eq!(ticks(0, &[(5000, 0), (5001, 1), (9000, 4000)]), [(5000, None), (5001, None), (9000, None)]);
        // Less than a second is no jump, but the time does not go back for it.
        assert_eq!(ticks(0, &[(5000, 0), (4500, 100), (4600, 200)]), [(5000, None), (5000, None), (5000, None)]);
    }

    #[test]
    fn a_jump_is_told_once_and_its_size_is_what_was_not_passed() {
        let back = [(10_000, 0), (7000, 500), (7500, 1000), (11_000, 4500)];
        assert_eq!(ticks(0, &back), [(10_000, None), (10_000, Some(-3500)), (10_000, None), (11_000, None)]);
        let ahead = [(10_000, 0), (60_000, 1000), (61_000, 2000)];
        assert_eq!(ticks(0, &ahead), [(10_000, None), (60_000, Some(49_000)), (61_000, None)]);
    }

    #[test]
    fn a_night_that_goes_on_notices_a_clock_that_was_set_back() {
        assert_eq!(ticks(10_000, &[(60_000, 0)]), [(60_000, None)]);
        assert_eq!(ticks(10_000, &[(4000, 0), (4100, 100)]), [(10_000, Some(-6000)), (10_000, None)]);
        assert_eq!(ticks(10_000, &[(9500, 0)]), [(10_000, None)]);
    }
}
