//! Moments of a night, as they are asked for: after a call, or by the clock.

use crate::journal::Journal;
use crate::time::{self, Time, DAY, SECOND};

/// So far from the night's calls may a time of day be that is asked for.
const NEAR: u64 = DAY / 4;

/// What is asked for.
#[derive(Clone, Copy, Debug, PartialEq, Eq)]
pub enum Moment {
    Call(usize),
    /// A time of day, in milliseconds, and the number of the day, if that is said.
    Clock(Option<u64>, u64),
}

impl Moment {
    /// `34`, `02:40`, `02:40:07`, or with a date, `2026-11-17T02:40`.
    pub fn read(word: &str) -> Option<Moment> {
        if !word.is_empty() && word.bytes().all(|byte| byte.is_ascii_digit()) {
            return word.parse().ok().map(Moment::Call);
        }
        let word = word.strip_suffix('Z').unwrap_or(word);
        match word.split_once(['T', ' ']) {
            Some((day, of_day)) => Some(Moment::Clock(Some(time::day(day)?), time::of_day(of_day)?)),
            None => Some(Moment::Clock(None, time::of_day(word)?)),
        }
    }

    /// How many of the journal's calls have been made at this moment, the one of that number or second included.
    pub fn calls(self, journal: &Journal) -> Result<usize, String> {
        match self {
            Moment::Call(call) if call <= journal.calls.len() => Ok(call),
            Moment::Call(call) => Err(format!("the journal has {} calls, and no call {call}", journal.calls.len())),
            Moment::Clock(..) => {
                let end = Time(self.time(journal)?.0 + SECOND);
                Ok(journal.calls.partition_point(|answered| answered.time.is_some_and(|time| time < end)))
            }
        }
    }

    /// How many of the journal's calls are before this moment.
    pub fn calls_before(self, journal: &Journal) -> Result<usize, String> {
        match self {
            Moment::Call(_) => Ok(self.calls(journal)?.saturating_sub(1)),
            Moment::Clock(..) => {
                let time = self.time(journal)?;
                Ok(journal.calls.partition_point(|answered| answered.time.is_some_and(|at| at < time)))
            }
        }
    }

    /// The time that is meant: that of the day on which the night was; near it, if it is at no time of the night.
    fn time(self, journal: &Journal) -> Result<Time, String> {
        let (Some(begun), Some(last)) = (journal.begun, journal.last()) else {
            return Err("the journal is of the first format and has no times: ask for a call by its number".to_string());
        };
        let (day, of_day) = match self {
            Moment::Clock(day, of_day) => (day, of_day),
            Moment::Call(_) => return Err("a call is no time".to_string()),
        };
        if let Some(day) = day {
            return Ok(Time(day * DAY + of_day));
        }
        let days = begun.day().saturating_sub(1)..=last.day() + 1;
        let times: Vec<Time> = days.map(|day| Time(day * DAY + of_day)).collect();
        // Whole seconds are asked for, so one that the first call is in counts.
        let within = |time: &&Time| time.0 + SECOND > begun.0 && **time <= last;
        let after = |time: &&Time| **time > last && time.0 <= last.0 + NEAR;
        let before = |time: &&Time| time.0 + SECOND <= begun.0 && time.0 + NEAR >= begun.0;
        let inside: Vec<&Time> = times.iter().filter(within).collect();
        match inside[..] {
            [time] => Ok(*time),
            [] => times.iter().find(after).or(times.iter().find(before)).copied().ok_or(self.far(begun, last)),
            [first, ..] => Err(format!(
                "{} came on {} days of this journal: say which, as {}T{}",
                first.clock(),
                inside.len(),
                first.date(),
                first.clock()
            )),
        }
    }

    fn far(self, begun: Time, last: Time) -> String {
        let Moment::Clock(_, of_day) = self else { return String::new() };
        let night = format!("from {} {} to {} {}", begun.date(), begun.clock(), last.date(), last.clock());
        format!("{} UTC is far from this journal, which goes {night}", Time(of_day).clock())
    }
}

#[cfg(test)]
mod tests {
    use super::*;
    use crate::calls::Call;
    use crate::journal::Answered;

    /// A night that began at 22:00:00.500 on the day 10, with calls so many seconds after 22:00.
    fn night(seconds: &[u64]) -> Journal {
        let at = |seconds: u64| Some(Time(10 * DAY + (22 * 3600 + seconds) * SECOND + 500));
        let answered = |&seconds| Answered {
            time: at(seconds),
            ..Answered::new(Call { text: b"SELECT\n".to_vec(), open: false }, b"NO 19\n")
        };
        Journal { begun: at(0), calls: seconds.iter().map(answered).collect(), ..Journal::default() }
    }

    fn calls(word: &str, seconds: &[u64]) -> Result<usize, String> {
        Moment::read(word).unwrap().calls(&night(seconds))
    }

    #[test]
    fn words_are_calls_or_times() {
        assert_eq!(Moment::read("34"), Some(Moment::Call(34)));
        assert_eq!(Moment::read("02:40"), Some(Moment::Clock(None, 9_600_000)));
        let with_day = Some(Moment::Clock(Some(1), 9_607_000));
        assert_eq!(
            ["1970-01-02T02:40:07", "1970-01-02 02:40:07", "1970-01-02T02:40:07Z"].map(Moment::read),
            [with_day; 3]
        );
        let others = ["", "2:40", "24:00", "x", "-1", "+3", "02:40:", "1970-01-02", "99999999999999999999999"];
        assert_eq!(others.map(Moment::read), [None; 9]);
    }

    #[test]
    fn a_time_counts_the_calls_up_to_its_second() {
        let seconds = [60, 60, 7200, 7260, 10_000];
        for (word, due) in [("22:00:59", 0), ("22:01", 2), ("23:59:59", 2), ("00:00", 3), ("00:01", 4), ("00:46:39", 4)]
        {
            assert_eq!(calls(word, &seconds), Ok(due), "{word}");
        }
        // Near the night, and on a day that is said.
        assert_eq!((calls("06:00", &seconds), calls("21:59", &seconds)), (Ok(5), Ok(0)));
        assert_eq!((calls("1970-01-11T23:00", &seconds), calls("1970-01-12T00:00", &seconds)), (Ok(2), Ok(3)));
        let before = |word: &str| Moment::read(word).unwrap().calls_before(&night(&seconds));
        assert_eq!(["22:01", "22:01:01", "00:00", "3", "1"].map(before), [Ok(0), Ok(2), Ok(2), Ok(2), Ok(0)]);
    }

    #[test]
    fn what_cannot_be_told_is_said() {
        let long = [60, 100_000, 200_000];
        assert!(calls("23:00", &long).unwrap_err().contains("came on 3 days"));
        assert!(calls("12:00", &[60]).unwrap_err().contains("12:00:00 UTC is far from this journal"));
        assert!(calls("4", &long).unwrap_err().contains("no call 4"));
        let first = Journal { begun: None, ..night(&[]) };
        assert!(Moment::Clock(None, 0).calls(&first).unwrap_err().contains("has no times"));
    }
}
