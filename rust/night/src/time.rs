//! Times of the journal: milliseconds since 1970, UTC, written as `2026-11-17T02:41:07.123Z`.

use std::fmt;

pub const SECOND: u64 = 1000;
pub const DAY: u64 = 86_400 * SECOND;

#[derive(Clone, Copy, Debug, Default, PartialEq, Eq, PartialOrd, Ord)]
pub struct Time(pub u64);

/// The year, month and day that has this number, 0 being the first of 1970. Years are reckoned from March on, so that a
/// leap day is the last of its year.
fn date(day: u64) -> (u64, u64, u64) {
    let day = day + 719_468;
    let (era, of_era) = (day / 146_097, day % 146_097);
    let year = (of_era - of_era / 1460 + of_era / 36_524 - of_era / 146_096) / 365;
    let of_year = of_era - (365 * year + year / 4 - year / 100);
    let month = (5 * of_year + 2) / 153;
    let (of_month, month) = (of_year - (153 * month + 2) / 5 + 1, if month < 10 { month + 3 } else { month - 9 });
    (era * 400 + year + u64::from(month <= 2), month, of_month)
}

/// The number of the day `2026-11-17`, from 1970 on.
pub fn day(text: &str) -> Option<u64> {
    let parts: Vec<&str> = text.split('-').collect();
    let [year, month, of_month] = parts[..] else { return None };
    let (year, month, of_month) = (digits(year, 4)?, digits(month, 2)?, digits(of_month, 2)?);
    if !(1970..=9999).contains(&year) || !(1..=12).contains(&month) || of_month == 0 {
        return None;
    }
    let (years, months) = if month > 2 { (year, month - 3) } else { (year - 1, month + 9) };
    let of_year = (153 * months + 2) / 5 + of_month - 1;
    let number = years * 365 + years / 4 - years / 100 + years / 400 + of_year - 719_468;
    (date(number) == (year, month, of_month)).then_some(number)
}

/// The milliseconds of `02:41` or `02:41:07`.
pub fn of_day(text: &str) -> Option<u64> {
    let parts: Vec<&str> = text.split(':').collect();
    let (hour, minute, second) = match parts[..] {
        [hour, minute] => (digits(hour, 2)?, digits(minute, 2)?, 0),
        [hour, minute, second] => (digits(hour, 2)?, digits(minute, 2)?, digits(second, 2)?),
        _ => return None,
    };
    (hour < 24 && minute < 60 && second < 60).then_some(((hour * 60 + minute) * 60 + second) * SECOND)
}

/// A number of just so many digits.
fn digits(text: &str, count: usize) -> Option<u64> {
    let fits = text.len() == count && text.bytes().all(|byte| byte.is_ascii_digit());
    text.parse().ok().filter(|_| fits)
}

/// Writes a number with as many digits as there is room. Each record has a time, so this is done by hand.
fn put(room: &mut [u8], mut number: u64) {
    for digit in room.iter_mut().rev() {
        *digit = b'0' + (number % 10) as u8;
        number /= 10;
    }
}

impl Time {
    /// A time as the journal has it.
    pub fn read(text: &str) -> Option<Time> {
        let (date, rest) = text.strip_suffix('Z')?.split_once('T')?;
        let (seconds, milliseconds) = rest.split_once('.')?;
        let seconds = of_day(seconds).filter(|_| seconds.len() == 8)?;
        Some(Time(day(date)? * DAY + seconds + digits(milliseconds, 3)?))
    }

    pub fn day(self) -> u64 {
        self.0 / DAY
    }

    pub fn date(self) -> String {
        let (year, month, of_month) = date(self.day());
        format!("{year:04}-{month:02}-{of_month:02}")
    }

    /// `02:41:07`.
    pub fn clock(self) -> String {
        let seconds = self.0 % DAY / SECOND;
        format!("{:02}:{:02}:{:02}", seconds / 3600, seconds / 60 % 60, seconds % 60)
    }
}

impl fmt::Display for Time {
    fn fmt(&self, to: &mut fmt::Formatter) -> fmt::Result {
        let ((year, month, of_month), seconds) = (date(self.day()), self.0 % DAY / SECOND);
        let mut text = *b"0000-00-00T00:00:00.000Z";
        let clock = [(11, seconds / 3600), (14, seconds / 60 % 60), (17, seconds % 60)];
        [(5, month), (8, of_month)]
            .into_iter()
            .chain(clock)
            .for_each(|(at, number)| put(&mut text[at..at + 2], number));
        put(&mut text[..4], year);
        put(&mut text[20..23], self.0 % SECOND);
        to.write_str(std::str::from_utf8(&text).unwrap_or_default())
    }
}

#[cfg(test)]
mod tests {
    use super::*;

    #[test]
    fn times_are_written_and_read_back() {
        for (time, text) in [
            (0, "1970-01-01T00:00:00.000Z"),
            (951_782_399_999, "2000-02-28T23:59:59.999Z"),
            (951_782_400_000, "2000-02-29T00:00:00.000Z"),
            (1_794_883_267_123, "2026-11-17T02:41:07.123Z"),
            (4_107_542_400_000, "2100-03-01T00:00:00.000Z"),
        ] {
            assert_eq!(Time(time).to_string(), text);
            assert_eq!(Time::read(text), Some(Time(time)));
        }
    }

    #[test]
    fn every_day_up_to_2200_follows_the_one_before() {
        let mut last = "1969-12-31".to_string();
        for number in 0..84_006 {
            let date = Time(number * DAY).date();
            assert_eq!(day(&date), Some(number));
            assert!(date > last, "{date} after {last}");
            last = date;
        }
        assert_eq!(last, "2199-12-31");
    }

    #[test]
    fn what_is_no_time_is_none() {
        for text in ["2026-11-17", "2026-02-29T00:00:00.000Z", "2026-13-01T00:00:00.000Z", "2026-11-17T24:00:00.000Z"] {
            assert_eq!(Time::read(text), None, "{text}");
        }
        for text in ["2026-11-17T02:41:07.123", "2026-11-17T02:41.123Z", "2026-11-17T02:41:07.12Z", "+026-11-17T0"] {
            assert_eq!(Time::read(text), None, "{text}");
        }
        assert_eq!(["2:40", "02:60", "02:40:60", "0240", "02:40:7", "+2:40"].map(of_day), [None; 6]);
        assert_eq!(of_day("02:40"), Some(9600 * SECOND));
    }
}
