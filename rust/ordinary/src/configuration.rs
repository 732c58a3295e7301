//! The configuration of the cell: its channels, the units that are down from the start, and the failure codes that set
//! interlock.

use crate::numbers::{ChannelNumber, Kind, UnitNumber};

/// The lowest drum address that may be assigned.
pub const DRUM_START: u32 = 0o105001;

const MOST_CHANNELS: u32 = 16;
const MOST_DOWN: u32 = 256;
const MOST_CODES: u32 = 60;

/// What is configured on a channel.
#[derive(Clone, Copy, Debug, PartialEq, Eq)]
pub enum Channel {
    /// `count` units of a kind other than the drum, numbered from 0.
    Units { kind: Kind, count: u8 },
    /// A drum with the addresses 0 to `length - 1`.
    Drum { length: u32 },
}

impl Channel {
    pub fn kind(self) -> Kind {
        match self {
            Channel::Units { kind, .. } => kind,
            Channel::Drum { .. } => Kind::Md,
        }
    }

    /// The number of units; the drum has none.
    pub fn unit_count(self) -> u8 {
        match self {
            Channel::Units { count, .. } => count,
            Channel::Drum { .. } => 0,
        }
    }
}

/// The first bad or missing line of a configuration, counted from 1 (refusal 14).
#[derive(Clone, Copy, Debug, PartialEq, Eq)]
pub struct BadLine(pub usize);

#[derive(Clone, Debug, Default, PartialEq, Eq)]
pub struct Configuration {
    channels: [Option<Channel>; 16],
    /// Ascending.
    down: Vec<(ChannelNumber, UnitNumber)>,
    /// The failure codes that set interlock, ascending.
    codes: Vec<u8>,
}

impl Configuration {
    /// Reads a whole text that is a configuration and nothing else.
    pub fn from_text(text: &[u8]) -> Result<Configuration, BadLine> {
        let mut lines = text.split_inclusive(|&byte| byte == b'\n');
        let mut read = 0;
        let configuration = Configuration::from_lines(|| {
            read += 1;
            lines.next()
        })?;
        match lines.next() {
            None => Ok(configuration),
            Some(_) => Err(BadLine(read + 1)),
        }
    }

    /// Reads a configuration from lines, each with its LF, and takes no line more than it needs. A line is judged with
    /// the lines before it and no others.
    pub fn from_lines<L: AsRef<[u8]>>(next_line: impl FnMut() -> Option<L>) -> Result<Configuration, BadLine> {
        let mut lines = Lines { next_line, number: 0 };
        let mut configuration = Configuration::default();
        for _ in 0..lines.judge(|line| read_count(line, MOST_CHANNELS))? {
            lines.judge(|line| configuration.add_channel(line))?;
        }
        for _ in 0..lines.judge(|line| read_count(line, MOST_DOWN))? {
            lines.judge(|line| configuration.add_down(line))?;
        }
        for _ in 0..lines.judge(|line| read_count(line, MOST_CODES))? {
            lines.judge(|line| configuration.add_code(line))?;
        }
        Ok(configuration)
    }

    /// Adds the channel of a line `cc KK n`.
    fn add_channel(&mut self, line: &[u8]) -> Option<()> {
        let [channel, kind, n] = words(line)?;
        let channel = usize::from(two_digits(channel)?);
        if channel > 15 || self.channels[channel..].iter().any(Option::is_some) {
            return None;
        }
        let n = plain_number(n)?;
        self.channels[channel] = Some(match Kind::from_letters(kind)? {
            Kind::Md if self.drum().is_none() && (DRUM_START + 1..=1_000_000).contains(&n) => {
                Channel::Drum { length: n }
            }
            Kind::Md => return None,
            kind if (1..=16).contains(&n) => Channel::Units { kind, count: n as u8 },
            _ => return None,
        });
        Some(())
    }

    /// Adds the down unit of a line `cc uu`.
    fn add_down(&mut self, line: &[u8]) -> Option<()> {
        let [channel, unit] = words(line)?;
        let channel = ChannelNumber(two_digits(channel)?);
        let unit = UnitNumber(two_digits(unit)?);
        if unit.0 >= self.channel(channel)?.unit_count()
            || self.down.last().is_some_and(|&last| last >= (channel, unit))
        {
            return None;
        }
        self.down.push((channel, unit));
        Some(())
    }

    /// Adds the code of a line of two octal digits.
    fn add_code(&mut self, line: &[u8]) -> Option<()> {
        let code = two_octal_digits(line)?;
        if code < 0o02 || code == 0o16 || code == 0o17 || self.codes.last().is_some_and(|&last| last >= code) {
            return None;
        }
        self.codes.push(code);
        Some(())
    }

    /// What is configured on a channel; `None` too where the number is none.
    pub fn channel(&self, channel: ChannelNumber) -> Option<Channel> {
        self.channels.get(channel.index()).copied().flatten()
    }

    /// The configured channels, ascending.
    pub fn channels(&self) -> impl Iterator<Item = (ChannelNumber, Channel)> + '_ {
        ChannelNumber::all().filter_map(|number| Some((number, self.channel(number)?)))
    }

    /// The configured units, ascending; the drum has none.
    pub fn units(&self) -> impl Iterator<Item = (ChannelNumber, UnitNumber)> + '_ {
        let numbers = |count: u8| (0..count).map(UnitNumber);
        self.channels().flat_map(move |(number, channel)| numbers(channel.unit_count()).map(move |unit| (number, unit)))
    }

    /// The units that are down from the start, ascending.
    pub fn down(&self) -> &[(ChannelNumber, UnitNumber)] {
        &self.down
    }

    /// The failure codes that set interlock, ascending.
    pub fn codes(&self) -> &[u8] {
        &self.codes
    }

    /// Does a failure with this code, off the drum, set interlock?
    pub fn sets_interlock(&self, code: u8) -> bool {
        self.codes.contains(&code)
    }

    /// The drum's length, if there is a drum.
    pub fn drum(&self) -> Option<u32> {
        self.channels().find_map(|(_, channel)| match channel {
            Channel::Drum { length } => Some(length),
            Channel::Units { .. } => None,
        })
    }
}

/// The lines of a text, counted.
struct Lines<F> {
    next_line: F,
    number: usize,
}

impl<L: AsRef<[u8]>, F: FnMut() -> Option<L>> Lines<F> {
    /// Hands the next line without its LF to `judge`. A missing line, one without LF and one that `judge` does not
    /// take is bad.
    fn judge<T>(&mut self, judge: impl FnOnce(&[u8]) -> Option<T>) -> Result<T, BadLine> {
        self.number += 1;
        let line = (self.next_line)();
        let line = line.as_ref().and_then(|line| line.as_ref().strip_suffix(b"\n"));
        line.and_then(judge).ok_or(BadLine(self.number))
    }
}

/// What the listing program prints: for each channel but the drum's its assignable units in the fresh cell.
pub fn listing(text: &[u8]) -> String {
    let configuration = match Configuration::from_text(text) {
        Ok(configuration) => configuration,
        Err(BadLine(line)) => return format!("ER 14 LINE {line}\n"),
    };
    let mut listing = String::new();
    for (number, channel) in configuration.channels() {
        if let Channel::Units { count, .. } = channel {
            let down = configuration.down.iter().filter(|(channel, _)| *channel == number).count();
            listing += &format!("{:02} {}\n", number.0, usize::from(count) - down);
        }
    }
    listing
}

/// Exactly `N` words with single spaces between them.
fn words<const N: usize>(line: &[u8]) -> Option<[&[u8]; N]> {
    line.split(|&byte| byte == b' ').collect::<Vec<_>>().try_into().ok()
}

fn read_count(line: &[u8], most: u32) -> Option<u32> {
    plain_number(line).filter(|&count| count <= most)
}

/// A decimal number without leading zero. One of over seven digits is above every limit here.
fn plain_number(text: &[u8]) -> Option<u32> {
    let leading_zero = text.len() > 1 && text[0] == b'0';
    if text.is_empty() || text.len() > 7 || leading_zero || !text.iter().all(u8::is_ascii_digit) {
        return None;
    }
    Some(text.iter().fold(0, |number, digit| number * 10 + u32::from(digit - b'0')))
}

fn two_digits(text: &[u8]) -> Option<u8> {
    match text {
        [tens @ b'0'..=b'9', ones @ b'0'..=b'9'] => Some((tens - b'0') * 10 + (ones - b'0')),
        _ => None,
    }
}

/// Two digits of 0 to 7; the value is at most 77 octal.
fn two_octal_digits(text: &[u8]) -> Option<u8> {
    match text {
        [eights @ b'0'..=b'7', ones @ b'0'..=b'7'] => Some((eights - b'0') * 8 + (ones - b'0')),
        _ => None,
    }
}

#[cfg(test)]
mod tests;
