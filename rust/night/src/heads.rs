//! The heads and the drum as the answers tell of them: who holds what, what moves, and what is marked. Nothing is
//! decided here: a call counts only if the program has accepted it, and the places, units and packets are those of its
//! answers.

use std::collections::BTreeMap;

use crate::journal::Answered;

pub const PLACES: usize = 16;
const CHANNELS: usize = 16;
/// Functions that act on a holding and do not move a block.
const REMOVE_INTERLOCK: u32 = 0o07;
const TERMINATE: u32 = 0o23;

/// A channel and a unit on it.
pub type HeadName = (u32, u32);

#[derive(Clone, Copy, Debug, Default, PartialEq, Eq)]
pub struct Head {
    /// The place of the job that holds it.
    pub holder: Option<usize>,
    /// The job has given it back, and holds it until what moves there completes.
    pub returning: bool,
    /// Shown only while it is held: the next job is given the head without it.
    pub interlock: bool,
    pub down: bool,
    pub reserved: bool,
}

impl Head {
    /// No job holds it any more.
    fn free(&mut self) {
        self.holder = None;
        self.returning = false;
    }
}

#[derive(Clone, Debug, PartialEq, Eq)]
pub struct Job {
    pub id: String,
    pub closing: bool,
    /// The first and the last word of its drum area.
    pub area: Option<(u32, u32)>,
}

/// A packet in progress or stopping.
#[derive(Clone, Copy, Debug, PartialEq, Eq)]
pub struct Moving {
    pub place: usize,
    pub packet: u32,
    pub function: u32,
    /// The unit, or on the drum channel the address.
    pub target: u32,
    pub stopping: bool,
}

#[derive(Clone, Debug, Default)]
pub struct Heads {
    pub drum: Option<u32>,
    pub heads: BTreeMap<HeadName, Head>,
    pub jobs: [Option<Job>; PLACES],
    moving: [Option<Moving>; CHANNELS],
    /// The failure codes that set interlock.
    codes: Vec<u32>,
}

fn number(word: &str) -> Option<u32> {
    word.parse().ok()
}

fn octal(word: &str) -> Option<u32> {
    u32::from_str_radix(word, 8).ok()
}

impl Heads {
    /// The fresh cell of a configuration that the program has accepted. What is no such text answers `None`.
    pub fn fresh(configuration: &[u8]) -> Option<Heads> {
        let text = std::str::from_utf8(configuration).ok()?;
        let mut lines = text.lines();
        let mut heads = Heads::default();
        let channels = number(lines.next()?)? as usize;
        lines.by_ref().take(channels).try_for_each(|line| heads.add_channel(line))?;
        let down = number(lines.next()?)? as usize;
        lines.by_ref().take(down).try_for_each(|line| heads.add_down(line))?;
        let codes = number(lines.next()?)? as usize;
        heads.codes = lines.take(codes).map(octal).collect::<Option<_>>()?;
        Some(heads)
    }

    fn add_down(&mut self, line: &str) -> Option<()> {
        let (channel, unit) = line.split_once(' ')?;
        self.head(number(channel)?, number(unit)?)?.down = true;
        Some(())
    }

    fn add_channel(&mut self, line: &str) -> Option<()> {
        let mut words = line.split(' ');
        let (channel, kind, count) = (number(words.next()?)?, words.next()?, number(words.next()?)?);
        if channel as usize >= CHANNELS {
            return None;
        }
        if kind == "MD" {
            self.drum = Some(channel);
            return Some(());
        }
        self.heads.extend((0..count.min(16)).map(|unit| ((channel, unit), Head::default())));
        Some(())
    }

    fn head(&mut self, channel: u32, unit: u32) -> Option<&mut Head> {
        self.heads.get_mut(&(channel, unit))
    }

    /// What moves on a channel.
    pub fn moving(&self, channel: u32) -> Option<Moving> {
        *self.moving.get(channel as usize)?
    }

    /// What moves on a head.
    pub fn moving_at(&self, (channel, unit): HeadName) -> Option<Moving> {
        self.moving(channel).filter(|moving| moving.target == unit)
    }

    /// What moves on the drum for the job in a place.
    pub fn moving_on_drum(&self, place: usize) -> Option<Moving> {
        self.moving(self.drum?).filter(|moving| moving.place == place)
    }

    pub fn job(&self, place: usize) -> Option<&Job> {
        self.jobs.get(place)?.as_ref()
    }

    /// Takes up a call with its answer. What was refused, and what only asks, changes nothing.
    pub fn hear(&mut self, answered: &Answered) {
        let line = answered.answer.line().unwrap_or_default();
        let (call, answer) = (String::from_utf8_lossy(&answered.call.text), String::from_utf8_lossy(line));
        let words: Vec<&str> = call.lines().next().unwrap_or_default().split(' ').collect();
        let said: Vec<&str> = answer.trim_end().split(' ').collect();
        // A call that is not as the program takes it cannot have been accepted; of a journal made by hand it is passed
        // over.
        let _ = match (&words[..], &said[..]) {
            // The answer to a message has the message's word before it.
            (["KEY", message @ ..], [_, "ACK"]) => self.accepted_message(message),
            (_, ["ACK", said @ ..]) => self.accepted(&words, said),
            _ => None,
        };
    }

    fn accepted(&mut self, words: &[&str], said: &[&str]) -> Option<()> {
        match *words {
            ["SELECT"] => self.selected(said),
            ["SUBMIT", place, _, function, channel, x, ref h @ ..] => {
                let h = h.first().map_or(Some(0), |h| number(h))?;
                self.submitted(number(place)? as usize, octal(function)?, number(channel)?, number(x)?, h)
            }
            ["START", channel] => self.started(number(channel)?, said),
            ["DONE" | "CUT", channel] => self.completed(number(channel)?, None),
            ["FAIL", channel, code] => self.completed(number(channel)?, Some(octal(code)?)),
            ["RETURN", place, channel, unit] => {
                self.given_back(number(place)? as usize, (number(channel)?, number(unit)?))
            }
            ["END" | "ABORT", place] => self.ended(number(place)? as usize),
            ["DOWN", channel, unit] => self.head(number(channel)?, number(unit)?).map(|head| head.down = true),
            ["UP", channel, unit] => self.head(number(channel)?, number(unit)?).map(|head| head.down = false),
            ["RESERVE", channel, unit] => self.head(number(channel)?, number(unit)?).map(|head| head.reserved = true),
            ["UNRESERVE", channel, unit] => {
                self.head(number(channel)?, number(unit)?).map(|head| head.reserved = false)
            }
            _ => None,
        }
    }

    /// `DWN Ccc Uuu` or `AVL Ccc Uuu`, with as many spaces and zeros as the operator likes. Other messages change no
    /// head.
    fn accepted_message(&mut self, message: &[&str]) -> Option<()> {
        let words: Vec<&str> = message.iter().copied().filter(|word| !word.is_empty()).collect();
        let (down, channel, unit) = match words[..] {
            ["DWN", channel, unit] => (true, channel, unit),
            ["AVL", channel, unit] => (false, channel, unit),
            _ => return None,
        };
        let (channel, unit) = (channel.strip_prefix('C')?, unit.strip_prefix('U')?);
        self.head(number(channel)?, number(unit)?)?.down = down;
        Some(())
    }

    /// `p id IB a-b`, then perhaps `MD a-b`, and each unit as `cc/uu`.
    fn selected(&mut self, said: &[&str]) -> Option<()> {
        let place = number(said.first()?)? as usize;
        let after = |name| said.iter().skip(2).skip_while(move |word| **word != name).nth(1);
        let area = after("MD").and_then(|area| area.split_once('-'));
        let area = area.and_then(|(first, last)| Some((number(first)?, number(last)?)));
        *self.jobs.get_mut(place)? = Some(Job { id: said.get(1)?.to_string(), closing: false, area });
        for (channel, unit) in said.iter().skip(2).filter_map(|word| word.split_once('/')) {
            let head = self.head(number(channel)?, number(unit)?)?;
            head.holder = Some(place);
            head.returning = false;
            head.interlock = false;
        }
        Some(())
    }

    fn submitted(&mut self, place: usize, function: u32, channel: u32, x: u32, h: u32) -> Option<()> {
        match function {
            REMOVE_INTERLOCK => self.head(channel, x)?.interlock = false,
            TERMINATE => {
                let targets = if self.drum == Some(channel) { x..=h } else { x..=x };
                let moving = self.moving.get_mut(channel as usize)?.as_mut()?;
                moving.stopping |= moving.place == place && targets.contains(&moving.target);
            }
            _ => {}
        }
        Some(())
    }

    /// `p k ff x`.
    fn started(&mut self, channel: u32, said: &[&str]) -> Option<()> {
        let [place, packet, function, target] = *said else { return None };
        let (place, function) = (number(place)? as usize, octal(function)?);
        let moving = Moving { place, packet: number(packet)?, function, target: number(target)?, stopping: false };
        *self.moving.get_mut(channel as usize)? = Some(moving);
        Some(())
    }

    /// A failure has a code; off the drum those of the configuration set interlock, and no others. A head that is being
    /// returned is free then.
    fn completed(&mut self, channel: u32, failure: Option<u32>) -> Option<()> {
        let moving = self.moving.get_mut(channel as usize)?.take()?;
        let locks = failure.is_some_and(|code| self.codes.contains(&code));
        if self.drum != Some(channel) {
            let head = self.head(channel, moving.target)?;
            head.interlock |= locks;
            if head.returning {
                head.free();
            }
        }
        self.return_if_closed(moving.place)
    }

    /// The job in a place gives a head back: it is free at once, or when that completes which still moves there.
    fn given_back(&mut self, place: usize, (channel, unit): HeadName) -> Option<()> {
        self.head(channel, unit).filter(|head| head.holder == Some(place))?;
        let moving = self.moving.get_mut(channel as usize)?.as_mut().filter(|moving| moving.target == unit);
        let waits = moving.map(|moving| moving.stopping = true).is_some();
        let head = self.head(channel, unit)?;
        if waits {
            head.returning = true;
        } else {
            head.free();
        }
        Some(())
    }

    fn ended(&mut self, place: usize) -> Option<()> {
        self.jobs.get_mut(place)?.as_mut()?.closing = true;
        for moving in self.moving.iter_mut().flatten().filter(|moving| moving.place == place) {
            moving.stopping = true;
        }
        self.return_if_closed(place)
    }

    /// A closing job of which nothing moves any more has returned everything.
    fn return_if_closed(&mut self, place: usize) -> Option<()> {
        let moves = self.moving.iter().flatten().any(|moving| moving.place == place);
        if moves || !self.job(place)?.closing {
            return None;
        }
        self.jobs[place] = None;
        self.heads.values_mut().filter(|head| head.holder == Some(place)).for_each(Head::free);
        Some(())
    }
}

#[cfg(test)]
mod tests;
