//! What the lines of a script meet of heads that are given back early, for the count of a run.

use ordinary::cell::{Cell, Job, PacketName, Status, Unit};
use ordinary::configuration::Channel;
use ordinary::functions::{self, REMOVE_INTERLOCK, TERMINATE};
use ordinary::numbers::{ChannelNumber, Kind, UnitNumber};

use crate::codes::FAILURES;

/// What a line meets that the cell is about to be told.
pub fn met(cell: &Cell, line: &[u8]) -> Option<String> {
    let line = std::str::from_utf8(line).ok()?.strip_suffix('\n')?;
    let words: Vec<&str> = line.split(' ').collect();
    let n = |word: &str| word.parse::<u32>().ok();
    match words[..] {
        ["RETURN", place, channel, unit] => Some(returned(cell, n(place)?, n(channel)?, n(unit)?)),
        ["SUBMIT", place, packet, function, channel, x, ..] => {
            let function = u8::from_str_radix(function, 8).ok().filter(|&function| function <= functions::LAST)?;
            submitted(cell, n(place)? as usize, n(packet)?, function, (n(channel)?, n(x)?))
        }
        ["DONE", channel] => completed(cell, n(channel)?, "full"),
        ["CUT", channel] => completed(cell, n(channel)?, "cut"),
        ["FAIL", channel, code] => {
            let code = u8::from_str_radix(code, 8).ok().filter(|code| FAILURES.contains(code))?;
            let locks = cell.configuration().sets_interlock(code);
            completed(cell, n(channel)?, if locks { "failed, code of the section" } else { "failed, another code" })
        }
        ["END" | "ABORT", place] => ended(cell, n(place)? as usize),
        [word @ ("DOWN" | "UP" | "RESERVE" | "UNRESERVE"), channel, unit] => {
            state(cell, n(channel)?, n(unit)?).filter(|unit| unit.returning)?;
            Some(format!("being returned: {word}"))
        }
        _ => None,
    }
}

/// What a selection has met that took the job in this place: a unit that another job was given, gave back, and would
/// hold still.
pub fn selected(cell: &Cell, place: usize) -> Option<String> {
    let taken = job(cell, place)?;
    let has_some = |other: &Job| units(other).any(|unit| units(taken).any(|taken| taken == unit));
    let (_, first) = cell.jobs().find(|(at, other)| *at != place && has_some(other))?;
    Some(format!("given back and taken by another job while the first one {}", runs(first)))
}

fn runs(job: &Job) -> &'static str {
    if job.end.is_none() {
        "runs"
    } else {
        "closes"
    }
}

fn job(cell: &Cell, place: usize) -> Option<&Job> {
    cell.jobs().find(|(at, _)| *at == place).map(|(_, job)| job)
}

/// The units that a job was given.
fn units(job: &Job) -> impl Iterator<Item = (ChannelNumber, UnitNumber)> + '_ {
    job.assignment.units.iter().flat_map(|(_, units)| units).copied()
}

fn configured(cell: &Cell, channel: u32) -> Option<(ChannelNumber, Channel)> {
    let number = ChannelNumber(u8::try_from(channel).ok()?);
    Some((number, cell.configuration().channel(number)?))
}

/// How a configured unit stands.
fn state(cell: &Cell, channel: u32, unit: u32) -> Option<Unit> {
    let (number, channel) = configured(cell, channel)?;
    (unit < channel.unit_count().into()).then(|| cell.unit(number, UnitNumber(unit as u8)))
}

/// The units that the job in a place is giving back.
fn returning(cell: &Cell, place: usize) -> usize {
    let units = cell.configuration().units().map(|(channel, unit)| cell.unit(channel, unit));
    units.filter(|unit| unit.returning && unit.holder == Some(place)).count()
}

fn returned(cell: &Cell, place: u32, channel: u32, unit: u32) -> String {
    match refused(cell, place, channel, unit) {
        Some(why) => format!("return refused, {why}"),
        None => format!("returned, {}", there(cell, ChannelNumber(channel as u8), unit)),
    }
}

fn refused(cell: &Cell, place: u32, channel: u32, unit: u32) -> Option<&'static str> {
    if place > 15 {
        return Some("1: no such place");
    }
    let Some((number, channel)) = configured(cell, channel) else { return Some("1: no such channel") };
    if channel.kind() == Kind::Md {
        return Some("1: the drum channel");
    }
    if unit >= channel.unit_count().into() {
        return Some("1: no such unit");
    }
    let unit = UnitNumber(unit as u8);
    let state = cell.unit(number, unit);
    let is_its_own = state.holder == Some(place as usize);
    let Some(job) = job(cell, place as usize) else { return Some("2: no job") };
    match state.holder {
        _ if job.end.is_some() && is_its_own && state.returning => Some("2: closing, and being returned"),
        _ if job.end.is_some() => Some("2: closing"),
        Some(_) if is_its_own && state.returning => Some("21"),
        Some(_) if is_its_own => None,
        _ if units(job).any(|given| given == (number, unit)) => Some("3: given back before"),
        Some(_) if state.returning => Some("3: another job's, and being returned"),
        Some(_) => Some("3: another job's"),
        None => Some("3: nobody's"),
    }
}

/// What a return finds on its unit.
fn there(cell: &Cell, channel: ChannelNumber, unit: u32) -> String {
    let on_channel = cell.moving(channel).map(|name| cell.packet(name));
    let moving = on_channel.filter(|packet| packet.target == unit);
    let listed = cell.listed().any(|(at, name)| at == channel && cell.packet(name).target == unit);
    let words = [
        match moving.map(|packet| packet.status) {
            None => "at rest",
            Some(Status::Stopping) => "already stopping",
            Some(_) => "in progress",
        },
        if listed { ", packets listed" } else { "" },
        if cell.unit(channel, UnitNumber(unit as u8)).interlock { ", interlock" } else { "" },
        if on_channel.is_some() && moving.is_none() { ", another unit of the channel moves" } else { "" },
    ];
    words.concat()
}

fn submitted(cell: &Cell, place: usize, packet: u32, function: u8, (channel, x): (u32, u32)) -> Option<String> {
    let unit = state(cell, channel, x).filter(|unit| unit.returning)?;
    let job = job(cell, place)?;
    let (_, channel) = configured(cell, channel)?;
    let status = cell.status(place as u32, packet).ok()?;
    let in_use = matches!(status, Status::Listed | Status::InProgress | Status::Stopping);
    let why = match function {
        _ if job.end.is_some() => "its job closes (2)",
        _ if unit.holder != Some(place) => "another job's (3)",
        _ if !functions::is_legal(channel.kind(), function) && in_use => "before 4 and 5",
        _ if !functions::is_legal(channel.kind(), function) => "before 4",
        _ if in_use => "before 5",
        REMOVE_INTERLOCK => "07",
        TERMINATE => "23",
        _ => "a block",
    };
    Some(format!("being returned: submission, {why}"))
}

/// A completion on a unit being returned, or of a job that has such a unit elsewhere. Those that are refused are not
/// counted.
fn completed(cell: &Cell, channel: u32, how: &str) -> Option<String> {
    let (number, configured) = configured(cell, channel)?;
    let name = cell.moving(number)?;
    let (job, target) = (job(cell, name.place)?, cell.packet(name).target);
    let is_stopping = cell.packet(name).status == Status::Stopping;
    let of_unit = configured.kind() != Kind::Md && cell.unit(number, UnitNumber(target as u8)).returning;
    if how == "cut" && !is_stopping {
        return None;
    }
    let is_another = |other: &PacketName| other.place == name.place && *other != name;
    let more = ChannelNumber::all().filter_map(|at| cell.moving(at)).any(|other| is_another(&other));
    let last = if job.end.is_some() && !more { ", the last" } else { "" };
    if of_unit {
        return Some(format!("being returned: completion {how}, job {}{last}", runs(job)));
    }
    (returning(cell, name.place) > 0).then(|| format!("being returned: completion elsewhere, job {}", runs(job)))
}

fn ended(cell: &Cell, place: usize) -> Option<String> {
    job(cell, place).filter(|job| job.end.is_none())?;
    let units = returning(cell, place);
    let moving = ChannelNumber::all().filter_map(|at| cell.moving(at)).filter(|name| name.place == place).count();
    let more = if moving > units { ", more moves" } else { "" };
    (units > 0).then(|| format!("being returned: its job ends{more}"))
}
