//! What decks ask for and what the lines of a script meet of each kind of unit, for the count of a run.

use std::collections::{BTreeMap, BTreeSet};

use ordinary::card::{Code, Request};
use ordinary::cell::Cell;
use ordinary::configuration::Channel;
use ordinary::functions;
use ordinary::numbers::{ChannelNumber, Kind, UnitNumber};

use crate::codes::FAILURES;

/// The entries of good requests by their kind, and the requests that have all six kinds of unit.
pub fn on_cards(deck: &[u8]) -> BTreeMap<String, u64> {
    let mut counts = BTreeMap::new();
    let cards = ordinary::deck::cards(deck).unwrap_or_default();
    for request in ordinary::deck::groups(&cards).filter_map(|group| Request::read(group).ok()) {
        let kinds = request.entries.iter().filter_map(|entry| match entry.code {
            Code::Of(kind) if kind != Kind::Md => Some(kind),
            _ => None,
        });
        let kinds: Vec<Kind> = kinds.collect();
        for kind in &kinds {
            *counts.entry(format!("entry {}", kind.letters())).or_default() += 1;
        }
        let different: BTreeSet<Kind> = kinds.into_iter().collect();
        if different.len() == Kind::WITH_UNITS.len() {
            *counts.entry("request for all six kinds".into()).or_default() += 1;
        }
    }
    counts
}

/// What a line meets that the cell is about to be told: which kind, and what is done to a unit of it.
pub fn met(cell: &Cell, line: &[u8]) -> Option<String> {
    let line = std::str::from_utf8(line).ok()?.strip_suffix('\n')?;
    let words: Vec<&str> = line.split(' ').collect();
    let n = |word: &str| word.parse::<u32>().ok();
    let (kind, what) = match words[..] {
        ["SUBMIT", place, _, function, channel, x, ..] => {
            let function = u8::from_str_radix(function, 8).ok().filter(|&function| function <= functions::LAST)?;
            let kind = held_unit(cell, n(place)? as usize, n(channel)?, n(x)?)?;
            (
                kind,
                if functions::is_legal(kind, function) { "a legal function" } else { "a function that is not legal" },
            )
        }
        ["RETURN", place, channel, unit] => {
            (held_unit(cell, n(place)? as usize, n(channel)?, n(unit)?)?, "given back, or once more")
        }
        ["DOWN" | "UP" | "RESERVE" | "UNRESERVE", channel, unit] => {
            (unit_there(cell, n(channel)?, n(unit)?)?.0, "marked")
        }
        ["FAIL", channel, code] => {
            let code = u8::from_str_radix(code, 8).ok().filter(|code| FAILURES.contains(code))?;
            let number = ChannelNumber(u8::try_from(n(channel)?).ok().filter(|number| *number < 16)?);
            let name = cell.moving(number)?;
            let kind = unit_there(cell, number.0.into(), cell.packet(name).target)?.0;
            (kind, if cell.configuration().sets_interlock(code) { "interlock" } else { "failed without interlock" })
        }
        ["END" | "ABORT", place] => return ended(cell, n(place)? as usize),
        _ => return None,
    };
    Some(format!("{}: {what}", kind.letters()))
}

/// The kinds of the units that the job in this place was given.
pub fn selected(cell: &Cell, place: usize) -> Vec<String> {
    let Some((_, job)) = cell.jobs().find(|(at, _)| *at == place) else { return Vec::new() };
    let entries = job.assignment.units.iter().map(|(entry, _)| entry.code);
    let codes: BTreeSet<Code> = entries.collect();
    let taken = |kind: &Kind| codes.contains(&Code::Of(*kind));
    let mut counts: Vec<String> =
        Kind::WITH_UNITS.iter().filter(|kind| taken(kind)).map(|kind| format!("{}: taken", kind.letters())).collect();
    if codes.len() > 3 {
        counts.push(format!("taken, units of {} kinds", codes.len()));
    }
    counts
}

/// A job ends while a unit moves: of which kind the first such unit is.
fn ended(cell: &Cell, place: usize) -> Option<String> {
    cell.jobs().find(|(at, job)| *at == place && job.end.is_none())?;
    let moving = ChannelNumber::all().filter_map(|at| Some((at, cell.moving(at)?)));
    let mut of_job = moving.filter(|(_, name)| name.place == place);
    let kind = of_job.find_map(|(at, name)| Some(unit_there(cell, at.0.into(), cell.packet(name).target)?.0))?;
    Some(format!("{}: moves while its job ends", kind.letters()))
}

/// A configured unit: its kind and who holds it.
fn unit_there(cell: &Cell, channel: u32, unit: u32) -> Option<(Kind, Option<usize>)> {
    let number = ChannelNumber(u8::try_from(channel).ok()?);
    match cell.configuration().channel(number)? {
        Channel::Units { kind, count } if unit < count.into() => {
            Some((kind, cell.unit(number, UnitNumber(unit as u8)).holder))
        }
        _ => None,
    }
}

/// The kind of a unit that the job in this place holds.
fn held_unit(cell: &Cell, place: usize, channel: u32, unit: u32) -> Option<Kind> {
    let (kind, holder) = unit_there(cell, channel, unit)?;
    (holder == Some(place)).then_some(kind)
}
