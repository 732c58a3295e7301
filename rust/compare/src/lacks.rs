//! Requests for just what is free, or for a little more of this and that, so that a selection has to say what is
//! lacking.

use ordinary::assign::ASSIGNABLE_CORE;
use ordinary::cell::Cell;
use ordinary::configuration::DRUM_START;
use ordinary::numbers::{Kind, UnitNumber};

use crate::decks;
use crate::random::Random;

/// Words of answers are IDs too.
pub const IDS: &[&str] = &["G", "GREEDY", "ACK", "NO", "CORE", "MT", "20", "IB", "MC", "PT"];

/// A deck of one to three requests, mostly one, and their IDs.
pub fn deck(random: &mut Random, cell: &Cell) -> (Vec<u8>, Vec<&'static str>) {
    let ids: Vec<&str> = (0..1 + random.weighted(&[60, 25, 15])).map(|_| *random.pick(IDS)).collect();
    let cards: String = ids.iter().map(|id| request(random, cell, id)).collect();
    (decks::terminated(cards.as_bytes()), ids)
}

fn request(random: &mut Random, cell: &Cell, id: &str) -> String {
    let mut entries = [core(random, cell), drum(random, cell)].concat();
    let of_cell = |kind: &Kind| cell.configuration().channels().any(|(_, channel)| channel.kind() == *kind);
    let in_cell = Kind::WITH_UNITS.iter().filter(|kind| of_cell(kind)).count();
    for kind in Kind::WITH_UNITS {
        // Of many kinds fewer are asked for: else the first ones would always be those that are lacking.
        let percent = if of_cell(&kind) { 50 * 3 / in_cell.max(3) } else { 4 };
        if random.percent(percent) {
            entries.extend(units(random, cell, kind));
        }
    }
    random.shuffle(&mut entries);
    let run_type = if random.percent(6) { "S" } else { "P" };
    let sequence = *random.pick(&["", "", "", "01", "02"]);
    let priority = format!("{sequence}{}{}", random.pick(&["A", "A", "M"]), random.below(40));
    format!("{id},PTY,2,,P,,,M,{run_type},{priority},P,1.\n{id},FAC,{}.\n", entries.join(","))
}

/// IB and perhaps DB: little, what fits in the longest run, or what would fit if all free blocks were together; each
/// perhaps one too many.
fn core(random: &mut Random, cell: &Cell) -> Vec<String> {
    let blocks: Vec<bool> = ASSIGNABLE_CORE.map(|block| cell.core_holder(block).is_none()).collect();
    let longest = blocks.split(|is_free| !is_free).map(<[bool]>::len).max().unwrap_or(0);
    let all = blocks.iter().filter(|is_free| **is_free).count();
    let room = *random.pick(&[1, 2, longest, longest, all]) + random.below(2);
    let db = if random.percent(50) { random.below(room + 1) } else { 0 };
    let ib = if random.percent(70) { room - db } else { random.within(1..=longest.max(1)) };
    let ib = ib.clamp(1, 28);
    let mut entries = vec![format!("IB/{ib}")];
    if (1..=28 - ib).contains(&db) {
        entries.push(format!("DB/{db}"));
    }
    entries
}

/// Perhaps an area: as large as the largest gap, or as all together, or just larger.
fn drum(random: &mut Random, cell: &Cell) -> Vec<String> {
    let Some(end) = cell.configuration().drum() else {
        return if random.percent(10) { vec!["MD/1".into()] } else { Vec::new() };
    };
    if random.percent(55) {
        return Vec::new();
    }
    let mut gaps = Vec::new();
    let mut from = DRUM_START;
    for (area, _) in cell.drum_areas() {
        gaps.push(area.start - from);
        from = area.end;
    }
    gaps.push(end - from);
    let largest = gaps.iter().max().copied().unwrap_or(0);
    let words = *random.pick(&[largest, largest, gaps.iter().sum(), 1]) + random.below(2) as u32;
    vec![format!("MD/{}", words.clamp(1, 999_999))]
}

/// Entries of a kind, for all units that are free or for one more, in ways that the channels may not have.
fn units(random: &mut Random, cell: &Cell, kind: Kind) -> Vec<String> {
    let channels = cell.configuration().channels().filter(|(_, channel)| channel.kind() == kind);
    let free = channels.map(|(number, channel)| {
        let units = (0..channel.unit_count()).map(UnitNumber);
        units.filter(|&unit| cell.unit(number, unit).is_assignable()).count()
    });
    let counts: Vec<usize> = free.collect();
    let (most, all) = (counts.iter().max().copied().unwrap_or(0), counts.iter().sum::<usize>());
    let more = random.below(2);
    // Logical channels, 0 for any, with as many units each.
    let asked: Vec<(usize, usize)> = match random.below(5) {
        0 => vec![(0, all + more)],
        1 => vec![(7, most + more)],
        2 => vec![(1, most), (15, most.saturating_sub(1) + more)],
        3 => vec![(3, most), (0, all - most + more)],
        _ => counts.iter().copied().take(3).chain([more]).enumerate().map(|(at, n)| (at + 1, n)).collect(),
    };
    let name = |logical: usize| if logical == 0 { String::new() } else { logical.to_string() };
    let entry = |(logical, n): (usize, usize)| format!("{}{}/{}", kind.letters(), name(logical), n.min(99));
    asked.into_iter().filter(|(_, n)| *n > 0).map(entry).collect()
}
