//! Random entries of FAC cards.

use ordinary::numbers::Kind;

use super::{Reach, Style};
use crate::random::Random;

/// The entries of a good FAC card, in any order.
pub fn entries(random: &mut Random, style: Style) -> Vec<String> {
    let mut entries = core(random, style);
    entries.extend(drum(random, style));
    entries.extend(units(random, style));
    if style.reach.is_none() && random.percent(3) {
        entries.truncate(1);
        fill_card(random, &mut entries);
    }
    random.shuffle(&mut entries);
    // What one card can hold, most of the time.
    while entries.join(",").len() > 66 && random.percent(95) {
        match entries.iter().rposition(|entry| !entry.starts_with("IB")) {
            Some(at) => entries.remove(at),
            None => break,
        };
    }
    entries
}

fn number(random: &mut Random, n: usize) -> String {
    if random.percent(10) {
        format!("{n:02}")
    } else {
        n.to_string()
    }
}

/// IB, and perhaps DB.
fn core(random: &mut Random, style: Style) -> Vec<String> {
    let Style { large, blocks, .. } = style;
    let some =
        |random: &mut Random| if random.percent(large) { random.within(1..=14) } else { random.within(1..=blocks) };
    let ib = if random.percent(large / 3) { random.within(14..=28) } else { some(random) };
    let mut entries = vec![format!("IB/{}", number(random, ib))];
    if random.percent(if blocks > 1 { 40 } else { 10 }) {
        let db = some(random).min(28 - ib.min(27));
        entries.push(format!("DB/{}", number(random, db)));
    }
    entries
}

/// Is this left out, since the cell has nothing of it? What is out of reach is seldom asked for.
fn out_of_reach(random: &mut Random, reach: Option<Reach>, most: usize) -> bool {
    reach.is_some() && most == 0 && !random.percent(1)
}

/// Perhaps an area of the drum.
fn drum(random: &mut Random, style: Style) -> Option<String> {
    let words = style.reach.map_or(4671, |reach| reach.words);
    if !random.percent(35) || out_of_reach(random, style.reach, words) {
        return None;
    }
    let most = if random.percent(style.large) { 999_999 } else { words.max(1) };
    let some = random.within(1..=most.min(words / 4 + 1));
    let any = random.within(1..=most);
    Some(format!("MD/{}", random.pick(&[some, some, some, any, 1, 671, words.max(1)])))
}

/// Entries of the kinds with units.
fn units(random: &mut Random, style: Style) -> Vec<String> {
    let reach = style.reach;
    let asked = kinds(random);
    // Of a cell with many kinds each is asked for less often, so that as many jobs fit; now and then one unit of each.
    let in_reach = reach.map_or(3, |reach| reach.units.iter().filter(|most| **most > 0).count());
    if let Some(reach) = reach.filter(|_| random.percent(2)) {
        return one_of_each(random, reach);
    }
    let mut entries = Vec::new();
    for (at, kind) in Kind::WITH_UNITS.into_iter().enumerate() {
        let most = reach.map_or(4, |reach| reach.units[at]);
        // A cell that has a kind is asked for it, whichever kinds the request would have.
        let is_asked = asked.contains(&kind) || reach.is_some();
        if is_asked && random.percent(style.units * 3 / in_reach.max(3)) && !out_of_reach(random, reach, most) {
            entries.extend(of_kind(random, style.large, kind, most));
        }
    }
    entries
}

/// One unit of each kind that there is.
fn one_of_each(random: &mut Random, reach: Reach) -> Vec<String> {
    let kinds = Kind::WITH_UNITS.into_iter().zip(reach.units).filter(|(_, most)| *most > 0);
    kinds.map(|(kind, _)| format!("{}{}/1", kind.letters(), random.pick(&["", "", "1", "7", "15"]))).collect()
}

/// Some logical channels of a kind; `most` is what one channel has.
fn of_kind(random: &mut Random, large: usize, kind: Kind, most: usize) -> Vec<String> {
    let mut entries = Vec::new();
    let mut used = Vec::new();
    for _ in 0..1 + random.weighted(&[55, 27, 11, 7]) {
        let logical = *random.pick(&[0, 0, 0, 1, 2, 3, 4, 9, 10, 14, 15]);
        if used.contains(&logical) {
            continue;
        }
        used.push(logical);
        let units = match random.below(10) {
            _ if random.percent(large / 3) => random.within(1..=99),
            0 => most.max(1),
            _ => random.within(1..=most / 3 + 1),
        };
        let units = number(random, units);
        let logical = if logical == 0 && random.percent(80) { String::new() } else { number(random, logical) };
        entries.push(format!("{}{logical}/{units}", kind.letters()));
    }
    entries
}

/// The kinds that a request may ask for: all, or few of them, so that these have several logical channels.
fn kinds(random: &mut Random) -> &'static [Kind] {
    const ALL: [Kind; 6] = Kind::WITH_UNITS;
    match random.weighted(&[30, 30, 40]) {
        0 => &ALL,
        1 => &ALL[3..],
        _ => &ALL[..3],
    }
}

/// Adds entries of all codes, small ones, for as many as a card can have; perhaps one more.
fn fill_card(random: &mut Random, entries: &mut Vec<String>) {
    let length = random.within(60..=68);
    entries.extend(["DB/1".to_string(), "MD/1".to_string()]);
    entries.extend(Kind::WITH_UNITS.map(|kind| format!("{}/{}", kind.letters(), random.within(1..=9))));
    for _ in 0..40 {
        let (kind, logical) = (random.pick(&Kind::WITH_UNITS).letters(), random.within(1..=9));
        let name = format!("{kind}{logical}/");
        if !entries.iter().any(|entry| entry.starts_with(&name)) && entries.join(",").len() + name.len() + 2 <= length {
            entries.push(format!("{name}{}", random.within(1..=9)));
        }
    }
}
