//! The assigner: which core, drum and units a request gets.

use std::ops::Range;

use crate::card::{Code, Entry, Request};
use crate::numbers::{ChannelNumber, Kind, UnitNumber};

/// The blocks of core.
pub const CORE: Range<u32> = 0..32;
/// The assignable ones; the rest is the executive's.
pub const ASSIGNABLE_CORE: Range<u32> = 2..30;

/// What may be assigned now.
#[derive(Clone, Debug)]
pub struct Free {
    /// One for each block of core.
    pub core: [bool; 32],
    /// The addresses that may be assigned when nothing is held; empty without a drum.
    pub drum: Range<u32>,
    /// The areas of it that are held.
    pub drum_held: Vec<Range<u32>>,
    /// The channels with units, ascending, each with its assignable units, ascending.
    pub channels: Vec<(ChannelNumber, Kind, Vec<UnitNumber>)>,
}

/// An entry with the units that it gets, ascending.
pub type Given = (Entry, Vec<(ChannelNumber, UnitNumber)>);

/// The facilities of a job.
#[derive(Clone, Debug, PartialEq, Eq)]
pub struct Assignment {
    pub ib: Range<u32>,
    /// Empty if none was asked for.
    pub db: Range<u32>,
    /// Empty if none was asked for.
    pub drum: Range<u32>,
    /// In the order of the written card.
    pub units: Vec<Given>,
}

/// What a request may lack.
#[derive(Clone, Copy, Debug, PartialEq, Eq)]
pub enum Facility {
    /// No run for IB, or none for DB beside it.
    Core,
    /// No area, or no drum at all.
    Drum,
    /// The entries of this kind have no assignment, whatever the other kinds.
    Units(Kind),
}

impl Facility {
    /// The word that people see.
    pub fn word(self) -> &'static str {
        match self {
            Facility::Core => "CORE",
            Facility::Drum => "DRUM",
            Facility::Units(kind) => kind.letters(),
        }
    }
}

/// The assignment that is chosen for a request, or the first facility that is lacking for it. Core, drum and kinds do
/// not depend on each other, so looking at them in the order in which they are named finds the first.
pub fn assign(request: &Request, free: &Free) -> Result<Assignment, Facility> {
    let (ib, db) = core(request.asked(Code::Ib), request.asked(Code::Db), &free.core).ok_or(Facility::Core)?;
    let drum = drum(request.asked(Code::Of(Kind::Md)), free).ok_or(Facility::Drum)?;
    let mut units = Vec::new();
    for kind in Kind::WITH_UNITS {
        let entries: Vec<Entry> = request.units(kind).collect();
        let given = units_of_kind(&entries, free.channels.iter().filter(|channel| channel.1 == kind));
        units.extend(given.ok_or(Facility::Units(kind))?);
    }
    Ok(Assignment { ib, db, drum, units })
}

/// The lowest IB start and, for it, the lowest DB start such that both runs are free and disjoint.
fn core(ib: u32, db: u32, free: &[bool; 32]) -> Option<(Range<u32>, Range<u32>)> {
    let runs = |n: u32| {
        let starts = ASSIGNABLE_CORE.start..(ASSIGNABLE_CORE.end + 1).saturating_sub(n);
        starts.map(move |start| start..start + n).filter(|run| run.clone().all(|block| free[block as usize]))
    };
    for ib in runs(ib) {
        if db == 0 {
            return Some((ib, 0..0));
        }
        if let Some(db) = runs(db).find(|db| db.end <= ib.start || ib.end <= db.start) {
            return Some((ib, db));
        }
    }
    None
}

/// The lowest free area of `n` words.
fn drum(n: u32, free: &Free) -> Option<Range<u32>> {
    if n == 0 {
        return Some(0..0);
    }
    // A lowest area begins where the drum does or where a held area ends.
    let starts = std::iter::once(free.drum.start).chain(free.drum_held.iter().map(|held| held.end));
    let fits = |area: &Range<u32>| {
        area.end <= free.drum.end && free.drum_held.iter().all(|held| area.end <= held.start || held.end <= area.start)
    };
    starts.map(|start| start..start + n).filter(fits).min_by_key(|area| area.start)
}

/// The units of one kind for entries in ascending order of logical channel.
fn units_of_kind<'a>(
    entries: &[Entry],
    channels: impl Iterator<Item = &'a (ChannelNumber, Kind, Vec<UnitNumber>)>,
) -> Option<Vec<Given>> {
    let mut left: Vec<(ChannelNumber, &[UnitNumber])> =
        channels.map(|(number, _, units)| (*number, &units[..])).collect();
    let (loose, tied): (Vec<Entry>, Vec<Entry>) = entries.iter().partition(|entry| entry.logical.0 == 0);

    let needs: Vec<usize> = tied.iter().map(|entry| entry.n as usize).collect();
    let counts: Vec<usize> = left.iter().map(|(_, units)| units.len()).collect();
    let mut given = Vec::new();
    for (entry, at) in tied.into_iter().zip(least_list(&needs, counts)?) {
        let (channel, units) = left[at];
        let (taken, rest) = units.split_at(entry.n as usize);
        left[at].1 = rest;
        given.push((entry, taken.iter().map(|&unit| (channel, unit)).collect()));
    }
    // How many units are left does not depend on the list, so the loose entry has no say in it.
    if let Some(&entry) = loose.first() {
        let mut rest = left.iter().flat_map(|&(channel, units)| units.iter().map(move |&unit| (channel, unit)));
        let taken: Vec<_> = rest.by_ref().take(entry.n as usize).collect();
        if taken.len() < entry.n as usize {
            return None;
        }
        given.insert(0, (entry, taken));
    }
    Some(given)
}

/// The lexicographically least list of places in `counts`, one of its own for each need, that have what is needed.
fn least_list(needs: &[usize], counts: Vec<usize>) -> Option<Vec<usize>> {
    // The first list found in lexicographic order is the least. A need is at least 1, so a place with 0 is a used one.
    fn search(needs: &[usize], counts: &mut [usize], list: &mut Vec<usize>) -> bool {
        let Some((&need, rest)) = needs.split_first() else { return true };
        if !can_serve(needs, counts) {
            return false;
        }
        for at in 0..counts.len() {
            if counts[at] >= need {
                let count = std::mem::take(&mut counts[at]);
                list.push(at);
                if search(rest, counts, list) {
                    return true;
                }
                list.pop();
                counts[at] = count;
            }
        }
        false
    }
    let mut counts = counts;
    let mut list = Vec::new();
    search(needs, &mut counts, &mut list).then_some(list)
}

/// Can each need have a place of its own? It can exactly when the largest fits the largest, the next the next, and so
/// on. So a search that asks this first never has to give up a step that it has taken.
fn can_serve(needs: &[usize], counts: &[usize]) -> bool {
    let descending = |numbers: &[usize]| {
        let mut numbers = numbers.to_vec();
        numbers.sort_by(|a, b| b.cmp(a));
        numbers
    };
    let (needs, counts) = (descending(needs), descending(counts));
    needs.len() <= counts.len() && needs.iter().zip(&counts).all(|(need, count)| need <= count)
}

#[cfg(test)]
mod tests {
    use super::*;
    use crate::numbers::LogicalChannel;

    fn free_core(blocks: impl IntoIterator<Item = u32>) -> [bool; 32] {
        let mut free = [false; 32];
        blocks.into_iter().for_each(|block| free[block as usize] = true);
        free
    }

    #[test]
    fn k2_fresh_core_takes_all_28_blocks() {
        assert_eq!(core(28, 0, &free_core(ASSIGNABLE_CORE)), Some((2..30, 0..0)));
        assert_eq!(core(29, 0, &free_core(ASSIGNABLE_CORE)), None);
    }

    #[test]
    fn k4_ib_leaves_the_longer_run_to_db() {
        assert_eq!(core(2, 3, &free_core([2, 3, 4, 8, 9])), Some((8..10, 2..5)));
    }

    /// Logical channel, and channel and number of its units.
    type Plain = (u8, Vec<(u8, u8)>);

    /// MT channel 3 with four free and 5 with two.
    fn k5_to_k7(entries: &[(u8, u32)]) -> Option<Vec<Plain>> {
        let units = |count| (0..count).map(UnitNumber).collect();
        let channels = [(ChannelNumber(3), Kind::Mt, units(4)), (ChannelNumber(5), Kind::Mt, units(2))];
        let entry = |&(logical, n): &(u8, u32)| Entry { code: Code::Of(Kind::Mt), logical: LogicalChannel(logical), n };
        let entries: Vec<Entry> = entries.iter().map(entry).collect();
        let given = units_of_kind(&entries, channels.iter())?;
        let plain = |(entry, units): Given| {
            (entry.logical.0, units.iter().map(|(channel, unit)| (channel.0, unit.0)).collect())
        };
        Some(given.into_iter().map(plain).collect())
    }

    #[test]
    fn k5_first_channel_with_room_is_wrong() {
        assert_eq!(
            k5_to_k7(&[(1, 2), (2, 3)]),
            Some(vec![(1, vec![(5, 0), (5, 1)]), (2, vec![(3, 0), (3, 1), (3, 2)])])
        );
    }

    #[test]
    fn k6_and_k7_loose_units() {
        let given = k5_to_k7(&[(0, 4), (1, 2)]).unwrap();
        assert_eq!(given, [(0, vec![(3, 2), (3, 3), (5, 0), (5, 1)]), (1, vec![(3, 0), (3, 1)])]);
        assert_eq!(k5_to_k7(&[(0, 5), (1, 2)]), None);
    }

    #[test]
    fn k8_fresh_drum() {
        let free = Free { core: [true; 32], drum: 35_329..40_000, drum_held: vec![], channels: vec![] };
        assert_eq!(drum(1500, &free), Some(35_329..36_829));
        assert_eq!(drum(40_000 - 35_329, &free), Some(35_329..40_000));
        assert_eq!(drum(40_000 - 35_328, &free), None);
    }

    #[test]
    fn the_lowest_gap_of_the_drum() {
        let held = vec![36_000..37_000, 35_329..35_400, 35_500..35_600];
        let free = Free { core: [true; 32], drum: 35_329..40_000, drum_held: held, channels: vec![] };
        assert_eq!(drum(100, &free), Some(35_400..35_500));
        assert_eq!(drum(101, &free), Some(35_600..35_701));
        assert_eq!(drum(401, &free), Some(37_000..37_401));
    }

    /// All lists, in lexicographic order, without any test but their own.
    fn least_by_trying_all(needs: &[usize], counts: &[usize]) -> Option<Vec<usize>> {
        let lists = counts.len().pow(needs.len() as u32);
        let list = |mut code: usize| {
            let mut list = vec![0; needs.len()];
            for place in list.iter_mut().rev() {
                *place = code % counts.len();
                code /= counts.len();
            }
            list
        };
        (0..lists).map(list).find(|list| {
            let own = list.iter().enumerate().all(|(i, place)| !list[..i].contains(place));
            own && list.iter().zip(needs).all(|(&place, &need)| counts[place] >= need)
        })
    }

    #[test]
    fn the_search_finds_the_least_of_all_lists() {
        let mut state = 1_u64;
        let mut random = |below: usize| {
            state = state.wrapping_mul(6_364_136_223_846_793_005).wrapping_add(1_442_695_040_888_963_407);
            (state >> 33) as usize % below
        };
        for _ in 0..20_000 {
            let counts: Vec<usize> = (0..1 + random(5)).map(|_| random(6)).collect();
            let needs: Vec<usize> = (0..random(6)).map(|_| 1 + random(4)).collect();
            assert_eq!(
                least_list(&needs, counts.clone()),
                least_by_trying_all(&needs, &counts),
                "{needs:?} {counts:?}"
            );
        }
    }

    #[test]
    fn fifteen_entries_that_just_do_not_fit_are_refused_at_once() {
        let needs = [2; 15];
        let mut counts = vec![16; 16];
        counts[0] = 1;
        assert_eq!(least_list(&needs, counts.clone()), Some((1..16).collect()));
        counts[15] = 1;
        assert_eq!(least_list(&needs, counts), None);
    }
}
