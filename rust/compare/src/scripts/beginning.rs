//! What a script begins with: its configuration, and what its decks are like.

use ordinary::configuration::{Configuration, DRUM_START};
use ordinary::numbers::Kind;

use crate::codes;
use crate::configurations;
use crate::decks::{self, Reach, Style};
use crate::random::Random;

const SEVEN_KINDS: &str = "9\n00 PT 3\n01 CR 3\n02 MC 4\n03 MC 3\n04 PR 2\n05 MT 4\n06 MA 4\n07 MD 40000\n15 PT 2\n0\n";

/// A configuration, mostly a good one with units.
pub fn configuration(random: &mut Random) -> Vec<u8> {
    match random.below(30) {
        0 => configurations::configuration(random),
        1 | 2 => configurations::with_bad_codes(random),
        3..=6 => with_codes(random, "6\n00 MA 4\n01 MA 2\n03 MT 6\n05 MT 3\n07 MD 40000\n12 PR 2\n1\n00 01\n"),
        7 | 8 => with_codes(random, "4\n02 MD 35400\n03 MT 16\n05 MT 16\n06 PR 16\n0\n"),
        9 | 10 => with_codes(random, "6\n00 MC 4\n01 MC 2\n03 CR 6\n05 CR 3\n07 MD 40000\n12 PT 2\n1\n00 01\n"),
        // All seven kinds, each written order turned round.
        11..=13 => with_codes(random, SEVEN_KINDS),
        _ => with_units(random),
    }
}

/// What the decks of a cell with this configuration are like.
pub fn style(random: &mut Random, configuration: &Configuration) -> Style {
    Style {
        ids: *random.pick(&[4, 30, 100, 1_000_000]),
        letters: *random.pick(&[1, 3, 26]),
        precedences: *random.pick(&[2, 8, 64]),
        sequences: *random.pick(&[1, 3, 64]),
        suspended: *random.pick(&[0, 10, 40]),
        serial: *random.pick(&[0, 0, 5, 40]),
        spoilt: *random.pick(&[0, 10, 50]),
        further: *random.pick(&[0, 10, 50]),
        faults: *random.pick(&[decks::FAULTS, decks::FURTHER_FAULTS]),
        large: *random.pick(&[0, 0, 5, 30]),
        blocks: *random.pick(&[1, 1, 3]),
        units: *random.pick(&[10, 30, 50]),
        reach: Some(reach(configuration)),
    }
}

/// The first two sections and a good third one.
fn with_codes(random: &mut Random, before: &str) -> Vec<u8> {
    [before, &codes::good(random)].concat().into_bytes()
}

/// A good configuration, mostly with units.
fn with_units(random: &mut Random) -> Vec<u8> {
    let has_units = |text: &[u8]| {
        let configuration = Configuration::from_text(text);
        configuration.is_ok_and(|read| read.channels().any(|(_, channel)| channel.unit_count() > 0))
    };
    let mut text = configurations::good(random);
    while !has_units(&text) && random.percent(90) {
        text = configurations::good(random);
    }
    text
}

fn reach(configuration: &Configuration) -> Reach {
    let most = |kind| {
        let channels = configuration.channels().filter(|(_, channel)| channel.kind() == kind);
        channels.map(|(_, channel)| channel.unit_count().into()).max().unwrap_or(0)
    };
    let words = configuration.drum().map_or(0, |length| length - DRUM_START);
    Reach { units: Kind::WITH_UNITS.map(most), words: words as usize }
}
