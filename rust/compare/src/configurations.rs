//! Random configurations: good ones, damaged ones, ones with a bad third section, and ones at the limits.

use std::collections::BTreeMap;

use ordinary::configuration::{BadLine, Configuration};
use ordinary::numbers::Kind;

use crate::codes;
use crate::random::{damage, Random};

mod spoilt;

/// A configuration as it is handed to the listing program.
pub fn configuration(random: &mut Random) -> Vec<u8> {
    match random.weighted(&[30, 20, 25, 15, 5, 5]) {
        0 => good(random),
        1 => {
            let mut text = good(random);
            for _ in 0..random.within(1..=3) {
                damage(random, &mut text);
            }
            text
        }
        2 => {
            let text = good(random);
            spoilt::spoilt(random, &text)
        }
        3 => with_bad_codes(random),
        4 => long(random),
        _ => {
            let length = random.below(60);
            random.text("0011223 \nMATPRDC", length).into_bytes()
        }
    }
}

/// A good configuration; sometimes with as many channels, units, down units or codes as there can be.
pub fn good(random: &mut Random) -> Vec<u8> {
    [channels_and_down(random), codes::good(random)].concat().into_bytes()
}

/// The first two sections.
fn channels_and_down(random: &mut Random) -> String {
    let count = *random.pick(&[0, 1, 2, 3, 4, 6, 8, 12, 15, 16, 16]);
    let mut numbers: Vec<usize> = (0..16).collect();
    while numbers.len() > count {
        numbers.remove(random.below(numbers.len()));
    }
    let drum = if random.percent(60) && count > 0 { Some(*random.pick(&numbers)) } else { None };
    let kinds = kinds(random);
    let most_units = *random.pick(&[2, 4, 16, 16]);
    let all_most = random.percent(10);
    let mut text = format!("{count}\n");
    let mut units = Vec::new();
    for number in numbers {
        if Some(number) == drum {
            let any = random.within(35_330..=1_000_000);
            text += &format!(
                "{number:02} MD {}\n",
                random.pick(&[35_330, 35_331, 36_000, 40_000, 99_999, 100_000, 999_999, 1_000_000, any])
            );
        } else {
            let n = if all_most || random.percent(20) { most_units } else { random.within(1..=most_units) };
            text += &format!("{number:02} {} {n}\n", random.pick(&kinds).letters());
            units.extend((0..n).map(|unit| (number, unit)));
        }
    }
    let percent = *random.pick(&[0, 0, 5, 30, 95, 100]);
    units.retain(|_| random.percent(percent));
    text += &format!("{}\n", units.len());
    for (channel, unit) in units {
        text += &format!("{channel:02} {unit:02}\n");
    }
    text
}

/// The kinds that the channels of a cell have. Few of them, now and then, so that several channels are of one kind.
fn kinds(random: &mut Random) -> Vec<Kind> {
    let all = Kind::WITH_UNITS;
    match random.weighted(&[35, 20, 30, 15]) {
        0 => all.to_vec(),
        1 => all[3..].to_vec(),
        2 => all[..3].to_vec(),
        _ => vec![*random.pick(&all), *random.pick(&all)],
    }
}

/// The channels of a configuration by their kind, or what is wrong with the first bad one.
pub fn met(text: &[u8]) -> BTreeMap<String, u64> {
    let mut met = BTreeMap::new();
    match Configuration::from_text(text) {
        Ok(read) => {
            for (_, channel) in read.channels() {
                *met.entry(format!("configured {}", channel.kind().letters())).or_default() += 1;
            }
        }
        Err(BadLine(line)) => {
            let line = text.split(|&byte| byte == b'\n').nth(line - 1).unwrap_or(b"");
            met.extend(bad_channel(&String::from_utf8_lossy(line)).map(|what| (what, 1)));
        }
    }
    met
}

/// What a bad line has that would be a channel.
fn bad_channel(line: &str) -> Option<String> {
    let words: Vec<&str> = line.split(' ').collect();
    let [_, kind, n] = words[..] else { return None };
    match Kind::from_letters(kind.as_bytes()) {
        None => Some("bad channel, no kind".into()),
        Some(Kind::Md) => None,
        Some(kind) if ["0", "17"].contains(&n) => Some(format!("bad channel, {n} units of {}", kind.letters())),
        Some(_) => None,
    }
}

/// Good channels and down units, and a third section that is bad, or nearly so.
pub fn with_bad_codes(random: &mut Random) -> Vec<u8> {
    // Mostly few lines, so that each is a telling one.
    let before = match random.below(5) {
        0 => channels_and_down(random),
        1 => "0\n0\n".to_string(),
        2 => "1\n03 MT 4\n0\n".to_string(),
        3 => "3\n00 PT 16\n01 CR 1\n15 MC 2\n1\n00 15\n".to_string(),
        _ => "2\n03 MT 4\n05 PR 2\n1\n03 01\n".to_string(),
    };
    [before, codes::bad(random)].concat().into_bytes()
}

/// Texts longer than any good one, bad at their end, in the middle or through one long line.
fn long(random: &mut Random) -> Vec<u8> {
    let mut text = good(random);
    let length = *random.pick(&[1_700, 2_040, 2_047, 2_048, 2_049, 2_060, 4_096, 5_000, 70_000]);
    let filler = *random.pick(b"0 \nX9");
    if random.percent(50) {
        text.resize(length.max(text.len()), filler);
    } else {
        let at = random.below(text.len() + 1);
        let insert = vec![filler; length];
        text.splice(at..at, insert);
    }
    text
}
