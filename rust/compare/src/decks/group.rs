//! The cards of one request: good ones, and ones with faults.

use super::entries::entries;
use super::faults::{spoil_fac, spoil_pty, spoil_structure};
use super::{Style, LETTERS, LETTERS_AND_DIGITS};
use crate::further::{self, Fields};
use crate::random::{Random, ODD_BYTES};

/// A group's cards as fields, before periods and spaces come in.
pub struct Group {
    pub pty: Fields,
    /// FAC and those behind it.
    pub others: Vec<Fields>,
    /// Is PTY's card count as it should be?
    pub is_counted: bool,
}

/// The cards of one request, with one fault or several if it is spoilt.
pub fn request(random: &mut Random, style: Style, spoilt: bool) -> Vec<u8> {
    let mut group = good_group(random, style);
    let faults = if spoilt { 1 + random.weighted(&[55, 30, 15]) } else { 0 };
    let mut on_pty = 0;
    for _ in 0..faults {
        match random.weighted(&style.faults) {
            0 => on_pty += 1,
            1 => spoil_fac(random, &mut group),
            2 => spoil_structure(random, &mut group),
            _ => further::spoil(random, &group.pty[0], &mut group.others),
        }
    }
    if group.is_counted {
        let count = 1 + group.others.len();
        group.pty[2] = if random.percent(20) { format!("{count:02}") } else { count.to_string() };
    }
    for _ in 0..on_pty {
        spoil_pty(random, &mut group.pty);
    }
    let cards = [vec![group.pty], group.others].concat();
    // Of sixteen cards one would nearly always be damaged.
    if random.percent(40) {
        return cards.iter().map(|fields| fields.join(",") + ".\n").collect::<String>().into_bytes();
    }
    cards.iter().flat_map(|fields| card(random, fields)).collect()
}

fn good_group(random: &mut Random, style: Style) -> Group {
    let id = id(random, style.ids);
    let letters_digits = |random: &mut Random, most| {
        let length = random.within(1..=most);
        random.text(LETTERS_AND_DIGITS, length)
    };
    let or_empty =
        |random: &mut Random, letters: &str| if random.percent(50) { String::new() } else { random.text(letters, 1) };
    let pty = vec![
        id.clone(),
        "PTY".into(),
        // The card count, which is known in the end.
        String::new(),
        if random.percent(style.suspended) { "S" } else { "" }.into(),
        format!("{}{}", letters_digits(random, 8), random.pick(&["", "", "-", "-X", "--9", "-A-1"])),
        or_empty(random, "I"),
        or_empty(random, "TAC"),
        letters_digits(random, 6),
        if random.percent(style.serial) { "S" } else { "P" }.into(),
        priority(random, style),
        random.text("PC", 1),
        {
            let digits = random.within(1..=4);
            random.text("0123456789", digits)
        },
        or_empty(random, "TACZ"),
        if random.percent(70) { String::new() } else { letters_digits(random, 6) },
    ];
    let fac = [vec![id.clone(), "FAC".into()], entries(random, style)].concat();
    let mut group = Group { pty, others: vec![fac], is_counted: true };
    if random.percent(80) {
        while group.pty.last().is_some_and(String::is_empty) {
            group.pty.pop();
        }
    }
    if random.percent(style.further) {
        group.others.extend(further::good(random, &id));
    }
    group
}

fn id(random: &mut Random, ids: usize) -> String {
    let number = random.below(ids);
    match ids {
        0..=100 => format!("J{number}"),
        _ => {
            let length = random.within(1..=6);
            random.text(LETTERS_AND_DIGITS, length)
        }
    }
}

fn priority(random: &mut Random, style: Style) -> String {
    let letter = &LETTERS[random.below(style.letters)..][..1];
    let sequence = match random.below(style.sequences) {
        0 => String::new(),
        sequence => format!("{sequence:02}"),
    };
    let precedence = random.below(style.precedences);
    let precedence = match random.below(6) {
        0 if letter != "Z" => String::new(),
        1 => format!("{precedence:02}"),
        _ if letter == "Z" => format!("{}", precedence.min(62)),
        _ => precedence.to_string(),
    };
    format!("{sequence}{letter}{precedence}")
}

/// The fields as a card, mostly well formed.
fn card(random: &mut Random, fields: &[String]) -> Vec<u8> {
    let mut card = fields.join(",").into_bytes();
    if random.percent(15) {
        for _ in 0..random.within(1..=8) {
            let at = random.within(0..=card.len());
            card.insert(at, b' ');
        }
    }
    if !random.percent(2) {
        card.push(b'.');
    }
    if random.percent(8) {
        let blanks =
            if random.percent(50) { random.below(10) } else { random.within(78..=82).saturating_sub(card.len()) };
        card.extend(vec![b' '; blanks]);
    }
    if random.percent(2) {
        let at = random.within(0..=card.len());
        card.insert(at, *random.pick(ODD_BYTES));
    }
    card.push(b'\n');
    card
}
