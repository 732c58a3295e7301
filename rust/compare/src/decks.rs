//! Random decks: good ones, ones with every card error, damaged ones, and ones at the limits.

use std::collections::BTreeMap;

use ordinary::fields::CardType;

use crate::random::{damage, Random};

mod entries;
mod faults;
mod group;
mod odd;

pub const TERMINATION: &[u8] = b")))))))) +++++++++++++                                                  ))))))))\n";
pub const DECK_LENGTH: usize = 16_384;

const LETTERS: &str = "ABCDEFGHIJKLMNOPQRSTUVWXYZ";
pub const LETTERS_AND_DIGITS: &str = "ABCDEFGHIJKLMNOPQRSTUVWXYZ0123456789";
pub const CARD_CHARACTERS: &str = "ABCDEFGHIJKLMNOPQRSTUVWXYZ0123456789 -/*=:,.";

/// What the requests of a deck are like.
#[derive(Clone, Copy)]
pub struct Style {
    /// How many IDs there are to choose from.
    pub ids: usize,
    /// How many letters.
    pub letters: usize,
    /// How many precedences.
    pub precedences: usize,
    /// How many sequences, 0 among them.
    pub sequences: usize,
    /// Percent of requests that enter suspended.
    pub suspended: usize,
    /// Percent of requests that must run alone.
    pub serial: usize,
    /// Percent of requests that are spoilt.
    pub spoilt: usize,
    /// Percent of requests that have TAL, TRN or PM cards.
    pub further: usize,
    /// How likely a fault is on PTY, on FAC, of the group as a whole and behind FAC.
    pub faults: [usize; 4],
    /// Percent of entries that ask for much.
    pub large: usize,
    /// The most blocks that others ask for.
    pub blocks: usize,
    /// Percent of requests that ask for units of a kind.
    pub units: usize,
    /// What the cell has, so that most requests can be served; `None` where there is no cell.
    pub reach: Option<Reach>,
}

/// What a cell has: the most units of each kind on one channel, and the assignable words of its drum.
#[derive(Clone, Copy)]
pub struct Reach {
    /// In the order of `Kind::WITH_UNITS`.
    pub units: [usize; 6],
    pub words: usize,
}

impl Style {
    fn random(random: &mut Random) -> Style {
        Style {
            ids: *random.pick(&[3, 10, 100, 1_000_000]),
            letters: *random.pick(&[1, 2, 26, 26]),
            precedences: *random.pick(&[1, 4, 64]),
            sequences: *random.pick(&[1, 2, 5, 64]),
            suspended: *random.pick(&[0, 5, 30, 80]),
            serial: 10,
            spoilt: *random.pick(&[0, 10, 40, 90]),
            further: *random.pick(&[0, 30, 70, 100]),
            faults: FAULTS,
            large: 30,
            blocks: 3,
            units: 50,
            reach: None,
        }
    }
}

/// Faults of all sorts.
pub const FAULTS: [usize; 4] = [40, 35, 20, 20];
/// Faults of what came with TAL, TRN and PM cards, now and then with one of FAC beside.
pub const FURTHER_FAULTS: [usize; 4] = [1, 8, 8, 83];

/// How many cards of each type a deck has; one that is refused has none.
pub fn card_types(deck: &[u8]) -> BTreeMap<String, u64> {
    let mut types = BTreeMap::new();
    for card in ordinary::deck::cards(deck).unwrap_or_default() {
        let name = match CardType::of(card) {
            CardType::Pty => "PTY",
            CardType::Fac => "FAC",
            CardType::Tal => "TAL",
            CardType::Trn => "TRN",
            CardType::Pm => "PM",
            CardType::Unknown => "of no type",
        };
        *types.entry(format!("card {name}")).or_default() += 1;
    }
    types
}

/// A deck as it is handed to the programs that read one.
pub fn deck(random: &mut Random) -> Vec<u8> {
    let style = Style::random(random);
    match random.weighted(&[45, 8, 8, 8, 6, 4, 3, 25]) {
        0 => {
            let groups = random.within(0..=12);
            finished(random, style, groups)
        }
        // More requests than the schedule has room for.
        1 => {
            let wide =
                Style { ids: 1_000_000, letters: 26, precedences: 64, sequences: 64, spoilt: 5, further: 5, ..style };
            let groups = random.within(60..=90);
            finished(random, wide, groups)
        }
        2 => odd::at_the_limit(random, style),
        3 => {
            let groups = random.within(1..=5);
            let mut deck = finished(random, style, groups);
            for _ in 0..random.within(1..=6) {
                damage(random, &mut deck);
            }
            deck
        }
        4 => odd::bad_termination(random, style),
        5 => odd::noise(random),
        6 => odd::long_cards(random, style),
        _ => {
            let spoilt = *random.pick(&[0, 50, 100]);
            let groups = random.within(1..=20);
            finished(random, Style { further: 100, spoilt, faults: FURTHER_FAULTS, ..style }, groups)
        }
    }
}

/// Requests and the termination card, as they stand in a shift script.
pub fn finished(random: &mut Random, style: Style, groups: usize) -> Vec<u8> {
    let mut deck = requests(random, style, groups);
    deck.extend(TERMINATION);
    if random.percent(5) {
        let tail = random.below(200);
        deck.extend(random.text(CARD_CHARACTERS, tail).bytes());
    }
    deck
}

/// A deck that ends with its termination card.
pub fn for_script(random: &mut Random, style: Style, groups: usize) -> Vec<u8> {
    terminated(&requests(random, style, groups))
}

/// Cards with the termination card behind them.
pub fn terminated(cards: &[u8]) -> Vec<u8> {
    [cards, TERMINATION].concat()
}

/// A deck for a shift script of any kind, perhaps too long, always with a termination card in the end.
pub fn any_for_script(random: &mut Random) -> Vec<u8> {
    let mut deck = deck(random);
    if deck.last() != Some(&b'\n') {
        deck.push(b'\n');
    }
    deck.extend(TERMINATION);
    deck
}

fn requests(random: &mut Random, style: Style, groups: usize) -> Vec<u8> {
    let mut deck = Vec::new();
    if random.percent(6) {
        deck.extend(stray_card(random));
    }
    for _ in 0..groups {
        let spoilt = random.percent(style.spoilt);
        deck.extend(group::request(random, style, spoilt));
    }
    deck
}

fn stray_card(random: &mut Random) -> Vec<u8> {
    let length = random.below(20);
    let mut card = random.text(CARD_CHARACTERS, length).into_bytes();
    if random.percent(30) {
        card = b"A1,FAC,IB/1.".to_vec();
    }
    card.push(b'\n');
    card
}
