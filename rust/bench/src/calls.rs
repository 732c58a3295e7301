//! Calls on a cell, as its list of packets and its schedule fill. The proved functions are called a hundred or a
//! thousand times from within and once or not at all, and the difference is divided: a cell cannot be handed to them
//! from here.

use std::hint::black_box;

use ordinary::cell::{Cell, Completion, Submission};
use ordinary::configuration::Configuration;

use crate::{proved, request, show, time, TERMINATION};

/// A fresh cell that has entered a deck.
fn fresh(configuration: &str, deck: &str) -> Cell {
    let mut cell = Cell::new(Configuration::from_text(configuration.as_bytes()).expect("a good configuration"));
    enter(&mut cell, deck);
    cell
}

fn enter(cell: &mut Cell, deck: &str) {
    let outcome = cell.enter_deck(deck.as_bytes()).expect("a good deck");
    assert!(outcome.errors.is_empty());
}

/// Requests from one number to another, all with these entries, as a deck.
fn deck(numbers: std::ops::Range<usize>, entries: &str) -> String {
    numbers.map(|number| request(number, entries)).collect::<String>() + TERMINATION
}

/// Nanoseconds of a call that changes the cell: from a copy of it each time, whose own time is taken off.
fn time_from(cell: &Cell, call: impl Fn(&mut Cell)) -> f64 {
    let copy = time(|| {
        black_box(cell.clone());
    });
    let both = time(|| call(&mut black_box(cell.clone())));
    both - copy
}

/// Nanoseconds of one of `count` calls: of all of them less those of `least`.
fn time_of_one(count: u32, least: u32, mut run: impl FnMut(bool)) -> f64 {
    let all = time(|| run(black_box(true)));
    let few = time(|| run(black_box(false)));
    (all - few) / f64::from(count - least)
}

fn submission(place: u32, packet: u32, channel: u32) -> Submission {
    Submission { place, packet, function: 0o02, channel, x: place, h: 0 }
}

/// A cell with sixteen jobs in which so many packets are listed, all on channel 0: there the job in place p holds unit
/// p. None of them is packet 0 of place 0.
fn loaded(configuration: &str, deck: &str, listed: u8) -> Cell {
    let mut cell = fresh(configuration, deck);
    for _ in 0..16 {
        cell.select().expect("a job");
    }
    let packets = (1..16).flat_map(|place| (0..16).map(move |packet| (place, packet)));
    for (place, packet) in packets.chain((1..16).map(|packet| (0, packet))).take(listed.into()) {
        cell.submit(submission(place, packet, 0)).expect("accepted");
    }
    assert_eq!(cell.listed().count(), listed.into());
    cell
}

/// A packet submitted, started and completed on channel 1, while others stand before it in the list.
pub fn turns() {
    let configuration = "2\n00 MT 16\n01 MT 16\n0\n0\n";
    let deck = request(0, "IB/1,MT1/1,MT2/1") + &deck(1..16, "IB/1,MT1/1");
    let (config, deck_bytes) = (configuration.as_bytes(), deck.as_bytes());
    for listed in [0, 1, 64, 255] {
        let mut cell = loaded(configuration, &deck, listed);
        let ordinary = time(|| {
            cell.submit(black_box(submission(0, 0, 1))).expect("accepted");
            black_box(cell.start(1)).expect("accepted");
            black_box(cell.complete(1, Completion::Full)).expect("accepted");
        });
        let others = if listed == 1 { "other" } else { "others" };
        let proved = proved::LINKED.then(|| {
            let run = |turned| assert!(proved::turns(black_box(config), black_box(deck_bytes), listed, turned));
            time_of_one(1000, 0, run)
        });
        show(&format!("submit, start and complete, {listed} {others} listed"), ordinary, proved);
        let proved = proved::LINKED.then(|| {
            let run = |turned| assert!(proved::cell_turns(black_box(config), black_box(deck_bytes), listed, turned));
            time_of_one(100, 0, run)
        });
        show(&format!("the same on the whole cell, {listed} {others} listed"), ordinary, proved);
    }
}

/// A unit of channel 1 given back with nothing on it, while packets are listed elsewhere: one of sixteen that the job in
/// place 0 gives back. The proved call is not timed yet.
pub fn returns() {
    let configuration = "2\n00 MT 16\n01 MT 16\n0\n0\n";
    let deck = request(0, "IB/1,MT1/1,MT2/16") + &deck(1..16, "IB/1,MT1/1");
    for listed in [0, 1, 64, 255] {
        let cell = loaded(configuration, &deck, listed);
        let all = time_from(&cell, |cell| (0..16).for_each(|unit| cell.give_back(0, 1, unit).expect("accepted")));
        let others = if listed == 1 { "other" } else { "others" };
        show(&format!("a unit given back, {listed} {others} listed"), all / 16.0, None);
    }
}

/// One further request entered.
pub fn entries() {
    const ENTRIES: &str = "IB/2,DB/1,MD/1500,MA/1,MT1/2,MT2/3,PR/1";
    for count in [0, 1, 16, 63] {
        let before = deck(0..count, ENTRIES);
        let further = deck(count..count + 1, ENTRIES);
        let cell = fresh("0\n0\n0\n", &before);
        let ordinary = time_from(&cell, |cell| enter(cell, black_box(&further)));
        let proved = proved::LINKED.then(|| {
            let (before, further) = (before.as_bytes(), further.as_bytes());
            let run = |hundred| assert!(proved::entries(black_box(before), black_box(further), hundred));
            time_of_one(100, 1, run)
        });
        show(&format!("one request entered, {count} in the schedule"), ordinary, proved);
    }
}

/// A cell with the channels of the first four kinds.
fn four_kinds() -> String {
    let channels: String = (0..16)
        .map(|channel| match channel {
            0..=4 => format!("{channel:02} MA 16\n"),
            5..=10 => format!("{channel:02} MT 16\n"),
            11 => format!("{channel:02} MD 400000\n"),
            _ => format!("{channel:02} PR 4\n"),
        })
        .collect();
    format!("16\n{channels}0\n0\n")
}

const FITS: &str = "IB/1,DB/1,MD/100,MA1/4,MA2/3,MT1/4,MT2/3,PR1/4";
/// What is lacking shows last.
const LACKS: &str = "IB/1,DB/1,MD/100,MA1/4,MA2/3,MT1/4,MT2/3,PR1/5";

/// Selection in a cell in which no job runs: the first request fits, or none does.
pub fn selections() {
    let cell = four_kinds();
    for count in [1, 16, 64] {
        for (what, entries) in [("the first fits", FITS), ("none fits", LACKS)] {
            select(&format!("selection, {count} in the schedule, {what}"), &cell, &deck(0..count, entries), false);
        }
    }
}

/// Selection over 64 requests with fifteen places held: none fits, or only the last fits.
pub fn late_selections() {
    for (what, last) in [("none of 49 fits", LACKS), ("only the last of 49 fits", FITS)] {
        let held: String = (0..15).map(|number| request(number, "IB/1,MD/100,MT/2")).collect();
        let waiting: String = (15..63).map(|number| request(number, LACKS)).collect();
        let deck = held + &waiting + &deck(63..64, last);
        select(&format!("selection, 15 places held, {what}"), &four_kinds(), &deck, true);
    }
}

/// A cell with a drum and fifteen channels of 16 units, as many of each of these kinds.
fn cell_of(kinds: &[&str]) -> String {
    let units: String = (0..15).map(|channel| format!("{channel:02} {} 16\n", kinds[channel % kinds.len()])).collect();
    format!("16\n{units}15 MD 400000\n0\n0\n")
}

/// Selection in a cell with all seven kinds beside one with four. Both have as many channels and units, and the requests
/// have as many entries: the same ones for the four kinds; or such that all kinds of the cell are asked for.
pub fn kinds() {
    let four = cell_of(&["MA", "MT", "PR"]);
    let seven = cell_of(&["MA", "MT", "PR", "MC", "CR", "PT"]);
    const CORE_AND_DRUM: &str = "IB/1,DB/1,MD/100";
    // The last entry's number decides: 4 units are there on one channel, and 17 are not.
    let same = "MA1/4,MA2/3,MT1/4,MT2/3,PR1/4,PR2";
    let each = "MA1/4,MT1/4,PR1/4,MC1/4,CR1/4,PT1";
    for (what, in_four, in_seven) in
        [("the same entries of four kinds", same, same), ("entries of every kind", same, each)]
    {
        let [fits, lacks] = [4, 17].map(|n| [in_four, in_seven].map(|units| format!("{CORE_AND_DRUM},{units}/{n}")));
        let waiting = |entries: &str| (0..63).map(|number| request(number, entries)).collect::<String>();
        let one = fits.each_ref().map(|entries| deck(0..1, entries));
        let none = lacks.each_ref().map(|entries| deck(0..64, entries));
        let last = [0, 1].map(|cell| waiting(&lacks[cell]) + &deck(63..64, &fits[cell]));
        for (which, decks) in
            [("one request, it fits", one), ("64 requests, none fits", none), ("64 requests, the last fits", last)]
        {
            let what = format!("{which}, {what}");
            let in_four = select(&format!("four kinds: {what}"), &four, &decks[0], false);
            let in_seven = select(&format!("seven kinds: {what}"), &seven, &decks[1], false);
            show_growth(&what, in_four, in_seven);
        }
    }
}

/// How many times longer the second took than the first.
fn show_growth(what: &str, (ordinary, proved): Times, (ordinary_then, proved_then): Times) {
    let proved = proved.zip(proved_then).map_or("-".into(), |(now, then)| format!("{:.2}", then / now));
    println!("| seven kinds / four kinds: {what} | {:.2} | {proved} | |", ordinary_then / ordinary);
}

/// Nanoseconds of `ordinary` and, where they are linked, of the proved functions.
type Times = (f64, Option<f64>);

/// Selection in a cell after a deck was entered and, `late`, after fifteen selections.
fn select(what: &str, configuration: &str, deck: &str, late: bool) -> Times {
    let mut cell = fresh(configuration, deck);
    if late {
        for _ in 0..15 {
            cell.select().expect("a job");
        }
    }
    let fits = cell.clone().select().is_ok();
    let ordinary = if fits {
        time_from(&cell, |cell| assert!(cell.select().is_ok()))
    } else {
        time(|| assert!(black_box(&mut cell).select().is_err()))
    };
    let proved = proved::LINKED.then(|| {
        let (config, deck) = (configuration.as_bytes(), deck.as_bytes());
        let run = |hundred| assert_eq!(proved::selections(black_box(config), black_box(deck), late, hundred), fits);
        time_of_one(100, 1, run)
    });
    show(what, ordinary, proved);
    (ordinary, proved)
}
