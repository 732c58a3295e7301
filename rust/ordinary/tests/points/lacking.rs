//! Points of a selection that takes nothing: which refusal, whose lack, and what is lacking.

use ordinary::shift::Shift;

use crate::support::{self, answer_to, request};

/// One channel of each kind, two of MT; the drum has 671 words.
const CELL: &str = "5\n00 MA 2\n03 MT 4\n05 MT 2\n07 MD 36000\n12 PR 1\n0\n0\n";
const WITHOUT_DRUM: &str = "4\n00 MA 2\n03 MT 4\n05 MT 2\n12 PR 1\n0\n0\n";

/// The cell after a deck of these requests: ID, S or P, priority and entries.
fn cell(configuration: &str, requests: &[(&str, &str, &str, &str)]) -> Shift {
    let cards = requests.iter().map(|(id, run_type, priority, entries)| request(id, "", run_type, priority, entries));
    support::cell(configuration, &cards.collect::<String>())
}

/// A selection that is refused so, again and again, and changes nothing.
fn is_refused(shift: &mut Shift, due: &str) {
    let before = answer_to(shift, "BOARD");
    assert_eq!(answer_to(shift, "SELECT"), due);
    assert_eq!(answer_to(shift, "SELECT"), due);
    assert_eq!(answer_to(shift, "BOARD"), before);
}

fn takes(shift: &mut Shift, due: &str) {
    let answer = answer_to(shift, "SELECT");
    assert!(answer.starts_with(&format!("ACK {due} ")), "{answer}");
}

#[test]
fn each_facility_that_may_be_lacking() {
    for (entries, due) in [
        // Each more than there is, and each just so much.
        ("IB/1,MD/672", "NO 20 A DRUM"),
        ("IB/1,MD/999999", "NO 20 A DRUM"),
        ("IB/1,MA/3", "NO 20 A MA"),
        ("IB/1,MT/7", "NO 20 A MT"),
        ("IB/1,PR/2", "NO 20 A PR"),
        ("IB/28,MD/671,MA/2,MT/6,PR/1", "ACK 0 A"),
        // As many as there are, but not on the channels.
        ("IB/1,MA1/1,MA2/1", "NO 20 A MA"),
        ("IB/1,MT1/5", "NO 20 A MT"),
        ("IB/1,MT1/3,MT2/3", "NO 20 A MT"),
        ("IB/1,MT1/2,MT/5", "NO 20 A MT"),
        ("IB/1,MT1/2,MT2/3,MT/1", "ACK 0 A"),
        ("IB/1,PR1/1,PR/1", "NO 20 A PR"),
        // Several: the first in the order, wherever it stands on the card.
        ("PR/2,MT/7,MA/3,MD/672,IB/1", "NO 20 A DRUM"),
        ("PR/2,MT/7,MA/3,IB/1", "NO 20 A MA"),
        ("PR/2,MT/7,MA/2,IB/1", "NO 20 A MT"),
        ("PR/2,MT/6,MA/3,IB/1", "NO 20 A MA"),
        ("PR/2,MT/6,MA/2,MD/671,IB/28", "NO 20 A PR"),
    ] {
        let mut shift = cell(CELL, &[("A", "P", "A1", entries)]);
        match due.strip_prefix("ACK ") {
            Some(taken) => takes(&mut shift, taken),
            None => is_refused(&mut shift, due),
        }
    }
}

#[test]
fn core_is_lacking_as_a_pair() {
    for (entries, due) in [
        ("IB/19", "NO 20 A CORE"),
        ("IB/19,MD/672,MA/3,MT/7,PR/2", "NO 20 A CORE"),
        ("IB/1,DB/19", "NO 20 A CORE"),
        ("IB/9,DB/10", "NO 20 A CORE"),
        ("IB/9,DB/10,PR/2", "NO 20 A CORE"),
        ("IB/18,PR/2", "NO 20 A PR"),
        ("IB/9,DB/9,PR/2", "NO 20 A PR"),
    ] {
        // 18 blocks are left together.
        let mut shift = cell(CELL, &[("HOLD", "P", "A0", "IB/10"), ("A", "P", "A1", entries)]);
        takes(&mut shift, "0 HOLD");
        is_refused(&mut shift, due);
    }
}

#[test]
fn a_cell_without_a_drum_lacks_it_only_if_it_is_asked_for() {
    is_refused(&mut cell(WITHOUT_DRUM, &[("A", "P", "A1", "IB/1,MD/1,MA/3")]), "NO 20 A DRUM");
    is_refused(&mut cell(WITHOUT_DRUM, &[("A", "P", "A1", "IB/1,PR/2")]), "NO 20 A PR");
    takes(&mut cell(WITHOUT_DRUM, &[("A", "P", "A1", "IB/1")]), "0 A");
    // A kind that no channel has.
    is_refused(&mut cell("0\n0\n0\n", &[("A", "P", "A1", "IB/1,PR1/1,MT/1")]), "NO 20 A MT");
}

#[test]
fn the_first_candidate_is_named_and_a_later_one_that_fits_is_taken() {
    let waiting = [
        ("LATE", "P", "C1", "IB/1,MT/7"),
        ("THIRD", "P", "A2", "IB/1,MA/3"),
        ("SECOND", "P", "02A1", "IB/28"),
        ("FIRST", "P", "01A1", "IB/1,PR/2"),
        ("FITS", "P", "B1", "IB/1"),
    ];
    let mut shift = cell(CELL, &waiting);
    takes(&mut shift, "0 FITS");
    is_refused(&mut shift, "NO 20 FIRST PR");
    // SECOND stood behind FIRST.
    assert_eq!(answer_to(&mut shift, "DELETE FIRST"), "ACK");
    is_refused(&mut shift, "NO 20 SECOND CORE");
    assert_eq!(answer_to(&mut shift, "DELETE SECOND"), "ACK");
    is_refused(&mut shift, "NO 20 THIRD MA");
    assert_eq!(answer_to(&mut shift, "DELETE THIRD"), "ACK");
    is_refused(&mut shift, "NO 20 LATE MT");
    assert_eq!(answer_to(&mut shift, "DELETE LATE"), "ACK");
    is_refused(&mut shift, "NO 19");
}

#[test]
fn without_a_candidate_it_is_19() {
    is_refused(&mut cell(CELL, &[]), "NO 19");
    // A job of S type alone in the cell, and one beside it.
    let mut shift = cell(CELL, &[("S1", "S", "A1", "IB/1"), ("S2", "S", "A2", "IB/1"), ("P", "P", "A3", "IB/1,PR/2")]);
    takes(&mut shift, "0 S1");
    is_refused(&mut shift, "NO 19");
    assert_eq!(answer_to(&mut shift, "DELETE P"), "ACK");
    is_refused(&mut shift, "NO 19");
    // Beside a job of P type S2 is no candidate, and P is the first.
    let mut shift = cell(CELL, &[("P1", "P", "A1", "IB/1"), ("S2", "S", "A2", "IB/1"), ("P", "P", "A3", "IB/1,PR/2")]);
    takes(&mut shift, "0 P1");
    is_refused(&mut shift, "NO 20 P PR");
    assert_eq!(answer_to(&mut shift, "DELETE P"), "ACK");
    is_refused(&mut shift, "NO 19");
}

#[test]
fn without_a_place_it_is_18_whoever_waits() {
    let ids: Vec<String> = (0..18).map(|number| format!("J{number}")).collect();
    let priorities: Vec<String> = (0..18).map(|number| format!("A{number}")).collect();
    let entries = |number| if number == 16 { "IB/28,PR/2" } else { "IB/1" };
    let requests: Vec<_> =
        (0..18).map(|number| (&ids[number][..], "P", &priorities[number][..], entries(number))).collect();
    let mut shift = cell(CELL, &requests);
    for (place, id) in ids[..16].iter().enumerate() {
        takes(&mut shift, &format!("{place} {id}"));
    }
    is_refused(&mut shift, "NO 18");
    assert_eq!(answer_to(&mut shift, "DELETE J17"), "ACK");
    is_refused(&mut shift, "NO 18");
    assert_eq!(answer_to(&mut shift, "END 5"), "ACK");
    is_refused(&mut shift, "NO 20 J16 CORE");
    assert_eq!(answer_to(&mut shift, "DELETE J16"), "ACK");
    is_refused(&mut shift, "NO 19");
}
