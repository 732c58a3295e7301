//! The kinds of channel: each pair of them, whatever the order on the cards and in the cell.

use ordinary::numbers::Kind;
use ordinary::shift::converse;

use crate::support::TERMINATION;

/// The answer to a selection in a cell with these channels and one request, A, with these entries.
fn selection(channels: &[(Kind, u32)], entries: &str) -> String {
    let mut script = format!("{}\n", channels.len());
    for (number, (kind, n)) in channels.iter().enumerate() {
        script += &format!("{number:02} {} {n}\n", kind.letters());
    }
    script += &format!("0\n0\nDECK\nA,PTY,2,,P,,,M,P,A1,P,1.\nA,FAC,{entries}.\n{TERMINATION}SELECT\n");
    let answers = String::from_utf8(converse(script.as_bytes())).unwrap();
    answers.strip_prefix("A SCH ACK\n").unwrap().trim_end().to_string()
}

/// All pairs of different kinds with units.
fn pairs() -> impl Iterator<Item = (Kind, Kind)> {
    let with = |one: Kind| Kind::WITH_UNITS.into_iter().map(move |other| (one, other));
    Kind::WITH_UNITS.into_iter().flat_map(with).filter(|(one, other)| one != other)
}

#[test]
fn a_unit_of_one_kind_serves_no_other() {
    for (one, other) in pairs() {
        let asked = |logical: &str| format!("IB/1,{}{logical}/1", one.letters());
        let due = format!("NO 20 A {}", one.letters());
        assert_eq!(selection(&[(other, 16)], &asked("")), due);
        assert_eq!(selection(&[(other, 16)], &asked("1")), due);
        assert_eq!(selection(&[(other, 16), (one, 1)], &asked("")), format!("ACK 0 A IB 2-2 {} 01/00", one.letters()));
    }
}

#[test]
fn of_two_that_are_lacking_the_first_is_named() {
    for (one, other) in pairs() {
        let first = one.min(other).letters();
        let entries = format!("{}/2,{}/2,IB/1", one.letters(), other.letters());
        for cell in [[(one, 1), (other, 1)], [(other, 1), (one, 1)]] {
            assert_eq!(selection(&cell, &entries), format!("NO 20 A {first}"));
        }
        // Only the second one is lacking.
        let last = one.max(other);
        let cell = [(one, 1 + u32::from(one != last)), (other, 1 + u32::from(other != last))];
        assert_eq!(selection(&cell, &entries), format!("NO 20 A {}", last.letters()));
    }
}

#[test]
fn entries_come_in_the_written_order_whatever_the_card_and_the_channels() {
    for (one, other) in pairs() {
        let entries = format!("{}2/1,{}/1,IB/1", one.letters(), other.letters());
        let (mut first, mut second) = (format!("{}2 00/00", one.letters()), format!("{} 01/00", other.letters()));
        if other < one {
            std::mem::swap(&mut first, &mut second);
        }
        assert_eq!(selection(&[(one, 1), (other, 1)], &entries), format!("ACK 0 A IB 2-2 {first} {second}"));
    }
    let letters: Vec<&str> = Kind::WITH_UNITS.iter().map(|kind| kind.letters()).collect();
    assert_eq!(letters, ["MA", "MT", "PR", "MC", "CR", "PT"]);
}
