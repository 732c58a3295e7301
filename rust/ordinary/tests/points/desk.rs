//! Points of the desk that the cases cannot show or do not name one by one.

use ordinary::deck::DECK_LENGTH;
use ordinary::desk::{converse, show, Desk, Part, Shown};
use ordinary::Refusal;

use crate::support::TERMINATION;

fn deck(cards: &str) -> Vec<u8> {
    [cards, TERMINATION].concat().into_bytes()
}

/// A deck of this length in all, its filling behind the cards.
fn deck_of(length: usize, cards: &str) -> Vec<u8> {
    let filling = "X".repeat(length - cards.len() - 1 - TERMINATION.len());
    deck(&format!("{cards}{filling}\n"))
}

/// What an ID gets of a repair deck and an empty day's deck, and the other way round, which must be the same part.
fn part(id: &str, cards: &str) -> Option<Part> {
    let [cards, empty] = [cards, ""].map(deck);
    match (show(id.as_bytes(), &cards, &empty), show(id.as_bytes(), &empty, &cards)) {
        (Ok(Shown::Repair(one)), Ok(Shown::Day(other))) if one == other => Some(one),
        (Err(Refusal::NoSuchGroup), Err(Refusal::NoSuchGroup)) => None,
        answers => panic!("{answers:?}"),
    }
}

#[test]
fn the_part_starts_at_the_pty_card_and_ends_behind_an_lf() {
    let cards = "LOOSE\nA1,PTY\n\nX\nB7,PTY\nC3,PTY\n";
    assert_eq!(part("A1", cards), Some(Part { from: 6, length: 10 }));
    assert_eq!(part("B7", cards), Some(Part { from: 16, length: 7 }));
    assert_eq!(part("C3", cards), Some(Part { from: 23, length: 7 }));
    assert_eq!(part("LOOSE", cards), None);
}

#[test]
fn the_parts_of_all_groups_are_the_deck_without_its_loose_cards() {
    let cards = "A,PTY\nB\n B , P TY.\n\nC,PTY,PTY\nX,PTYS\nD,PTY\n";
    let whole = deck(cards);
    let parts = ["A", "B", "C", "D"].map(|id| part(id, cards).unwrap().of(&whole).to_vec());
    assert_eq!(parts.concat(), cards.as_bytes());
}

#[test]
fn what_opens_a_group_is_read_loosely() {
    for (card, id) in [
        ("A1,PTY", "A1"),
        (" A 1 , P T Y ", "A1"),
        ("A1,PTY.", "A1"),
        ("A1,PTY.,B7,PTY", "A1"),
        ("A1,PTY,.", "A1"),
        ("A1,PTY,\0\r\t", "A1"),
        ("000000,PTY", "000000"),
    ] {
        let length = card.len() + 1;
        assert_eq!(part(id, &format!("{card}\n")), Some(Part { from: 0, length }), "{card}");
    }
}

#[test]
fn what_opens_none_or_one_without_id() {
    for card in [
        "A1", "A1,", "A1,,PTY", "A1.,PTY", "A1,.PTY", "A1,P.TY", "A1,PT", "A1,PTYY", "A1,pty", "A1,PTY\r", "A1,\tPTY",
        "PTY,A1", ",A1,PTY", "A1\r,PTY", "A1\t,PTY", "a1,PTY", "A-1,PTY", "A1\0,PTY", "AA1,PTY", ".A1,PTY",
    ] {
        assert_eq!(part("A1", &format!("{card}\n")), None, "{card}");
    }
}

#[test]
fn what_is_no_id_has_no_group() {
    for id in ["", "-", "ab", "A1 ", " A1", "A 1", "A1,", "A1.", "A1\r", "A1\n", "A1,PTY", "ABCDEFG", "\0", "Ä"] {
        assert_eq!(part(id, &format!("{id},PTY\n")), None, "{id}");
        assert_eq!(part(id, "A1,PTY\nABCDEF,PTY\n"), None, "{id}");
    }
    assert_eq!(part(&"A".repeat(5000), "A,PTY\n"), None);
}

#[test]
fn a_bad_deck_comes_before_all_else() {
    let good = deck("A1,PTY\n");
    let bad =
        [&b""[..], b"A1,PTY\n", &good[..good.len() - 1], &deck_of(DECK_LENGTH + 1, "A1,PTY\n")].map(<[u8]>::to_vec);
    for bad in &bad {
        for id in ["A1", "B7", "", "no ID"] {
            assert_eq!(show(id.as_bytes(), bad, &good), Err(Refusal::BadDeck));
            assert_eq!(show(id.as_bytes(), &good, bad), Err(Refusal::BadDeck));
            assert_eq!(show(id.as_bytes(), bad, bad), Err(Refusal::BadDeck));
        }
    }
}

#[test]
fn what_follows_the_termination_card_counts_and_is_not_read() {
    let mut repair = deck("");
    repair.extend(b"A1,PTY\n");
    repair.resize(DECK_LENGTH, b'\n');
    let day = deck_of(DECK_LENGTH, "A1,PTY\n");
    let part = Part { from: 0, length: DECK_LENGTH - TERMINATION.len() };
    assert_eq!(show(b"A1", &repair, &day), Ok(Shown::Day(part)));
    repair.push(b'\n');
    assert_eq!(show(b"A1", &repair, &day), Err(Refusal::BadDeck));
}

#[test]
fn reading_goes_on_behind_a_deck_that_is_too_long() {
    let good = deck("A1,PTY\n");
    for length in [DECK_LENGTH + 1, 2 * DECK_LENGTH, 100_000] {
        let long = deck_of(length, "A1,PTY\n");
        for decks in [[&long[..], &good], [&good, &long], [&long, &long]] {
            let input = [&decks.concat()[..], b"A1\n\nA1"].concat();
            assert_eq!(converse(&input), b"NO 11\nNO 11\nNO 11\n");
            assert_eq!(converse(&decks.concat()), b"");
        }
    }
}

#[test]
fn an_input_that_ends_in_a_deck_is_refused_once() {
    let whole = [deck("A1,PTY\n"), deck("B7,PTY\n")].concat();
    for length in 0..whole.len() {
        assert_eq!(converse(&whole[..length]), b"NO 11\n", "{length}");
    }
    assert_eq!(converse(&whole), b"");
}

#[test]
fn a_line_is_answered_when_it_has_come() {
    let mut desk = Desk::default();
    for line in [deck("A1,PTY\n"), deck("A1,PTY.\nB7,PTY\n")].concat().split_inclusive(|&byte| byte == b'\n') {
        assert_eq!(desk.answer_line(line.strip_suffix(b"\n").unwrap()), b"");
    }
    assert_eq!(desk.answer_line(b"A1"), b"A1,PTY\nFROM REPAIR\n");
    assert_eq!(desk.answer_line(b"B7"), b"B7,PTY\nFROM DAY\n");
    assert_eq!(desk.answer_line(b""), b"NO 22\n");
    assert_eq!(desk.answer_line(TERMINATION.trim_end().as_bytes()), b"NO 22\n");
    assert_eq!(desk.answer_line(b"A1"), b"A1,PTY\nFROM REPAIR\n");
    assert_eq!(desk.finish(b""), b"");
    assert_eq!(desk.finish(b"B7"), b"B7,PTY\nFROM DAY\n");
}
