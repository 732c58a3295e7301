//! `check`, and the proved programs by name: what they print, and a status that says whether it has errors.

use std::path::Path;

use crate::support::{folder, night, programs, said, Place};

const EXAMPLES: &str = concat!(env!("CARGO_MANIFEST_DIR"), "/../../examples");

fn example(name: &str) -> String {
    Path::new(EXAMPLES).join(name).to_str().unwrap().to_string()
}

/// The status, and what was printed.
fn done(words: &[&str]) -> (Option<i32>, String) {
    let programs = programs();
    let output = night(&[words, &["--programs", programs.to_str().unwrap()]].concat());
    (output.status.code(), String::from_utf8(output.stdout).unwrap())
}

fn file(name: &str, text: &[u8]) -> String {
    let path = folder(name).join("file");
    std::fs::write(&path, text).unwrap();
    path.to_str().unwrap().to_string()
}

#[test]
fn a_configuration_is_checked_by_the_listing() {
    let (cell, bad) = (example("cell.conf"), file("check-bad", b"2\n00 MA 4\n00 MT 2\n0\n0\n"));
    assert_eq!(done(&["check", &cell]), (Some(0), "00 3\n01 2\n03 3\n05 2\n10 1\n12 1\n".to_string()));
    assert_eq!(done(&["check", &bad]), (Some(1), "ER 14 LINE 3\n".to_string()));
    assert_eq!(done(&["listing", &cell]), done(&["check", &cell]));
    assert_eq!(done(&["listing", &bad]), done(&["check", &bad]));
}

#[test]
fn a_deck_is_checked_alone_and_against_the_schedule_of_a_night() {
    let (good, bad) = (example("day.deck"), example("morning.deck"));
    let (status, printed) = done(&["check", "--deck", &good]);
    assert_eq!((status, printed.lines().last()), (Some(0), Some("D4 SCH ACK")));
    let (status, printed) = done(&["check", "--deck", &bad]);
    assert_eq!((status, printed.lines().next()), (Some(1), Some("SP B7 ER 31")));
    assert_eq!(done(&["deck", &bad]), (status, printed));
    let cut = file("check-cut", b"A1,PTY\n");
    assert_eq!(done(&["check", "--deck", &cut]), (Some(1), "SCH ER 11\n".to_string()));
    // In tonight's schedule A1 is there already, and 26 says so.
    let place = Place::new("check-journal", b"1\n03 MT 4\n0\n0\n");
    let deck = [b"DECK\n", &std::fs::read(&good).unwrap()[..]].concat();
    place.answers(&deck);
    let journal = place.journal();
    let bytes = place.journal_bytes();
    let tried = |deck: &str| done(&["check", "--deck", deck, "--journal", journal.to_str().unwrap()]);
    let again = "SP A1 ER 26\nSP B7 ER 26\nSP D4 ER 26\n------ SCH ACK\n";
    assert_eq!(tried(&good), (Some(1), again.to_string()));
    let other = [b"X,PTY,2,,KEY,,T,PROG,P,C5,C,1.\nX,FAC,IB/1.\n", night::calls::TERMINATION].concat();
    assert_eq!(tried(&file("check-other", &other)), (Some(0), "X SCH ACK\n".to_string()));
    assert_eq!(tried(&cut), (Some(1), "NO 11\n".to_string()));
    // The cell was thrown away each time, and nothing was written.
    assert_eq!(place.journal_bytes(), bytes);
}

#[test]
fn text_of_other_machines_is_named() {
    let deck = std::fs::read_to_string(example("day.deck")).unwrap();
    for (text, words) in [(deck.replace('\n', "\r\n"), "CR LF"), (format!("\u{feff}{deck}"), "byte order mark")] {
        let path = file("check-foreign", text.as_bytes());
        for command in [&["check", "--deck", &path][..], &["check", &path], &["deck", &path]] {
            let programs = programs();
            let output = night(&[command, &["--programs", programs.to_str().unwrap()]].concat());
            assert!(said(&output).contains(&format!("{path} ")) && said(&output).contains(words), "{}", said(&output));
            assert_eq!(output.status.code(), Some(1), "{command:?}");
        }
    }
}

#[test]
fn cards_and_the_desk_have_a_status_too() {
    let changeover = example("changeover.deck");
    let (status, printed) = done(&["cards", &changeover]);
    assert_eq!((status, printed.lines().last()), (Some(1), Some("END OF CARDS")));
    assert_eq!(done(&["cards", &example("day.deck")]).0, Some(0));
    let (repair, day) = (example("repair.deck"), example("day.deck"));
    let (status, printed) = done(&["desk", &repair, &day, "B7", "A1"]);
    assert_eq!((status, printed.matches("\nFROM ").count()), (Some(0), 2));
    assert_eq!(done(&["desk", &repair, &day, "ZZ"]), (Some(1), "NO 22\n".to_string()));
    // Without IDs they come from standard input, which is empty here.
    assert_eq!(done(&["desk", &repair, &day]), (Some(0), String::new()));
}

#[test]
fn wrong_use_is_status_2_and_a_missing_file_is_1() {
    let nowhere = file("check-nowhere", b"") + "-not";
    for (words, status, due) in [
        (&["check"][..], 2, "CONFIG, or --deck DECK, is missing"),
        (&["check", "--deck"], 2, "--deck has no DECK behind it"),
        (&["check", "x", "--journal", "y"], 2, "--journal goes with --deck"),
        (&["check", "--deck", "x", "y"], 2, "y is a word too many"),
        (&["deck", "x", "y"], 2, "y is a word too many"),
        (&["desk", "x"], 2, "DAY is missing"),
        (&["desk"], 2, "REPAIR is missing"),
        (&["check", &nowhere], 1, "No such file"),
        (&["listing", &nowhere], 1, "No such file"),
        (&["listing", "--programs", &nowhere, &example("cell.conf")], 1, "No such file"),
    ] {
        let output = night(words);
        assert!(output.status.code() == Some(status) && said(&output).contains(due), "{words:?}: {}", said(&output));
        assert_eq!(output.stdout, b"");
    }
}
