//! `who`, `log` and `board`: by the call and by the clock, as text and as JSON.

use night::time::Time;

use crate::any_bytes::TERMINATION;
use crate::support::{night, programs, said, Place};

const CONFIGURATION: &[u8] = b"2\n03 MT 2\n07 MD 40000\n0\n1\n11\n";
/// 23:58 on the 16th of November 2026.
const EVENING: Time = Time(1_794_873_480_000);

/// A night with a call every minute: A1 has a head over midnight, and B7 gets it then. Asking is not written.
fn place(name: &str) -> Place {
    let place = Place::new(name, CONFIGURATION);
    let group = |id: &str, entries: &str| format!("{id},PTY,2,,P,,,M,P,A{},P,1.\n{id},FAC,{entries}.\n", &id[1..]);
    let deck = format!("DECK\n{}{}{TERMINATION}", group("A1", "IB/1,MT/1,MD/100"), group("B7", "IB/1,MT/2"));
    let lines =
        [&deck[..], "SELECT\n", "SUBMIT 0 0 42 3 0\n", "START 3\n", "END 0\n", "DONE 3\n", "SELECT\n", "DOWN 3 1\n"];
    place.set_clock(EVENING.0, 0);
    let mut running = place.start();
    running.send(b"STATUS 0 0\n");
    assert_eq!(running.answer(10), b"ACK BLANK\n");
    for (minute, line) in (0..).zip(lines) {
        place.set_clock(EVENING.0 + 60_000 * minute + 250, 60_000 * minute + 250);
        running.send(format!("{line}STATUS 15 15\n").as_bytes());
        let mut answer = running.answer(1);
        while !answer.ends_with(b"ACK BLANK\n") {
            answer.extend(running.answer(1));
        }
    }
    running.finish();
    place
}

fn asked(place: &Place, words: &[&str]) -> String {
    let journal = place.journal();
    let output = night(&[words, &["--journal", journal.to_str().unwrap()]].concat());
    assert!(output.status.success(), "{words:?}: {}", said(&output));
    String::from_utf8(output.stdout).unwrap()
}

/// What is wrong with the question.
fn refused(place: &Place, words: &[&str]) -> (Option<i32>, String) {
    let journal = place.journal();
    let output = night(&[words, &["--journal", journal.to_str().unwrap()]].concat());
    assert_eq!(output.stdout, b"", "{words:?}");
    (output.status.code(), said(&output))
}

#[test]
fn who_lists_every_holding_of_a_head_with_job_calls_and_times() {
    let place = place("who");
    let a1 = "from call 2 (2026-11-16 23:59:00, SELECT) to call 6 (2026-11-17 00:03:00, DONE 3)\n";
    let b7 = "B7 (place 0) from call 7 (2026-11-17 00:04:00, SELECT) and still has it\n";
    assert_eq!(asked(&place, &["who", "03", "00"]), format!("03/00: A1 (place 0) {a1}03/00: {b7}"));
    assert_eq!(asked(&place, &["who", "3", "1"]), format!("03/01: {b7}"));
    assert_eq!(asked(&place, &["who", "03/01"]), format!("03/01: {b7}"));
    // A word of the drum, and what a job had.
    let drum = format!("07 drum 35329-35428: A1 (place 0) {a1}");
    assert_eq!(asked(&place, &["who", "07", "35428"]), drum);
    assert_eq!(asked(&place, &["who", "07", "35429"]), "no job: nothing was held\n");
    assert_eq!(asked(&place, &["who", "--job", "A1"]), format!("03/00: A1 (place 0) {a1}{drum}"));
    assert_eq!(asked(&place, &["who", "03", "00", "--job=B7"]), format!("03/00: {b7}"));
    // It has it after the call that gave it, and no longer after the one that took it.
    let had = |at: &str| asked(&place, &["who", "--job", "A1", "--at", at]).matches("A1 (place 0)").count();
    assert_eq!(["1", "2", "5", "6"].map(had), [0, 2, 2, 0]);
    assert_eq!(asked(&place, &["who", "--job", "B7", "--at", "6"]), "no job: nothing was held\n");
    assert_eq!(asked(&place, &["who", "--job", "B7", "--at", "00:04"]).lines().count(), 2);
}

#[test]
fn who_says_how_a_head_was_at_a_call_or_by_the_clock() {
    let place = place("who-at");
    for (at, due) in [
        ("0", "the start: free"),
        ("23:57:59", "the start: free"),
        ("23:58", "call 1 (2026-11-16 23:58:00, DECK): free"),
        ("4", "call 4 (2026-11-17 00:01:00, START 3): held by A1 (place 0); packet 0 moves (function 42)"),
        ("00:01:30", "call 4 (2026-11-17 00:01:00, START 3): held by A1 (place 0); packet 0 moves (function 42)"),
        (
            "00:02",
            "call 5 (2026-11-17 00:02:00, END 0): held by A1 (place 0, closing); packet 0 is stopping (function 42)",
        ),
        ("2026-11-17T00:03:59", "call 6 (2026-11-17 00:03:00, DONE 3): free"),
        ("2026-11-17 00:04", "call 7 (2026-11-17 00:04:00, SELECT): held by B7 (place 0); no packet moves"),
        ("02:40", "call 8 (2026-11-17 00:05:00, DOWN 3 1): held by B7 (place 0); no packet moves"),
    ] {
        assert_eq!(asked(&place, &["who", "03", "00", "--at", at]), format!("03/00 after {due}\n"), "{at}");
    }
    assert_eq!(
        asked(&place, &["who", "07", "35400", "--at", "4"]),
        "07 word 35400 after call 4 (2026-11-17 00:01:00, START 3): held by A1 (place 0); no packet moves\n"
    );
}

#[test]
fn the_log_has_calls_and_answers_with_times() {
    let place = place("log");
    let midnight =
        "2026-11-16 UTC\n     2 23:59:00  SELECT\n               > ACK 0 A1 IB 2-2 MD 35329-35428 MT 03/00\n\
                    2026-11-17 UTC\n     3 00:00:00  SUBMIT 0 0 42 3 0\n               > ACK\n";
    assert_eq!(asked(&place, &["log", "--from", "2", "--to", "3"]), midnight);
    assert_eq!(asked(&place, &["log", "--from", "23:59", "--to", "00:00"]), midnight);
    assert_eq!(asked(&place, &["log", "--from=23:58:01", "--to=00:00:59"]), midnight);
    assert_eq!(asked(&place, &["log", "--from", "00:06"]), "");
    let whole = asked(&place, &["log"]);
    assert!(whole.starts_with("2026-11-16 UTC\n     1 23:58:00  DECK\n                 A1,PTY,2"), "{whole}");
    assert_eq!(whole.matches("\n               > ").count(), 8);
}

#[test]
fn the_board_is_that_of_the_proved_program_at_any_moment() {
    let place = place("board");
    let programs = programs();
    let board = |words: &[&str]| asked(&place, &[&["board", "--programs", programs.to_str().unwrap()], words].concat());
    let fresh = "CORE XX............................XX\nEND OF BOARD\n";
    assert_eq!(board(&["--at", "0"]), fresh);
    let moving =
        "PLACE 0 A1 RUNS\nUNIT 03/00 HELD 0\nCORE XX0...........................XX\nDRUM 35329-35428 0\nMOVES 03 0 0\n\
                  A1 A01 RUNS\nB7 A07 WAITS\nEND OF BOARD\n";
    assert_eq!(board(&["--at", "4"]), moving);
    assert_eq!(board(&["--at", "00:01:59"]), moving);
    assert_eq!(board(&[]).into_bytes(), place.answers(b"BOARD\n"));
    let objects = board(&["--at", "4", "--json"]);
    let first = "{\"call\":4,\"time\":\"2026-11-17T00:01:00.250Z\",\"line\":\"PLACE 0 A1 RUNS\"}";
    assert_eq!((objects.lines().next(), objects.lines().count()), (Some(first), moving.lines().count()));
}

#[test]
fn objects_are_one_a_line() {
    let place = place("objects");
    assert_eq!(
        asked(&place, &["who", "03", "00", "--json"]),
        "{\"channel\":3,\"unit\":0,\"words\":null,\"job\":\"A1\",\"place\":0,\"from_call\":2,\
         \"from_time\":\"2026-11-16T23:59:00.250Z\",\"from_line\":\"SELECT\",\"to_call\":6,\
         \"to_time\":\"2026-11-17T00:03:00.250Z\",\"to_line\":\"DONE 3\"}\n\
         {\"channel\":3,\"unit\":0,\"words\":null,\"job\":\"B7\",\"place\":0,\"from_call\":7,\
         \"from_time\":\"2026-11-17T00:04:00.250Z\",\"from_line\":\"SELECT\",\"to_call\":null,\"to_time\":null,\"to_line\":null}\n"
    );
    assert!(asked(&place, &["who", "7", "35329", "--json"])
        .starts_with("{\"channel\":7,\"unit\":null,\"words\":[35329,35428],"));
    assert_eq!(
        asked(&place, &["who", "03", "00", "--at", "5", "--json"]),
        "{\"channel\":3,\"unit\":0,\"call\":5,\"time\":\"2026-11-17T00:02:00.250Z\",\"line\":\"END 0\",\"job\":\"A1\",\
         \"place\":0,\"closing\":true,\"packet\":0,\"function\":\"42\",\"stopping\":true,\"returning\":false,\
         \"interlock\":false,\"down\":false,\"reserved\":false}\n"
    );
    assert_eq!(
        asked(&place, &["log", "--from", "7", "--to", "7", "--json"]),
        "{\"call\":7,\"time\":\"2026-11-17T00:04:00.250Z\",\"lines\":[\"SELECT\"],\
         \"answer\":[\"ACK 0 B7 IB 2-2 MT 03/00 03/01\"],\"input_ended\":false,\"clock_jumped_ms\":null}\n"
    );
    assert_eq!(asked(&place, &["log", "--json"]).lines().count(), 8);
    assert_eq!(asked(&place, &["who", "03", "01", "--job", "A1", "--json"]), "");
}

#[test]
fn what_cannot_be_asked_is_named() {
    let place = place("unasked");
    for (words, status, due) in [
        (&["who", "03", "00", "--at", "9"][..], 1, "the journal has 8 calls, and no call 9"),
        (&["who", "03", "02"], 1, "there is no head 03/02 in this cell"),
        (&["who", "03", "00", "--at", "2:40"], 2, "--at 2:40 is no moment"),
        (&["who", "03", "00", "--at", "12:00"], 1, "12:00:00 UTC is far from this journal"),
        (&["who", "03"], 2, "the unit uu is missing"),
        (&["who", "03/x"], 2, "the unit x is no number"),
        (&["who", "x3", "00"], 2, "the channel x3 is no number"),
        (&["who", "03", "00", "8"], 2, "8 is a word too many"),
        (&["log", "--from", "5", "--to", "3"], 1, "--from is after --to"),
    ] {
        let (code, said) = refused(&place, words);
        assert!(code == Some(status) && said.contains(due), "{words:?}: {said}");
    }
    // A journal of the first format has no times, and can be asked by its calls.
    std::fs::write(place.journal(), include_bytes!("../format1/journal")).unwrap();
    assert!(refused(&place, &["who", "03", "00", "--at", "02:40"]).1.contains("has no times"));
    let due = "03/02: C3 (place 0) from call 15 (SELECT) to call 30 (CUT 03)\n03/02: E5 (place 1) from call 31 (SELECT) and still has it\n";
    assert_eq!(asked(&place, &["who", "03", "02"]), due);
    assert!(asked(&place, &["log", "--from", "10", "--to", "10"]).contains("    10 --:--:--  BOARD\n"));
    let programs = programs();
    let board = asked(&place, &["board", "--at", "9", "--programs", programs.to_str().unwrap()]);
    assert!(board.starts_with("PLACE 0 A1 CLOSES\nUNIT 03/00 HELD 0\n"));
    assert!(asked(&place, &["show"]).contains("<title>03/02: held by E5 in place 1 from call 31 to 36</title>"));
}

#[test]
fn what_is_no_whole_record_is_told_where_a_journal_is_looked_at() {
    let place = place("looked-torn");
    let bytes = place.journal_bytes();
    std::fs::write(place.journal(), &bytes[..bytes.len() - 5]).unwrap();
    let journal = place.journal();
    let output = night(&["log", "--journal", journal.to_str().unwrap()]);
    assert!(output.status.success() && !String::from_utf8_lossy(&output.stdout).contains("DOWN 3 1"));
    assert!(said(&output).contains("bytes are no whole record"), "{}", said(&output));
}

#[test]
fn a_jump_of_the_clock_is_in_the_log() {
    let place = Place::new("jumped", CONFIGURATION);
    place.set_clock(EVENING.0, 0);
    place.answers(b"DOWN 3 1\n");
    place.set_clock(EVENING.0 - 90_000, 0);
    place.answers(b"UP 3 1\n");
    let due = "     2 23:58:00  UP 3 1\n";
    let log = asked(&place, &["log"]);
    assert!(
        log.contains(&format!("                 (the system's clock had jumped back by 90.000 seconds)\n{due}")),
        "{log}"
    );
    assert!(asked(&place, &["log", "--json"]).contains("\"clock_jumped_ms\":-90000}"));
}
