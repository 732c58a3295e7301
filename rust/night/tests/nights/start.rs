//! What a night says when it starts, whose journals it takes, and the times that it records.

use std::process::Output;

use night::journal::{Format, Jump};
use night::time::Time;

use crate::support::{said, Place};

const CONFIGURATION: &[u8] = b"1\n03 MT 4\n0\n2\n03\n11\n";
const EVENING: Time = Time(1_794_866_400_000);

fn run(place: &Place, option: &str, input: &[u8]) -> Output {
    let mut command = place.command();
    std::fs::write(place.folder.join("input"), input).unwrap();
    command.arg(option).stdin(std::fs::File::open(place.folder.join("input")).unwrap()).output().unwrap()
}

#[test]
fn starting_says_what_it_did() {
    let place = Place::new("start", CONFIGURATION);
    place.set_clock(EVENING.0, 0);
    let begun = place.run(b"DOWN 3 1\n");
    assert_eq!(said(&begun), format!("night: {}: new journal begun\n", place.journal().display()));
    place.set_clock(EVENING.0 + 2 * 3_600_000 + 67_890, 2 * 3_600_000 + 67_890);
    let again = place.run(b"UP 3 1\nBOARD\nDOWN 3 1\n");
    let due = "1 calls played back, the last at 22:00:00 UTC on 2026-11-16\n";
    assert_eq!(said(&again), format!("night: {}: {due}", place.journal().display()));
    let third = place.run(b"");
    assert!(
        said(&third).ends_with(": 3 calls played back, the last at 00:01:07 UTC on 2026-11-17\n"),
        "{}",
        said(&third)
    );
}

#[test]
fn new_refuses_a_journal_that_is_there_and_resume_one_that_is_not() {
    let place = Place::new("new", CONFIGURATION);
    let refused = run(&place, "--resume", b"BOARD\n");
    assert!(
        said(&refused).contains("there is no journal") && said(&refused).contains("--resume"),
        "{}",
        said(&refused)
    );
    assert_eq!((refused.status.code(), refused.stdout.len(), place.journal().exists()), (Some(1), 0, false));
    assert!(run(&place, "--new", b"DOWN 3 1\n").status.success());
    let bytes = place.journal_bytes();
    let refused = run(&place, "--new", b"BOARD\n");
    assert!(said(&refused).contains("is there already, with 1 calls: --new"), "{}", said(&refused));
    assert_eq!((refused.status.code(), refused.stdout.len(), place.journal_bytes()), (Some(1), 0, bytes));
    assert!(run(&place, "--resume", b"").status.success());
    // A start that was cut short has made no journal yet.
    std::fs::write(place.journal(), b"").unwrap();
    assert_eq!(run(&place, "--resume", b"").status.code(), Some(1));
    assert!(run(&place, "--new", b"").status.success());
}

#[test]
fn records_have_times_that_never_go_back_and_jumps_are_recorded() {
    let place = Place::new("clock", CONFIGURATION);
    place.set_clock(EVENING.0, 0);
    let mut running = place.start();
    running.send(b"STATUS 0 0\n");
    assert_eq!(running.answer(10), b"ACK BLANK\n");
    // What the system's clock shows, and what has passed, in seconds.
    for (system, passed) in [(10, 10), (20, 20), (-3580, 20), (-3570, 30), (7230, 40)] {
        place.set_clock(EVENING.0.wrapping_add_signed(system * 1000), passed * 1000);
        running.send(b"DOWN 3 1\n");
        assert_eq!(running.answer(4), b"ACK\n");
    }
    running.finish();
    // The clock of the night that goes on is an hour behind the last call.
    place.set_clock(EVENING.0 + 3_630_000, 0);
    place.answers(b"DOWN 3 1\n");
    let journal = night::store::look_at(&place.journal()).unwrap();
    let times: Vec<u64> = journal.calls.iter().map(|call| (call.time.unwrap().0 - EVENING.0) / 1000).collect();
    assert_eq!((journal.begun, times), (Some(EVENING), vec![10, 20, 20, 20, 7230, 7230]));
    let jumps = [(3, -3_600_000), (5, 10_790_000), (6, -3_600_000)].map(|(call, by)| Jump { call, by });
    assert_eq!(journal.jumps, jumps);
}

#[test]
fn the_header_names_the_program_and_another_one_is_told() {
    let place = Place::new("origin", CONFIGURATION);
    place.answers(b"DOWN 3 1\n");
    let origin = night::standing::origin(&place.program).unwrap();
    let text = String::from_utf8(place.journal_bytes()).unwrap();
    let due = format!("luffgravel night journal 2 script 7 program {:016x}", origin.program);
    assert_eq!(text.lines().next(), Some(&due[..]));
    // A program that answers the same, and is another file.
    let other = place.folder.join("shift-2");
    let bytes = std::fs::read(&place.program).unwrap();
    std::fs::copy(&place.program, &other).unwrap();
    std::fs::write(&other, [&bytes[..], b"\n"].concat()).unwrap();
    let place = Place { folder: place.folder, program: other };
    let output = place.run(b"BOARD\n");
    assert!(
        output.status.success() && said(&output).contains("was begun with another shift program"),
        "{}",
        said(&output)
    );
}

#[test]
fn calls_that_only_ask_are_not_written_and_answers_of_several_lines_are_whole() {
    let place = Place::new("asks", CONFIGURATION);
    place.answers(b"");
    let bytes = place.journal_bytes();
    let answers = place.answers(b"BOARD\nSTATUS 0 0\nTIMES\nSTATUS 16 0\n");
    let board = "CORE XX............................XX\nEND OF BOARD\n";
    assert_eq!(String::from_utf8_lossy(&answers), format!("{board}ACK BLANK\n??\nNO 1\n"));
    assert_eq!(place.journal_bytes(), bytes);
    let deck = [b"DECK\nA,PTY\nB,PTY\n", night::calls::TERMINATION].concat();
    let answers = place.answers(&deck);
    let journal = night::store::look_at(&place.journal()).unwrap();
    assert_eq!(journal.calls.len(), 1);
    assert!(answers.iter().filter(|&&byte| byte == b'\n').count() > 2);
    assert_eq!(journal.calls[0].answer.text(), Some(&answers[..]));
}

/// `format1/journal` was written by the version of night before this one.
#[test]
fn a_journal_of_the_first_format_is_played_back_looked_at_and_gone_on_with() {
    let configuration = include_bytes!("../format1/configuration");
    let old = include_bytes!("../format1/journal");
    let place = Place::new("first-format", configuration);
    std::fs::write(place.journal(), old).unwrap();
    let output = place.run(b"BOARD\nDELETE F6\nDECK\nX\n");
    assert!(said(&output).ends_with(": 35 calls played back; it is of the first format, and has no times\n"));
    let due = "UNIT 03/02 HELD 1\nUNIT 03/03 HELD 0\nCORE XX01..........................XX\n\
               C3 B01 RUNS\nE5 B02 RUNS\nEND OF BOARD\nNO 15\nNO 11\n";
    assert!(String::from_utf8_lossy(&output.stdout).ends_with(due), "{}", String::from_utf8_lossy(&output.stdout));
    let journal = night::store::look_at(&place.journal()).unwrap();
    assert_eq!((journal.format, journal.calls.len(), journal.torn), (Format::First, 37, 0));
    assert!(place.journal_bytes().starts_with(old));
    // Dates alone are not taken for somebody else's bytes in it.
    let mut running = place.start();
    running.send(b"DOWN 3 3\n");
    assert_eq!(running.answer(4), b"ACK\n");
    let file = std::fs::OpenOptions::new().write(true).open(place.journal()).unwrap();
    file.set_modified(std::time::SystemTime::UNIX_EPOCH).unwrap();
    running.send(b"UP 3 3\n");
    assert_eq!(running.answer(4), b"ACK\n");
    running.finish();
    place.answers(b"SELECT\n");
    // The old program would still take it.
    assert!(place.journal_bytes().ends_with(b"<40 SELECT\n>NO 19\n=6 4be5798d60c182d8\n"));
}
