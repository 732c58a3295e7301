//! Points of the script and of packets and ends that the public cases do not have.

use ordinary::shift::converse;

use crate::support::{request, TERMINATION};

/// The answers after a deck of these entries of FAC cards, one request each, A to Z with priorities A1, A2 and so on.
fn answers(configuration: &str, requests: &[&str], calls: &str) -> String {
    let mut input = format!("{configuration}DECK\n");
    for (number, entries) in requests.iter().enumerate() {
        let id = char::from(b'A' + number as u8).to_string();
        input += &request(&id, "", "P", &format!("A{}", number + 1), entries);
    }
    input += TERMINATION;
    input += calls;
    let output = String::from_utf8(converse(input.as_bytes())).unwrap();
    let (acknowledgement, answers) = output.split_once('\n').unwrap();
    assert!(acknowledgement.ends_with(" SCH ACK"), "{acknowledgement}");
    answers.to_string()
}

const TAPES: &str = "2\n03 MT 4\n05 MT 2\n0\n1\n03\n";

#[test]
fn k9_a_unit_is_not_free_until_the_completion() {
    let calls = "SELECT\nSUBMIT 0 0 42 3 0\nSTART 3\nEND 0\nSELECT\nDONE 3\nSELECT\n";
    assert_eq!(
        answers(TAPES, &["IB/1,MT/6", "IB/1,MT/6"], calls),
        "ACK 0 A IB 2-2 MT 03/00 03/01 03/02 03/03 05/00 05/01\nACK\nACK 0 0 42 0\nACK\nNO 20 B MT\nACK 0 0\n\
         ACK 0 B IB 2-2 MT 03/00 03/01 03/02 03/03 05/00 05/01\n"
    );
}

#[test]
fn all_facilities_return_together_at_the_last_completion() {
    let calls = "SELECT\nSUBMIT 0 0 42 3 0\nSUBMIT 0 1 42 5 0\nSTART 3\nSTART 5\nEND 0\nCUT 5\nSELECT\nCUT 3\nSELECT\n";
    let answers = answers(TAPES, &["IB/1,MT/6", "IB/1,MT/2"], calls);
    assert!(answers.ends_with("ACK\nACK 0 1\nNO 20 B MT\nACK 0 0\nACK 0 B IB 2-2 MT 03/00 03/01\n"), "{answers}");
}

#[test]
fn a_failure_of_a_closing_jobs_packet_leaves_no_interlock_to_the_next() {
    let calls = "SELECT\nSUBMIT 0 0 42 3 0\nSTART 3\nEND 0\nFAIL 3 3\nSELECT\nSUBMIT 0 0 42 3 0\nSTART 3\n";
    let answers = answers(TAPES, &["IB/1,MT/1", "IB/1,MT/1"], calls);
    assert!(answers.ends_with("ACK 0 0\nACK 0 B IB 2-2 MT 03/00\nACK\nACK 0 0 42 0\n"), "{answers}");
}

#[test]
fn a_serial_job_runs_alone() {
    let deck = "DECK\nA,PTY,2,,P,,,M,P,A1,P,1.\nA,FAC,IB/1.\nB,PTY,2,,P,,,M,S,A2,P,1.\nB,FAC,IB/1.\nC,PTY,2,,P,,,M,P,A3,P,1.\nC,FAC,IB/1.\n";
    let input =
        format!("0\n0\n0\n{deck}{TERMINATION}SELECT\nSELECT\nEND 0\nSELECT\nEND 1\nSELECT\nSELECT\nEND 0\nSELECT\n");
    assert_eq!(
        converse(input.as_bytes()),
        b"C SCH ACK\nACK 0 A IB 2-2\nACK 1 C IB 3-3\nACK\nNO 19\nACK\nACK 0 B IB 2-2\nNO 19\nACK\nNO 19\n"
    );
}

#[test]
fn a_serial_candidate_without_assignment_does_not_bar_the_next() {
    let deck = "DECK\nA,PTY,2,,P,,,M,S,A1,P,1.\nA,FAC,IB/1,MT/1.\nB,PTY,2,,P,,,M,P,A2,P,1.\nB,FAC,IB/1.\n";
    let input = format!("0\n0\n0\n{deck}{TERMINATION}SELECT\n");
    assert_eq!(converse(input.as_bytes()), b"B SCH ACK\nACK 0 B IB 2-2\n");
}

#[test]
fn long_lines_and_the_last_line() {
    let comment = |length: usize| format!("#{}", "x".repeat(length - 1));
    let input = format!("0\n0\n0\n{}\n{}\n{}", comment(255), comment(256), "BOARD");
    let expected = format!("{}\n??\nCORE XX............................XX\nEND OF BOARD\n", comment(255));
    assert_eq!(String::from_utf8(converse(input.as_bytes())).unwrap(), expected);
}

#[test]
fn decks_that_are_refused() {
    // Too long: reading goes on after the termination card. One without LF at the input's end is taken as if it had
    // one.
    let long = "X\n".repeat(9000);
    let input = format!("0\n0\n0\nDECK\n{long}{TERMINATION}STATUS 0 0\nDECK\nX\n{}", TERMINATION.trim_end());
    assert_eq!(converse(input.as_bytes()), b"NO 11\nACK BLANK\nSP ------ ER 25\n------ SCH ACK\n");
    assert_eq!(converse(b"0\n0\n0\nDECK\nX"), b"NO 11\n");
    assert_eq!(converse(b"0\n0\n0\nDECK"), b"NO 11\n");

    let most = 16_384 - TERMINATION.len();
    for (length, answer) in [(most, "SP ------ ER 25\n------ SCH ACK\n"), (most + 1, "NO 11\n")] {
        let input = format!("0\n0\n0\nDECK\n{}\n{TERMINATION}", "X".repeat(length - 1));
        assert_eq!(String::from_utf8(converse(input.as_bytes())).unwrap(), answer);
    }
}

#[test]
fn a_bad_configuration_ends_the_shift() {
    assert_eq!(converse(b"1\n03 MT 4\nSELECT\n"), b"ER 14 LINE 3\n");
    assert_eq!(converse(b"1\n03 MT 4\n0\nSELECT\n"), b"ER 14 LINE 4\n");
    assert_eq!(converse(b"1\n03 MT 4\n0\n1\n03\nSELECT\n"), b"NO 19\n");
}

#[test]
fn words_of_release_and_delete() {
    assert_eq!(converse(b"0\n0\n0\nRELEASE \xff\xff\nDELETE a,b.\nDELETE \nDELETE\n"), b"NO 15\nNO 15\n??\n??\n");
}

#[test]
fn drum_addresses_and_terminate() {
    let calls = "SELECT\nSELECT\nSUBMIT 0 0 02 2 35329\nSUBMIT 0 1 02 2 35338\nSUBMIT 1 0 02 2 35339\nSTART 2\n\
                 SUBMIT 0 2 23 2 35330 40000\nSTATUS 0 0\nSTATUS 0 1\nSUBMIT 0 2 23 2 0 35329\nSTATUS 0 0\nSTATUS 1 0\nSUBMIT 0 3 07 2 0\n";
    let answers = answers("1\n02 MD 40000\n0\n0\n", &["IB/1,MD/10", "IB/1,MD/10"], calls);
    assert_eq!(
        answers,
        "ACK 0 A IB 2-2 MD 35329-35338\nACK 1 B IB 3-3 MD 35339-35348\nACK\nACK\nACK\nACK 0 0 02 35329\nACK\nACK MOVING\nACK ENDED 16\n\
         ACK\nACK STOPPING\nACK LISTED\nNO 3\n"
    );
}

#[test]
fn a_start_looks_only_at_its_own_channels_list() {
    let calls = "SELECT\nSUBMIT 0 0 02 2 35329\nSUBMIT 0 1 02 4 0\nSTART 4\nSTART 2\n";
    let answers = answers("2\n02 MD 40000\n04 PR 1\n0\n0\n", &["IB/1,MD/10,PR/1"], calls);
    assert_eq!(answers, "ACK 0 A IB 2-2 MD 35329-35338 PR 04/00\nACK\nACK\nACK 0 1 02 0\nACK 0 0 02 35329\n");
}
