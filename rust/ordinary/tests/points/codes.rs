//! Which failures set interlock: those with a code of the configuration's third section, off the drum.

use ordinary::shift::Shift;

use crate::support::{self, answer_to, say};

/// All codes that a packet may fail with.
fn failures() -> Vec<u8> {
    (0o02..=0o77).filter(|code| ![0o16, 0o17].contains(code)).collect()
}

/// A cell in which these codes set interlock. A holds the heads 03/00 and 03/01, 05/00, and drum words from 35329; B
/// holds 03/02, and both run.
fn cell(codes: &[u8]) -> Shift {
    let section: String = codes.iter().map(|code| format!("{code:02o}\n")).collect();
    let text = format!("3\n02 MD 36000\n03 MT 4\n05 MT 2\n0\n{}\n{section}", codes.len());
    let cards = "A,PTY,2,,P,,,M,P,A1,P,1.\nA,FAC,IB/1,MT1/2,MT2/1,MD/9.\n\
                 B,PTY,2,,P,,,M,P,A2,P,1.\nB,FAC,IB/1,MT/1.\nC,PTY,2,,P,,,M,P,A3,P,1.\nC,FAC,IB/1,MT1/2.\n";
    let mut shift = support::cell(&text, cards);
    say(
        &mut shift,
        &[("SELECT", "ACK 0 A IB 2-2 MD 35329-35337 MT1 03/00 03/01 MT2 05/00"), ("SELECT", "ACK 1 B IB 3-3 MT 03/02")],
    );
    shift
}

/// The units that the board shows as locked.
fn locked(shift: &mut Shift) -> Vec<String> {
    let board = answer_to(shift, "BOARD");
    let units = board.lines().filter_map(|line| line.strip_prefix("UNIT ")).filter(|line| line.ends_with(" LOCKED"));
    units.map(|line| line[..5].to_string()).collect()
}

/// Packet 0 moves on 03/00; behind it packets 1 and 2 are listed there, 3 on 03/01, 4 on 05/00, and B's 0 on 03/02.
fn with_listed(codes: &[u8]) -> Shift {
    let mut shift = cell(codes);
    say(
        &mut shift,
        &[
            ("SUBMIT 0 0 42 3 0", "ACK"),
            ("SUBMIT 0 1 42 3 0", "ACK"),
            ("SUBMIT 0 3 42 3 1", "ACK"),
            ("SUBMIT 0 4 42 5 0", "ACK"),
            ("SUBMIT 1 0 42 3 2", "ACK"),
            ("SUBMIT 0 2 42 3 0", "ACK"),
            ("START 3", "ACK 0 0 42 0"),
        ],
    );
    shift
}

#[test]
fn a_code_of_the_section_locks_its_unit_and_ends_what_is_listed_there() {
    let mut shift = with_listed(&[0o02, 0o11, 0o77]);
    say(
        &mut shift,
        &[
            ("FAIL 3 11", "ACK 0 0"),
            ("STATUS 0 0", "ACK ENDED 11"),
            ("STATUS 0 1", "ACK ENDED 01"),
            ("STATUS 0 2", "ACK ENDED 01"),
            // Another unit of the channel, of another channel, of another job.
            ("STATUS 0 3", "ACK LISTED"),
            ("STATUS 0 4", "ACK LISTED"),
            ("STATUS 1 0", "ACK LISTED"),
        ],
    );
    assert_eq!(locked(&mut shift), ["03/00"]);
    // What is submitted then stays listed and does not start; 07 ends it with 01.
    say(
        &mut shift,
        &[
            ("SUBMIT 0 1 42 3 0", "ACK"),
            ("START 3", "ACK 0 3 42 1"),
            ("DONE 3", "ACK 0 3"),
            ("START 3", "ACK 1 0 42 2"),
            ("DONE 3", "ACK 1 0"),
            ("START 3", "NO 7"),
            ("SUBMIT 0 5 07 3 0", "ACK"),
            ("STATUS 0 1", "ACK ENDED 01"),
            ("STATUS 0 5", "ACK ENDED 00"),
        ],
    );
    assert_eq!(locked(&mut shift), [""; 0]);
}

#[test]
fn any_other_code_ends_its_packet_and_nothing_else() {
    let mut shift = with_listed(&[0o02, 0o11, 0o77]);
    say(
        &mut shift,
        &[
            ("FAIL 3 03", "ACK 0 0"),
            ("STATUS 0 0", "ACK ENDED 03"),
            ("STATUS 0 1", "ACK LISTED"),
            ("STATUS 0 2", "ACK LISTED"),
            ("STATUS 0 3", "ACK LISTED"),
            ("STATUS 0 4", "ACK LISTED"),
            ("STATUS 1 0", "ACK LISTED"),
        ],
    );
    assert_eq!(locked(&mut shift), [""; 0]);
    say(
        &mut shift,
        &[
            // 07 finds no interlock and only ends with 00.
            ("SUBMIT 0 5 07 3 0", "ACK"),
            ("STATUS 0 5", "ACK ENDED 00"),
            ("STATUS 0 1", "ACK LISTED"),
            // The packet that failed may be submitted again; it stands behind those that were listed.
            ("SUBMIT 0 0 42 3 0", "ACK"),
            ("START 3", "ACK 0 1 42 0"),
            ("FAIL 3 76", "ACK 0 1"),
            ("START 3", "ACK 0 3 42 1"),
            ("DONE 3", "ACK 0 3"),
            ("START 3", "ACK 1 0 42 2"),
            ("DONE 3", "ACK 1 0"),
            ("START 3", "ACK 0 2 42 0"),
            ("DONE 3", "ACK 0 2"),
            ("START 3", "ACK 0 0 42 0"),
        ],
    );
}

#[test]
fn each_code_is_looked_up_by_itself() {
    for code in failures() {
        let others: Vec<u8> = failures().into_iter().filter(|other| *other != code).collect();
        for (section, locks) in [(vec![code], true), (others, false), (failures(), true), (vec![], false)] {
            let mut shift = with_listed(&section);
            assert_eq!(answer_to(&mut shift, format!("FAIL 3 {code:o}")), "ACK 0 0");
            assert_eq!(answer_to(&mut shift, "STATUS 0 0"), format!("ACK ENDED {code:02o}"));
            let (listed, lock) = if locks { ("ACK ENDED 01", &["03/00"][..]) } else { ("ACK LISTED", &[][..]) };
            assert_eq!(answer_to(&mut shift, "STATUS 0 1"), listed, "{code:o}");
            assert_eq!(locked(&mut shift), lock, "{code:o}");
        }
    }
}

#[test]
fn what_may_be_reported_is_as_before() {
    for section in [vec![], vec![0o02, 0o15, 0o20, 0o77], failures()] {
        let mut shift = with_listed(&section);
        let before = answer_to(&mut shift, "BOARD");
        for code in ["0", "00", "01", "1", "16", "17", "100", "101", "116", "177", "200", "777777777"] {
            assert_eq!(answer_to(&mut shift, format!("FAIL 3 {code}")), "NO 9", "{code}");
        }
        // Nothing moves there, which comes first.
        say(&mut shift, &[("FAIL 5 16", "NO 8"), ("FAIL 5 02", "NO 8"), ("FAIL 2 17", "NO 8"), ("FAIL 4 02", "NO 1")]);
        assert_eq!(answer_to(&mut shift, "BOARD"), before);
    }
}

#[test]
fn stopping_packets() {
    for (code, listed, lock) in [("03", "ACK ENDED 01", &["03/00"][..]), ("04", "ACK LISTED", &[])] {
        let mut shift = with_listed(&[0o03]);
        say(
            &mut shift,
            &[
                ("SUBMIT 0 5 23 3 0", "ACK"),
                ("STATUS 0 0", "ACK STOPPING"),
                ("STATUS 0 1", "ACK ENDED 16"),
                // Listed after 23.
                ("SUBMIT 0 1 42 3 0", "ACK"),
                (&format!("FAIL 3 {code}"), "ACK 0 0"),
                ("STATUS 0 0", &format!("ACK ENDED {code}")),
                ("STATUS 0 1", listed),
            ],
        );
        assert_eq!(locked(&mut shift), lock);
    }
}

#[test]
fn closing_jobs() {
    for (code, lock) in [("03", &["03/00"][..]), ("04", &[])] {
        let mut shift = with_listed(&[0o03]);
        // It moves on two channels, so it still closes when the first packet has failed.
        say(&mut shift, &[("START 5", "ACK 0 4 42 0"), ("END 0", "ACK"), (&format!("FAIL 3 {code}"), "ACK 0 0")]);
        assert_eq!(locked(&mut shift), lock);
        assert!(answer_to(&mut shift, "BOARD").starts_with("PLACE 0 A CLOSES\n"));
        // The last packet returns everything, whatever it fails with; the next job's heads have no interlock.
        say(
            &mut shift,
            &[
                (format!("FAIL 5 {code}").as_str(), "ACK 0 4"),
                ("STATUS 0 4", &format!("ACK ENDED {code}")),
                ("SELECT", "ACK 0 C IB 2-2 MT1 03/00 03/01"),
                ("SUBMIT 0 0 42 3 0", "ACK"),
                ("START 3", "ACK 1 0 42 2"),
                ("DONE 3", "ACK 1 0"),
                ("START 3", "ACK 0 0 42 0"),
            ],
        );
    }
}

#[test]
fn no_failure_on_the_drum_sets_an_interlock() {
    for (section, code) in [(vec![], 0o03), (vec![0o03], 0o03), (failures(), 0o03), (failures(), 0o77)] {
        let mut shift = cell(&section);
        say(
            &mut shift,
            &[
                ("SUBMIT 0 0 42 2 35329", "ACK"),
                ("SUBMIT 0 1 42 2 35329", "ACK"),
                ("SUBMIT 0 2 42 3 0", "ACK"),
                ("START 2", "ACK 0 0 42 35329"),
                (&format!("FAIL 2 {code:o}"), "ACK 0 0"),
                ("STATUS 0 0", &format!("ACK ENDED {code:02o}")),
                ("STATUS 0 1", "ACK LISTED"),
                ("STATUS 0 2", "ACK LISTED"),
                ("START 2", "ACK 0 1 42 35329"),
                // One that is stopping.
                ("SUBMIT 0 3 23 2 0 99999", "ACK"),
                ("STATUS 0 1", "ACK STOPPING"),
                ("SUBMIT 0 0 42 2 35329", "ACK"),
                (&format!("FAIL 2 {code:o}"), "ACK 0 1"),
                ("START 2", "ACK 0 0 42 35329"),
            ],
        );
        assert_eq!(locked(&mut shift), [""; 0]);
    }
}

#[test]
fn full_completions_and_cuts_set_none() {
    let mut shift = with_listed(&failures());
    say(
        &mut shift,
        &[
            ("DONE 3", "ACK 0 0"),
            ("STATUS 0 1", "ACK LISTED"),
            ("START 3", "ACK 0 1 42 0"),
            ("SUBMIT 0 5 23 3 0", "ACK"),
            ("SUBMIT 0 0 42 3 0", "ACK"),
            ("CUT 3", "ACK 0 1"),
            ("STATUS 0 1", "ACK ENDED 17"),
            ("STATUS 0 0", "ACK LISTED"),
        ],
    );
    assert_eq!(locked(&mut shift), [""; 0]);
}
