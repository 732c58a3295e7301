//! What a return ends, and when the unit is free.

use super::{after, cell, shown, BEING_RETURNED};
use crate::support::{answer_to, say, say_accepted, unit};

#[test]
fn at_rest_the_unit_is_free_at_once_and_the_job_goes_on_with_the_others() {
    let mut shift = after(&["RETURN 0 3 0"]);
    assert_eq!(unit(&mut shift, "03/00"), "");
    assert_eq!(unit(&mut shift, "03/01"), "HELD 0");
    assert_eq!(unit(&mut shift, "05/00"), "HELD 0");
    assert_eq!(shown(&mut shift, "PLACE"), ["PLACE 0 A RUNS", "PLACE 1 B RUNS"]);
    say(
        &mut shift,
        &[
            ("SUBMIT 0 0 42 3 1", "ACK"),
            ("START 3", "ACK 0 0 42 1"),
            // It is the job's no more, and nobody's.
            ("SUBMIT 0 1 42 3 0", "NO 3"),
            ("SUBMIT 0 1 07 3 0", "NO 3"),
            ("SUBMIT 0 1 23 3 0", "NO 3"),
            ("RETURN 0 3 0", "NO 3"),
            ("RETURN 1 3 0", "NO 3"),
        ],
    );
}

#[test]
fn another_job_takes_it_while_the_first_runs_and_keeps_it_when_the_first_ends() {
    let mut shift = after(&["RETURN 0 3 0"]);
    say(
        &mut shift,
        &[
            ("SELECT", "ACK 2 Z IB 6-6 MT 03/00"),
            ("SUBMIT 2 0 42 3 0", "ACK"),
            ("SUBMIT 2 1 42 3 0", "ACK"),
            ("START 3", "ACK 2 0 42 0"),
            ("SUBMIT 0 0 42 3 0", "NO 3"),
            ("RETURN 0 3 0", "NO 3"),
            ("END 0", "ACK"),
            ("STATUS 2 0", "ACK MOVING"),
            ("STATUS 2 1", "ACK LISTED"),
        ],
    );
    assert_eq!(unit(&mut shift, "03/00"), "HELD 2");
    assert_eq!(shown(&mut shift, "PLACE"), ["PLACE 1 B RUNS", "PLACE 2 Z RUNS"]);
    // It gives the same head back too, in its turn.
    say(&mut shift, &[("RETURN 2 3 0", "ACK"), ("STATUS 2 0", "ACK STOPPING"), ("STATUS 2 1", "ACK ENDED 16")]);
    assert_eq!(unit(&mut shift, "03/00"), "HELD 2 RETURNING");
    say(&mut shift, &[("DONE 3", "ACK 2 0")]);
    assert_eq!(unit(&mut shift, "03/00"), "");
}

#[test]
fn listed_packets_of_the_unit_end_with_16_and_no_others() {
    let mut shift = after(&[
        "SUBMIT 0 0 42 3 0",
        // Another head of the channel, the same number on another channel, the drum, another job.
        "SUBMIT 0 1 42 3 1",
        "SUBMIT 0 2 42 5 0",
        "SUBMIT 0 3 42 2 35329",
        "SUBMIT 1 0 42 3 2",
        "SUBMIT 0 4 62 3 0",
        "SUBMIT 0 5 42 3 0",
        "RETURN 0 3 0",
    ]);
    for packet in [0, 4, 5] {
        assert_eq!(answer_to(&mut shift, format!("STATUS 0 {packet}")), "ACK ENDED 16");
    }
    let listed = ["LISTED 03 0 1", "LISTED 05 0 2", "LISTED 02 0 3", "LISTED 03 1 0"];
    assert_eq!(shown(&mut shift, "LISTED"), listed);
    assert_eq!(unit(&mut shift, "03/00"), "");
    // The packets may be submitted again.
    say(&mut shift, &[("SUBMIT 0 4 42 3 1", "ACK"), ("START 3", "ACK 0 1 42 1")]);
}

#[test]
fn under_interlock_they_end_with_16_too_and_the_unit_is_free_at_once() {
    let mut shift = after(&["SUBMIT 0 0 42 3 0", "START 3", "FAIL 3 11", "SUBMIT 0 1 42 3 0", "SUBMIT 0 2 42 3 0"]);
    assert_eq!(unit(&mut shift, "03/00"), "HELD 0 LOCKED");
    say(
        &mut shift,
        &[
            ("RETURN 0 3 0", "ACK"),
            ("STATUS 0 0", "ACK ENDED 11"),
            ("STATUS 0 1", "ACK ENDED 16"),
            ("STATUS 0 2", "ACK ENDED 16"),
        ],
    );
    assert_eq!(unit(&mut shift, "03/00"), "");
    // The next job has it without interlock.
    say(
        &mut shift,
        &[("SELECT", "ACK 2 Z IB 6-6 MT 03/00"), ("SUBMIT 2 0 42 3 0", "ACK"), ("START 3", "ACK 2 0 42 0")],
    );
    assert_eq!(unit(&mut shift, "03/00"), "HELD 2");
}

#[test]
fn interlock_of_the_other_units_stays() {
    let mut shift = after(&["SUBMIT 0 0 42 3 1", "START 3", "FAIL 3 02", "SUBMIT 0 1 42 5 0", "START 5", "FAIL 5 02"]);
    say(&mut shift, &[("SUBMIT 0 2 42 3 1", "ACK"), ("RETURN 0 3 0", "ACK"), ("START 3", "NO 7")]);
    assert_eq!(unit(&mut shift, "03/01"), "HELD 0 LOCKED");
    assert_eq!(unit(&mut shift, "05/00"), "HELD 0 LOCKED");
    say(&mut shift, &[("SUBMIT 0 3 07 3 1", "ACK"), ("STATUS 0 2", "ACK ENDED 01")]);
}

#[test]
fn one_in_progress_is_stopping_and_each_completion_frees() {
    for (completion, code) in [("DONE 3", "00"), ("CUT 3", "17"), ("FAIL 3 11", "11"), ("FAIL 3 03", "03")] {
        let mut shift = after(&BEING_RETURNED);
        say(&mut shift, &[("STATUS 0 0", "ACK STOPPING"), ("SELECT", "NO 20 Z MT"), ("START 3", "NO 6")]);
        assert_eq!(unit(&mut shift, "03/00"), "HELD 0 RETURNING");
        assert_eq!(shown(&mut shift, "MOVES"), ["MOVES 03 0 0"]);
        say(&mut shift, &[(completion, "ACK 0 0"), ("STATUS 0 0", &format!("ACK ENDED {code}"))]);
        assert_eq!(unit(&mut shift, "03/00"), "", "{completion}");
        assert_eq!(unit(&mut shift, "03/01"), "HELD 0", "{completion}");
        say(
            &mut shift,
            &[
                ("RETURN 0 3 0", "NO 3"),
                ("SUBMIT 0 0 42 3 0", "NO 3"),
                ("SELECT", "ACK 2 Z IB 6-6 MT 03/00"),
                // Whatever the code was, the next job has the head without interlock, and may give it back.
                ("SUBMIT 2 0 42 3 0", "ACK"),
                ("START 3", "ACK 2 0 42 0"),
                ("DONE 3", "ACK 2 0"),
            ],
        );
        assert_eq!(unit(&mut shift, "03/00"), "HELD 2");
        say(&mut shift, &[("RETURN 2 3 0", "ACK")]);
        assert_eq!(unit(&mut shift, "03/00"), "");
    }
}

#[test]
fn one_that_23_made_stopping_counts() {
    let mut shift = after(&["SUBMIT 0 0 42 3 0", "START 3", "SUBMIT 0 1 23 3 0", "RETURN 0 3 0"]);
    assert_eq!(unit(&mut shift, "03/00"), "HELD 0 RETURNING");
    say(&mut shift, &[("STATUS 0 0", "ACK STOPPING"), ("RETURN 0 3 0", "NO 21"), ("CUT 3", "ACK 0 0")]);
    assert_eq!(unit(&mut shift, "03/00"), "");
}

#[test]
fn what_moves_on_other_units_does_not_count_and_goes_on() {
    // Another head of the channel, of the same job and of another.
    for (place, unit_number) in [(0, 1), (1, 2)] {
        let mut shift = after(&[&format!("SUBMIT {place} 0 42 3 {unit_number}"), "START 3", "SUBMIT 0 1 42 3 0"]);
        say(&mut shift, &[("RETURN 0 3 0", "ACK"), ("STATUS 0 1", "ACK ENDED 16"), ("CUT 3", "NO 9")]);
        assert_eq!(unit(&mut shift, "03/00"), "");
        say(&mut shift, &[(format!("STATUS {place} 0").as_str(), "ACK MOVING"), ("DONE 3", &format!("ACK {place} 0"))]);
    }
    // The head of the same number on another channel, and the drum.
    let mut shift = after(&["SUBMIT 0 0 42 5 0", "START 5", "SUBMIT 0 1 42 2 35329", "START 2", "RETURN 0 3 0"]);
    assert_eq!(unit(&mut shift, "03/00"), "");
    assert_eq!(unit(&mut shift, "05/00"), "HELD 0");
    say(&mut shift, &[("STATUS 0 0", "ACK MOVING"), ("STATUS 0 1", "ACK MOVING")]);
}

#[test]
fn the_completion_on_another_unit_frees_nothing() {
    let mut shift = cell();
    say_accepted(
        &mut shift,
        ["SUBMIT 0 1 42 5 0", "START 5", "SUBMIT 0 2 42 2 35329", "START 2"].iter().chain(&BEING_RETURNED),
    );
    say(&mut shift, &[("DONE 5", "ACK 0 1"), ("FAIL 2 11", "ACK 0 2")]);
    assert_eq!(unit(&mut shift, "03/00"), "HELD 0 RETURNING");
    assert_eq!(unit(&mut shift, "05/00"), "HELD 0");
    say(&mut shift, &[("SUBMIT 0 3 42 3 0", "NO 21"), ("DONE 3", "ACK 0 0"), ("SUBMIT 0 3 42 3 0", "NO 3")]);
    assert_eq!(unit(&mut shift, "05/00"), "HELD 0");
}
