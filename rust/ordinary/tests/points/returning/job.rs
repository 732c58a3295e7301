//! What stays with the job, and goes with it: other units, drum, core and marks.

use super::{after, cell, shown, BEING_RETURNED};
use crate::support::{say, say_accepted, unit};

#[test]
fn a_job_that_closes_returns_the_unit_at_its_own_completion_and_the_others_together() {
    let mut shift = cell();
    say_accepted(
        &mut shift,
        ["SUBMIT 0 1 42 5 0", "START 5", "SUBMIT 0 2 42 2 35330", "START 2"].iter().chain(&BEING_RETURNED),
    );
    say(&mut shift, &[("ABORT 0", "ACK"), ("SELECT", "NO 20 Z MT")]);
    assert_eq!(unit(&mut shift, "03/00"), "HELD 0 RETURNING");
    assert_eq!(unit(&mut shift, "03/01"), "HELD 0");
    say(&mut shift, &[("CUT 3", "ACK 0 0")]);
    // That head alone is free: another job takes it while the first closes.
    assert_eq!(unit(&mut shift, "03/00"), "");
    assert_eq!(unit(&mut shift, "03/01"), "HELD 0");
    say(&mut shift, &[("SELECT", "ACK 2 Z IB 6-6 MT 03/00"), ("CUT 5", "ACK 0 1")]);
    assert_eq!(unit(&mut shift, "03/01"), "HELD 0");
    assert_eq!(unit(&mut shift, "05/00"), "HELD 0");
    assert_eq!(shown(&mut shift, "DRUM"), ["DRUM 35329-35337 0"]);
    assert_eq!(shown(&mut shift, "PLACE"), ["PLACE 0 A CLOSES", "PLACE 1 B RUNS", "PLACE 2 Z RUNS"]);
    say(&mut shift, &[("DONE 2", "ACK 0 2")]);
    assert_eq!(shown(&mut shift, "UNIT"), ["UNIT 03/00 HELD 2", "UNIT 03/02 HELD 1"]);
    assert_eq!(shown(&mut shift, "CORE"), ["CORE XX...12.......................XX"]);
    assert_eq!(shown(&mut shift, "A "), ["A 01A01 SUSPENDED"]);
}

#[test]
fn one_completion_may_return_the_unit_and_as_the_last_one_all_the_rest() {
    // What moves on the unit being returned is the last: nothing is free before.
    let mut shift = cell();
    say_accepted(&mut shift, ["SUBMIT 0 1 42 5 0", "START 5"].iter().chain(&BEING_RETURNED).chain(&["END 0", "CUT 5"]));
    let held = ["UNIT 03/00 HELD 0 RETURNING", "UNIT 03/01 HELD 0", "UNIT 03/02 HELD 1", "UNIT 05/00 HELD 0"];
    assert_eq!(shown(&mut shift, "UNIT"), held);
    // Its completion returns both.
    say(&mut shift, &[("FAIL 3 11", "ACK 0 0")]);
    assert_eq!(shown(&mut shift, "UNIT"), ["UNIT 03/02 HELD 1"]);
    assert_eq!(shown(&mut shift, "PLACE"), ["PLACE 1 B RUNS"]);
    assert_eq!(shown(&mut shift, "DRUM"), [""; 0]);
    assert_eq!(shown(&mut shift, "A "), [""; 0]);
    say(&mut shift, &[("SELECT", "ACK 0 Z IB 2-2 MT 03/00"), ("STATUS 0 0", "ACK BLANK")]);
}

#[test]
fn drum_and_core_return_with_the_job() {
    let mut shift = after(&["RETURN 0 3 0", "RETURN 0 5 0", "RETURN 0 3 1"]);
    assert_eq!(shown(&mut shift, "UNIT"), ["UNIT 03/02 HELD 1"]);
    assert_eq!(shown(&mut shift, "CORE"), ["CORE XX0001........................XX"]);
    assert_eq!(shown(&mut shift, "DRUM"), ["DRUM 35329-35337 0"]);
    assert_eq!(shown(&mut shift, "PLACE"), ["PLACE 0 A RUNS", "PLACE 1 B RUNS"]);
    say(&mut shift, &[("SUBMIT 0 0 42 2 35337", "ACK"), ("START 2", "ACK 0 0 42 35337"), ("END 0", "ACK")]);
    assert_eq!(shown(&mut shift, "DRUM"), ["DRUM 35329-35337 0"]);
    say(&mut shift, &[("DONE 2", "ACK 0 0")]);
    assert_eq!(shown(&mut shift, "DRUM"), [""; 0]);
    assert_eq!(shown(&mut shift, "CORE"), ["CORE XX...1........................XX"]);
}

#[test]
fn marks_change_at_any_time_and_stand_behind_the_word() {
    let mut shift = after(&["DOWN 3 0"]);
    assert_eq!(unit(&mut shift, "03/00"), "HELD 0 DOWN");
    say_accepted(&mut shift, BEING_RETURNED);
    assert_eq!(unit(&mut shift, "03/00"), "HELD 0 RETURNING DOWN");
    say(&mut shift, &[("RESERVE 3 0", "ACK")]);
    assert_eq!(unit(&mut shift, "03/00"), "HELD 0 RETURNING DOWN RESERVED");
    say(&mut shift, &[("KEY AVL C03 U00", "AVL ACK")]);
    assert_eq!(unit(&mut shift, "03/00"), "HELD 0 RETURNING RESERVED");
    // The marks stay, and bar the unit from the next assignment.
    say(&mut shift, &[("CUT 3", "ACK 0 0"), ("SELECT", "NO 20 Z MT")]);
    assert_eq!(unit(&mut shift, "03/00"), "RESERVED");
    say(&mut shift, &[("UNRESERVE 3 0", "ACK"), ("SELECT", "ACK 2 Z IB 6-6 MT 03/00")]);
    // One that is returned at rest keeps them too.
    let mut shift = after(&["RESERVE 3 0", "DOWN 3 0", "RETURN 0 3 0"]);
    assert_eq!(unit(&mut shift, "03/00"), "DOWN RESERVED");
}

#[test]
fn several_heads_are_returned_each_by_itself() {
    let mut shift = after(&["SUBMIT 0 0 42 3 1", "START 3", "SUBMIT 0 1 42 5 0", "START 5"]);
    say(&mut shift, &[("RETURN 0 3 1", "ACK"), ("RETURN 0 5 0", "ACK"), ("RETURN 0 3 0", "ACK")]);
    let held = ["UNIT 03/01 HELD 0 RETURNING", "UNIT 03/02 HELD 1", "UNIT 05/00 HELD 0 RETURNING"];
    assert_eq!(shown(&mut shift, "UNIT"), held);
    say(&mut shift, &[("CUT 5", "ACK 0 1")]);
    assert_eq!(shown(&mut shift, "UNIT"), ["UNIT 03/01 HELD 0 RETURNING", "UNIT 03/02 HELD 1"]);
    say(&mut shift, &[("DONE 3", "ACK 0 0")]);
    assert_eq!(shown(&mut shift, "UNIT"), ["UNIT 03/02 HELD 1"]);
}
