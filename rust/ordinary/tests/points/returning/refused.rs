//! What is refused of a unit that is being returned, and which returns are.

use super::{after, cell, everything, BEING_RETURNED};
use crate::support::{say, unit};

#[test]
fn a_completion_that_is_refused_frees_nothing() {
    let mut shift = after(&BEING_RETURNED);
    say(&mut shift, &[("FAIL 3 01", "NO 9"), ("FAIL 3 100", "NO 9"), ("DONE 5", "NO 8"), ("DONE 16", "NO 1")]);
    assert_eq!(unit(&mut shift, "03/00"), "HELD 0 RETURNING");
}

#[test]
fn submissions_are_refused_until_then_after_3_and_before_4_and_5() {
    let mut shift = after(&BEING_RETURNED);
    let before = everything(&mut shift);
    for function in 0o00..=0o77 {
        // Legal or not, 07 and 23 among them; packet 0 is stopping.
        say(&mut shift, &[(&format!("SUBMIT 0 1 {function:02o} 3 0"), "NO 21")]);
        say(&mut shift, &[(&format!("SUBMIT 0 0 {function:02o} 3 0"), "NO 21")]);
    }
    say(
        &mut shift,
        &[
            ("SUBMIT 0 16 42 3 0", "NO 1"),
            ("SUBMIT 0 1 100 3 0", "NO 1"),
            ("SUBMIT 0 1 42 3 3", "NO 1"),
            ("SUBMIT 2 1 42 3 0", "NO 2"),
            ("SUBMIT 1 1 42 3 0", "NO 3"),
            ("SUBMIT 1 1 23 3 0", "NO 3"),
        ],
    );
    assert_eq!(everything(&mut shift), before);
    // Other units are open to the job, and the packet that is stopping is not free there.
    say(&mut shift, &[("SUBMIT 0 0 42 3 1", "NO 5"), ("SUBMIT 0 1 05 3 1", "NO 4"), ("SUBMIT 0 1 42 3 1", "ACK")]);
    say(&mut shift, &[("SUBMIT 0 2 23 3 1", "ACK"), ("STATUS 0 1", "ACK ENDED 16"), ("SUBMIT 0 1 42 2 35329", "ACK")]);
}

#[test]
fn a_return_is_refused_by_1_2_3_and_21_in_this_order() {
    let mut shift = after(&BEING_RETURNED);
    let before = everything(&mut shift);
    say(
        &mut shift,
        &[
            ("RETURN 16 3 0", "NO 1"),
            ("RETURN 999999999 3 0", "NO 1"),
            ("RETURN 0 16 0", "NO 1"),
            ("RETURN 0 4 0", "NO 1"),
            ("RETURN 0 256 0", "NO 1"),
            ("RETURN 0 259 0", "NO 1"),
            ("RETURN 0 3 3", "NO 1"),
            ("RETURN 0 5 1", "NO 1"),
            ("RETURN 0 3 16", "NO 1"),
            ("RETURN 0 3 256", "NO 1"),
            // The drum channel, whatever the unit and whoever asks.
            ("RETURN 0 2 0", "NO 1"),
            ("RETURN 0 2 35329", "NO 1"),
            ("RETURN 1 2 0", "NO 1"),
            ("RETURN 9 2 0", "NO 1"),
            // 1 before 2, and 2 before 3.
            ("RETURN 9 4 0", "NO 1"),
            ("RETURN 9 3 3", "NO 1"),
            ("RETURN 9 3 0", "NO 2"),
            ("RETURN 15 3 2", "NO 2"),
            ("RETURN 0 3 2", "NO 3"),
            ("RETURN 1 3 0", "NO 3"),
            ("RETURN 1 5 0", "NO 3"),
            ("RETURN 0 3 0", "NO 21"),
            ("RETURN 00 000000003 0000", "NO 21"),
        ],
    );
    assert_eq!(everything(&mut shift), before);
    // A closing job gets 2, for what it returns and for what it holds.
    say(&mut shift, &[("END 0", "ACK"), ("RETURN 0 3 0", "NO 2"), ("RETURN 0 3 1", "NO 2"), ("RETURN 0 3 2", "NO 2")]);
    say(&mut shift, &[("RETURN 0 2 0", "NO 1"), ("RETURN 0 3 3", "NO 1")]);
}

#[test]
fn lines_that_are_no_return() {
    let mut shift = cell();
    for line in [
        "RETURN",
        "RETURN 0",
        "RETURN 0 3",
        "RETURN 0 3 0 0",
        "RETURN 0 3 0 ",
        "RETURN  0 3 0",
        " RETURN 0 3 0",
        "RETURN 0 3 x",
        "RETURN 0 3 -0",
        "RETURN 0 3 0000000000",
        "RETURN 0 3 1000000000",
        "RETURN 0 C3 U0",
        "return 0 3 0",
        "RETURNS 0 3 0",
    ] {
        say(&mut shift, &[(line, "??")]);
    }
    assert_eq!(unit(&mut shift, "03/00"), "HELD 0");
    say(&mut shift, &[("RETURN 000000000 03 000000000", "ACK")]);
    assert_eq!(unit(&mut shift, "03/00"), "");
}
