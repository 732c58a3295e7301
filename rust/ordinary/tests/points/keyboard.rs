//! Points of keyboard messages, through the script's `KEY` line.

use ordinary::shift::{converse, Shift};

use crate::support::{self, answer_to, say, say_accepted, unit, TERMINATION};

const CELL: &str = "4\n00 MA 2\n03 MT 4\n07 MD 40000\n15 PR 16\n0\n0\n";

/// The cards of a request without a sequence; `rush` is S for one that enters suspended.
fn request(id: &str, rush: &str, precedence: u32, entries: &str) -> String {
    support::request(id, rush, "P", &format!("A{precedence}"), entries)
}

/// The cell after these requests, and after calls that are all accepted.
fn cell(requests: &[String], calls: &[&str]) -> Shift {
    let mut shift = support::cell(CELL, &requests.concat());
    say_accepted(&mut shift, calls);
    shift
}

/// Says lines that are answered so and change nothing.
fn say_in_vain<L: AsRef<[u8]>>(shift: &mut Shift, lines: &[(L, &str)]) {
    let before = answer_to(shift, "BOARD");
    say(shift, lines);
    assert_eq!(answer_to(shift, "BOARD"), before);
}

#[test]
fn the_examples_of_the_format() {
    let mut shift = cell(&[request("A1", "", 1, "IB/1")], &["SELECT"]);
    say(
        &mut shift,
        &[
            ("KEY DWN C03 U01", "DWN ACK"),
            ("KEY   DWN  C3   U001", "DWN ACK"),
            ("KEY DWN C16 U01", "DWN 12 IN ER"),
            ("KEY DWN C03 U16", "DWN 5 IN ER"),
            ("KEY DWN C99 UX", "DWN 12 IN ER"),
            ("KEY DWN C16X U01", "DWN 10 IN ER"),
            ("KEY DWN C03U01", "DWN 10 IN ER"),
            ("KEY DWN C03", "DWN 1 IN ER"),
            ("KEY DWN U01 C03", "DWN 1 IN ER"),
            // The drum's channel, and one that there is not.
            ("KEY AVL C07 U00", "AVL 31 IN ER"),
            ("KEY AVL C08 U00", "AVL 31 IN ER"),
            ("KEY SEL NOBODY", "SEL 15 IN ER"),
            ("KEY DEL A1", "DEL 16 IN ER"),
            ("KEY UPF C03 U01", "--- 17 IN ER"),
            ("KEY DWN CX U01 X", "--- 17 IN ER"),
            ("KEY", "--- 17 IN ER"),
        ],
    );
    assert_eq!(unit(&mut shift, "03/01"), "DOWN");
}

#[test]
fn what_is_a_key_line() {
    let mut shift = cell(&[], &[]);
    let no_calls = [
        "KEYX",
        "KEYDWN C03 U01",
        " KEY DWN C03 U01",
        "KEY\tDWN C03 U01",
        "KEY\0",
        "KEY\r",
        "key DWN C03 U01",
        "KE",
        "DWN C03 U01",
    ];
    say_in_vain(&mut shift, &no_calls.map(|line| (line, "??")));
    say_in_vain(&mut shift, &["KEY", "KEY ", "KEY  ", "KEY      "].map(|line| (line, "--- 17 IN ER")));
    say_in_vain(&mut shift, &[("#KEY DWN C03 U01", "#KEY DWN C03 U01")]);
    // A last line without LF too.
    let last = |line: &str| String::from_utf8(converse(format!("{CELL}{line}").as_bytes())).unwrap();
    assert_eq!(last("KEY"), "--- 17 IN ER\n");
    assert_eq!(last("KEY DWN C03 U01"), "DWN ACK\n");
}

#[test]
fn in_a_deck_a_key_line_is_a_card() {
    let mut shift = cell(&[], &[]);
    say(
        &mut shift,
        &[("DECK", ""), ("KEY DWN C03 U01", ""), (TERMINATION.trim_end(), "SP ------ ER 25\n------ SCH ACK")],
    );
    assert_eq!(unit(&mut shift, "03/01"), "");
}

#[test]
fn lines_of_255_and_256_bytes() {
    let mut shift = cell(&[], &[]);
    let long = |before: &str, fill: &str, behind: &str, length: usize| {
        format!("{before}{}{behind}", fill.repeat(length - before.len() - behind.len()))
    };
    for (before, fill, behind, due) in [
        ("KEY DWN C03", " ", "U00", "DWN ACK"),
        ("KEY ", " ", "DWN C03 U01", "DWN ACK"),
        ("KEY DWN C03 U02", " ", "", "DWN ACK"),
        ("KEY DWN C", "0", "3 U03", "DWN ACK"),
        ("KEY DWN C03 U1", "0", "", "DWN 5 IN ER"),
        ("KEY DEL ", "A", "", "DEL 15 IN ER"),
        ("KEY DEL A", " ", "X", "--- 17 IN ER"),
        ("KEY ", " ", "", "--- 17 IN ER"),
        ("KEY ", "\0", "", "--- 17 IN ER"),
    ] {
        say_in_vain(&mut shift, &[(long(before, fill, behind, 256), "??")]);
        say(&mut shift, &[(long(before, fill, behind, 255), due)]);
    }
    assert!((0..4).all(|number| unit(&mut shift, &format!("03/0{number}")) == "DOWN"));
}

#[test]
fn channels_and_units_at_the_limits() {
    let mut shift = cell(&[], &[]);
    say(&mut shift, &[("KEY DWN C15 U15", "DWN ACK"), ("KEY DWN C0 U0", "DWN ACK")]);
    say_in_vain(
        &mut shift,
        &[
            ("KEY DWN C16 U15", "DWN 12 IN ER"),
            ("KEY DWN C15 U16", "DWN 5 IN ER"),
            ("KEY DWN C14 U15", "DWN 31 IN ER"),
            ("KEY DWN C00 U02", "DWN 31 IN ER"),
            ("KEY AVL C16 U15", "AVL 12 IN ER"),
            ("KEY AVL C15 U16", "AVL 5 IN ER"),
            ("KEY AVL C07 U00", "AVL 31 IN ER"),
        ],
    );
    let board = answer_to(&mut shift, "BOARD");
    assert!(board.starts_with("UNIT 00/00 DOWN\nUNIT 15/15 DOWN\nCORE "), "{board}");
}

#[test]
fn digits_of_any_length_count_by_their_value() {
    let mut shift = cell(&[], &[]);
    let zeros = "0".repeat(100);
    say(&mut shift, &[(format!("KEY DWN C{zeros}3 U{zeros}1"), "DWN ACK")]);
    say_in_vain(
        &mut shift,
        &[
            (format!("KEY AVL C{zeros}16 U{zeros}1"), "AVL 12 IN ER"),
            (format!("KEY AVL C3 U{zeros}16"), "AVL 5 IN ER"),
            (format!("KEY AVL C3{zeros} U1"), "AVL 12 IN ER"),
            ("KEY AVL C3 U4294967297".into(), "AVL 5 IN ER"),
            ("KEY AVL C18446744073709551619 U1".into(), "AVL 12 IN ER"),
            (format!("KEY AVL C3{zeros}X U1"), "AVL 10 IN ER"),
        ],
    );
    say(&mut shift, &[("KEY AVL C03 U1", "AVL ACK")]);
    assert_eq!(unit(&mut shift, "03/01"), "");
}

#[test]
fn bytes_that_are_no_spaces_are_text() {
    let mut shift = cell(&[request("A", "S", 1, "IB/1")], &[]);
    let lines: [(&[u8], &str); 12] = [
        (b"KEY \tDWN C03 U01", "--- 17 IN ER"),
        (b"KEY DWN\tC03 U01", "--- 17 IN ER"),
        (b"KEY DWN C03 U01 \r", "--- 17 IN ER"),
        (b"KEY DWN C03 U01 \0", "--- 17 IN ER"),
        (b"KEY DWN \tC03 U01", "DWN 1 IN ER"),
        (b"KEY DWN C03\tU01", "DWN 10 IN ER"),
        (b"KEY DWN C03 U01\r", "DWN 10 IN ER"),
        (b"KEY DWN C03 U\x001", "DWN 10 IN ER"),
        (b"KEY DWN C\xff3 U01", "DWN 10 IN ER"),
        (b"KEY SEL A\r", "SEL 15 IN ER"),
        (b"KEY SEL \0", "SEL 15 IN ER"),
        (b"KEY DEL A\xff", "DEL 15 IN ER"),
    ];
    say_in_vain(&mut shift, &lines);
}

#[test]
fn a_held_unit_is_marked_and_stays_held() {
    let mut shift = cell(&[request("A", "", 1, "IB/1,MT/2"), request("B", "", 2, "IB/1,MT/2")], &["SELECT"]);
    say(&mut shift, &[("KEY DWN C03 U00", "DWN ACK")]);
    assert_eq!(unit(&mut shift, "03/00"), "HELD 0 DOWN");
    say(
        &mut shift,
        &[("SUBMIT 0 0 42 3 0", "ACK"), ("START 3", "ACK 0 0 42 0"), ("DONE 3", "ACK 0 0"), ("END 0", "ACK")],
    );
    say(&mut shift, &[("SELECT", "ACK 0 B IB 2-2 MT 03/01 03/02"), ("KEY AVL C03 U00", "AVL ACK")]);
    assert_eq!(unit(&mut shift, "03/00"), "");
}

#[test]
fn a_message_leaves_the_reserved_mark_alone() {
    let mut shift = cell(&[], &["RESERVE 3 2"]);
    for (line, due, marks) in [
        ("KEY AVL C03 U02", "AVL ACK", "RESERVED"),
        ("KEY DWN C03 U02", "DWN ACK", "DOWN RESERVED"),
        ("KEY DWN C03 U02", "DWN ACK", "DOWN RESERVED"),
        ("KEY AVL C03 U02", "AVL ACK", "RESERVED"),
    ] {
        say(&mut shift, &[(line, due)]);
        assert_eq!(unit(&mut shift, "03/02"), marks);
    }
}

/// W waits, S is suspended, R runs and C closes.
fn all_states() -> Shift {
    let requests = [
        request("R", "", 1, "IB/1"),
        request("C", "", 2, "IB/1,MT/1"),
        request("W", "", 3, "IB/1"),
        request("S", "S", 4, "IB/1"),
        request("SIXSIX", "S", 5, "IB/1"),
    ];
    cell(&requests, &["SELECT", "SELECT", "SUBMIT 1 0 42 3 0", "START 3", "END 1"])
}

#[test]
fn requests_that_are_released_and_deleted() {
    say_in_vain(
        &mut all_states(),
        &[
            ("KEY SEL W", "SEL 15 IN ER"),
            ("KEY SEL R", "SEL 15 IN ER"),
            ("KEY SEL C", "SEL 15 IN ER"),
            ("KEY SEL NOBODY", "SEL 15 IN ER"),
            ("KEY DEL R", "DEL 16 IN ER"),
            ("KEY DEL C", "DEL 16 IN ER"),
            ("KEY DEL NOBODY", "DEL 15 IN ER"),
            // An ID of over six bytes is simply not there, and an ID is not cut off.
            ("KEY SEL SIXSIXS", "SEL 15 IN ER"),
            ("KEY DEL SIXSIX0", "DEL 15 IN ER"),
            ("KEY DEL SIXSI", "DEL 15 IN ER"),
            ("KEY DEL s", "DEL 15 IN ER"),
            ("KEY DEL *S", "DEL 15 IN ER"),
            ("KEY DEL * S", "--- 17 IN ER"),
            ("KEY SEL", "SEL 1 IN ER"),
            ("KEY DEL ", "DEL 1 IN ER"),
        ],
    );
    let mut shift = all_states();
    say(
        &mut shift,
        &[
            ("KEY SEL S", "SEL ACK"),
            ("KEY SEL S", "SEL 15 IN ER"),
            ("KEY DEL S", "DEL ACK"),
            ("KEY DEL S", "DEL 15 IN ER"),
            ("KEY DEL W", "DEL ACK"),
            ("KEY DEL SIXSIX", "DEL ACK"),
        ],
    );
    let board = answer_to(&mut shift, "BOARD");
    assert!(board.ends_with("MOVES 03 1 0\nR A01 RUNS\nC A02 CLOSES\nEND OF BOARD"), "{board}");
}

#[test]
fn each_message_is_its_call() {
    let fresh = all_states();
    let compare = |message: String, call: String| {
        let (mut typed, mut called) = (fresh.clone(), fresh.clone());
        let word = &message[..3];
        let due = match answer_to(&mut called, &call).as_str() {
            "ACK" => format!("{word} ACK"),
            "NO 1" => format!("{word} 31 IN ER"),
            refused => format!("{word} {} IN ER", refused.strip_prefix("NO ").unwrap()),
        };
        assert_eq!(answer_to(&mut typed, format!("KEY {message}")), due, "{message}");
        assert_eq!(answer_to(&mut typed, "BOARD"), answer_to(&mut called, "BOARD"), "{message}");
    };
    for (channel, unit) in (0..16).flat_map(|channel| (0..16).map(move |unit| (channel, unit))) {
        compare(format!("DWN C{channel} U{unit:02}"), format!("DOWN {channel} {unit}"));
        compare(format!("AVL C{channel:02} U{unit}"), format!("UP {channel} {unit}"));
    }
    for id in ["R", "C", "W", "S", "SIXSIX", "NOBODY", "SIXSIXSIX", "-", "\u{e4}"] {
        compare(format!("SEL {id}"), format!("RELEASE {id}"));
        compare(format!("DEL {id}"), format!("DELETE {id}"));
    }
}
