//! One head back early: what a return ends, when the unit is free, what is refused until then, and what stays with the
//! job.

use ordinary::shift::Shift;

use crate::support::{self, answer_to, say, say_accepted};

mod job;
mod refused;
mod unit;

/// A holds the heads 03/00 and 03/01, 05/00, three blocks and drum words 35329 to 35337; B holds 03/02, and both run.
/// Z waits for a head, and is the only one that does. The codes 02 and 11 set interlock.
fn cell() -> Shift {
    let cards = "A,PTY,2,,P,,,M,P,01A1,P,1.\nA,FAC,IB/2,DB/1,MT1/2,MT2/1,MD/9.\n\
                 B,PTY,2,,P,,,M,P,A2,P,1.\nB,FAC,IB/1,MT/1.\nZ,PTY,2,,P,,,M,P,A3,P,1.\nZ,FAC,IB/1,MT/1.\n";
    let mut shift = support::cell("3\n02 MD 36000\n03 MT 3\n05 MT 1\n0\n2\n02\n11\n", cards);
    say(
        &mut shift,
        &[
            ("SELECT", "ACK 0 A IB 2-3 DB 4-4 MD 35329-35337 MT1 03/00 03/01 MT2 05/00"),
            ("SELECT", "ACK 1 B IB 5-5 MT 03/02"),
            ("SELECT", "NO 20 Z MT"),
        ],
    );
    shift
}

/// A cell after these lines, each accepted.
#[track_caller]
fn after(lines: &[&str]) -> Shift {
    let mut shift = cell();
    say_accepted(&mut shift, lines);
    shift
}

/// The lines of the board that begin so.
fn shown(shift: &mut Shift, word: &str) -> Vec<String> {
    answer_to(shift, "BOARD").lines().filter(|line| line.starts_with(word)).map(str::to_string).collect()
}

/// Everything that can be asked for.
fn everything(shift: &mut Shift) -> String {
    let statuses = (0..16).flat_map(|place| (0..16).map(move |packet| format!("STATUS {place} {packet}")));
    let statuses: Vec<String> = statuses.map(|line| answer_to(shift, &line)).collect();
    answer_to(shift, "BOARD") + &statuses.join("\n")
}

/// A block moves on 03/00, and the head is being returned.
const BEING_RETURNED: [&str; 3] = ["SUBMIT 0 0 42 3 0", "START 3", "RETURN 0 3 0"];
