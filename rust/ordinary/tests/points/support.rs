//! What the tests share: cards, a cell that has entered a deck, lines with their answers, and the board.

use ordinary::configuration::Configuration;
use ordinary::shift::Shift;

pub const TERMINATION: &str = ")))))))) +++++++++++++                                                  ))))))))\n";

/// The cards of a request; `rush` is S for one that enters suspended, `run_type` S for one that runs alone.
pub fn request(id: &str, rush: &str, run_type: &str, priority: &str, entries: &str) -> String {
    format!("{id},PTY,2,{rush},PROG,,T,LIB,{run_type},{priority},P,1.\n{id},FAC,{entries}.\n")
}

/// The cell of a configuration after a deck of these cards, which have no error.
pub fn cell(configuration: &str, cards: &str) -> Shift {
    let mut shift = Shift::new(Configuration::from_text(configuration.as_bytes()).unwrap());
    let deck = format!("DECK\n{cards}{TERMINATION}");
    let answer: Vec<u8> = deck.lines().flat_map(|line| shift.answer_line(line.as_bytes())).collect();
    assert!(answer.ends_with(b" SCH ACK\n") && !answer.starts_with(b"SP"), "{}", String::from_utf8_lossy(&answer));
    shift
}

pub fn answer_to(shift: &mut Shift, line: impl AsRef<[u8]>) -> String {
    String::from_utf8(shift.answer_line(line.as_ref())).unwrap().trim_end_matches('\n').to_string()
}

/// Says lines, each of which must be answered so.
#[track_caller]
pub fn say<L: AsRef<[u8]>>(shift: &mut Shift, lines: &[(L, &str)]) {
    for (line, due) in lines {
        assert_eq!(answer_to(shift, line), *due, "{}", String::from_utf8_lossy(line.as_ref()));
    }
}

/// Says lines, each of which must be accepted.
#[track_caller]
pub fn say_accepted<L: AsRef<[u8]>>(shift: &mut Shift, lines: impl IntoIterator<Item = L>) {
    for line in lines {
        let answer = answer_to(shift, &line);
        assert!(answer.starts_with("ACK"), "{}: {answer}", String::from_utf8_lossy(line.as_ref()));
    }
}

/// What the board says of a unit; nothing if it is free and unmarked.
pub fn unit(shift: &mut Shift, name: &str) -> String {
    let board = answer_to(shift, "BOARD");
    let line = board.lines().find_map(|line| line.strip_prefix("UNIT ")?.strip_prefix(name));
    line.unwrap_or_default().trim().to_string()
}
