//! The shift: a cell that is talked to line by line. Each call gets one line for an answer, a deck and the board
//! several.

use crate::assign::Assignment;
use crate::cell::{Cell, Job, NoSelection, PacketName, Status};
use crate::configuration::Configuration;
use crate::deck::{self, DECK_LENGTH};
use crate::numbers::Refusal;
use board::board;
use call::Call;

mod board;
mod call;

/// The most bytes of a line that is a call.
const LINE_LENGTH: usize = 255;

/// A cell in the middle of its shift.
#[derive(Clone, Debug)]
pub struct Shift {
    cell: Cell,
    /// The bytes of the deck that is coming in.
    deck: Option<Vec<u8>>,
}

impl Shift {
    pub fn new(configuration: Configuration) -> Shift {
        Shift { cell: Cell::new(configuration), deck: None }
    }

    pub fn cell(&self) -> &Cell {
        &self.cell
    }

    /// What is answered to a line, given without its LF: a card while a deck comes in, else a call or none.
    pub fn answer_line(&mut self, line: &[u8]) -> Vec<u8> {
        if let Some(deck) = &mut self.deck {
            // What is too long is not kept, one byte over tells.
            deck.extend(line.iter().chain(b"\n").take(DECK_LENGTH + 1 - deck.len()));
            if !deck::is_termination(line) {
                return Vec::new();
            }
            let deck = self.deck.take().unwrap_or_default();
            return self.enter_deck(&deck).into_bytes();
        }
        if line.len() > LINE_LENGTH {
            return b"??\n".to_vec();
        }
        if line.is_empty() || line.starts_with(b"#") {
            return [line, b"\n"].concat();
        }
        if line == b"DECK" {
            self.deck = Some(Vec::new());
            return Vec::new();
        }
        match Call::read(line) {
            None => b"??\n".to_vec(),
            Some(call) => match self.answer(call) {
                Ok(answer) => answer.into_bytes(),
                Err(refusal) => refused(refusal).into_bytes(),
            },
        }
    }

    /// What is answered when the input ends; `rest` is what stands after its last LF, a line as if it had one, a card
    /// of a deck too.
    pub fn finish(mut self, rest: &[u8]) -> Vec<u8> {
        let mut answer = Vec::new();
        if !rest.is_empty() {
            answer = self.answer_line(rest);
        }
        if self.deck.is_some() {
            answer.extend(refused(Refusal::BadDeck).bytes());
        }
        answer
    }

    fn enter_deck(&mut self, deck: &[u8]) -> String {
        match self.cell.enter_deck(deck) {
            Ok(outcome) => outcome.error_lines() + &outcome.acknowledgement(),
            Err(refusal) => refused(refusal),
        }
    }

    fn answer(&mut self, call: Call) -> Result<String, Refusal> {
        let cell = &mut self.cell;
        let done = |()| "ACK\n".to_string();
        match call {
            // A selection's refusal says more than its number.
            Call::Select => Ok(match cell.select() {
                Ok((place, job)) => selected(place, job),
                Err(why) => not_selected(&why),
            }),
            Call::Submit(submission) => cell.submit(submission).map(done),
            Call::Start(channel) => cell.start(channel).map(|started| {
                let PacketName { place, packet } = started.name;
                format!("ACK {place} {packet} {:02o} {}\n", started.function, started.target)
            }),
            Call::Complete(channel, completion) => {
                let name = cell.complete(channel, completion)?;
                Ok(format!("ACK {} {}\n", name.place, name.packet))
            }
            Call::Return { place, channel, unit } => cell.give_back(place, channel, unit).map(done),
            Call::End(place, end) => cell.end(place, end).map(done),
            Call::Mark { channel, unit, mark, on } => cell.mark(channel, unit, mark, on).map(done),
            Call::Release(id) => cell.release(&id).map(done),
            Call::Delete(id) => cell.delete(&id).map(done),
            // A message has its own line for a refusal too.
            Call::Keyboard(message) => Ok(format!("{}\n", cell.keyboard(&message))),
            Call::Status(place, packet) => cell.status(place, packet).map(|status| match status {
                Status::Blank => "ACK BLANK\n".to_string(),
                Status::Listed => "ACK LISTED\n".to_string(),
                Status::InProgress => "ACK MOVING\n".to_string(),
                Status::Stopping => "ACK STOPPING\n".to_string(),
                Status::Ended(code) => format!("ACK ENDED {code:02o}\n"),
            }),
            Call::Board => Ok(board(cell)),
        }
    }
}

/// The whole conversation over one input, its configuration first.
pub fn converse(input: &[u8]) -> Vec<u8> {
    let mut lines = input.split_inclusive(|&byte| byte == b'\n');
    let configuration = match Configuration::from_lines(|| lines.next()) {
        Ok(configuration) => configuration,
        Err(line) => return bad_configuration(line).into_bytes(),
    };
    let mut shift = Shift::new(configuration);
    let mut output = Vec::new();
    for line in lines {
        match line.strip_suffix(b"\n") {
            Some(line) => output.extend(shift.answer_line(line)),
            None => {
                output.extend(shift.finish(line));
                return output;
            }
        }
    }
    output.extend(shift.finish(b""));
    output
}

/// The answer to a bad configuration.
pub fn bad_configuration(line: crate::configuration::BadLine) -> String {
    format!("ER 14 LINE {}\n", line.0)
}

fn refused(refusal: Refusal) -> String {
    format!("NO {}\n", refusal.number())
}

/// The refusal of a selection; if a candidate waits for something, who and for what.
fn not_selected(why: &NoSelection) -> String {
    match why {
        NoSelection::NoPlace | NoSelection::NoCandidate => refused(why.refusal()),
        NoSelection::Lacking { id, facility } => {
            format!("NO {} {id} {}\n", why.refusal().number(), facility.word())
        }
    }
}

/// `ACK p id ` and the assignment.
fn selected(place: usize, job: &Job) -> String {
    let Assignment { ib, db, drum, units } = &job.assignment;
    let mut line = format!("ACK {place} {} IB {}-{}", job.id, ib.start, ib.end - 1);
    for (name, area) in [("DB", db), ("MD", drum)] {
        if !area.is_empty() {
            line += &format!(" {name} {}-{}", area.start, area.end - 1);
        }
    }
    for (entry, units) in units {
        line += &format!(" {}", entry.name());
        for (channel, unit) in units {
            line += &format!(" {:02}/{:02}", channel.0, unit.0);
        }
    }
    line + "\n"
}
