//! Random shift scripts. A shift of the ordinary implementation runs beside, so that most calls make sense in the
//! state they meet.

use std::collections::BTreeMap;

use ordinary::cell::{Cell, Job};
use ordinary::configuration::Configuration;
use ordinary::numbers::ChannelNumber;
use ordinary::shift::Shift;

use crate::decks::{self, Style};
use crate::kinds;
use crate::messages;
use crate::random::Random;
use crate::returns;
use sorts::{Sort, WEIGHTS};

mod after_return;
mod beginning;
mod calls;
mod failures;
mod noise;
mod returning;
mod selections;
mod sorts;
mod submissions;
mod words;

/// A configuration, and calls with their line ends; a deck is one call with its cards.
pub struct Script {
    pub pieces: Vec<Vec<u8>>,
    /// How many of the pieces are calls.
    pub calls: usize,
    /// How often packets failed in which way, what was met of heads that are given back and of each kind of unit, and
    /// how many cards of which type came.
    pub counts: BTreeMap<String, u64>,
}

/// A script that is being written, and the shift beside it.
struct Writer<'r> {
    random: &'r mut Random,
    shift: Shift,
    style: Style,
    pieces: Vec<Vec<u8>>,
    counts: BTreeMap<String, u64>,
}

/// A script with this many calls.
pub fn script(random: &mut Random, calls: usize) -> Script {
    let configuration = beginning::configuration(random);
    // What follows a configuration is no fault of it here.
    let mut lines = configuration.split_inclusive(|&byte| byte == b'\n');
    let Ok(read) = Configuration::from_lines(|| lines.next()) else {
        // Some inputs end with it, within a section or a line.
        let mut pieces = vec![configuration];
        if *random.pick(&[true, true, false]) {
            pieces.push(b"SELECT\nBOARD\n".to_vec());
        }
        return Script { pieces, calls: 0, counts: BTreeMap::new() };
    };
    let kept = configuration.len() - lines.map(<[u8]>::len).sum::<usize>();
    let style = beginning::style(random, &read);
    let weights = *random.pick(WEIGHTS);
    let pieces = vec![configuration[..kept].to_vec()];
    let mut writer = Writer { random, shift: Shift::new(read), style, pieces, counts: BTreeMap::new() };
    writer.call(Sort::Deck);
    while writer.pieces.len() <= calls {
        let sort = writer.sort(&weights);
        writer.call(sort);
    }
    writer.last();
    let calls = writer.pieces.len() - 1;
    Script { pieces: writer.pieces, calls, counts: writer.counts }
}

/// The lines of a script, each with its answer. A bad configuration and what follows the last LF are answered at the
/// end.
pub fn conversation(text: &[u8]) -> Vec<(&[u8], Vec<u8>)> {
    let mut conversation = Vec::new();
    let mut lines = text.split_inclusive(|&byte| byte == b'\n');
    let configuration = Configuration::from_lines(|| {
        let line = lines.next()?;
        conversation.push((line, Vec::new()));
        Some(line)
    });
    let Ok(configuration) = configuration else { return vec![(text, Vec::new())] };
    let mut shift = Shift::new(configuration);
    for line in lines {
        let answer = line.strip_suffix(b"\n").map_or(Vec::new(), |line| shift.answer_line(line));
        conversation.push((line, answer));
    }
    conversation
}

/// The units that the job in a place holds now.
fn holdings(cell: &Cell, place: usize) -> Vec<(ChannelNumber, u32)> {
    let units = cell.configuration().units();
    let held = units.filter(|&(channel, unit)| cell.unit(channel, unit).holder == Some(place));
    held.map(|(channel, unit)| (channel, u32::from(unit.0))).collect()
}

/// Has the job in a place units or a drum area?
fn has_something(cell: &Cell, (place, job): (usize, &Job)) -> bool {
    !job.assignment.drum.is_empty() || !holdings(cell, place).is_empty()
}

/// Words with single spaces between them, as a line.
fn line(words: &[&str]) -> Vec<u8> {
    let mut line = words.join(" ").into_bytes();
    line.push(b'\n');
    line
}

/// The place into which a selection with this answer took a job.
fn taken(answer: &[u8]) -> Option<usize> {
    let answer = std::str::from_utf8(answer).ok()?;
    answer.strip_prefix("ACK ")?.split(' ').next()?.parse().ok()
}

impl Writer<'_> {
    fn call(&mut self, sort: Sort) {
        let piece = match sort {
            Sort::Deck => self.deck(),
            Sort::Select => b"SELECT\n".to_vec(),
            Sort::Submit => self.submit(),
            Sort::Start => {
                let channel = self.channel_to_start();
                line(&["START", &channel])
            }
            Sort::Complete => self.complete(),
            Sort::End => self.end(),
            Sort::Mark => self.mark(),
            Sort::Request => self.request(),
            Sort::Message => {
                let mut line = messages::key_line(self.random, self.shift.cell());
                line.push(b'\n');
                line
            }
            Sort::Status => {
                let (place, packet) = (self.place(), self.random.within(0..=16).to_string());
                line(&["STATUS", &place, &packet])
            }
            Sort::Board => b"BOARD\n".to_vec(),
            Sort::Noise => self.noise(),
            Sort::More => return self.ask_for_more(),
            Sort::Failure => return self.failure(),
            Sort::Return => return self.give_back(),
        };
        self.push(piece);
    }

    fn push(&mut self, piece: Vec<u8>) {
        self.count_failure(&piece);
        self.count(returns::met(self.shift.cell(), &piece));
        self.count(kinds::met(self.shift.cell(), &piece));
        if let Some(deck) = piece.strip_prefix(b"DECK\n") {
            for (card_type, times) in decks::card_types(deck) {
                *self.counts.entry(card_type).or_default() += times;
            }
        }
        let mut answer = Vec::new();
        for line in piece.split_inclusive(|&byte| byte == b'\n') {
            answer = self.shift.answer_line(line.strip_suffix(b"\n").unwrap_or(line));
        }
        if piece == b"SELECT\n" {
            let place = taken(&answer);
            self.count(place.and_then(|place| returns::selected(self.shift.cell(), place)));
            for what in place.map_or(Vec::new(), |place| kinds::selected(self.shift.cell(), place)) {
                self.count(Some(what));
            }
        }
        self.pieces.push(piece);
    }

    fn count(&mut self, what: Option<String>) {
        if let Some(what) = what {
            *self.counts.entry(what).or_default() += 1;
        }
    }

    /// Every function on a unit, the state in full at the end, and now and then an end in the middle of something.
    fn last(&mut self) {
        if self.random.percent(60) {
            self.every_function();
        }
        self.push(b"BOARD\n".to_vec());
        for place in 0..16 {
            for packet in 0..16 {
                if self.random.percent(20) {
                    self.push(format!("STATUS {place} {packet}\n").into_bytes());
                }
            }
        }
        let end: &[u8] = match self.random.below(14) {
            0 => b"BOARD",
            1 => b"DECK",
            2 => b"DECK\nA,PTY,2,,P,,,M,P,A,P,1.\nA,FAC,IB/1.\n",
            3 => b"DECK\n)))))))) +++++++++++++                                                  ))))))))",
            4 => b"#",
            5 => b"\xff",
            6 => b"KEY",
            7 => b"KEY DEL A ",
            _ => return,
        };
        self.pieces.push(end.to_vec());
    }
}
