//! The journal's form: what is written, and how it is read back, whatever its bytes are.
//!
//! It is text, one line each, and a line's first byte says what it is:
//!
//! ```text
//! luffgravel night journal 2 script 7 program d1c9...      the format, the script's version, the program's sum
//!
//! @ 0 32 2026-11-17T02:30:00.000Z 5e0a... 9f3b...          a record: its number, the length of its body, the time,
//! :2                                                       the body's sum and the sum of all this
//! :03 MT 4                                                 record 0 has the configuration
//!
//! @ 1 117 2026-11-17T02:41:07.123Z 77c1... 2b90...
//! !-3600000                                                the system's clock had gone back by so many milliseconds
//! <7 DECK                                                  call 7; its further lines, if it is a deck
//! +A1,PTY,2,,ECU,,T,PROG,P,02A5,P,3.
//! -                                                        the input ended in it
//! >A1 SCH ACK                                              the lines of its answer
//! ```
//!
//! A record has the calls that came together: they are on the disk together or not at all. The sum of its first line
//! goes on from that of the record before, and the first one from the header's, so a record that is exchanged, missing
//! or from another journal does not fit. No line of a call begins a line of the journal, so nothing that is said to
//! the cell looks like a record.
//!
//! `journal/first.rs` has the format before this one, which had no times.

mod first;
mod second;
#[cfg(test)]
mod tests;

use crate::calls::Call;
use crate::sum::check_sum;
use crate::time::Time;

pub use first::write_next as write_first;
pub use second::{write_beginning, write_calls, write_record, Head};

/// What begins the header of any version.
const FAMILY: &[u8] = b"luffgravel night journal ";
/// More bytes than a header has, or the first line of a record.
const LINE_ROOM: usize = 160;

/// An answer as the journal has it.
#[derive(Clone, Debug, PartialEq, Eq)]
pub enum Answer {
    /// Its lines, each with its LF.
    Whole(Vec<u8>),
    /// Of several lines the first format has the length and the check sum alone.
    Summed(usize, u64),
}

impl Answer {
    pub fn new(text: &[u8]) -> Answer {
        Answer::Whole(text.to_vec())
    }

    /// Is it this text?
    pub fn is(&self, text: &[u8]) -> bool {
        match self {
            Answer::Whole(whole) => whole == text,
            Answer::Summed(length, sum) => text.len() == *length && check_sum(text) == *sum,
        }
    }

    pub fn text(&self) -> Option<&[u8]> {
        match self {
            Answer::Whole(text) => Some(text),
            Answer::Summed(..) => None,
        }
    }

    /// The whole answer, with its LF, if it is one line.
    pub fn line(&self) -> Option<&[u8]> {
        let is_line = |text: &&[u8]| text.iter().position(|&byte| byte == b'\n') == Some(text.len().wrapping_sub(1));
        self.text().filter(is_line)
    }
}

#[derive(Clone, Debug, PartialEq, Eq)]
pub struct Answered {
    pub call: Call,
    pub answer: Answer,
    /// When it was put into the journal; the first format does not say it.
    pub time: Option<Time>,
}

impl Answered {
    pub fn new(call: Call, answer: &[u8]) -> Answered {
        Answered { call, answer: Answer::new(answer), time: None }
    }
}

/// The system's clock went ahead or back by so many milliseconds before the call of this number.
#[derive(Clone, Copy, Debug, PartialEq, Eq)]
pub struct Jump {
    pub call: usize,
    pub by: i64,
}

#[derive(Clone, Copy, Debug, Default, PartialEq, Eq)]
pub enum Format {
    First,
    #[default]
    Second,
}

/// What a journal says of the program that began it.
#[derive(Clone, Copy, Debug, PartialEq, Eq)]
pub struct Origin {
    /// The script's version: how many requests the program had.
    pub script: u32,
    /// The check sum of the program's file.
    pub program: u64,
}

/// A journal as it was read.
#[derive(Debug, Default, PartialEq, Eq)]
pub struct Journal {
    pub format: Format,
    pub origin: Option<Origin>,
    /// When it was begun.
    pub begun: Option<Time>,
    /// `None` where not even the first record is whole, so that nothing was ever answered.
    pub configuration: Option<Vec<u8>>,
    /// The calls in order: call 1 stands first.
    pub calls: Vec<Answered>,
    pub jumps: Vec<Jump>,
    /// How many records are whole.
    pub records: u64,
    /// How many bytes they and the header take.
    pub length: usize,
    /// How many bytes follow: what an interrupted append has left of a record.
    pub torn: usize,
    /// The sum that the next record goes on from.
    pub chain: u64,
}

#[derive(Debug, PartialEq, Eq)]
pub enum Fault {
    NoJournal,
    OtherVersion,
    /// The record with this number. Before it are so many calls and bytes that are whole.
    Damaged {
        record: u64,
        calls: usize,
        length: usize,
    },
}

/// What stands at some place of a journal.
enum Next<'b> {
    /// A record, with the length of all of it.
    Record(Head, &'b [u8], usize),
    /// What an interrupted append leaves: the first part of a record, and behind it nothing or zeros.
    Torn,
    Damaged,
}

/// Reads a journal.
pub fn read(bytes: &[u8]) -> Result<Journal, Fault> {
    let Some(mut journal) = read_header(bytes)? else {
        return Ok(Journal { torn: bytes.len(), ..Journal::default() });
    };
    while journal.length < bytes.len() {
        let rest = &bytes[journal.length..];
        let next = match journal.format {
            Format::First => first::next(rest, journal.records),
            Format::Second => second::next(rest, journal.records, journal.chain),
        };
        match next {
            Next::Record(head, body, length) if journal.take(&head, body).is_some() => {
                journal.records += 1;
                journal.length += length;
                journal.chain = match journal.format {
                    Format::First => first::chain(journal.chain, head.sum),
                    Format::Second => head.sum,
                };
            }
            Next::Torn => {
                journal.torn = rest.len();
                break;
            }
            _ => return Err(journal.damaged()),
        }
    }
    Ok(journal)
}

/// The journal that the header begins, or `None` where the file was being made when the power went: it may be empty,
/// short or all zeros, and nothing was ever answered.
fn read_header(bytes: &[u8]) -> Result<Option<Journal>, Fault> {
    let written = without_zeros(bytes);
    let line = &bytes[..bytes.iter().take(LINE_ROOM).position(|&byte| byte == b'\n').map_or(0, |at| at + 1)];
    if line.is_empty() {
        let begins = first::HEADER.starts_with(written) || second::begins_header(written);
        return if begins { Ok(None) } else { Err(Fault::NoJournal) };
    }
    let journal = Journal { length: line.len(), chain: check_sum(line), ..Journal::default() };
    if line == first::HEADER {
        return Ok(Some(Journal { format: Format::First, ..journal }));
    }
    match second::read_header(line) {
        Some(origin) => Ok(Some(Journal { origin: Some(origin), ..journal })),
        None if line.starts_with(second::HEADER.as_bytes()) => Err(Fault::Damaged { record: 0, calls: 0, length: 0 }),
        None if line.starts_with(FAMILY) => Err(Fault::OtherVersion),
        None => Err(Fault::NoJournal),
    }
}

/// What is left of these bytes without the zeros at their end.
fn without_zeros(bytes: &[u8]) -> &[u8] {
    let end = bytes.iter().rposition(|&byte| byte != 0).map_or(0, |at| at + 1);
    &bytes[..end]
}

impl Journal {
    fn damaged(&self) -> Fault {
        Fault::Damaged { record: self.records, calls: self.calls.len(), length: self.length }
    }

    /// When the last call was put into it.
    pub fn last(&self) -> Option<Time> {
        self.calls.last().map_or(self.begun, |answered| answered.time)
    }

    /// Takes up the body of the next record.
    fn take(&mut self, head: &Head, body: &[u8]) -> Option<()> {
        if body.last().is_some_and(|&byte| byte != b'\n') || head.time < self.last() {
            return None;
        }
        let mut lines = body.split_inclusive(|&byte| byte == b'\n').peekable();
        if self.records == 0 {
            let lines: Option<Vec<&[u8]>> = lines.map(|line| line.strip_prefix(b":")).collect();
            self.configuration = Some(lines?.concat());
            self.begun = head.time;
            return Some(());
        }
        if let Some(jump) = lines.next_if(|line| line[0] == b'!') {
            let by = std::str::from_utf8(&jump[1..]).ok()?.trim_end().parse().ok()?;
            self.jumps.push(Jump { call: self.calls.len() + 1, by });
        }
        while lines.peek().is_some() {
            let number = self.calls.len() + 1;
            let mut answered = match self.format {
                Format::First => first::read_call(number, || lines.next())?,
                Format::Second => second::read_call(number, &mut lines)?,
            };
            answered.time = head.time;
            self.calls.push(answered);
        }
        Some(())
    }
}

/// The first line of a call that has this number, without the number.
fn first_line(number: usize, line: &[u8]) -> Option<&[u8]> {
    line.strip_prefix(format!("<{number} ").as_bytes())
}

/// The body of the call's lines, as both formats write them.
fn write_call(number: usize, call: &Call, body: &mut Vec<u8>) {
    body.extend_from_slice(format!("<{number} ").as_bytes());
    let mut between: &[u8] = b"";
    for line in call.text.split_inclusive(|&byte| byte == b'\n') {
        body.extend(between);
        body.extend(line);
        between = b"+";
    }
    if call.open {
        body.extend(b"-\n");
    }
}
