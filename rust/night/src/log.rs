//! `night log`: the calls of a night with their answers and times.

use std::ops::Range;

use crate::journal::{Answered, Journal};
use crate::json::{self, object};
use crate::time::Time;

/// Text of any bytes, for a terminal.
fn shown(line: &[u8]) -> String {
    let text = String::from_utf8_lossy(line);
    text.chars().map(|char| if char.is_control() { '?' } else { char }).collect()
}

fn lines(text: &[u8]) -> impl Iterator<Item = String> + '_ {
    text.split_inclusive(|&byte| byte == b'\n').map(|line| shown(line.strip_suffix(b"\n").unwrap_or(line)))
}

/// Some calls, the first being number 0, as text: `number  time  call`, and each line of the answer behind `>`.
pub fn text(journal: &Journal, calls: Range<usize>) -> String {
    let mut said = String::new();
    let mut day = None;
    for (at, answered) in calls.clone().zip(&journal.calls[calls]) {
        if answered.time.map(Time::day) != day {
            day = answered.time.map(Time::day);
            said += &answered.time.map_or(String::new(), |time| format!("{} UTC\n", time.date()));
        }
        for jump in journal.jumps.iter().filter(|jump| jump.call == at + 1) {
            said += &format!("{:17}{}\n", "", jumped(jump.by));
        }
        said += &call_text(at + 1, answered);
    }
    said
}

pub fn jumped(by: i64) -> String {
    let (seconds, way) = (by.unsigned_abs() as f64 / 1000.0, if by < 0 { "back" } else { "ahead" });
    format!("(the system's clock had jumped {way} by {seconds:.3} seconds)")
}

fn call_text(number: usize, answered: &Answered) -> String {
    let time = answered.time.map_or("--:--:--".to_string(), Time::clock);
    let mut said = String::new();
    for (line, start) in lines(&answered.call.text)
        .zip([format!("{number:6} {time}")].into_iter().chain(std::iter::repeat(String::new())))
    {
        said += &format!("{start:15}  {line}\n");
    }
    if answered.call.open {
        said += &format!("{:17}(here the input ended)\n", "");
    }
    match answered.answer.text() {
        Some(text) => lines(text).for_each(|line| said += &format!("{:15}> {line}\n", "")),
        None => said += &format!("{:15}> (several lines, of which this journal has only the sum)\n", ""),
    }
    said
}

/// The same as objects, one a line.
pub fn objects(journal: &Journal, calls: Range<usize>) -> String {
    let mut said = String::new();
    for (at, answered) in calls.clone().zip(&journal.calls[calls]) {
        let jump = journal.jumps.iter().find(|jump| jump.call == at + 1);
        said += &object(vec![
            ("call", (at + 1).into()),
            ("time", answered.time.map(|time| time.to_string()).into()),
            ("lines", json::lines(&answered.call.text)),
            ("answer", answered.answer.text().map(json::lines).into()),
            ("input_ended", json::Value::Flag(answered.call.open)),
            ("clock_jumped_ms", jump.map_or(json::Value::Null, |jump| json::Value::Number(jump.by))),
        ]);
    }
    said
}
