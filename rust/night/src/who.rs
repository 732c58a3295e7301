//! `night who`: which job held a head, or a word of the drum, from when to when.

use crate::heads::Heads;
use crate::journal::{Answered, Journal};
use crate::json::{object, Value};
use crate::state;
use crate::time::Time;
use crate::tracks::{tracks, Holding, Span};

/// What is asked for.
#[derive(Clone, Debug, Default, PartialEq, Eq)]
pub struct Question {
    /// A channel and a unit, or where the channel is the drum's a word.
    pub head: Option<(u32, u32)>,
    pub job: Option<String>,
    /// After so many calls.
    pub calls: Option<usize>,
}

/// A holding of a head or of a drum area.
struct Held {
    /// `03/00`, or `07 drum` with an area.
    name: String,
    span: Span<Holding>,
}

pub fn fresh(journal: &Journal) -> Result<(&[u8], Heads), String> {
    let configuration = journal.configuration.as_deref().ok_or("the journal has no configuration yet")?;
    Ok((configuration, Heads::fresh(configuration).ok_or("the journal's configuration cannot be read")?))
}

/// The answer to a question, as lines of text or as objects.
pub fn answer(journal: &Journal, question: &Question, as_objects: bool) -> Result<String, String> {
    if let (Some(head), None, Some(calls)) = (question.head, &question.job, question.calls) {
        return state::at(journal, head, calls, as_objects);
    }
    let held = holdings(journal, question)?;
    if held.is_empty() && !as_objects {
        return Ok("no job: nothing was held\n".to_string());
    }
    let one = |held: &Held| if as_objects { held.object(journal) } else { held.text(journal) };
    Ok(held.iter().map(one).collect())
}

/// The holdings that are asked for, in the order in which they began.
fn holdings(journal: &Journal, question: &Question) -> Result<Vec<Held>, String> {
    let (configuration, heads) = fresh(journal)?;
    check_head(&heads, question.head)?;
    let rows = tracks(configuration, &journal.calls).ok_or("the journal's configuration cannot be read")?.rows;
    let all = rows.into_iter().flat_map(|row| {
        let name = row.name;
        row.holdings.0.into_iter().map(move |span| Held { name: name.clone(), span })
    });
    let mut held: Vec<Held> = all.filter(|held| held.answers(question, heads.drum)).collect();
    held.sort_by_key(|held| held.span.from);
    Ok(held)
}

pub fn check_head(heads: &Heads, head: Option<(u32, u32)>) -> Result<(), String> {
    match head {
        Some((channel, unit)) if heads.drum != Some(channel) && !heads.heads.contains_key(&(channel, unit)) => {
            Err(format!("there is no head {channel:02}/{unit:02} in this cell"))
        }
        _ => Ok(()),
    }
}

impl Held {
    fn answers(&self, question: &Question, drum: Option<u32>) -> bool {
        let holding = &self.span.what;
        let is_there = question.head.is_none_or(|(channel, unit)| match holding.area {
            Some((first, last)) => drum == Some(channel) && (first..=last).contains(&unit),
            None => self.name == format!("{channel:02}/{unit:02}"),
        });
        is_there
            && question.job.as_ref().is_none_or(|job| *job == holding.id)
            && question.calls.is_none_or(|calls| (self.span.from..self.span.to).contains(&calls))
    }

    fn place(&self) -> String {
        let area = self.span.what.area;
        area.map_or(self.name.clone(), |(first, last)| format!("{} {first}-{last}", self.name))
    }

    /// One line: where, the job, and from when to when.
    fn text(&self, journal: &Journal) -> String {
        let Holding { place, id, .. } = &self.span.what;
        let to = if self.span.to > journal.calls.len() {
            "and still has it".to_string()
        } else {
            format!("to {}", call_text(journal, self.span.to))
        };
        format!("{}: {id} (place {place}) from {} {to}\n", self.place(), call_text(journal, self.span.from))
    }

    fn object(&self, journal: &Journal) -> String {
        let Holding { place, id, area } = &self.span.what;
        let channel: u32 = self.name[..2].parse().unwrap_or_default();
        let unit: Option<u32> = if area.is_none() { self.name[3..].parse().ok() } else { None };
        let ended = (self.span.to <= journal.calls.len()).then_some(self.span.to);
        let at = |call: usize| journal.calls.get(call.wrapping_sub(1));
        let time = |call| at(call).and_then(|answered| answered.time).map(|time| time.to_string());
        let line = |call| at(call).map(|answered| answered.call.shown());
        object(vec![
            ("channel", channel.into()),
            ("unit", unit.into()),
            ("words", area.map_or(Value::Null, |(first, last)| Value::List(vec![first.into(), last.into()]))),
            ("job", id.as_str().into()),
            ("place", (*place).into()),
            ("from_call", self.span.from.into()),
            ("from_time", time(self.span.from).into()),
            ("from_line", line(self.span.from).into()),
            ("to_call", ended.into()),
            ("to_time", ended.and_then(time).into()),
            ("to_line", ended.and_then(line).into()),
        ])
    }
}

/// `call 5 (02:31:07, SELECT)`.
pub fn call_text(journal: &Journal, call: usize) -> String {
    let Some(answered) = call.checked_sub(1).and_then(|at| journal.calls.get(at)) else {
        return "the start".to_string();
    };
    format!("call {call} ({}{})", time_text(journal, answered), answered.call.shown())
}

/// The time of a call, with its date where the night is of several days.
fn time_text(journal: &Journal, answered: &Answered) -> String {
    let Some(time) = answered.time else { return String::new() };
    let is_of_one_day = journal.begun.map(Time::day) == journal.last().map(Time::day);
    let date = if is_of_one_day { String::new() } else { time.date() + " " };
    format!("{date}{}, ", time.clock())
}
