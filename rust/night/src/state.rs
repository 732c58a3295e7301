//! How a head, or a word of the drum, was at one moment: who held it, what moved there, and how it was marked.

use crate::heads::{Head, Heads, Moving};
use crate::journal::Journal;
use crate::json::{object, Value};
use crate::who::{call_text, check_head, fresh};

struct State {
    channel: u32,
    /// The unit, or a word of the drum.
    unit: u32,
    on_drum: bool,
    head: Head,
    /// The ID of the job that holds it, and whether it is closing.
    job: Option<(String, bool)>,
    moving: Option<Moving>,
}

/// The state after so many calls, as a line of text or as an object.
pub fn at(journal: &Journal, head: (u32, u32), calls: usize, as_object: bool) -> Result<String, String> {
    let (_, mut heads) = fresh(journal)?;
    check_head(&heads, Some(head))?;
    journal.calls[..calls].iter().for_each(|answered| heads.hear(answered));
    let state = State::of(&heads, head);
    Ok(if as_object { state.object(journal, calls) } else { state.text(journal, calls) })
}

impl State {
    fn of(heads: &Heads, (channel, unit): (u32, u32)) -> State {
        let on_drum = heads.drum == Some(channel);
        let mut head = heads.heads.get(&(channel, unit)).copied().unwrap_or_default();
        if on_drum {
            let area = |place: &usize| heads.job(*place).and_then(|job| job.area);
            let has = |place: &usize| area(place).is_some_and(|(first, last)| (first..=last).contains(&unit));
            head.holder = (0..heads.jobs.len()).find(has);
        }
        head.interlock &= head.holder.is_some();
        let job = head.holder.and_then(|place| heads.job(place)).map(|job| (job.id.clone(), job.closing));
        let moving = |place| if on_drum { heads.moving_on_drum(place) } else { heads.moving_at((channel, unit)) };
        State { channel, unit, on_drum, head, job, moving: head.holder.and_then(moving) }
    }

    fn text(&self, journal: &Journal, calls: usize) -> String {
        let State { channel, unit, .. } = self;
        let name = if self.on_drum { format!("{channel:02} word {unit}") } else { format!("{channel:02}/{unit:02}") };
        let mut said = format!("{name} after {}: {}", call_text(journal, calls), self.held());
        let words = [
            (self.head.returning, "being returned"),
            (self.head.interlock, "interlock"),
            (self.head.down, "marked down"),
            (self.head.reserved, "marked reserved"),
        ];
        for (_, word) in words.into_iter().filter(|(holds, _)| *holds) {
            said += &format!("; {word}");
        }
        said + "\n"
    }

    fn held(&self) -> String {
        let Some(place) = self.head.holder else { return "free".to_string() };
        let (id, closing) = self.job.as_ref().map_or(("?", false), |(id, closing)| (id, *closing));
        let closing = if closing { ", closing" } else { "" };
        let Some(moving) = self.moving else {
            return format!("held by {id} (place {place}{closing}); no packet moves");
        };
        let Moving { packet, function, target, stopping, .. } = moving;
        let word = if stopping { "is stopping" } else { "moves" };
        let target = if self.on_drum { format!(" at word {target}") } else { String::new() };
        format!("held by {id} (place {place}{closing}); packet {packet} {word} (function {function:02o}){target}")
    }

    fn object(&self, journal: &Journal, calls: usize) -> String {
        let last = calls.checked_sub(1).and_then(|at| journal.calls.get(at));
        let moving = self.moving;
        object(vec![
            ("channel", self.channel.into()),
            (if self.on_drum { "word" } else { "unit" }, self.unit.into()),
            ("call", calls.into()),
            ("time", last.and_then(|answered| answered.time).map(|time| time.to_string()).into()),
            ("line", last.map(|answered| answered.call.shown()).into()),
            ("job", self.job.as_ref().map(|(id, _)| id.as_str()).into()),
            ("place", self.head.holder.into()),
            ("closing", Value::Flag(self.job.as_ref().is_some_and(|(_, closing)| *closing))),
            ("packet", moving.map(|moving| moving.packet).into()),
            ("function", moving.map(|moving| format!("{:02o}", moving.function)).into()),
            ("stopping", Value::Flag(moving.is_some_and(|moving| moving.stopping))),
            ("returning", Value::Flag(self.head.returning)),
            ("interlock", Value::Flag(self.head.interlock)),
            ("down", Value::Flag(self.head.down)),
            ("reserved", Value::Flag(self.head.reserved)),
        ])
    }
}
