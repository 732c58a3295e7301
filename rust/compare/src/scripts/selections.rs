//! Requests for just what is free, or for a little more, and a selection.

use ordinary::cell::PLACES;
use ordinary::configuration::Channel;
use ordinary::numbers::{ChannelNumber, Kind};
use ordinary::schedule::State;

use super::Writer;
use crate::decks;
use crate::lacks;

impl Writer<'_> {
    /// Requests for a little more than is free, a selection, and mostly they are deleted again.
    pub(super) fn ask_for_more(&mut self) {
        // With all places held requests pile up: that no place is free comes before that nothing waits.
        if self.shift.cell().jobs().count() == PLACES && self.random.percent(20) {
            return self.leave_none_waiting();
        }
        let (deck, ids) = lacks::deck(self.random, self.shift.cell());
        self.push([b"DECK\n", &deck[..]].concat());
        self.push(b"SELECT\n".to_vec());
        for id in ids {
            if self.random.percent(80) {
                self.push(format!("DELETE {id}\n").into_bytes());
            }
            // What was behind it, or in its way, may be named now.
            if self.random.percent(30) {
                self.push(b"SELECT\n".to_vec());
            }
        }
    }

    /// Deletes all requests that wait, and selects.
    fn leave_none_waiting(&mut self) {
        let requests = self.shift.cell().schedule().requests().iter();
        let waiting = requests.filter(|scheduled| scheduled.state == State::Waiting);
        let deletions: Vec<String> = waiting.map(|waiting| format!("DELETE {}\n", waiting.request.id)).collect();
        for deletion in deletions {
            self.push(deletion.into_bytes());
        }
        self.push(b"SELECT\n".to_vec());
    }

    /// A request for all units of the channel's kind that are free, or for one more, and a selection.
    pub(super) fn ask_for_units(&mut self, channel: ChannelNumber) {
        let cell = self.shift.cell();
        let kind_of = |channel| cell.configuration().channel(channel).map_or(Kind::Ma, Channel::kind);
        let kind = kind_of(channel);
        let units = cell.configuration().units().filter(|(at, _)| kind_of(*at) == kind);
        let free = units.filter(|&(at, unit)| cell.unit(at, unit).is_assignable()).count();
        let asked = (free + self.random.below(2)).clamp(1, 99);
        let id = *self.random.pick(&["NEXT", "TAKES", "R"]);
        let priority = format!("A{}", self.random.below(20));
        let cards = format!("{id},PTY,2,,P,,,M,P,{priority},P,1.\n{id},FAC,IB/1,{}/{asked}.\n", kind.letters());
        self.push([b"DECK\n", &decks::terminated(cards.as_bytes())[..]].concat());
        self.push(b"SELECT\n".to_vec());
        if self.random.percent(60) {
            self.push(format!("DELETE {id}\n").into_bytes());
        }
    }
}
