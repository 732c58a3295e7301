//! The sorts of calls, and which comes next.

use ordinary::numbers::ChannelNumber;

use super::{has_something, holdings, Writer};

/// The calls by sort, each as likely as its weight says; the weights differ from script to script.
#[derive(Clone, Copy)]
pub enum Sort {
    Deck,
    Select,
    Submit,
    Start,
    Complete,
    End,
    Mark,
    Request,
    Message,
    Status,
    Board,
    Noise,
    /// Requests for a little more than is free, and a selection.
    More,
    /// A packet that fails with others listed around it, and what comes of them.
    Failure,
    /// A unit that is given back, and what comes of it.
    Return,
}

const SORTS: [Sort; 15] = [
    Sort::Deck,
    Sort::Select,
    Sort::Submit,
    Sort::Start,
    Sort::Complete,
    Sort::End,
    Sort::Mark,
    Sort::Request,
    Sort::Message,
    Sort::Status,
    Sort::Board,
    Sort::Noise,
    Sort::More,
    Sort::Failure,
    Sort::Return,
];

pub const WEIGHTS: &[[usize; 15]] = &[
    // An ordinary day.
    [3, 10, 35, 18, 17, 4, 3, 3, 6, 4, 2, 1, 2, 2, 4],
    // Long request lists.
    [2, 6, 80, 3, 3, 1, 1, 1, 3, 2, 1, 0, 1, 1, 2],
    // Many short jobs.
    [8, 25, 15, 10, 10, 18, 4, 5, 6, 3, 2, 0, 3, 2, 4],
    // A full schedule and full places.
    [15, 20, 20, 8, 8, 1, 6, 8, 7, 4, 2, 1, 3, 1, 3],
    // Failures and marks.
    [3, 10, 30, 20, 22, 4, 8, 1, 6, 1, 2, 0, 2, 8, 6],
];

impl Writer<'_> {
    /// The next sort of call, mostly one that can be accepted now.
    pub(super) fn sort(&mut self, weights: &[usize]) -> Sort {
        let mut sort = SORTS[self.random.weighted(weights)];
        for _ in 0..12 {
            let cell = self.shift.cell();
            let sensible = match sort {
                Sort::Submit => cell.jobs().any(|job| has_something(cell, job)),
                Sort::Return => cell.jobs().any(|(place, _)| !holdings(cell, place).is_empty()),
                Sort::End => cell.jobs().any(|(_, job)| job.end.is_none()),
                Sort::Start => cell.listed().any(|(channel, _)| cell.moving(channel).is_none()),
                Sort::Complete | Sort::Failure => ChannelNumber::all().any(|channel| cell.moving(channel).is_some()),
                // Why nothing is selected is worth asking too.
                Sort::Select => cell.clone().select().is_ok() || self.random.percent(10),
                Sort::Deck => cell.schedule().requests().len() < 64,
                _ => true,
            };
            if sensible || self.random.percent(2) {
                break;
            }
            sort = SORTS[self.random.weighted(weights)];
        }
        sort
    }
}
