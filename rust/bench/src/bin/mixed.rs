//! A night to time the shift program with: `mixed [CALLS [start]]` writes a script of that many calls (100,000), the
//! same each time. The ordinary cell runs beside, so that nearly every call is accepted. With `start` it writes START
//! alone, each refused.

use std::io::{self, BufWriter, Write};

use ordinary::cell::{PacketName, Status};
use ordinary::configuration::Configuration;
use ordinary::numbers::ChannelNumber;
use ordinary::schedule::State;
use ordinary::shift::Shift;

const CELL: &str = "5\n00 MA 8\n01 MT 8\n02 MT 10\n05 MD 100000\n12 PR 8\n0\n5\n02\n06\n11\n13\n14\n";
const TERMINATION: &str = ")))))))) +++++++++++++                                                  ))))))))\n";

/// The sorts of calls. A deck may be the deletion of a request that an end in error has suspended.
#[derive(Clone, Copy)]
enum Sort {
    Submit,
    Start,
    Complete,
    Status,
    Mark,
    Select,
    End,
    Deck,
    Board,
}

/// How often each sort is drawn in 200 draws. A call that could not be accepted is drawn again.
const OF_200: [(Sort, u64); 9] = [
    (Sort::Submit, 68),
    (Sort::Start, 38),
    (Sort::Complete, 38),
    (Sort::Status, 30),
    (Sort::Mark, 11),
    (Sort::Select, 6),
    (Sort::End, 6),
    (Sort::Deck, 2),
    (Sort::Board, 1),
];

/// splitmix64
struct Random(u64);

impl Random {
    fn below(&mut self, end: usize) -> usize {
        self.0 = self.0.wrapping_add(0x9e37_79b9_7f4a_7c15);
        let mut z = self.0;
        z = (z ^ (z >> 30)).wrapping_mul(0xbf58_476d_1ce4_e5b9);
        z = (z ^ (z >> 27)).wrapping_mul(0x94d0_49bb_1331_11eb);
        ((z ^ (z >> 31)) % end as u64) as usize
    }

    fn pick<T: Copy>(&mut self, from: &[T]) -> Option<T> {
        if from.is_empty() {
            return None;
        }
        Some(from[self.below(from.len())])
    }

    fn sort(&mut self) -> Sort {
        let mut at = self.below(200) as u64;
        for (sort, times) in OF_200 {
            if at < times {
                return sort;
            }
            at -= times;
        }
        unreachable!("the sorts are 200")
    }
}

struct Night {
    random: Random,
    shift: Shift,
    requests: usize,
    /// The unit that is down.
    down: Option<(u8, usize)>,
}

impl Night {
    /// The call, if one of this sort can be accepted now.
    fn call(&mut self, sort: Sort) -> Option<String> {
        match sort {
            Sort::Submit => self.submit(),
            Sort::Start => {
                let cell = self.shift.cell();
                let startable = |&(channel, PacketName { place, packet }): &(ChannelNumber, PacketName)| {
                    cell.moving(channel).is_none() && cell.status(place as u32, packet as u32) == Ok(Status::Listed)
                };
                let channels: Vec<_> = cell.listed().filter(startable).map(|(channel, _)| channel).collect();
                self.random.pick(&channels).map(|channel| format!("START {}\n", channel.0))
            }
            Sort::Complete => self.complete(),
            Sort::Status => {
                let (place, packet) = (self.random.below(16), self.random.below(16));
                Some(format!("STATUS {place} {packet}\n"))
            }
            Sort::Mark => Some(self.mark()),
            Sort::Select => (self.random.below(5) == 0 || self.shift.cell().clone().select().is_ok())
                .then(|| "SELECT\n".to_string()),
            // Some jobs are left, so that there is something to submit to.
            Sort::End if self.shift.cell().jobs().count() > 5 => self.running().map(|place| {
                let word = if self.random.below(10) == 0 { "ABORT" } else { "END" };
                format!("{word} {place}\n")
            }),
            Sort::End => None,
            Sort::Deck => Some(match self.suspended() {
                Some(id) => format!("DELETE {id}\n"),
                None => self.deck(),
            }),
            Sort::Board => Some("BOARD\n".to_string()),
        }
    }

    /// One unit is marked at a time: it is set down, and up again.
    fn mark(&mut self) -> String {
        if let Some((channel, unit)) = self.down.take() {
            return format!("UP {channel} {unit}\n");
        }
        let (channel, units) = self.random.pick(&[(0, 8), (1, 8), (2, 10), (12, 8)]).expect("a channel");
        let unit = self.random.below(units);
        self.down = Some((channel, unit));
        format!("DOWN {channel} {unit}\n")
    }

    /// The ID of a request that an end in error has suspended.
    fn suspended(&self) -> Option<&str> {
        let requests = self.shift.cell().schedule().requests();
        requests.iter().find(|of| of.state == State::Suspended).map(|of| of.request.id.as_str())
    }

    /// The place of a job that runs.
    fn running(&mut self) -> Option<usize> {
        let places: Vec<usize> =
            self.shift.cell().jobs().filter(|(_, job)| job.end.is_none()).map(|(place, _)| place).collect();
        self.random.pick(&places)
    }

    fn submit(&mut self) -> Option<String> {
        let place = self.running()?;
        let cell = self.shift.cell();
        let is_idle =
            |&packet: &usize| matches!(cell.status(place as u32, packet as u32), Ok(Status::Blank | Status::Ended(_)));
        let packets: Vec<usize> = (0..16).filter(is_idle).collect();
        let (_, job) = cell.jobs().find(|&(at, _)| at == place)?;
        let units: Vec<_> = job.assignment.units.iter().flat_map(|(_, units)| units).copied().collect();
        let words: Vec<u32> = job.assignment.drum.clone().take(20).collect();
        let packet = self.random.pick(&packets)?;
        if self.random.below(6) == 0 {
            let x = self.random.pick(&words)?;
            return Some(format!("SUBMIT {place} {packet} 42 5 {x}\n"));
        }
        let (channel, unit) = self.random.pick(&units)?;
        let function = if self.shift.cell().unit(channel, unit).interlock { "07" } else { "02" };
        Some(format!("SUBMIT {place} {packet} {function} {} {}\n", channel.0, unit.0))
    }

    fn complete(&mut self) -> Option<String> {
        let cell = self.shift.cell();
        let moving: Vec<_> = ChannelNumber::all().filter_map(|at| Some((at, cell.moving(at)?))).collect();
        let (channel, PacketName { place, packet }) = self.random.pick(&moving)?;
        let stopping = self.shift.cell().status(place as u32, packet as u32) == Ok(Status::Stopping);
        Some(match self.random.below(20) {
            0 => format!("FAIL {} 13\n", channel.0),
            _ if stopping => format!("CUT {}\n", channel.0),
            _ => format!("DONE {}\n", channel.0),
        })
    }

    /// Two to four requests.
    fn deck(&mut self) -> String {
        let mut deck = "DECK\n".to_string();
        for _ in 0..2 + self.random.below(3) {
            let n = self.requests;
            self.requests += 1;
            let letter = char::from(b'A' + self.random.below(20) as u8);
            let (sequence, precedence) = (1 + n % 63, self.random.below(64));
            let entries = self.random.pick(&["MA/1", "MT1/2", "MT/2,PR/1", "MA1/1,MD/900", "MT1/1,MT2/1"]);
            let entries = entries.expect("entries");
            deck += &format!(
                "J{n},PTY,2,,ECU,,T,PROG,P,{sequence:02}{letter}{precedence},P,3.\nJ{n},FAC,IB/1,{entries}.\n"
            );
        }
        deck + TERMINATION
    }

    /// The next call, which the cell beside has answered.
    fn next(&mut self) -> String {
        loop {
            let sort = self.random.sort();
            if let Some(call) = self.call(sort) {
                for line in call.lines() {
                    self.shift.answer_line(line.as_bytes());
                }
                return call;
            }
        }
    }
}

fn refuse() -> io::Result<()> {
    eprintln!("usage: mixed [CALLS [start]]");
    std::process::exit(2);
}

fn main() -> io::Result<()> {
    let mut words = std::env::args().skip(1);
    let calls = words.next().map_or(Ok(100_000), |word| word.parse::<usize>());
    let (Ok(calls), starts, None) = (calls, words.next(), words.next()) else {
        return refuse();
    };
    if starts.as_ref().is_some_and(|word| word != "start") {
        return refuse();
    }
    let configuration = Configuration::from_text(CELL.as_bytes()).expect("a good configuration");
    let mut night = Night { random: Random(1), shift: Shift::new(configuration), requests: 0, down: None };
    let mut out = BufWriter::new(io::stdout().lock());
    out.write_all(CELL.as_bytes())?;
    for _ in 0..calls {
        let call = if starts.is_some() { "START 0\n".to_string() } else { night.next() };
        out.write_all(call.as_bytes())?;
    }
    Ok(())
}
