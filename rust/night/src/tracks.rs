//! A night as rows: for each head, and for the drum, from which call to which it was held, moving, locked and marked.

use crate::heads::{HeadName, Heads, PLACES};
use crate::journal::Answered;

/// Something that holds after the call `from` and no longer after the call `to`.
#[derive(Clone, Debug, PartialEq, Eq)]
pub struct Span<T> {
    pub from: usize,
    pub to: usize,
    pub what: T,
}

/// Spans one after the other.
#[derive(Clone, Debug)]
pub struct Track<T>(pub Vec<Span<T>>);

impl<T> Default for Track<T> {
    fn default() -> Track<T> {
        Track(Vec::new())
    }
}

impl<T: PartialEq> Track<T> {
    /// Notes what holds after a call, which is the next one.
    fn note(&mut self, call: usize, now: Option<T>) {
        match (self.0.last_mut(), now) {
            (_, None) => {}
            (Some(last), Some(what)) if last.to == call && last.what == what => last.to = call + 1,
            (_, Some(what)) => self.0.push(Span { from: call, to: call + 1, what }),
        }
    }
}

#[derive(Clone, Debug, PartialEq, Eq)]
pub struct Holding {
    pub place: usize,
    pub id: String,
    /// The words of a drum area.
    pub area: Option<(u32, u32)>,
}

/// A packet in progress or stopping.
#[derive(Clone, Copy, Debug, PartialEq, Eq)]
pub struct Move {
    pub packet: u32,
    pub stopping: bool,
}

/// A head; or the drum, as many rows as areas were held at a time.
#[derive(Clone, Debug, Default)]
pub struct Row {
    pub name: String,
    pub holdings: Track<Holding>,
    /// Given back, and held until what moves there completes.
    pub returning: Track<()>,
    pub moves: Track<Move>,
    pub interlock: Track<()>,
    pub down: Track<()>,
    pub reserved: Track<()>,
}

/// The rows of a night.
pub struct Tracks {
    pub rows: Vec<Row>,
    /// How many calls there were. Column 0 is the fresh cell.
    pub calls: usize,
}

/// What is being drawn up.
struct Drawing {
    names: Vec<HeadName>,
    heads: Vec<Row>,
    drum: Vec<Row>,
    /// Which row of the drum the job in a place has.
    drum_rows: [Option<usize>; PLACES],
}

/// The rows of a night that began with this configuration.
pub fn tracks(configuration: &[u8], calls: &[Answered]) -> Option<Tracks> {
    let mut heads = Heads::fresh(configuration)?;
    let names: Vec<HeadName> = heads.heads.keys().copied().collect();
    let named = |(channel, unit): &HeadName| Row { name: format!("{channel:02}/{unit:02}"), ..Row::default() };
    let mut drawing =
        Drawing { heads: names.iter().map(named).collect(), names, drum: Vec::new(), drum_rows: [None; PLACES] };
    if let Some(channel) = heads.drum {
        drawing.drum.push(drum_row(channel));
    }
    drawing.note(0, &heads);
    for (number, answered) in (1..).zip(calls) {
        heads.hear(answered);
        drawing.note(number, &heads);
    }
    let rows = drawing.heads.into_iter().chain(drawing.drum).collect();
    Some(Tracks { rows, calls: calls.len() })
}

fn drum_row(channel: u32) -> Row {
    Row { name: format!("{channel:02} drum"), ..Row::default() }
}

fn holding(heads: &Heads, place: usize, area: Option<(u32, u32)>) -> Option<Holding> {
    Some(Holding { place, id: heads.job(place)?.id.clone(), area })
}

impl Drawing {
    fn note(&mut self, call: usize, heads: &Heads) {
        self.names.iter().zip(&mut self.heads).for_each(|(&name, row)| row.note_head(call, heads, name));
        (0..PLACES).for_each(|place| self.note_area(call, heads, place));
    }

    /// Notes the drum area of the job in a place, in the row that the job has.
    fn note_area(&mut self, call: usize, heads: &Heads, place: usize) {
        let area = heads.job(place).and_then(|job| job.area);
        let (Some(area), Some(channel)) = (area, heads.drum) else {
            self.drum_rows[place] = None;
            return;
        };
        let at = self.drum_rows[place].unwrap_or_else(|| self.free_drum_row(channel));
        self.drum_rows[place] = Some(at);
        let row = &mut self.drum[at];
        row.holdings.note(call, holding(heads, place, Some(area)));
        let moving = heads.moving_on_drum(place);
        row.moves.note(call, moving.map(|moving| Move { packet: moving.packet, stopping: moving.stopping }));
    }

    /// The first row of the drum that no job has, a new one if need be.
    fn free_drum_row(&mut self, channel: u32) -> usize {
        let is_free = |at: &usize| !self.drum_rows.contains(&Some(*at));
        let at = (0..).find(is_free).unwrap_or_default();
        if at == self.drum.len() {
            self.drum.push(drum_row(channel));
        }
        at
    }
}

impl Row {
    fn note_head(&mut self, call: usize, heads: &Heads, name: HeadName) {
        let Some(head) = heads.heads.get(&name) else { return };
        let holder = head.holder;
        self.holdings.note(call, holder.and_then(|place| holding(heads, place, None)));
        self.returning.note(call, head.returning.then_some(()));
        let moving = heads.moving_at(name).filter(|_| holder.is_some());
        self.moves.note(call, moving.map(|moving| Move { packet: moving.packet, stopping: moving.stopping }));
        self.interlock.note(call, (head.interlock && holder.is_some()).then_some(()));
        self.down.note(call, head.down.then_some(()));
        self.reserved.note(call, head.reserved.then_some(()));
    }

    /// The calls at which something of the row changes.
    pub fn changes(&self) -> impl Iterator<Item = usize> + '_ {
        let held = self.holdings.0.iter().flat_map(|span| [span.from, span.to]);
        let moved = self.moves.0.iter().flat_map(|span| [span.from, span.to]);
        let others = [&self.returning, &self.interlock, &self.down, &self.reserved];
        held.chain(moved).chain(others.into_iter().flat_map(|track| &track.0).flat_map(|span| [span.from, span.to]))
    }
}
