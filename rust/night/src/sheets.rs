//! How a night is laid out on sheets of A4: which calls and rows go on which sheet, and how wide each call is drawn.
//!
//! A call at which something changes is drawn wider than one that only asks or is refused, and every bar is as wide as
//! its job's ID needs. So no text is ever smaller than seven points on a sheet.

use std::ops::Range;

use crate::tracks::{Row, Tracks};

/// All lengths are millimetres.
pub const WIDTH: f64 = 297.0;
pub const HEIGHT: f64 = 210.0;
pub const LEFT: f64 = 26.0;
pub const RIGHT: f64 = 15.0;
pub const TOP: f64 = 28.0;
pub const BOTTOM: f64 = 14.0;
pub const ROW: f64 = 7.0;
/// A little over seven points.
pub const TEXT: f64 = 2.6;
/// What a character takes at most, in a fixed pitch.
pub const CHARACTER: f64 = 1.6;
/// A picture with a few calls is not wider than this for each.
const WIDEST: f64 = 13.0;
const CHANGING: f64 = 2.2;
const UNCHANGING: f64 = 0.5;

/// Some calls, for some rows.
pub struct Sheet {
    pub calls: Range<usize>,
    pub rows: Range<usize>,
    /// Where each of the calls begins, and where the last one ends.
    pub edges: Vec<f64>,
}

impl Sheet {
    /// Where a call begins, cut off at the sheet's edges.
    pub fn edge(&self, call: usize) -> f64 {
        LEFT + self.edges[call.clamp(self.calls.start, self.calls.end) - self.calls.start]
    }
}

/// What the text of this length takes.
pub fn text_width(text: &str) -> f64 {
    text.chars().count() as f64 * CHARACTER
}

/// The room that a bar with this ID needs.
pub fn label_width(id: &str) -> f64 {
    text_width(id) + 1.2
}

/// The sheets of these calls of a night, 0 being the fresh cell; all have the same size.
pub fn sheets(tracks: &Tracks, calls: Range<usize>) -> Vec<Sheet> {
    let mut columns = columns(tracks, calls);
    if let [(_, edges)] = &mut columns[..] {
        stretch(edges);
    }
    let rows_of_sheet = ((HEIGHT - TOP - BOTTOM) / ROW) as usize;
    let mut sheets = Vec::new();
    for (calls, edges) in columns {
        let starts = (0..tracks.rows.len().max(1)).step_by(rows_of_sheet);
        let rows = starts.map(|start| start..(start + rows_of_sheet).min(tracks.rows.len()));
        sheets.extend(rows.map(|rows| Sheet { calls: calls.clone(), rows, edges: edges.clone() }));
    }
    sheets
}

/// A night that does not fill its sheet is drawn wider.
fn stretch(edges: &mut [f64]) {
    let end = edges.last().copied().unwrap_or_default();
    let room = (WIDTH - LEFT - RIGHT).min(WIDEST * (edges.len() - 1) as f64);
    let factor = (room / end).max(1.0);
    edges.iter_mut().for_each(|edge| *edge *= factor);
}

/// The calls of each sheet from left to right, and their edges.
fn columns(tracks: &Tracks, calls: Range<usize>) -> Vec<(Range<usize>, Vec<f64>)> {
    let widths = widths(tracks, &calls);
    let ends = ends(tracks);
    let mut columns = Vec::new();
    let mut first = calls.start;
    while first < calls.end {
        let edges = edges(first..calls.end, &widths, &ends);
        let next = first + edges.len() - 1;
        columns.push((first..next, edges));
        first = next;
    }
    columns
}

/// What each call takes at least: where there is room on one sheet, all the same.
fn widths(tracks: &Tracks, calls: &Range<usize>) -> Vec<f64> {
    let is_short = calls.len() as f64 * CHANGING <= WIDTH - LEFT - RIGHT;
    let mut widths = vec![if is_short { CHANGING } else { UNCHANGING }; tracks.calls + 1];
    for call in tracks.rows.iter().flat_map(Row::changes).filter(|&call| call <= tracks.calls) {
        widths[call] = CHANGING;
    }
    widths
}

/// For each call the holdings that end there: where they began, and the room that they need.
fn ends(tracks: &Tracks) -> Vec<Vec<(usize, f64)>> {
    let mut ends = vec![Vec::new(); tracks.calls + 2];
    for span in tracks.rows.iter().flat_map(|row| &row.holdings.0) {
        ends[span.to].push((span.from, label_width(&span.what.id)));
    }
    ends
}

/// The edges of as many calls as one sheet takes, one at least.
fn edges(calls: Range<usize>, widths: &[f64], ends: &[Vec<(usize, f64)>]) -> Vec<f64> {
    let first = calls.start;
    let mut edges = vec![0.0];
    for call in calls {
        let begins = |from: usize| edges[from.max(first) - first];
        let needed = ends[call + 1].iter().map(|&(from, room)| begins(from) + room);
        let edge = needed.fold(edges[call - first] + widths[call], f64::max);
        if edge > WIDTH - LEFT - RIGHT && call > first {
            break;
        }
        edges.push(edge);
    }
    edges
}
