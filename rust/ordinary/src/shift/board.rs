//! The board of a cell.

use std::fmt::Write;

use crate::assign::{ASSIGNABLE_CORE, CORE};
use crate::cell::{Cell, PacketName};
use crate::numbers::UnitNumber;
use crate::schedule::State;

/// Everything, for a reader at three in the morning.
pub fn board(cell: &Cell) -> String {
    let mut board = String::new();
    write_board(cell, &mut board).expect("writing to a string");
    board
}

fn write_board(cell: &Cell, board: &mut String) -> std::fmt::Result {
    for (place, job) in cell.jobs() {
        let word = if job.end.is_none() { "RUNS" } else { "CLOSES" };
        writeln!(board, "PLACE {place} {} {word}", job.id)?;
    }
    for (number, channel) in cell.configuration().channels() {
        for unit in (0..channel.unit_count()).map(UnitNumber) {
            let state = cell.unit(number, unit);
            if state.is_assignable() {
                continue;
            }
            write!(board, "UNIT {:02}/{:02}", number.0, unit.0)?;
            if let Some(place) = state.holder {
                write!(board, " HELD {place}")?;
            }
            let locked = state.interlock && state.holder.is_some();
            let words = [
                (state.returning, "RETURNING"),
                (state.down, "DOWN"),
                (state.reserved, "RESERVED"),
                (locked, "LOCKED"),
            ];
            for (_, word) in words.into_iter().filter(|(holds, _)| *holds) {
                write!(board, " {word}")?;
            }
            writeln!(board)?;
        }
    }
    let block = |block| match cell.core_holder(block) {
        Some(place) => char::from_digit(place as u32, 36).map_or('?', |digit| digit.to_ascii_uppercase()),
        None if ASSIGNABLE_CORE.contains(&block) => '.',
        None => 'X',
    };
    writeln!(board, "CORE {}", CORE.map(block).collect::<String>())?;
    for (area, place) in cell.drum_areas() {
        writeln!(board, "DRUM {}-{} {place}", area.start, area.end - 1)?;
    }
    for (number, _) in cell.configuration().channels() {
        if let Some(PacketName { place, packet }) = cell.moving(number) {
            writeln!(board, "MOVES {:02} {place} {packet}", number.0)?;
        }
    }
    for (channel, PacketName { place, packet }) in cell.listed() {
        writeln!(board, "LISTED {:02} {place} {packet}", channel.0)?;
    }
    for scheduled in cell.schedule().requests() {
        let word = match scheduled.state {
            State::Waiting => "WAITS",
            State::Suspended => "SUSPENDED",
            State::Running(_) => "RUNS",
            State::Closing(_) => "CLOSES",
        };
        writeln!(board, "{} {} {word}", scheduled.request.id, scheduled.request.priority)?;
    }
    writeln!(board, "END OF BOARD")
}
