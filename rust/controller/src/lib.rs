//! The proved functions of the crate `controller` (crates/controller at the repository's top), behind safe Rust.
//!
//! They are linked from libcontroller.a, which is what `rt lib` writes in crates/controller_c. What each promises is
//! proved of the function itself; that it is declared here as it is exported there is not, and stands on this file,
//! docs/LINKING.md and the tests.

#![no_std]

use core::num::NonZeroUsize;

/// Room that holds every listing whole.
pub const LISTING_ROOM: usize = 96;
/// The room that is lent for the report of a deck: it holds every one.
pub const DECK_ROOM: usize = 53_248;

mod exported {
    extern "C" {
        pub fn luffgravel_listing(config: *const u8, length: usize, out: *mut u8, room: usize) -> usize;
        pub fn luffgravel_deck(deck: *const u8, length: usize, out: *mut [u8; super::DECK_ROOM]) -> usize;
        pub fn luffgravel_desk(
            id: *const u8,
            id_length: usize,
            repair: *const u8,
            repair_length: usize,
            day: *const u8,
            day_length: usize,
            deck: *mut u8,
            from: *mut usize,
            length: *mut usize,
        ) -> u8;
        pub fn luffgravel_bad_line(config: *const u8, length: usize) -> usize;
        pub fn luffgravel_is_legal(first: u8, second: u8, function: u8) -> bool;
        pub fn luffgravel_core(taken: u32, ib: u32, db: u32, i: *mut u32, j: *mut u32) -> bool;
    }
}

// SAFETY, for all of these: a Rust slice or reference is what the exported function's parameter is, never null, valid
// for its length, and a `&mut` overlaps nothing else that is lent. The proved functions read and write within what
// they are lent, keep none of it and end.

/// Puts the listing of a configuration into lent room and answers its length. A room that is too short gets what fits;
/// every byte behind it is kept.
pub fn listing_into(config: &[u8], room: &mut [u8]) -> usize {
    unsafe { exported::luffgravel_listing(config.as_ptr(), config.len(), room.as_mut_ptr(), room.len()) }
}

/// The listing of a configuration, whole.
pub fn listing<'a>(config: &[u8], room: &'a mut [u8; LISTING_ROOM]) -> &'a [u8] {
    let length = listing_into(config, room);
    &room[..length]
}

/// What the deck program prints, whole, at the start of the lent room; every byte behind it is kept.
pub fn deck<'a>(deck: &[u8], room: &'a mut [u8; DECK_ROOM]) -> &'a [u8] {
    let length = unsafe { exported::luffgravel_deck(deck.as_ptr(), deck.len(), room) };
    &room[..length]
}

/// The deck that has a request's cards.
#[derive(Clone, Copy, Debug, PartialEq, Eq)]
pub enum Deck {
    Repair,
    Day,
}

/// A request's own cards in the deck that has them.
#[derive(Clone, Copy, Debug, PartialEq, Eq)]
pub struct Shown<'a> {
    pub deck: Deck,
    /// The byte of that deck where they begin.
    pub from: usize,
    /// The cards themselves, the last one's LF included: that part of the deck, not a copy.
    pub cards: &'a [u8],
}

/// The cards of the first group with that ID, from the repair deck if it has one, else from the day's deck; or the
/// refusal, 11 for a bad deck, whichever it is, and 22 if there is no such group.
pub fn desk<'a>(id: &[u8], repair: &'a [u8], day: &'a [u8]) -> Result<Shown<'a>, u8> {
    let (mut deck, mut from, mut length) = (0, 0, 0);
    let refusal = unsafe {
        exported::luffgravel_desk(
            id.as_ptr(),
            id.len(),
            repair.as_ptr(),
            repair.len(),
            day.as_ptr(),
            day.len(),
            &mut deck,
            &mut from,
            &mut length,
        )
    };
    match (refusal, deck) {
        (0, 1) => Ok(Shown { deck: Deck::Repair, from, cards: &repair[from..][..length] }),
        (0, _) => Ok(Shown { deck: Deck::Day, from, cards: &day[from..][..length] }),
        _ => Err(refusal),
    }
}

/// The first bad or missing line of a text, counted from 1; none if the text is a configuration.
pub fn bad_line(config: &[u8]) -> Option<NonZeroUsize> {
    NonZeroUsize::new(unsafe { exported::luffgravel_bad_line(config.as_ptr(), config.len()) })
}

/// Whether a function code is legal on channels of a kind, which goes by its code, as `*b"MT"`. None is on letters
/// that are no kind's.
pub fn is_legal(kind: [u8; 2], function: u8) -> bool {
    unsafe { exported::luffgravel_is_legal(kind[0], kind[1], function) }
}

/// The starts of a job's two runs of blocks; that of the DB is 0 if none was asked for.
#[derive(Clone, Copy, Debug, PartialEq, Eq)]
pub struct Starts {
    pub ib: u32,
    pub db: u32,
}

/// The lowest IB start, and for it the lowest DB start, at which the blocks are free and apart. A set bit of the word
/// is a taken block.
pub fn core_starts(taken: u32, ib: u32, db: u32) -> Option<Starts> {
    let mut starts = Starts { ib: 0, db: 0 };
    let found = unsafe { exported::luffgravel_core(taken, ib, db, &mut starts.ib, &mut starts.db) };
    found.then_some(starts)
}
