//! The proved functions that `native.sh` exports. A slice is its pointer and its length, an array its pointer, a
//! `bool` is a `bool`.

/// The room for a deck's text.
pub type Room = [u8; 53_248];

#[cfg(proved)]
mod native {
    use super::Room;

    extern "C" {
        fn luffgravel_deck(deck: *const u8, length: usize, out: *mut u8) -> usize;
        fn luffgravel_listing(config: *const u8, length: usize, out: *mut u8, room: usize) -> usize;
        fn luffgravel_is_down(config: *const u8, length: usize, channel: u8, unit: u8, at: usize) -> bool;
        fn luffgravel_fresh(config: *const u8, length: usize, place: u8, packet: u8, marks: bool) -> bool;
        fn luffgravel_turns(
            config: *const u8,
            length: usize,
            deck: *const u8,
            deck_length: usize,
            listed: u8,
            turned: bool,
        ) -> bool;
        fn luffgravel_cell_turns(
            config: *const u8,
            length: usize,
            deck: *const u8,
            deck_length: usize,
            listed: u8,
            turned: bool,
        ) -> bool;
        fn luffgravel_selections(
            config: *const u8,
            length: usize,
            deck: *const u8,
            deck_length: usize,
            late: bool,
            hundred: bool,
        ) -> bool;
        fn luffgravel_entries(
            deck: *const u8,
            deck_length: usize,
            further: *const u8,
            further_length: usize,
            hundred: bool,
        ) -> bool;
    }

    // SAFETY, for all of these: the proved functions read and write within the slices that they are lent, and keep
    // none.

    pub fn deck(deck: &[u8], out: &mut Room) -> usize {
        unsafe { luffgravel_deck(deck.as_ptr(), deck.len(), out.as_mut_ptr()) }
    }

    pub fn listing(config: &[u8], out: &mut [u8]) -> usize {
        unsafe { luffgravel_listing(config.as_ptr(), config.len(), out.as_mut_ptr(), out.len()) }
    }

    pub fn is_down(config: &[u8], channel: u8, unit: u8) -> bool {
        let at = usize::from(channel) * 16 + usize::from(unit);
        unsafe { luffgravel_is_down(config.as_ptr(), config.len(), channel, unit, at) }
    }

    pub fn fresh(config: &[u8], place: u8, packet: u8, marks: bool) -> bool {
        unsafe { luffgravel_fresh(config.as_ptr(), config.len(), place, packet, marks) }
    }

    pub fn turns(config: &[u8], deck: &[u8], listed: u8, turned: bool) -> bool {
        unsafe { luffgravel_turns(config.as_ptr(), config.len(), deck.as_ptr(), deck.len(), listed, turned) }
    }

    pub fn cell_turns(config: &[u8], deck: &[u8], listed: u8, turned: bool) -> bool {
        unsafe { luffgravel_cell_turns(config.as_ptr(), config.len(), deck.as_ptr(), deck.len(), listed, turned) }
    }

    pub fn selections(config: &[u8], deck: &[u8], late: bool, hundred: bool) -> bool {
        unsafe { luffgravel_selections(config.as_ptr(), config.len(), deck.as_ptr(), deck.len(), late, hundred) }
    }

    pub fn entries(deck: &[u8], further: &[u8], hundred: bool) -> bool {
        unsafe { luffgravel_entries(deck.as_ptr(), deck.len(), further.as_ptr(), further.len(), hundred) }
    }
}

#[cfg(proved)]
pub use native::*;

/// Are the proved functions linked?
pub const LINKED: bool = cfg!(proved);

/// Stand-ins where they are not; the bench then does not call them.
#[cfg(not(proved))]
mod absent {
    use super::Room;

    const ABSENT: &str = "the proved functions are not linked";

    pub fn deck(_: &[u8], _: &mut Room) -> usize {
        unreachable!("{ABSENT}")
    }

    pub fn listing(_: &[u8], _: &mut [u8]) -> usize {
        unreachable!("{ABSENT}")
    }

    pub fn is_down(_: &[u8], _: u8, _: u8) -> bool {
        unreachable!("{ABSENT}")
    }

    pub fn fresh(_: &[u8], _: u8, _: u8, _: bool) -> bool {
        unreachable!("{ABSENT}")
    }

    pub fn turns(_: &[u8], _: &[u8], _: u8, _: bool) -> bool {
        unreachable!("{ABSENT}")
    }

    pub fn cell_turns(_: &[u8], _: &[u8], _: u8, _: bool) -> bool {
        unreachable!("{ABSENT}")
    }

    pub fn selections(_: &[u8], _: &[u8], _: bool, _: bool) -> bool {
        unreachable!("{ABSENT}")
    }

    pub fn entries(_: &[u8], _: &[u8], _: bool) -> bool {
        unreachable!("{ABSENT}")
    }
}

#[cfg(not(proved))]
pub use absent::*;
