//! The executive of one cell in ordinary Rust: requests, schedule, selection, assignment, channel request lists and
//! keyboard messages.
//!
//! Written from the requirements ("document 01", and the requests of "document 02" that have landed) and the settled
//! points alone, and not from the proved code, so that the two can be compared. Octal numbers are written as such
//! (`0o23`).

pub mod assign;
pub mod card;
pub mod cards;
pub mod cell;
pub mod configuration;
pub mod deck;
pub mod desk;
pub mod fields;
pub mod functions;
pub mod further;
pub mod keyboard;
pub mod numbers;
pub mod schedule;
pub mod shift;

pub use numbers::Refusal;
