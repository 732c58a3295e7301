//! Random input for the programs, each made from a seed, and the comparison of the ordinary implementation with the
//! proved programs on it, to the byte.

mod codes;
pub mod comparison;
mod configurations;
mod decks;
mod desks;
mod further;
mod kinds;
mod lacks;
mod messages;
mod programs;
pub mod random;
mod reduce;
mod returns;
pub mod scripts;
pub mod subject;
mod tally;
