//! A journal beneath the shift program, so that a night is not lost, and can be looked at.
//!
//! What decides stays in the proved program: this library hands its lines on, keeps them with their answers, and plays
//! them back.

pub mod calls;
pub mod checking;
pub mod clock;
pub mod commands;
pub mod heads;
pub mod help;
pub mod journal;
pub mod json;
pub mod log;
pub mod moment;
pub mod process;
pub mod replay;
pub mod run;
mod sheets;
pub mod stack;
pub mod standing;
mod state;
pub mod store;
mod sum;
pub mod svg;
mod terminal;
pub mod time;
pub mod tracks;
mod watch;
pub mod who;
pub mod words;
