//! Nights with the real programs: killed, damaged, on a full disk, with any bytes, and compared with the ordinary
//! cell.
//!
//! They need the proved programs: `crates/NAME/out/NAME` at the top (`./run NAME` builds it), or the shift program that
//! `LUFFGRAVEL_SHIFT` names with the others beside it.

use compare::{random, scripts};

mod any_bytes;
mod asked;
mod checked;
mod disk;
mod foreign;
mod kills;
mod looked_at;
mod picture;
mod recovery;
mod start;
mod support;
mod terminal;
mod torn;
mod words;
