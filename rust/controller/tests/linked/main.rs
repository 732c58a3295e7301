//! The linked functions, called from Rust and from C, answer what `ordinary` answers.

mod agrees;
mod from_c;
