//! Reads a deck on standard input into an empty schedule and prints errors, schedule and last good ID.

use std::io::{self, Read, Write};

fn main() -> io::Result<()> {
    let mut deck = Vec::new();
    io::stdin().read_to_end(&mut deck)?;
    io::stdout().write_all(ordinary::deck::report(&deck).as_bytes())
}
