//! Reads a deck on standard input and prints its requests as cards are written, with their parameter tables.

use std::io::{self, Read, Write};

fn main() -> io::Result<()> {
    let mut deck = Vec::new();
    io::stdin().read_to_end(&mut deck)?;
    io::stdout().write_all(ordinary::cards::report(&deck).as_bytes())
}
