//! Reads a configuration on standard input and prints the assignable units of each channel in the fresh cell.

use std::io::{self, Read, Write};

fn main() -> io::Result<()> {
    let mut text = Vec::new();
    io::stdin().read_to_end(&mut text)?;
    io::stdout().write_all(ordinary::configuration::listing(&text).as_bytes())
}
