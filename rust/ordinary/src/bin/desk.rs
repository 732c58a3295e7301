//! Two decks on standard input, and then IDs: each is answered with its request's cards as soon as its line has come.

use std::io::{self, BufRead, Write};

use ordinary::desk::Desk;

fn main() -> io::Result<()> {
    let mut input = io::stdin().lock();
    let mut output = io::stdout().lock();
    let mut desk = Desk::default();
    loop {
        let mut line = Vec::new();
        input.read_until(b'\n', &mut line)?;
        match line.strip_suffix(b"\n") {
            Some(line) => output.write_all(&desk.answer_line(line))?,
            // Only the last line has no LF; it is empty if the input ended with one.
            None => return output.write_all(&desk.finish(&line)),
        }
        output.flush()?;
    }
}
