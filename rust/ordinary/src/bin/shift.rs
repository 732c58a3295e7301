//! The cell as a co-process: a configuration on standard input, then calls, each answered as soon as its line has come.

use std::io::{self, BufRead, Write};

use ordinary::configuration::Configuration;
use ordinary::shift::{bad_configuration, Shift};

fn main() -> io::Result<()> {
    let mut input = io::stdin().lock();
    let mut output = io::stdout().lock();
    let mut next_line = || -> io::Result<Option<Vec<u8>>> {
        let mut line = Vec::new();
        Ok((input.read_until(b'\n', &mut line)? > 0).then_some(line))
    };

    let configuration = match Configuration::from_lines(|| next_line().ok().flatten()) {
        Ok(configuration) => configuration,
        Err(line) => return output.write_all(bad_configuration(line).as_bytes()),
    };
    let mut shift = Shift::new(configuration);
    while let Some(line) = next_line()? {
        match line.strip_suffix(b"\n") {
            Some(line) => output.write_all(&shift.answer_line(line))?,
            None => return output.write_all(&shift.finish(&line)),
        }
        output.flush()?;
    }
    output.write_all(&shift.finish(b""))
}
