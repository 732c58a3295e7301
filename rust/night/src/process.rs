//! The shift program as a process: started on a configuration, handed calls, asked for their answers.

use std::io::{self, BufRead, BufReader, Read, Write};
use std::path::Path;
use std::process::{Child, ChildStdin, ChildStdout, Command, ExitStatus, Stdio};

use crate::calls::Call;

/// Calls are handed over together up to this many bytes. A pipe takes as much at once, so that nobody waits for the
/// other to read.
const TOGETHER: usize = 4096;
/// More than any answer has, so that a program that is not the shift cannot fill the memory.
const ANSWER_ROOM: u64 = 1 << 22;

/// So often may the program die on the same line.
pub const DEATHS: usize = 3;

pub struct Process {
    child: Child,
    input: Option<ChildStdin>,
    output: BufReader<ChildStdout>,
}

/// The line that is sent behind a call whose answer may have several lines. It is echoed, so that its echo ends the
/// answer, and it is never what the call itself may echo.
fn behind(call: &Call) -> &'static [u8] {
    if call.has_line() {
        b""
    } else if call.text == b"\n" {
        b"#\n"
    } else {
        b"\n"
    }
}

/// How many of the calls, one at least, are handed over together.
pub fn together(calls: &[Call]) -> usize {
    let mut length = 0;
    let fits = |call: &&Call| {
        length += call.text.len() + behind(call).len();
        length <= TOGETHER && !call.open
    };
    calls.iter().take_while(fits).count().max(1)
}

impl Process {
    /// Starts the program and hands it the configuration.
    pub fn start(program: &Path, configuration: &[u8]) -> Result<Process, String> {
        let mut child = Command::new(program)
            .stdin(Stdio::piped())
            .stdout(Stdio::piped())
            .spawn()
            .map_err(|error| format!("{} cannot be started: {error}", program.display()))?;
        let (input, output) = (child.stdin.take(), child.stdout.take());
        let output = output.ok_or("a program without an output")?;
        let mut process = Process { child, input, output: BufReader::with_capacity(1 << 16, output) };
        // A program that is gone by now is met when it is asked.
        let _ = process.write(configuration);
        Ok(process)
    }

    fn write(&mut self, bytes: &[u8]) -> io::Result<()> {
        self.input.as_mut().ok_or(io::ErrorKind::BrokenPipe)?.write_all(bytes)
    }

    /// Hands over calls, as many as go together. Where the program is gone, its answers will not come.
    pub fn send(&mut self, calls: &[Call]) {
        let mut text = Vec::new();
        for call in calls {
            text.extend_from_slice(&call.text);
            text.extend_from_slice(behind(call));
        }
        let is_open = calls.last().is_some_and(|call| call.open);
        let sent = if is_open { self.write(&calls[0].text) } else { self.write(&text) };
        if is_open || sent.is_err() {
            // Such a deck is answered at the end of the program's input.
            self.input = None;
        }
    }

    /// The answer to the next call that was handed over, or `None` if the program has died.
    pub fn answer(&mut self, call: &Call) -> Option<Vec<u8>> {
        let mut answer = Vec::new();
        if call.open {
            let read = self.output.by_ref().take(ANSWER_ROOM).read_to_end(&mut answer);
            return (read.is_ok() && answer.ends_with(b"\n")).then_some(answer);
        }
        loop {
            let start = answer.len();
            let mut output = self.output.by_ref().take(ANSWER_ROOM - start as u64);
            let read = output.read_until(b'\n', &mut answer);
            if !matches!(read, Ok(1..)) || answer.last() != Some(&b'\n') {
                return None;
            }
            if call.has_line() {
                return Some(answer);
            }
            if &answer[start..] == behind(call) {
                answer.truncate(start);
                return Some(answer);
            }
        }
    }

    /// Ends the program, if it has not ended, and says how it did.
    pub fn end(mut self) -> Option<ExitStatus> {
        self.input = None;
        let _ = self.child.kill();
        self.child.wait().ok()
    }
}

/// What the program says of a whole text that is its input, or `None` if it did not end well.
fn said_once(program: &Path, text: &[u8]) -> Result<Option<Vec<u8>>, String> {
    let mut process = Process::start(program, text)?;
    process.input = None;
    let mut said = Vec::new();
    let read = process.output.by_ref().take(ANSWER_ROOM).read_to_end(&mut said);
    read.map_err(|error| format!("{}: {error}", program.display()))?;
    if said.len() as u64 == ANSWER_ROOM {
        process.end();
        return Ok(None);
    }
    let status = process.child.wait().map_err(|error| format!("{}: {error}", program.display()))?;
    Ok(status.success().then_some(said))
}

/// What the program says of a text. It may die twice.
fn said(program: &Path, text: &[u8]) -> Result<Vec<u8>, String> {
    for _ in 0..DEATHS {
        if let Some(said) = said_once(program, text)? {
            return Ok(said);
        }
    }
    Err(format!("{} died {DEATHS} times on the configuration", program.display()))
}

/// Asks the program whether a text is a configuration and nothing else; if not, what it says of it is answered.
pub fn refusal(program: &Path, text: &[u8]) -> Result<Option<Vec<u8>>, String> {
    let lines: Vec<&[u8]> = text.split_inclusive(|&byte| byte == b'\n').collect();
    // A line to be echoed behind the configuration, which is none of its own.
    let unlike = |line: &Vec<u8>| !lines.contains(&&line[..]);
    let echo = (0..).map(|number| format!("#{number}\n").into_bytes()).find(unlike).unwrap_or_default();
    let answer = said(program, &[text, &echo].concat())?;
    if answer == echo {
        return Ok(None);
    }
    if answer.starts_with(b"ER 14 LINE ") {
        return Ok(Some(answer));
    }
    // The program takes what follows a configuration for calls, but here nothing may follow: the first line too many
    // is the bad one.
    for count in 1..lines.len() {
        if said(program, &[&lines[..count].concat(), &echo[..]].concat())? == echo {
            return Ok(Some(format!("ER 14 LINE {}\n", count + 1).into_bytes()));
        }
    }
    Err(format!("{} does not answer as the shift program does", program.display()))
}
