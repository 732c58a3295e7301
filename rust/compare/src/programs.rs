//! The programs under comparison, run through pipes.

use std::ffi::OsString;
use std::io::{self, Read, Write};
use std::path::{Path, PathBuf};
use std::process::{Child, Command, Stdio};
use std::sync::mpsc::{self, Receiver};
use std::thread;
use std::time::Duration;

/// How long a program may be silent.
const PATIENCE: Duration = Duration::from_secs(20);

#[derive(Clone)]
pub struct Program {
    command: Vec<OsString>,
}

/// What a program wrote, and what was wrong with its end, if anything was.
#[derive(PartialEq, Eq)]
pub struct Outcome {
    pub output: Vec<u8>,
    pub fault: Option<String>,
}

impl Program {
    pub fn new(command: Vec<OsString>) -> Program {
        Program { command }
    }

    /// A proved program of the repository, started as its `run` script does, without the script's own time.
    pub fn proved(name: &str) -> Result<Program, String> {
        let repository = Path::new(env!("CARGO_MANIFEST_DIR")).join("../..");
        let program = repository.join("crates").join(name).join("out").join(name);
        if !program.is_file() {
            return Err(format!("{} is not there: build it with ./run {name}", program.display()));
        }
        let libraries = kit()?.join("toolchain/lib");
        let loader = libraries.join("ld-linux-x86-64.so.2");
        Ok(Program { command: vec![loader.into(), "--library-path".into(), libraries.into(), program.into()] })
    }

    /// Hands over the whole input and takes the whole output.
    pub fn run(&self, input: &[u8]) -> Outcome {
        let mut running = match self.start() {
            Ok(running) => running,
            Err(error) => return Outcome { output: Vec::new(), fault: Some(error.to_string()) },
        };
        let mut stdin = running.child.stdin.take().expect("a piped input");
        let input = input.to_vec();
        let writer = thread::spawn(move || {
            // A program that has seen enough may close its input.
            let _ = stdin.write_all(&input);
        });
        let mut output = Vec::new();
        let fault = running.read(&mut output, usize::MAX).err();
        let fault = running.end(fault);
        let _ = writer.join();
        Outcome { output, fault }
    }

    /// Hands over one line after the other, each only when the answer that is expected to the last has come, and
    /// answers all output. It breaks off where an answer is another one.
    pub fn talk(&self, conversation: &[(&[u8], Vec<u8>)]) -> Outcome {
        let mut running = match self.start() {
            Ok(running) => running,
            Err(error) => return Outcome { output: Vec::new(), fault: Some(error.to_string()) },
        };
        let mut stdin = running.child.stdin.take().expect("a piped input");
        let mut output = Vec::new();
        let mut fault = None;
        for (line, expected) in conversation {
            let mut answer = Vec::new();
            let written = stdin.write_all(line).and_then(|()| stdin.flush()).map_err(|error| error.to_string());
            fault = written.and_then(|()| running.read(&mut answer, expected.len())).err();
            output.extend(&answer);
            if fault.is_some() || answer != *expected {
                break;
            }
        }
        drop(stdin);
        if fault.is_none() {
            fault = running.read(&mut output, usize::MAX).err();
        }
        let fault = running.end(fault);
        Outcome { output, fault }
    }

    fn start(&self) -> io::Result<Running> {
        let (first, rest) = self.command.split_first().expect("a command has a word");
        let mut child = Command::new(first).args(rest).stdin(Stdio::piped()).stdout(Stdio::piped()).spawn()?;
        let mut stdout = child.stdout.take().expect("a piped output");
        let (sender, parts) = mpsc::channel();
        thread::spawn(move || {
            let mut buffer = [0; 1 << 16];
            while let Ok(length @ 1..) = stdout.read(&mut buffer) {
                if sender.send(buffer[..length].to_vec()).is_err() {
                    return;
                }
            }
        });
        Ok(Running { child, parts, rest: Vec::new() })
    }
}

struct Running {
    child: Child,
    parts: Receiver<Vec<u8>>,
    /// What came and was not asked for yet.
    rest: Vec<u8>,
}

impl Running {
    /// Reads until there is as much as is wanted, or until the program ends.
    fn read(&mut self, output: &mut Vec<u8>, wanted: usize) -> Result<(), String> {
        loop {
            let take = self.rest.len().min(wanted - output.len());
            output.extend(self.rest.drain(..take));
            if output.len() == wanted {
                return Ok(());
            }
            match self.parts.recv_timeout(PATIENCE) {
                Ok(part) => self.rest = part,
                Err(mpsc::RecvTimeoutError::Disconnected) => return Ok(()),
                Err(mpsc::RecvTimeoutError::Timeout) => return Err(format!("silent for {PATIENCE:?}")),
            }
        }
    }

    /// Waits for the end of the program, which must be a good one.
    fn end(mut self, fault: Option<String>) -> Option<String> {
        if fault.is_some() {
            let _ = self.child.kill();
        }
        let status = self.child.wait();
        fault.or_else(|| match status {
            Ok(status) if status.success() => None,
            Ok(status) => Some(status.to_string()),
            Err(error) => Some(error.to_string()),
        })
    }
}

/// The folder of the Rattle kit, from `RATTLE_HOME` or the command `rt`.
fn kit() -> Result<PathBuf, String> {
    if let Some(home) = std::env::var_os("RATTLE_HOME") {
        return Ok(home.into());
    }
    let paths = std::env::var_os("PATH").unwrap_or_default();
    let command = std::env::split_paths(&paths).map(|folder| folder.join("rt")).find(|command| command.is_file());
    let command = command
        .and_then(|command| command.canonicalize().ok())
        .ok_or("the command rt of the Rattle kit is not on PATH")?;
    Ok(command.ancestors().nth(2).map(Path::to_path_buf).unwrap_or_default())
}
