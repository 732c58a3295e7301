//! What the tests share: folders, the programs, a night that is spoken to, and random nights with what is due.

use std::io::{Read, Write};
use std::path::{Path, PathBuf};
use std::process::{Child, ChildStdin, ChildStdout, Command, Output, Stdio};
use std::sync::{Once, OnceLock};
use std::time::Duration;

use ordinary::configuration::Configuration;
use ordinary::shift::Shift;

use crate::random::Random;
use crate::scripts;

/// How long all tests together may take; on a busy machine they took a minute.
const PATIENCE: Duration = Duration::from_secs(900);

/// A proved program as the kit has built it.
fn built(name: &str) -> PathBuf {
    Path::new(env!("CARGO_MANIFEST_DIR")).join("../../crates").join(name).join("out").join(name)
}

/// The proved shift program. There is no other to fall back on: without it a test fails.
pub fn program() -> PathBuf {
    let program = std::env::var_os("LUFFGRAVEL_SHIFT").map_or_else(|| built("shift"), PathBuf::from);
    assert!(
        program.is_file(),
        "{} is not there: build it with ./run shift, or set LUFFGRAVEL_SHIFT",
        program.display()
    );
    program
}

/// The folder of the proved programs: that of the shift program that is named, or one with links to those of the kit.
pub fn programs() -> PathBuf {
    static FOLDER: OnceLock<PathBuf> = OnceLock::new();
    if let Some(shift) = std::env::var_os("LUFFGRAVEL_SHIFT") {
        return Path::new(&shift).parent().unwrap().to_path_buf();
    }
    let gather = || {
        let folder = folder("programs");
        for name in ["listing", "deck", "cards", "desk", "shift"] {
            assert!(built(name).is_file(), "{} is not there: build it with ./run {name}", built(name).display());
            std::os::unix::fs::symlink(built(name), folder.join(name)).unwrap();
        }
        folder
    };
    FOLDER.get_or_init(gather).clone()
}

/// Runs `night` with these words.
pub fn night(words: &[&str]) -> Output {
    let mut command = Command::new(env!("CARGO_BIN_EXE_night"));
    command.args(words).env_remove("NIGHT_JOURNAL").stdin(Stdio::null()).output().unwrap()
}

/// An empty folder of this name.
pub fn folder(name: &str) -> PathBuf {
    let folder = Path::new(env!("CARGO_TARGET_TMPDIR")).join(name);
    let _ = std::fs::remove_dir_all(&folder);
    std::fs::create_dir_all(&folder).unwrap();
    folder
}

/// Ends the tests where a night does not answer at all.
fn lose_patience() {
    static WATCH: Once = Once::new();
    WATCH.call_once(|| {
        std::thread::spawn(|| {
            std::thread::sleep(PATIENCE);
            eprintln!("the tests have not ended within {PATIENCE:?}: a night does not answer");
            std::process::exit(1);
        });
    });
}

/// What a program said on standard error.
pub fn said(output: &Output) -> String {
    String::from_utf8_lossy(&output.stderr).into_owned()
}

/// A folder with a configuration in it, and the command that runs a night there.
pub struct Place {
    pub folder: PathBuf,
    pub program: PathBuf,
}

impl Place {
    pub fn new(name: &str, configuration: &[u8]) -> Place {
        lose_patience();
        let folder = folder(name);
        std::fs::write(folder.join("configuration"), configuration).unwrap();
        Place { folder, program: program() }
    }

    pub fn journal(&self) -> PathBuf {
        self.folder.join("journal")
    }

    /// What stands beside the journal under its name and this.
    pub fn beside(&self, end: &str) -> PathBuf {
        self.folder.join(format!("journal{end}"))
    }

    /// Sets the clock: what the system's shows, and what has passed, in milliseconds.
    pub fn set_clock(&self, system: u64, passed: u64) {
        std::fs::write(self.folder.join("clock"), format!("{system} {passed}")).unwrap();
    }

    pub fn journal_bytes(&self) -> Vec<u8> {
        std::fs::read(self.journal()).unwrap()
    }

    pub fn command(&self) -> Command {
        let mut command = Command::new(env!("CARGO_BIN_EXE_night"));
        command.arg("run").arg("--journal").arg(self.journal()).arg("--shift").arg(&self.program);
        command.arg(self.folder.join("configuration"));
        // Where this file is not there, the clock is the system's.
        command.env("NIGHT_TEST_CLOCK", self.folder.join("clock"));
        command.stdin(Stdio::piped()).stdout(Stdio::piped()).stderr(Stdio::piped());
        command
    }

    /// Runs a whole night on this input.
    pub fn run(&self, input: &[u8]) -> Output {
        let mut child = self.command().spawn().unwrap();
        let mut stdin = child.stdin.take().unwrap();
        let input = input.to_vec();
        // A night that refuses to start does not read.
        let writer = std::thread::spawn(move || stdin.write_all(&input).is_ok());
        let output = child.wait_with_output().unwrap();
        writer.join().unwrap();
        let said = String::from_utf8_lossy(&output.stderr);
        assert!(output.status.code().is_some_and(|code| code < 2) && !said.contains("panic"), "{said}");
        output
    }

    /// A night that ends well.
    pub fn answers(&self, input: &[u8]) -> Vec<u8> {
        let output = self.run(input);
        assert!(output.status.success(), "{}", String::from_utf8_lossy(&output.stderr));
        output.stdout
    }

    /// A night that is refused, by a message with these words and before anything is answered.
    pub fn is_refused(&self, words: &str) {
        let output = self.run(b"BOARD\n");
        let said = String::from_utf8_lossy(&output.stderr).into_owned();
        assert!(!output.status.success() && said.contains(words), "not refused by \"{words}\": {said}");
        assert_eq!(String::from_utf8_lossy(&output.stdout), "");
    }

    pub fn start(&self) -> Running {
        let said = self.folder.join("said");
        let mut child = self.command().stderr(std::fs::File::create(&said).unwrap()).spawn().unwrap();
        let (input, output) = (child.stdin.take(), child.stdout.take().unwrap());
        Running { child, input, output, said }
    }
}

/// A night that is spoken to.
pub struct Running {
    pub child: Child,
    pub input: Option<ChildStdin>,
    pub output: ChildStdout,
    /// What it says on standard error.
    said: PathBuf,
}

impl Running {
    pub fn send(&mut self, text: &[u8]) {
        self.input.as_mut().unwrap().write_all(text).unwrap();
    }

    pub fn said(&self) -> String {
        std::fs::read_to_string(&self.said).unwrap()
    }

    /// Waits for an answer of this length, while the input stays open.
    pub fn answer(&mut self, length: usize) -> Vec<u8> {
        let mut answer = vec![0; length];
        let read = self.output.read_exact(&mut answer);
        assert!(read.is_ok(), "no answer: {}", std::fs::read_to_string(&self.said).unwrap());
        answer
    }

    /// Kills the night and answers what it had given out.
    pub fn kill(mut self) -> Vec<u8> {
        self.child.kill().unwrap();
        let mut given = Vec::new();
        self.output.read_to_end(&mut given).unwrap();
        self.child.wait().unwrap();
        given
    }

    /// The end of the input: the night ends well and answers nothing more.
    pub fn finish(mut self) {
        self.input = None;
        let mut given = Vec::new();
        self.output.read_to_end(&mut given).unwrap();
        assert_eq!(given, b"");
        assert!(self.child.wait().unwrap().success());
    }
}

/// A line or a deck, what is due to it, and the ordinary cell after it.
pub struct Step {
    pub text: Vec<u8>,
    pub due: Vec<u8>,
    /// It is a call, and one that does not only ask.
    pub is_kept: bool,
    pub after: Shift,
}

/// A random night of whole lines and decks.
pub struct Script {
    pub configuration: Vec<u8>,
    pub fresh: Shift,
    pub steps: Vec<Step>,
}

pub fn script(seed: u64, calls: usize) -> Script {
    let mut random = Random::new(seed);
    loop {
        let pieces = scripts::script(&mut random, calls).pieces;
        let mut lines = pieces[0].split_inclusive(|&byte| byte == b'\n');
        let Ok(read) = Configuration::from_lines(|| lines.next()) else { continue };
        let mut shift = Shift::new(read);
        let fresh = shift.clone();
        // The last piece may be one that is not whole.
        let whole = pieces[1..].iter().filter(|piece| piece.ends_with(b"\n")).map(|piece| step(&mut shift, piece));
        let steps = whole.take_while(|step| !step.due.is_empty()).collect();
        return Script { configuration: pieces[0].clone(), fresh, steps };
    }
}

fn step(shift: &mut Shift, piece: &[u8]) -> Step {
    let lines = piece.split_inclusive(|&byte| byte == b'\n');
    let due: Vec<u8> = lines.flat_map(|line| shift.answer_line(&line[..line.len() - 1])).collect();
    let asks = [&b"BOARD"[..], b"STATUS"].contains(&piece.split(|byte| b" \n".contains(byte)).next().unwrap());
    let is_kept = due != b"??\n" && due != piece && !asks;
    Step { text: piece.to_vec(), due, is_kept, after: shift.clone() }
}
