//! `night run`: the shift program with a journal beneath it, spoken to as the program itself.

use std::fs::File;
use std::io::{self, ErrorKind, IsTerminal, Read, Write};
use std::path::{Path, PathBuf};

use crate::calls::{Call, Gathering};
use crate::checking::foreign_text;
use crate::journal::{Answered, Format, Journal, Origin};
use crate::process::{self, Process, DEATHS};
use crate::replay::{play, revive};
use crate::standing;
use crate::store::{Opening, Store};
use crate::terminal;

/// The most calls of one record. Their answers are held back until all of them are on the disk.
const TOGETHER: usize = 256;
/// More than a configuration has: what is cut off of a longer text decides nothing.
const CONFIGURATION_ROOM: u64 = 4096;
/// So much of a torn record is shown.
const SHOWN_ROOM: usize = 2000;

pub struct Options {
    pub journal: PathBuf,
    pub configuration: PathBuf,
    pub program: PathBuf,
    pub opening: Opening,
}

/// A night that runs.
pub struct Night<W> {
    program: PathBuf,
    origin: Origin,
    configuration: Vec<u8>,
    store: Store,
    /// `None` when it has died.
    process: Option<Process>,
    output: W,
}

/// Runs a night on this input and output, up to the input's end.
pub fn run(options: &Options, input: impl Read, output: impl Write) -> Result<(), String> {
    Night::begin(options, output)?.talk(input)
}

fn read_configuration(path: &Path) -> Result<Vec<u8>, String> {
    let mut text = Vec::new();
    let read = File::open(path).and_then(|file| file.take(CONFIGURATION_ROOM).read_to_end(&mut text));
    read.map_err(|error| format!("the configuration {}: {error}", path.display()))?;
    Ok(text)
}

fn give_out(output: &mut impl Write, answers: &[u8]) -> Result<(), String> {
    let given = output.write_all(answers).and_then(|()| output.flush());
    given.map_err(|error| format!("an answer cannot be given out: {error}"))
}

impl<W: Write> Night<W> {
    /// Begins a night, or goes back to where its journal ended, and says which.
    pub fn begin(options: &Options, mut output: W) -> Result<Night<W>, String> {
        let configuration = read_configuration(&options.configuration)?;
        if let Some(refusal) = process::refusal(&options.program, &configuration)? {
            give_out(&mut output, &refusal)?;
            let why = foreign_text(&configuration).map_or(String::new(), |why| format!(": it {why}"));
            return Err(format!("{} is no configuration{why}", options.configuration.display()));
        }
        let program = options.program.clone();
        let origin = standing::origin(&program)?;
        let (store, journal, torn) = Store::open(&options.journal, options.opening)?;
        let mut night = Night { program, origin, configuration, store, process: None, output };
        night.recover(&options.journal, &journal, &torn)?;
        Ok(night)
    }

    /// Goes back to where the journal ended.
    fn recover(&mut self, path: &Path, journal: &Journal, torn: &[u8]) -> Result<(), String> {
        if journal.configuration.as_ref().is_some_and(|text| *text != self.configuration) {
            return Err(format!("the journal {} is of another configuration, and is left as it is", path.display()));
        }
        self.say_origin(path, journal);
        for _ in 0..DEATHS {
            if self.revive(&journal.calls)? {
                self.store.begin(&self.origin, &self.configuration, torn)?;
                say_torn(path, journal, torn);
                say_start(path, journal);
                return Ok(());
            }
        }
        Err(format!("{} died {DEATHS} times while the journal was played back", self.program.display()))
    }

    /// Says so where another program began the journal: its answers are compared all the same.
    fn say_origin(&self, path: &Path, journal: &Journal) {
        let Some(began) = journal.origin.filter(|began| *began != self.origin) else { return };
        let shown = |origin: &Origin| format!("sum {:016x}, script {}", origin.program, origin.script);
        let (path, began, now) = (path.display(), shown(&began), shown(&self.origin));
        eprintln!("night: {path} was begun with another shift program ({began}) than this one ({now})");
    }

    /// Starts the program and plays the journal's calls into it. Answers whether it lives.
    fn revive(&mut self, played: &[Answered]) -> Result<bool, String> {
        let (process, lives) = revive(&self.program, &self.configuration, played)?;
        self.mourn_or_keep(process, lives);
        Ok(lives)
    }

    /// Keeps a living process; of a dead one says how it died.
    fn mourn_or_keep(&mut self, process: Process, lives: bool) {
        if lives {
            self.process = Some(process);
            return;
        }
        let how = process.end().map_or("for reasons unknown".to_string(), |status| status.to_string());
        eprintln!("night: {} died ({how})", self.program.display());
    }

    /// Answers lines until the input ends.
    pub fn talk(&mut self, mut input: impl Read) -> Result<(), String> {
        let mut gathering = Gathering::default();
        let mut piece = vec![0; 1 << 16];
        loop {
            match input.read(&mut piece) {
                Ok(0) => return self.answer_all(&gathering.finish()),
                Ok(length) => self.answer_all(&gathering.take(&piece[..length]))?,
                Err(error) if error.kind() == ErrorKind::Interrupted => {}
                Err(error) => return Err(format!("the input cannot be read: {error}")),
            }
        }
    }

    pub fn answer_all(&mut self, calls: &[Call]) -> Result<(), String> {
        calls.chunks(TOGETHER).try_for_each(|calls| self.answer(calls))
    }

    /// The journal as it is now.
    pub fn journal(&mut self) -> Result<Journal, String> {
        self.store.journal()
    }

    /// Where answers go.
    pub fn output(&mut self) -> &mut W {
        &mut self.output
    }

    /// Answers calls that came together, with another process for each that dies.
    fn answer(&mut self, calls: &[Call]) -> Result<(), String> {
        let mut open = calls;
        let mut deaths = 0;
        while !open.is_empty() {
            let answers = self.play_on(open)?;
            let (answered, still_open) = open.split_at(answers.len());
            deaths = if answers.is_empty() { deaths + 1 } else { 1 };
            self.keep(answered, answers)?;
            if deaths == DEATHS && !still_open.is_empty() {
                return Err(format!(
                    "{} died {DEATHS} times on the same line: {}",
                    self.program.display(),
                    open[0].shown()
                ));
            }
            open = still_open;
        }
        Ok(())
    }

    /// Plays calls and answers the answers that came before the program died, if it did. While the program works on
    /// them it is looked whether somebody else has had a hand in the journal: then there are none.
    fn play_on(&mut self, calls: &[Call]) -> Result<Vec<Vec<u8>>, String> {
        let mut answers = Vec::new();
        if self.process.is_none() {
            let played = self.store.journal()?.calls;
            eprintln!("night: starting another and playing {} calls back", played.len());
            self.revive(&played)?;
        }
        if let Some(mut process) = self.process.take() {
            let unanswered = |what: String| format!("{what}. Not answered, and not kept: {}", calls[0].shown());
            let check = || self.store.check().map_err(unanswered);
            let take = |answer| {
                answers.push(answer);
                Ok(())
            };
            let lives = play(&mut process, calls, check, take)?;
            self.mourn_or_keep(process, lives);
        }
        Ok(answers)
    }

    /// Puts the calls that may have changed something into the journal and on the disk, and only then gives the answers
    /// out.
    fn keep(&mut self, calls: &[Call], answers: Vec<Vec<u8>>) -> Result<(), String> {
        let Some(first) = calls.first() else { return Ok(()) };
        let answered: Vec<Answered> = calls
            .iter()
            .zip(&answers)
            .filter(|(call, answer)| !call.asks() && !call.is_none(answer))
            .map(|(call, answer)| Answered::new(call.clone(), answer))
            .collect();
        if !answered.is_empty() {
            self.store.append(&answered).map_err(|what| format!("{what}. Not answered: {}", first.shown()))?;
        }
        give_out(&mut self.output, &answers.concat())
    }
}

/// Shows what an interrupted append has left: nobody can know of it but from here.
fn say_torn(path: &Path, journal: &Journal, torn: &[u8]) {
    if torn.is_empty() {
        return;
    }
    let (path, number, bytes) = (path.display(), journal.records, torn.len());
    let said = format!("the last record, number {number}, is torn: {bytes} bytes, cut while they were written");
    eprintln!("night: {path}: {said}. Probably never answered: look at the heads. It is kept in {path}.torn:");
    let end = torn.iter().rposition(|&byte| byte != 0).map_or(0, |at| at + 1);
    if end < torn.len() {
        eprintln!("night:   ({} zeros at its end)", torn.len() - end);
    }
    for line in torn[..end.min(SHOWN_ROOM)].split(|&byte| byte == b'\n').filter(|line| !line.is_empty()) {
        let shown = String::from_utf8_lossy(line);
        eprintln!(
            "night:   {}",
            shown.chars().map(|char| if char.is_control() { '?' } else { char }).collect::<String>()
        );
    }
}

fn say_start(path: &Path, journal: &Journal) {
    let path = path.display();
    if journal.configuration.is_none() {
        eprintln!("night: {path}: new journal begun");
        return;
    }
    let last = journal.calls.last().and_then(|answered| answered.time);
    let last = last.map_or(String::new(), |time| format!(", the last at {} UTC on {}", time.clock(), time.date()));
    let old = if journal.format == Format::First { "; it is of the first format, and has no times" } else { "" };
    eprintln!("night: {path}: {} calls played back{last}{old}", journal.calls.len());
}

impl<W> Drop for Night<W> {
    fn drop(&mut self) {
        if let Some(process) = self.process.take() {
            process.end();
        }
    }
}

/// The night's own input and output. At a terminal there is more to say.
pub fn run_here(options: &Options) -> Result<(), String> {
    let (input, output) = (io::stdin().lock(), io::stdout().lock());
    if input.is_terminal() && output.is_terminal() {
        return terminal::talk(&mut Night::begin(options, output)?, input);
    }
    run(options, input, output)
}
