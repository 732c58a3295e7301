//! A run: inputs from one seed on, through both implementations, and what differs.

use std::ffi::OsString;
use std::fs;
use std::io;
use std::path::PathBuf;
use std::sync::atomic::{AtomicU64, Ordering};
use std::sync::Mutex;
use std::thread;
use std::time::Instant;

use crate::programs::{Outcome, Program};
use crate::reduce;
use crate::scripts::Script;
use crate::subject::Subject;
use crate::tally::Tally;

/// What is compared, and how.
pub struct Comparison {
    pub subject: Subject,
    /// Input number i comes from this seed and i.
    pub seed: u64,
    pub count: u64,
    /// How long a script is.
    pub calls: usize,
    /// How many run at a time.
    pub jobs: usize,
    /// The folder for what differs.
    pub save: PathBuf,
    /// Stop at the first difference.
    pub first: bool,
    /// What to compare with; the proved program if there is none.
    pub command: Vec<OsString>,
}

impl Comparison {
    /// Runs all inputs, prints what was seen and answers how many differ.
    pub fn run(&self) -> Result<u64, String> {
        let program = if self.command.is_empty() {
            Program::proved(self.subject.name())?
        } else {
            Program::new(self.command.clone())
        };
        let start = Instant::now();
        let tally = self.run_all(&program);
        println!(
            "{}: seeds {} to {}, {} inputs, {} calls, {} bytes, {} differences, {:.0} s",
            self.subject.name(),
            self.seed,
            self.seed + self.count - 1,
            tally.inputs,
            tally.calls,
            tally.bytes,
            tally.differences,
            start.elapsed().as_secs_f64()
        );
        for (sort, count) in &tally.answers {
            println!("{count:>10}  {sort}");
        }
        Ok(tally.differences)
    }

    fn run_all(&self, program: &Program) -> Tally {
        let next = AtomicU64::new(0);
        let tally = Mutex::new(Tally::default());
        thread::scope(|scope| {
            for _ in 0..self.jobs {
                scope.spawn(|| loop {
                    let at = next.fetch_add(1, Ordering::Relaxed);
                    let stop = self.first && tally.lock().expect("no thread has failed").differences > 0;
                    if at >= self.count || stop {
                        return;
                    }
                    self.run_one(program, self.seed + at, &tally);
                });
            }
        });
        tally.into_inner().expect("no thread has failed")
    }

    fn run_one(&self, program: &Program, seed: u64, tally: &Mutex<Tally>) {
        let Script { pieces, calls, counts } = self.subject.input(seed, self.calls);
        let text = pieces.concat();
        let expected = self.subject.ordinary(&text);
        let answered = match self.subject.conversation(seed, &text) {
            Some(conversation) => program.talk(&conversation),
            None => program.run(&text),
        };
        let differs = answered.output != expected || answered.fault.is_some();
        if differs && !self.first {
            if let Err(error) = self.save(program, seed, pieces, &answered) {
                eprintln!("{}: {error}", self.save.display());
            }
        }
        let mut tally = tally.lock().expect("no thread has failed");
        tally.add(self.subject, calls, &text, &expected);
        for (sort, times) in counts {
            *tally.answers.entry(sort).or_default() += times;
        }
        tally.differences += u64::from(differs);
    }

    /// Says what differs, and saves the input, a small one that differs too, and both outputs for the small one.
    fn save(&self, program: &Program, seed: u64, pieces: Vec<Vec<u8>>, answered: &Outcome) -> io::Result<()> {
        let text = pieces.concat();
        let small = self.reduced(program, pieces, answered);
        let expected = self.subject.ordinary(&small);
        let Outcome { output, fault } = program.run(&small);
        fs::create_dir_all(&self.save)?;
        let file = |end: &str| self.save.join(format!("{}-{seed}.{end}", self.subject.name()));
        fs::write(file("in"), &text)?;
        fs::write(file("small.in"), &small)?;
        fs::write(file("ordinary.out"), &expected)?;
        fs::write(file("proved.out"), &output)?;
        let at = first_difference(&expected, &output);
        println!(
            "DIFFERENCE {} seed {seed}: {} bytes reduced to {}, line {} of the output: ordinary {:?}, proved {:?}{}",
            self.subject.name(),
            text.len(),
            small.len(),
            at + 1,
            line(&expected, at),
            line(&output, at),
            fault.or(answered.fault.clone()).map_or(String::new(), |fault| format!(", {fault}"))
        );
        Ok(())
    }

    /// A small input that differs too, if one is found.
    fn reduced(&self, program: &Program, pieces: Vec<Vec<u8>>, answered: &Outcome) -> Vec<u8> {
        let text = pieces.concat();
        let mut shows = |text: &[u8]| {
            let answered = program.run(text);
            answered.output != self.subject.ordinary(text) || answered.fault.is_some()
        };
        // A program that was silent too long is not asked again and again.
        let was_silent = answered.fault.as_ref().is_some_and(|fault| fault.starts_with("silent"));
        if was_silent || !shows(&text) {
            return text;
        }
        let pieces = reduce::pieces(pieces, &mut shows);
        reduce::text(&pieces.concat(), &mut shows)
    }
}

/// A line of an output, if it has so many.
fn line(output: &[u8], at: usize) -> Option<String> {
    output.split(|&byte| byte == b'\n').nth(at).map(|line| String::from_utf8_lossy(line).into_owned())
}

/// The number of the first line that differs.
fn first_difference(one: &[u8], other: &[u8]) -> usize {
    (0..).find(|&at| line(one, at) != line(other, at) || line(one, at).is_none()).unwrap_or(0)
}
