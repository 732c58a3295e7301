//! What the journal costs: calls per second through the shift program alone and through night, one at a time and in
//! bursts, and how long a journal takes to be played back.
//!
//! `cargo run --release --offline -p night --example cost -- SHIFT FOLDER`: the program, and where the journal is put.
//! Build `night` itself first (`cargo build --release --offline -p night`).

use std::io::{Read, Write};
use std::path::{Path, PathBuf};
use std::process::{Child, Command, Stdio};
use std::time::{Duration, Instant};

const CONFIGURATION: &str = "2\n03 MT 4\n07 MD 100000\n0\n5\n02\n06\n11\n13\n14\n";
/// A job that holds a head.
const BEGINNING: &str = "DECK\nA1,PTY,2,,ECU,,T,PROG,P,A5,P,3.\nA1,FAC,IB/2,MT1/2.\n\
                         )))))))) +++++++++++++                                                  ))))))))\nSELECT\n";
const BEGUN: &str = "A1 SCH ACK\nACK 0 A1 IB 2-3 MT1 03/00 03/01\n";
/// A block moved on it: three calls and their answers.
const BLOCK: [(&str, &str); 3] =
    [("SUBMIT 0 0 42 3 0\n", "ACK\n"), ("START 3\n", "ACK 0 0 42 0\n"), ("DONE 3\n", "ACK 0 0\n")];

/// How often each is measured, and how long at least.
const ROUNDS: usize = 9;
const LONG_ENOUGH: Duration = Duration::from_secs(1);

struct Talk {
    child: Child,
}

impl Talk {
    fn new(mut command: Command, beginning: &str) -> Talk {
        let child = command.stdin(Stdio::piped()).stdout(Stdio::piped()).spawn().expect("the program starts");
        let mut talk = Talk { child };
        talk.say(beginning, BEGUN);
        talk
    }

    /// Says something and waits for the answer that is due.
    fn say(&mut self, text: &str, due: &str) {
        self.child.stdin.as_mut().unwrap().write_all(text.as_bytes()).unwrap();
        let mut answer = vec![0; due.len()];
        self.child.stdout.as_mut().unwrap().read_exact(&mut answer).unwrap();
        assert_eq!(String::from_utf8_lossy(&answer), due);
    }

    /// Calls per second when so many come together.
    fn rate(&mut self, together: usize) -> f64 {
        let calls = || BLOCK.iter().cycle().take(3 * together);
        let texts: Vec<String> = calls().map(|(text, _)| text.to_string()).collect();
        let dues: Vec<String> = calls().map(|(_, due)| due.to_string()).collect();
        let start = Instant::now();
        let mut count = 0;
        while start.elapsed() < LONG_ENOUGH {
            for at in (0..texts.len()).step_by(together) {
                self.say(&texts[at..at + together].concat(), &dues[at..at + together].concat());
            }
            count += texts.len();
        }
        count as f64 / start.elapsed().as_secs_f64()
    }
}

impl Drop for Talk {
    fn drop(&mut self) {
        self.child.stdin = None;
        let _ = self.child.wait();
    }
}

fn night(shift: &Path, folder: &Path) -> Command {
    let here = std::env::current_exe().expect("where this program stands");
    let mut command = Command::new(here.with_file_name("../night"));
    command.arg("run").arg("--journal").arg(folder.join("cost.journal")).arg("--shift").arg(shift);
    command.arg(folder.join("cost.conf"));
    command
}

/// How long a journal of so many calls takes until the first answer.
fn played_back(shift: &Path, folder: &Path, calls: usize) -> Duration {
    let mut talk = Talk::new(night(shift, folder), BEGINNING);
    let text: String = BLOCK.iter().map(|(text, _)| *text).collect();
    let due: String = BLOCK.iter().map(|(_, due)| *due).collect();
    for _ in 0..calls / 300 {
        talk.say(&text.repeat(100), &due.repeat(100));
    }
    drop(talk);
    let start = Instant::now();
    let mut command = night(shift, folder);
    let mut child = command.stdin(Stdio::piped()).stdout(Stdio::piped()).spawn().expect("night starts");
    child.stdin.take().unwrap().write_all(b"STATUS 0 0\n").unwrap();
    let mut answer = [0; 13];
    child.stdout.take().unwrap().read_exact(&mut answer).unwrap();
    let taken = start.elapsed();
    let _ = child.wait();
    taken
}

fn main() {
    let mut words = std::env::args_os().skip(1).map(PathBuf::from);
    let (Some(shift), Some(folder)) = (words.next(), words.next()) else {
        return eprintln!("usage: cost SHIFT FOLDER");
    };
    std::fs::write(folder.join("cost.conf"), CONFIGURATION).expect("the folder can be written");
    [1, 10, 100, 1000].into_iter().for_each(|together| rates(&shift, &folder, together));
    [3_000, 30_000, 300_000].into_iter().for_each(|calls| playback(&shift, &folder, calls));
    let _ = std::fs::remove_file(folder.join("cost.conf"));
}

/// The middle of several rates, the lowest and the highest.
fn shown(mut rates: Vec<f64>) -> String {
    rates.sort_by(f64::total_cmp);
    format!("{:.0} ({:.0} to {:.0})", rates[rates.len() / 2], rates[0], rates[rates.len() - 1])
}

/// Rates with and without the journal, in turn, so that both meet the same machine.
fn rates(shift: &Path, folder: &Path, together: usize) {
    let mut alone = Talk::new(Command::new(shift), &[CONFIGURATION, BEGINNING].concat());
    let mut kept = Talk::new(night(shift, folder), BEGINNING);
    let (without, with) = (0..ROUNDS).map(|_| (alone.rate(together), kept.rate(together))).unzip();
    println!("{together} together: {} calls a second without the journal, {} with it", shown(without), shown(with));
    drop(kept);
    let _ = std::fs::remove_file(folder.join("cost.journal"));
}

fn playback(shift: &Path, folder: &Path, calls: usize) {
    let taken = played_back(shift, folder, calls);
    let bytes = std::fs::metadata(folder.join("cost.journal")).map_or(0, |file| file.len());
    println!("{calls} calls, {bytes} bytes: played back in {:.2} s", taken.as_secs_f64());
    let _ = std::fs::remove_file(folder.join("cost.journal"));
}
