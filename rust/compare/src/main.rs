//! Compares the ordinary implementation with the proved programs on random input, to the byte.
//!
//! `compare cards|deck|desk|listing|shift [--seed N] [--count N] [--calls N] [--jobs N] [--save FOLDER] [--first] [--show] [-- COMMAND..]`
//!
//! Input number i of a run is made from seed N + i alone, so `--seed S --count 1` gives it again. For `shift`
//! `--calls` is the length of a script. Every fiftieth script, and every fiftieth input of `desk`, is short and handed
//! over line by line, each line after the answer to the one before.

use std::io::{self, Write};
use std::path::Path;
use std::process::ExitCode;

use compare::comparison::Comparison;
use compare::subject::Subject;

const USAGE: &str =
    "usage: compare cards|deck|desk|listing|shift [--seed N] [--count N] [--calls N] [--jobs N] [--save FOLDER] [--first] [--show] [-- COMMAND..]";

fn main() -> ExitCode {
    match run() {
        Ok(0) => ExitCode::SUCCESS,
        Ok(_) => ExitCode::FAILURE,
        Err(message) => {
            eprintln!("{message}");
            ExitCode::from(2)
        }
    }
}

/// How many inputs differ; none where an input is only to be shown.
fn run() -> Result<u64, String> {
    let (comparison, show) = options()?;
    if !show {
        return comparison.run();
    }
    let pieces = comparison.subject.input(comparison.seed, comparison.calls).pieces;
    io::stdout().write_all(&pieces.concat()).map_err(|error| error.to_string())?;
    Ok(0)
}

/// What the words of the command ask for, and whether an input is only to be shown.
fn options() -> Result<(Comparison, bool), String> {
    let mut words = std::env::args_os().skip(1);
    let subject = words.next().and_then(|word| Subject::from_name(word.to_str()?)).ok_or(USAGE)?;
    let mut comparison = Comparison {
        subject,
        seed: 1,
        count: 1000,
        calls: 2000,
        jobs: 2,
        save: Path::new(env!("CARGO_MANIFEST_DIR")).join("../target/differences"),
        first: false,
        command: Vec::new(),
    };
    let mut show = false;
    while let Some(word) = words.next() {
        if word == "--" {
            comparison.command = words.by_ref().collect();
            break;
        }
        if word == "--show" {
            show = true;
            continue;
        }
        if word == "--first" {
            comparison.first = true;
            continue;
        }
        let value = words.next().ok_or(USAGE)?;
        let number = || value.to_str().and_then(|value| value.parse::<u64>().ok()).ok_or(USAGE);
        match word.to_str() {
            Some("--seed") => comparison.seed = number()?,
            Some("--count") => comparison.count = number()?,
            Some("--calls") => comparison.calls = number()? as usize,
            Some("--jobs") => comparison.jobs = number()?.max(1) as usize,
            Some("--save") => comparison.save = value.into(),
            _ => return Err(USAGE.into()),
        }
    }
    Ok((comparison, show))
}
