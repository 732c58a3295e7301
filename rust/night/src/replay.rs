//! Calls played into the shift program: those of a journal, whose answers must be the same again, and new ones.

use std::path::Path;

use crate::calls::Call;
use crate::journal::{Answered, Journal};
use crate::process::{self, Process, DEATHS};

/// Plays calls into a process and hands on each answer. While the process works on calls, something else is done.
/// Answers whether the process lives.
pub fn play(
    process: &mut Process,
    calls: &[Call],
    mut meanwhile: impl FnMut() -> Result<(), String>,
    mut take: impl FnMut(Vec<u8>) -> Result<(), String>,
) -> Result<bool, String> {
    let mut rest = calls;
    while !rest.is_empty() {
        let (sent, later) = rest.split_at(process::together(rest));
        process.send(sent);
        meanwhile()?;
        if !hear(process, sent, &mut take)? {
            return Ok(false);
        }
        rest = later;
    }
    Ok(true)
}

/// Hands on the answers to calls that were sent. Answers whether the process lives.
fn hear(
    process: &mut Process,
    sent: &[Call],
    take: &mut impl FnMut(Vec<u8>) -> Result<(), String>,
) -> Result<bool, String> {
    for call in sent {
        match process.answer(call) {
            Some(answer) => take(answer)?,
            None => return Ok(false),
        }
    }
    Ok(true)
}

/// Starts the program and plays a journal's calls into it. Answers the process and whether it lives.
pub fn revive(program: &Path, configuration: &[u8], played: &[Answered]) -> Result<(Process, bool), String> {
    let mut process = Process::start(program, configuration)?;
    // A deck that was left open changed nothing, and could only be played at an end.
    let due = || (1..).zip(played).filter(|(_, answered)| !answered.call.open);
    let calls: Vec<Call> = due().map(|(_, answered)| answered.call.clone()).collect();
    let mut due = due();
    let compare = |answer: Vec<u8>| match due.next() {
        Some((number, recorded)) if !recorded.answer.is(&answer) => Err(differs(number, recorded, &answer)),
        _ => Ok(()),
    };
    let lives = play(&mut process, &calls, || Ok(()), compare)?;
    Ok((process, lives))
}

/// What is said of a call that is answered otherwise than it was.
fn differs(number: usize, recorded: &Answered, answer: &[u8]) -> String {
    let answer = answer.split(|&byte| byte == b'\n').next().unwrap_or_default();
    let answer = String::from_utf8_lossy(answer);
    let call = recorded.call.shown();
    format!(
        "call {number} of the journal, {call}, was answered otherwise than by this shift program, which says {answer}. \
         Is it another version? The journal is left as it is"
    )
}

/// What the program answers to one more call after the first calls of a journal, in a cell that is thrown away.
pub fn ask(program: &Path, journal: &Journal, calls: usize, call: &Call) -> Result<Vec<u8>, String> {
    let configuration = journal.configuration.as_deref().ok_or("the journal has no configuration yet")?;
    for _ in 0..DEATHS {
        let (mut process, lives) = revive(program, configuration, &journal.calls[..calls])?;
        let mut said = None;
        if lives {
            let take = |answer| {
                said = Some(answer);
                Ok(())
            };
            play(&mut process, std::slice::from_ref(call), || Ok(()), take)?;
        }
        process.end();
        if let Some(said) = said {
            return Ok(said);
        }
    }
    Err(format!("{} died {DEATHS} times while the journal was played back", program.display()))
}
