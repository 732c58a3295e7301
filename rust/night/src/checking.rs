//! `night check`, and the proved programs by name: what they print is printed, and whether it has errors is answered by
//! the status, which the programs themselves cannot.

use std::ffi::OsString;
use std::io::{BufRead, BufReader, Read, Write};
use std::path::Path;
use std::process::{ChildStdin, Command, Stdio};

use crate::calls::{Call, Gathering};
use crate::commands::{give_out, journal, program};
use crate::replay;
use crate::words::{Failure, Words};

const MARK: &[u8] = b"\xef\xbb\xbf";

/// Reads the input of a program: a file, or standard input.
pub fn read_file(name: Option<&OsString>) -> Result<Vec<u8>, String> {
    let mut text = Vec::new();
    let read = match name.filter(|name| *name != "-") {
        Some(name) => std::fs::read(name).map(|bytes| text = bytes),
        None => std::io::stdin().lock().read_to_end(&mut text).map(drop),
    };
    let shown = name.map_or("standard input".into(), |name| name.to_string_lossy());
    read.map_err(|error| format!("{shown}: {error}"))?;
    Ok(text)
}

/// What other machines put into a file and the programs do not take.
pub fn foreign_text(text: &[u8]) -> Option<&'static str> {
    if text.starts_with(MARK) {
        return Some("begins with a byte order mark (EF BB BF): save it as plain text without one");
    }
    let ends_so = text.windows(2).any(|two| two == b"\r\n");
    ends_so.then_some("has lines that end with CR LF: save it with LF alone")
}

/// Names what is foreign in a file. Answers whether something is.
fn name_foreign(name: Option<&OsString>, text: &[u8]) -> bool {
    let Some(what) = foreign_text(text) else { return false };
    let name = name.map_or("standard input".into(), |name| name.to_string_lossy());
    eprintln!("night: {name} {what}");
    true
}

/// Looks at the lines that a program prints, and finds out whether something is in error.
struct Judge {
    program: &'static str,
    /// The next line is the first of an answer of the desk's.
    begins: bool,
    in_error: bool,
}

impl Judge {
    fn new(program: &'static str) -> Judge {
        Judge { program, begins: true, in_error: false }
    }

    fn hear(&mut self, line: &[u8]) {
        let line = String::from_utf8_lossy(line);
        let words: Vec<&str> = line.trim_end_matches('\n').split(' ').collect();
        self.in_error |= match (self.program, &words[..]) {
            ("desk", ["NO", _]) => self.begins,
            ("listing", ["ER", ..]) | ("deck" | "cards", ["SP", _, "ER" | "NO", _] | ["SCH", "ER", _] | ["NO", _]) => {
                true
            }
            _ => false,
        };
        // The desk shows cards, which may say anything, and then from where they are.
        self.begins = matches!(words[..], ["FROM", _]) || self.begins && words[0] == "NO";
    }

    fn verdict(&self) -> Result<(), Failure> {
        if self.in_error {
            Err(Failure::InError)
        } else {
            Ok(())
        }
    }
}

/// Runs a program on a text, hands on what it prints line by line, and judges it. Where the text does not end the input,
/// what standard input has follows it.
fn run(program: &Path, name: &'static str, text: Vec<u8>, goes_on: bool) -> Result<Judge, Failure> {
    let failed = |error: std::io::Error| format!("{}: {error}", program.display());
    let mut child = Command::new(program).stdin(Stdio::piped()).stdout(Stdio::piped()).spawn().map_err(failed)?;
    let input = child.stdin.take().ok_or("a program without an input")?;
    let mut output = BufReader::new(child.stdout.take().ok_or("a program without an output")?);
    // It may end before it has read everything.
    let writer = std::thread::spawn(move || feed(input, &text, goes_on));
    let mut judge = Judge::new(name);
    let mut line = Vec::new();
    while output.read_until(b'\n', &mut line).map_err(failed)? > 0 {
        judge.hear(&line);
        give_out(&line)?;
        line.clear();
    }
    let status = child.wait().map_err(failed)?;
    if !goes_on {
        let _ = writer.join();
    }
    if !status.success() {
        return Err(format!("{} died ({status})", program.display()).into());
    }
    Ok(judge)
}

fn feed(mut input: ChildStdin, text: &[u8], goes_on: bool) {
    if input.write_all(text).is_ok() && goes_on {
        let _ = std::io::copy(&mut std::io::stdin().lock(), &mut input);
    }
}

/// `night listing`, `deck` and `cards`.
pub fn on_file(words: &Words) -> Result<(), Failure> {
    let name = words.command.name;
    let file = if words.rest.is_empty() { None } else { Some(words.rest(["FILE"])?[0]) };
    let text = read_file(file)?;
    name_foreign(file, &text);
    run(&program(words, name)?, name, text, false)?.verdict()
}

/// `night desk`: two decks and the IDs that are asked for.
pub fn desk(words: &Words) -> Result<(), Failure> {
    let [repair, day, ids @ ..] = &words.rest[..] else {
        return Err(words.wrong(if words.rest.is_empty() { "REPAIR is missing" } else { "DAY is missing" }));
    };
    let mut text = Vec::new();
    for deck in [repair, day] {
        let bytes = read_file(Some(deck))?;
        name_foreign(Some(deck), &bytes);
        text.extend(bytes);
    }
    for id in ids {
        text.extend([id.as_encoded_bytes(), b"\n"].concat());
    }
    run(&program(words, "desk")?, "desk", text, ids.is_empty())?.verdict()
}

/// `night check`.
pub fn check(words: &Words) -> Result<(), Failure> {
    let Some(deck) = words.option("--deck") else {
        if words.has("--journal") {
            return Err(words.wrong("--journal goes with --deck"));
        }
        let [configuration] = words.rest(["CONFIG, or --deck DECK,"])?;
        let text = read_file(Some(configuration))?;
        let is_foreign = name_foreign(Some(configuration), &text);
        let judge = run(&program(words, "listing")?, "listing", text, false)?;
        return if is_foreign { Err(Failure::InError) } else { judge.verdict() };
    };
    let [] = words.rest([])?;
    let text = read_file(Some(deck))?;
    let is_foreign = name_foreign(Some(deck), &text);
    let judge = if words.has("--journal") {
        against_schedule(words, &text)?
    } else {
        run(&program(words, "deck")?, "deck", text, false)?
    };
    if is_foreign {
        Err(Failure::InError)
    } else {
        judge.verdict()
    }
}

/// Tries a deck in a cell like that of the journal, which is then thrown away.
fn against_schedule(words: &Words, deck: &[u8]) -> Result<Judge, Failure> {
    let journal = journal(words)?;
    let call = deck_call(deck);
    let answer = replay::ask(&program(words, "shift")?, &journal, journal.calls.len(), &call)?;
    let mut judge = Judge::new("deck");
    answer.split_inclusive(|&byte| byte == b'\n').for_each(|line| judge.hear(line));
    give_out(&answer)?;
    Ok(judge)
}

/// The call that enters this deck, up to its termination card.
pub fn deck_call(deck: &[u8]) -> Call {
    let mut gathering = Gathering::default();
    let first = gathering.take(&[b"DECK\n", deck].concat()).into_iter().next();
    first.or_else(|| gathering.finish().into_iter().next()).unwrap_or(Call { text: b"DECK\n".to_vec(), open: true })
}

#[cfg(test)]
mod tests {
    use super::*;

    fn in_error(program: &'static str, lines: &[&str]) -> bool {
        let mut judge = Judge::new(program);
        lines.iter().for_each(|line| judge.hear(format!("{line}\n").as_bytes()));
        judge.in_error
    }

    #[test]
    fn what_the_programs_print_of_errors_is_known() {
        assert!(in_error("listing", &["ER 14 LINE 3"]) && !in_error("listing", &["00 3", "12 1"]));
        for lines in [&["SP B7 ER 31", "D4 SCH ACK"][..], &["SCH ER 11"], &["SP A NO 12"], &["NO 11"]] {
            assert!(in_error("deck", lines) && in_error("cards", lines), "{lines:?}");
        }
        assert!(!in_error("deck", &["SP A05", "ER 01A05", "ER SCH ACK"]));
        assert!(!in_error("cards", &["A1,PTY,SP B7 ER 31", "PMT 66", "=SP B7 ER 31", "END OF CARDS"]));
        assert!(
            in_error("desk", &["A1,PTY", "FROM DAY", "NO 22"]) && in_error("desk", &["NO 11", "A1,PTY", "FROM DAY"])
        );
        assert!(!in_error("desk", &["A1,PTY", "NO 22", "FROM DAY", "B7,PTY", "FROM REPAIR"]));
    }

    #[test]
    fn text_of_other_machines_is_named() {
        assert!(foreign_text(b"\xef\xbb\xbf1\n").unwrap().contains("byte order mark"));
        assert!(foreign_text(b"1\r\n").unwrap().contains("CR LF"));
        assert_eq!(foreign_text(b"A1,PM0,\r.\n"), None);
    }
}
