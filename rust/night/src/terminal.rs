//! A night at a terminal: a prompt, and lines of its own that begin with a period. Everything else is said to the cell,
//! as without a terminal.

use std::ffi::OsString;
use std::io::{BufRead, Write};

use crate::calls::{Call, Extent, Gathering, SORTS, TERMINATION};
use crate::checking::{deck_call, foreign_text, read_file};
use crate::log;
use crate::run::Night;
use crate::standing::SCRIPT;
use crate::who::{self, Question};

const HELP: &str = "\
.help             this page
.board            the board
.who cc uu        which jobs had head cc/uu, from when to when (of the drum: its channel and a word)
.log              the last calls, with their times
.deck FILE        enters the deck of a file; its termination card is added if it has none
.end              the termination card of the deck that is being typed: hands the deck over
.cancel           forgets the deck that is being typed
.quit             ends the night, as the end of the input does (Ctrl-D); night run goes on with it
Any other line is a call:
";

/// So many calls does `.log` show.
const SHOWN: usize = 10;

/// What a line of the terminal's own has to say, and whether the night goes on.
enum Outcome {
    Said(String),
    Quit,
}

/// Answers lines until the input ends or is left.
pub fn talk<W: Write>(night: &mut Night<W>, mut input: impl BufRead) -> Result<(), String> {
    let mut gathering = Gathering::default();
    say(night, "night: .help shows what can be said here besides calls\n")?;
    loop {
        say(night, if gathering.is_open() { "card> " } else { "night> " })?;
        let mut line = Vec::new();
        input.read_until(b'\n', &mut line).map_err(|error| format!("the input cannot be read: {error}"))?;
        if line.is_empty() {
            say(night, "\n")?;
            break;
        }
        if line.last() != Some(&b'\n') {
            line.push(b'\n');
        }
        if line[0] != b'.' {
            night.answer_all(&gathering.take(&line))?;
            continue;
        }
        match own(night, &mut gathering, &String::from_utf8_lossy(&line))? {
            Outcome::Said(said) => say(night, &said)?,
            Outcome::Quit => break,
        }
    }
    if gathering.is_open() {
        say(night, "night: the deck that was being typed is not handed over: its termination card has not come\n")?;
    }
    Ok(())
}

fn say<W: Write>(night: &mut Night<W>, text: &str) -> Result<(), String> {
    let output = night.output();
    let said = output.write_all(text.as_bytes()).and_then(|()| output.flush());
    said.map_err(|error| format!("this cannot be given out: {error}"))
}

/// Does what a line says that begins with a period. What goes wrong in it does not end the night.
fn own<W: Write>(night: &mut Night<W>, gathering: &mut Gathering, line: &str) -> Result<Outcome, String> {
    let words: Vec<&str> = line.split_whitespace().collect();
    let said = match words[..] {
        [".help"] => help(),
        [".quit"] => return Ok(Outcome::Quit),
        [".board"] => {
            night.answer_all(&[Call { text: b"BOARD\n".to_vec(), open: false }])?;
            String::new()
        }
        [".who", channel, unit] => who_had(night, channel, unit)?,
        [".who", head] if head.contains('/') => {
            let (channel, unit) = head.split_once('/').unwrap_or_default();
            who_had(night, channel, unit)?
        }
        [".log"] => {
            let journal = night.journal()?;
            log::text(&journal, journal.calls.len().saturating_sub(SHOWN)..journal.calls.len())
        }
        [".cancel" | ".end"] if !gathering.is_open() => "night: no deck is being typed\n".to_string(),
        [".cancel"] => {
            gathering.cancel();
            "night: the deck is forgotten\n".to_string()
        }
        [".end"] => {
            night.answer_all(&gathering.take(TERMINATION))?;
            String::new()
        }
        [".deck", ..] if gathering.is_open() => {
            "night: a deck is being typed: .end hands it over, .cancel forgets it\n".to_string()
        }
        [".deck", _, ..] => enter(night, line[".deck".len()..].trim())?,
        [word, ..] => format!("night: {word} is none, or not so: .help shows what there is\n"),
        [] => String::new(),
    };
    Ok(Outcome::Said(said))
}

fn help() -> String {
    let known = SORTS.iter().filter(|sort| sort.since <= SCRIPT);
    let calls = known.map(|sort| {
        let deck = if sort.extent == Extent::Deck { "and then its cards" } else { sort.fields };
        format!("  {}\n", format!("{} {deck}", sort.word).trim_end())
    });
    HELP.to_string() + &calls.collect::<String>()
}

fn who_had<W: Write>(night: &mut Night<W>, channel: &str, unit: &str) -> Result<String, String> {
    let (Ok(channel), Ok(unit)) = (channel.parse(), unit.parse()) else {
        return Ok(format!("night: {channel} {unit} is no head: .who 03 00\n"));
    };
    let question = Question { head: Some((channel, unit)), ..Question::default() };
    Ok(who::answer(&night.journal()?, &question, false).unwrap_or_else(|error| format!("night: {error}\n")))
}

/// Enters the deck of a file.
fn enter<W: Write>(night: &mut Night<W>, name: &str) -> Result<String, String> {
    let text = match read_file(Some(&OsString::from(name))) {
        Ok(text) => text,
        Err(error) => return Ok(format!("night: {error}\n")),
    };
    if let Some(what) = foreign_text(&text) {
        return Ok(format!("night: {name} {what}. It is not entered\n"));
    }
    let mut call = deck_call(&text);
    if call.open {
        // What was left open is the whole file, and its last line has its LF.
        call = Call { text: [&call.text, TERMINATION].concat(), open: false };
        say(night, &format!("night: {name} has no termination card: it is added\n"))?;
    }
    let rest = text.len() as i64 + b"DECK\n".len() as i64 - call.text.len() as i64;
    if rest > 0 {
        say(night, &format!("night: what is behind the termination card of {name} is left out: {rest} bytes\n"))?;
    }
    night.answer_all(&[call])?;
    Ok(String::new())
}
