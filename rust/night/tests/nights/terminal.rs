//! A night at a terminal, which `script` of util-linux makes; and what of it is seen without one: nothing.

use std::io::{Read, Write};
use std::process::{Child, Command, Stdio};

use crate::any_bytes::TERMINATION;
use crate::support::Place;

const CONFIGURATION: &[u8] = b"1\n03 MT 4\n0\n2\n03\n11\n";

/// A night that is spoken to at a terminal.
struct Talk {
    child: Child,
}

impl Talk {
    fn new(place: &Place) -> Talk {
        let night = place.command();
        let quoted = |word: &std::ffi::OsStr| format!("'{}'", word.to_str().unwrap());
        let words: Vec<String> = [night.get_program()].into_iter().chain(night.get_args()).map(quoted).collect();
        let mut script = Command::new("script");
        script.args(["-q", "-e", "-c", &words.join(" "), "/dev/null"]).current_dir(&place.folder);
        let child = script.stdin(Stdio::piped()).stdout(Stdio::piped()).spawn().expect("script of util-linux is there");
        Talk { child }
    }

    /// What comes until this does.
    fn until(&mut self, end: &str) -> String {
        let mut text = Vec::new();
        let mut byte = [0];
        while !text.ends_with(end.as_bytes()) {
            let read = self.child.stdout.as_mut().unwrap().read_exact(&mut byte);
            assert!(read.is_ok(), "{}", String::from_utf8_lossy(&text));
            text.extend(byte.iter().filter(|&&byte| byte != b'\r'));
        }
        String::from_utf8(text).unwrap()
    }

    /// Types a line, and answers what comes between it and the next prompt.
    fn type_line(&mut self, line: &str, prompt: &str) -> String {
        self.child.stdin.as_mut().unwrap().write_all(format!("{line}\n").as_bytes()).unwrap();
        let said = self.until(prompt);
        let said = said.strip_prefix(&format!("{line}\n")).unwrap_or_else(|| panic!("{line} is not echoed: {said}"));
        said.strip_suffix(prompt).unwrap().to_string()
    }

    /// The end of the input; what comes then.
    fn end(mut self) -> String {
        self.child.stdin.as_mut().unwrap().write_all(b"\x04").unwrap();
        let mut rest = String::new();
        self.child.stdout.as_mut().unwrap().read_to_string(&mut rest).unwrap();
        assert!(self.child.wait().unwrap().success(), "{rest}");
        rest.replace('\r', "")
    }
}

const PROMPT: &str = "night> ";
const CARD: &str = "card> ";
const GROUP: [&str; 2] = ["A1,PTY,2,,P,,,M,P,A1,P,1.", "A1,FAC,IB/1,MT/1."];

#[test]
fn at_a_terminal_there_is_a_prompt_and_lines_of_its_own() {
    let place = Place::new("terminal", CONFIGURATION);
    let mut talk = Talk::new(&place);
    let start = talk.until(PROMPT);
    assert!(start.contains("new journal begun\n") && start.contains(".help"), "{start}");
    let help = talk.type_line(".help", PROMPT);
    assert!([".deck FILE", ".board", ".who cc uu", ".cancel", "  SUBMIT p k"].iter().all(|word| help.contains(word)));
    assert!(!help.contains("TIMES"));
    // A deck is handed over when its termination card has come, and not before.
    for line in ["DECK", GROUP[0], GROUP[1]] {
        assert_eq!(talk.type_line(line, CARD), "");
    }
    assert_eq!(talk.type_line(TERMINATION.trim_end(), PROMPT), "A1 SCH ACK\n");
    assert_eq!(talk.type_line("SELECT", PROMPT), "ACK 0 A1 IB 2-2 MT 03/00\n");
    let board = talk.type_line(".board", PROMPT);
    assert!(board.starts_with("PLACE 0 A1 RUNS\nUNIT 03/00 HELD 0\n") && board.ends_with("END OF BOARD\n"), "{board}");
    assert_eq!(talk.type_line("BOARD", PROMPT), board);
    let who = talk.type_line(".who 03 00", PROMPT);
    assert_eq!(talk.type_line(".who 3/0", PROMPT), who);
    assert!(who.starts_with("03/00: A1 (place 0) from call 2 (") && who.ends_with("and still has it\n"), "{who}");
    assert!(talk.type_line(".log", PROMPT).ends_with("  SELECT\n               > ACK 0 A1 IB 2-2 MT 03/00\n"));
    assert!(talk.type_line(".frob", PROMPT).contains(".frob"));
    assert!(talk.type_line(".who 9 9", PROMPT).contains("no head 09/09"));
    assert_eq!(talk.type_line("", PROMPT), "\n");
    talk.end();
    assert_eq!(night::store::look_at(&place.journal()).unwrap().calls.len(), 2);
}

#[test]
fn a_deck_that_is_typed_can_be_cancelled_and_ended() {
    let place = Place::new("cancelled", CONFIGURATION);
    let mut talk = Talk::new(&place);
    talk.until(PROMPT);
    assert!(talk.type_line(".cancel", PROMPT).contains("no deck is being typed"));
    talk.type_line("DECK", CARD);
    talk.type_line(GROUP[0], CARD);
    assert!(talk.type_line(".deck x", CARD).contains("a deck is being typed"));
    assert!(talk.type_line(".cancel", PROMPT).contains("forgotten"));
    assert_eq!(talk.type_line("SELECT", PROMPT), "NO 19\n");
    talk.type_line("DECK", CARD);
    talk.type_line(GROUP[0], CARD);
    talk.type_line(GROUP[1], CARD);
    assert_eq!(talk.type_line(".end", PROMPT), "A1 SCH ACK\n");
    // The end of the input hands none over.
    talk.type_line("DECK", CARD);
    assert!(talk.end().contains("is not handed over"));
    assert_eq!(night::store::look_at(&place.journal()).unwrap().calls.len(), 2);
}

#[test]
fn a_deck_comes_from_a_file_and_gets_its_termination_card() {
    let place = Place::new("deck-file", CONFIGURATION);
    let write = |name: &str, text: String| std::fs::write(place.folder.join(name), text).unwrap();
    let cards = GROUP.join("\n");
    write("without", cards.clone());
    write("with", format!("{}\n{TERMINATION}", cards.replace("A1", "B2")));
    write("more", format!("{}\n{TERMINATION}SELECT\n", cards.replace("A1", "C3")));
    write("crlf", format!("{}\r\n{TERMINATION}", GROUP.join("\r\n")));
    let mut talk = Talk::new(&place);
    talk.until(PROMPT);
    let added = "night: without has no termination card: it is added\nA1 SCH ACK\n";
    assert_eq!(talk.type_line(".deck without", PROMPT), added);
    assert_eq!(talk.type_line(".deck with", PROMPT), "B2 SCH ACK\n");
    let more = talk.type_line(".deck more", PROMPT);
    assert!(more.contains("is left out: 7 bytes\n") && more.ends_with("C3 SCH ACK\n"), "{more}");
    let foreign = talk.type_line(".deck crlf", PROMPT);
    assert!(foreign.contains("CR LF") && foreign.contains("not entered"), "{foreign}");
    assert!(talk.type_line(".deck nowhere", PROMPT).contains("nowhere: No such file"));
    talk.end();
    assert_eq!(night::store::look_at(&place.journal()).unwrap().calls.len(), 3);
}

#[test]
fn without_a_terminal_nothing_of_this_is_seen() {
    let place = Place::new("no-terminal", CONFIGURATION);
    assert_eq!(place.answers(b".help\n.board\n.cancel\nDECK\n.cancel\n"), b"??\n??\n??\nNO 11\n");
}
