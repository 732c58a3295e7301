//! The input cut into calls: a line, or a deck from its `DECK` line to its termination card.

/// What is kept of a line. It is far more than the 255 bytes of a call and the 16,384 of a deck, so what is cut off
/// decides nothing.
const LINE_ROOM: usize = 1 << 16;
/// Cards are kept while the deck is not above this. It is then refused whatever follows, so only its termination card
/// is awaited.
const DECK_ROOM: usize = 1 << 20;

/// How far a call reaches.
#[derive(Clone, Copy, Debug, PartialEq, Eq)]
pub enum Extent {
    Line,
    /// The line and the deck behind it, up to its termination card.
    Deck,
}

/// A call of the script.
pub struct Sort {
    pub word: &'static str,
    /// What follows the word, for a reader.
    pub fields: &'static str,
    pub extent: Extent,
    /// It only asks: it is answered and not written into the journal.
    pub asks: bool,
    /// Its answer may have several lines.
    pub lines: bool,
    /// The request of document 02 that brings it; 0 for none.
    pub since: u32,
}

const fn line(word: &'static str, fields: &'static str, since: u32) -> Sort {
    Sort { word, fields, extent: Extent::Line, asks: false, lines: false, since }
}

const fn asks(word: &'static str, fields: &'static str, lines: bool, since: u32) -> Sort {
    Sort { word, fields, extent: Extent::Line, asks: true, lines, since }
}

/// All calls. One that the program answers and that is not here is taken for a line that changes something and has any
/// answer. So a new call has to be put here if it only asks or has several lines, and into `heads.rs` if it changes
/// holdings or marks.
pub const SORTS: [Sort; 20] = [
    Sort { word: "DECK", fields: "", extent: Extent::Deck, asks: false, lines: true, since: 0 },
    line("SELECT", "", 0),
    line("SUBMIT", "p k ff cc x [h]", 0),
    line("START", "cc", 0),
    line("DONE", "cc", 0),
    line("CUT", "cc", 0),
    line("FAIL", "cc ff", 0),
    line("RETURN", "p cc uu", 5),
    line("END", "p", 0),
    line("ABORT", "p", 0),
    line("DOWN", "cc uu", 0),
    line("UP", "cc uu", 0),
    line("RESERVE", "cc uu", 0),
    line("UNRESERVE", "cc uu", 0),
    line("RELEASE", "id", 0),
    line("DELETE", "id", 0),
    line("KEY", "message", 1),
    asks("STATUS", "p k", false, 0),
    asks("BOARD", "", true, 0),
    asks("TIMES", "", true, 11),
];

/// The sort of call that a line is of, by its first word.
fn sort(line: &[u8]) -> Option<&'static Sort> {
    let word = line.split(|byte| b" \n".contains(byte)).next()?;
    SORTS.iter().find(|sort| sort.word.as_bytes() == word)
}

/// What the shift program gets and answers as one: lines, each with its LF.
#[derive(Clone, Debug, PartialEq, Eq)]
pub struct Call {
    pub text: Vec<u8>,
    /// A deck in which the input ended. The program answers it only when its own input ends too, and it changes
    /// nothing.
    pub open: bool,
}

impl Call {
    /// Is it no call at all? The program has then echoed the line or answered `??`, and nothing has changed.
    pub fn is_none(&self, answer: &[u8]) -> bool {
        answer == b"??\n" || answer == self.text
    }

    /// Is its answer one line, whatever it is?
    pub fn has_line(&self) -> bool {
        sort(&self.text).is_some_and(|sort| !sort.lines)
    }

    /// Does it only ask, whatever is answered?
    pub fn asks(&self) -> bool {
        sort(&self.text).is_some_and(|sort| sort.asks)
    }

    /// The first line as text, for messages.
    pub fn shown(&self) -> String {
        let line = self.text.split(|&byte| byte == b'\n').next().unwrap_or_default();
        let shown: String = String::from_utf8_lossy(line).chars().take(60).collect();
        shown.chars().map(|char| if char.is_control() { '?' } else { char }).collect()
    }
}

/// The termination card, with its LF.
pub const TERMINATION: &[u8] = b")))))))) +++++++++++++                                                  ))))))))\n";

/// Is this line, with its LF, the termination card?
pub fn is_termination(line: &[u8]) -> bool {
    line == TERMINATION
}

/// What came in and is no call yet.
#[derive(Default)]
pub struct Gathering {
    /// The bytes of a line whose LF has not come.
    line: Vec<u8>,
    /// The lines of a deck whose termination card has not come.
    deck: Vec<u8>,
}

impl Gathering {
    /// Takes up a piece of the input and answers the calls that it completes.
    pub fn take(&mut self, piece: &[u8]) -> Vec<Call> {
        piece.split_inclusive(|&byte| byte == b'\n').filter_map(|part| self.take_part(part)).collect()
    }

    /// The end of the input: a last line without LF counts as if it had one, and a deck may be left open.
    pub fn finish(mut self) -> Vec<Call> {
        let mut calls = Vec::new();
        if !self.line.is_empty() {
            calls.extend(self.take_part(b"\n"));
        }
        if !self.deck.is_empty() {
            calls.push(Call { text: self.deck, open: true });
        }
        calls
    }

    /// Is a deck begun whose termination card has not come?
    pub fn is_open(&self) -> bool {
        !self.deck.is_empty()
    }

    /// Forgets the deck that is begun.
    pub fn cancel(&mut self) {
        self.deck.clear();
    }

    /// Takes up a part of one line, whose LF may be its last byte.
    fn take_part(&mut self, part: &[u8]) -> Option<Call> {
        let is_whole = part.last() == Some(&b'\n');
        let bytes = &part[..part.len() - usize::from(is_whole)];
        let room = LINE_ROOM - self.line.len();
        self.line.extend(&bytes[..bytes.len().min(room)]);
        if !is_whole {
            return None;
        }
        let mut line = std::mem::take(&mut self.line);
        line.push(b'\n');
        self.take_line(line)
    }

    fn take_line(&mut self, line: Vec<u8>) -> Option<Call> {
        if self.deck.is_empty() {
            let opens = |sort: &Sort| sort.extent == Extent::Deck && line[..line.len() - 1] == *sort.word.as_bytes();
            if !sort(&line).is_some_and(opens) {
                return Some(Call { text: line, open: false });
            }
            self.deck = line;
            return None;
        }
        let is_last = is_termination(&line);
        if is_last || self.deck.len() <= DECK_ROOM {
            self.deck.extend(line);
        }
        is_last.then(|| Call { text: std::mem::take(&mut self.deck), open: false })
    }
}

#[cfg(test)]
mod tests {
    use super::*;

    const TERMINATION: &str = ")))))))) +++++++++++++                                                  ))))))))\n";

    #[test]
    fn the_termination_card_has_its_80_columns() {
        let due = |column: usize| match column {
            1..=8 | 73..=80 => ')',
            10..=22 => '+',
            _ => ' ',
        };
        assert_eq!(TERMINATION, (1..=80).map(due).chain(['\n']).collect::<String>());
        assert!(is_termination(TERMINATION.as_bytes()));
    }

    #[test]
    fn calls_that_only_ask_are_known_by_their_first_word() {
        let asks = |text: &str| Call { text: text.into(), open: false }.asks();
        assert!(["BOARD\n", "STATUS 0 0\n", "STATUS 99 x\n", "TIMES\n"].iter().all(|text| asks(text)));
        let others =
            ["BOARDS\n", " BOARD\n", "KEY BOARD\n", "DECK\nBOARD\n", "TIME 5\n", "SELECT\n", "\n", "LATER 1\n"];
        assert!(!others.iter().any(|text| asks(text)));
    }

    fn calls(pieces: &[&str]) -> Vec<(String, bool)> {
        let mut gathering = Gathering::default();
        let mut calls: Vec<Call> = pieces.iter().flat_map(|piece| gathering.take(piece.as_bytes())).collect();
        calls.extend(gathering.finish());
        calls.into_iter().map(|call| (String::from_utf8(call.text).unwrap(), call.open)).collect()
    }

    fn whole(text: &str) -> (String, bool) {
        (text.to_string(), false)
    }

    #[test]
    fn lines_come_in_any_pieces() {
        let due = vec![whole("SELECT\n"), whole("\n"), whole("BOARD\n")];
        assert_eq!(calls(&["SELECT\n\nBOARD\n"]), due);
        assert_eq!(calls(&["SEL", "ECT", "\n", "\nBOA", "RD"]), due);
    }

    #[test]
    fn a_deck_is_one_call_up_to_its_termination_card() {
        let deck = format!("DECK\nDECK\n{}", TERMINATION);
        assert_eq!(calls(&[&deck, "BOARD\n"]), vec![whole(&deck), whole("BOARD\n")]);
        assert_eq!(calls(&[deck.trim_end()]), vec![whole(&deck)]);
        let nearly = TERMINATION.replace('+', "-");
        assert_eq!(calls(&["DECK\n", &nearly, "BOARD"]), vec![(format!("DECK\n{nearly}BOARD\n"), true)]);
        assert_eq!(calls(&["DECK"]), vec![("DECK\n".to_string(), true)]);
        assert_eq!(calls(&["DECK \n"]), vec![whole("DECK \n")]);
    }

    #[test]
    fn what_is_far_too_long_is_cut_but_stays_too_long() {
        let line = "X".repeat(3 * LINE_ROOM);
        let cut = format!("{}\n", "X".repeat(LINE_ROOM));
        assert_eq!(calls(&[&line, &line, "\nBOARD\n"]), vec![whole(&cut), whole("BOARD\n")]);
        let cards = format!("{line}\n").repeat(40);
        let kept = &calls(&["DECK\n", &cards, TERMINATION])[0].0;
        assert!(kept.len() > 16_384 && kept.len() < DECK_ROOM + 2 * LINE_ROOM && kept.ends_with(TERMINATION));
    }
}
