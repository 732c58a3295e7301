//! Random `KEY` lines: messages that the cell accepts, messages with every error and refusal, and lines that are nearly
//! none.

use ordinary::cell::Cell;
use ordinary::schedule::{Scheduled, State};

use crate::random::{damage, Random};

/// Bytes that are text in a message, and that a reader may take for something else.
const ODD_TEXT: &[u8] = b"\0\t\r\x0b\x1f!\"+,-./09:;=@AZ[`az{~\x7f\x80\xa0\xc3\xff";

/// What may be wrong with the field of a channel or unit.
#[derive(Clone, Copy, PartialEq)]
enum Fault {
    TooLarge,
    /// Among digits that may be too large beside.
    Nondigit,
    /// Nothing stands behind the letter.
    LetterAlone,
    NoLetter,
    OtherLetter,
}

/// Each as likely as it stands here often.
const FAULTS: &[Fault] = &[
    Fault::TooLarge,
    Fault::TooLarge,
    Fault::TooLarge,
    Fault::Nondigit,
    Fault::Nondigit,
    Fault::LetterAlone,
    Fault::NoLetter,
    Fault::OtherLetter,
];

/// A `KEY` line without its LF.
pub fn key_line(random: &mut Random, cell: &Cell) -> Vec<u8> {
    let words = words(random, cell);
    let message = match random.weighted(&[86, 6, 5, 3]) {
        0 => spaced(random, &words),
        1 => long(random, words),
        // A byte changed, put in, left out or moved.
        2 => {
            let mut message = spaced(random, &words);
            damage(random, &mut message);
            message.retain(|&byte| byte != b'\n');
            message
        }
        _ => return random.pick(&["KEY", "KEY ", "KEY  ", "KEY       "]).as_bytes().to_vec(),
    };
    // Lines that are nearly a call.
    let nearly = ["KEY", "KEYX ", "KEYKEY ", " KEY ", "KEY\t", "KEY\0", "key ", "Key ", "KE ", "", "#KEY "];
    let before = if random.percent(4) { *random.pick(&nearly) } else { "KEY " };
    [before.as_bytes(), &message].concat()
}

/// The words of a message, which may be too many or too few.
fn words(random: &mut Random, cell: &Cell) -> Vec<Vec<u8>> {
    let word = *random.pick(&["DWN", "DWN", "AVL", "AVL", "AVL", "AVL", "SEL", "SEL", "DEL"]);
    let mut words = vec![word.as_bytes().to_vec()];
    match word {
        "DWN" | "AVL" => words.extend(unit_fields(random, cell, word)),
        _ => words.push(id(random, cell, word)),
    }
    let extra = ["X", "U01", "0", "A1", ".", "*", "\t", "\r", "\0", "\u{e4}"];
    match random.below(25) {
        0 => words[0] = unknown_word(random, word),
        1 => words.push(random.pick(&extra).as_bytes().to_vec()),
        2 => words.truncate(random.within(1..=words.len() - 1)),
        3 => {
            // Out of order, or without the space between two of them.
            let at = random.below(words.len() - 1);
            let second = words.remove(at + 1);
            match random.below(2) {
                0 => words.insert(at, second),
                _ => words[at].extend(second),
            }
        }
        4 => words.insert(random.within(1..=words.len()), b"*".to_vec()),
        _ => {}
    }
    words
}

/// A word that is no message's.
fn unknown_word(random: &mut Random, word: &str) -> Vec<u8> {
    const WORDS: &[&str] = &[
        "DOWN", "UP", "SELECT", "RELEASE", "DELETE", "HSL", "FST", "DW", "DWNN", "AVLX", "KEY", "---", "C03", "0",
        "DWN\t", "SEL\r", "DEL\0", "DEL*", "\u{394}",
    ];
    match random.below(4) {
        // The bulletin's own word for `AVL`.
        0 => b"UPF".to_vec(),
        1 => word.to_lowercase().into_bytes(),
        2 => (0..random.within(1..=4)).map(|_| *random.pick(ODD_TEXT)).collect(),
        _ => random.pick(WORDS).as_bytes().to_vec(),
    }
}

/// `Ccc Uuu`, three of four times as they should be. Where one is wrong, the other often is too: the first of them
/// answers.
fn unit_fields(random: &mut Random, cell: &Cell, word: &str) -> [Vec<u8>; 2] {
    let (channel, unit) = unit(random, cell, word);
    let faults = [*random.pick(FAULTS), *random.pick(FAULTS)].map(Some);
    let [in_channel, in_unit] = match random.weighted(&[75, 8, 8, 9]) {
        0 => [None, None],
        1 => [faults[0], None],
        2 => [None, faults[1]],
        _ => faults,
    };
    [field(random, b'C', channel, in_channel), field(random, b'U', unit, in_unit)]
}

/// A unit, mostly one of the cell; for `AVL` often one with a mark.
fn unit(random: &mut Random, cell: &Cell, word: &str) -> (u8, u8) {
    let all = || cell.configuration().units();
    let marked = |state: ordinary::cell::Unit| state.down || state.reserved;
    let mut units: Vec<_> = all().filter(|&(channel, unit)| marked(cell.unit(channel, unit))).collect();
    if units.is_empty() || word == "DWN" || random.percent(50) {
        units = all().collect();
    }
    let any = |random: &mut Random| random.below(16) as u8;
    let channels: Vec<_> = cell.configuration().channels().map(|(number, _)| number.0).collect();
    match random.below(10) {
        // Any unit of a channel that is there, the drum's too, and of any channel.
        0 if !channels.is_empty() => (*random.pick(&channels), any(random)),
        1 => (any(random), any(random)),
        _ if units.is_empty() => (any(random), any(random)),
        _ => {
            let (channel, unit) = *random.pick(&units);
            (channel.0, unit.0)
        }
    }
}

/// A letter and a number, with this fault.
fn field(random: &mut Random, letter: u8, number: u8, fault: Option<Fault>) -> Vec<u8> {
    let mut digits = number.to_string();
    if fault == Some(Fault::TooLarge) || fault == Some(Fault::Nondigit) && random.percent(50) {
        digits = too_large(random, number);
    }
    if digits.len() < 2 || random.percent(20) {
        digits = "0".repeat(*random.pick(&[0, 0, 1, 1, 1, 2, 8, 20, 60])) + &digits;
    }
    let mut field = [&[letter], digits.as_bytes()].concat();
    match fault {
        None | Some(Fault::TooLarge) => {}
        Some(Fault::Nondigit) => {
            let at = random.within(1..=field.len());
            field.insert(at, *random.pick(b"XOlCU-+./:\0\t\r\x7f\x80\xff"));
        }
        Some(Fault::LetterAlone) => field.truncate(1),
        Some(Fault::NoLetter) => field = digits.into_bytes(),
        Some(Fault::OtherLetter) => field[0] = *random.pick(b"cuCUX0-\t"),
    }
    field
}

/// A number over 15. Many are the small one again where a number of 8 to 128 bits runs over, or where digits in front
/// or behind are left off.
fn too_large(random: &mut Random, small: u8) -> String {
    let small = u128::from(small);
    match random.below(11) {
        0..=2 => "16".to_string(),
        3 => random.within(17..=999).to_string(),
        4 => (small + (1 << *random.pick(&[8, 9, 16, 31]))).to_string(),
        5 => (small + (1 << *random.pick(&[32, 63, 64, 127]))).to_string(),
        // Two to the power of 128.
        6 => format!("34028236692093846346337460743176821145{}", 6 + small.min(3)),
        7 => {
            let width = *random.pick(&[2, 9, 10, 20, 40]);
            format!("1{small:0>width$}")
        }
        8 => format!("{}{}", small.max(2), "0".repeat(*random.pick(&[1, 3, 30]))),
        _ => "9".repeat(random.within(2..=50)),
    }
}

/// An ID: of a request in each of its states, and of none.
fn id(random: &mut Random, cell: &Cell, word: &str) -> Vec<u8> {
    let requests = cell.schedule().requests();
    // Suspended, waiting, running or closing, any, none of them.
    let weights = if word == "SEL" { [50, 10, 10, 15, 15] } else { [15, 15, 25, 25, 20] };
    let sort = random.weighted(&weights);
    let is_meant = |scheduled: &&Scheduled| match sort {
        0 => scheduled.state == State::Suspended,
        1 => scheduled.state == State::Waiting,
        2 => scheduled.state.place().is_some(),
        _ => true,
    };
    let ids: Vec<&str> = requests.iter().filter(is_meant).map(|scheduled| scheduled.request.id.as_str()).collect();
    if ids.is_empty() || sort == 4 && random.percent(30) {
        return random.pick(&["NOBODY", "A", "J1", "------", "TOOLONGID", "a", "C03"]).as_bytes().to_vec();
    }
    let id = random.pick(&ids).to_string();
    if sort < 4 {
        return id.into_bytes();
    }
    // Nearly one that is there.
    match random.below(6) {
        0 => format!("{id}{}", random.pick(&["X", "0", "XXXXXX", "/", "\t", "\r", "\0"])).into_bytes(),
        1 => format!("{}{id}", random.pick(&["*", "0", "\t", "-", "C"])).into_bytes(),
        2 => id.to_lowercase().into_bytes(),
        3 if id.len() > 1 => id[1..].to_string().into_bytes(),
        4 if id.len() > 1 => id[..id.len() - 1].to_string().into_bytes(),
        _ => [id.as_bytes(), &[*random.pick(ODD_TEXT)]].concat(),
    }
}

/// Words with spaces between them, and now and then with more spaces, before and behind too.
fn spaced(random: &mut Random, words: &[Vec<u8>]) -> Vec<u8> {
    let odd = random.percent(25);
    let spaces = |random: &mut Random, at_least: usize| {
        let more = if odd { *random.pick(&[0, 0, 1, 2, 7]) } else { 0 };
        vec![b' '; at_least + more]
    };
    let mut message = spaces(random, 0);
    for (at, word) in words.iter().enumerate() {
        message.extend(spaces(random, usize::from(at > 0)));
        message.extend(word);
    }
    message.extend(spaces(random, 0));
    message
}

/// A message whose line is just as long as a call may be, or a little shorter or longer: by spaces, by the digits of a
/// number or by the letters of an ID.
fn long(random: &mut Random, mut words: Vec<Vec<u8>>) -> Vec<u8> {
    let length = random.within(253..=258) - b"KEY ".len();
    let missing = length.saturating_sub(words.join(&b' ').len());
    let last = words.len() - 1;
    if random.percent(50) && last > 0 {
        let at = random.within(1..=last);
        let is_number = words[at].first().is_some_and(|letter| b"CU".contains(letter));
        let (place, fill) = if is_number { (1, b'0') } else { (words[at].len(), *random.pick(b"A0\t\0\xff")) };
        words[at].splice(place..place, vec![fill; missing]);
        return words.join(&b' ');
    }
    let at = random.below(words.len() + 1);
    let spaces = vec![b' '; missing];
    let (before, behind) = words.split_at(at);
    let between: &[u8] = if before.is_empty() || behind.is_empty() { b"" } else { b" " };
    [&before.join(&b' '), between, &spaces, &behind.join(&b' ')].concat()
}
