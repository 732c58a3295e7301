//! The linked functions answer what `ordinary` answers: the public cases, every function code on every pair of
//! letters, and core of every size asked of many words.

use std::num::NonZeroUsize;
use std::path::Path;

use cases::{cases, Case};
use controller::{Deck, Shown, Starts, DECK_ROOM, LISTING_ROOM};
use ordinary::assign::{assign, Free};
use ordinary::card::{Code, Entry, Request};
use ordinary::configuration::Configuration;
use ordinary::deck::is_termination;
use ordinary::numbers::{Kind, LogicalChannel};
use ordinary::Refusal;

/// Every room up to the text and a little beyond gets the front of the text, and its other bytes are kept.
#[track_caller]
fn cut(path: &Path, whole: &[u8], put: impl Fn(&mut [u8]) -> usize) {
    // Long texts are cut at some places only.
    let step = whole.len() / 64 + 1;
    for size in (0..whole.len() + 3).step_by(step) {
        let mut room: Vec<u8> = (0..size + 8).map(|at| at as u8 ^ 0xa5).collect();
        let mut expected = room.clone();
        let fits = size.min(whole.len());
        expected[..fits].copy_from_slice(&whole[..fits]);
        assert_eq!(put(&mut room[..size]), fits, "{} in {size} bytes", path.display());
        assert!(room == expected, "{} in {size} bytes", path.display());
    }
}

#[test]
fn listing() {
    for case in cases("listing") {
        let mut room = [0; LISTING_ROOM];
        let answered = controller::listing(&case.input, &mut room);
        case.is_answered(answered);
        case.is_same(answered, ordinary::configuration::listing(&case.input).as_bytes());
        cut(&case.path, answered, |room| controller::listing_into(&case.input, room));
    }
}

#[test]
fn deck() {
    let before: [u8; DECK_ROOM] = std::array::from_fn(|at| at as u8 ^ 0xa5);
    for case in cases("deck") {
        let mut room = before;
        let answered = controller::deck(&case.input, &mut room);
        case.is_answered(answered);
        case.is_same(answered, ordinary::deck::report(&case.input).as_bytes());
        // Every byte after the report is kept.
        let length = case.output.len();
        assert!(room[length..] == before[length..], "{}", case.path.display());
    }
}

/// Both decks of an input of the desk program, as far as they are there, and what follows them.
fn desk_input(input: &[u8]) -> (&[u8], &[u8], &[u8]) {
    let deck_of = |text: &[u8]| {
        let mut end = 0;
        for line in text.split_inclusive(|&byte| byte == b'\n') {
            end += line.len();
            if line.strip_suffix(b"\n").is_some_and(is_termination) {
                break;
            }
        }
        end
    };
    let (repair, rest) = input.split_at(deck_of(input));
    let (day, rest) = rest.split_at(deck_of(rest));
    (repair, day, rest)
}

/// What `ordinary` shows, in the words of the linked function.
fn ordinary_shown<'a>(id: &[u8], repair: &'a [u8], day: &'a [u8]) -> Result<Shown<'a>, u8> {
    use ordinary::desk::{show, Shown as Ordinary};
    let (deck, part, text) = match show(id, repair, day).map_err(Refusal::number)? {
        Ordinary::Repair(part) => (Deck::Repair, part, repair),
        Ordinary::Day(part) => (Deck::Day, part, day),
    };
    Ok(Shown { deck, from: part.from, cards: part.of(text) })
}

#[test]
fn desk() {
    let mut answers = [0; 4];
    for Case { path, input, .. } in cases("desk") {
        let (repair, day, lines) = desk_input(&input);
        // What follows the termination card of a deck is handed over too, now and then too much.
        for (repair, day) in [(repair, day), (day, repair), (&input[..], day), (day, &input[..]), (lines, day)] {
            for id in lines.split(|&byte| byte == b'\n').take(20).chain([&b"A1"[..], b"B7", b"", b"no ID"]) {
                let shown = controller::desk(id, repair, day);
                assert_eq!(shown, ordinary_shown(id, repair, day), "{} {id:?}", path.display());
                // It is a part of the deck that was lent, and no copy.
                if let Ok(Shown { deck, from, cards }) = shown {
                    let lent = if deck == Deck::Repair { repair } else { day };
                    assert_eq!(cards.as_ptr(), lent[from..].as_ptr());
                }
                answers[match shown {
                    Ok(Shown { deck: Deck::Repair, .. }) => 0,
                    Ok(Shown { deck: Deck::Day, .. }) => 1,
                    Err(11) => 2,
                    Err(_) => 3,
                }] += 1;
            }
        }
    }
    assert!(answers.into_iter().min() > Some(50), "{answers:?}");
}

#[test]
fn bad_line() {
    let mut bad = 0;
    for Case { path, input, .. } in cases("listing") {
        let expected = Configuration::from_text(&input).err().map(|line| line.0);
        assert_eq!(controller::bad_line(&input).map(NonZeroUsize::get), expected, "{}", path.display());
        bad += usize::from(expected.is_some());
    }
    assert!(bad > 0);
    assert_eq!(controller::bad_line(b"").map(NonZeroUsize::get), Some(1));
    assert_eq!(controller::bad_line(b"0\n0\n").map(NonZeroUsize::get), Some(3));
    assert_eq!(controller::bad_line(b"0\n0\n0\n"), None);
    assert_eq!(controller::bad_line(b"0\n0\n2\n02\n77\n"), None);
    assert_eq!(controller::bad_line(b"0\n0\n2\n15\n16\n").map(NonZeroUsize::get), Some(5));
}

#[test]
fn legality() {
    let mut legal = 0;
    for letters in 0..=u16::MAX {
        let letters = letters.to_be_bytes();
        let kind = Kind::from_letters(&letters);
        for function in 0..=u8::MAX {
            let expected = kind.is_some_and(|kind| ordinary::functions::is_legal(kind, function));
            assert_eq!(controller::is_legal(letters, function), expected, "{letters:?} {function:o}");
            legal += u32::from(expected);
        }
    }
    // MA, MT, PR, MD, MC, CR and PT.
    assert_eq!(legal, 24 + 17 + 4 + 10 + 25 + 13 + 5);
}

/// What `ordinary` assigns to a request for core alone.
fn ordinary_starts(taken: u32, ib: u32, db: u32) -> Option<Starts> {
    let mut request = Request::read(&[b"A1,PTY,2,,ECU,,T,PROG,P,A5,P,3.", b"A1,FAC,IB/1."]).unwrap();
    let entry = |code, n| Entry { code, logical: LogicalChannel(0), n };
    request.entries = vec![entry(Code::Ib, ib), entry(Code::Db, db)];
    let core = std::array::from_fn(|block| taken >> block & 1 == 0);
    let free = Free { core, drum: 0..0, drum_held: Vec::new(), channels: Vec::new() };
    let assignment = assign(&request, &free).ok()?;
    Some(Starts { ib: assignment.ib.start, db: assignment.db.start })
}

#[test]
fn marked_core() {
    let executives = 1 | 1 << 1 | 1 << 30 | 1 << 31;
    // K2: fresh core, IB/28 starts at 2.
    assert_eq!(controller::core_starts(executives, 28, 0), Some(Starts { ib: 2, db: 0 }));
    assert_eq!(controller::core_starts(executives, 29, 0), None);
    // K4: free blocks 2-4 and 8-9, IB/2 and DB/3: IB at 8, DB at 2.
    let free = 0b111 << 2 | 0b11 << 8;
    assert_eq!(controller::core_starts(!free, 2, 3), Some(Starts { ib: 8, db: 2 }));
}

#[test]
fn core() {
    // xorshift: words of every density, the first ones with few blocks taken.
    let mut state: u64 = 0x9e37_79b9_7f4a_7c15;
    let mut next = || {
        state ^= state << 13;
        state ^= state >> 7;
        state ^= state << 17;
        state as u32
    };
    let mut answers = [0; 2];
    for round in 0..200 {
        let taken = match round % 4 {
            0 => next() & next() & next() & next(),
            1 => next() & next() & next(),
            2 => next() & next(),
            _ => next(),
        };
        for ib in 0..31 {
            for db in 0..31 {
                let expected = ordinary_starts(taken, ib, db);
                assert_eq!(controller::core_starts(taken, ib, db), expected, "{taken:032b} {ib} {db}");
                answers[usize::from(expected.is_some())] += 1;
            }
        }
    }
    assert!(answers.into_iter().min() > Some(1000), "{answers:?}");
    for many in [32, 1 << 16, u32::MAX] {
        assert_eq!(controller::core_starts(0, many, 0), None);
        assert_eq!(controller::core_starts(0, 1, many), None);
    }
}
