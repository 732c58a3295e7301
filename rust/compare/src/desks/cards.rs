//! Cards of the desk's decks: PTY cards, and others, some of which are nearly PTY cards or the termination card.

use super::Desks;
use crate::decks::{CARD_CHARACTERS, TERMINATION};
use crate::random::{Random, ODD_BYTES};

/// Second fields that are nearly PTY.
const NO_PTY: &[&[u8]] = &[
    b"", b"PT", b"PTYY", b"PTYPTY", b"pty", b"Pty", b",PTY", b"FAC,PTY", b"PTY\r", b"\tPTY", b"P\0TY", b".PTY",
    b"P.TY", b"PT.Y", b"PTX", b"TY", b"YTP", b"PTY;", b"P-TY",
];

impl Desks<'_> {
    pub(super) fn cards(&mut self, count: usize) -> Vec<Vec<u8>> {
        let openers = *self.random.pick(&[20, 40, 60, 90]);
        let mut cards: Vec<Vec<u8>> = (0..count)
            .map(|_| if self.random.percent(openers) { self.pty_card() } else { self.other_card() })
            .collect();
        // A group of more cards than a request has.
        if self.random.percent(5) && !cards.is_empty() {
            let at = self.random.below(cards.len());
            let many = self.random.within(10..=40);
            let card = self.other_card();
            cards.splice(at..at, vec![card; many]);
        }
        cards
    }

    /// A card that opens a group, whatever else is wrong with it.
    fn pty_card(&mut self) -> Vec<u8> {
        let name = self.name();
        let mut front = [&name[..], b",PTY"].concat();
        if self.random.percent(25) {
            spaced(self.random, &mut front);
        }
        let behind: &[u8] = match self.random.below(8) {
            0 => b"",
            1 => b".",
            2 => b",",
            3 => b".,B7,PTY,",
            4 => b", 2,,ECU\0\xff",
            5 => b"  ",
            _ => b",2,,ECU,,T,PROG,P,02A5,P,3.",
        };
        let mut card = [&front[..], behind].concat();
        if self.random.percent(4) {
            let length = self.random.within(79..=82);
            card.resize(length.max(card.len()), *self.random.pick(b" X"));
        }
        card.push(b'\n');
        card
    }

    /// Any other card; some are nearly PTY cards.
    pub(super) fn other_card(&mut self) -> Vec<u8> {
        let name = self.name();
        let mut card = match self.random.weighted(&[35, 25, 8, 5, 10, 5, 6, 6]) {
            0 => {
                const BEHIND: &[&str] = &[",FAC,IB/1.", ",TAL,X/1.", ",TRN,4.", ",PM0, PTY,PTY.", ""];
                [&name[..], self.random.pick(BEHIND).as_bytes()].concat()
            }
            1 => [&name[..], b",", *self.random.pick(NO_PTY)].concat(),
            2 => [&name[..], *self.random.pick(&[&b".,PTY"[..], b" PTY", b";PTY", b"..PTY,2", b".PTY,2"])].concat(),
            3 => [&b"PTY,"[..], &name].concat(),
            4 => vec![b' '; self.random.pick(&[0, 0, 0, 1, 3, 80, 81]).to_owned()],
            5 => return nearly_termination(self.random),
            6 => {
                let length = if self.random.percent(10) { 3000 } else { self.random.within(78..=83) };
                self.random.text(CARD_CHARACTERS, length).into_bytes()
            }
            _ => {
                let length = self.random.below(12);
                (0..length).map(|_| *self.random.pick(ODD_BYTES)).filter(|&byte| byte != b'\n').collect()
            }
        };
        if self.random.percent(10) {
            spaced(self.random, &mut card);
        }
        card.push(b'\n');
        card
    }
}

/// Puts some spaces anywhere.
fn spaced(random: &mut Random, card: &mut Vec<u8>) {
    let many = if random.percent(3) { 100 } else { random.within(1..=4) };
    for _ in 0..many {
        let at = random.within(0..=card.len());
        card.insert(at, b' ');
    }
}

/// A card that differs from the termination card in a byte or two.
pub fn nearly_termination(random: &mut Random) -> Vec<u8> {
    let mut card = TERMINATION[..80].to_vec();
    match random.below(6) {
        0 => {
            let at = random.below(80);
            card[at] = *random.pick(b")+ (X\0");
        }
        1 => card.push(*random.pick(b" )\r")),
        2 => {
            card.pop();
        }
        3 => card.insert(0, *random.pick(b" )X")),
        4 => {
            // The edges of the three runs.
            let at = *random.pick(&[0, 7, 8, 9, 21, 22, 71, 72, 79]);
            card[at] = if card[at] == b' ' { *random.pick(b")+") } else { b' ' };
        }
        _ => {
            let at = random.below(80);
            card.remove(at);
        }
    }
    card.push(b'\n');
    card
}
