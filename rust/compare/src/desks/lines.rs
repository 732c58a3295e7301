//! The lines that are asked.

use super::cards::nearly_termination;
use super::{id, Desks};
use crate::decks::TERMINATION;
use crate::random::ODD_BYTES;

impl Desks<'_> {
    /// The lines that are asked, the last one now and then without LF.
    pub(super) fn lines(&mut self) -> Vec<Vec<u8>> {
        let count = match self.random.below(100) {
            0..3 => 0,
            3 if !self.is_short => self.random.within(100..=300),
            _ => self.random.within(1..=12),
        };
        let mut lines: Vec<Vec<u8>> = (0..count).map(|_| [self.line(), b"\n".to_vec()].concat()).collect();
        if self.random.percent(20) {
            if let Some(last) = lines.last_mut() {
                last.pop();
            }
        }
        lines
    }

    fn line(&mut self) -> Vec<u8> {
        let name = self.name();
        match self.random.weighted(&[60, 8, 18, 4, 4, 3, 3]) {
            0 => name,
            1 => id(self.random).into_bytes(),
            2 => self.nearly(name),
            3 => Vec::new(),
            // A card, the termination card too.
            4 => match self.random.below(4) {
                0 => TERMINATION[..80].to_vec(),
                1 => [&name[..], b",PTY,2."].concat(),
                2 => [&name[..], b",FAC,IB/1."].concat(),
                _ => nearly_termination(self.random).split(|&byte| byte == b'\n').next().unwrap_or_default().to_vec(),
            },
            5 => self
                .random
                .pick(&[&b"#"[..], b"# A1", b"END", b"*", b".", b",", b" ", b"\0", b"BOARD", b"DECK"])
                .to_vec(),
            _ => self.long(name),
        }
    }

    /// A line that is the name but for a little.
    fn nearly(&mut self, mut name: Vec<u8>) -> Vec<u8> {
        match self.random.below(9) {
            0 => [&name[..], b" "].concat(),
            1 => [b" ", &name[..]].concat(),
            2 => {
                let at = self.random.within(0..=name.len());
                name.insert(at, *self.random.pick(ODD_BYTES));
                name.retain(|&byte| byte != b'\n');
                name
            }
            3 => [&name[..], *self.random.pick(&[&b"\r"[..], b",", b".", b"\0", b"A", b"1", b",PTY"])].concat(),
            4 => name.to_ascii_lowercase(),
            5 => name.to_ascii_uppercase(),
            6 => {
                name.pop();
                name
            }
            7 => name.iter().skip(1).copied().collect(),
            _ => name.repeat(2),
        }
    }

    /// A line that is longer than an ID, and begins or ends with the name.
    fn long(&mut self, name: Vec<u8>) -> Vec<u8> {
        const LENGTHS: &[usize] =
            &[1, 5, 6, 7, 8, 74, 80, 81, 82, 128, 255, 256, 257, 4096, 5000, 16_384, 16_385, 65_536, 70_000];
        let most = if self.is_short || self.random.percent(80) { 13 } else { LENGTHS.len() };
        let filler = vec![*self.random.pick(b" \0AX0"); LENGTHS[self.random.below(most)]];
        if self.random.percent(50) {
            [name, filler].concat()
        } else {
            [filler, name].concat()
        }
    }
}
