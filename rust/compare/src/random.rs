//! A small generator of random numbers (splitmix64), so that a seed gives the same input everywhere.

use std::ops::RangeInclusive;

pub struct Random(u64);

impl Random {
    pub fn new(seed: u64) -> Random {
        Random(seed.wrapping_mul(0x9e37_79b9_7f4a_7c15) ^ 0x5851_f42d_4c95_7f2d)
    }

    fn next(&mut self) -> u64 {
        self.0 = self.0.wrapping_add(0x9e37_79b9_7f4a_7c15);
        let mut z = self.0;
        z = (z ^ (z >> 30)).wrapping_mul(0xbf58_476d_1ce4_e5b9);
        z = (z ^ (z >> 27)).wrapping_mul(0x94d0_49bb_1331_11eb);
        z ^ (z >> 31)
    }

    pub fn below(&mut self, end: usize) -> usize {
        (self.next() % end as u64) as usize
    }

    pub fn within(&mut self, range: RangeInclusive<usize>) -> usize {
        range.start() + self.below(range.end() - range.start() + 1)
    }

    pub fn percent(&mut self, percent: usize) -> bool {
        self.below(100) < percent
    }

    pub fn pick<'a, T>(&mut self, from: &'a [T]) -> &'a T {
        &from[self.below(from.len())]
    }

    /// An index, each as likely as its weight says.
    pub fn weighted(&mut self, weights: &[usize]) -> usize {
        let mut at = self.below(weights.iter().sum());
        for (index, &weight) in weights.iter().enumerate() {
            if at < weight {
                return index;
            }
            at -= weight;
        }
        unreachable!("the weights add up to their sum")
    }

    /// Puts what is there into any order.
    pub fn shuffle<T>(&mut self, all: &mut [T]) {
        for at in (1..all.len()).rev() {
            all.swap(at, self.below(at + 1));
        }
    }

    /// Text of this length with characters of the alphabet.
    pub fn text(&mut self, alphabet: &str, length: usize) -> String {
        (0..length).map(|_| char::from(*self.pick(alphabet.as_bytes()))).collect()
    }
}

/// Bytes that a reader may stumble over.
pub const ODD_BYTES: &[u8] = b"\0\t\r\n \x0b\x1f!\"+,-./09:;=@AZ[`az{~\x7f\x80\xa0\xc3\xff";

/// One change of a byte text: a byte or a line replaced, inserted, dropped, moved or doubled.
pub fn damage(random: &mut Random, text: &mut Vec<u8>) {
    if text.is_empty() {
        text.push(*random.pick(ODD_BYTES));
        return;
    }
    let at = random.below(text.len());
    match random.below(8) {
        0 | 1 => text[at] = *random.pick(ODD_BYTES),
        2 => text.insert(at, *random.pick(ODD_BYTES)),
        3 | 4 => {
            text.remove(at);
        }
        5 => text.truncate(at),
        6 => {
            let to = random.below(text.len());
            text.swap(at, to);
        }
        _ => damage_lines(random, text),
    }
}

fn damage_lines(random: &mut Random, text: &mut Vec<u8>) {
    let mut lines: Vec<Vec<u8>> = text.split_inclusive(|&byte| byte == b'\n').map(<[u8]>::to_vec).collect();
    let at = random.below(lines.len());
    let to = random.below(lines.len());
    match random.below(3) {
        0 => lines.swap(at, to),
        1 => {
            lines.remove(at);
        }
        _ => {
            let line = lines[at].clone();
            lines.insert(to, line);
        }
    }
    *text = lines.concat();
}
