//! The check sum of records and answers: CRC-64 with the polynomial of ECMA-182, as the XZ format has it.

const POLYNOMIAL: u64 = 0xc96c_5795_d787_0f42;
const TABLE: [u64; 256] = table();

/// What a byte does to the sum.
const fn entry(byte: usize) -> u64 {
    let mut sum = byte as u64;
    let mut bit = 0;
    while bit < 8 {
        sum = if sum & 1 == 1 { (sum >> 1) ^ POLYNOMIAL } else { sum >> 1 };
        bit += 1;
    }
    sum
}

const fn table() -> [u64; 256] {
    let mut table = [0; 256];
    let mut byte = 0;
    while byte < 256 {
        table[byte] = entry(byte);
        byte += 1;
    }
    table
}

/// The check sum of a text. Any change within 64 bits gives another one.
pub fn check_sum(text: &[u8]) -> u64 {
    continued(0, text)
}

/// The check sum of a text of which this is the sum so far, and these are the bytes that follow.
pub fn continued(sum: u64, text: &[u8]) -> u64 {
    let step = |sum: u64, byte: &u8| TABLE[usize::from(sum as u8 ^ byte)] ^ (sum >> 8);
    !text.iter().fold(!sum, step)
}

#[cfg(test)]
mod tests {
    use super::*;

    #[test]
    fn the_sum_of_the_nine_digits_is_the_published_one() {
        assert_eq!(check_sum(b"123456789"), 0x995d_c9bb_df19_39fa);
        assert_eq!(check_sum(b""), 0);
        assert_eq!(continued(check_sum(b"1234"), b"56789"), 0x995d_c9bb_df19_39fa);
    }
}
