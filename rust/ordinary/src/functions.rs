//! Which functions are legal on which kind.

use crate::numbers::Kind;

/// Remove logical interlock.
pub const REMOVE_INTERLOCK: u8 = 0o07;
/// Terminate.
pub const TERMINATE: u8 = 0o23;

/// The highest function number.
pub const LAST: u8 = 0o77;

const ALL: &[u8] = &[REMOVE_INTERLOCK, TERMINATE];

const MA: &[u8] = &[
    0o01, 0o02, 0o03, 0o04, 0o20, 0o21, 0o41, 0o42, 0o43, 0o46, 0o51, 0o52, 0o53, 0o56, 0o61, 0o62, 0o63, 0o66, 0o71,
    0o72, 0o73, 0o76,
];
const MT: &[u8] = &[0o02, 0o03, 0o04, 0o20, 0o21, 0o41, 0o42, 0o43, 0o46, 0o47, 0o61, 0o62, 0o63, 0o66, 0o67];
const PR: &[u8] = &[0o02, 0o03];
const MD: &[u8] = &[0o02, 0o42, 0o45, 0o46, 0o52, 0o55, 0o56, 0o62];
const MC: &[u8] = &[
    0o01, 0o02, 0o03, 0o04, 0o05, 0o06, 0o10, 0o20, 0o21, 0o37, 0o40, 0o42, 0o43, 0o44, 0o46, 0o47, 0o50, 0o52, 0o53,
    0o54, 0o56, 0o61, 0o64,
];
const CR: &[u8] = &[0o02, 0o03, 0o04, 0o05, 0o06, 0o41, 0o42, 0o44, 0o62, 0o63, 0o64];
const PT: &[u8] = &[0o02, 0o42, 0o62];

pub fn is_legal(kind: Kind, function: u8) -> bool {
    let of_kind = match kind {
        Kind::Ma => MA,
        Kind::Mt => MT,
        Kind::Pr => PR,
        Kind::Md => MD,
        Kind::Mc => MC,
        Kind::Cr => CR,
        Kind::Pt => PT,
    };
    ALL.contains(&function) || of_kind.contains(&function)
}

#[cfg(test)]
mod tests {
    use super::*;

    #[test]
    fn counts_of_the_lists() {
        let legal = |kind| (0..=LAST).filter(|&function| is_legal(kind, function)).count();
        let kinds = [Kind::Ma, Kind::Mt, Kind::Pr, Kind::Md, Kind::Mc, Kind::Cr, Kind::Pt];
        assert_eq!(kinds.map(legal), [24, 17, 4, 10, 25, 13, 5]);
    }

    /// On UNISERVO IIIC each reading or searching function in binary has its like in BCD, 10 octal above it.
    #[test]
    fn binary_and_bcd_go_together_on_mc() {
        for binary in [0o37, 0o40, 0o42, 0o43, 0o44, 0o46] {
            assert!(is_legal(Kind::Mc, binary) && is_legal(Kind::Mc, binary + 0o10), "{binary:o}");
        }
    }

    #[test]
    fn every_list_ascends() {
        for list in [MA, MT, PR, MD, MC, CR, PT] {
            assert!(list.windows(2).all(|pair| pair[0] < pair[1]), "{list:?}");
        }
    }
}
