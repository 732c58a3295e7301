//! What an interrupted append leaves is dropped and shown; a record that was changed is not dropped.

use crate::support::{said, Place};

const CONFIGURATION: &[u8] = b"1\n03 MT 4\n0\n2\n03\n11\n";
const LAST: &[&[u8]] = &[b"DOWN 3 2\n", b"DOWN 3 2\nRESERVE 3 3\nKEY DWN C03 U00\n"];

/// A journal whose last record has the calls, and where that record begins.
fn place(name: &str, last: &[u8]) -> (Place, Vec<u8>, usize) {
    let place = Place::new(name, CONFIGURATION);
    place.answers(b"DOWN 3 1\n");
    let start = place.journal_bytes().len();
    place.answers(last);
    let bytes = place.journal_bytes();
    (place, bytes, start)
}

#[test]
fn one_changed_byte_of_the_last_record_is_refused_and_nothing_is_dropped() {
    for (name, last) in ["flipped-1", "flipped-3"].into_iter().zip(LAST) {
        let (place, bytes, start) = place(name, last);
        for at in start..bytes.len() {
            for changed in [bytes[at] ^ (1 << (at % 8)), 0] {
                let mut damaged = bytes.clone();
                damaged[at] = changed;
                std::fs::write(place.journal(), &damaged).unwrap();
                place.is_refused("record 2 is damaged");
                assert!(place.journal_bytes() == damaged && !place.beside(".torn").exists(), "byte {at}");
            }
        }
        // What to do is said, and works.
        let output = place.run(b"");
        assert!(
            said(&output).contains(&format!("`head -c {start} '{}' > NEW`", place.journal().display())),
            "{}",
            said(&output)
        );
        std::fs::write(place.journal(), &bytes[..start]).unwrap();
        assert!(place.answers(b"BOARD\n").starts_with(b"UNIT 03/01 DOWN\nCORE"));
    }
}

#[test]
fn what_is_cut_or_was_never_written_is_dropped_kept_beside_and_shown() {
    for (name, last) in ["cut-1", "cut-3"].into_iter().zip(LAST) {
        let (place, bytes, start) = place(name, last);
        for at in (start + 1..bytes.len() - 1).step_by(3) {
            let zeroed = [&bytes[..at], &vec![0; bytes.len() - at]].concat();
            for torn in [bytes[..at].to_vec(), zeroed] {
                let _ = std::fs::remove_file(place.beside(".torn"));
                std::fs::write(place.journal(), &torn).unwrap();
                let output = place.run(b"BOARD\n");
                assert!(output.status.success() && output.stdout.starts_with(b"UNIT 03/01 DOWN\nCORE"), "byte {at}");
                let said = said(&output);
                assert!(said.contains("Probably never answered: look at the heads"), "{said}");
                assert!(said.contains(".torn:\n") && (at < start + 2 || said.contains("night:   @")), "{said}");
                assert_eq!(std::fs::read(place.beside(".torn")).unwrap(), torn[start..]);
                assert_eq!(place.journal_bytes(), bytes[..start]);
            }
        }
    }
}

#[test]
fn a_second_tear_is_kept_behind_the_first() {
    let (place, bytes, start) = place("torn-twice", LAST[0]);
    for _ in 0..2 {
        std::fs::write(place.journal(), &bytes[..bytes.len() - 3]).unwrap();
        place.answers(b"");
    }
    assert_eq!(std::fs::read(place.beside(".torn")).unwrap(), bytes[start..bytes.len() - 3].repeat(2));
    // Where it cannot be kept, nothing is dropped.
    std::fs::remove_file(place.beside(".torn")).unwrap();
    std::fs::create_dir(place.beside(".torn")).unwrap();
    std::fs::write(place.journal(), &bytes[..bytes.len() - 3]).unwrap();
    place.is_refused("what is torn cannot be kept in");
    assert_eq!(place.journal_bytes(), bytes[..bytes.len() - 3]);
}
