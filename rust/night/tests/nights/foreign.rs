//! Somebody else's hand in the journal while the night runs: noticed before the next answer.

use std::fs::{self, OpenOptions};
use std::io::{Read, Write};
use std::os::unix::fs::FileExt;
use std::path::Path;

use crate::support::{Place, Running};

const CONFIGURATION: &[u8] = b"1\n03 MT 4\n0\n2\n03\n11\n";

/// The night does not answer this line, and ends with these words.
fn ends(mut running: Running, line: &str, words: &str) {
    running.send(line.as_bytes());
    running.input = None;
    let mut given = Vec::new();
    running.output.read_to_end(&mut given).unwrap();
    let status = running.child.wait().unwrap();
    let said = running.said();
    assert_eq!((status.code(), String::from_utf8_lossy(&given).as_ref()), (Some(1), ""), "{line}: {said}");
    assert!(
        said.contains(words)
            && said.contains(", which had ")
            && said.contains(&format!("Not answered, and not kept: {}", line.trim_end())),
        "{said}"
    );
}

/// What somebody does to a journal, and what the night says of it.
fn noticed(name: &str, act: fn(&Path), words: &str) {
    for (lines, line) in [(1, "DOWN 3 2\n"), (1, "BOARD\n"), (40, "DOWN 3 2\n"), (40, "STATUS 0 0\n")] {
        let place = Place::new(name, CONFIGURATION);
        fs::write(place.beside(".rescued"), b"of another night").unwrap();
        let mut running = place.start();
        for _ in 0..lines {
            running.send(b"DOWN 3 1\n");
            assert_eq!(running.answer(4), b"ACK\n");
        }
        act(&place.journal());
        ends(running, line, words);
        if ["removed", "replaced"].contains(&name) {
            let rescued = night::store::look_at(&place.beside(".rescued-2")).unwrap();
            assert_eq!((rescued.calls.len(), rescued.torn), (lines, 0));
            assert_eq!(fs::read(place.beside(".rescued")).unwrap(), b"of another night");
        }
    }
}

#[test]
fn a_journal_that_is_removed_or_moved_is_noticed_and_rescued() {
    noticed("removed", |path| fs::remove_file(path).unwrap(), "was removed or moved away. What it had is now in");
    noticed("moved", |path| fs::rename(path, path.with_extension("old")).unwrap(), "was removed or moved away");
}

#[test]
fn a_journal_that_is_replaced_is_noticed_and_rescued() {
    let replace = |path: &Path| {
        let other = path.with_extension("other");
        fs::copy(path, &other).unwrap();
        fs::rename(other, path).unwrap();
    };
    noticed("replaced", replace, "was replaced by another file. What it had is now in");
}

#[test]
fn a_journal_that_is_cut_is_noticed() {
    let to_nothing = |path: &Path| OpenOptions::new().write(true).open(path).unwrap().set_len(0).unwrap();
    noticed("cut-to-nothing", to_nothing, "bytes to 0");
    let by_one = |path: &Path| {
        let file = OpenOptions::new().write(true).open(path).unwrap();
        file.set_len(file.metadata().unwrap().len() - 1).unwrap();
    };
    noticed("cut-by-one", by_one, "was cut by somebody else");
}

#[test]
fn a_journal_that_is_written_is_noticed() {
    let append = |path: &Path| OpenOptions::new().append(true).open(path).unwrap().write_all(b"x").unwrap();
    noticed("appended", append, "it has 1 bytes more than this night wrote");
    let change = |path: &Path| {
        let file = OpenOptions::new().write(true).open(path).unwrap();
        let middle = file.metadata().unwrap().len() / 2;
        file.write_all_at(b"~", middle).unwrap();
    };
    noticed("changed", change, "its bytes are not those that this night wrote");
}

#[test]
fn a_journal_whose_dates_or_rights_alone_change_is_written_on() {
    let place = Place::new("touched", CONFIGURATION);
    let mut running = place.start();
    for round in 1..=3 {
        running.send(b"DOWN 3 1\n");
        assert_eq!(running.answer(4), b"ACK\n");
        let file = OpenOptions::new().write(true).open(place.journal()).unwrap();
        file.set_modified(std::time::SystemTime::UNIX_EPOCH).unwrap();
        fs::hard_link(place.journal(), place.beside(&format!(".link{round}"))).unwrap();
        running.send(b"STATUS 0 0\n");
        assert_eq!(running.answer(10), b"ACK BLANK\n");
    }
    running.finish();
    assert_eq!(night::store::look_at(&place.journal()).unwrap().calls.len(), 3);
}
