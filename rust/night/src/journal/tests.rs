//! What is written is read; what is torn, damaged or no journal is told apart, byte by byte.

use super::*;

const CONFIGURATION: &[u8] = b"1\n03 MT 4\n0\n2\n03\n11\n";
const ORIGIN: Origin = Origin { script: 7, program: 0x0123_4567_89ab_cdef };
const BEGUN: Time = Time(1_794_883_267_123);

fn answered(text: &str, answer: &str) -> Answered {
    Answered::new(Call { text: text.into(), open: false }, answer.as_bytes())
}

fn calls() -> Vec<Answered> {
    let mut calls = vec![
        answered("SELECT\n", "NO 20 A1 CORE\n"),
        answered("DECK\n@ 1 0 0\n\n\u{e4}\0\n", "SP A ER 1\n------ SCH ACK\n"),
        answered("KEY x\n", "--- 17 IN ER\n"),
        answered("DECK\nX\n", "NO 11\n"),
        answered("SILENT\n", ""),
    ];
    calls[3].call.open = true;
    let seconds = [1, 1, 2, 2, 2];
    calls.iter_mut().zip(seconds).for_each(|(call, at)| call.time = Some(Time(BEGUN.0 + 1000 * at)));
    calls
}

/// A journal's bytes, and where each record begins. The last record has so many calls.
fn journal(last: usize) -> (Vec<u8>, Vec<usize>) {
    let (mut bytes, mut chain) = write_beginning(&ORIGIN, BEGUN, CONFIGURATION);
    let mut starts = vec![bytes.iter().position(|&byte| byte == b'\n').unwrap() + 1];
    let calls = calls();
    let first = 5 - last;
    for (number, from, to, jump) in [(1, 0, first, None), (2, first, 5, Some(-3_600_000))] {
        starts.push(bytes.len());
        let body = write_calls(from + 1, jump, &calls[from..to]);
        let (record, sum) = write_record(chain, number, Time(BEGUN.0 + 1000 * number), &body);
        bytes.extend(record);
        chain = sum;
    }
    (bytes, starts)
}

/// The same in the first format.
fn first_journal(last: usize) -> (Vec<u8>, Vec<usize>) {
    let lines = CONFIGURATION.split_inclusive(|&byte| byte == b'\n');
    let body: Vec<u8> = lines.flat_map(|line| [b":", line].concat()).collect();
    let mut bytes = [first::HEADER, &first::write_record(0, &body).0].concat();
    let mut starts = vec![first::HEADER.len()];
    let first = 5 - last;
    for (number, from, to) in [(1, 0, first), (2, first, 5)] {
        starts.push(bytes.len());
        bytes.extend(first::write_next(0, number, from + 1, &calls()[from..to]).0);
    }
    (bytes, starts)
}

/// What the last record is taken for: whole, torn or damaged. The others are whole in any case.
fn last_record(bytes: &[u8]) -> &'static str {
    match read(bytes) {
        Ok(Journal { records: 3, torn: 0, .. }) => "whole",
        Ok(Journal { records: 2, torn: 1.., .. }) => "torn",
        Err(Fault::Damaged { record: 2, calls: 1.., length: 100.. }) => "damaged",
        other => panic!("{other:?}"),
    }
}

#[test]
fn what_is_written_is_read() {
    let (bytes, _) = journal(3);
    let read = read(&bytes).unwrap();
    assert_eq!((read.format, read.origin, read.begun), (Format::Second, Some(ORIGIN), Some(BEGUN)));
    assert_eq!(read.configuration.as_deref(), Some(CONFIGURATION));
    assert_eq!(read.calls, calls());
    assert_eq!(read.jumps, [Jump { call: 3, by: -3_600_000 }]);
    assert_eq!((read.records, read.length, read.torn), (3, bytes.len(), 0));
    assert_eq!(read.last(), Some(Time(BEGUN.0 + 2000)));
}

#[test]
fn the_first_format_is_read_and_has_no_times() {
    let read = read(&first_journal(3).0).unwrap();
    assert_eq!((read.format, read.origin, read.begun, read.last()), (Format::First, None, None, None));
    for (read, due) in read.calls.iter().zip(calls()) {
        assert_eq!((&read.call, read.answer.line(), read.time), (&due.call, due.answer.line(), None));
        assert!(read.answer.is(due.answer.text().unwrap()) && !read.answer.is(b"NO 1\n"));
    }
    assert_eq!(read.calls[1].answer.text(), None);
}

#[test]
fn a_last_record_that_is_cut_is_torn_and_the_others_are_kept() {
    for (bytes, starts) in [journal(1), journal(4), first_journal(1), first_journal(4)] {
        for length in starts[2] + 1..bytes.len() {
            assert_eq!(last_record(&bytes[..length]), "torn", "cut at {length}");
        }
        for length in 0..bytes.len() {
            let read = read(&bytes[..length]).unwrap();
            let whole = starts.iter().skip(1).filter(|&&start| start <= length).count();
            assert_eq!((read.records, read.length + read.torn), (whole as u64, length), "cut at {length}");
        }
    }
}

/// Where the length of the record that begins here can be read: after its length, or in the first format after its line.
fn known_from(bytes: &[u8], start: usize) -> usize {
    let is_second = read(bytes).unwrap().format == Format::Second;
    let (mark, skipped) = if is_second { (b' ', 5) } else { (b'\n', 1) };
    bytes[start..].iter().skip(skipped).position(|&byte| byte == mark).unwrap() + start + skipped + 1
}

#[test]
fn a_last_record_of_which_the_end_was_never_written_is_torn() {
    for (bytes, starts) in [journal(1), journal(4), first_journal(1), first_journal(4)] {
        for from in starts[2]..bytes.len() - 1 {
            let mut unwritten = bytes.clone();
            unwritten[from..].fill(0);
            assert_eq!(last_record(&unwritten), "torn", "zeros from {from}");
            // An append is never longer than its record: after one whose length can be read no zeros are due.
            let longer = [&unwritten[..], &[0; 100]].concat();
            let taken = if from < known_from(&bytes, starts[2]) { "torn" } else { "damaged" };
            assert_eq!(last_record(&longer), taken, "zeros from {from} on");
        }
        // Nothing that was said is missing.
        let all_said = [&bytes[..bytes.len() - 1], &[0]].concat();
        assert_eq!(last_record(&all_said), "damaged");
    }
}

#[test]
fn a_last_record_of_full_length_with_one_byte_changed_is_damaged() {
    for (bytes, starts) in [journal(1), journal(4), first_journal(1), first_journal(4)] {
        for at in starts[2]..bytes.len() {
            for bit in 0..8 {
                let mut changed = bytes.clone();
                changed[at] ^= 1 << bit;
                assert_eq!(last_record(&changed), "damaged", "byte {at}, bit {bit}");
            }
            let mut changed = bytes.clone();
            changed[at] = 0;
            assert_eq!(last_record(&changed), if bytes[at] == 0 { "whole" } else { "damaged" }, "byte {at} zeroed");
        }
    }
}

#[test]
fn any_changed_byte_is_noticed() {
    for (bytes, starts) in [journal(3), first_journal(3)] {
        for at in 0..starts[2] {
            let mut changed = bytes.clone();
            changed[at] ^= 1 << (at % 8);
            let due = starts.iter().filter(|&&start| start <= at).count().saturating_sub(1);
            match read(&changed) {
                Err(Fault::NoJournal | Fault::OtherVersion) => assert!(at < starts[0], "byte {at}"),
                Err(Fault::Damaged { record, .. }) => assert_eq!(record as usize, due, "byte {at}"),
                Ok(read) => panic!("byte {at}: {read:?}"),
            }
        }
    }
}

#[test]
fn a_record_that_is_missing_doubled_or_of_another_journal_is_noticed() {
    let (bytes, starts) = journal(3);
    let number = |bytes: &[u8]| match read(bytes) {
        Err(Fault::Damaged { record, .. }) => record,
        other => panic!("{other:?}"),
    };
    assert_eq!(number(&[&bytes[..starts[1]], &bytes[starts[2]..]].concat()), 1);
    assert_eq!(number(&[&bytes[..starts[2]], &bytes[starts[1]..]].concat()), 2);
    // Both have a last record of this number, with as many calls before it.
    let (mut other, mut chain) = write_beginning(&ORIGIN, Time(BEGUN.0 + 1), CONFIGURATION);
    for number in [1, 2] {
        let body = write_calls(number as usize, None, &[answered("SELECT\n", "NO 19\n")]);
        let (record, sum) = write_record(chain, number, BEGUN, &body);
        (other, chain) = ([other, record].concat(), sum);
    }
    let last = other.windows(4).position(|part| part == b"\n@ 2").unwrap();
    assert_eq!(number(&[&bytes[..starts[2]], &other[last..]].concat()), 2);
}

#[test]
fn times_that_go_back_are_none_of_ours() {
    let (mut bytes, chain) = write_beginning(&ORIGIN, BEGUN, CONFIGURATION);
    let body = write_calls(1, None, &calls()[..1]);
    bytes.extend(write_record(chain, 1, Time(BEGUN.0 - 1), &body).0);
    assert!(matches!(read(&bytes), Err(Fault::Damaged { record: 1, .. })));
}

#[test]
fn other_files_are_no_journals() {
    assert_eq!(read(b"root:x:0:0\n"), Err(Fault::NoJournal));
    assert_eq!(read(b"a short text"), Err(Fault::NoJournal));
    assert_eq!(read(&[b'x'; 5000]), Err(Fault::NoJournal));
    assert_eq!(read(b"luffgravel night journal 3\n"), Err(Fault::OtherVersion));
    assert_eq!(read(b"luffgravel night journal 2\n"), Err(Fault::OtherVersion));
    // One that an editor of another machine has saved is damaged from its first line on.
    let text = String::from_utf8(write_beginning(&ORIGIN, BEGUN, CONFIGURATION).0).unwrap();
    let damaged = Err(Fault::Damaged { record: 0, calls: 0, length: 0 });
    assert_eq!(read(text.replace('\n', "\r\n").as_bytes()), damaged);
    assert_eq!(read(text.replace("script 7", "script x").as_bytes()), damaged);
    assert_eq!(read(&[0; 5000]).map(|journal| journal.configuration), Ok(None));
}
