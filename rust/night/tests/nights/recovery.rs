//! What a night does with its journal when it starts, and when the program beneath it dies or is another one.

use std::os::unix::fs::PermissionsExt;
use std::process::Command;

use night::calls::Call;
use night::journal::{write_record, Fault};
use ordinary::shift::converse;

use crate::random::Random;
use crate::support::{said, script, Place, Script};

const CONFIGURATION: &[u8] = b"1\n03 MT 4\n0\n2\n03\n11\n";

fn whole(script: &Script) -> Vec<u8> {
    script.steps.iter().flat_map(|step| step.text.clone()).collect()
}

#[test]
fn whole_nights_are_answered_as_the_ordinary_cell_does_to_the_byte() {
    for seed in 0..25 {
        let script = script(seed, 600);
        let place = Place::new("whole", &script.configuration);
        // Any pieces, and ends in the middle of something; the last one ends the night.
        let input = whole(&script);
        for (from, end) in [
            (0, ""),
            (input.len(), "BOARD"),
            (input.len(), "DECK"),
            (input.len(), "DECK\nX\nY"),
            (input.len(), "SELECT\n#"),
        ] {
            let said = [&input[from..], end.as_bytes()].concat();
            let all = converse(&[&script.configuration, &input[..], end.as_bytes()].concat());
            let before = if from > 0 { converse(&[&script.configuration, &input[..from]].concat()).len() } else { 0 };
            // What an end before this one changed is only a selection, the last.
            assert_eq!(String::from_utf8_lossy(&place.answers(&said)), String::from_utf8_lossy(&all[before..]));
        }
    }
}

#[test]
fn calls_whose_answer_is_said_to_be_one_line_have_one_line() {
    let mut counts = [0, 0];
    for seed in 0..25 {
        for step in script(seed, 600).steps {
            let has_line = Call { text: step.text.clone(), open: false }.has_line();
            counts[usize::from(has_line)] += 1;
            let lines = step.due.iter().filter(|&&byte| byte == b'\n').count();
            assert!(!has_line || lines == 1, "{}: {lines} lines", String::from_utf8_lossy(&step.text));
        }
    }
    assert!(counts[0] > 1000 && counts[1] > 5000, "{counts:?}");
}

#[test]
fn a_torn_last_record_is_dropped_and_the_others_are_kept() {
    let mut random = Random::new(1);
    for seed in 0..25 {
        let script = script(seed, 60);
        let place = Place::new("torn", &script.configuration);
        let half = script.steps.len() / 2;
        let first: Vec<u8> = script.steps[..half].iter().flat_map(|step| step.text.clone()).collect();
        place.answers(&first);
        let bytes = place.journal_bytes();
        place.answers(b"SELECT\n");
        let longer = place.journal_bytes();
        let cut = random.within(bytes.len() + 1..=longer.len() - 2);
        let mut torn = longer[..cut].to_vec();
        // The disk may have made room for what was not yet written through.
        torn.resize(longer.len() - random.below(longer.len() - cut), 0);
        std::fs::write(place.journal(), &torn).unwrap();
        let output = place.run(b"BOARD\n");
        let ordinary = &mut script.steps[half - 1].after.clone();
        assert_eq!(String::from_utf8_lossy(&output.stdout), String::from_utf8_lossy(&ordinary.answer_line(b"BOARD")));
        assert!(String::from_utf8_lossy(&output.stderr).contains("is torn"));
        assert_eq!(std::fs::read(place.beside(".torn")).unwrap(), torn[bytes.len()..]);
        assert!(place.journal_bytes().starts_with(&bytes));
        assert_eq!(night::store::look_at(&place.journal()).unwrap().torn, 0);
    }
}

#[test]
fn a_damaged_record_stops_the_start_and_changes_nothing() {
    let mut random = Random::new(2);
    let place = Place::new("damaged", CONFIGURATION);
    for line in ["SELECT\n", "UP 3 1\n", "DOWN 3 1\n", "BOARD\nSELECT\n"] {
        place.answers(line.as_bytes());
    }
    let bytes = place.journal_bytes();
    let starts: Vec<usize> = (0..bytes.len()).filter(|&at| bytes[at..].starts_with(b"\n@")).collect();
    assert_eq!(starts.len(), 5);
    for _ in 0..60 {
        let at = random.within(starts[0]..=bytes.len() - 1);
        let record = starts.iter().filter(|&&start| start <= at).count() - 1;
        let mut damaged = bytes.clone();
        damaged[at] ^= 1 << random.below(8);
        std::fs::write(place.journal(), &damaged).unwrap();
        place.is_refused(&format!("record {record} is damaged"));
        assert_eq!(place.journal_bytes(), damaged);
    }
}

#[test]
fn a_start_that_was_cut_short_begins_anew() {
    let place = Place::new("anew", CONFIGURATION);
    place.answers(b"");
    let bytes = place.journal_bytes();
    for length in 0..bytes.len() {
        std::fs::write(place.journal(), &bytes[..length]).unwrap();
        assert_eq!(place.answers(b"SELECT\n"), b"NO 19\n", "{length}");
    }
    std::fs::write(place.journal(), vec![0; 4096]).unwrap();
    assert_eq!(place.answers(b"SELECT\n"), b"NO 19\n");
    let read = night::store::look_at(&place.journal()).unwrap();
    assert_eq!((read.configuration.as_deref(), read.calls.len()), (Some(CONFIGURATION), 1));
}

#[test]
fn another_configuration_a_second_night_and_other_files_are_refused() {
    let place = Place::new("refused", CONFIGURATION);
    let mut running = place.start();
    running.send(b"SELECT\n");
    assert_eq!(running.answer(6), b"NO 19\n");
    place.is_refused("another night is running");
    running.finish();
    std::fs::write(place.folder.join("configuration"), b"1\n03 MT 4\n0\n2\n03\n12\n").unwrap();
    place.is_refused("another configuration");
    std::fs::write(place.folder.join("configuration"), CONFIGURATION).unwrap();
    for (bytes, words) in [(&b"root:x:0:0\n"[..], "no journal"), (b"luffgravel night journal 9\n", "another version")] {
        std::fs::write(place.journal(), bytes).unwrap();
        place.is_refused(words);
        assert_eq!(place.journal_bytes(), bytes);
    }
    assert_eq!(night::journal::read(b"root:x:0:0\n"), Err(Fault::NoJournal));
}

#[test]
fn a_bad_configuration_is_answered_and_no_journal_is_made() {
    for (text, due) in [
        (&b""[..], "ER 14 LINE 1\n"),
        (b"1\n03 MT 4\n", "ER 14 LINE 3\n"),
        (b"1\n03 MT 4\n0", "ER 14 LINE 3\n"),
        (b"1\n03 MT 4\n0\n", "ER 14 LINE 4\n"),
        (b"1\n03 MT 4\n0\n\n", "ER 14 LINE 4\n"),
        (b"1\n03 MT 4\n0\n#0\n#1\n", "ER 14 LINE 4\n"),
        (b"1\n03 MT 4\n0\n2\n03\n", "ER 14 LINE 6\n"),
        (b"1\n03 MT 4\n0\n2\n03\n03\n", "ER 14 LINE 6\n"),
        (b"1\n03 MT 4\n0\n1\n03\n\n", "ER 14 LINE 6\n"),
        (b"1\n03 MT 4\n0\n1\n03\n#0\n#1\n", "ER 14 LINE 6\n"),
        (b"1\n03 MT 4\n0\n1\n03\n11\n", "ER 14 LINE 6\n"),
        (b"1\n03 MT 4\n0\n0\nDECK\n", "ER 14 LINE 5\n"),
        (b"0\n0\n0\nBOARD\nBOARD", "ER 14 LINE 4\n"),
        (&[b'7'; 100_000], "ER 14 LINE 1\n"),
    ] {
        let place = Place::new("bad", text);
        let output = place.run(b"BOARD\n");
        assert_eq!(String::from_utf8_lossy(&output.stdout), due);
        assert!(!output.status.success() && !place.journal().exists());
    }
    for (text, words) in [(&b"\xef\xbb\xbf0\n0\n0\n"[..], "byte order mark"), (b"0\r\n0\r\n0\r\n", "CR LF")] {
        let output = Place::new("bad-text", text).run(b"BOARD\n");
        assert!(output.stdout == b"ER 14 LINE 1\n" && said(&output).contains(words), "{}", said(&output));
    }
}

#[test]
fn a_small_stack_is_refused_before_anything_is_answered() {
    let place = Place::new("stack", CONFIGURATION);
    let night = place.command();
    let run = |kilobytes: u64| {
        let mut limited = Command::new("sh");
        limited.args(["-c", &format!("ulimit -s {kilobytes} && exec \"$0\" \"$@\" </dev/null")]);
        let output = limited.arg(night.get_program()).args(night.get_args()).output().unwrap();
        (output.status.success(), output.stdout.len(), String::from_utf8_lossy(&output.stderr).into_owned())
    };
    let (went_well, answered, said) = run(night::stack::NEEDED - 1);
    assert!(!went_well && answered == 0 && said.contains("the stack is limited to 1023 kilobytes"), "{said}");
    assert!(!place.journal().exists());
    assert!(run(night::stack::NEEDED).0 && place.journal().exists());
}

/// A place where a small shell script stands in for the program: it echoes, answers `ACK`, and does what these cases
/// say.
fn stand_in(name: &str, cases: &str) -> Place {
    let mut place = Place::new(name, CONFIGURATION);
    place.program = place.folder.join("program");
    let text = format!(
        "#!/bin/sh\ncd \"${{0%/*}}\"\nwhile read -r line; do case \"$line\" in\n{cases}\n\
         ''|'#'*) printf '%s\\n' \"$line\";;\n[0-9]*) ;;\n*) echo ACK;;\nesac; done\n"
    );
    std::fs::write(&place.program, text).unwrap();
    std::fs::set_permissions(&place.program, std::fs::Permissions::from_mode(0o755)).unwrap();
    place
}

#[test]
fn three_deaths_on_the_same_line_end_the_night() {
    let place = stand_in("deaths", "DIE) echo x >>deaths; kill -9 $$;;");
    let output = place.run(b"SELECT\nDIE\nSELECT\n");
    assert_eq!(output.stdout, b"ACK\n");
    let said = String::from_utf8_lossy(&output.stderr).into_owned();
    assert!(!output.status.success() && said.contains("died 3 times on the same line: DIE"), "{said}");
    assert_eq!(std::fs::read_to_string(place.folder.join("deaths")).unwrap(), "x\n".repeat(3));
    assert_eq!(place.answers(b"SELECT\n"), b"ACK\n");
}

#[test]
fn two_deaths_on_each_line_are_borne() {
    let twice = "DIE*) echo \"$line\" >>deaths; [ \"$(grep -c \"$line\" deaths)\" -ge 3 ] || kill -9 $$; echo DEAD;;";
    let place = stand_in("borne", twice);
    assert_eq!(place.answers(b"DIE1\nSELECT\nDIE2\nDIE3\n"), b"DEAD\nACK\nDEAD\nDEAD\n");
    assert_eq!(night::store::look_at(&place.journal()).unwrap().calls.len(), 4);
}

#[test]
fn a_death_in_a_deck_that_is_left_open_is_borne_too() {
    let once = "DECK) [ -e died ] || { touch died; kill -9 $$; }; cat >/dev/null; echo NO 11;;";
    let place = stand_in("open", once);
    assert_eq!(place.answers(b"SELECT\nDECK\nX"), b"ACK\nNO 11\n");
    assert!(place.folder.join("died").exists());
    assert_eq!(place.answers(b"SELECT\n"), b"ACK\n");
    assert_eq!(night::store::look_at(&place.journal()).unwrap().calls.len(), 3);
}

#[test]
fn a_program_that_answers_otherwise_is_noticed() {
    let place = stand_in("otherwise", "NEVER) ;;");
    place.answers(b"SELECT\nSTART 3\nSELECT\n");
    let bytes = place.journal_bytes();
    let other = stand_in("otherwise-2", "START*) echo NO 7;;");
    let place = Place { folder: place.folder, program: other.program };
    place.is_refused("call 2 of the journal, START 3, was answered otherwise");
    assert_eq!(place.journal_bytes(), bytes);
    // A record whose sum is right and whose text is none is damaged too.
    let read = night::journal::read(&bytes).unwrap();
    let record = write_record(read.chain, 2, read.last().unwrap(), b"<9 SELECT\n").0;
    std::fs::write(place.journal(), [&bytes[..], &record].concat()).unwrap();
    place.is_refused("record 2 is damaged");
}
