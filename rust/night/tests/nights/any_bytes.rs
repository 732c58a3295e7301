//! Any bytes on standard input and in the journal are answered, and never by a crash.

use night::journal::{write_beginning, write_record, Origin};
use night::svg::{Notes, Picture};
use night::time::Time;
use night::who::{self, Question};
use ordinary::shift::converse;

use crate::random::{damage, Random, ODD_BYTES};
use crate::support::{script, Place};

const CONFIGURATION: &[u8] = b"1\n03 MT 4\n0\n2\n03\n11\n";
pub const TERMINATION: &str = ")))))))) +++++++++++++                                                  ))))))))\n";

fn bytes(random: &mut Random, most: usize) -> Vec<u8> {
    let length = random.below(most);
    let mut bytes = Vec::new();
    while bytes.len() < length {
        match random.below(13) {
            0..=5 => bytes.push(random.below(256) as u8),
            6 | 7 => bytes.push(*random.pick(ODD_BYTES)),
            8 => bytes.extend(random.pick(&["DECK\n", "BOARD\n", "SELECT\n", "\n", "#", TERMINATION]).bytes()),
            9 => bytes.extend(vec![b'X'; random.below(400)]),
            10 => bytes.push(b'\n'),
            11 => bytes.extend(random.pick(&["KEY", "KEY ", "\nKEY ", "\nKEY DWN C3 U", "KEY AVL C03 U01\n"]).bytes()),
            _ => bytes.extend(b"@ 1 0 0\n"),
        }
    }
    bytes
}

#[test]
fn any_input_is_answered_as_the_ordinary_cell_does() {
    let mut random = Random::new(3);
    for _ in 0..300 {
        let place = Place::new("input", CONFIGURATION);
        let input = bytes(&mut random, 4000);
        let due = converse(&[CONFIGURATION, &input[..]].concat());
        assert_eq!(place.answers(&input), due);
        // What was said is there when the night goes on.
        let kept = night::store::look_at(&place.journal()).unwrap().calls;
        let whole = kept.into_iter().filter(|answered| !answered.call.open).map(|answered| answered.call.text);
        let said = [CONFIGURATION.to_vec(), whole.collect::<Vec<_>>().concat()].concat();
        let board = converse(&[&said[..], b"BOARD\n"].concat()).split_off(converse(&said).len());
        assert_eq!(place.answers(b"BOARD\n"), board);
    }
}

#[test]
fn very_long_lines_and_decks_are_answered() {
    let place = Place::new("long", CONFIGURATION);
    let line = "X".repeat(5_000_000);
    let input = format!(
        "{line}\nDECK\n{line}\n{line}\n{}{TERMINATION}STATUS 0 0\n#{line}\nDECK\n{line}",
        "Y\n".repeat(2_000_000)
    );
    assert_eq!(place.answers(input.as_bytes()), b"??\nNO 11\nACK BLANK\n??\nNO 11\n");
    assert!(place.journal_bytes().len() < 3_000_000);
    assert_eq!(place.answers(b"STATUS 0 0"), b"ACK BLANK\n");
}

#[test]
fn any_journal_is_played_back_or_refused() {
    let mut random = Random::new(4);
    let script = script(5, 80);
    let place = Place::new("journals", &script.configuration);
    for step in &script.steps[..40] {
        place.answers(&step.text);
    }
    let whole = place.journal_bytes();
    let (mut played, mut refused) = (0, 0);
    for _ in 0..300 {
        let mut journal = whole.clone();
        match random.below(4) {
            0 => journal = bytes(&mut random, 3000),
            1 => journal.truncate(random.below(whole.len())),
            _ => (0..random.within(1..=3)).for_each(|_| damage(&mut random, &mut journal)),
        }
        std::fs::write(place.journal(), &journal).unwrap();
        let output = place.run(b"BOARD\n");
        if output.status.success() {
            played += 1;
            assert!(output.stdout.ends_with(b"END OF BOARD\n"));
        } else {
            refused += 1;
            assert_eq!((output.stdout, place.journal_bytes()), (Vec::new(), journal));
        }
    }
    println!("{played} journals played back, {refused} refused");
    assert!(played > 20 && refused > 100);
}

/// Records whose sums are right and whose bodies are anything: the picture and the lookup answer them too.
#[test]
fn any_record_is_read_or_refused() {
    let mut random = Random::new(6);
    let words = [
        "<1 ",
        "<2 ",
        "+",
        "-",
        ">",
        "ACK",
        "SELECT",
        "START",
        "KEY",
        "DWN",
        "C03",
        "U00",
        " ",
        "0",
        "9",
        "03/00",
        "99999999999",
        "MD",
        "5-1",
        "\n",
    ];
    let mut read = 0;
    for _ in 0..20_000 {
        let mut body: String = (0..random.below(30)).map(|_| *random.pick(&words)).collect();
        if random.percent(80) {
            body = format!("<1 {body}\n>ACK {}\n", body.replace('\n', " "));
        }
        let (beginning, chain) = write_beginning(&Origin { script: 7, program: 1 }, Time(1), CONFIGURATION);
        let bytes = [beginning, write_record(chain, 1, Time(2), body.as_bytes()).0].concat();
        let Ok(journal) = night::journal::read(&bytes) else { continue };
        read += 1;
        let drawn = night::tracks::tracks(CONFIGURATION, &journal.calls).unwrap();
        let notes = Notes::new("<&>", &journal);
        let picture = Picture::new(&drawn, &notes, 0..journal.calls.len() + 1);
        assert!((1..=picture.count()).all(|number| picture.sheet(number).unwrap().ends_with("</svg>\n")));
        for calls in [None, Some(journal.calls.len())] {
            let question = Question { head: Some((3, 0)), job: None, calls };
            assert!(who::answer(&journal, &question, false).unwrap().ends_with('\n'));
            who::answer(&journal, &question, true).unwrap();
        }
        let all = || 0..journal.calls.len();
        assert_eq!(night::log::objects(&journal, all()).lines().count(), journal.calls.len());
        night::log::text(&journal, all());
    }
    assert!(read > 1000, "{read}");
}
