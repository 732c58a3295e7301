//! The picture: sheets of one size, parts of a night, the journal's name and date, and marks in their own rows.

use std::path::Path;

use night::journal::Answered;
use ordinary::shift::converse;

use crate::support::{folder, night, said, Place};

const CONFIGURATION: &[u8] = b"1\n03 MT 4\n0\n1\n11\n";
const EXAMPLES: &str = concat!(env!("CARGO_MANIFEST_DIR"), "/../../examples");
/// The height of a row.
const ROW: f64 = 7.0;

fn show(journal: &Path, words: &[&str]) -> String {
    let output = night(&[&["show", "--journal", journal.to_str().unwrap()], words].concat());
    assert!(output.status.success(), "{}", said(&output));
    String::from_utf8(output.stdout).unwrap()
}

/// The title of a sheet, which is its first text.
fn title(sheet: &str) -> &str {
    let text = sheet.lines().find(|line| line.starts_with("<text")).unwrap();
    text.split_once('>').unwrap().1.strip_suffix("</text>").unwrap()
}

#[test]
fn the_picture_of_the_readme_is_that_of_the_example() {
    let journal = Path::new(EXAMPLES).join("night.journal");
    let due = include_str!("../../../../docs/night.svg");
    assert_eq!(show(&journal, &[]), due, "docs/night.svg is another picture: draw it again as README says");
    assert_eq!(
        title(due),
        "Luffgravel: night.journal, 2026-11-17, 02:31:01 to 02:42:22 UTC, calls 1 to 27, sheet 1 of 1"
    );
}

#[test]
fn the_example_journal_is_the_night_of_the_other_examples() {
    let read = |name: &str| std::fs::read(Path::new(EXAMPLES).join(name)).unwrap();
    let (script, configuration, calls) = (read("night.script"), read("night.conf"), read("night.calls"));
    assert_eq!([&configuration[..], &calls].concat(), script);
    let journal = night::journal::read(&read("night.journal")).unwrap();
    assert_eq!((journal.configuration.as_deref(), journal.torn), (Some(&configuration[..]), 0));
    let place = Place::new("example", &configuration);
    assert_eq!(place.answers(&calls), converse(&script));
    let again = night::store::look_at(&place.journal()).unwrap();
    let untimed =
        |calls: Vec<Answered>| calls.into_iter().map(|call| Answered { time: None, ..call }).collect::<Vec<_>>();
    assert_eq!(untimed(again.calls), untimed(journal.calls));
}

#[test]
fn sheets_are_of_one_size_however_long_the_night_is() {
    let place = Place::new("long-night", CONFIGURATION);
    place.answers("DOWN 3 1\nUP 3 1\n".repeat(1500).as_bytes());
    let sheets = folder("long-night-sheets");
    show(&place.journal(), &["--sheets", sheets.to_str().unwrap()]);
    let mut names: Vec<_> = std::fs::read_dir(&sheets).unwrap().map(|entry| entry.unwrap().path()).collect();
    names.sort();
    assert!(names.len() > 20, "{}", names.len());
    let mut next = 1;
    for (number, name) in (1..).zip(&names) {
        assert!(name.ends_with(format!("sheet-{number:03}.svg")), "{name:?}");
        let sheet = std::fs::read_to_string(name).unwrap();
        assert!(sheet.starts_with(
            r#"<svg xmlns="http://www.w3.org/2000/svg" width="297mm" height="210mm" viewBox="0 0 297 210""#
        ));
        let part = title(&sheet).split("calls ").nth(1).unwrap();
        let (calls, of) = part.split_once(", sheet ").unwrap();
        let (from, to) = calls.split_once(" to ").unwrap();
        assert_eq!((from.parse::<usize>().unwrap(), of), (next, &format!("{number} of {}", names.len())[..]));
        next = to.parse::<usize>().unwrap() + 1;
        assert_eq!(show(&place.journal(), &["--sheet", &number.to_string()]), sheet);
    }
    assert_eq!(next, 3001);
    // One sheet alone on standard output, and what there is more is said.
    let journal = place.journal();
    let output = night(&["show", "--journal", journal.to_str().unwrap()]);
    assert_eq!(output.stdout, std::fs::read(&names[0]).unwrap());
    assert!(said(&output).contains(&format!("sheet 1 of {}: --sheet K", names.len())), "{}", said(&output));
    for (words, due) in [(["--sheet", "0"], "there is no sheet 0"), (["--sheet", "999"], "there is no sheet 999")] {
        let output = night(&[&["show", "--journal", journal.to_str().unwrap()][..], &words].concat());
        assert!(output.status.code() == Some(1) && said(&output).contains(due), "{}", said(&output));
    }
    let output = night(&["show", "--journal", journal.to_str().unwrap(), "--sheets", sheets.to_str().unwrap()]);
    assert!(output.status.code() == Some(1) && said(&output).contains("is not empty"), "{}", said(&output));
}

#[test]
fn a_part_of_a_night_is_drawn_by_calls_or_by_the_clock() {
    let journal = Path::new(EXAMPLES).join("night.journal");
    let part = show(&journal, &["--from", "8", "--to", "12"]);
    assert_eq!(
        title(&part),
        "Luffgravel: night.journal, 2026-11-17, 02:32:49 to 02:35:33 UTC, calls 8 to 12, sheet 1 of 1"
    );
    assert_eq!(show(&journal, &["--from", "02:32:49", "--to", "02:35:33"]), part);
    // What held before goes on in it, and what came later is not there.
    assert!(part.contains("<title>03/00: held by A1 in place 0 from call 5 to 12</title>"));
    assert!(!part.contains("C3 in place") && !part.contains("SELECT: ACK 0 D4"));
    assert!(part.contains(" 02:33:30 END 0: ACK</text>"));
    assert!(title(&show(&journal, &["--to", "3"])).contains("calls 1 to 3,"));
    assert!(title(&show(&journal, &["--from", "27"])).contains("calls 27 to 27,"));
}

/// The number of an attribute.
fn attribute(line: &str, name: &str) -> f64 {
    line.split_once(&format!(" {name}=\"")).unwrap().1.split('"').next().unwrap().parse().unwrap()
}

#[test]
fn marks_and_bars_are_inside_their_own_row() {
    let place = Place::new("marks", CONFIGURATION);
    place.answers(b"DOWN 3 1\nRESERVE 3 2\nDOWN 3 3\nRESERVE 3 3\n");
    let sheet = show(&place.journal(), &[]);
    // The text with a head's name is in its row.
    let name = |unit: u32| sheet.lines().find(|line| line.contains(&format!(">03/{unit:02}</text>"))).unwrap();
    let top = |unit: u32| ((attribute(name(unit), "y") - 28.0) / ROW).floor() * ROW + 28.0;
    let lines: Vec<&str> = sheet.lines().collect();
    let mut seen = Vec::new();
    for two in lines.windows(2).filter(|two| two[0].starts_with("<rect class") && two[1].starts_with("<title>03/")) {
        let unit = two[1]["<title>03/".len()..][..2].parse().unwrap();
        let (from, height) = (attribute(two[0], "y"), attribute(two[0], "height"));
        assert!(from > top(unit) + 0.3 && from + height < top(unit) + ROW - 0.3, "{} of row {}", two[0], top(unit));
        seen.push((unit, two[0].split('"').nth(1).unwrap()));
    }
    assert_eq!(seen, [(1, "down"), (2, "reserved"), (3, "down"), (3, "reserved")]);
    assert!([">D</text>", ">R</text>", ">DR</text>"].iter().all(|letters| sheet.contains(letters)));
}
