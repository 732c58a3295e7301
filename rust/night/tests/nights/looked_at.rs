//! `show` and `who` say of random nights what the ordinary cell has after each call.

use std::process::Command;

use night::calls::Call;
use night::heads::Heads;
use night::journal::Answered;
use night::tracks::{tracks, Row, Track};
use ordinary::cell::{Cell, Status};
use ordinary::numbers::{ChannelNumber, UnitNumber};
use ordinary::shift::converse;

use crate::any_bytes::TERMINATION;
use crate::support::{script, Place, Script};

/// The calls of a script as a journal has them.
fn answered(script: &Script) -> Vec<Answered> {
    let calls = script.steps.iter().filter(|step| step.is_kept);
    let answered = |text: &[u8], due: &[u8]| Answered::new(Call { text: text.to_vec(), open: false }, due);
    calls.map(|step| answered(&step.text, &step.due)).collect()
}

/// The ID of the job in a place.
fn id(cell: &Cell, place: usize) -> Option<String> {
    cell.jobs().find(|(at, _)| *at == place).map(|(_, job)| job.id.clone())
}

fn is_stopping(cell: &Cell, channel: ChannelNumber) -> Option<(usize, usize, bool)> {
    let name = cell.moving(channel)?;
    let status = cell.status(name.place as u32, name.packet as u32);
    Some((name.place, name.packet, status == Ok(Status::Stopping)))
}

fn compare_heads(heads: &Heads, cell: &Cell) {
    for (&(channel, unit), head) in &heads.heads {
        let ordinary = cell.unit(ChannelNumber(channel as u8), UnitNumber(unit as u8));
        assert_eq!((head.holder, head.returning), (ordinary.holder, ordinary.returning), "{channel}/{unit}");
        assert_eq!((head.down, head.reserved), (ordinary.down, ordinary.reserved));
        let locked = |interlock: bool| interlock && head.holder.is_some();
        assert_eq!(locked(head.interlock), locked(ordinary.interlock), "interlock of {channel}/{unit}");
        assert_eq!(
            head.holder.and_then(|place| heads.job(place)).map(|job| job.id.clone()),
            head.holder.and_then(|place| id(cell, place))
        );
    }
}

fn compare_jobs(heads: &Heads, cell: &Cell) {
    for channel in ChannelNumber::all() {
        let moving = heads.moving(channel.0.into());
        let moving = moving.map(|moving| (moving.place, moving.packet as usize, moving.stopping));
        assert_eq!(moving, is_stopping(cell, channel), "moving on {channel:?}");
    }
    let areas = cell.drum_areas().into_iter().map(|(area, place)| (place, (area.start, area.end - 1)));
    let mut areas: Vec<_> = areas.collect();
    areas.sort();
    let held = (0..16).filter_map(|place| Some((place, heads.job(place)?.area?)));
    assert_eq!(held.collect::<Vec<_>>(), areas);
    let closing = |place: usize| heads.job(place).map(|job| job.closing);
    assert!((0..16)
        .all(|place| closing(place) == cell.jobs().find(|(at, _)| *at == place).map(|(_, job)| job.end.is_some())));
}

#[test]
fn the_heads_are_those_of_the_ordinary_cell_after_each_call() {
    let (mut calls, mut being_returned) = (0, 0);
    for seed in 0..60 {
        let script = script(seed, 400);
        let mut heads = Heads::fresh(&script.configuration).unwrap();
        compare_heads(&heads, script.fresh.cell());
        for (answered, step) in answered(&script).iter().zip(script.steps.iter().filter(|step| step.is_kept)) {
            heads.hear(answered);
            compare_heads(&heads, step.after.cell());
            compare_jobs(&heads, step.after.cell());
            calls += 1;
            being_returned += usize::from(heads.heads.values().any(|head| head.returning));
        }
    }
    println!("{calls} calls compared, after {being_returned} of them a head was being returned");
    assert!(calls > 20_000 && being_returned > 500);
}

/// What a track has after a call.
fn after<T: Clone>(track: &Track<T>, call: usize) -> Option<T> {
    track.0.iter().find(|span| (span.from..span.to).contains(&call)).map(|span| span.what.clone())
}

fn compare_row(row: &Row, name: (u32, u32), heads: &Heads, call: usize) {
    let head = heads.heads[&name];
    let holding = after(&row.holdings, call).map(|holding| (holding.place, holding.id));
    assert_eq!(holding, head.holder.map(|place| (place, heads.job(place).unwrap().id.clone())));
    assert_eq!(after(&row.returning, call).is_some(), head.returning);
    let moving = heads.moving_at(name).map(|moving| (moving.packet, moving.stopping));
    assert_eq!(after(&row.moves, call).map(|moved| (moved.packet, moved.stopping)), moving);
    assert_eq!(after(&row.interlock, call).is_some(), head.interlock && head.holder.is_some());
    assert_eq!((after(&row.down, call).is_some(), after(&row.reserved, call).is_some()), (head.down, head.reserved));
}

#[test]
fn the_rows_of_the_picture_are_the_heads_after_each_call() {
    for seed in 100..110 {
        let script = script(seed, 200);
        let answered = answered(&script);
        let drawn = tracks(&script.configuration, &answered).unwrap();
        let mut heads = Heads::fresh(&script.configuration).unwrap();
        for call in 0..=answered.len() {
            if call > 0 {
                heads.hear(&answered[call - 1]);
            }
            for (row, &name) in drawn.rows.iter().zip(heads.heads.keys()) {
                compare_row(row, name, &heads, call);
            }
            let drum = drawn.rows.iter().skip(heads.heads.len()).filter_map(|row| after(&row.holdings, call));
            let mut drum: Vec<_> = drum.map(|holding| (holding.place, holding.area)).collect();
            drum.sort();
            let areas = (0..16).filter_map(|place| Some((place, Some(heads.job(place)?.area?))));
            assert_eq!(drum, areas.collect::<Vec<_>>());
        }
    }
}

fn night(words: &[&str], place: &Place) -> String {
    let mut command = Command::new(env!("CARGO_BIN_EXE_night"));
    let output = command.arg(words[0]).arg("--journal").arg(place.journal()).args(&words[1..]).output().unwrap();
    assert!(output.status.success(), "{}", String::from_utf8_lossy(&output.stderr));
    String::from_utf8(output.stdout).unwrap()
}

#[test]
fn messages_are_calls_and_their_marks_are_seen() {
    const CONFIGURATION: &[u8] = b"1\n03 MT 4\n0\n2\n03\n11\n";
    // Each with whether it is a call, and whether the head 03/01 is down after it.
    let lines: [(&[u8], bool, bool); 14] = [
        (b"KEY", true, false),
        (b"KEY ", true, false),
        (b"KEY DWN C03 U1X", true, false),
        (b"KEY DWN C3 U01", true, true),
        (b"", false, true),
        (b"KEY UPF C03 U01", true, true),
        (b"KEY AVL C03 U01 \0", true, true),
        (b"KEY\tAVL C03 U01", false, true),
        (b"#KEY AVL C03 U01", false, true),
        (b"--- 17 IN ER", false, true),
        (b"KEY   AVL  C003 U0000000001  ", true, false),
        (b"KEY DWN C03 U01\r", true, false),
        (b"KEY SEL \xff\0", true, false),
        (b"KEY  DWN C03 U01 ", true, true),
    ];
    let place = Place::new("messages", CONFIGURATION);
    let input: Vec<u8> = lines.iter().flat_map(|(line, _, _)| [line, &b"\n"[..]].concat()).collect();
    assert_eq!(place.answers(&input), converse(&[CONFIGURATION, &input].concat())[..]);
    let kept = night::store::look_at(&place.journal()).unwrap().calls;
    let calls: Vec<_> = lines.iter().filter(|(_, is_call, _)| *is_call).collect();
    let texts: Vec<Vec<u8>> = calls.iter().map(|(line, _, _)| [line, &b"\n"[..]].concat()).collect();
    assert_eq!(kept.into_iter().map(|answered| answered.call.text).collect::<Vec<_>>(), texts);
    for (number, (_, _, is_down)) in (1..).zip(&calls) {
        let said = night(&["who", "03", "01", "--at", &i32::to_string(&number)], &place);
        assert_eq!(said.ends_with(": free; marked down\n"), *is_down, "{said}");
        assert_eq!(said.ends_with(": free\n"), !*is_down, "{said}");
    }
    assert!(night(&["show"], &place).contains(r#"<rect class="down""#));
    // They are played back.
    assert!(place.answers(b"BOARD\n").starts_with(b"UNIT 03/01 DOWN\nCORE "));
}

#[test]
fn a_head_that_is_given_back_is_looked_up_and_shown() {
    const CONFIGURATION: &[u8] = b"1\n03 MT 3\n0\n1\n11\n";
    let group = |id: &str, entries: &str| format!("{id},PTY,2,,P,,,M,P,A{},P,1.\n{id},FAC,{entries}.\n", &id[1..]);
    let deck = group("J0", "IB/1,MT/3") + &group("J1", "IB/1,MT/1") + &group("J2", "IB/1,MT/1");
    let lines = "SELECT\nSUBMIT 0 0 42 3 1\nSTART 3\nRETURN 0 3 1\nSUBMIT 0 1 07 3 1\nRETURN 0 03 01\nRETURN 0 3 2\n\
                 SELECT\nSELECT\nDOWN 3 1\nUP 3 1\nFAIL 3 11\nSELECT\nEND 0\n";
    let input = format!("DECK\n{deck}{TERMINATION}{lines}");
    let place = Place::new("given-back", CONFIGURATION);
    assert_eq!(place.answers(input.as_bytes()), converse(&[CONFIGURATION, input.as_bytes()].concat())[..]);
    let stopping = "held by J0 (place 0); packet 0 is stopping (function 42); being returned";
    for (unit, call, due) in [
        ("01", "4", "held by J0 (place 0); packet 0 moves (function 42)"),
        ("01", "5", stopping),
        // Submissions and a second return are refused, and another head is free at once.
        ("01", "7", stopping),
        ("02", "7", "held by J0 (place 0); no packet moves"),
        ("02", "8", "free"),
        ("02", "9", "held by J1 (place 1); no packet moves"),
        // Nobody else gets it before its own completion.
        ("01", "10", stopping),
        ("01", "11", &format!("{stopping}; marked down")),
        ("01", "12", stopping),
        ("01", "13", "free"),
        ("00", "13", "held by J0 (place 0); no packet moves"),
        ("01", "14", "held by J2 (place 2); no packet moves"),
        // The first job's end takes nothing from the others.
        ("00", "15", "free"),
        ("01", "15", "held by J2 (place 2); no packet moves"),
        ("02", "15", "held by J1 (place 1); no packet moves"),
    ] {
        let said = night(&["who", "03", unit, "--at", call], &place);
        assert!(said.ends_with(&format!(": {due}\n")), "{said}");
    }
    let shown = night(&["show"], &place);
    for said in [
        "03/01: held by J0 in place 0 from call 2 to 13",
        "03/01: being returned from call 5 to 13",
        "03/01: packet 0 is stopping from call 5 to 13",
        "03/01: held by J2 in place 2 from call 14 to 16",
        "03/02: held by J0 in place 0 from call 2 to 8",
        "03/02: held by J1 in place 1 from call 9 to 16",
        "03/00: held by J0 in place 0 from call 2 to 15",
    ] {
        assert!(shown.contains(&format!("<title>{said}</title>")), "{said}");
    }
    assert_eq!(shown.matches(": being returned from").count(), 1);
    assert!(!shown.contains("interlock from"));
    // They are played back: the board is that of the cell.
    assert!(place.answers(b"BOARD\n").starts_with(b"PLACE 1 J1 RUNS\nPLACE 2 J2 RUNS\nUNIT 03/01 HELD 2\n"));
}

#[test]
fn the_journal_says_why_nothing_was_selected() {
    const CONFIGURATION: &[u8] = b"1\n03 MT 4\n0\n2\n03\n11\n";
    let group = |id: &str, entries: &str| format!("{id},PTY,2,,P,,,M,P,A{},P,1.\n{id},FAC,{entries}.\n", &id[1..]);
    let mut deck: Vec<String> = (0..16).map(|number| group(&format!("J{number}"), "IB/1")).collect();
    deck.push(group("J16", "IB/1,MT1/5"));
    deck.push(group("J17", "IB/28"));
    let later = "END 3\nSELECT\nDELETE J16\nSELECT\nDELETE J17\nSELECT\n";
    let input = format!("SELECT\nDECK\n{}{TERMINATION}{}{later}", deck.concat(), "SELECT\n".repeat(17));
    let place = Place::new("why", CONFIGURATION);
    assert_eq!(place.answers(input.as_bytes()), converse(&[CONFIGURATION, input.as_bytes()].concat())[..]);
    let kept = night::store::look_at(&place.journal()).unwrap().calls;
    let refused = kept.iter().filter_map(|answered| answered.answer.line()).filter(|line| line.starts_with(b"NO"));
    let refused: Vec<&[u8]> = refused.collect();
    assert_eq!(refused, [&b"NO 19\n"[..], b"NO 18\n", b"NO 20 J16 MT\n", b"NO 20 J17 CORE\n", b"NO 19\n"]);
    // They are played back, and were answered the same.
    assert!(place.answers(b"BOARD\n").starts_with(b"PLACE 0 J0 RUNS\n"));
}

/// What is said of a call, without its time, which is that of the test.
fn untimed(said: &str) -> String {
    let (before, rest) = said.split_once(" (").unwrap();
    let (_, after) = rest.split_once(", ").unwrap();
    format!("{before} ({after}")
}

#[test]
fn the_night_of_the_readme_is_looked_up() {
    let script = include_bytes!("../../../../examples/night.script");
    let cut = script.iter().position(|&byte| byte == b'#').unwrap();
    let place = Place::new("readme", &script[..cut]);
    place.answers(&script[cut..]);
    for (call, due) in [
        ("4", "03/00 after call 4 (END 0): free\n"),
        ("5", "03/00 after call 5 (SELECT): held by A1 (place 0); no packet moves\n"),
        ("8", "03/00 after call 8 (START 03): held by A1 (place 0); packet 0 moves (function 42)\n"),
        ("9", "03/00 after call 9 (END 0): held by A1 (place 0, closing); packet 0 is stopping (function 42)\n"),
        ("12", "03/00 after call 12 (CUT 03): free\n"),
        ("14", "03/00 after call 14 (SELECT): held by C3 (place 0); no packet moves\n"),
        // End of data locks nothing; a lost position does.
        ("18", "03/00 after call 18 (FAIL 03 03): held by C3 (place 0); no packet moves\n"),
        ("19", "03/00 after call 19 (START 03): held by C3 (place 0); packet 1 moves (function 42)\n"),
        ("20", "03/00 after call 20 (FAIL 03 13): held by C3 (place 0); no packet moves; interlock\n"),
    ] {
        assert_eq!(untimed(&night(&["who", "03", "00", "--at", call], &place)), due);
    }
    // A head that is given back is its job's until the block that moves there completes.
    for (call, due) in [
        ("22", "03/02 after call 22 (START 03): held by C3 (place 0); packet 2 moves (function 42)\n"),
        (
            "23",
            "03/02 after call 23 (RETURN 0 03 02): held by C3 (place 0); packet 2 is stopping (function 42); being returned\n",
        ),
        (
            "25",
            "03/02 after call 25 (SELECT): held by C3 (place 0); packet 2 is stopping (function 42); being returned\n",
        ),
        ("26", "03/02 after call 26 (CUT 03): free\n"),
        ("27", "03/02 after call 27 (SELECT): held by E5 (place 1); no packet moves\n"),
    ] {
        assert_eq!(untimed(&night(&["who", "03", "02", "--at", call], &place)), due);
    }
}
