//! What the heads are after calls, with answers as the program gives them.

use super::*;
use crate::calls::Call;

const CONFIGURATION: &[u8] = b"2\n03 MT 4\n07 MD 40000\n0\n2\n11\n77\n";

/// The heads after these calls with their answers.
fn after(calls: &[(&[u8], &str)]) -> Heads {
    let mut heads = Heads::fresh(CONFIGURATION).unwrap();
    for (line, answer) in calls {
        let call = Call { text: [line, &b"\n"[..]].concat(), open: false };
        let answered = Answered::new(call, format!("{answer}\n").as_bytes());
        assert!(!answered.call.is_none(format!("{answer}\n").as_bytes()));
        heads.hear(&answered);
    }
    heads
}

/// Those that are down.
fn down(calls: &[(&[u8], &str)]) -> Vec<HeadName> {
    after(calls).heads.iter().filter(|(_, head)| head.down).map(|(name, _)| *name).collect()
}

#[test]
fn a_selection_that_is_refused_gives_no_head_to_anybody() {
    let taken = (&b"SELECT"[..], "ACK 0 A1 IB 2-3 MT1 03/00 03/01");
    let heads = after(&[taken]);
    // Whatever the ID is, it is no assignment.
    let lacking = ["B CORE", "0 DRUM", "ACK MA", "IB MT", "MD PR", "A1 MC", "MC CR", "PT PT"];
    let lacking = lacking.map(|lacking| format!("NO 20 {lacking}"));
    for answer in ["NO 18", "NO 19"].into_iter().chain(lacking.iter().map(String::as_str)) {
        let same = after(&[taken, (b"SELECT", answer)]);
        assert_eq!((&same.heads, &same.jobs), (&heads.heads, &heads.jobs), "{answer}");
        let none = after(&[(b"SELECT", answer)]);
        assert!(none.heads.values().all(|head| *head == Head::default()), "{answer}");
        assert!(none.jobs.iter().all(Option::is_none), "{answer}");
    }
}

#[test]
fn units_of_every_kind_are_heads_and_the_drum_is_none() {
    let text = b"7\n00 PT 2\n01 CR 1\n02 MC 16\n03 PR 1\n04 MT 1\n05 MA 1\n06 MD 40000\n3\n00 01\n01 00\n02 15\n0\n";
    let mut heads = Heads::fresh(text).unwrap();
    let of_channel = |heads: &Heads, channel| heads.heads.keys().filter(|(at, _)| *at == channel).count();
    assert_eq!([0, 1, 2, 3, 4, 5, 6].map(|channel| of_channel(&heads, channel)), [2, 1, 16, 1, 1, 1, 0]);
    assert!([(0, 1), (1, 0), (2, 15)].iter().all(|name| heads.heads[name].down));
    // The letters before the units are those of the written order; the ID may be such letters too.
    let answer = b"ACK 3 MD IB 2-2 MD 35329-35330 PR 03/00 MC1 02/00 02/01 CR 01/00 PT 00/00\n";
    heads.hear(&Answered::new(Call { text: b"SELECT\n".to_vec(), open: false }, answer));
    let held = heads.heads.iter().filter(|(_, head)| head.holder == Some(3)).map(|(name, _)| *name);
    assert_eq!(held.collect::<Vec<HeadName>>(), [(0, 0), (1, 0), (2, 0), (2, 1), (3, 0)]);
    assert_eq!(heads.job(3).map(|job| (job.id.as_str(), job.area)), Some(("MD", Some((35_329, 35_330)))));
}

#[test]
fn codes_of_the_configuration_lock_a_head_and_others_do_not() {
    let locked = |channel: &str, start: &str, failure: &str| {
        let (start_call, fail_call) = (format!("START {channel}"), format!("FAIL {channel} {failure}"));
        let heads = after(&[
            (b"SELECT", "ACK 0 A1 IB 2-3 MD 35329-35330 MT1 03/00 03/01"),
            (start_call.as_bytes(), start),
            (fail_call.as_bytes(), "ACK 0 0"),
        ]);
        let locked = heads.heads.iter().filter(|(_, head)| head.interlock).map(|(name, _)| *name);
        locked.collect::<Vec<HeadName>>()
    };
    for code in ["11", "77", "011", "000000077"] {
        assert_eq!(locked("3", "ACK 0 0 42 1", code), [(3, 1)], "{code}");
        assert_eq!(locked("7", "ACK 0 0 42 35329", code), [], "{code} on the drum");
    }
    for code in ["02", "03", "10", "12", "13", "76", "9"] {
        assert_eq!(locked("03", "ACK 0 0 42 1", code), [], "{code}");
        assert_eq!(locked("07", "ACK 0 0 42 35329", code), [], "{code} on the drum");
    }
}

#[test]
fn a_head_that_is_given_back_is_free_at_once_or_at_its_completion() {
    let taken = (&b"SELECT"[..], "ACK 0 A1 IB 2-3 MD 35329-35330 MT1 03/00 03/01");
    let given_back = (&b"RETURN 0 3 1"[..], "ACK");
    let moves = (&b"START 3"[..], "ACK 0 0 42 1");
    let free = Head::default();
    let held = Head { holder: Some(0), ..free };
    let state = |calls: &[_]| after(calls).heads[&(3, 1)];
    assert_eq!(state(&[taken, given_back]), free);
    // What moves on another head of the channel does not count, nor what moves on the drum.
    assert_eq!(state(&[taken, (b"START 3", "ACK 0 0 42 0"), given_back]), free);
    assert_eq!(state(&[taken, (b"START 7", "ACK 0 0 42 35329"), given_back]), free);
    let stopping = [taken, moves, given_back];
    assert_eq!(state(&stopping), Head { returning: true, ..held });
    assert!(after(&stopping).moving(3).is_some_and(|moving| moving.stopping));
    let locked = Head { interlock: true, ..free };
    for (call, then) in [
        ((&b"DONE 3"[..], "ACK 0 0"), free),
        ((b"CUT 3", "ACK 0 0"), free),
        ((b"FAIL 3 12", "ACK 0 0"), free),
        // Shown only while it is held.
        ((b"FAIL 3 11", "ACK 0 0"), locked),
        ((b"DONE 7", "NO 8"), Head { returning: true, ..held }),
        ((b"RETURN 0 3 1", "NO 21"), Head { returning: true, ..held }),
    ] {
        let heads = after(&[taken, moves, given_back, call]);
        assert_eq!(heads.heads[&(3, 1)], then, "{call:?}");
        assert_eq!(heads.heads[&(3, 0)], held, "{call:?}");
        assert_eq!(heads.job(0).map(|job| job.closing), Some(false), "{call:?}");
    }
    // One that is refused, or that a journal made by hand has accepted, gives nothing back.
    for call in [(&b"RETURN 0 3 1"[..], "NO 3"), (b"RETURN 1 3 1", "ACK"), (b"RETURN 0 7 0", "ACK")] {
        assert_eq!(state(&[taken, call]), held, "{call:?}");
    }
}

#[test]
fn a_job_that_closes_returns_such_a_head_by_itself() {
    let calls = [
        (&b"SELECT"[..], "ACK 0 A1 IB 2-3 MD 35329-35330 MT1 03/00 03/01"),
        (b"START 3", "ACK 0 0 42 1"),
        (b"START 7", "ACK 0 1 42 35329"),
        (b"RETURN 0 3 1", "ACK"),
        (b"END 0", "ACK"),
        (b"CUT 3", "ACK 0 0"),
        (b"SELECT", "ACK 1 B IB 4-4 MT 03/01"),
        (b"CUT 7", "ACK 0 1"),
    ];
    let holders = |count: usize| [0, 1].map(|unit| after(&calls[..count]).heads[&(3, unit)].holder);
    assert_eq!(holders(5), [Some(0), Some(0)]);
    assert_eq!(holders(6), [Some(0), None]);
    assert_eq!(holders(7), [Some(0), Some(1)]);
    assert_eq!(holders(8), [None, Some(1)]);
    // The drum may be through first: one completion then returns all.
    let [.., cut, _, last] = calls;
    let heads = after(&[&calls[..5], &[last, cut]].concat());
    assert!(heads.heads.values().all(|head| *head == Head::default()) && heads.job(0).is_none());
}

#[test]
fn a_configuration_has_three_sections() {
    for text in ["", "0\n", "0\n0\n", "1\n03 MT 4\n0\n", "1\n03 MT 4\n0\nx\n", "0\n0\n1\n9\n"] {
        assert!(Heads::fresh(text.as_bytes()).is_none(), "{text:?}");
    }
    assert_eq!(Heads::fresh(b"0\n0\n0\n").unwrap().codes, []);
    assert_eq!(Heads::fresh(b"1\n03 MT 4\n1\n03 01\n3\n02\n10\n77\n").unwrap().codes, [0o02, 0o10, 0o77]);
}

#[test]
fn messages_that_are_accepted_change_the_down_mark() {
    assert_eq!(down(&[(b"KEY DWN C03 U01", "DWN ACK"), (b"KEY DWN C3 U2", "DWN ACK")]), [(3, 1), (3, 2)]);
    assert_eq!(down(&[(b"KEY DWN C03 U01", "DWN ACK"), (b"KEY AVL C03 U01", "AVL ACK")]), []);
    // Set and cleared by the calls too.
    assert_eq!(down(&[(b"DOWN 3 1", "ACK"), (b"KEY AVL C3 U1", "AVL ACK")]), []);
    assert_eq!(down(&[(b"KEY DWN C3 U1", "DWN ACK"), (b"UP 3 1", "ACK")]), []);
    let zeros = format!("KEY   DWN  C{0}3   U{0}1  ", "0".repeat(100));
    assert_eq!(down(&[(zeros.as_bytes(), "DWN ACK")]), [(3, 1)]);
}

#[test]
fn messages_in_error_and_other_messages_change_nothing() {
    let before: (&[u8], &str) = (b"KEY DWN C03 U01", "DWN ACK");
    for call in [
        (&b"KEY AVL C16 U01"[..], "AVL 12 IN ER"),
        (b"KEY AVL C07 U00", "AVL 31 IN ER"),
        (b"KEY AVL C03 U01\r", "AVL 10 IN ER"),
        (b"KEY AVL C03 U01 X", "--- 17 IN ER"),
        (b"KEY UPF C03 U01", "--- 17 IN ER"),
        (b"KEY", "--- 17 IN ER"),
        (b"KEY ", "--- 17 IN ER"),
        (b"KEY SEL A1", "SEL ACK"),
        (b"KEY DEL C03", "DEL ACK"),
        (b"KEY SEL \xff", "SEL 15 IN ER"),
        // Of journals made by hand.
        (b"KEY AVL", "AVL ACK"),
        (b"KEY AVL C03", "AVL ACK"),
        (b"KEY AVL C99999999999 U01", "AVL ACK"),
        (b"KEY AVL C03 U01", "ACK"),
        (b"KEY", "ACK"),
    ] {
        assert_eq!(down(&[before, call]), [(3, 1)], "{call:?}");
    }
}
