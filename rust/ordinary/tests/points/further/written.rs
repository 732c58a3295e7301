//! What the writer gives and refuses, what the cards program prints, and a shift with such cards.

use ordinary::card::Request;
use ordinary::further::{FacilityType, FurtherCard, Increment, Successor, Transfer};
use ordinary::numbers::Refusal;
use ordinary::shift::converse;

use super::{read, written};
use crate::support::TERMINATION;

#[test]
fn writing_is_undone_by_reading() {
    let further = [
        "A1,PM2,  A , B. .",
        "A1,PM7, .",
        "A1,TRN,A/*T/*REQ/C.",
        "A1,TRN,00.",
        "A1,TAL,Z/00000,A/99999.",
        "A1,TAL,Z/1.",
    ];
    let request = read(&further).unwrap();
    let text = written(&request).unwrap();
    let cards: Vec<&[u8]> = text.lines().map(str::as_bytes).collect();
    let again = Request::read(&cards).unwrap();
    assert_eq!(again, request);
    assert_eq!(written(&again).unwrap(), text);
}

#[test]
fn writing_refuses_what_no_cards_can_hold() {
    let name = |text: &str| text.to_string();
    let increments = |number| FurtherCard::Increments(vec![Increment { name: name("A"), number }]);
    let named = |text: &str| FurtherCard::Increments(vec![Increment { name: name(text), number: 1 }]);
    let count = |count| FurtherCard::Transfers { count: Some(count), transfers: Vec::new() };
    let transfer = |one: &str, successor: Successor, two: &str| FurtherCard::Transfers {
        count: None,
        transfers: vec![Transfer { name: name(one), facility: FacilityType::Tape, successor, name_there: name(two) }],
    };
    let parameters = |digit, text: &str| FurtherCard::Parameters { digit, text: name(text) };
    let to = |id: &str| Successor::Request(name(id));

    let good = read(&[]).unwrap();
    let write = |further: Vec<FurtherCard>| written(&Request { further, ..good.clone() }).err();
    for further in [
        vec![increments(0), increments(99_999)],
        vec![count(99), transfer("A", to("B"), "C"), parameters(9, &" ".repeat(66))],
        vec![parameters(0, "A.,"), parameters(9, ""), increments(1)],
        vec![transfer("A", Successor::JobRequests, "C"), count(0)],
        vec![increments(1); 14],
    ] {
        assert_eq!(write(further.clone()), None, "{further:?}");
    }
    let long = FurtherCard::Increments(vec![Increment { name: name("ABCDEF"), number: 99_999 }; 9]);
    for further in [
        vec![increments(1); 15],
        vec![increments(100_000)],
        vec![FurtherCard::Increments(Vec::new())],
        vec![named("")],
        vec![named("ABCDEFG")],
        vec![named("A-")],
        vec![count(100)],
        vec![count(1), count(2)],
        vec![FurtherCard::Transfers { count: None, transfers: Vec::new() }],
        vec![transfer("", to("B"), "C")],
        vec![transfer("A", to("*REQ"), "C")],
        vec![transfer("A", to("B"), "ABCDEFG")],
        vec![parameters(10, "A")],
        vec![parameters(0, &"X".repeat(67))],
        vec![parameters(0, "a")],
        vec![parameters(0, "\n")],
        vec![parameters(1, "A"), parameters(1, "A")],
        vec![parameters(1, "A"), parameters(0, "A")],
        vec![parameters(0, "A"), increments(1), parameters(1, "A")],
        vec![increments(1), count(1), increments(1)],
        vec![count(1), increments(1), transfer("A", to("B"), "C")],
        // 13 comes before 12.
        vec![long.clone(), increments(100_000)],
    ] {
        assert_eq!(write(further.clone()), Some(Refusal::BadRequest), "{further:?}");
    }
    assert_eq!(write(vec![long]), Some(Refusal::NoRoom));
}

#[test]
fn room_for_all_cards() {
    let request = read(&["A1,TAL,A/1.", "A1,PM0,X ."]).unwrap();
    let length = written(&request).unwrap().len();
    let mut room = vec![7; length + 3];
    assert_eq!(request.write(&mut room[..length - 1]), Err(Refusal::NoRoom));
    assert!(room.iter().all(|&byte| byte == 7));
    assert_eq!(request.write(&mut room), Ok(length));
    assert_eq!(room[length - 3..], *b" .\n\x07\x07\x07");
}

/// 370 groups of 44 bytes, each with the largest table, are the longest that the cards program prints.
#[test]
fn the_longest_output() {
    let group = "A,PTY,3,,P,,,M,P,A,P,1.\nA,FAC,IB/1.\nA,PM9,.\n";
    assert_eq!(group.len(), 44);
    let most = (16_384 - TERMINATION.len()) / group.len();
    assert_eq!(most, 370);
    let answer = ordinary::cards::report(format!("{}{TERMINATION}", group.repeat(most)).as_bytes());
    let rows = format!("={}\n", " ".repeat(66)).repeat(10);
    let one = format!("A,PTY,3,,P,,,M,P,A63,P,1.\nA,FAC,IB/1.\nA,PM9,.\nPMT 660\n{rows}");
    assert!(answer == format!("{}END OF CARDS\n", one.repeat(most)));
    assert_eq!(answer.len(), 271_593);
}

#[test]
fn nothing_is_asked_of_a_schedule() {
    let group = "A,PTY,3,,P,,,M,P,A,P,1.\nA,FAC,IB/1.\nA,TAL,X/1.\n";
    let answer = ordinary::cards::report(format!("{}{TERMINATION}", group.repeat(70)).as_bytes());
    assert_eq!(answer, format!("{}END OF CARDS\n", group.replace(",A,P", ",A63,P").repeat(70)));
    assert_eq!(ordinary::cards::report(TERMINATION.as_bytes()), "END OF CARDS\n");
    assert_eq!(ordinary::cards::report(b""), "SCH ER 11\n");
}

/// A deck in a shift has the same errors, and a request with further cards is selected as any other.
#[test]
fn in_a_shift() {
    let deck = "A,PTY,5,,P,,,M,P,A1,P,1.\nA,FAC,IB/1.\nA,TAL,X/1.\nA,TRN,1,T/T/B/T.\nA,PM9,NEW MODEL.\n\
                B,PTY,3,,P,,,M,P,A2,P,1.\nB,FAC,IB/1.\nB,TAL,X/123456.\n\
                A,PTY,3,,P,,,M,P,A3,P,1.\nA,FAC,IB/1.\nA,TRN,123.\n\
                A,PTY,3,,P,,,M,P,A3,P,1.\nA,FAC,IB/1.\nA,TRN,12.\n";
    let input = format!("0\n0\n0\nDECK\n{deck}{TERMINATION}SELECT\nSELECT\n");
    let expected = "SP B ER 6\nSP A ER 8\nSP A ER 26\nA SCH ACK\nACK 0 A IB 2-2\nNO 19\n";
    assert_eq!(String::from_utf8(converse(input.as_bytes())).unwrap(), expected);
}
