//! TAL, TRN and PM cards: the order of errors, what the request holds, and what the writer refuses.

use ordinary::card::{CardError, Request};
use ordinary::further::{parameter_table, FacilityType, FurtherCard, Increment, Successor, Transfer};
use ordinary::numbers::Refusal;

mod written;

const FAC: &str = "A1,FAC,IB/1.";

fn read_all(fac: &str, further: &[&str]) -> Result<Request, CardError> {
    let pty = format!("A1,PTY,{},,ECU,,T,PROG,P,A5,P,3.", 2 + further.len());
    let cards: Vec<&[u8]> = [&*pty, fac].into_iter().chain(further.iter().copied()).map(str::as_bytes).collect();
    Request::read(&cards)
}

fn read(further: &[&str]) -> Result<Request, CardError> {
    read_all(FAC, further)
}

fn error(further: &[&str]) -> u8 {
    read(further).map_or_else(|error| error.0, |_| 0)
}

fn written(request: &Request) -> Result<String, Refusal> {
    let mut room = [0; 16 * 81];
    let length = request.write(&mut room)?;
    Ok(String::from_utf8(room[..length].to_vec()).unwrap())
}

#[test]
fn what_is_read() {
    let request = read(&["A1,TAL,MAT RIX/02500.", "A1,TRN,04,PAY/*N/*PLB/LIB,X/D/B2/Y.", "A1,PM3, A, B. ."]).unwrap();
    let transfer = |name: &str, facility, successor, name_there: &str| Transfer {
        name: name.into(),
        facility,
        successor,
        name_there: name_there.into(),
    };
    let expected = [
        FurtherCard::Increments(vec![Increment { name: "MATRIX".into(), number: 2500 }]),
        FurtherCard::Transfers {
            count: Some(4),
            transfers: vec![
                transfer("PAY", FacilityType::ReservedNoRewind, Successor::ProgramLibrary, "LIB"),
                transfer("X", FacilityType::Drum, Successor::Request("B2".into()), "Y"),
            ],
        },
        FurtherCard::Parameters { digit: 3, text: " A, B. ".into() },
    ];
    assert_eq!(request.further, expected);
    assert_eq!(
        written(&request).unwrap(),
        "A1,PTY,5,,ECU,,T,PROG,P,A05,P,3.\nA1,FAC,IB/1.\nA1,TAL,MATRIX/2500.\n\
         A1,TRN,4,PAY/*N/*PLB/LIB,X/D/B2/Y.\nA1,PM3, A, B. .\n"
    );
}

#[test]
fn of_two_errors_the_first_in_the_order_answers() {
    // Each with its neighbours, so that neither order of the cards hides what is looked for first.
    for (further, expected) in [
        (&["A1,FAC,IB/1.", "A1,XYZ."][..], 22),
        (&["A1,XYZ.", "A1,FAC,IB/1."], 22),
        (&["B2,TAL,X/1.", "A1,XYZ."], 3),
        (&["A1,XYZ.", "B2,TAL,X/1."], 3),
        (&["A1,PMX,A.", "B2,TAL,X/1."], 25),
        (&["B2,TAL,X/1.", "A1,PMX,A."], 25),
        (&["A1,PM0,a.", "A1,PMX,A."], 30),
        (&["A1,PMX,A.", "A1,PM0,a."], 30),
        (&["A1,TAL,X/1.", "A1,PM1,A.", "A1,TAL,X/1.", "A1,PM2,A."], 4),
        (&["A1,TAL,X/1.", "A1,TRN,4.", "A1,TAL,X/1.", "A1,PM0,a."], 4),
        (&["A1,TRN,4.", "A1,TAL,X/1.", "A1,TRN,A/T/B/C.", "A1,TAL,X/1."], 23),
        (&["A1,TRN,4.", "A1,TAL,-.", "A1,TRN,A/T/B/C."], 24),
        (&["A1,TAL,X/123456.", "A1,TRN,X."], 6),
        (&["A1,TRN,X.", "A1,TAL,X/123456."], 7),
        (&["A1,PM0,A.", "A1,TRN,123.", "A1,TAL,X."], 8),
    ] {
        assert_eq!(error(further), expected, "{further:?}");
    }
}

#[test]
fn the_group_as_a_whole_comes_before_facs_content() {
    for (fac, of_fac) in [
        ("A1,FAC,IB/1", 12),
        ("A1,FAC,IBX/1.", 9),
        ("A1,FAC,XX/1.", 11),
        ("A1,FAC,IB/0.", 13),
        ("A1,FAC,DB/29.", 14),
        ("A1,FAC.", 27),
    ] {
        let error = |further: &[&str]| read_all(fac, further).map_err(|error| error.0).err();
        assert_eq!(error(&["A1,PM,A."]), Some(30));
        assert_eq!(error(&["A1,PM0,A"]), Some(4));
        assert_eq!(error(&["A1,TAL,X/1.", "A1,TRN,4.", "A1,TAL,X/1."]), Some(23));
        assert_eq!(error(&["A1,TRN,4.", "A1,PM0,A.", "A1,TRN,A/T/B/C."]), Some(24));
        for content in ["A1,TAL,-/1.", "A1,TAL,X/123456.", "A1,TRN,-.", "A1,TRN,123."] {
            assert_eq!(error(&[content]), Some(of_fac), "{fac} {content}");
        }
    }
}

#[test]
fn sixteen_cards_and_no_more() {
    let cards = ["A1,TAL,X/1."; 15];
    assert!(read(&cards[..13]).is_ok());
    assert!(read(&cards[..14]).is_ok());
    assert_eq!(error(&cards), 20);
}

#[test]
fn increments_one_by_one() {
    for (entry, expected) in [
        ("A/0", 0),
        ("A/00000", 0),
        ("ABCDEF/99999", 0),
        ("A/000000", 6),
        ("A/100000", 6),
        ("A/12345X", 6),
        ("A/1/3456", 6),
        ("A/1/2", 5),
        ("A/", 5),
        ("/1", 5),
        ("A", 5),
        ("", 5),
        ("A/-1", 5),
        ("ABCDEFG/1", 5),
        ("ABCDEFG/123456", 5),
        ("A/1,", 5),
        (",A/1", 5),
        ("A/123456,B", 6),
        ("B,A/123456", 5),
    ] {
        assert_eq!(error(&[&format!("A1,TAL,{entry}.")]), expected, "{entry}");
    }
    assert_eq!(error(&["A1,TAL."]), 5);
    assert_eq!(error(&["A1,TAL,A/123456"]), 5);
}

#[test]
fn transfers_one_by_one() {
    for (field, expected) in [
        ("0", 0),
        ("99", 0),
        ("100", 8),
        ("XYZ", 8),
        ("X", 7),
        ("", 7),
        ("A/T/B/C", 0),
        ("4,A/T/B/C", 0),
        ("4,5", 7),
        ("4,ABCDEF", 7),
        ("4,ABCDEFG", 8),
        ("A/T/B/C,4", 7),
        ("A/T/B", 7),
        ("A/T/B/C/", 7),
        ("A/T/B/C/ABCDEFG", 7),
        ("A/T/B/ABCDEFG/", 8),
        ("ABCDEFG/X/B/C", 8),
        ("-/TTT/B/C", 7),
        ("A/*D/B/C", 7),
        ("A/*TT/B/C", 8),
        ("A/T/*REQ/C", 0),
        ("A/T/*XYZ/C", 7),
        ("A/T/*REQ1/C", 7),
        ("A/T/*REQUES/C", 8),
        ("A/T/*REQ", 7),
    ] {
        assert_eq!(error(&[&format!("A1,TRN,{field}.")]), expected, "{field}");
    }
    for (second, expected) in [("5", 7), ("55", 7), ("555", 8), ("X", 7), ("A/T/B/C", 0), ("5,A/TTT/B/C", 7)] {
        assert_eq!(error(&["A1,TRN,4.", &format!("A1,TRN,{second}.")]), expected, "{second}");
    }
    // 0 is a count too.
    assert_eq!(error(&["A1,TRN,0.", "A1,TRN,0."]), 7);
    assert_eq!(error(&["A1,TRN,A/T/B/C.", "A1,TRN,4."]), 0);
}

#[test]
fn parameter_cards_one_by_one() {
    let card = |text: &str| format!("A1,PM0,{text}.");
    assert_eq!(error(&[&card(&" ".repeat(66))]), 0);
    assert_eq!(error(&[&card(&" ".repeat(67))]), 4);
    assert_eq!(error(&[&card(&".".repeat(66))]), 0);
    assert_eq!(error(&["A1,PM0,A.", "A1,PM0,A."]), 4);
    assert_eq!(error(&["A1,PM1,A.", "A1,PM0,A."]), 4);
    assert_eq!(error(&["A1,PM0,A.", "A1,PM9,A."]), 0);
    for (card, expected) in [
        ("A1,PM3.,TEXT.", 0),
        ("A1,PM3.A,TEXT.", 0),
        ("A1,PM3.", 4),
        ("A1,PM3.,", 4),
        ("A1,PM.3,TEXT.", 30),
        ("A1.,PM3,TEXT.", 3),
        ("A1,PM12,TEXT.", 30),
        ("A1,P,TEXT.", 3),
    ] {
        assert_eq!(error(&[card]), expected, "{card}");
    }
}

#[test]
fn equal_requests() {
    let same = read(&["A1,TAL,A/1,B/2.", "A1,TRN,4.", "A1,PM0,X."]).unwrap();
    assert_eq!(read(&["A1, TAL,A/01,B/00002.", "A1,TRN,04.", "A1,PM0.,X.  "]), Ok(same.clone()));
    for other in [
        &["A1,TAL,B/2,A/1.", "A1,TRN,4.", "A1,PM0,X."][..],
        &["A1,TAL,A/1.", "A1,TAL,B/2.", "A1,TRN,4.", "A1,PM0,X."],
        &["A1,TRN,4.", "A1,TAL,A/1,B/2.", "A1,PM0,X."],
        &["A1,TAL,A/1,B/2.", "A1,TRN,4.", "A1,PM0,X ."],
        &["A1,TAL,A/1,B/2.", "A1,TRN,4.", "A1,PM1,X."],
        &["A1,TAL,A/1,B/2.", "A1,TRN,5.", "A1,PM0,X."],
        &["A1,TAL,A/1,B/2.", "A1,TRN,4."],
    ] {
        assert_ne!(read(other), Ok(same.clone()), "{other:?}");
    }
}

#[test]
fn the_parameter_table() {
    let row = |text: &str| format!("{text}{}", " ".repeat(66 - text.len()));
    let table = |further: &[&str]| parameter_table(&read(further).unwrap().further);
    assert!(table(&["A1,TAL,A/1."]).is_empty());
    assert_eq!(table(&["A1,PM0,."]), [row("")]);
    assert_eq!(table(&["A1,PM1, X ."]), [row(""), row(" X")]);
    assert_eq!(table(&["A1,PM1, X."]), table(&["A1,PM1, X  ."]));
    assert_eq!(table(&["A1,PM0,A.", "A1,PM2,C."]), [row("A"), row(""), row("C")]);
    let full = "X".repeat(66);
    let last = table(&[&format!("A1,PM9,{full}.")]);
    assert_eq!((last.len(), &last[9]), (10, &full));
}
