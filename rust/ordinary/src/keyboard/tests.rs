use super::*;

/// The call, or the number that is shown.
fn read(message: &str) -> Result<Call, u8> {
    Message::read(message.as_bytes()).call.map_err(Error::number)
}

fn down(channel: u32, unit: u32) -> Result<Call, u8> {
    Ok(Call::Down { channel, unit, on: true })
}

#[test]
fn each_word_has_its_call() {
    assert_eq!(read("DWN C03 U01"), down(3, 1));
    assert_eq!(read("AVL C03 U01"), Ok(Call::Down { channel: 3, unit: 1, on: false }));
    assert_eq!(read("SEL A1"), Ok(Call::Release("A1".into())));
    assert_eq!(read("DEL A1"), Ok(Call::Delete("A1".into())));
}

#[test]
fn an_unknown_message_has_no_word() {
    let words = ["", "UPF", "dwn", "Dwn", "DOWN", "DW", "DWNN", "DWN\t", "DWNC03", "DEL*A1", "C03", "-", "\u{0}"];
    for word in words {
        let message = Message::read(format!("{word} C03 U01").as_bytes());
        assert_eq!((message.word, message.call.map_err(Error::number)), (None, Err(17)), "{word}");
    }
    for message in [&b""[..], b" ", b"   ", b"\t", b"\xff DWN", b"DWN\0C03 U01"] {
        assert_eq!(Message::read(message).call.map_err(Error::number), Err(17));
    }
}

#[test]
fn text_after_the_last_field_is_looked_at_before_the_fields() {
    for message in ["DWN C03 U01 X", "DWN CX U01 X", "AVL C99 U99 U1", "SEL A A", "DEL * A1", "DEL A \t", "DWN C U \0"]
    {
        assert_eq!((Message::read(message.as_bytes()).word, read(message)), (None, Err(17)), "{message}");
    }
}

#[test]
fn spaces_are_neither_text_nor_empty_fields() {
    for message in ["  DWN C03 U01", "DWN C03 U01  ", "DWN   C03  U01", "   DWN  C03   U01    "] {
        assert_eq!(read(message), down(3, 1), "{message}");
    }
    assert_eq!(read("  SEL   A1  "), Ok(Call::Release("A1".into())));
}

#[test]
fn a_field_of_no_length() {
    for message in [
        "DWN",
        "DWN ",
        "DWN C",
        "DWN C U01",
        "DWN U01",
        "DWN U01 C03",
        "DWN 03 U01",
        "DWN c03 U01",
        "DWN \tC03 U01",
        "DWN C03",
        "DWN C03 U",
        "DWN C03 01",
        "DWN C03 u01",
        "DWN C03 C01",
        "DWN C03 \0U01",
        "SEL",
        "SEL  ",
        "DEL",
    ] {
        assert_eq!(read(message), Err(1), "{message}");
        assert!(Message::read(message.as_bytes()).word.is_some());
    }
}

#[test]
fn a_nondigit_comes_before_a_number_that_is_too_large() {
    for message in [
        "DWN CX U01",
        "DWN C16X U01",
        "DWN CX99 U01",
        "DWN C03U01",
        "DWN C-3 U01",
        "DWN C+3 U01",
        "DWN C03\r U01",
        "DWN C03\tU01",
        "DWN C\u{0} U01",
        "DWN C03 U16X",
        "DWN C03 U1.",
        "DWN C03 U01\r",
        "DWN C03 U01\t",
        "DWN C03 U\u{663}",
    ] {
        assert_eq!(read(message), Err(10), "{message}");
    }
    assert_eq!(Message::read(b"DWN C\xff3 U01").call.map_err(Error::number), Err(10));
}

#[test]
fn the_first_field_that_is_wrong_answers() {
    for (fields, number) in [
        ("C99 UX", 12),
        ("C99 01", 12),
        ("C99", 12),
        ("CX U99", 10),
        ("CX", 10),
        ("03 UX", 1),
        ("C UX", 1),
        ("U99 CX", 1),
        ("C15 UX", 10),
        ("C15 U99", 5),
        ("C15 99", 1),
    ] {
        assert_eq!(read(&format!("DWN {fields}")), Err(number), "{fields}");
        assert_eq!(read(&format!("AVL {fields}")), Err(number), "{fields}");
    }
}

#[test]
fn numbers_count_by_their_value() {
    assert_eq!(read("DWN C15 U15"), down(15, 15));
    assert_eq!((read("DWN C16 U15"), read("DWN C15 U16")), (Err(12), Err(5)));
    let zeros = "0".repeat(5_000);
    assert_eq!(read(&format!("DWN C{zeros}15 U{zeros}")), down(15, 0));
    assert_eq!(read(&format!("DWN C{zeros}16 U0")), Err(12));
    assert_eq!(read(&format!("DWN C0 U1{zeros}")), Err(5));
    // Each is 3 in a number of 8, 16, 32, 64 or 128 bits that runs over.
    for large in ["259", "65539", "4294967299", "18446744073709551619", "340282366920938463463374607431768211459"] {
        assert_eq!((read(&format!("DWN C{large} U1")), read(&format!("DWN C3 U{large}"))), (Err(12), Err(5)));
    }
}

#[test]
fn any_word_is_an_id() {
    for id in ["ABCDEFG", "a1", "*A1", "A1.", "---", "C03", "\t", "A\r", "\0"] {
        assert_eq!(read(&format!("SEL {id}")), Ok(Call::Release(id.into())));
        assert_eq!(read(&format!("DEL {id}")), Ok(Call::Delete(id.into())));
    }
}

#[test]
fn numbers_are_shown_unpadded_and_refusal_1_as_31() {
    let shown = |word, error| Answer { word, outcome: Err(error) }.to_string();
    assert_eq!(shown(Some(Word::Dwn), Error::Field(FieldError::NoLength)), "DWN 1 IN ER");
    assert_eq!(shown(Some(Word::Avl), Error::Refused(Refusal::OutOfRange)), "AVL 31 IN ER");
    assert_eq!(shown(Some(Word::Sel), Error::Refused(Refusal::NoSuchRequest)), "SEL 15 IN ER");
    assert_eq!(shown(None, Error::Refused(Refusal::UnknownMessage)), "--- 17 IN ER");
    assert_eq!(Answer { word: Some(Word::Del), outcome: Ok(()) }.to_string(), "DEL ACK");
}
