use super::*;
use crate::numbers::LogicalChannel;

const PTY: &[u8] = b"A1,PTY,2,,ECU,,T,PROG,P,02A5,P,3.";

fn read(pty: &[u8], fac: &[u8]) -> Result<Request, CardError> {
    Request::read(&[pty, fac])
}

fn written(request: &Request) -> String {
    let mut room = [0; 2 * (CARD_LENGTH + 1)];
    let length = request.write(&mut room).unwrap();
    String::from_utf8(room[..length].to_vec()).unwrap()
}

#[test]
fn entry_order_does_not_matter() {
    let one = read(PTY, b"A1,FAC,PR/1,MT02/3,MT/1,MA15/2,IB/02,MD/1500,DB/1.").unwrap();
    let other =
        read(b"A1 , PTY,02,,ECU,,T,PROG,P,02A05,P,0003,,.", b"A1,FAC,MA15/2,MT2/3,MT0/01,PR/1,DB/1,MD/1500,IB/2.")
            .unwrap();
    assert_eq!(one, other);
    assert_eq!(written(&one), "A1,PTY,2,,ECU,,T,PROG,P,02A05,P,3.\nA1,FAC,IB/2,DB/1,MD/1500,MA15/2,MT/1,MT2/3,PR/1.\n");
}

#[test]
fn the_new_kinds_follow_pr() {
    let one = read(PTY, b"A1,FAC,PT/1,CR15/2,CR/3,MC1/4,PR/5,MT/6,MA/7,MD/8,DB/9,IB/10.").unwrap();
    let due = "A1,FAC,IB/10,DB/9,MD/8,MA/7,MT/6,PR/5,MC1/4,CR/3,CR15/2,PT/1.";
    assert_eq!(written(&one).lines().last(), Some(due));
    assert_eq!(read(PTY, due.as_bytes()), Ok(one));
}

#[test]
fn writing_is_undone_by_reading() {
    let request = read(b"A1,PTY,2,S,X-1,I,C,M,S,A,C,0,Z,LIB.", b"A1,FAC,IB/28.").unwrap();
    let text = written(&request);
    let cards: Vec<&[u8]> = text.lines().map(str::as_bytes).collect();
    assert_eq!(Request::read(&cards), Ok(request));
}

#[test]
fn k3_core_over_28_is_error_14() {
    assert_eq!(read(PTY, b"A1,FAC,IB/14,DB/15."), Err(CardError(14)));
    assert!(read(PTY, b"A1,FAC,IB/14,DB/14.").is_ok());
}

#[test]
fn entries_that_are_wrong() {
    for (entry, error) in [
        ("", 11),
        ("1/1", 11),
        ("CP/1", 11),
        ("HP/1", 11),
        ("PP/1", 11),
        ("JP/1", 11),
        ("C/1", 11),
        ("RC/1", 11),
        ("TP/1", 11),
        ("MCX/1", 9),
        ("MCC1/1", 9),
        ("I/1", 11),
        ("PRINT/1", 9),
        ("IB", 13),
        ("IB1/1", 13),
        ("MD/1000000", 13),
        ("MD/0", 13),
        ("MT16/1", 13),
        ("MT001/1", 13),
        ("MT/100", 13),
        ("MT/1/1", 13),
        ("MT/-1", 13),
        ("PR00/1", 13),
        ("MC16/1", 13),
        ("CR/100", 13),
        ("PT/0", 13),
        ("PT001/1", 13),
        ("CR1", 13),
        ("MC/1,MC0/2", 13),
        ("DB/29", 14),
    ] {
        let fac = format!("A1,FAC,IB/1,PR/1,{entry}.");
        assert_eq!(read(PTY, fac.as_bytes()), Err(CardError(error)), "{fac}");
    }
}

#[test]
fn writing_refuses_13_before_12_and_keeps_the_room() {
    let good = read(PTY, b"A1,FAC,IB/1.").unwrap();
    let mut room = [7; 200];
    for spoil in [
        |request: &mut Request| request.id = "A-".into(),
        |request: &mut Request| request.program = "-A".into(),
        |request: &mut Request| request.medium.clear(),
        |request: &mut Request| request.priority.sequence = 64,
        |request: &mut Request| request.priority = Priority { sequence: 0, letter: 'Z', precedence: 63 },
        |request: &mut Request| request.minutes = 10_000,
        |request: &mut Request| request.library_medium = Some('B'),
        |request: &mut Request| request.library = Some(String::new()),
        |request: &mut Request| request.entries.clear(),
        |request: &mut Request| request.entries[0].n = 29,
        |request: &mut Request| request.entries[0].logical = LogicalChannel(1),
        |request: &mut Request| request.entries.push(request.entries[0]),
    ] {
        let mut bad = good.clone();
        spoil(&mut bad);
        assert_eq!(bad.write(&mut room), Err(Refusal::BadRequest));
        assert_eq!(bad.write(&mut []), Err(Refusal::BadRequest));
    }
    let length = written(&good).len();
    assert_eq!(good.write(&mut room[..length - 1]), Err(Refusal::NoRoom));
    let mut long = good.clone();
    long.entries.extend((0..16).map(|logical| Entry {
        code: Code::Of(Kind::Mt),
        logical: LogicalChannel(logical),
        n: 10,
    }));
    assert_eq!(long.write(&mut room), Err(Refusal::NoRoom));
    assert!(room.iter().all(|&byte| byte == 7));
    assert_eq!(good.write(&mut room[..length]), Ok(length));
}
