//! Times of the ordinary implementation and of the proved functions on the same input, in processor time of this
//! thread, so that other work on the machine does not count. Each figure is the lowest of several samples, each of as
//! many runs as take some milliseconds. That both answer the same is checked before anything is timed.

mod calls;
mod proved;

use std::hint::black_box;
use std::time::Duration;

use ordinary::cell::{Cell, Status};
use ordinary::configuration::Configuration;

const TERMINATION: &str = ")))))))) +++++++++++++                                                  ))))))))\n";
const SAMPLES: usize = 40;
const SAMPLE: Duration = Duration::from_millis(5);

/// The processor time of this thread.
fn now() -> Duration {
    #[repr(C)]
    struct Time {
        seconds: i64,
        nanoseconds: i64,
    }
    extern "C" {
        fn clock_gettime(clock: i32, time: *mut Time) -> i32;
    }
    const THREAD_CPU_TIME: i32 = 3;
    let mut time = Time { seconds: 0, nanoseconds: 0 };
    // SAFETY: on 64-bit Linux this is the layout of C's `struct timespec`, and the call keeps nothing.
    let failed = unsafe { clock_gettime(THREAD_CPU_TIME, &mut time) };
    assert_eq!(failed, 0, "the clock of this thread");
    Duration::new(time.seconds as u64, time.nanoseconds as u32)
}

/// Nanoseconds of one run.
fn time(mut run: impl FnMut()) -> f64 {
    let mut runs = 1_u32;
    let sample = |runs: u32, run: &mut dyn FnMut()| {
        let start = now();
        for _ in 0..runs {
            run();
        }
        now() - start
    };
    while sample(runs, &mut run) < SAMPLE {
        runs *= 2;
    }
    let samples = (0..SAMPLES).map(|_| sample(runs, &mut run).as_nanos() as f64 / f64::from(runs));
    samples.fold(f64::INFINITY, f64::min)
}

fn show(what: &str, ordinary: f64, proved: Option<f64>) {
    let micro = |nanoseconds: f64| match nanoseconds {
        0.0..10_000.0 => format!("{:.3}", nanoseconds / 1000.0),
        _ => format!("{:.0}", nanoseconds / 1000.0),
    };
    let (time, ratio) = match proved {
        Some(proved) => (micro(proved), format!("{:.1}", proved / ordinary)),
        None => ("-".into(), "-".into()),
    };
    println!("| {what} | {} | {time} | {ratio} |", micro(ordinary));
}

/// What is timed, by the name that asks for it alone.
const PARTS: [(&str, fn()); 8] = [
    ("decks", decks),
    ("configurations", configurations),
    ("turns", calls::turns),
    ("returns", calls::returns),
    ("entries", calls::entries),
    ("selections", calls::selections),
    ("late-selections", calls::late_selections),
    ("kinds", calls::kinds),
];

fn main() {
    let wanted: Vec<String> = std::env::args().skip(1).collect();
    if let Some(unknown) = wanted.iter().find(|name| PARTS.iter().all(|(part, _)| part != name)) {
        eprintln!("bench: no part {unknown}; there are {}", PARTS.map(|(part, _)| part).join(", "));
        std::process::exit(2);
    }
    println!("| What | ordinary, µs | proved, µs | proved / ordinary |");
    println!("|---|---|---|---|");
    for (part, run) in PARTS {
        if wanted.is_empty() || wanted.iter().any(|name| name == part) {
            run();
        }
    }
    if !proved::LINKED {
        eprintln!("The proved functions are not linked: run bench/native.sh first.");
    }
}

fn decks() {
    let k1 = "A1,PTY,2,,ECU,,T,PROG,P,02A5,P,3.\nA1,FAC,IB/2,MT1/2.\nB7,PTY,2,,LABEL,,T,PROG,P,A5,C,1.\nB7,FAC,IB/1.\n\
              D4,PTY,2,,KEY,,T,PROG,P,01A5,C,1.\nD4,FAC,IB/1.\n";
    let requests = |count: usize| -> String {
        let entries = "IB/2,DB/1,MD/1500,MA/1,MT1/2,MT2/3,PR/1";
        (0..count).map(|n| request(n, entries)).collect()
    };
    let longest = (1..).take_while(|&count| requests(count).len() + TERMINATION.len() <= 16_384).last().unwrap_or(0);
    let one_card_groups = "A,PTY.\n".repeat((16_384 - TERMINATION.len()) / 7);
    for (what, cards) in [
        ("deck: the three requests of K1", k1.to_string()),
        ("deck: 64 requests, which fill the schedule", requests(64)),
        (&format!("deck: {longest} requests, nearly 16,384 bytes"), requests(longest)),
        ("deck: 2,329 groups of one card, all in error", one_card_groups),
    ] {
        let deck = (cards + TERMINATION).into_bytes();
        let ordinary = time(|| {
            black_box(ordinary::deck::report(black_box(&deck)));
        });
        let proved = proved::LINKED.then(|| {
            let mut room: proved::Room = [0; 53_248];
            let length = proved::deck(&deck, &mut room);
            assert_eq!(&room[..length], ordinary::deck::report(&deck).as_bytes());
            time(|| {
                black_box(proved::deck(black_box(&deck), &mut room));
            })
        });
        show(what, ordinary, proved);
    }
}

/// The two cards of a request with its own ID and priority.
fn request(number: usize, entries: &str) -> String {
    let letter = char::from(b'A' + (number / 63 % 26) as u8);
    format!("J{number},PTY,2,,PROG-{number},,T,LIB,P,{letter}{},P,10.\nJ{number},FAC,{entries}.\n", number % 63)
}

/// Sixteen channels with sixteen units each, all down, and all codes that there are.
fn largest_configuration() -> String {
    let channels: String = (0..16).map(|channel| format!("{channel:02} MT 16\n")).collect();
    let down: String = (0..256).map(|unit| format!("{:02} {:02}\n", unit / 16, unit % 16)).collect();
    let codes = (0o02..=0o77).filter(|code| ![0o16, 0o17].contains(code));
    let codes: String = codes.map(|code| format!("{code:02o}\n")).collect();
    format!("16\n{channels}256\n{down}60\n{codes}")
}

const CELL: &str = "6\n00 MA 4\n01 MA 2\n03 MT 6\n05 MT 3\n07 MD 40000\n12 PR 2\n1\n00 01\n5\n02\n06\n11\n13\n14\n";

fn configurations() {
    for (what, text) in
        [("six channels, one unit down", CELL.to_string()), ("256 units, all down, 60 codes", largest_configuration())]
    {
        let text = text.as_bytes();
        let ordinary = time(|| {
            black_box(Configuration::from_text(black_box(text)).is_ok());
        });
        let proved = proved::LINKED.then(|| {
            assert!(proved::is_down(text, 0, 1));
            time(|| {
                black_box(proved::is_down(black_box(text), black_box(0), black_box(1)));
            })
        });
        show(&format!("configuration read: {what}"), ordinary, proved);

        let ordinary = time(|| {
            black_box(ordinary::configuration::listing(black_box(text)));
        });
        let proved = proved::LINKED.then(|| {
            let mut room = [0; 96];
            let length = proved::listing(text, &mut room);
            assert_eq!(&room[..length], ordinary::configuration::listing(text).as_bytes());
            time(|| {
                black_box(proved::listing(black_box(text), &mut room));
            })
        });
        show(&format!("configuration read and listed: {what}"), ordinary, proved);

        let fresh = |text| Cell::new(Configuration::from_text(text).expect("a good configuration"));
        let ordinary = time(|| {
            black_box(black_box(fresh(black_box(text))).status(15, 15) == Ok(Status::Blank));
        });
        let proved = proved::LINKED.then(|| {
            assert!(proved::fresh(text, 15, 15, false) && proved::fresh(text, 0, 1, true));
            time(|| {
                black_box(proved::fresh(black_box(text), 15, 15, black_box(false)));
            })
        });
        show(&format!("configuration read and fresh cell made: {what}"), ordinary, proved);
    }
}
