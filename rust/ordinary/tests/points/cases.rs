//! The cases: each input gives its output to the byte.

use cases::cases;

#[track_caller]
fn check(program: &str, answer: impl Fn(&[u8]) -> Vec<u8>) {
    for case in cases(program) {
        case.is_answered(&answer(&case.input));
    }
}

#[test]
fn deck() {
    check("deck", |input| ordinary::deck::report(input).into_bytes());
}

#[test]
fn cards() {
    check("cards", |input| ordinary::cards::report(input).into_bytes());
}

#[test]
fn desk() {
    check("desk", ordinary::desk::converse);
}

#[test]
fn listing() {
    check("listing", |input| ordinary::configuration::listing(input).into_bytes());
}

#[test]
fn shift() {
    check("shift", ordinary::shift::converse);
}
