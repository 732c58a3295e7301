//! The header and the archive as a C program has them: `answer.c` is compiled with this machine's C compiler, without
//! a warning, and its answers are those of the Rust side.

use std::io::Write;
use std::path::{Path, PathBuf};
use std::process::{Command, Stdio};

use cases::cases;

/// The compiled program.
fn compiled() -> PathBuf {
    let program = Path::new(env!("CARGO_TARGET_TMPDIR")).join("answer");
    let compiler = std::env::var_os("CC").unwrap_or_else(|| "cc".into());
    let status = Command::new(&compiler)
        .current_dir(env!("CARGO_MANIFEST_DIR"))
        .args(["-std=c11", "-O2", "-Wall", "-Wextra", "-Wpedantic", "-Werror", "-Wstrict-prototypes", "answer.c"])
        .arg(env!("LUFFGRAVEL_ARCHIVE"))
        .arg("-o")
        .arg(&program)
        .status()
        .unwrap_or_else(|error| panic!("{}: {error}; CC may name a C compiler", compiler.display()));
    assert!(status.success());
    program
}

fn answer(program: &Path, words: &[&str], input: &[u8]) -> Vec<u8> {
    let mut child = Command::new(program)
        .args(words)
        .stdin(Stdio::piped())
        .stdout(Stdio::piped())
        .spawn()
        .expect("it was compiled");
    // It reads as much as decides, and may end before a longer input does.
    let _ = child.stdin.take().expect("a piped input").write_all(input);
    let output = child.wait_with_output().unwrap();
    assert!(output.status.success());
    output.stdout
}

#[test]
fn c_has_the_same_answers() {
    let program = compiled();
    for case in cases("listing") {
        let listing = ordinary::configuration::listing(&case.input);
        case.is_same(&answer(&program, &["listing"], &case.input), listing.as_bytes());
        let line = controller::bad_line(&case.input).map_or(0, usize::from);
        case.is_same(&answer(&program, &["line"], &case.input), format!("{line}\n").as_bytes());
    }
    for case in cases("deck") {
        case.is_same(&answer(&program, &["deck"], &case.input), ordinary::deck::report(&case.input).as_bytes());
    }
    for case in cases("desk") {
        case.is_same(&answer(&program, &["desk"], &case.input), &ordinary::desk::converse(&case.input));
    }
    for (words, expected) in [
        (&["legal", "MT", "47"][..], "legal\n"),
        (&["legal", "MA", "47"], "not legal\n"),
        (&["legal", "MC", "37"], "legal\n"),
        (&["legal", "MT", "37"], "not legal\n"),
        (&["legal", "CR", "44"], "legal\n"),
        (&["legal", "CR", "43"], "not legal\n"),
        (&["legal", "PT", "23"], "legal\n"),
        (&["legal", "PT", "03"], "not legal\n"),
        (&["legal", "PP", "23"], "not legal\n"),
        (&["core", "c0000003", "28", "0"], "2 0\n"),
        (&["core", "fffffce3", "2", "3"], "8 2\n"),
        (&["core", "fffffce3", "3", "3"], "nothing\n"),
    ] {
        assert_eq!(String::from_utf8(answer(&program, words, b"")).unwrap(), expected, "{words:?}");
    }
}
