//! The command line: help, version, options in either form, and errors that name the word.

use std::process::Command;

use crate::support::{folder, night, said, Place};

#[test]
fn help_and_version_are_on_standard_output_with_status_0() {
    let commands = night::help::COMMANDS.iter().map(|command| command.name);
    for command in commands.clone() {
        for words in [[command, "--help"], ["--help", command], [command, "-h"]] {
            let output = night(&words);
            let page = String::from_utf8(output.stdout.clone()).unwrap();
            assert!(page.starts_with(&format!("usage: night {command}")), "{page}");
            assert_eq!((output.status.code(), said(&output).as_str()), (Some(0), ""));
        }
        let version = night(&[command, "--version"]);
        assert_eq!((version.status.code(), version.stdout), (Some(0), night(&["--version"]).stdout));
    }
    let page = String::from_utf8(night(&["--help"]).stdout).unwrap();
    assert!(commands.into_iter().all(|command| page.contains(&format!("\n  night {command} "))), "{page}");
    assert!(night(&["--version"]).stdout.starts_with(b"night (Luffgravel) "));
}

#[test]
fn an_error_names_the_word() {
    for (words, due) in [
        (&[][..], "which command?"),
        (&["frob"], "there is no command frob"),
        (&["run", "--frob"], "there is no option --frob"),
        (&["run", "-x"], "there is no option -x"),
        (&["run", "--journal"], "--journal has no FILE behind it"),
        (&["run", "--journal=", "c"], "the FILE of --journal is empty"),
        (&["run", "c"], "--journal FILE is missing"),
        (&["run", "--journal", "j"], "CONFIG is missing"),
        (&["run", "--journal", "j", "c", "d"], "d is a word too many"),
        (&["run", "--journal", "j", "--journal", "k", "c"], "--journal is given twice"),
        (&["run", "--journal", "j", "--new", "--resume", "c"], "--new and --resume do not go together"),
        (&["run", "--journal", "j", "--new=1", "c"], "--new takes no value, and 1 is one"),
        (&["run", "--journal", "j", "--at", "3", "c"], "--at is no option of night run"),
        (&["show", "--journal", "j", "--sheet", "x"], "--sheet x is no number"),
    ] {
        let output = night(words);
        assert!(said(&output).starts_with(&format!("night: {due}")), "{words:?}: {}", said(&output));
        assert_eq!((output.status.code(), output.stdout.len()), (Some(2), 0), "{words:?}");
    }
}

#[test]
fn options_are_taken_in_either_form_and_the_environment_may_name_the_journal() {
    let place = Place::new("forms", b"1\n03 MT 4\n0\n0\n");
    place.answers(b"DOWN 3 1\n");
    let journal = place.journal().to_str().unwrap().to_string();
    let due = night(&["log", "--journal", &journal]).stdout;
    assert!(due.ends_with(b"DOWN 3 1\n               > ACK\n"));
    assert_eq!(night(&["log", &format!("--journal={journal}")]).stdout, due);
    assert_eq!(night(&["--journal", &journal, "log", "--"]).stdout, due);
    let mut command = Command::new(env!("CARGO_BIN_EXE_night"));
    assert_eq!(command.arg("log").env("NIGHT_JOURNAL", &journal).output().unwrap().stdout, due);
}

/// What bash completes, with the file of completions, where this is typed behind `night`.
fn completed(words: &[&str]) -> Vec<String> {
    let file = concat!(env!("CARGO_MANIFEST_DIR"), "/completions.bash");
    let typed: Vec<String> = words.iter().map(|word| format!("'{word}'")).collect();
    let script = format!(
        ". '{file}'; COMP_WORDS=(night {}); COMP_CWORD={}; _night; printf '%s\\n' \"${{COMPREPLY[@]}}\"",
        typed.join(" "),
        words.len()
    );
    let output = Command::new("bash").args(["-c", &script]).output().expect("bash is there");
    assert!(output.status.success(), "{}", said(&output));
    let mut lines: Vec<String> = String::from_utf8(output.stdout).unwrap().lines().map(str::to_string).collect();
    lines.retain(|line| !line.is_empty());
    lines.sort();
    lines
}

#[test]
fn bash_completes_every_command_and_option() {
    let sorted = |words: &[&str]| {
        let mut words: Vec<String> = words.iter().map(ToString::to_string).collect();
        words.sort();
        words
    };
    let names: Vec<&str> = night::help::COMMANDS.iter().map(|command| command.name).collect();
    assert_eq!(completed(&[""]), sorted(&names));
    for command in &night::help::COMMANDS {
        let due = [command.options, &["--help", "--version"]].concat();
        assert_eq!(completed(&[command.name, "--"]), sorted(&due), "night {}", command.name);
        assert_eq!(completed(&[command.name, "--hel"]), ["--help"]);
    }
    let file = concat!(env!("CARGO_MANIFEST_DIR"), "/Cargo.tom");
    let whole = concat!(env!("CARGO_MANIFEST_DIR"), "/Cargo.toml");
    assert_eq!(completed(&["run", "--journal", file]), [whole]);
    assert_eq!(completed(&["run", "--journal", "=", file]), [whole]);
    assert_eq!(completed(&["check", file]), [whole]);
    assert!(completed(&["who", "--at", ""]).is_empty());
}

/// What `./install` puts before each proved program.
#[test]
fn the_proved_programs_have_a_help_and_a_version_too() {
    for (name, _) in night::help::PROGRAMS {
        let program = folder(&format!("begin-{name}")).join(name);
        // No copy: a file that was just written cannot be started while another test's child still holds it open.
        std::fs::hard_link(env!("CARGO_BIN_EXE_begin"), &program).unwrap();
        let run = |word: &str| Command::new(&program).arg(word).stdin(std::process::Stdio::null()).output().unwrap();
        for (word, start) in [("--help", format!("usage: {name} ")), ("--version", format!("{name} (Luffgravel) "))] {
            let output = run(word);
            assert_eq!((output.status.code(), said(&output).as_str()), (Some(0), ""), "{name} {word}");
            assert!(output.stdout.starts_with(start.as_bytes()), "{name} {word}");
        }
        let output = run("x.conf");
        assert!(said(&output).starts_with(&format!("{name}: x.conf is a word too many")), "{}", said(&output));
        assert_eq!((output.status.code(), output.stdout.len()), (Some(2), 0));
    }
}
