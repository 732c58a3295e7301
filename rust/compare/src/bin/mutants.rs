//! How sharp is the comparison? Each change of `mutants.txt` is made to a copy of the ordinary implementation, which
//! is then compared with the proved program, or with COMMAND: there must be a difference. The unchanged copy is compared
//! first, and must have none: else a change that is found would say nothing.
//!
//! `mutants cards|deck|desk|listing|shift [--last N] [--count N] [-- COMMAND..]`
//!
//! With `--last N` only the last N changes of the subject are made: those that have just been added.
//!
//! A change is four lines: the subject and the file, the text to find (once), the text to put there, and an empty line.

use std::fs;
use std::path::{Path, PathBuf};
use std::process::{Command, ExitCode, Stdio};

const USAGE: &str = "usage: mutants cards|deck|desk|listing|shift [--last N] [--count N] [-- COMMAND..]";

/// The proved programs that may be compared with.
const PROGRAMS: [&str; 5] = ["cards", "deck", "desk", "listing", "shift"];

/// The workspace of the copy: only what is compared is built there, and no lint is asked for.
const WORKSPACE: &str = "\
[workspace]
resolver = \"2\"
members = [\"ordinary\", \"compare\", \"cases\"]

[workspace.package]
version = \"0.1.0\"
edition = \"2021\"
publish = false

[workspace.lints]
";

/// A text of a file, and what is put in its place.
struct Change {
    file: String,
    old: String,
    new: String,
}

/// The changes of a subject, in the order of the list.
fn changes(text: &str, subject: &str) -> Vec<Change> {
    let lines: Vec<&str> = text.lines().filter(|line| !line.starts_with("//")).collect();
    let mut changes = Vec::new();
    for change in lines.split(|line| line.is_empty()).filter(|change| !change.is_empty()) {
        let [head, old, new] = change else { panic!("not three lines: {change:?}") };
        let (of, file) = head.split_once(' ').expect("a subject and a file");
        if of == subject {
            changes.push(Change { file: file.into(), old: old.to_string(), new: new.to_string() });
        }
    }
    changes
}

fn copy(from: &Path, to: &Path) {
    fs::create_dir_all(to).expect("a folder for the copy");
    for entry in fs::read_dir(from).expect("a folder to copy") {
        let entry = entry.expect("an entry");
        let target = to.join(entry.file_name());
        if entry.path().is_dir() {
            copy(&entry.path(), &target);
        } else {
            fs::copy(entry.path(), target).expect("a copied file");
        }
    }
}

/// The copy of the ordinary implementation and of what compares it.
struct Workplace {
    /// The folder of the workspace that is copied.
    top: PathBuf,
    /// The repository that the copy is in.
    repository: PathBuf,
}

impl Workplace {
    /// An unchanged copy, in the place of an earlier one.
    fn new(top: &Path) -> Workplace {
        let repository = top.join("target/mutants");
        let work = repository.join("rust");
        let _ = fs::remove_dir_all(&repository);
        for part in ["ordinary", "compare", "cases"] {
            copy(&top.join(part).join("src"), &work.join(part).join("src"));
            fs::copy(top.join(part).join("Cargo.toml"), work.join(part).join("Cargo.toml")).expect("a copied file");
        }
        fs::copy(top.join("Cargo.lock"), work.join("Cargo.lock")).expect("a copied file");
        fs::write(work.join("Cargo.toml"), WORKSPACE).expect("a written file");
        // Without proved programs there is another command to compare with.
        for name in PROGRAMS {
            let place = Path::new("crates").join(name).join("out");
            let proved = top.join("..").join(&place).join(name);
            if proved.is_file() {
                fs::create_dir_all(repository.join(&place)).expect("a folder for the copy");
                fs::copy(proved, repository.join(&place).join(name)).expect("a copied file");
            }
        }
        Workplace { top: top.into(), repository }
    }

    /// A source file of the ordinary implementation.
    fn source(&self, file: &str) -> PathBuf {
        self.repository.join("rust/ordinary/src").join(file)
    }

    fn build(&self, what: &str) {
        let mut build = Command::new("cargo");
        build.args(["build", "--offline", "--quiet", "--bin", "compare"]).current_dir(self.repository.join("rust"));
        build.env("CARGO_TARGET_DIR", self.top.join("target/mutants-build"));
        let built = build.stderr(Stdio::null()).status().expect("cargo");
        assert!(built.success(), "{what} does not build");
    }

    /// 0 if nothing differs, 1 if something does; anything else if the comparison itself has stopped.
    fn compare(&self, subject: &str, words: &[String]) -> Option<i32> {
        let mut compare = Command::new(self.top.join("target/mutants-build/debug/compare"));
        compare.arg(subject).args(["--first", "--save"]).arg(self.repository.join("differences")).args(words);
        compare.stdout(Stdio::null()).stderr(Stdio::null()).status().expect("compare").code()
    }
}

/// What came of a change.
#[derive(Clone, Copy, PartialEq, Eq)]
enum Verdict {
    Found,
    NotFound,
    Stopped,
}

impl Verdict {
    fn word(self) -> &'static str {
        match self {
            Verdict::Found => "found",
            Verdict::NotFound => "NOT FOUND",
            Verdict::Stopped => "stopped",
        }
    }
}

/// Makes a change, compares, and takes it back.
fn try_change(workplace: &Workplace, change: &Change, subject: &str, words: &[String]) -> Verdict {
    let Change { file, old, new } = change;
    let path = workplace.source(file);
    let source = fs::read_to_string(&path).expect("a source file");
    assert_eq!(source.matches(old.as_str()).count(), 1, "{file}: {old}");
    fs::write(&path, source.replace(old.as_str(), new)).expect("a written file");
    workplace.build(&format!("{file}: {new}"));
    let verdict = match workplace.compare(subject, words) {
        Some(0) => Verdict::NotFound,
        Some(1) => Verdict::Found,
        _ => Verdict::Stopped,
    };
    println!("{:<9}  {file}: {} -> {}", verdict.word(), old.trim(), new.trim());
    fs::write(&path, source).expect("a written file");
    verdict
}

fn main() -> ExitCode {
    let mut words = std::env::args().skip(1);
    let subject = words.next().expect(USAGE);
    let mut rest: Vec<String> = words.collect();
    let mut last = usize::MAX;
    if rest.first().is_some_and(|word| word == "--last") {
        last = rest.get(1).and_then(|number| number.parse().ok()).expect("a number after --last");
        rest.drain(..2);
    }
    let here = Path::new(env!("CARGO_MANIFEST_DIR"));
    let text = fs::read_to_string(here.join("mutants.txt")).expect("mutants.txt");
    let all = changes(&text, &subject);
    let changes = &all[all.len().saturating_sub(last)..];

    let workplace = Workplace::new(&here.join(".."));
    workplace.build("the unchanged copy");
    assert_eq!(workplace.compare(&subject, &rest), Some(0), "the unchanged copy must be compared without a difference");
    let verdicts: Vec<Verdict> = changes.iter().map(|change| try_change(&workplace, change, &subject, &rest)).collect();
    let count = |verdict| verdicts.iter().filter(|other| **other == verdict).count();
    let (kept, stopped) = (count(Verdict::NotFound), count(Verdict::Stopped));
    println!("{subject}: {} changes, {kept} not found, {stopped} stopped the comparison", changes.len());
    if kept == 0 {
        ExitCode::SUCCESS
    } else {
        ExitCode::FAILURE
    }
}
