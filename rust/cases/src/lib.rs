//! The cases of the programs, the public ones and our own, as tests read them.

use std::fs;
use std::path::{Path, PathBuf};

/// How many cases each program has at least: a folder that has lost some is no pass.
const AT_LEAST: [(&str, usize); 5] = [("listing", 111), ("deck", 52), ("cards", 151), ("desk", 89), ("shift", 109)];

/// An input, and what is to be printed for it.
pub struct Case {
    pub path: PathBuf,
    pub input: Vec<u8>,
    pub output: Vec<u8>,
}

/// The cases of a program, by their names: each `NAME.in` gives `NAME.out`.
pub fn cases(program: &str) -> Vec<Case> {
    let folder = Path::new(env!("CARGO_MANIFEST_DIR")).join(format!("../../crates/cases_{program}/data"));
    let mut inputs: Vec<PathBuf> = fs::read_dir(&folder)
        .unwrap_or_else(|error| panic!("{}: {error}", folder.display()))
        .map(|entry| entry.unwrap().path())
        .filter(|path| path.extension().is_some_and(|extension| extension == "in"))
        .collect();
    inputs.sort();
    let (_, at_least) = AT_LEAST.into_iter().find(|(name, _)| *name == program).expect("a program with cases");
    assert!(inputs.len() >= at_least, "{} has {} cases", folder.display(), inputs.len());
    let read = |path: &Path| fs::read(path).unwrap_or_else(|error| panic!("{}: {error}", path.display()));
    let case = |path: PathBuf| Case { input: read(&path), output: read(&path.with_extension("out")), path };
    inputs.into_iter().map(case).collect()
}

impl Case {
    /// The answer must be the case's output, to the byte.
    #[track_caller]
    pub fn is_answered(&self, answered: &[u8]) {
        self.is_same(answered, &self.output);
    }

    /// Two texts about the case must be the same, to the byte.
    #[track_caller]
    pub fn is_same(&self, answered: &[u8], expected: &[u8]) {
        assert!(
            answered == expected,
            "{}\nexpected:\n{}\nanswered:\n{}",
            self.path.display(),
            String::from_utf8_lossy(expected),
            String::from_utf8_lossy(answered)
        );
    }
}
