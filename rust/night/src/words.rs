//! The words of a command line: a command, its options, and the others in order.

use std::ffi::OsString;
use std::os::unix::ffi::{OsStrExt, OsStringExt};

use crate::help::{self, Command};

/// Why a command is not done, or not done well.
#[derive(Debug, PartialEq, Eq)]
pub enum Failure {
    /// The command line is none: status 2.
    Use(String),
    /// It was refused or could not be done: status 1.
    Failed(String),
    /// It was done, and what it printed says that something is in error: status 1.
    InError,
}

impl From<String> for Failure {
    fn from(message: String) -> Failure {
        Failure::Failed(message)
    }
}

impl From<&str> for Failure {
    fn from(message: &str) -> Failure {
        Failure::Failed(message.to_string())
    }
}

/// What a command line asks for.
pub enum Asked {
    Help(Option<&'static Command>),
    Version,
    Command(Words),
}

pub struct Words {
    pub command: &'static Command,
    options: Vec<(&'static str, OsString)>,
    pub rest: Vec<OsString>,
}

fn shown(word: &OsString) -> String {
    word.to_string_lossy().chars().map(|char| if char.is_control() { '?' } else { char }).collect()
}

/// Reads a command line, without the program's name.
pub fn read(words: Vec<OsString>) -> Result<Asked, Failure> {
    let (mut options, mut rest) = (Vec::new(), Vec::new());
    let mut words = words.into_iter();
    while let Some(word) = words.next() {
        if word == "--" {
            rest.extend(words.by_ref());
        } else if word.as_bytes().starts_with(b"-") && word != "-" {
            let (name, value) = split(&word)?;
            let value = if help::takes_value(name) { value.or_else(|| words.next()) } else { value };
            options.push((name, check_value(name, value)?));
        } else {
            rest.push(word);
        }
    }
    let is_given = |name| options.iter().any(|(given, _)| *given == name);
    if is_given("--version") {
        return Ok(Asked::Version);
    }
    let command = if rest.is_empty() { None } else { Some(rest.remove(0)) };
    let command = command.map(|word| find(&word)).transpose()?;
    match command {
        _ if is_given("--help") => Ok(Asked::Help(command)),
        None => Err(Failure::Use("which command? night --help shows them".to_string())),
        Some(command) => Words { command, options, rest }.checked().map(Asked::Command),
    }
}

fn find(word: &OsString) -> Result<&'static Command, Failure> {
    let found = help::COMMANDS.iter().find(|command| word == command.name);
    found.ok_or_else(|| Failure::Use(format!("there is no command {}: night --help shows them", shown(word))))
}

/// The option's name, and its value behind `=`.
fn split(word: &OsString) -> Result<(&'static str, Option<OsString>), Failure> {
    let bytes = word.as_bytes();
    let (name, value) = match bytes.iter().position(|&byte| byte == b'=') {
        Some(at) => (&bytes[..at], Some(OsString::from_vec(bytes[at + 1..].to_vec()))),
        None => (bytes, None),
    };
    let name = if name == b"-h" { b"--help" } else { name };
    let found = help::OPTIONS.iter().find(|option| option.name.as_bytes() == name);
    let option = found.ok_or_else(|| Failure::Use(format!("there is no option {}", shown(word))))?;
    Ok((option.name, value))
}

fn check_value(name: &str, value: Option<OsString>) -> Result<OsString, Failure> {
    match (help::takes_value(name), value) {
        (true, None) => Err(Failure::Use(format!("{name} has no {} behind it", help::value_of(name)))),
        (true, Some(value)) if value.is_empty() => {
            Err(Failure::Use(format!("the {} of {name} is empty", help::value_of(name))))
        }
        (false, Some(value)) => Err(Failure::Use(format!("{name} takes no value, and {} is one", shown(&value)))),
        (_, value) => Ok(value.unwrap_or_default()),
    }
}

impl Words {
    /// Only options of this command, and none twice.
    fn checked(self) -> Result<Words, Failure> {
        let name = self.command.name;
        for (at, (option, _)) in self.options.iter().enumerate() {
            if !self.command.options.contains(option) {
                return Err(self.wrong(&format!("{option} is no option of night {name}")));
            }
            if self.options[..at].iter().any(|(before, _)| before == option) {
                return Err(self.wrong(&format!("{option} is given twice")));
            }
        }
        Ok(self)
    }

    /// A use of this command that is none.
    pub fn wrong(&self, what: &str) -> Failure {
        Failure::Use(format!("{what}\nusage: {}", self.command.usage))
    }

    pub fn has(&self, name: &str) -> bool {
        self.option(name).is_some()
    }

    pub fn option(&self, name: &str) -> Option<&OsString> {
        self.options.iter().find(|(given, _)| *given == name).map(|(_, value)| value)
    }

    /// The journal: as the option names it, or the environment.
    pub fn journal(&self) -> Result<OsString, Failure> {
        let named = self.option("--journal").cloned();
        let named = named.or_else(|| std::env::var_os("NIGHT_JOURNAL").filter(|name| !name.is_empty()));
        named.ok_or_else(|| self.wrong("--journal FILE is missing, and NIGHT_JOURNAL names none"))
    }

    /// Not both of two options.
    pub fn exclude(&self, one: &str, other: &str) -> Result<(), Failure> {
        let both = self.has(one) && self.has(other);
        if both {
            Err(self.wrong(&format!("{one} and {other} do not go together")))
        } else {
            Ok(())
        }
    }

    /// The words behind the command, which are so many and are called so.
    pub fn rest<const COUNT: usize>(&self, names: [&str; COUNT]) -> Result<[&OsString; COUNT], Failure> {
        if let Some(name) = names.get(self.rest.len()) {
            return Err(self.wrong(&format!("{name} is missing")));
        }
        if let Some(word) = self.rest.get(COUNT) {
            return Err(self.wrong(&format!("{} is a word too many", shown(word))));
        }
        let mut words = self.rest.iter();
        Ok(names.map(|_| words.next().expect("as many words as names")))
    }

    /// A number among these, which is called so.
    pub fn number<N: std::str::FromStr>(&self, name: &str, word: &OsString) -> Result<N, Failure> {
        let digits = word.to_str().filter(|word| word.bytes().all(|byte| byte.is_ascii_digit()));
        let number = digits.and_then(|word| word.parse().ok());
        number.ok_or_else(|| self.wrong(&format!("{name} {} is no number", shown(word))))
    }
}
