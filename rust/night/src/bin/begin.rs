//! What `./install` puts into `bin` under the name of each proved program: it looks whether the stack is large enough,
//! and then becomes the program of its name in `../lib/luffgravel`.

use std::io::Write;
use std::os::unix::process::CommandExt;
use std::path::Path;
use std::process::{Command, ExitCode};

use night::{help, stack, standing};

fn main() -> ExitCode {
    let this = standing::this_program();
    let name = this.as_deref().and_then(Path::file_name).unwrap_or_default().to_string_lossy().into_owned();
    if let Some(word) = std::env::args_os().nth(1) {
        return answer_word(&name, &word.to_string_lossy());
    }
    let outcome = stack::check().and_then(|()| become_program(this.as_deref()));
    eprintln!("{name}: {}", outcome.err().unwrap_or_default());
    ExitCode::FAILURE
}

/// The programs take no words: their input is standard input.
fn answer_word(name: &str, word: &str) -> ExitCode {
    let said = match word {
        "--help" | "-h" => help::program_page(name),
        "--version" => Some(standing::version(name)),
        _ => None,
    };
    let Some(said) = said else {
        eprintln!("{name}: {word} is a word too many: {name} reads standard input, and --help says what");
        return ExitCode::from(2);
    };
    let given = std::io::stdout().write_all(said.as_bytes());
    if given.is_ok() {
        ExitCode::SUCCESS
    } else {
        ExitCode::FAILURE
    }
}

/// Becomes the program. It comes back only with an error.
fn become_program(this: Option<&Path>) -> Result<(), String> {
    let program =
        this.and_then(standing::proved).ok_or("where this program stands cannot be told: start it by its path")?;
    let error = Command::new(&program).exec();
    Err(format!("{} cannot be started: {error}", program.display()))
}
