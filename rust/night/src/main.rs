//! `night`: the shift program with a journal, a picture of a night, and who had a head when.

use std::ffi::OsString;
use std::process::ExitCode;

use night::words::{self, Asked, Failure};
use night::{checking, commands, help, standing};

fn main() -> ExitCode {
    let (message, status) = match night(std::env::args_os().skip(1).collect()) {
        Ok(()) => return ExitCode::SUCCESS,
        Err(Failure::InError) => return ExitCode::FAILURE,
        Err(Failure::Failed(message)) => (message, 1),
        Err(Failure::Use(message)) => (message, 2),
    };
    eprintln!("night: {message}");
    ExitCode::from(status)
}

fn night(words: Vec<OsString>) -> Result<(), Failure> {
    let words = match words::read(words)? {
        Asked::Help(command) => return Ok(commands::give_out(help::page(command).as_bytes())?),
        Asked::Version => return Ok(commands::give_out(standing::version("night").as_bytes())?),
        Asked::Command(words) => words,
    };
    match words.command.name {
        "run" => commands::run(&words),
        "who" => commands::who(&words),
        "log" => commands::log(&words),
        "board" => commands::board(&words),
        "show" => commands::show(&words),
        "check" => checking::check(&words),
        "desk" => checking::desk(&words),
        _ => checking::on_file(&words),
    }
}
