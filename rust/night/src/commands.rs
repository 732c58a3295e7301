//! The commands that run a night and look at one.

use std::io::{ErrorKind, Write};
use std::path::{Path, PathBuf};

use crate::calls::Call;
use crate::journal::Journal;
use crate::json::object;
use crate::moment::Moment;
use crate::run::{run_here, Options};
use crate::store::{self, Opening};
use crate::svg::{Notes, Picture};
use crate::who::Question;
use crate::words::{Failure, Words};
use crate::{log, replay, stack, standing, tracks, who};

/// Writes to standard output.
pub fn give_out(text: &[u8]) -> Result<(), String> {
    let mut output = std::io::stdout().lock();
    let given = output.write_all(text).and_then(|()| output.flush());
    match given {
        // A reader that has seen enough is no error.
        Err(error) if error.kind() == ErrorKind::BrokenPipe => Ok(()),
        given => given.map_err(|error| format!("this cannot be given out: {error}")),
    }
}

/// Where a proved program is.
pub fn program(words: &Words, name: &str) -> Result<PathBuf, Failure> {
    stack::check()?;
    if let Some(program) = words.option("--shift").filter(|_| name == "shift") {
        return Ok(program.into());
    }
    let found =
        words.option("--programs").map(|folder| Path::new(folder).join(name)).or_else(|| standing::beside(name));
    Ok(found.ok_or_else(|| format!("where the program {name} is cannot be told: name its folder with --programs"))?)
}

pub fn run(words: &Words) -> Result<(), Failure> {
    let journal = words.journal()?.into();
    words.exclude("--new", "--resume")?;
    let [configuration] = words.rest(["CONFIG"])?;
    let opening = match (words.has("--new"), words.has("--resume")) {
        (true, _) => Opening::New,
        (_, true) => Opening::Resume,
        _ => Opening::Any,
    };
    let program = program(words, "shift")?;
    Ok(run_here(&Options { journal, configuration: configuration.into(), program, opening })?)
}

/// The journal that is looked at.
pub fn journal(words: &Words) -> Result<Journal, Failure> {
    let path = PathBuf::from(words.journal()?);
    let journal = store::look_at(&path)?;
    if journal.torn > 0 {
        let (path, bytes) = (path.display(), journal.torn);
        eprintln!("night: {path}: the last {bytes} bytes are no whole record: torn, or being written just now");
    }
    Ok(journal)
}

/// The moment that an option asks for.
fn moment(words: &Words, name: &str) -> Result<Option<Moment>, Failure> {
    let Some(word) = words.option(name) else { return Ok(None) };
    let moment = word.to_str().and_then(Moment::read);
    let wrong = || {
        let word = word.to_string_lossy();
        words.wrong(&format!("{name} {word} is no moment: say a call (34) or a time (02:40, 2026-11-17T02:40:07)"))
    };
    moment.map(Some).ok_or_else(wrong)
}

/// After how many calls.
fn calls(words: &Words, journal: &Journal) -> Result<Option<usize>, Failure> {
    Ok(moment(words, "--at")?.map(|moment| moment.calls(journal)).transpose()?)
}

/// The head that is asked for: `03 00`, or as the board shows it `03/00`.
fn head(words: &Words) -> Result<(u32, u32), Failure> {
    let parts = match &words.rest[..] {
        [word] => {
            word.to_str().and_then(|word| word.split_once('/')).map(|(channel, unit)| [channel.into(), unit.into()])
        }
        _ => None,
    };
    let [channel, unit] = match &parts {
        Some([channel, unit]) => [channel, unit],
        None => words.rest(["the channel cc", "the unit uu"])?,
    };
    Ok((words.number("the channel", channel)?, words.number("the unit", unit)?))
}

pub fn who(words: &Words) -> Result<(), Failure> {
    words.journal()?;
    let job = words.option("--job").map(|id| id.to_string_lossy().into_owned());
    let head = if words.rest.is_empty() && job.is_some() { None } else { Some(head(words)?) };
    moment(words, "--at")?;
    let journal = journal(words)?;
    let question = Question { head, job, calls: calls(words, &journal)? };
    Ok(give_out(who::answer(&journal, &question, words.has("--json"))?.as_bytes())?)
}

/// The calls that `--from` and `--to` ask for, the first being number 0.
pub fn range(words: &Words, journal: &Journal) -> Result<std::ops::Range<usize>, Failure> {
    let from = moment(words, "--from")?.map_or(Ok(0), |moment| moment.calls_before(journal))?;
    let to = moment(words, "--to")?.map_or(Ok(journal.calls.len()), |moment| moment.calls(journal))?;
    if from > to {
        return Err("--from is after --to".into());
    }
    Ok(from..to)
}

pub fn log(words: &Words) -> Result<(), Failure> {
    let [] = words.rest([])?;
    let journal = journal(words)?;
    let calls = range(words, &journal)?;
    let said = if words.has("--json") { log::objects(&journal, calls) } else { log::text(&journal, calls) };
    Ok(give_out(said.as_bytes())?)
}

pub fn board(words: &Words) -> Result<(), Failure> {
    let [] = words.rest([])?;
    let journal = journal(words)?;
    let calls = calls(words, &journal)?.unwrap_or(journal.calls.len());
    let call = Call { text: b"BOARD\n".to_vec(), open: false };
    let board = replay::ask(&program(words, "shift")?, &journal, calls, &call)?;
    if !words.has("--json") {
        return Ok(give_out(&board)?);
    }
    let last = calls.checked_sub(1).and_then(|at| journal.calls.get(at));
    let time = last.and_then(|answered| answered.time).map(|time| time.to_string());
    let line = |line: &str| object(vec![("call", calls.into()), ("time", time.clone().into()), ("line", line.into())]);
    let board = String::from_utf8_lossy(&board);
    Ok(give_out(board.lines().map(line).collect::<String>().as_bytes())?)
}

pub fn show(words: &Words) -> Result<(), Failure> {
    let [] = words.rest([])?;
    words.exclude("--sheet", "--sheets")?;
    let sheet: Option<usize> = words.option("--sheet").map(|word| words.number("--sheet", word)).transpose()?;
    let path = PathBuf::from(words.journal()?);
    let journal = journal(words)?;
    let configuration = journal.configuration.as_deref().ok_or("the journal has no configuration yet")?;
    let tracks = tracks::tracks(configuration, &journal.calls).ok_or("the journal's configuration cannot be read")?;
    let notes = Notes::new(&path.file_name().unwrap_or_default().to_string_lossy(), &journal);
    let calls = range(words, &journal)?;
    // The fresh cell belongs to the night's beginning.
    let first = if calls.start == 0 { 0 } else { calls.start + 1 };
    let picture = Picture::new(&tracks, &notes, first..(calls.end + 1).max(first + 1));
    if let Some(folder) = words.option("--sheets") {
        return write_sheets(&picture, folder.as_ref());
    }
    let number = sheet.unwrap_or(1);
    let count = picture.count();
    let svg = picture.sheet(number).ok_or_else(|| format!("there is no sheet {number}: the picture has {count}"))?;
    if sheet.is_none() && count > 1 {
        eprintln!("night: sheet 1 of {count}: --sheet K writes another, --sheets FOLDER all, --from and --to less of the night");
    }
    Ok(give_out(svg.as_bytes())?)
}

/// Writes all sheets into a folder of their own.
fn write_sheets(picture: &Picture, folder: &Path) -> Result<(), Failure> {
    let failed = |error: std::io::Error| format!("{}: {error}", folder.display());
    std::fs::create_dir_all(folder).map_err(failed)?;
    if std::fs::read_dir(folder).map_err(failed)?.next().is_some() {
        return Err(format!("{} is not empty: name another folder for the sheets", folder.display()).into());
    }
    for number in 1..=picture.count() {
        let svg = picture.sheet(number).unwrap_or_default();
        std::fs::write(folder.join(format!("sheet-{number:03}.svg")), svg).map_err(failed)?;
    }
    eprintln!("night: {} sheets are in {}", picture.count(), folder.display());
    Ok(())
}
