//! The journal's file: locked, read when a night begins, watched, and written through to the disk before an answer is
//! given out.

use std::fs::{File, OpenOptions, TryLockError};
use std::io::{self, ErrorKind, Read, Seek, SeekFrom, Write};
use std::os::unix::fs::FileExt;
use std::path::{Path, PathBuf};
use std::thread::sleep;
use std::time::Duration;

use crate::clock::Clock;
use crate::journal::{self, Answered, Fault, Format, Journal, Origin};
use crate::watch::{Change, Seen};

/// So often is the lock tried.
const TRIES: usize = 100;

/// Which journals a night is begun on.
#[derive(Clone, Copy, Debug, Default, PartialEq, Eq)]
pub enum Opening {
    #[default]
    Any,
    /// Only one that is not there yet.
    New,
    /// Only one that is there.
    Resume,
}

pub struct Store {
    file: File,
    path: PathBuf,
    format: Format,
    /// How many records, calls and bytes are on the disk, and the sum that the next record goes on from.
    records: u64,
    calls: usize,
    length: u64,
    chain: u64,
    /// The file as it was after the last write.
    seen: Seen,
    clock: Clock,
}

/// Reads the journal of this path, which somebody may be writing, to look at it.
pub fn look_at(path: &Path) -> Result<Journal, String> {
    let bytes = std::fs::read(path).map_err(|error| format!("the journal {}: {error}", path.display()))?;
    journal::read(&bytes).map_err(|fault| explain(path, fault))
}

fn explain(path: &Path, fault: Fault) -> String {
    let path = path.display();
    match fault {
        Fault::NoJournal => format!("{path} is no journal, and is left as it is"),
        Fault::OtherVersion => format!(
            "{path} is a journal of another version of night, and is left as it is: use the version that wrote it"
        ),
        Fault::Damaged { record, calls, length } => format!(
            "{path}: record {record} is damaged: its bytes are not those that were written. What it had was probably \
             answered, so nothing is dropped and nothing is changed. Keep the file. `head -c {length} '{path}' > NEW` \
             makes a journal of what is whole before it, {calls} calls; what came after, look up at the heads, one by \
             one"
        ),
    }
}

/// Locks the journal for this night alone. One that was killed as it started its program has a child that holds the
/// lock for a moment more, so this is tried for two seconds.
fn lock(file: &File) -> Result<(), TryLockError> {
    let mut locked = file.try_lock();
    let mut tries = 0;
    while tries < TRIES && matches!(locked, Err(TryLockError::WouldBlock)) {
        sleep(Duration::from_millis(20));
        locked = file.try_lock();
        tries += 1;
    }
    locked
}

/// The name with this behind it.
fn beside(path: &Path, end: &str) -> PathBuf {
    let mut name = path.as_os_str().to_owned();
    name.push(end);
    name.into()
}

impl Store {
    /// Opens the journal and answers what it has, and the bytes of a record that is torn. No byte of it changes.
    pub fn open(path: &Path, opening: Opening) -> Result<(Store, Journal, Vec<u8>), String> {
        let failed = |error: io::Error| match error.kind() {
            ErrorKind::NotFound if opening == Opening::Resume => no_journal(path),
            _ => format!("the journal {} cannot be used: {error}", path.display()),
        };
        let may_make = opening != Opening::Resume;
        let mut options = OpenOptions::new();
        let mut file = options.read(true).write(true).create(may_make).truncate(false).open(path).map_err(failed)?;
        if !file.metadata().map_err(failed)?.is_file() {
            return Err(format!("the journal {} is not an ordinary file", path.display()));
        }
        lock(&file).map_err(|error| match error {
            TryLockError::WouldBlock => format!("another night is running on the journal {}", path.display()),
            TryLockError::Error(error) => failed(error),
        })?;
        let seen = Seen::new(&file.metadata().map_err(failed)?);
        let mut bytes = Vec::new();
        file.read_to_end(&mut bytes).map_err(failed)?;
        let journal = journal::read(&bytes).map_err(|fault| explain(path, fault))?;
        match (opening, &journal.configuration) {
            (Opening::New, Some(_)) => return Err(is_there(path, &journal)),
            (Opening::Resume, None) => return Err(no_journal(path)),
            _ => {}
        }
        let torn = bytes.split_off(bytes.len() - journal.torn);
        Ok((Store::of(file, path, &journal, seen), journal, torn))
    }

    fn of(file: File, path: &Path, journal: &Journal, seen: Seen) -> Store {
        let &Journal { format, records, length, chain, .. } = journal;
        let clock = Clock::after(journal.last().unwrap_or_default());
        let (path, calls) = (path.to_path_buf(), journal.calls.len());
        Store { file, path, format, records, calls, length: length as u64, chain, seen, clock }
    }

    /// Makes the file ready for more: a journal without a configuration is begun anew, and what is torn is kept beside
    /// it and cut off.
    pub fn begin(&mut self, origin: &Origin, configuration: &[u8], torn: &[u8]) -> Result<(), String> {
        self.check()?;
        if !torn.is_empty() {
            self.keep_torn(torn)?;
        }
        let is_new = self.records == 0;
        if is_new {
            self.length = 0;
        }
        self.cut().map_err(|error| self.failed(error))?;
        if !is_new {
            return Ok(());
        }
        let (bytes, sum) = journal::write_beginning(origin, self.clock.tick().time, configuration);
        self.write(&bytes).map_err(|error| self.failed(error))?;
        (self.records, self.chain) = (1, sum);
        self.keep_name().map_err(|error| self.failed(error))
    }

    /// Puts what is torn behind what was torn before, in a file of its own.
    fn keep_torn(&self, torn: &[u8]) -> Result<(), String> {
        let path = beside(&self.path, ".torn");
        let kept = OpenOptions::new().append(true).create(true).open(&path).and_then(|mut file| {
            file.write_all(torn)?;
            file.sync_all()?;
            self.keep_name()
        });
        kept.map_err(|error| format!("what is torn cannot be kept in {}: {error}", path.display()))
    }

    /// Puts calls and their answers on the disk, as one record.
    pub fn append(&mut self, calls: &[Answered]) -> Result<(), String> {
        let (record, sum) = match self.format {
            Format::First => journal::write_first(self.chain, self.records, self.calls + 1, calls),
            Format::Second => {
                let tick = self.clock.tick();
                let body = journal::write_calls(self.calls + 1, tick.jump, calls);
                journal::write_record(self.chain, self.records, tick.time, &body)
            }
        };
        if let Err(error) = self.write(&record) {
            // None of it was answered, so none of it needs to stay; what stays all the same is torn.
            let _ = self.cut();
            return Err(self.failed(error));
        }
        self.records += 1;
        self.calls += calls.len();
        self.chain = sum;
        Ok(())
    }

    /// The journal that is on the disk, read again.
    pub fn journal(&mut self) -> Result<Journal, String> {
        let mut bytes = Vec::new();
        let read = self.file.seek(SeekFrom::Start(0)).and_then(|_| self.file.read_to_end(&mut bytes));
        read.map_err(|error| self.failed(error))?;
        journal::read(&bytes).map_err(|fault| explain(&self.path, fault))
    }

    /// Says so where the journal was removed, replaced, cut or written by somebody else.
    pub fn check(&mut self) -> Result<(), String> {
        match self.seen.change(&self.path) {
            Change::None => Ok(()),
            Change::Touched(seen) if self.is_mine() => {
                self.seen = seen;
                Ok(())
            }
            change => Err(self.foreign(change)),
        }
    }

    /// Is everything in the file what this night has written or found there?
    fn is_mine(&mut self) -> bool {
        let due = (self.records, self.calls, self.length as usize, self.chain);
        let mine = |read: &Journal| (read.records, read.calls.len(), read.length, read.chain) == due;
        self.journal().is_ok_and(|read| mine(&read))
    }

    fn foreign(&self, change: Change) -> String {
        let path = self.path.display();
        let what = match change {
            Change::Removed => format!("was removed or moved away. {}", self.rescue()),
            Change::Replaced => format!("was replaced by another file. {}", self.rescue()),
            Change::Cut(to) => {
                let cut = format!("was cut by somebody else, from {} bytes to {to}", self.length);
                format!(
                    "{cut}. What is missing was answered: put back a whole copy, or look at the heads before you go on"
                )
            }
            Change::Longer(by) => format!("was written by somebody else: it has {by} bytes more than this night wrote"),
            Change::Unknown(error) => format!("cannot be looked at any more: {error}"),
            _ => "was written by somebody else: its bytes are not those that this night wrote".to_string(),
        };
        format!("while this night ran, the journal {path}, which had {} calls, {what}", self.calls)
    }

    /// Puts what a file without a name still has into one that has a name.
    fn rescue(&self) -> String {
        let names = (1..).map(|number| if number == 1 { ".rescued".into() } else { format!(".rescued-{number}") });
        let free = names.map(|end| beside(&self.path, &end)).find(|path| !path.exists());
        let path = free.unwrap_or_default();
        let mut bytes = vec![0; self.length as usize];
        let rescued = self.file.read_exact_at(&mut bytes, 0).and_then(|()| {
            let mut file = OpenOptions::new().write(true).create_new(true).open(&path)?;
            file.write_all(&bytes)?;
            file.sync_all()
        });
        match rescued {
            Ok(()) => format!("What it had is now in {}", path.display()),
            Err(error) => format!("What it had could not be put into {}: {error}", path.display()),
        }
    }

    /// Writes behind what is there, and through to the disk. How the file is then is noted before the disk has it, so
    /// that what somebody else does meanwhile shows.
    fn write(&mut self, bytes: &[u8]) -> io::Result<()> {
        self.file.write_all_at(bytes, self.length)?;
        let length = self.length + bytes.len() as u64;
        let seen = Seen::new(&self.file.metadata()?).of_length(length);
        self.file.sync_data()?;
        (self.length, self.seen) = (length, seen);
        Ok(())
    }

    fn cut(&mut self) -> io::Result<()> {
        if self.file.metadata()?.len() == self.length {
            return Ok(());
        }
        self.file.set_len(self.length)?;
        self.seen = Seen::new(&self.file.metadata()?).of_length(self.length);
        self.file.sync_data()
    }

    /// Puts the names of new files on the disk: their folder has them.
    fn keep_name(&self) -> io::Result<()> {
        let folder = self.path.parent().filter(|folder| !folder.as_os_str().is_empty()).unwrap_or(Path::new("."));
        File::open(folder)?.sync_all()
    }

    fn failed(&self, error: io::Error) -> String {
        format!("the journal {} cannot be written: {error}", self.path.display())
    }
}

fn no_journal(path: &Path) -> String {
    format!("there is no journal {} to go on with: --resume begins none, --new does", path.display())
}

fn is_there(path: &Path, journal: &Journal) -> String {
    let calls = journal.calls.len();
    let path = path.display();
    format!(
        "the journal {path} is there already, with {calls} calls: --new wants a new name, --resume goes on with this one"
    )
}
