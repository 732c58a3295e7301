//! What the system says of the journal's file, so that somebody else's hand in it is noticed.

use std::fs::Metadata;
use std::io::ErrorKind;
use std::os::unix::fs::MetadataExt;
use std::path::Path;

/// Which file it is, how long, and when it was last changed.
#[derive(Clone, Copy, Debug, PartialEq, Eq)]
pub struct Seen {
    file: (u64, u64),
    length: u64,
    /// When its bytes were last written, and when anything of it was changed; the second cannot be set by anybody.
    changed: [(i64, i64); 2],
}

/// What has become of the file of a name.
#[derive(Debug, PartialEq, Eq)]
pub enum Change {
    None,
    Removed,
    Replaced,
    /// To so many bytes.
    Cut(u64),
    /// By so many bytes.
    Longer(u64),
    /// Its bytes may be others, or only its dates.
    Touched(Seen),
    Unknown(String),
}

impl Seen {
    pub fn new(data: &Metadata) -> Seen {
        Seen {
            file: (data.dev(), data.ino()),
            length: data.len(),
            changed: [(data.mtime(), data.mtime_nsec()), (data.ctime(), data.ctime_nsec())],
        }
    }

    /// The same file with another length.
    pub fn of_length(self, length: u64) -> Seen {
        Seen { length, ..self }
    }

    /// What has become of the file, which was seen so, under this name.
    pub fn change(&self, path: &Path) -> Change {
        match std::fs::metadata(path) {
            Ok(data) => self.change_to(&Seen::new(&data)),
            Err(error) if error.kind() == ErrorKind::NotFound => Change::Removed,
            Err(error) => Change::Unknown(error.to_string()),
        }
    }

    fn change_to(&self, now: &Seen) -> Change {
        if now.file != self.file {
            Change::Replaced
        } else if now.length < self.length {
            Change::Cut(now.length)
        } else if now.length > self.length {
            Change::Longer(now.length - self.length)
        } else if now == self {
            Change::None
        } else {
            Change::Touched(*now)
        }
    }
}
