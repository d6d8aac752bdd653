use crate::handle;
use hlcstore::Stamp;
use hlcstore_file_sys as sys;
use std::fmt;

/// What a call returns, or why it was refused.
pub type Result<T> = std::result::Result<T, Error>;

/// Why a call was refused. After it nothing of the call is visible or on disk, except where [`ErrorKind`] says
/// otherwise.
///
/// `?` turns an [`hlcstore::Error`] into one of these, so a function that uses both crates needs no type of its own:
///
/// ```
/// fn key_of(batch: &mut hlcstore::Batch) -> hlcstore_file::Result<()> {
///     Ok(batch.write("", "no key")?)
/// }
/// let refused = key_of(&mut hlcstore::Batch::new()).unwrap_err();
/// assert_eq!(refused.kind(), hlcstore_file::ErrorKind::Store(hlcstore::ErrorKind::BadKey));
/// ```
#[derive(Clone, Copy, PartialEq, Eq, Hash)]
pub struct Error {
    code: u32,
    word: u64,
    sqlite: i32,
}

// bindings/refusals makes this list, and those of `kind`, `stamp` and `fmt`, from include/refusals.toml.

/// What kind of refusal an [`Error`] is.
#[derive(Clone, Copy, Debug, PartialEq, Eq, Hash)]
#[non_exhaustive]
pub enum ErrorKind {
    /// A refusal of the store, with the same word: for example a stamp above the floor.
    Store(hlcstore::ErrorKind),
    /// Another process, or this one, has the file open.
    InUse,
    /// The path, or the lock file beside it, cannot be opened or made; or the file has several hard links.
    CannotOpen,
    /// Another application's file, or none of SQLite. It is unchanged.
    NotOurs,
    /// The file is of a later version of the library, whose schema is the word. It is unchanged.
    Newer,
    /// An option or a promise is out of range.
    BadOption,
    /// The disk is full.
    Full,
    /// The disk failed.
    Io,
    /// SQLite finds its own structure damaged; or the file is missing or empty beside its write-ahead log.
    Corrupt,
    /// A log row is missing, swapped or altered: that at the place of the word.
    DamagedLog,
    /// No checkpoint is whole, and the log does not begin at the first record. The word is how many are damaged.
    NoWholeCheckpoint,
    /// Whether the batch is on disk cannot be known before the file is opened again. It is not visible.
    Unknown,
    /// The file takes no writes until it is opened again. Reads go on.
    Sealed,
    /// The batch is on disk, but there was no memory for it: the next write accepts it first. Do not append it again.
    Later,
    /// The batch would have more than 64 MiB.
    TooLong,
    /// The system's clock reads less than the age of the vacuum.
    NoStamp,
}

impl Error {
    pub(crate) fn new(code: u32, word: u64) -> Error {
        Error { code, word, sqlite: 0 }
    }

    pub(crate) fn with_sqlite(self, sqlite: i32) -> Error {
        Error { sqlite, ..self }
    }

    /// Returns the number of the refusal, as `hlcstore_file.h` or `hlcstore.h` has it.
    pub fn code(self) -> u32 {
        self.code
    }

    /// Returns the word that comes with the refusal, or 0. [`ErrorKind`] says what it is.
    pub fn word(self) -> u64 {
        self.word
    }

    /// Returns SQLite's extended result code, where opening was refused or [`Status::failure`](crate::Status::failure)
    /// has the error; or 0.
    pub fn sqlite(self) -> i32 {
        self.sqlite
    }

    /// Returns the kind of the refusal.
    pub fn kind(self) -> ErrorKind {
        match self.code {
            sys::HLC_FILE_IN_USE => ErrorKind::InUse,
            sys::HLC_FILE_CANNOT_OPEN => ErrorKind::CannotOpen,
            sys::HLC_FILE_NOT_OURS => ErrorKind::NotOurs,
            sys::HLC_FILE_NEWER => ErrorKind::Newer,
            sys::HLC_FILE_BAD_OPTION => ErrorKind::BadOption,
            sys::HLC_FILE_FULL => ErrorKind::Full,
            sys::HLC_FILE_IO => ErrorKind::Io,
            sys::HLC_FILE_CORRUPT => ErrorKind::Corrupt,
            sys::HLC_FILE_DAMAGED_LOG => ErrorKind::DamagedLog,
            sys::HLC_FILE_NO_CHECKPOINT => ErrorKind::NoWholeCheckpoint,
            sys::HLC_FILE_UNKNOWN => ErrorKind::Unknown,
            sys::HLC_FILE_SEALED => ErrorKind::Sealed,
            sys::HLC_FILE_LATER => ErrorKind::Later,
            sys::HLC_FILE_TOO_LONG => ErrorKind::TooLong,
            sys::HLC_FILE_NO_STAMP => ErrorKind::NoStamp,
            code => ErrorKind::Store(hlcstore::Error::new(code, self.word).kind()),
        }
    }

    /// Returns the stamp that is the word, where the word is one.
    pub fn stamp(self) -> Option<Stamp> {
        use hlcstore::ErrorKind::{AboveFloor, BelowFloor, BelowHorizon, CounterFull, StampNotRising};
        match self.kind() {
            ErrorKind::Store(AboveFloor | BelowFloor | BelowHorizon | CounterFull | StampNotRising) => {
                Some(Stamp::from_bits(self.word))
            }
            _ => None,
        }
    }
}

impl From<hlcstore::Error> for Error {
    fn from(error: hlcstore::Error) -> Error {
        Error::new(error.code(), error.word())
    }
}

impl fmt::Debug for Error {
    fn fmt(&self, f: &mut fmt::Formatter<'_>) -> fmt::Result {
        let mut fields = f.debug_struct("Error");
        fields.field("kind", &self.kind()).field("code", &self.code).field("word", &self.word);
        fields.field("sqlite", &self.sqlite).finish()
    }
}

impl fmt::Display for Error {
    fn fmt(&self, f: &mut fmt::Formatter<'_>) -> fmt::Result {
        match self.kind() {
            ErrorKind::Store(_) => hlcstore::Error::new(self.code, self.word).fmt(f),
            ErrorKind::Newer | ErrorKind::DamagedLog | ErrorKind::NoWholeCheckpoint => {
                write!(f, "{} ({})", handle::text(self.code, &mut [0; 256]), self.word)
            }
            _ => f.write_str(handle::text(self.code, &mut [0; 256])),
        }
    }
}

impl std::error::Error for Error {}

/// Why [`File::append_records`](crate::File::append_records) appended nothing.
#[derive(Clone, Copy, Debug, PartialEq, Eq, Hash)]
pub struct Stopped {
    /// How many records came before the refused one.
    pub records: usize,
    /// Why that was refused.
    pub error: Error,
}

impl fmt::Display for Stopped {
    fn fmt(&self, f: &mut fmt::Formatter<'_>) -> fmt::Result {
        write!(f, "{}, after {} records", self.error, self.records)
    }
}

impl std::error::Error for Stopped {
    fn source(&self) -> Option<&(dyn std::error::Error + 'static)> {
        Some(&self.error)
    }
}

impl From<Stopped> for Error {
    fn from(stopped: Stopped) -> Error {
        stopped.error
    }
}
