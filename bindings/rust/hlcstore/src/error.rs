use crate::Stamp;
use hlcstore_sys as sys;
use std::fmt;

/// What a call returns, or why it was refused.
pub type Result<T> = std::result::Result<T, Error>;

/// Why a call was refused. After a refusal the store, or the node, is as it was before the call, unless the call
/// describes an exception.
///
/// ```
/// use hlcstore::{ErrorKind, Stamp, Store};
///
/// let store = Store::open(1)?;
/// let error = store.snapshot_at(Stamp::new(5, 0)).unwrap_err();
/// assert_eq!(error.kind(), ErrorKind::AboveFloor);
/// assert_eq!(error.code(), 8);
/// assert_eq!(error.to_string(), "the stamp is above the floor (0.0)");
/// # Ok::<(), hlcstore::Error>(())
/// ```
#[derive(Clone, Copy, PartialEq, Eq, Hash)]
pub struct Error {
    code: u32,
    word: u64,
}

// bindings/refusals makes this list, and those of `kind` and `fmt`, from include/refusals.toml.

/// What kind of refusal an [`Error`] is.
#[derive(Clone, Copy, Debug, PartialEq, Eq, Hash)]
#[non_exhaustive]
pub enum ErrorKind {
    /// No node has this number.
    NoNode,
    /// The reading is 2^48 or more.
    ReadingTooLarge,
    /// The counter of the greatest earlier stamp is full. The word is that stamp.
    CounterFull,
    /// Another item is next on the node's link. The word is its number.
    NotNext,
    /// The stamp is not above that of the node's last accepted item, which is the word.
    StampNotRising,
    /// The stamp is above the floor, which is the word. Of an increment: above the floor of the older checkpoint, which
    /// is the word.
    AboveFloor,
    /// The stamp is below the horizon, which is the word.
    BelowHorizon,
    /// The snapshot is not open.
    NoSnapshot,
    /// 1,024 snapshots are open.
    TooManySnapshots,
    /// The key has no bytes, or more than 255.
    BadKey,
    /// The value has more than 65,535 bytes.
    ValueTooLong,
    /// No number is left for an item or a snapshot.
    NumbersSpent,
    /// Out of memory.
    NoMemory,
    /// A line of a certificate is bad. The word is its number.
    BadLine,
    /// A certificate does not show that its rows are the fewest. The word is the number of the first reason.
    NotShown,
    /// 1,024 node numbers are assigned.
    TooManyNodes,
    /// The node retired.
    Retired,
    /// A batch has no writes.
    NoWrites,
    /// A batch would have more than 256 writes.
    TooManyWrites,
    /// A batch writes a key twice.
    KeyTwice,
    /// The store is closed.
    Closed,
    /// The store is open already.
    IsOpen,
    /// No node has issued that many items up to this stamp.
    NoSuchNode,
    /// The bytes are no items, or no checkpoint. The word is the number of the first fault.
    BadBytes,
    /// The content of the bytes is no checkpoint. The word is the number of the first reason.
    NoCheckpoint,
    /// The rows at or below the stamp are not the fewest: a vacuum to it would drop one.
    NotFewest,
    /// The bytes are no increment. The word is the number of the first fault; or 0, where the stamp of the increment
    /// does not fit its rows and its horizon.
    NoIncrement,
    /// The increment is not of a later state of the store from which the checkpoint is.
    NotLater,
    /// The store changed while its checkpoint was written in pieces.
    Changed,
    /// Two checkpoints are no neighbouring parts of one store. The word is the number of the first thing that differs.
    NotParts,
    /// A store is opened, and the number of nodes is not 1 to 64.
    BadNodeCount,
    /// A node joins, and its start is below the floor, which is the word.
    BelowFloor,
    /// An answer that this version of the crate does not know.
    Other,
}

impl Error {
    pub(crate) const NO_MEMORY: Error = Error { code: sys::HLC_NO_MEMORY, word: 0 };
    pub(crate) const NO_SNAPSHOT: Error = Error { code: sys::HLC_NO_SNAPSHOT, word: 0 };
    pub(crate) const CHANGED: Error = Error { code: sys::HLC_CHANGED, word: 0 };

    /// Returns the refusal with this number and this word, for programs that make calls of the C library themselves.
    pub fn new(code: u32, word: u64) -> Error {
        Error { code, word }
    }

    /// Returns the number of the refusal, as the header of the C library has it.
    pub fn code(self) -> u32 {
        self.code
    }

    /// Returns the word that comes with the refusal, or 0. [`ErrorKind`] says what it is.
    pub fn word(self) -> u64 {
        self.word
    }

    /// Returns the kind of the refusal.
    pub fn kind(self) -> ErrorKind {
        match self.code {
            sys::HLC_NO_NODE => ErrorKind::NoNode,
            sys::HLC_READING_TOO_LARGE => ErrorKind::ReadingTooLarge,
            sys::HLC_COUNTER_FULL => ErrorKind::CounterFull,
            sys::HLC_NOT_NEXT => ErrorKind::NotNext,
            sys::HLC_STAMP_NOT_RISING => ErrorKind::StampNotRising,
            sys::HLC_ABOVE_FLOOR => ErrorKind::AboveFloor,
            sys::HLC_BELOW_HORIZON => ErrorKind::BelowHorizon,
            sys::HLC_NO_SNAPSHOT => ErrorKind::NoSnapshot,
            sys::HLC_TOO_MANY_SNAPSHOTS => ErrorKind::TooManySnapshots,
            sys::HLC_BAD_KEY => ErrorKind::BadKey,
            sys::HLC_VALUE_TOO_LONG => ErrorKind::ValueTooLong,
            sys::HLC_NUMBERS_SPENT => ErrorKind::NumbersSpent,
            sys::HLC_NO_MEMORY => ErrorKind::NoMemory,
            sys::HLC_BAD_LINE => ErrorKind::BadLine,
            sys::HLC_NOT_SHOWN => ErrorKind::NotShown,
            sys::HLC_TOO_MANY_NODES => ErrorKind::TooManyNodes,
            sys::HLC_RETIRED => ErrorKind::Retired,
            sys::HLC_NO_WRITES => ErrorKind::NoWrites,
            sys::HLC_TOO_MANY_WRITES => ErrorKind::TooManyWrites,
            sys::HLC_KEY_TWICE => ErrorKind::KeyTwice,
            sys::HLC_CLOSED => ErrorKind::Closed,
            sys::HLC_IS_OPEN => ErrorKind::IsOpen,
            sys::HLC_NO_SUCH_NODE => ErrorKind::NoSuchNode,
            sys::HLC_BAD_BYTES => ErrorKind::BadBytes,
            sys::HLC_NO_CHECKPOINT => ErrorKind::NoCheckpoint,
            sys::HLC_NOT_FEWEST => ErrorKind::NotFewest,
            sys::HLC_NO_INCREMENT => ErrorKind::NoIncrement,
            sys::HLC_NOT_LATER => ErrorKind::NotLater,
            sys::HLC_CHANGED => ErrorKind::Changed,
            sys::HLC_NOT_PARTS => ErrorKind::NotParts,
            sys::HLC_BAD_NODE_COUNT => ErrorKind::BadNodeCount,
            sys::HLC_BELOW_FLOOR => ErrorKind::BelowFloor,
            _ => ErrorKind::Other,
        }
    }
}

impl fmt::Debug for Error {
    fn fmt(&self, f: &mut fmt::Formatter<'_>) -> fmt::Result {
        let mut fields = f.debug_struct("Error");
        fields.field("kind", &self.kind()).field("code", &self.code).field("word", &self.word).finish()
    }
}

impl fmt::Display for Error {
    fn fmt(&self, f: &mut fmt::Formatter<'_>) -> fmt::Result {
        f.write_str(Words::of(sys::hlc_error_text, self.code).as_str())?;
        match self.kind() {
            ErrorKind::CounterFull
            | ErrorKind::StampNotRising
            | ErrorKind::AboveFloor
            | ErrorKind::BelowHorizon
            | ErrorKind::BelowFloor => write!(f, " ({})", Stamp::from_bits(self.word)),
            ErrorKind::NotNext
            | ErrorKind::BadLine
            | ErrorKind::NotShown
            | ErrorKind::BadBytes
            | ErrorKind::NoCheckpoint
            | ErrorKind::NotParts => write!(f, " ({})", self.word),
            ErrorKind::NoIncrement if self.word > 0 => write!(f, " ({})", self.word),
            _ => Ok(()),
        }
    }
}

impl std::error::Error for Error {}

/// Why a call that takes many items, or records, stopped before the last one. Those before the refused one stay
/// accepted.
#[derive(Clone, Copy, Debug, PartialEq, Eq, Hash)]
pub struct Stopped {
    /// How many items were accepted, or passed over, before the refused one.
    pub items: usize,
    /// How many bytes of a log these items have, so that a later call can continue after them; 0 of
    /// [`Store::accept_all`](crate::Store::accept_all).
    pub bytes: usize,
    /// The greatest retention threshold among the records before the refused one, of
    /// [`Store::apply_records`](crate::Store::apply_records); otherwise 0.0.
    pub threshold: Stamp,
    /// Why the next item was refused.
    pub error: Error,
}

impl fmt::Display for Stopped {
    fn fmt(&self, f: &mut fmt::Formatter<'_>) -> fmt::Result {
        write!(f, "{}, after {} accepted items", self.error, self.items)
    }
}

impl std::error::Error for Stopped {
    fn source(&self) -> Option<&(dyn std::error::Error + 'static)> {
        Some(&self.error)
    }
}

impl From<Stopped> for Error {
    fn from(stopped: Stopped) -> Error {
        stopped.error
    }
}

/// Returns the word of a call, or the refusal to which it belongs.
pub(crate) fn answer(code: u32, word: u64) -> Result<u64> {
    if code == sys::HLC_OK { Ok(word) } else { Err(Error::new(code, word)) }
}

/// Returns the name of an answer in the header of the C library, for example `HLC_NOT_NEXT`; or no text for a number
/// that is no answer.
pub fn error_name(code: u32) -> String {
    Words::of(sys::hlc_error_name, code).as_str().into()
}

/// Returns what an answer says, in English, or no text for a number that is no answer.
pub fn error_text(code: u32) -> String {
    Words::of(sys::hlc_error_text, code).as_str().into()
}

/// The words of an answer. They need no memory, so that an error can be shown where there is none.
struct Words {
    bytes: [u8; 256],
    len: usize,
}

impl Words {
    fn of(call: unsafe extern "C" fn(u32, *mut u8, usize, *mut usize), code: u32) -> Words {
        let mut words = Words { bytes: [0; 256], len: 0 };
        // SAFETY: the call is one of the two of the library for words, and `bytes` has this length.
        unsafe { call(code, words.bytes.as_mut_ptr(), words.bytes.len(), &mut words.len) };
        words
    }

    fn as_str(&self) -> &str {
        self.bytes.get(..self.len).and_then(|bytes| std::str::from_utf8(bytes).ok()).unwrap_or_default()
    }
}
