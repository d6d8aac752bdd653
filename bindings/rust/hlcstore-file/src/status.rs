use crate::{Error, ErrorKind};
use hlcstore::Stamp;
use hlcstore_file_sys as sys;

/// How a file is.
#[derive(Clone, Copy, Debug, PartialEq, Eq)]
pub struct Status {
    /// The last refusal that was no mistake of the caller, with SQLite's code.
    pub failure: Option<Error>,
    /// What the next write meets, `Unknown` where it first finds out or `Sealed`; or none.
    pub writes: Option<ErrorKind>,
    /// Whether opening made the file.
    pub created: bool,
    /// How many damaged checkpoints opening passed over.
    pub damaged: u64,
    /// How many log records behind the checkpoint opening applied.
    pub applied: u64,
    /// How many log rows opening moved aside.
    pub aside: u64,
    /// The place of the last log row on disk, or 0 before the first.
    pub place: u64,
    /// The place that the newest checkpoint has.
    pub checkpoint_place: u64,
    /// How many bytes of records are behind it.
    pub log_bytes: u64,
    /// No stamp above this one was accepted or returned.
    pub clock: Stamp,
    /// How many batches are on disk, but not accepted, after `Later`.
    pub waiting: u64,
    /// Why the last checkpoint in the background failed, if it did.
    pub background: Option<Error>,
}

impl Status {
    pub(crate) fn new(raw: sys::hlc_file_state) -> Status {
        let error = |code, word| (code != 0).then(|| Error::new(code, word));
        Status {
            failure: error(raw.failure, raw.word).map(|failure| failure.with_sqlite(raw.sqlite)),
            writes: error(raw.writes, 0).map(Error::kind),
            created: raw.created != 0,
            damaged: raw.damaged,
            applied: raw.applied,
            aside: raw.aside,
            place: raw.place,
            checkpoint_place: raw.checkpoint_place,
            log_bytes: raw.log_bytes,
            clock: Stamp::from_bits(raw.clock),
            waiting: raw.waiting,
            background: error(raw.background, 0),
        }
    }
}
