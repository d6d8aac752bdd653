use crate::handle::Handle;
use crate::{Error, File, Result};
use hlcstore_file_sys as sys;
use std::ffi::CString;
use std::os::unix::ffi::OsStrExt;
use std::path::Path;
use std::time::Duration;

/// When a call that writes returns.
#[derive(Clone, Copy, Debug, Default, PartialEq, Eq, Hash)]
#[non_exhaustive]
pub enum Promise {
    /// As the option [`Options::promise`] says, and that by default as `Synced`.
    #[default]
    Default,
    /// The batch is synced, in a transaction of its own.
    Synced,
    /// It is synced, in a transaction with batches of other threads.
    Group,
    /// It is written, not synced: it outlives the process. A loss of power may lose it with all batches behind it, and
    /// never one before it.
    Written,
}

impl Promise {
    pub(crate) fn to_number(self) -> u32 {
        match self {
            Promise::Default => sys::HLC_FILE_DEFAULT,
            Promise::Synced => sys::HLC_FILE_SYNCED,
            Promise::Group => sys::HLC_FILE_GROUP,
            Promise::Written => sys::HLC_FILE_WRITTEN,
        }
    }
}

/// How a file is opened.
///
/// ```no_run
/// use hlcstore_file::{Options, Promise};
///
/// let file = Options::new().nodes(2).promise(Promise::Group).open("towns.hlc")?;
/// # Ok::<(), hlcstore_file::Error>(())
/// ```
#[derive(Clone, Debug, Default)]
pub struct Options {
    raw: sys::hlc_file_options,
}

impl Options {
    /// Returns the defaults: a file that is made where there is none, with one node, whose writes are synced.
    pub fn new() -> Options {
        Options::default()
    }

    /// Refuses a path without a file with `CannotOpen`.
    pub fn must_exist(mut self) -> Options {
        self.raw.flags |= sys::HLC_FILE_MUST_EXIST;
        self
    }

    /// Opens a file whose log is damaged with what is before the damage, and moves the rest of the log aside.
    pub fn keep_before_damage(mut self) -> Options {
        self.raw.flags |= sys::HLC_FILE_KEEP_BEFORE_DAMAGE;
        self
    }

    /// How many nodes a new file has at the start, 1 to 64.
    pub fn nodes(mut self, nodes: u16) -> Options {
        self.raw.nodes = nodes.into();
        self
    }

    /// The promise of calls that name none.
    pub fn promise(mut self, promise: Promise) -> Options {
        self.raw.promise = promise.to_number();
        self
    }

    /// How long `Group` waits for more batches, at most a second. By default it takes those that came while the disk
    /// was busy.
    pub fn group_wait(mut self, wait: Duration) -> Options {
        self.raw.group_microseconds = wait.as_micros().try_into().unwrap_or(u32::MAX);
        self
    }

    /// Makes a checkpoint in the background after this many bytes of log, 64 MiB by default; `u64::MAX` means never.
    pub fn checkpoint_bytes(mut self, bytes: u64) -> Options {
        self.raw.checkpoint_bytes = bytes;
        self
    }

    /// Opens a file, or makes it. Costs a restore of its checkpoint and of the log behind it.
    ///
    /// Refusals: `InUse`, `CannotOpen`, `NotOurs`, `Newer`, `BadOption`, `Full`, `Io`, `Corrupt`, `DamagedLog`,
    /// `NoWholeCheckpoint`, `NoMemory` of the store.
    pub fn open(&self, path: impl AsRef<Path>) -> Result<File> {
        let path = CString::new(path.as_ref().as_os_str().as_bytes());
        let path = path.map_err(|_| Error::new(sys::HLC_FILE_CANNOT_OPEN, 0))?;
        Handle::open(&path, &self.raw).map(File::new)
    }
}
