//! Checkpoints that are written in pieces.

use crate::buffer::reserve;
use crate::handle::Handle;
use crate::{Error, Result};
use hlcstore_sys as sys;
use std::fmt;
use std::io::{self, Write};
use std::ops::Deref;

/// How many bytes a piece has; the last one may have fewer.
const PIECE: usize = 1 << 16;

/// Why a checkpoint was not written to its end. A part of it may be written.
///
/// ```
/// use hlcstore::{SaveError, Store};
///
/// let store = Store::open(1)?;
/// let mut short = [0; 10]; // a writer without room for more
/// match store.checkpoint_to(&mut &mut short[..], 7) {
///     Err(SaveError::Writer(error)) => assert_eq!(error.kind(), std::io::ErrorKind::WriteZero),
///     other => panic!("{other:?}"),
/// }
/// # Ok::<(), hlcstore::Error>(())
/// ```
#[derive(Debug)]
pub enum SaveError {
    /// The store refused to be saved.
    Store(Error),
    /// The writer failed.
    Writer(io::Error),
}

impl fmt::Display for SaveError {
    fn fmt(&self, f: &mut fmt::Formatter<'_>) -> fmt::Result {
        match self {
            SaveError::Store(error) => write!(f, "the checkpoint was refused: {error}"),
            SaveError::Writer(error) => write!(f, "the checkpoint was not written: {error}"),
        }
    }
}

impl std::error::Error for SaveError {
    fn source(&self) -> Option<&(dyn std::error::Error + 'static)> {
        match self {
            SaveError::Store(error) => Some(error),
            SaveError::Writer(error) => Some(error),
        }
    }
}

impl From<Error> for SaveError {
    fn from(error: Error) -> SaveError {
        SaveError::Store(error)
    }
}

impl From<io::Error> for SaveError {
    fn from(error: io::Error) -> SaveError {
        SaveError::Writer(error)
    }
}

/// A saving of a store in pieces.
struct Saving {
    raw: sys::hlc_saving,
    /// Which opening of the store is saved. The library does not see that another one is passed if its numbers are the
    /// same.
    opening: u64,
    piece: Vec<u8>,
}

impl Saving {
    fn start(handle: &Handle, tag: u64) -> Result<Saving> {
        let mut saving = Saving { raw: sys::HLC_NO_SAVING, opening: handle.openings(), piece: Vec::new() };
        reserve(&mut saving.piece, PIECE)?;
        handle.start_saving(&mut saving.raw, tag)?;
        Ok(saving)
    }

    /// Reads the next piece, and returns whether more are left.
    fn read(&mut self, handle: &Handle) -> Result<bool> {
        if handle.openings() != self.opening {
            return Err(Error::CHANGED);
        }
        handle.read_saving(&mut self.raw, &mut self.piece)
    }
}

impl Drop for Saving {
    fn drop(&mut self) {
        // SAFETY: `raw` is `HLC_NO_SAVING` at first, only calls of the library change it, and it is not copied.
        unsafe { sys::hlc_saving_drop(&mut self.raw) }
    }
}

/// Writes a checkpoint, and returns how many bytes it has. Each piece borrows the handle anew, and the writer runs
/// between.
pub(crate) fn write_checkpoint<W: Write + ?Sized, H: Deref<Target = Handle>>(
    out: &mut W,
    tag: u64,
    handle: impl Fn() -> H,
) -> std::result::Result<u64, SaveError> {
    let mut saving = Saving::start(&handle(), tag)?;
    let (mut written, mut is_more_left) = (0, true);
    while is_more_left {
        is_more_left = saving.read(&handle())?;
        out.write_all(&saving.piece)?;
        written += saving.piece.len() as u64;
    }
    Ok(written)
}
