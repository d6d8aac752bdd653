use crate::error::answer;
use crate::{Result, Store};
use hlcstore_sys as sys;

/// A restore from the bytes of a checkpoint in pieces of any size, so that they need not be in memory at once.
///
/// ```
/// use hlcstore::{Restoring, Store};
///
/// let saved = Store::open(1)?.checkpoint(7)?;
/// let mut restoring = Restoring::start()?;
/// for piece in saved.chunks(50) {
///     restoring.feed(piece)?;
/// }
/// let (store, tag) = restoring.finish()?;
/// assert_eq!((tag, store.checkpoint(7)?), (7, saved));
/// # Ok::<(), hlcstore::Error>(())
/// ```
#[derive(Debug)]
pub struct Restoring {
    raw: sys::hlc_restoring,
}

// SAFETY: the library has no state of a thread, and each call takes `&mut self`.
unsafe impl Send for Restoring {}

// The blocks that are unsafe here call the library, with pointers from references and slices. `raw` is
// `HLC_NO_RESTORING` at first, and only calls of the library change it.
impl Restoring {
    /// Starts a restore, to which no bytes were added.
    ///
    /// Refusal: `NoMemory`.
    pub fn start() -> Result<Restoring> {
        let mut restoring = Restoring { raw: sys::HLC_NO_RESTORING };
        answer(unsafe { sys::hlc_restoring_start(&mut restoring.raw) }, 0)?;
        Ok(restoring)
    }

    /// Adds the next bytes. No fault of them is found before [`finish`](Restoring::finish).
    ///
    /// Refusal: `NoMemory`, and nothing was added.
    pub fn feed(&mut self, piece: &[u8]) -> Result<()> {
        let code = unsafe { sys::hlc_restoring_feed(&mut self.raw, piece.as_ptr(), piece.len()) };
        answer(code, 0).map(drop)
    }

    /// Opens a store from all bytes that were added, as [`Store::restore`] does.
    ///
    /// Refusals, in this order: `BadBytes`, `NoCheckpoint`, `NoMemory`.
    pub fn finish(mut self) -> Result<(Store, u64)> {
        let store = Store::closed();
        let tag = store.write().finish(&mut self.raw)?;
        Ok((store, tag))
    }
}

impl Drop for Restoring {
    fn drop(&mut self) {
        unsafe { sys::hlc_restoring_drop(&mut self.raw) }
    }
}
