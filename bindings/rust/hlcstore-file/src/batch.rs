use crate::Result;
use crate::handle::BatchHandle;

/// Writes and deletions for a file. [`File::write_batch`](crate::File::write_batch) gives them one stamp, so that a
/// snapshot shows all of them or none. [`File::append`](crate::File::append) gives each a stamp of its own: after a
/// crash all of them are in the file or none, and a snapshot between two of them shows a part. Both clear the batch,
/// which may then be filled again.
#[derive(Debug)]
pub struct Batch {
    pub(crate) handle: BatchHandle,
}

impl Batch {
    /// Returns an empty batch, for any file.
    ///
    /// Refusal: `NoMemory` of the store.
    pub fn new() -> Result<Batch> {
        BatchHandle::new().map(|handle| Batch { handle })
    }

    /// Adds a write.
    ///
    /// Refusals: `BadKey` and `ValueTooLong` of the store, `TooLong`, `NoMemory` of the store. The batch keeps what it
    /// had.
    pub fn write(&mut self, key: impl AsRef<[u8]>, value: impl AsRef<[u8]>) -> Result<()> {
        self.handle.put(key.as_ref(), value.as_ref())
    }

    /// Adds a deletion.
    ///
    /// Refusals: as of [`write`](Batch::write).
    pub fn delete(&mut self, key: impl AsRef<[u8]>) -> Result<()> {
        self.handle.delete(key.as_ref())
    }

    /// Returns how many writes and deletions there are.
    pub fn len(&self) -> usize {
        self.handle.many()
    }

    /// Returns whether there are none.
    pub fn is_empty(&self) -> bool {
        self.len() == 0
    }

    /// Takes all out, and keeps the memory for the next ones.
    pub fn clear(&mut self) {
        self.handle.clear();
    }
}
