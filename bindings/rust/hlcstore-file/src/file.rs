use crate::handle::{Handle, Origin, as_saving};
use crate::{Batch, Options, Promise, Result, Snapshot, Status, Stopped};
use hlcstore::{Link, SaveError, Sizes, Stamp, Vacuumed, Version};
use hlcstore_file_sys as sys;
use std::io::Write;
use std::time::Duration;

/// An open file. Its calls may be made by several threads at once.
#[derive(Debug)]
pub struct File {
    handle: Handle,
}

impl File {
    pub(crate) fn new(handle: Handle) -> File {
        File { handle }
    }

    pub(crate) fn handle(&self) -> &Handle {
        &self.handle
    }

    /// Opens a file, or makes it, with the defaults of [`Options`].
    pub fn open(path: impl AsRef<std::path::Path>) -> Result<File> {
        Options::new().open(path)
    }

    /// Closes the file. A file that is dropped closes too, and what this returns is lost.
    ///
    /// Refusals, after which the file is closed all the same: `Full`, `Io`, `Unknown` or `Sealed`, where batches of
    /// [`Promise::Written`] may not be synced. All others kept their promise.
    pub fn close(self) -> Result<()> {
        self.handle.close()
    }

    /// Returns how the file is.
    pub fn status(&self) -> Result<Status> {
        self.handle.status()
    }

    /// Returns a writer of a node, whose clock is the system's.
    pub fn node(&self, node: u16) -> Writer<'_> {
        Writer { handle: &self.handle, from: Origin { node, reading: sys::HLC_FILE_NOW } }
    }

    /// Writes a value to a key as node 0, and returns the stamp: see [`Writer::write`].
    pub fn write(&self, key: impl AsRef<[u8]>, value: impl AsRef<[u8]>) -> Result<Stamp> {
        self.node(0).write(key, value)
    }

    /// Deletes a key's value as node 0, and returns the stamp: see [`Writer::delete`].
    pub fn delete(&self, key: impl AsRef<[u8]>) -> Result<Stamp> {
        self.node(0).delete(key)
    }

    /// Appends a batch as node 0, each write with a stamp of its own, with the promise of the options: see
    /// [`Writer::append`].
    pub fn append(&self, batch: &mut Batch) -> Result<Stamp> {
        self.node(0).append(batch, Promise::Default)
    }

    /// Writes a batch as node 0, all of it at one stamp, with the promise of the options: see [`Writer::write_batch`].
    pub fn write_batch(&self, batch: &mut Batch) -> Result<Stamp> {
        self.node(0).write_batch(batch, Promise::Default)
    }

    /// Appends the records of other machines, one after another as bytes, and returns how many they are. Those that
    /// came before are passed over.
    ///
    /// Refusals, after which none is appended: `BadOption`, `TooLong`; of each record those of
    /// [`Store::apply_records`](hlcstore::Store::apply_records); those of [`Writer`].
    pub fn append_records(&self, log: &[u8], promise: Promise) -> std::result::Result<usize, Stopped> {
        self.handle.append_records(log, promise)
    }

    /// Lets a node join at the floor, and returns its number and its start.
    ///
    /// Refusals: `TooManyNodes` of the store, and those of [`Writer`].
    pub fn join(&self) -> Result<(u16, Stamp)> {
        self.handle.join()
    }

    /// Saves a checkpoint, cuts the log behind the older one, and returns the place up to which it goes. Writes go on
    /// meanwhile, except while the store is copied into memory.
    ///
    /// Refusals: those of [`Writer`].
    pub fn checkpoint(&self) -> Result<u64> {
        self.handle.checkpoint()
    }

    /// Writes the bytes of a checkpoint in pieces of 64 KiB, with a tag of the caller's, and returns how many they
    /// are: [`Store::restore`](hlcstore::Store::restore) opens a store in memory from them. Writes wait while the state
    /// is copied into memory, and go on while the bytes are written. The writer is not flushed.
    ///
    /// Errors: those of the writer, after which a part may be written; and `NoMemory` of the store.
    ///
    /// ```
    /// # let folder = std::env::temp_dir().join(format!("hlcstore-saved-{}", std::process::id()));
    /// # std::fs::create_dir_all(&folder)?;
    /// let file = hlcstore_file::File::open(folder.join("towns.hlc"))?;
    /// file.write(b"capital", b"Paris")?;
    ///
    /// let mut saved = Vec::new(); // or a std::fs::File
    /// file.checkpoint_to(&mut saved, 0)?;
    /// let (copy, _) = hlcstore::Store::restore(&saved)?;
    /// assert_eq!(copy.snapshot()?.get(b"capital")?.as_deref(), Some(&b"Paris"[..]));
    /// # drop(file);
    /// # std::fs::remove_dir_all(&folder)?;
    /// # Ok::<(), Box<dyn std::error::Error>>(())
    /// ```
    pub fn checkpoint_to<W: Write + ?Sized>(&self, out: &mut W, tag: u64) -> std::result::Result<u64, SaveError> {
        self.handle.copy(tag).map_err(as_saving)?.write_to(out)
    }

    /// Drops the rows up to a stamp that neither it nor an open snapshot below it needs, in parts between which reads
    /// and writes go on. No snapshot opens below the stamp any more.
    ///
    /// Refusals: `AboveFloor` and `BelowHorizon` of the store, and those of [`Writer`].
    pub fn vacuum_to(&self, stamp: Stamp) -> Result<Vacuumed> {
        self.handle.vacuum_to(stamp)
    }

    /// Vacuums up to the stamp that the system's clock had so long ago, or to the floor where that is lower. Where
    /// the horizon is higher, vacuums to the horizon.
    ///
    /// Refusals: `NoStamp`, and those of [`Writer`].
    pub fn vacuum_older(&self, age: Duration) -> Result<Vacuumed> {
        self.handle.vacuum_older(age.as_millis().try_into().unwrap_or(u64::MAX))
    }

    /// Opens a snapshot at the floor. [`Snapshot::open`] opens one that owns a share of the file.
    ///
    /// Refusals: `TooManySnapshots`, `NoMemory` of the store.
    pub fn snapshot(&self) -> Result<Snapshot<&File>> {
        Snapshot::open(self, None)
    }

    /// Opens a snapshot at a stamp, from the horizon to the floor.
    ///
    /// Refusals: `AboveFloor`, `BelowHorizon`, `TooManySnapshots`, `NoMemory` of the store.
    pub fn snapshot_at(&self, stamp: Stamp) -> Result<Snapshot<&File>> {
        Snapshot::open(self, Some(stamp))
    }

    /// Returns the floor: snapshots open up to it, and all that is appended later has a greater stamp.
    pub fn floor(&self) -> Result<Stamp> {
        self.handle.floor()
    }

    /// Returns the first node for which the floor waits, or none if all have retired.
    pub fn floor_node(&self) -> Result<Option<u16>> {
        self.handle.floor_node()
    }

    /// Returns the stamp of the last vacuum, or [`Stamp::ZERO`]. No snapshot opens below it.
    pub fn horizon(&self) -> Result<Stamp> {
        self.handle.horizon()
    }

    /// Returns how many rows are stored.
    pub fn rows(&self) -> Result<u64> {
        self.handle.rows()
    }

    /// Returns how many rows and keys are stored, and how many bytes they have, in constant time.
    pub fn sizes(&self) -> Result<Sizes> {
        self.handle.sizes()
    }

    /// Returns how many node numbers are assigned, those of retired nodes too.
    pub fn nodes(&self) -> Result<u64> {
        self.handle.nodes()
    }

    /// Returns what was appended as a node: see [`Store::link`](hlcstore::Store::link).
    ///
    /// Refusal: `NoNode` of the store.
    pub fn link(&self, node: u16) -> Result<Link> {
        self.handle.link(node)
    }

    /// Returns the stored rows of a key above one stamp and at or below another, the newest first, as
    /// [`Store::versions`](hlcstore::Store::versions) does.
    pub fn versions(&self, key: impl AsRef<[u8]>, above: Stamp, to: Stamp) -> Result<Vec<Version>> {
        self.handle.versions(key.as_ref(), above, to)
    }
}

/// A node of a file, with the reading of its clock. Its calls append items of the node.
///
/// Refusals of each call: `NoNode`, `Retired`, `NumbersSpent`, `ReadingTooLarge`, `CounterFull`, `NoMemory` of the
/// store; `Sealed`; those of the disk, `Full`, `Io`, `Corrupt`, `Unknown`; and `Later`, after which the call did take
/// place.
#[derive(Clone, Copy, Debug)]
pub struct Writer<'a> {
    handle: &'a Handle,
    from: Origin,
}

impl Writer<'_> {
    /// Takes the reading of the caller's clock, in milliseconds, below 2^48, in place of the system's.
    pub fn at(mut self, reading: u64) -> Self {
        // The library's number for the system's clock is no reading: the one below it is refused as too large.
        self.from.reading = reading.min(sys::HLC_FILE_NOW - 1);
        self
    }

    /// Appends a batch, and clears it. After a crash all of it is in the file or none. Each write has a stamp of its
    /// own, so a snapshot between two of them shows a part; for one stamp use [`write_batch`](Writer::write_batch).
    /// Returns the stamp of the last one, at which a snapshot has all of them. An empty batch does nothing.
    ///
    /// Refusals: `BadOption`, and those of the type. The batch keeps what it had, except after `Later`.
    pub fn append(self, batch: &mut Batch, promise: Promise) -> Result<Stamp> {
        self.handle.append(self.from, &mut batch.handle, promise)
    }

    /// Writes a batch as one item, whose writes, 1 to 256 of different keys, have one stamp, and clears it: a snapshot,
    /// at whatever stamp, shows all of them or none. Returns the stamp.
    ///
    /// Refusals: `BadOption`; `NoWrites`, `TooManyWrites`, `KeyTwice` of the store; and those of the type. The batch
    /// keeps what it had, except after `Later`.
    pub fn write_batch(self, batch: &mut Batch, promise: Promise) -> Result<Stamp> {
        self.handle.write_batch(self.from, &mut batch.handle, promise)
    }

    /// Writes a value to a key, and returns the stamp.
    ///
    /// Refusals: `BadKey`, `ValueTooLong` of the store, and those of the type.
    pub fn write(self, key: impl AsRef<[u8]>, value: impl AsRef<[u8]>) -> Result<Stamp> {
        self.handle.write(self.from, key.as_ref(), value.as_ref())
    }

    /// Deletes a key's value, and returns the stamp.
    ///
    /// Refusals: `BadKey` of the store, and those of the type.
    pub fn delete(self, key: impl AsRef<[u8]>) -> Result<Stamp> {
        self.handle.delete(self.from, key.as_ref())
    }

    /// Reports, so that the floor rises where the node has nothing to write. Returns the stamp.
    pub fn report(self) -> Result<Stamp> {
        self.handle.report(self.from)
    }

    /// Appends the node's last item, and returns the stamp. The floor does not wait for the node any more.
    pub fn retire(self) -> Result<Stamp> {
        self.handle.retire(self.from)
    }

    /// Returns the stamp of a message from the node.
    pub fn send(self) -> Result<Stamp> {
        self.handle.send(self.from)
    }

    /// Receives a message with this stamp, and returns the stamp of that: later stamps are above both.
    pub fn receive(self, seen: Stamp) -> Result<Stamp> {
        self.handle.receive(self.from, seen)
    }
}
