use crate::listing::{Changes, Keys, Pairs, PairsBack};
use crate::{Error, File, Result};
use hlcstore::{ChangePage, KeyPage, KeyRange, Page, Stamp};
use std::ops::Deref;
use std::ptr;

/// The refusal of hlcstore.h of a snapshot that is not open in this store.
const NO_SNAPSHOT: u32 = 10;

/// An open snapshot, which reads the file as it was at a stamp. It closes itself, so that a vacuum can drop the rows
/// that only this snapshot needs.
///
/// `Snapshot<&File>` borrows its file; `Snapshot<Arc<File>>` owns a share of it.
///
/// ```
/// use hlcstore_file::{File, Snapshot};
/// use std::sync::Arc;
///
/// # let path = std::env::temp_dir().join(format!("hlcstore-{}.hlc", std::process::id()));
/// let file = Arc::new(File::open(&path)?);
/// file.write(b"city", b"Lyon")?;
/// let snapshot = Snapshot::open(Arc::clone(&file), None)?;
/// file.write(b"city", b"Rome")?;
/// let reader = std::thread::spawn(move || snapshot.get(b"city"));
/// assert_eq!(reader.join().unwrap()?.as_deref(), Some(&b"Lyon"[..]));
/// # drop(file);
/// # std::fs::remove_file(&path).unwrap();
/// # Ok::<(), hlcstore_file::Error>(())
/// ```
#[derive(Debug)]
pub struct Snapshot<F: Deref<Target = File>> {
    file: F,
    id: u64,
    stamp: Stamp,
}

impl<F: Deref<Target = File>> Snapshot<F> {
    /// Opens a snapshot at a stamp, or at the floor: see [`File::snapshot_at`] and [`File::snapshot`].
    pub fn open(file: F, at: Option<Stamp>) -> Result<Snapshot<F>> {
        let (id, stamp) = file.handle().open_snapshot(at)?;
        Ok(Snapshot { file, id, stamp })
    }

    /// Returns the snapshot's id, which no other one gets while the file is open.
    pub fn id(&self) -> u64 {
        self.id
    }

    /// Returns the stamp at which the snapshot was opened.
    pub fn stamp(&self) -> Stamp {
        self.stamp
    }

    /// Returns the value of a key, or none.
    pub fn get(&self, key: impl AsRef<[u8]>) -> Result<Option<Vec<u8>>> {
        self.file.handle().read(self.id, key.as_ref())
    }

    /// Returns the values of keys, in the same order. The file is locked once for all of them, so that writes wait.
    pub fn get_many(&self, keys: &[&[u8]]) -> Result<Vec<Option<Vec<u8>>>> {
        self.file.handle().read_all(self.id, keys)
    }

    /// Returns all pairs of a key and its value, in the byte order of the keys.
    pub fn iter(&self) -> Pairs<'_> {
        self.range(..)
    }

    /// Returns the pairs of a range, in the byte order of the keys.
    pub fn range(&self, range: impl KeyRange) -> Pairs<'_> {
        Pairs::new(self.file.handle(), self.id, range)
    }

    /// Returns the pairs of a range from its end, the last key first.
    pub fn range_back(&self, range: impl KeyRange) -> PairsBack<'_> {
        PairsBack::new(self.file.handle(), self.id, range)
    }

    /// Returns the keys with a value in a range, in byte order.
    pub fn keys(&self, range: impl KeyRange) -> Keys<'_> {
        Keys::new(self.file.handle(), self.id, range)
    }

    /// Returns what changes from this snapshot to another of the same file, whichever is the older one: in byte order,
    /// the keys of a range whose answers differ, each with its value in the other snapshot, or none.
    ///
    /// Refusal, which the iterator returns: `NoSnapshot` of the store, where they are not of one file.
    pub fn changes<'a>(&'a self, after: &'a Snapshot<F>, range: impl KeyRange) -> Changes<'a> {
        Changes::new(self.file.handle(), self.ids(after), range)
    }

    /// The ids of this snapshot and of another of the same file.
    fn ids(&self, after: &Snapshot<F>) -> Result<(u64, u64)> {
        let is_same = ptr::eq(self.file.handle(), after.file.handle());
        if is_same { Ok((self.id, after.id)) } else { Err(Error::new(NO_SNAPSHOT, 0)) }
    }

    /// Returns the pair of the last key below this one, or of the last of all where it has no bytes; or none.
    pub fn last_below(&self, key: impl AsRef<[u8]>) -> Result<Option<(Vec<u8>, Vec<u8>)>> {
        let key = key.as_ref();
        let last = if key.is_empty() { self.range_back(..).next() } else { self.range_back(..key).next() };
        last.transpose()
    }

    /// Returns as many pairs of a range as fit in this many bytes, in one call, as
    /// [`Snapshot::scan`](hlcstore::Snapshot::scan) does.
    pub fn scan(&self, range: impl KeyRange, room: usize) -> Result<Page> {
        let (from, to) = range.ends()?;
        self.file.handle().scan(self.id, &from, &to, room, false)
    }

    /// Returns as many pairs of a range as fit in this many bytes, in one call, from the last key on, as
    /// [`Snapshot::scan_back`](hlcstore::Snapshot::scan_back) does.
    pub fn scan_back(&self, range: impl KeyRange, room: usize) -> Result<Page> {
        let (from, to) = range.ends()?;
        self.file.handle().scan(self.id, &from, &to, room, true)
    }

    /// Returns as many keys of a range as fit in this many bytes, in one call, as
    /// [`Snapshot::scan_keys`](hlcstore::Snapshot::scan_keys) does.
    pub fn scan_keys(&self, range: impl KeyRange, room: usize) -> Result<KeyPage> {
        let (from, to) = range.ends()?;
        self.file.handle().scan_keys(self.id, &from, &to, room)
    }

    /// Returns as many of the [`changes`](Snapshot::changes) to another snapshot as fit in this many bytes, in one
    /// call, as [`Snapshot::scan_changes`](hlcstore::Snapshot::scan_changes) does.
    pub fn scan_changes(&self, after: &Snapshot<F>, range: impl KeyRange, room: usize) -> Result<ChangePage> {
        let (from, to) = range.ends()?;
        self.file.handle().scan_changes(self.ids(after)?, &from, &to, room)
    }

    /// Digests a range, so that replicas compare without listing, as
    /// [`Snapshot::digest`](hlcstore::Snapshot::digest) does.
    pub fn digest(&self, range: impl KeyRange) -> Result<[u8; 32]> {
        let (from, to) = range.ends()?;
        self.file.handle().digest(self.id, &from, &to)
    }

    /// Counts the keys of a range that have a value.
    pub fn count(&self, range: impl KeyRange) -> Result<u64> {
        let (from, to) = range.ends()?;
        self.file.handle().count(self.id, &from, &to)
    }
}

impl<F: Deref<Target = File>> Drop for Snapshot<F> {
    fn drop(&mut self) {
        // The file is open, and only this closes the snapshot. Where there is no memory for it, it closes with
        // the file.
        let _ = self.file.handle().close_snapshot(self.id);
    }
}

impl<'a, F: Deref<Target = File>> IntoIterator for &'a Snapshot<F> {
    type Item = Result<(Vec<u8>, Vec<u8>)>;
    type IntoIter = Pairs<'a>;

    fn into_iter(self) -> Pairs<'a> {
        self.iter()
    }
}
