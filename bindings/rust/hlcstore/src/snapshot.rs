use crate::handle::{Handle, Listed};
use crate::listing::{ChangePage, Changes, KeyPage, Keys, Page, Pairs, PairsBack, Part};
use crate::range::Bounds;
use crate::{Error, KeyRange, Result, SharedStore, Stamp, Store};
use std::fmt;
use std::ops::{Deref, DerefMut};

/// How many bytes are made room for to read one pair: at first for a short one, and then for any.
const SHORT_ROOM: usize = 128;
const PAIR_ROOM: usize = 65_806;

/// How a [`Snapshot`] reaches its store: by a reference to a [`Store`], or as a share of a [`SharedStore`].
pub trait Access: sealed::Handles {}

impl Access for &Store {}
impl Access for SharedStore {}

mod sealed {
    use super::*;

    pub trait Handles {
        fn read(&self) -> impl Deref<Target = Handle>;
        fn write(&self) -> impl DerefMut<Target = Handle>;
        /// Whether both reach the same store.
        fn is_same(&self, other: &Self) -> bool;
    }

    impl Handles for &Store {
        fn read(&self) -> impl Deref<Target = Handle> {
            Store::read(self)
        }

        fn write(&self) -> impl DerefMut<Target = Handle> {
            Store::write(self)
        }

        fn is_same(&self, other: &Self) -> bool {
            std::ptr::eq(*self, *other)
        }
    }

    impl Handles for SharedStore {
        fn read(&self) -> impl Deref<Target = Handle> {
            SharedStore::read(self)
        }

        fn write(&self) -> impl DerefMut<Target = Handle> {
            SharedStore::write(self)
        }

        fn is_same(&self, other: &Self) -> bool {
            SharedStore::is_same(self, other)
        }
    }
}

/// The id and the stamp of an open snapshot.
#[derive(Clone, Copy, Debug, PartialEq, Eq, Hash)]
pub struct OpenSnapshot {
    /// Its id. Ids rise, and none is used twice.
    pub id: u64,
    /// The stamp at which it was opened.
    pub stamp: Stamp,
}

/// An open snapshot, which reads the store as it was at a stamp. It closes itself, so that a vacuum can drop the rows
/// that only this snapshot needs.
///
/// `Snapshot<&Store>` borrows its store; `Snapshot<SharedStore>` is one of the store's clones, and any thread may use
/// it. Each call returns `Closed` after [`Store::close`], and `NoSnapshot` after [`Store::close_all`] or where the
/// store was opened again, whatever snapshots it has then.
///
/// ```
/// use hlcstore::{Node, Stamp, Store};
///
/// let store = Store::open(1)?;
/// let mut node = Node::new(0, Stamp::ZERO);
/// for (key, value) in [("a", "1"), ("b", "2"), ("c", "3")] {
///     store.accept(node.write(5, key.as_bytes(), value.as_bytes())?)?;
/// }
/// let snapshot = store.snapshot()?;
/// assert_eq!(snapshot.get(b"b")?.as_deref(), Some(&b"2"[..]));
/// assert_eq!(snapshot.count("b"..)?, 2);
/// for pair in snapshot.range("a".."c") {
///     let (key, value) = pair?;
///     println!("{} {}", key.escape_ascii(), value.escape_ascii());
/// }
/// # Ok::<(), hlcstore::Error>(())
/// ```
pub struct Snapshot<S: Access> {
    store: S,
    open: OpenSnapshot,
    /// How often the store had been opened then.
    openings: u64,
    is_kept: bool,
}

impl<S: Access> Snapshot<S> {
    /// Makes a call that returns an open snapshot.
    pub(crate) fn open(store: S, call: impl FnOnce(&mut Handle) -> Result<OpenSnapshot>) -> Result<Snapshot<S>> {
        let mut handle = store.write();
        let (open, openings) = (call(&mut handle)?, handle.openings());
        drop(handle);
        Ok(Snapshot { store, open, openings, is_kept: false })
    }

    /// Returns the handle of the store, for calls that only ask.
    pub(crate) fn handle(&self) -> Result<impl Deref<Target = Handle>> {
        let handle = self.store.read();
        if handle.openings() == self.openings { Ok(handle) } else { Err(Error::NO_SNAPSHOT) }
    }

    /// Returns whether another snapshot was opened in the same store, since that was opened last.
    pub(crate) fn has_store_of(&self, other: &Snapshot<S>) -> bool {
        self.store.is_same(&other.store) && self.openings == other.openings
    }

    fn close_it(&self) -> Result<Stamp> {
        let mut handle = self.store.write();
        if handle.openings() == self.openings { handle.close_snapshot(self.id()) } else { Err(Error::NO_SNAPSHOT) }
    }

    /// Returns the snapshot's id.
    pub fn id(&self) -> u64 {
        self.open.id
    }

    /// Returns the stamp at which the snapshot was opened.
    pub fn stamp(&self) -> Stamp {
        self.open.stamp
    }

    /// Returns the value of a key, or none.
    pub fn get(&self, key: impl AsRef<[u8]>) -> Result<Option<Vec<u8>>> {
        let mut value = Vec::new();
        Ok(self.get_into(key, &mut value)?.then_some(value))
    }

    /// Writes the value of a key to a vector, in place of what that contains, and returns whether there is one. A
    /// program that uses one vector for many reads saves the allocations.
    pub fn get_into(&self, key: impl AsRef<[u8]>, value: &mut Vec<u8>) -> Result<bool> {
        let key = key.as_ref();
        value.clear();
        self.handle()?.read(self.id(), key, value)
    }

    /// Lends the value of a key to a function, and returns what that returned; or none, if the key has no value. The
    /// value is a copy, so that a shared store is not locked meanwhile: one of at most 512 bytes takes no memory.
    ///
    /// ```
    /// use hlcstore::{Node, Stamp, Store};
    ///
    /// let store = Store::open(1)?;
    /// store.accept(Node::new(0, Stamp::ZERO).write(5, b"size", &7u32.to_le_bytes())?)?;
    /// let size = store
    ///     .snapshot()?
    ///     .get_with("size", |value| value.first_chunk().map(|four| u32::from_le_bytes(*four)))?;
    /// assert_eq!(size, Some(Some(7)));
    /// # Ok::<(), hlcstore::Error>(())
    /// ```
    pub fn get_with<T>(&self, key: impl AsRef<[u8]>, read: impl FnOnce(&[u8]) -> T) -> Result<Option<T>> {
        let (key, mut short) = (key.as_ref(), [0; 512]);
        let found = self.handle()?.read_to(self.id(), key, &mut short)?;
        let Some(len) = found else { return Ok(None) };
        if let Some(value) = short.get(..len) {
            return Ok(Some(read(value)));
        }
        let mut long = Vec::new();
        Ok(self.get_into(key, &mut long)?.then(|| read(&long)))
    }

    /// Returns the values of keys, in the same order. A shared store is locked once for all of them.
    pub fn get_many(&self, keys: &[&[u8]]) -> Result<Vec<Option<Vec<u8>>>> {
        let mut values = Vec::new();
        values.try_reserve_exact(keys.len()).map_err(|_| Error::NO_MEMORY)?;
        let handle = self.handle()?;
        for key in keys {
            let mut value = Vec::new();
            let is_there = handle.read(self.id(), key, &mut value)?;
            values.push(is_there.then_some(value));
        }
        Ok(values)
    }

    /// Returns all pairs of a key and its value, in the byte order of the keys.
    pub fn iter(&self) -> Pairs<'_, S> {
        self.range(..)
    }

    /// Returns the pairs of a range, in the byte order of the keys.
    pub fn range(&self, range: impl KeyRange) -> Pairs<'_, S> {
        Pairs::new(self, range.to_bounds())
    }

    /// Returns the pairs of a range from its end, the last key first.
    ///
    /// ```
    /// use hlcstore::{Node, Stamp, Store};
    ///
    /// let store = Store::open(1)?;
    /// let mut node = Node::new(0, Stamp::ZERO);
    /// for key in ["a", "b", "c"] {
    ///     store.accept(node.write(5, key.as_bytes(), b"value")?)?;
    /// }
    /// let snapshot = store.snapshot()?;
    /// let keys = snapshot.range_back(.."c").map(|pair| Ok(pair?.0)).collect::<hlcstore::Result<Vec<_>>>()?;
    /// assert_eq!(keys, [b"b", b"a"]);
    /// # Ok::<(), hlcstore::Error>(())
    /// ```
    pub fn range_back(&self, range: impl KeyRange) -> PairsBack<'_, S> {
        PairsBack::new(self, range.to_bounds())
    }

    /// Returns the pair of the last key below another, or of the last of all where that has no bytes; or none.
    pub fn last_below(&self, key: impl AsRef<[u8]>) -> Result<Option<(Vec<u8>, Vec<u8>)>> {
        let (bounds, mut part) = (Bounds::all_below(key.as_ref())?, Part::default());
        part.fill(self, Listed::PairsBack, &bounds, SHORT_ROOM)?;
        if part.is_short() {
            part.fill(self, Listed::PairsBack, &bounds, PAIR_ROOM)?;
        }
        part.first_pair()
    }

    /// Returns what changes from this snapshot to another of the same store, whichever is the older one: in byte order,
    /// the keys of a range whose answers differ, each with its value in the other snapshot, or none. The pairs of this
    /// snapshot with these changes are those of the other one, and no fewer changes lead there.
    ///
    /// Refusal, which the iterator returns: `NoSnapshot`, also where they are not of one store.
    ///
    /// ```
    /// use hlcstore::{Node, Stamp, Store};
    ///
    /// let store = Store::open(1)?;
    /// let mut node = Node::new(0, Stamp::ZERO);
    /// store.accept(node.write(5, b"city", b"Lyon")?)?;
    /// let before = store.snapshot()?;
    /// store.accept(node.delete(6, b"city")?)?;
    /// store.accept(node.write(7, b"lake", b"Como")?)?;
    /// let after = store.snapshot()?;
    /// let changes = before.changes(&after, ..).collect::<hlcstore::Result<Vec<_>>>()?;
    /// assert_eq!(changes, [(b"city".to_vec(), None), (b"lake".to_vec(), Some(b"Como".to_vec()))]);
    /// # Ok::<(), hlcstore::Error>(())
    /// ```
    pub fn changes<'a>(&'a self, after: &'a Snapshot<S>, range: impl KeyRange) -> Changes<'a, S> {
        Changes::new(self, after, range.to_bounds())
    }

    /// Returns the keys of a range that have a value, in byte order.
    pub fn keys(&self, range: impl KeyRange) -> Keys<'_, S> {
        Keys::new(self, range.to_bounds())
    }

    /// Returns as many pairs of a range as fit in this many bytes, in one call. A pair takes the bytes of its key and
    /// its value, and 16; so there is room for at least one in 65,806 bytes.
    ///
    /// ```
    /// use hlcstore::{Node, Stamp, Store};
    /// use std::ops::Bound;
    ///
    /// let store = Store::open(1)?;
    /// let mut node = Node::new(0, Stamp::ZERO);
    /// for key in ["a", "b", "c"] {
    ///     store.accept(node.write(5, key.as_bytes(), b"value")?)?;
    /// }
    /// let snapshot = store.snapshot()?;
    /// let page = snapshot.scan(.., 50)?;
    /// assert_eq!((page.len(), page.has_more()), (2, true));
    /// let (last, _) = page.iter().last().unwrap();
    /// let rest = snapshot.scan((Bound::Excluded(last), Bound::Unbounded), 50)?;
    /// assert_eq!(rest.iter().next(), Some((&b"c"[..], &b"value"[..])));
    /// # Ok::<(), hlcstore::Error>(())
    /// ```
    pub fn scan(&self, range: impl KeyRange, room: usize) -> Result<Page> {
        let mut part = Part::default();
        part.fill(self, Listed::Pairs, &range.to_bounds()?, room)?;
        Ok(Page(part))
    }

    /// Returns as many pairs of a range as fit in this many bytes, in one call, from the last key on. So the range of
    /// the next page ends before the last key of this one.
    pub fn scan_back(&self, range: impl KeyRange, room: usize) -> Result<Page> {
        let mut part = Part::default();
        part.fill(self, Listed::PairsBack, &range.to_bounds()?, room)?;
        Ok(Page(part))
    }

    /// Returns as many keys of a range as fit in this many bytes, in one call. A key takes its bytes, and 8.
    pub fn scan_keys(&self, range: impl KeyRange, room: usize) -> Result<KeyPage> {
        let mut part = Part::default();
        part.fill(self, Listed::Keys, &range.to_bounds()?, room)?;
        Ok(KeyPage(part))
    }

    /// Returns as many of the [`changes`](Snapshot::changes) to another snapshot as fit in this many bytes, in one
    /// call. A change takes the bytes of its key and of its value, and at most 17.
    ///
    /// Refusal: `NoSnapshot`, also where they are not of one store.
    pub fn scan_changes(&self, after: &Snapshot<S>, range: impl KeyRange, room: usize) -> Result<ChangePage> {
        let mut part = Part::default();
        if !self.has_store_of(after) {
            return Err(Error::NO_SNAPSHOT);
        }
        part.fill(self, Listed::Changes(after.id()), &range.to_bounds()?, room)?;
        Ok(ChangePage(part))
    }

    /// Counts the keys of a range that have a value.
    pub fn count(&self, range: impl KeyRange) -> Result<u64> {
        self.count_within(&range.to_bounds()?)
    }

    pub(crate) fn count_within(&self, range: &Bounds) -> Result<u64> {
        self.handle()?.count(self.id(), range)
    }

    /// Digests a range, so that replicas compare without listing: returns the SHA-256 of all pairs of the range, as
    /// [`Page::as_bytes`] has them.
    pub fn digest(&self, range: impl KeyRange) -> Result<[u8; 32]> {
        let range = range.to_bounds()?;
        self.handle()?.digest(self.id(), &range)
    }

    /// Closes the snapshot, and returns its stamp.
    ///
    /// Refusal: `NoSnapshot`, if it was closed before.
    pub fn close(mut self) -> Result<Stamp> {
        self.is_kept = true;
        self.close_it()
    }

    /// Keeps the snapshot open, and returns its id, for [`Store::snapshot_by_id`].
    pub fn keep(mut self) -> u64 {
        self.is_kept = true;
        self.id()
    }
}

impl<S: Access> Drop for Snapshot<S> {
    fn drop(&mut self) {
        if !self.is_kept {
            // It may be closed already, by `close_all` or with the store.
            let _ = self.close_it();
        }
    }
}

impl<S: Access> fmt::Debug for Snapshot<S> {
    fn fmt(&self, f: &mut fmt::Formatter<'_>) -> fmt::Result {
        f.debug_struct("Snapshot").field("id", &self.id()).field("stamp", &self.stamp()).finish_non_exhaustive()
    }
}

impl<'a, S: Access> IntoIterator for &'a Snapshot<S> {
    type Item = Result<(Vec<u8>, Vec<u8>)>;
    type IntoIter = Pairs<'a, S>;

    fn into_iter(self) -> Pairs<'a, S> {
        self.iter()
    }
}
