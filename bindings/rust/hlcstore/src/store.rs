use crate::handle::Handle;
use crate::saving::{SaveError, write_checkpoint};
use crate::snapshot::{OpenSnapshot, Snapshot};
use crate::{Applied, Certified, Item, Node, Result, SharedStore, Stamp, Stopped, VacuumPart, Vacuumed, Version};
use std::cell::{Ref, RefCell, RefMut};
use std::fmt;
use std::io::Write;

/// A multi-version store, for one thread at a time. It closes itself.
///
/// All calls take `&self`, so that snapshots stay open while items come in. Each call returns `Closed` after
/// [`close`](Store::close). [`SharedStore`] is for many threads.
///
/// ```
/// use hlcstore::{Node, Stamp, Store};
///
/// let store = Store::open(1)?;
/// let mut node = Node::new(0, Stamp::ZERO);
/// store.accept(node.write(5, b"city", b"Lyon")?)?;
/// let snapshot = store.snapshot()?;
/// store.accept(node.delete(6, b"city")?)?;
/// assert_eq!(snapshot.get(b"city")?.as_deref(), Some(&b"Lyon"[..]));
/// # Ok::<(), hlcstore::Error>(())
/// ```
///
/// It moves to another thread, but is not shared:
///
/// ```compile_fail,E0277
/// fn is_shared<T: Sync>() {}
/// is_shared::<hlcstore::Store>();
/// ```
pub struct Store {
    handle: RefCell<Handle>,
}

/// What a store accepted from a node.
#[derive(Clone, Copy, Debug, PartialEq, Eq, Hash)]
pub struct Link {
    /// The number of the node's next item.
    pub next_number: u64,
    /// The stamp of its last accepted item, or the stamp at which it started.
    pub head: Stamp,
    /// Whether its retirement was accepted.
    pub is_retired: bool,
}

/// How much a store contains. A number is 2^64 - 1 where it would be greater.
#[derive(Clone, Copy, Debug, Default, PartialEq, Eq, Hash)]
pub struct Sizes {
    /// How many rows are stored.
    pub rows: u64,
    /// How many keys have rows.
    pub keys: u64,
    /// The bytes of these keys, each counted once.
    pub key_bytes: u64,
    /// The bytes of the values of all rows. A deletion has none.
    pub value_bytes: u64,
}

impl Store {
    /// Opens a store of this many nodes, 1 to 64, numbered from 0, in which nothing took place.
    ///
    /// Refusals: `BadNodeCount`, `NoMemory`.
    pub fn open(nodes: u16) -> Result<Store> {
        let store = Store::closed();
        store.reopen(nodes)?;
        Ok(store)
    }

    /// Opens a store from the bytes of a [`checkpoint`](Store::checkpoint), whoever wrote them. Returns it with the
    /// tag that was saved. It continues as the saved store would have: the same next items, open snapshots, horizon
    /// and answers. [`snapshot_by_id`](Store::snapshot_by_id) returns its snapshots.
    ///
    /// Refusals, in this order: `BadBytes`, `NoCheckpoint`, `NoMemory`.
    pub fn restore(checkpoint: &[u8]) -> Result<(Store, u64)> {
        let store = Store::closed();
        let tag = store.reload(checkpoint)?;
        Ok((store, tag))
    }

    /// Returns a closed store, for [`reopen`](Store::reopen) or [`reload`](Store::reload).
    pub fn closed() -> Store {
        Store { handle: RefCell::new(Handle::closed()) }
    }

    /// Opens this closed store as [`open`](Store::open) does.
    ///
    /// Refusals: `IsOpen`, `BadNodeCount`, `NoMemory`.
    pub fn reopen(&self, nodes: u16) -> Result<()> {
        self.write().open(nodes)
    }

    /// Opens this closed store as [`restore`](Store::restore) does, and returns the tag.
    ///
    /// Refusals, in this order: `IsOpen`, `BadBytes`, `NoCheckpoint`, `NoMemory`.
    pub fn reload(&self, checkpoint: &[u8]) -> Result<u64> {
        self.write().restore(checkpoint)
    }

    /// Closes the store, and frees what it contains.
    pub fn close(&self) {
        self.write().close();
    }

    /// Accepts an item, if it is the next one of its node.
    ///
    /// Refusals, in this order: `NoNode`, `Retired`, `NotNext`, `NumbersSpent`, `StampNotRising`; `BadKey`,
    /// `ValueTooLong`; of a batch `NoWrites`, `KeyTwice`; `NoMemory`.
    pub fn accept(&self, item: Item<'_>) -> Result<()> {
        self.write().accept(item)
    }

    /// Returns what [`accept`](Store::accept) would return for this item, except `NoMemory`.
    pub fn check(&self, item: Item<'_>) -> Result<()> {
        self.read().check(item)
    }

    /// Accepts items in turn, as [`accept`](Store::accept) does, until one is refused. Those before it stay
    /// accepted.
    pub fn accept_all(&self, items: &[Item<'_>]) -> std::result::Result<(), Stopped> {
        self.write().accept_all(items)
    }

    /// Accepts the items of a log, one after another as bytes ([`Item::encode`]), until one is refused. Items whose
    /// numbers were accepted before are passed over, so that a log can be read again from any place. Returns how many
    /// items were accepted or passed over.
    ///
    /// Refusals, of each item in this order: `BadBytes`, where 1 is the word if the bytes end within the item;
    /// `NoNode`, `Retired`, `NotNext`, `NumbersSpent`, `StampNotRising`; of a batch `KeyTwice`; `NoMemory`.
    pub fn accept_items(&self, log: &[u8]) -> std::result::Result<usize, Stopped> {
        self.write().accept_items(log)
    }

    /// Applies the records of a log that replicas share, one after another as bytes ([`Item::encode`],
    /// [`Record::encode`](crate::Record::encode)), until one is refused: items are accepted, and nodes join at their
    /// starts. Records that were applied before are passed over, so that a log can be read again from any place. A
    /// retention threshold changes nothing here; the greatest is returned, and the caller may vacuum to it.
    ///
    /// Refusals, of each item those of [`accept_items`](Store::accept_items); of each join in this order: `NotNext`,
    /// with the number of the next node; `TooManyNodes`; `BelowFloor`, with the floor; `NoMemory`.
    pub fn apply_records(&self, log: &[u8]) -> std::result::Result<Applied, Stopped> {
        self.write().apply_records(log)
    }

    /// Lets a node join, and returns it. Its clock starts at the floor.
    ///
    /// Refusals, in this order: `TooManyNodes`, `NoMemory`.
    pub fn join(&self) -> Result<Node> {
        self.write().join()
    }

    /// Lets a node join that starts at this stamp, at or above the floor, and returns it. Stores that accept the same
    /// items agree on a join if each gets the same start, whatever their floors are then.
    ///
    /// Refusals, in this order: `TooManyNodes`; `BelowFloor`, with the floor; `NoMemory`.
    pub fn join_at(&self, start: Stamp) -> Result<Node> {
        self.write().join_at(start)
    }

    /// Opens a snapshot at the floor.
    ///
    /// Refusals, in this order: `TooManySnapshots`, `NumbersSpent`, `NoMemory`.
    pub fn snapshot(&self) -> Result<Snapshot<&Store>> {
        Snapshot::open(self, Handle::open_snapshot)
    }

    /// Opens a snapshot at a stamp, from the horizon to the floor.
    ///
    /// Refusals, in this order: `AboveFloor`, `BelowHorizon`, `TooManySnapshots`, `NumbersSpent`, `NoMemory`.
    pub fn snapshot_at(&self, stamp: Stamp) -> Result<Snapshot<&Store>> {
        Snapshot::open(self, |handle| handle.open_snapshot_at(stamp))
    }

    /// Returns the open snapshot with this id, for example after a restart. As any other it closes itself, unless
    /// [`Snapshot::keep`] keeps it open.
    ///
    /// Refusal: `NoSnapshot`.
    pub fn snapshot_by_id(&self, id: u64) -> Result<Snapshot<&Store>> {
        Snapshot::open(self, |handle| handle.snapshot_by_id(id))
    }

    /// Returns the open snapshots, by rising ids.
    pub fn snapshots(&self) -> Result<Vec<OpenSnapshot>> {
        self.read().snapshots()
    }

    /// Closes all open snapshots. Their calls return `NoSnapshot` from then on.
    pub fn close_all(&self) -> Result<()> {
        self.write().close_all()
    }

    /// Returns the floor (closed timestamp): every item that is accepted later has a greater stamp.
    pub fn floor(&self) -> Result<Stamp> {
        self.read().floor()
    }

    /// Returns the first node for which the floor waits, or none if all have retired.
    pub fn floor_node(&self) -> Result<Option<u16>> {
        self.read().floor_node()
    }

    /// Returns the horizon (GC threshold): the stamp of the last vacuum, or part of one, or [`Stamp::ZERO`] before
    /// the first.
    pub fn horizon(&self) -> Result<Stamp> {
        self.read().horizon()
    }

    /// Returns how many rows are stored.
    pub fn rows(&self) -> Result<u64> {
        self.read().rows()
    }

    /// Returns how many rows and keys are stored, and how many bytes they have, in constant time.
    ///
    /// ```
    /// use hlcstore::{Node, Sizes, Stamp, Store};
    ///
    /// let store = Store::open(1)?;
    /// let mut node = Node::new(0, Stamp::ZERO);
    /// store.accept(node.write(1, b"city", b"Lyon")?)?;
    /// store.accept(node.write(2, b"city", b"Paris")?)?;
    /// assert_eq!(store.sizes()?, Sizes { rows: 2, keys: 1, key_bytes: 4, value_bytes: 9 });
    /// # Ok::<(), hlcstore::Error>(())
    /// ```
    pub fn sizes(&self) -> Result<Sizes> {
        self.read().sizes()
    }

    /// Returns how many node numbers are assigned, those of retired nodes too.
    pub fn nodes(&self) -> Result<u64> {
        self.read().nodes()
    }

    /// Returns what was accepted from a node.
    ///
    /// Refusal: `NoNode`.
    pub fn link(&self, node: u16) -> Result<Link> {
        self.read().link(node)
    }

    /// Returns the stored rows of a key above one stamp and at or below another, the newest first: by stamp, and at one
    /// stamp by node. Above the horizon these are all accepted writes of the key; at and below it, those that vacuums
    /// kept. The cost is the square of the number of the key's rows.
    ///
    /// ```
    /// use hlcstore::{Node, Stamp, Store};
    ///
    /// let store = Store::open(1)?;
    /// let mut node = Node::new(0, Stamp::ZERO);
    /// store.accept(node.write(5, b"city", b"Lyon")?)?;
    /// store.accept(node.delete(6, b"city")?)?;
    /// let versions = store.versions(b"city", Stamp::ZERO, Stamp::new(9, 0))?;
    /// assert_eq!((versions[0].stamp, &versions[0].value), (Stamp::new(6, 0), &None));
    /// assert_eq!((versions[1].stamp, &versions[1].value), (Stamp::new(5, 0), &Some(b"Lyon".to_vec())));
    /// # Ok::<(), hlcstore::Error>(())
    /// ```
    pub fn versions(&self, key: impl AsRef<[u8]>, above: Stamp, to: Stamp) -> Result<Vec<Version>> {
        let key = key.as_ref();
        self.read().versions(key, above, to)
    }

    /// Drops all rows at or below the floor except the fewest, and the cheapest, that give the same answers as all
    /// accepted writes at each open snapshot and at the floor.
    ///
    /// Refusal: `NoMemory`.
    pub fn vacuum(&self) -> Result<Vacuumed> {
        self.write().vacuum()
    }

    /// Drops all rows at or below a stamp except the fewest, and the cheapest, that give the same answers as all
    /// accepted writes at each snapshot that is open at or below the stamp, and at the stamp. All rows above it stay.
    ///
    /// Refusals, in this order: `AboveFloor`, `BelowHorizon`, `NoMemory`.
    ///
    /// ```
    /// use hlcstore::{Node, Stamp, Store};
    ///
    /// let store = Store::open(1)?;
    /// let mut node = Node::new(0, Stamp::ZERO);
    /// for reading in 1..=9 {
    ///     store.accept(node.write(reading, b"city", b"Lyon")?)?;
    /// }
    /// let vacuumed = store.vacuum_to(Stamp::new(6, 0))?;
    /// assert_eq!((vacuumed.kept, vacuumed.dropped), (1, 5));
    /// assert_eq!(store.rows()?, 4);
    /// # Ok::<(), hlcstore::Error>(())
    /// ```
    pub fn vacuum_to(&self, stamp: Stamp) -> Result<Vacuumed> {
        self.write().vacuum_to(stamp)
    }

    /// Does a part of [`vacuum_to`](Store::vacuum_to), so that a call does a bounded amount of work while other threads
    /// wait: of the first keys above `after`, or the first of all where that has no bytes, at most this many. The next
    /// part goes on after the key [`next`](VacuumPart::next). The first part makes the stamp the horizon. All
    /// calls are allowed between parts. Each leaves the fewest rows of its keys at the snapshots that are open then.
    ///
    /// Refusals, in this order: `AboveFloor`, `BelowHorizon`, `NoMemory`.
    ///
    /// ```
    /// use hlcstore::{Node, Stamp, Store};
    ///
    /// let store = Store::open(1)?;
    /// let mut node = Node::new(0, Stamp::ZERO);
    /// for reading in 1..=9 {
    ///     store.accept(node.write(reading, &[reading as u8 % 3], b"Lyon")?)?;
    /// }
    /// let mut after = Some(Vec::new());
    /// while let Some(key) = after {
    ///     after = store.vacuum_part(Stamp::new(9, 0), &key, 2)?.next;
    /// }
    /// assert_eq!(store.rows()?, 3);
    /// # Ok::<(), hlcstore::Error>(())
    /// ```
    pub fn vacuum_part(&self, stamp: Stamp, after: impl AsRef<[u8]>, limit: usize) -> Result<VacuumPart> {
        let after = after.as_ref();
        self.write().vacuum_part(stamp, after, limit)
    }

    /// Returns why [`vacuum_to`](Store::vacuum_to) would be refused, except `NoMemory`.
    pub fn check_vacuum(&self, stamp: Stamp) -> Result<()> {
        self.read().check_vacuum(stamp)
    }

    /// Returns the certificate of the rows at or below a stamp: that no row set which gives the same answers at each
    /// snapshot that is open at or below the stamp, and at the stamp, has fewer rows, or costs fewer bytes. It changes
    /// nothing, so it comes after a vacuum to this stamp, or after the last part of one.
    ///
    /// Refusals, in this order: `AboveFloor`, `BelowHorizon`, `NotFewest`; `NoMemory`, which may come in place of that.
    ///
    /// ```
    /// use hlcstore::{ErrorKind, Node, Stamp, Store, check_certificate};
    ///
    /// let store = Store::open(1)?;
    /// let mut node = Node::new(0, Stamp::ZERO);
    /// for reading in 1..=9 {
    ///     store.accept(node.write(reading, b"city", b"Lyon")?)?;
    /// }
    /// let stamp = Stamp::new(6, 0);
    /// assert_eq!(store.certificate(stamp).unwrap_err().kind(), ErrorKind::NotFewest);
    /// store.vacuum_to(stamp)?;
    /// let certified = store.certificate(stamp)?;
    /// assert_eq!((certified.kept, certified.bytes), (1, 18));
    /// assert_eq!(check_certificate(&certified.certificate)?.rows, 1);
    /// # Ok::<(), hlcstore::Error>(())
    /// ```
    pub fn certificate(&self, stamp: Stamp) -> Result<Certified> {
        self.read().certificate(stamp)?.read()
    }

    /// Returns the whole state of the store as bytes, with a tag of the caller's: for example the place in a log up to
    /// which the store applied it. `docs/formats.md` describes them.
    ///
    /// Refusal: `NoMemory`.
    ///
    /// ```
    /// use hlcstore::{Node, Stamp, Store};
    ///
    /// let store = Store::open(1)?;
    /// let mut node = Node::new(0, Stamp::ZERO);
    /// store.accept(node.write(5, b"city", b"Lyon")?)?;
    ///
    /// let (copy, tag) = Store::restore(&store.checkpoint(77)?)?;
    /// assert_eq!(tag, 77);
    /// copy.accept(node.write(6, b"city", b"Rome")?)?;
    /// # Ok::<(), hlcstore::Error>(())
    /// ```
    pub fn checkpoint(&self, tag: u64) -> Result<Vec<u8>> {
        self.read().checkpoint(tag)?.read()
    }

    /// Writes the bytes that [`checkpoint`](Store::checkpoint) returns, in pieces of 64 KiB. In memory are a piece, and
    /// the rows of up to 32 keys as bytes. Returns how many bytes they are. The writer is not flushed. It may use the
    /// store, but not change it.
    ///
    /// Errors: those of the writer, after which a part may be written, and refusals of the store: `NoMemory`, and
    /// `Changed` where the writer changed the store.
    ///
    /// ```
    /// use hlcstore::{Node, Stamp, Store};
    ///
    /// let store = Store::open(1)?;
    /// let mut node = Node::new(0, Stamp::ZERO);
    /// store.accept(node.write(5, b"city", b"Lyon")?)?;
    ///
    /// let mut saved = Vec::new(); // or a file
    /// store.checkpoint_to(&mut saved, 77)?;
    /// assert_eq!(saved, store.checkpoint(77)?);
    /// # Ok::<(), Box<dyn std::error::Error>>(())
    /// ```
    pub fn checkpoint_to<W: Write + ?Sized>(&self, out: &mut W, tag: u64) -> std::result::Result<u64, SaveError> {
        write_checkpoint(out, tag, || self.read())
    }

    /// Returns an increment as bytes: the whole state of the store, but of its rows only those above a stamp, with a
    /// tag of the caller's. As the stamp choose the floor that the store had at an older checkpoint: of both
    /// [`apply_increment`](crate::apply_increment) makes a newer one. Where the stamp is below the horizon, make a
    /// whole checkpoint.
    ///
    /// Refusals, in this order: `BelowHorizon`, `NoMemory`.
    pub fn increment(&self, since: Stamp, tag: u64) -> Result<Vec<u8>> {
        self.read().increment(since, tag)?.read()
    }

    /// Shares the store among threads.
    pub fn into_shared(self) -> SharedStore {
        SharedStore::new(self.handle.into_inner())
    }

    // No call of a caller's function takes place while the handle is borrowed, so these never fail.
    pub(crate) fn read(&self) -> Ref<'_, Handle> {
        self.handle.borrow()
    }

    pub(crate) fn write(&self) -> RefMut<'_, Handle> {
        self.handle.borrow_mut()
    }
}

impl fmt::Debug for Store {
    fn fmt(&self, f: &mut fmt::Formatter<'_>) -> fmt::Result {
        f.debug_struct("Store").finish_non_exhaustive()
    }
}
