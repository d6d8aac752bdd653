use crate::handle::Handle;
use crate::saving::{SaveError, write_checkpoint};
use crate::slots::{Reading, Slots, Writing};
use crate::{
    Applied, Certified, Item, Link, Node, OpenSnapshot, Result, Sizes, Snapshot, Stamp, Stopped, Store, VacuumPart,
    Vacuumed, Version,
};
use std::fmt;
use std::io::Write;
use std::ops::{Deref, DerefMut};
use std::sync::atomic::{AtomicUsize, Ordering};
use std::sync::{Arc, PoisonError, RwLock, RwLockReadGuard, RwLockWriteGuard};

/// A store that threads share. Its clones are the same store, which is closed with the last of them.
///
/// It has the calls of a [`Store`]. Those that only ask, as reads in snapshots, run beside each other; one that changes
/// the store, as an accepted item, a snapshot that opens or closes, or a vacuum, waits until it is alone. It waits for
/// the calls that are under way, and later ones wait for it, so that readers never starve a writer.
///
/// The 16 slots that readers enter, each thread its own, let reads of several threads run without a common lock. A
/// store takes 2 KiB for them.
///
/// No function of the caller runs while the store is locked: `as_ref` of a key runs before, and the writer of
/// [`checkpoint_to`](SharedStore::checkpoint_to) between pieces. So the first may use the store and the second read it,
/// and one that panics leaves it usable.
///
/// ```
/// use hlcstore::{Node, SharedStore, Stamp};
/// use std::thread;
///
/// let store = SharedStore::open(2)?;
/// let writers: Vec<_> = (0..2)
///     .map(|id| {
///         let store = store.clone();
///         thread::spawn(move || store.accept(Node::new(id, Stamp::ZERO).write(5, b"city", b"Lyon")?))
///     })
///     .collect();
/// for writer in writers {
///     writer.join().unwrap()?;
/// }
/// let snapshot = store.snapshot()?;
/// let reader = thread::spawn(move || snapshot.get(b"city"));
/// assert_eq!(reader.join().unwrap()?.as_deref(), Some(&b"Lyon"[..]));
/// # Ok::<(), hlcstore::Error>(())
/// ```
#[derive(Clone)]
pub struct SharedStore {
    locked: Arc<Locked>,
}

/// A handle and its locks.
///
/// A saving keeps the gate, but the handle only while it reads a piece, so that reads run beside its writer. A change
/// waits at the gate where there are savings, and not at the handle: there it would keep later reads waiting.
struct Locked {
    gate: RwLock<()>,
    /// How many savings there are. One begins while it can read the handle, so that no change is under way.
    savings: AtomicUsize,
    handle: Slots<Handle>,
}

/// The handle, for a change. It is released before the gate.
struct Changing<'a> {
    handle: Writing<'a, Handle>,
    _gate: Option<RwLockWriteGuard<'a, ()>>,
}

impl Deref for Changing<'_> {
    type Target = Handle;

    fn deref(&self) -> &Handle {
        &self.handle
    }
}

impl DerefMut for Changing<'_> {
    fn deref_mut(&mut self) -> &mut Handle {
        &mut self.handle
    }
}

/// A saving that is under way.
struct Saving<'a> {
    savings: &'a AtomicUsize,
    _gate: RwLockReadGuard<'a, ()>,
}

impl Drop for Saving<'_> {
    fn drop(&mut self) {
        self.savings.fetch_sub(1, Ordering::SeqCst);
    }
}

// A thread that panicked while it had a lock was in no call of the library, which does not panic. So the store is
// whole, and the poison of the gate says nothing.
impl Locked {
    fn read(&self) -> Reading<'_, Handle> {
        self.handle.read()
    }

    fn write(&self) -> Changing<'_> {
        self.write_unsaved().unwrap_or_else(|| {
            let gate = self.close_gate();
            Changing { handle: self.handle.write(), _gate: Some(gate) }
        })
    }

    /// The handle for a change; or none where there are savings.
    fn write_unsaved(&self) -> Option<Changing<'_>> {
        let handle = self.handle.write();
        (self.savings.load(Ordering::SeqCst) == 0).then_some(Changing { handle, _gate: None })
    }

    /// Waits until there are no savings, and lets none begin.
    fn close_gate(&self) -> RwLockWriteGuard<'_, ()> {
        self.gate.write().unwrap_or_else(PoisonError::into_inner)
    }

    fn save(&self) -> Saving<'_> {
        let gate = self.gate.read().unwrap_or_else(PoisonError::into_inner);
        let _handle = self.read();
        self.savings.fetch_add(1, Ordering::SeqCst);
        Saving { savings: &self.savings, _gate: gate }
    }
}

impl SharedStore {
    pub(crate) fn new(handle: Handle) -> SharedStore {
        let (gate, savings, handle) = (RwLock::new(()), AtomicUsize::new(0), Slots::new(handle));
        SharedStore { locked: Arc::new(Locked { gate, savings, handle }) }
    }

    /// Opens a store of this many nodes, as [`Store::open`] does.
    pub fn open(nodes: u16) -> Result<SharedStore> {
        Store::open(nodes).map(Store::into_shared)
    }

    /// Opens a store from the bytes of a checkpoint, as [`Store::restore`] does.
    pub fn restore(checkpoint: &[u8]) -> Result<(SharedStore, u64)> {
        let (store, tag) = Store::restore(checkpoint)?;
        Ok((store.into_shared(), tag))
    }

    /// Opens this closed store, for all clones, as [`Store::reopen`] does.
    pub fn reopen(&self, nodes: u16) -> Result<()> {
        self.write().open(nodes)
    }

    /// Opens this closed store from the bytes of a checkpoint, for all clones, as [`Store::reload`] does.
    pub fn reload(&self, checkpoint: &[u8]) -> Result<u64> {
        self.write().restore(checkpoint)
    }

    /// Closes the store for all clones, and frees what it contains.
    pub fn close(&self) {
        self.write().close();
    }

    /// Accepts an item, as [`Store::accept`] does.
    pub fn accept(&self, item: Item<'_>) -> Result<()> {
        self.write().accept(item)
    }

    /// Checks an item, as [`Store::check`] does.
    pub fn check(&self, item: Item<'_>) -> Result<()> {
        self.read().check(item)
    }

    /// Accepts items in turn, as [`Store::accept_all`] does. The store is locked once for all of them.
    pub fn accept_all(&self, items: &[Item<'_>]) -> std::result::Result<(), Stopped> {
        self.write().accept_all(items)
    }

    /// Accepts the items of a log, as [`Store::accept_items`] does. The store is locked once for all of them.
    pub fn accept_items(&self, log: &[u8]) -> std::result::Result<usize, Stopped> {
        self.write().accept_items(log)
    }

    /// Applies the records of a log, as [`Store::apply_records`] does. The store is locked once for all of them.
    pub fn apply_records(&self, log: &[u8]) -> std::result::Result<Applied, Stopped> {
        self.write().apply_records(log)
    }

    /// Lets a node join at the floor, as [`Store::join`] does.
    pub fn join(&self) -> Result<Node> {
        self.write().join()
    }

    /// Lets a node join at a stamp, as [`Store::join_at`] does.
    pub fn join_at(&self, start: Stamp) -> Result<Node> {
        self.write().join_at(start)
    }

    /// Opens a snapshot at the floor, as [`Store::snapshot`] does.
    pub fn snapshot(&self) -> Result<Snapshot<SharedStore>> {
        Snapshot::open(self.clone(), Handle::open_snapshot)
    }

    /// Opens a snapshot at a stamp, as [`Store::snapshot_at`] does.
    pub fn snapshot_at(&self, stamp: Stamp) -> Result<Snapshot<SharedStore>> {
        Snapshot::open(self.clone(), |handle| handle.open_snapshot_at(stamp))
    }

    /// Returns the open snapshot with this id, as [`Store::snapshot_by_id`] does.
    pub fn snapshot_by_id(&self, id: u64) -> Result<Snapshot<SharedStore>> {
        Snapshot::open(self.clone(), |handle| handle.snapshot_by_id(id))
    }

    /// Returns the open snapshots, as [`Store::snapshots`] does.
    pub fn snapshots(&self) -> Result<Vec<OpenSnapshot>> {
        self.read().snapshots()
    }

    /// Closes all open snapshots, as [`Store::close_all`] does.
    pub fn close_all(&self) -> Result<()> {
        self.write().close_all()
    }

    /// Returns the floor, as [`Store::floor`] does.
    pub fn floor(&self) -> Result<Stamp> {
        self.read().floor()
    }

    /// Returns the first node for which the floor waits, as [`Store::floor_node`] does.
    pub fn floor_node(&self) -> Result<Option<u16>> {
        self.read().floor_node()
    }

    /// Returns the horizon, as [`Store::horizon`] does.
    pub fn horizon(&self) -> Result<Stamp> {
        self.read().horizon()
    }

    /// Returns how many rows are stored.
    pub fn rows(&self) -> Result<u64> {
        self.read().rows()
    }

    /// Returns how many rows and keys are stored, and how many bytes they have, as [`Store::sizes`] does.
    pub fn sizes(&self) -> Result<Sizes> {
        self.read().sizes()
    }

    /// Returns how many node numbers are assigned, as [`Store::nodes`] does.
    pub fn nodes(&self) -> Result<u64> {
        self.read().nodes()
    }

    /// Returns what was accepted from a node, as [`Store::link`] does.
    pub fn link(&self, node: u16) -> Result<Link> {
        self.read().link(node)
    }

    /// Returns the stored rows of a key between two stamps, as [`Store::versions`] does.
    pub fn versions(&self, key: impl AsRef<[u8]>, above: Stamp, to: Stamp) -> Result<Vec<Version>> {
        let key = key.as_ref();
        self.read().versions(key, above, to)
    }

    /// Vacuums to the floor, as [`Store::vacuum`] does.
    pub fn vacuum(&self) -> Result<Vacuumed> {
        self.write().vacuum()
    }

    /// Vacuums to a stamp, as [`Store::vacuum_to`] does.
    pub fn vacuum_to(&self, stamp: Stamp) -> Result<Vacuumed> {
        self.write().vacuum_to(stamp)
    }

    /// Does a part of a vacuum to a stamp, as [`Store::vacuum_part`] does.
    pub fn vacuum_part(&self, stamp: Stamp, after: impl AsRef<[u8]>, limit: usize) -> Result<VacuumPart> {
        let after = after.as_ref();
        self.write().vacuum_part(stamp, after, limit)
    }

    /// Returns why a vacuum to a stamp would be refused, as [`Store::check_vacuum`] does.
    pub fn check_vacuum(&self, stamp: Stamp) -> Result<()> {
        self.read().check_vacuum(stamp)
    }

    /// Returns the certificate of the rows at or below a stamp, as [`Store::certificate`] does. Reads run beside it. It
    /// is refused where another thread changed the store since the vacuum, so that a vacuum would drop a row.
    pub fn certificate(&self, stamp: Stamp) -> Result<Certified> {
        let made = self.read().certificate(stamp)?;
        made.read()
    }

    /// Returns the whole state of the store as bytes, as [`Store::checkpoint`] does. Reads run beside it.
    pub fn checkpoint(&self, tag: u64) -> Result<Vec<u8>> {
        let saved = self.read().checkpoint(tag)?;
        saved.read()
    }

    /// Writes the bytes of a checkpoint in pieces, as [`Store::checkpoint_to`] does. Reads run beside it, and calls
    /// that change the store wait until all is written; to open or close a snapshot is a change too. So the writer may
    /// read the store, but must not change or save it, nor wait for a thread that does: it would wait for itself.
    pub fn checkpoint_to<W: Write + ?Sized>(&self, out: &mut W, tag: u64) -> std::result::Result<u64, SaveError> {
        let _saving = self.locked.save();
        write_checkpoint(out, tag, || self.read())
    }

    /// Returns an increment of the store since a stamp as bytes, as [`Store::increment`] does. Reads run beside it.
    pub fn increment(&self, since: Stamp, tag: u64) -> Result<Vec<u8>> {
        let saved = self.read().increment(since, tag)?;
        saved.read()
    }

    pub(crate) fn read(&self) -> impl Deref<Target = Handle> {
        self.locked.read()
    }

    pub(crate) fn write(&self) -> impl DerefMut<Target = Handle> {
        self.locked.write()
    }

    /// Locks stores for a change of all, in their order. Where one is being saved, no lock is held until its saving
    /// ends, since the writer of that may read the others.
    pub(crate) fn lock_all(stores: &[SharedStore]) -> Vec<impl DerefMut<Target = Handle>> {
        loop {
            let mut handles = Vec::with_capacity(stores.len());
            handles.extend(stores.iter().map_while(|store| store.locked.write_unsaved()));
            let Some(saved) = stores.get(handles.len()) else { return handles };
            drop(handles);
            drop(saved.locked.close_gate());
        }
    }

    /// Whether another is a clone of this one.
    pub(crate) fn is_same(&self, other: &SharedStore) -> bool {
        Arc::ptr_eq(&self.locked, &other.locked)
    }
}

impl From<Store> for SharedStore {
    fn from(store: Store) -> SharedStore {
        store.into_shared()
    }
}

impl fmt::Debug for SharedStore {
    fn fmt(&self, f: &mut fmt::Formatter<'_>) -> fmt::Result {
        f.debug_struct("SharedStore").finish_non_exhaustive()
    }
}
