use crate::handle::Handle;
use crate::{
    Batch, Content, Division, Error, ErrorKind, Item, Link, Machine, Node, RangesError, RangesSnapshot,
    Result as StoreResult, SharedStore, Stamp, Vacuumed,
};
use std::ops::DerefMut;
use std::sync::Arc;

/// How often a snapshot is opened, and a checkpoint made, where vacuums overtake it.
const TRIES: usize = 8;
/// How many keys a part of a vacuum has at most.
const PART: usize = 256;

type Result<T> = std::result::Result<T, RangesError>;

/// One key space over several stores, which threads share. Each store has the keys that a [`Division`] gives it, under
/// a lock of its own. Its clones are the same stores, which are closed with the last of them.
///
/// [`Machine`]s feed it: each has a node in every store. The [`cut`](Ranges::cut) is the least floor of all stores. At
/// or below it nothing is missing: what was issued there, for whatever store, was accepted, and what happened before
/// it too. A snapshot opens at one stamp in all stores, so a read of a key gives the newest write at or below it.
///
/// No call keeps one store locked while it waits for another, but [`join`](Ranges::join).
///
/// ```
/// use hlcstore::{Division, Ranges, Stamp};
///
/// let ranges = Ranges::open(&Division::by_keys(&["m"])?, 1)?;
/// let mut machine = ranges.machine(0, Stamp::ZERO)?;
/// ranges.write(&mut machine, 5, "apple", "red")?;
/// ranges.write(&mut machine, 6, "pear", "green")?;
/// ranges.report_all(&mut machine, 7)?;
/// assert_eq!(ranges.cut()?, Stamp::new(7, 0));
///
/// let snapshot = ranges.snapshot()?;
/// ranges.delete(&mut machine, 8, "apple")?;
/// for pair in &snapshot {
///     let (key, value) = pair?;
///     println!("{}={}", key.escape_ascii(), value.escape_ascii()); // apple=red, pear=green
/// }
/// # Ok::<(), hlcstore::RangesError>(())
/// ```
#[derive(Clone, Debug)]
pub struct Ranges {
    division: Division,
    stores: Arc<[SharedStore]>,
}

impl Ranges {
    /// Opens the stores of a division, each with this many nodes, 1 to 64: node n of each store is that of machine n.
    ///
    /// Refusals, of a store: `BadNodeCount`, `NoMemory`.
    pub fn open(division: &Division, machines: u16) -> Result<Ranges> {
        let open = |store| SharedStore::open(machines).map_err(RangesError::of_store(store));
        let stores = (0..division.stores()).map(open).collect::<Result<_>>()?;
        Ok(Ranges { division: division.clone(), stores })
    }

    /// Opens the stores from the bytes of a [`checkpoint`](Ranges::checkpoint), store by store, with the division under
    /// which they were saved. They have no open snapshot, since the readers of the saved ones are gone;
    /// [`machine`](Ranges::machine) returns the machines. It lists all keys at the floors, to check the division.
    ///
    /// Refusals: `BadDivision`, if there are not as many checkpoints as stores; of a store those of
    /// [`Store::restore`](crate::Store::restore); `NotOneCut`, if they are not of one checkpoint; `WrongStore`, if one
    /// has a value at its floor of another store's key.
    pub fn restore<B: AsRef<[u8]>>(division: &Division, checkpoints: &[B]) -> Result<Ranges> {
        if checkpoints.len() != division.stores() {
            return Err(RangesError::BadDivision);
        }
        let (mut stores, mut cuts) = (Vec::new(), Vec::new());
        for (number, checkpoint) in checkpoints.iter().enumerate() {
            let (store, cut) = SharedStore::restore(checkpoint.as_ref()).map_err(RangesError::of_store(number))?;
            store.close_all().map_err(RangesError::of_store(number))?;
            stores.push(store);
            cuts.push(cut);
        }
        let ranges = Ranges { division: division.clone(), stores: stores.into() };
        if cuts.iter().any(|cut| *cut != cuts[0]) {
            return Err(RangesError::NotOneCut);
        }
        ranges.check_keys().map(|()| ranges)
    }

    /// Returns how the keys are divided.
    pub fn division(&self) -> &Division {
        &self.division
    }

    /// Returns the stores, in the order of their numbers. A node that joins one of them, or a vacuum of one to a stamp
    /// above the cut, is not one of all.
    pub fn stores(&self) -> &[SharedStore] {
        &self.stores
    }

    /// Returns the number of the store to which a key belongs.
    pub fn store_of(&self, key: impl AsRef<[u8]>) -> usize {
        self.division.store_of(key)
    }

    /// Returns the floor of a store.
    ///
    /// Refusal: `NoStore`.
    pub fn floor(&self, store: usize) -> Result<Stamp> {
        self.store(store)?.floor().map_err(RangesError::of_store(store))
    }

    /// Returns how many node numbers are assigned in every store, those of retired machines too.
    pub fn nodes(&self) -> Result<u64> {
        self.least(SharedStore::nodes)
    }

    /// Returns how many rows are stored in all stores.
    pub fn rows(&self) -> Result<u64> {
        self.each(SharedStore::rows).sum()
    }

    /// Returns the cut: the least floor of all stores. Each is read under its own lock, one after another, since a cut
    /// stays one whatever is accepted later.
    pub fn cut(&self) -> Result<Stamp> {
        self.least(SharedStore::floor)
    }

    /// Accepts an item in the store with this number, if its keys belong there and it is the next one of its node. A
    /// report or a retirement belongs to the store for which it was issued, which is not checked.
    ///
    /// Refusals, in this order: `NoStore`; `WrongStore`; of the store those of
    /// [`Store::accept`](crate::Store::accept).
    pub fn accept(&self, store: usize, item: Item<'_>) -> Result<()> {
        let accepting = self.store(store)?;
        self.check_owner(store, item.content)?;
        accepting.accept(item).map_err(RangesError::of_store(store))
    }

    /// Lets a machine issue a write, and accepts it. Returns its stamp.
    ///
    /// Refusals: those of [`Machine::write`] and of [`accept`](Ranges::accept). Where the store refuses, the machine
    /// issues an item with the same number next.
    pub fn write<K, V>(&self, machine: &mut Machine, reading: u64, key: &K, value: &V) -> Result<Stamp>
    where
        K: AsRef<[u8]> + ?Sized,
        V: AsRef<[u8]> + ?Sized,
    {
        let (key, value) = (key.as_ref(), value.as_ref());
        self.issue(machine, machine.division().store_of(key), |node| node.write(reading, key, value))
    }

    /// Lets a machine issue a deletion, and accepts it, as [`write`](Ranges::write) does. Returns its stamp.
    pub fn delete<K: AsRef<[u8]> + ?Sized>(&self, machine: &mut Machine, reading: u64, key: &K) -> Result<Stamp> {
        let key = key.as_ref();
        self.issue(machine, machine.division().store_of(key), |node| node.delete(reading, key))
    }

    /// Lets a machine issue the writes of a batch, whose keys are all of one store, and accepts them, as
    /// [`write`](Ranges::write) does: a snapshot shows all of them or none. Returns their stamp.
    ///
    /// Refusals: those of [`Machine::write_batch`] and of [`accept`](Ranges::accept).
    ///
    /// ```
    /// use hlcstore::{Batch, Division, Ranges, Stamp};
    ///
    /// let ranges = Ranges::open(&Division::by_keys(&["m"])?, 1)?;
    /// let mut machine = ranges.machine(0, Stamp::ZERO)?;
    /// let mut batch = Batch::new();
    /// batch.write("pear", "green")?;
    /// batch.delete("plum")?;
    /// assert_eq!(ranges.write_batch(&mut machine, 5, &batch)?, Stamp::new(5, 0));
    /// # Ok::<(), hlcstore::RangesError>(())
    /// ```
    pub fn write_batch(&self, machine: &mut Machine, reading: u64, batch: &Batch) -> Result<Stamp> {
        let store = machine.division().store_of_all(batch.as_writes())?;
        self.issue(machine, store, |node| node.write_batch(reading, batch))
    }

    /// Lets a machine report to every store from which it did not retire.
    ///
    /// Refusals: those of [`Machine::report_all`] and of [`accept`](Ranges::accept). The stores before the one that
    /// refuses have their reports then.
    pub fn report_all(&self, machine: &mut Machine, reading: u64) -> Result<()> {
        self.issue_all(machine, |node| node.report(reading))
    }

    /// Lets a machine retire from every store, as [`report_all`](Ranges::report_all) does. A second call goes on where
    /// one was refused.
    pub fn retire_all(&self, machine: &mut Machine, reading: u64) -> Result<()> {
        self.issue_all(machine, |node| node.retire(reading))
    }

    /// Returns the machine with this number as the stores know it: at the start, or after a restart. The stamp is that
    /// of its last event, if it is known, as for [`Machine::restore`]. Only one such machine may go on.
    ///
    /// Refusals, of a store: `NoNode`, `NoSuchNode`.
    pub fn machine(&self, id: u16, last: Stamp) -> Result<Machine> {
        let links = self.each(|store| store.link(id)).collect::<Result<Vec<Link>>>()?;
        Machine::restore(&self.division, id, last, &links)
    }

    /// Lets a new machine join: its node joins every store, with the same number everywhere, at one stamp, the greatest
    /// floor. Returns the machine. All stores are locked together, so all are checked before the first is changed.
    ///
    /// Refusals: `NodesDiffer`; of a store `TooManyNodes`, `NoMemory`. Nothing is changed then, but where a later store
    /// has no memory: the stores before it have the node already, which lets their floors wait, and the next call gives
    /// it to the others and returns its machine.
    pub fn join(&self) -> Result<Machine> {
        let mut locked = SharedStore::lock_all(&self.stores);
        let views = locked.iter().enumerate();
        let views = views.map(|(store, handle)| Joining::of(handle).map_err(RangesError::of_store(store)));
        let views = views.collect::<Result<Vec<_>>>()?;
        let id = views.iter().map(|view| view.nodes).min().unwrap_or_default();
        if views.iter().any(|view| view.nodes != id && !view.has_new_node(id)) {
            return Err(RangesError::NodesDiffer);
        }
        let start = views.iter().map(|view| view.start).fold(Stamp::ZERO, Stamp::max);
        let mut nodes = Vec::new();
        for (store, (handle, view)) in locked.iter_mut().zip(&views).enumerate() {
            nodes.push(match view.newest {
                Some(link) if view.nodes != id => Node::new(id as u16, link.head),
                _ => handle.join_at(start).map_err(RangesError::of_store(store))?,
            });
        }
        Ok(Machine::of_nodes(&self.division, nodes, start))
    }

    /// Opens a snapshot at the cut. Where a vacuum of another thread goes to a newer cut meanwhile, it is opened there.
    ///
    /// Refusals, of a store: `TooManySnapshots`, `NumbersSpent`, `NoMemory`; `BelowHorizon`, if vacuums overtook it
    /// eight times, or the store was vacuumed above the cut. No store has the snapshot then.
    pub fn snapshot(&self) -> Result<RangesSnapshot> {
        let mut tries = 1..TRIES;
        loop {
            let opened = RangesSnapshot::open(self, self.cut()?);
            if !opened.as_ref().is_err_and(is_below_horizon) || tries.next().is_none() {
                return opened;
            }
        }
    }

    /// Opens a snapshot at a stamp, from the horizon to the cut.
    ///
    /// Refusals: `AboveCut`; of a store `BelowHorizon`, `TooManySnapshots`, `NumbersSpent`, `NoMemory`. No store has
    /// the snapshot then.
    pub fn snapshot_at(&self, stamp: Stamp) -> Result<RangesSnapshot> {
        let cut = self.cut()?;
        if stamp > cut { Err(RangesError::AboveCut(cut)) } else { RangesSnapshot::open(self, stamp) }
    }

    /// Vacuums every store to one stamp: this one, or the cut if that is lower. Returns the sums of what was kept and
    /// dropped. It goes by parts of at most 256 keys, so that no reader of a store waits longer than for one.
    ///
    /// Refusals, of a store: `BelowHorizon`, `NoMemory`. The stores before it, and the parts before, are vacuumed then.
    pub fn vacuum_to(&self, stamp: Stamp) -> Result<Vacuumed> {
        let stamp = stamp.min(self.cut()?);
        let mut all = Vacuumed { stamp, kept: 0, bytes: 0, dropped: 0 };
        for vacuumed in self.each(|store| vacuum_in_parts(store, stamp)) {
            let vacuumed = vacuumed?;
            all.kept += vacuumed.kept;
            all.bytes = all.bytes.saturating_add(vacuumed.bytes);
            all.dropped += vacuumed.dropped;
        }
        Ok(all)
    }

    /// Returns a checkpoint of each store, one after another, all at one cut, which is the tag of each: they have all
    /// that was issued at or below it, and the restored stores have this cut, or a greater one, and answer there.
    /// Writers go on between, so a later store may have later items. Where a machine joins meanwhile, or a vacuum goes
    /// above the cut, all are made anew.
    ///
    /// Refusals, of a store: `NoMemory`; `BelowHorizon`, if vacuums overtook it eight times, or the store was vacuumed
    /// above the cut.
    pub fn checkpoint(&self) -> Result<Vec<Vec<u8>>> {
        self.checkpoint_by(SharedStore::checkpoint)
    }

    /// Makes the checkpoints by a call for each store, with the tag.
    fn checkpoint_by(&self, save: impl Fn(&SharedStore, u64) -> StoreResult<Vec<u8>>) -> Result<Vec<Vec<u8>>> {
        let mut tries = 1..TRIES;
        loop {
            let nodes = self.nodes_of_each()?;
            let cut = self.cut()?;
            let saved = self.each(|store| save(store, cut.to_bits())).collect::<Result<_>>()?;
            if self.nodes_of_each()? != nodes {
                continue;
            }
            // Refused where a horizon is above the cut.
            let readable = self.each(|store| store.check_vacuum(cut)).collect::<Result<()>>();
            if !readable.as_ref().is_err_and(is_below_horizon) || tries.next().is_none() {
                return readable.map(|()| saved);
            }
        }
    }

    fn nodes_of_each(&self) -> Result<Vec<u64>> {
        self.each(SharedStore::nodes).collect()
    }

    /// Checks that no store has a value at its floor of another store's key.
    fn check_keys(&self) -> Result<()> {
        for (number, store) in self.stores.iter().enumerate() {
            let snapshot = store.snapshot().map_err(RangesError::of_store(number))?;
            for key in snapshot.keys(..) {
                let owner = self.store_of(key.map_err(RangesError::of_store(number))?);
                if owner != number {
                    return Err(RangesError::WrongStore(owner));
                }
            }
        }
        Ok(())
    }

    /// Checks that the keys of an item belong to a store.
    fn check_owner(&self, store: usize, content: Content<'_>) -> Result<()> {
        let is_other = |key: &[u8]| Some(self.store_of(key)).filter(|owner| *owner != store);
        let other = match content {
            Content::Write { key, .. } | Content::Delete { key } => is_other(key),
            Content::Batch(writes) => writes.iter().find_map(|(key, _)| is_other(key)),
            Content::Report | Content::Retire => None,
        };
        other.map_or(Ok(()), |owner| Err(RangesError::WrongStore(owner)))
    }

    fn store(&self, store: usize) -> Result<&SharedStore> {
        self.stores.get(store).ok_or(RangesError::NoStore(store))
    }

    /// Makes a call in each store.
    fn each<T>(&self, call: impl Fn(&SharedStore) -> StoreResult<T>) -> impl Iterator<Item = Result<T>> {
        self.stores.iter().enumerate().map(move |(number, store)| call(store).map_err(RangesError::of_store(number)))
    }

    /// The least answer of all stores.
    fn least<T: Ord>(&self, call: impl Fn(&SharedStore) -> StoreResult<T>) -> Result<T> {
        let answers = self.each(call).collect::<Result<Vec<_>>>()?;
        Ok(answers.into_iter().min().expect("a division has a store"))
    }

    /// Lets a machine issue an item for a store, and accepts it.
    fn issue<'a>(
        &self,
        machine: &mut Machine,
        store: usize,
        issue: impl FnOnce(&mut Node) -> StoreResult<Item<'a>>,
    ) -> Result<Stamp> {
        let before = machine.node(store);
        let item = machine.issue(store, issue)?;
        match self.accept(store, item) {
            Ok(()) => Ok(item.stamp),
            Err(error) => {
                machine.put_back(store, before);
                Err(error)
            }
        }
    }

    fn issue_all(&self, machine: &mut Machine, issue: impl Fn(&mut Node) -> StoreResult<Item<'static>>) -> Result<()> {
        let is_over = machine.is_retired();
        for store in 0..machine.division().stores() {
            if is_over || !machine.node(store).is_retired() {
                self.issue(machine, store, &issue)?;
            }
        }
        Ok(())
    }
}

/// What a store has before a node joins.
struct Joining {
    nodes: u64,
    /// The least start of its next node.
    start: Stamp,
    /// Its newest node.
    newest: Option<Link>,
}

impl Joining {
    fn of(handle: &impl DerefMut<Target = Handle>) -> StoreResult<Joining> {
        let nodes = handle.nodes()?;
        // A node's number is below 1,024.
        let newest = nodes.checked_sub(1).map(|newest| handle.link(newest as u16)).transpose()?;
        Ok(Joining { nodes, start: handle.floor()?, newest })
    }

    /// Whether the node with this number joined last, and nothing was accepted from it.
    fn has_new_node(&self, id: u64) -> bool {
        self.nodes == id + 1 && self.newest.is_some_and(|link| link.next_number == 0 && !link.is_retired)
    }
}

/// Whether a vacuum overtook what was refused.
fn is_below_horizon(error: &RangesError) -> bool {
    error.refusal().map(Error::kind) == Some(ErrorKind::BelowHorizon)
}

/// Vacuums a store to a stamp by parts.
fn vacuum_in_parts(store: &SharedStore, stamp: Stamp) -> StoreResult<Vacuumed> {
    let mut all = Vacuumed { stamp, kept: 0, bytes: 0, dropped: 0 };
    let mut after = Some(Vec::new());
    while let Some(key) = after {
        let part = store.vacuum_part(stamp, &key, PART)?;
        all.kept += part.vacuumed.kept;
        all.bytes = all.bytes.saturating_add(part.vacuumed.bytes);
        all.dropped += part.vacuumed.dropped;
        after = part.next;
    }
    Ok(all)
}

#[cfg(test)]
mod tests {
    use super::{Ranges, TRIES};
    use crate::ErrorKind::BelowHorizon;
    use crate::{Division, Machine, RangesError, SharedStore, Stamp};
    use std::cell::Cell;

    /// Two stores, and a machine that wrote at reading 5, and reported at 10.
    fn written() -> (Ranges, Machine) {
        let ranges = Ranges::open(&Division::by_keys(&["m"]).unwrap(), 1).unwrap();
        let mut machine = ranges.machine(0, Stamp::ZERO).unwrap();
        ranges.write(&mut machine, 5, "apple", "red").unwrap();
        ranges.write(&mut machine, 5, "pear", "green").unwrap();
        ranges.report_all(&mut machine, 10).unwrap();
        (ranges, machine)
    }

    /// Makes a checkpoint, while others do something before each store is saved, and get to know how many are. Returns
    /// how many were, and the checkpoint.
    fn saved_beside(ranges: &Ranges, others: impl Fn(usize)) -> (usize, Result<Vec<Vec<u8>>, RangesError>) {
        let saved = Cell::new(0);
        let checkpoint = ranges.checkpoint_by(|store, tag| {
            others(saved.replace(saved.get() + 1));
            SharedStore::checkpoint(store, tag)
        });
        (saved.get(), checkpoint)
    }

    #[test]
    fn checkpoint_beside_a_join_is_made_anew() {
        let (ranges, _) = written();
        let (many, saved) = saved_beside(&ranges, |many| {
            if many == 1 {
                ranges.join().unwrap();
            }
        });
        let copy = Ranges::restore(ranges.division(), &saved.unwrap()).unwrap();
        assert_eq!((many, copy.stores()[0].nodes(), copy.stores()[1].nodes()), (4, Ok(2), Ok(2)));
    }

    #[test]
    fn checkpoint_beside_a_vacuum_is_made_anew() {
        let (ranges, machine) = written();
        let (many, saved) = saved_beside(&ranges, |many| {
            if many == 1 {
                ranges.report_all(&mut machine.clone(), 20).unwrap();
                ranges.vacuum_to(Stamp::MAX).unwrap();
            }
        });
        let copy = Ranges::restore(ranges.division(), &saved.unwrap()).unwrap();
        let snapshot = copy.snapshot().unwrap();
        assert_eq!((many, snapshot.stamp(), snapshot.count(..)), (4, Stamp::new(20, 0), Ok(2)));
    }

    #[test]
    fn checkpoint_without_a_readable_cut_is_refused() {
        let (ranges, mut machine) = written();
        ranges.stores()[1].vacuum().unwrap(); // to its floor, which is above the cut
        let (many, refused) = saved_beside(&ranges, |_| ());
        assert!(matches!(refused, Err(RangesError::Store { store: 1, error }) if error.kind() == BelowHorizon));
        assert_eq!(many, 2 * TRIES);
        ranges.report_all(&mut machine, 20).unwrap();
        assert!(ranges.checkpoint().is_ok());
    }
}
