use crate::{Batch, Division, Error, Item, Link, Node, RangesError, Result, Stamp};

/// A machine that feeds the stores of a [`Division`]: one clock, and a node in each store, with numbers of its own. All
/// its nodes have the machine's number. It is a plain value, apart from any store. Of two copies only one may go on.
///
/// The stamps of its items, in whatever stores, and of its messages rise together. So a stamp at or below the floor of
/// each store is a consistent cut: what is at or below it was accepted, with all that happened before it. That holds
/// as long as each message between machines, and each observation of a snapshot, is an event here too.
///
/// A reading is the value of a physical clock, as of a [`Node`].
///
/// ```
/// use hlcstore::{Division, Machine, Stamp};
///
/// let mut machine = Machine::new(&Division::by_keys(&["m"])?, 0);
/// let (store, pear) = machine.write(5, "pear", "green")?;
/// assert_eq!((store, pear.number, pear.stamp), (1, 0, Stamp::new(5, 0)));
/// let (store, apple) = machine.write(5, "apple", "red")?;
/// assert_eq!((store, apple.number, apple.stamp), (0, 0, Stamp::new(5, 1)));
/// assert_eq!(machine.send(5)?, Stamp::new(5, 2));
/// # Ok::<(), hlcstore::RangesError>(())
/// ```
#[derive(Clone, Debug, PartialEq, Eq)]
pub struct Machine {
    division: Division,
    /// Its last stamp is that of the machine's last event. It issues no items.
    clock: Node,
    nodes: Vec<Node>,
}

impl Machine {
    /// Returns the machine of this number, from 0 on, which is there when the stores are opened.
    pub fn new(division: &Division, id: u16) -> Machine {
        let node = Node::new(id, Stamp::ZERO);
        Machine::of_nodes(division, vec![node; division.stores()], Stamp::ZERO)
    }

    /// Returns a machine as it was before a restart, from the stamp of the last event that it knows of, and from what
    /// each store accepted from it. Its clock goes on above all these stamps. Where items were issued and got lost on
    /// the way, the next ones have their numbers; so that they have greater stamps, and what others received before
    /// the restart is below them, the stamp must not be below that of any event: save it, or choose the physical clock.
    ///
    /// Refusals: `BadDivision`, if there are not as many links as stores; of a store `NoSuchNode`, if a node cannot
    /// have issued that many items.
    ///
    /// ```
    /// use hlcstore::{Division, Link, Machine, Stamp};
    ///
    /// let division = Division::by_hash(2)?;
    /// let link = |next_number, head| Link { next_number, head: Stamp::new(head, 0), is_retired: false };
    /// let mut machine = Machine::restore(&division, 0, Stamp::new(6, 0), &[link(3, 9), link(1, 4)])?;
    /// assert_eq!(machine.last(), Stamp::new(9, 0));
    /// assert_eq!(machine.next_numbers().collect::<Vec<_>>(), [3, 1]);
    /// # Ok::<(), hlcstore::RangesError>(())
    /// ```
    pub fn restore(
        division: &Division,
        id: u16,
        last: Stamp,
        links: &[Link],
    ) -> std::result::Result<Machine, RangesError> {
        if links.len() != division.stores() {
            return Err(RangesError::BadDivision);
        }
        let restored = |(store, link): (usize, &Link)| {
            Node::of_link(id, *link).map_err(|error| RangesError::Store { store, error })
        };
        let nodes = links.iter().enumerate().map(restored).collect::<std::result::Result<Vec<_>, _>>()?;
        Ok(Machine::of_nodes(division, nodes, last))
    }

    /// The machine of some nodes, one for each store, whose clock goes on above their stamps and another one.
    pub(crate) fn of_nodes(division: &Division, nodes: Vec<Node>, last: Stamp) -> Machine {
        let last = nodes.iter().map(Node::last).fold(last, Stamp::max);
        let id = nodes.first().map_or(0, Node::id);
        Machine { division: division.clone(), clock: Node::new(id, last), nodes }
    }

    /// Returns the machine's number, which is that of its nodes.
    pub fn id(&self) -> u16 {
        self.clock.id()
    }

    /// Returns the stamp of the machine's last event.
    pub fn last(&self) -> Stamp {
        self.clock.last()
    }

    /// Returns how the keys are divided.
    pub fn division(&self) -> &Division {
        &self.division
    }

    /// Returns the numbers of its next items, store by store.
    pub fn next_numbers(&self) -> impl Iterator<Item = u64> {
        self.nodes.iter().map(Node::next_number)
    }

    /// Returns whether it retired from all stores.
    pub fn is_retired(&self) -> bool {
        self.nodes.iter().all(Node::is_retired)
    }

    /// Issues a write at this reading. Returns it, with the number of its store.
    ///
    /// Refusals: those of [`Node::write`].
    pub fn write<'a, K, V>(&mut self, reading: u64, key: &'a K, value: &'a V) -> Result<(usize, Item<'a>)>
    where
        K: AsRef<[u8]> + ?Sized,
        V: AsRef<[u8]> + ?Sized,
    {
        let (key, value) = (key.as_ref(), value.as_ref());
        let store = self.division.store_of(key);
        Ok((store, self.issue(store, |node| node.write(reading, key, value))?))
    }

    /// Issues a deletion at this reading. Returns it, with the number of its store.
    ///
    /// Refusals: those of [`Node::delete`].
    pub fn delete<'a, K: AsRef<[u8]> + ?Sized>(&mut self, reading: u64, key: &'a K) -> Result<(usize, Item<'a>)> {
        let key = key.as_ref();
        let store = self.division.store_of(key);
        Ok((store, self.issue(store, |node| node.delete(reading, key))?))
    }

    /// Issues one item of the writes of a batch at this reading, whose keys are all of one store. Returns it, with the
    /// number of its store.
    ///
    /// Refusals: `WrongStore`, with the store of the first key that is not of the store of the first one; those of
    /// [`Node::write_batch`].
    ///
    /// ```
    /// use hlcstore::{Batch, Division, Machine, RangesError, Stamp};
    ///
    /// let mut machine = Machine::new(&Division::by_keys(&["m"])?, 0);
    /// let mut batch = Batch::new();
    /// batch.write("pear", "green")?;
    /// batch.write("plum", "blue")?;
    /// assert_eq!(machine.write_batch(5, &batch)?.0, 1);
    /// batch.delete("apple")?;
    /// assert_eq!(machine.write_batch(6, &batch), Err(RangesError::WrongStore(0)));
    /// assert_eq!(machine.last(), Stamp::new(5, 0));
    /// # Ok::<(), RangesError>(())
    /// ```
    pub fn write_batch<'a>(
        &mut self,
        reading: u64,
        batch: &'a Batch,
    ) -> std::result::Result<(usize, Item<'a>), RangesError> {
        let store = self.division.store_of_all(batch.as_writes())?;
        Ok((store, self.issue(store, |node| node.write_batch(reading, batch))?))
    }

    /// Issues a report for each store at this reading, which lets their floors rise. Returns them, each with the number
    /// of its store. Stores from which the machine retired are passed over.
    ///
    /// Refusals: those of [`Node::report`]; `NoMemory`. No report is issued then.
    pub fn report_all(&mut self, reading: u64) -> Result<Vec<(usize, Item<'static>)>> {
        self.issue_all(|node| node.report(reading))
    }

    /// Issues the machine's last item for each store at this reading. Returns them, each with the number of its store.
    /// After they are accepted, no floor waits for the machine. Stores from which it retired before are passed over.
    ///
    /// Refusals: those of [`report_all`](Machine::report_all).
    pub fn retire_all(&mut self, reading: u64) -> Result<Vec<(usize, Item<'static>)>> {
        self.issue_all(|node| node.retire(reading))
    }

    /// Sends a message to another machine at this reading. Returns its stamp, which goes to the receiver.
    ///
    /// Refusals: those of [`Node::send`], except `Retired`.
    pub fn send(&mut self, reading: u64) -> Result<Stamp> {
        self.clock.send(reading)
    }

    /// Receives a message with this stamp, at this reading. Returns the stamp of the event, which is above that stamp
    /// and above the machine's last one.
    ///
    /// Refusals: those of [`send`](Machine::send).
    pub fn receive(&mut self, seen: Stamp, reading: u64) -> Result<Stamp> {
        self.clock.receive(seen, reading)
    }

    /// Observes a snapshot with this stamp at this reading, after a read in it: later items are above what was read.
    /// Returns the stamp of the event.
    ///
    /// Refusals: those of [`send`](Machine::send).
    pub fn observe(&mut self, seen: Stamp, reading: u64) -> Result<Stamp> {
        self.receive(seen, reading)
    }

    /// Lets the node of a store issue an item, above the machine's last stamp.
    pub(crate) fn issue<'a>(
        &mut self,
        store: usize,
        issue: impl FnOnce(&mut Node) -> Result<Item<'a>>,
    ) -> Result<Item<'a>> {
        let node = &mut self.nodes[store];
        node.raise_to(self.clock.last());
        let item = issue(node)?;
        self.clock.raise_to(item.stamp);
        Ok(item)
    }

    /// Lets the node of each store issue an item, or none.
    fn issue_all(&mut self, issue: impl Fn(&mut Node) -> Result<Item<'static>>) -> Result<Vec<(usize, Item<'static>)>> {
        let (mut before, mut items) = (Vec::new(), Vec::new());
        before.try_reserve_exact(self.nodes.len()).map_err(|_| Error::NO_MEMORY)?;
        items.try_reserve_exact(self.nodes.len()).map_err(|_| Error::NO_MEMORY)?;
        before.extend_from_slice(&self.nodes);
        let is_over = self.is_retired();
        for store in 0..before.len() {
            if before[store].is_retired() && !is_over {
                continue;
            }
            match self.issue(store, &issue) {
                Ok(item) => items.push((store, item)),
                Err(error) => {
                    self.nodes = before;
                    return Err(error);
                }
            }
        }
        Ok(items)
    }

    /// The node of a store, to which [`put_back`](Machine::put_back) goes back.
    pub(crate) fn node(&self, store: usize) -> Node {
        self.nodes[store].clone()
    }

    /// Takes back the last item for a store, which nothing accepted: its number is given again, and its stamp is not.
    pub(crate) fn put_back(&mut self, store: usize, before: Node) {
        self.nodes[store] = before;
    }
}
