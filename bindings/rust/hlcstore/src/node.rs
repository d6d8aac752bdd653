use crate::error::answer;
use crate::{Batch, Content, Item, Link, Result, Stamp};
use hlcstore_sys as sys;

/// A node: its clock, and the numbers of its items. It is a plain value, apart from any store. Of two copies only one
/// may go on issuing items.
///
/// A reading is the value of a physical clock, below 2^48. It may be wrong or stop: stamps still rise.
///
/// ```
/// use hlcstore::{Node, Stamp, Store};
///
/// let store = Store::open(1)?;
/// let mut node = Node::new(0, Stamp::ZERO);
/// let item = node.write(5, b"city", b"Lyon")?;
/// assert_eq!((item.number, item.stamp), (0, Stamp::new(5, 0)));
/// store.accept(item)?;
/// # Ok::<(), hlcstore::Error>(())
/// ```
#[derive(Clone, Debug, PartialEq, Eq)]
pub struct Node(sys::hlc_node);

impl Node {
    /// Returns the node of this number whose clock starts at this stamp: at [`Stamp::ZERO`] if it is there when the
    /// store is opened. [`Store::join`](crate::Store::join) returns the others.
    pub fn new(id: u16, start: Stamp) -> Node {
        Node(sys::hlc_node_open(id, start.to_bits()))
    }

    /// Returns a node as it was before a restart, from its number, the stamp of its last event, and the number of its
    /// next item.
    ///
    /// Refusal: `NoSuchNode`, if no node has issued that many items up to this stamp.
    pub fn restore(id: u16, last: Stamp, next_number: u64) -> Result<Node> {
        let mut node = Node::new(id, last);
        // SAFETY: the node is live, and is not used otherwise during the call.
        let code = unsafe { sys::hlc_node_restore(id, last.to_bits(), next_number, &mut node.0) };
        answer(code, 0).map(|_| node)
    }

    /// Returns a node as a store knows it.
    ///
    /// Refusal: `NoSuchNode`.
    pub(crate) fn of_link(id: u16, link: Link) -> Result<Node> {
        let mut node = Node::restore(id, link.head, link.next_number)?;
        node.0.retired = link.is_retired;
        Ok(node)
    }

    /// Returns the node's number.
    pub fn id(&self) -> u16 {
        self.0.id
    }

    /// Returns the stamp of the node's last event.
    pub fn last(&self) -> Stamp {
        Stamp::from_bits(self.0.last)
    }

    /// Returns the number of the node's next item.
    pub fn next_number(&self) -> u64 {
        self.0.next
    }

    /// Returns whether the node retired.
    pub fn is_retired(&self) -> bool {
        self.0.retired
    }

    /// Raises the node's clock to a stamp, without an event: the node's next stamps are above it. So the nodes of one
    /// machine can share one clock. A stamp at or below the last one changes nothing.
    pub fn raise_to(&mut self, stamp: Stamp) {
        // SAFETY: the node is live, and is not used otherwise during the call.
        unsafe { sys::hlc_node_raise(&mut self.0, stamp.to_bits()) }
    }

    /// Issues a write at this reading.
    ///
    /// Refusals, in this order: `Retired`, `BadKey`, `ValueTooLong`, `NumbersSpent`, `ReadingTooLarge`, `CounterFull`.
    pub fn write<'a, K, V>(&mut self, reading: u64, key: &'a K, value: &'a V) -> Result<Item<'a>>
    where
        K: AsRef<[u8]> + ?Sized,
        V: AsRef<[u8]> + ?Sized,
    {
        let (key, value) = (key.as_ref(), value.as_ref());
        // SAFETY: key and value have these lengths.
        self.issue(Content::Write { key, value }, |node, number, word| unsafe {
            sys::hlc_node_write(node, reading, key.as_ptr(), key.len(), value.as_ptr(), value.len(), number, word)
        })
    }

    /// Issues a deletion at this reading.
    ///
    /// Refusals, in this order: `Retired`, `BadKey`, `NumbersSpent`, `ReadingTooLarge`, `CounterFull`.
    pub fn delete<'a, K: AsRef<[u8]> + ?Sized>(&mut self, reading: u64, key: &'a K) -> Result<Item<'a>> {
        let key = key.as_ref();
        // SAFETY: the key has this length.
        self.issue(Content::Delete { key }, |node, number, word| unsafe {
            sys::hlc_node_delete(node, reading, key.as_ptr(), key.len(), number, word)
        })
    }

    /// Issues one item of the writes of a batch at this reading: a snapshot shows all of them or none.
    ///
    /// Refusals, in this order: `Retired`, `NoWrites`, `KeyTwice`, `NumbersSpent`, `ReadingTooLarge`, `CounterFull`.
    ///
    /// ```
    /// use hlcstore::{Batch, Node, Stamp, Store};
    ///
    /// let store = Store::open(1)?;
    /// let mut node = Node::new(0, Stamp::ZERO);
    /// let mut batch = Batch::new();
    /// batch.write("city", "Lyon")?;
    /// batch.write("river", "Rhone")?;
    /// store.accept(node.write_batch(5, &batch)?)?;
    /// assert_eq!((node.next_number(), store.rows()?), (1, 2));
    /// # Ok::<(), hlcstore::Error>(())
    /// ```
    pub fn write_batch<'a>(&mut self, reading: u64, batch: &'a Batch) -> Result<Item<'a>> {
        let writes = batch.as_writes();
        let (count, bytes) = (writes.len(), writes.bytes());
        // SAFETY: the bytes have this length.
        self.issue(Content::Batch(writes), |node, number, word| unsafe {
            sys::hlc_node_write_batch(node, reading, count, bytes.as_ptr(), bytes.len(), number, word)
        })
    }

    /// Issues a report at this reading, which lets the floor rise where the node has nothing to write.
    ///
    /// Refusals, in this order: `Retired`, `NumbersSpent`, `ReadingTooLarge`, `CounterFull`.
    pub fn report(&mut self, reading: u64) -> Result<Item<'static>> {
        // SAFETY: the pointers are those of `issue`.
        self.issue(Content::Report, |node, number, word| unsafe { sys::hlc_node_report(node, reading, number, word) })
    }

    /// Issues the node's last item at this reading. After it the floor does not wait for the node.
    ///
    /// Refusals: those of [`report`](Node::report).
    pub fn retire(&mut self, reading: u64) -> Result<Item<'static>> {
        // SAFETY: the pointers are those of `issue`.
        self.issue(Content::Retire, |node, number, word| unsafe { sys::hlc_node_retire(node, reading, number, word) })
    }

    /// Sends a message at this reading. Returns its stamp, which goes to the receiver.
    ///
    /// Refusals, in this order: `Retired`, `ReadingTooLarge`, `CounterFull`.
    pub fn send(&mut self, reading: u64) -> Result<Stamp> {
        let mut word = 0;
        // SAFETY: both pointers are live, and are not used otherwise during the call.
        let code = unsafe { sys::hlc_node_send(&mut self.0, reading, &mut word) };
        answer(code, word).map(Stamp::from_bits)
    }

    /// Receives a message with this stamp at this reading, or observes a snapshot at it. Returns the stamp of the
    /// event, which is above that stamp and above the node's last one.
    ///
    /// Refusals: those of [`send`](Node::send).
    pub fn receive(&mut self, seen: Stamp, reading: u64) -> Result<Stamp> {
        let mut word = 0;
        // SAFETY: both pointers are live, and are not used otherwise during the call.
        let code = unsafe { sys::hlc_node_receive(&mut self.0, seen.to_bits(), reading, &mut word) };
        answer(code, word).map(Stamp::from_bits)
    }

    /// Makes a call that issues an item. It gets pointers to the node, and to where the item's number and stamp go.
    fn issue<'a>(
        &mut self,
        content: Content<'a>,
        call: impl FnOnce(*mut sys::hlc_node, *mut u64, *mut u64) -> u32,
    ) -> Result<Item<'a>> {
        let (mut number, mut word) = (0, 0);
        let code = call(&mut self.0, &mut number, &mut word);
        let stamp = Stamp::from_bits(answer(code, word)?);
        Ok(Item { node: self.0.id, number, stamp, content })
    }
}
