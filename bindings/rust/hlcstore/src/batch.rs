use crate::error::answer;
use crate::{Error, Result};
use hlcstore_sys as sys;
use std::fmt;

const MOST_WRITES: usize = sys::HLC_MAX_BATCH as usize;
const MOST_KEY: usize = sys::HLC_MAX_KEY as usize;
const MOST_VALUE: usize = sys::HLC_MAX_VALUE as usize;

/// The writes of one item, 1 to 256 of different keys, at one stamp: a snapshot shows all of them or none.
///
/// [`Node::write_batch`](crate::Node::write_batch) issues the item. The batch has the bytes of its writes, so that it
/// can be cleared and filled again without new memory.
///
/// ```
/// use hlcstore::{Batch, Node, Stamp, Store};
///
/// let store = Store::open(1)?;
/// let mut node = Node::new(0, Stamp::ZERO);
/// store.accept(node.write(5, "paid by Ann", "3")?)?;
///
/// let mut batch = Batch::new();
/// batch.write("paid by Bob", "3")?;
/// batch.delete("paid by Ann")?;
/// store.accept(node.write_batch(6, &batch)?)?;
///
/// let snapshot = store.snapshot()?;
/// assert_eq!(snapshot.get("paid by Bob")?.as_deref(), Some(&b"3"[..]));
/// assert_eq!(snapshot.get("paid by Ann")?, None);
/// # Ok::<(), hlcstore::Error>(())
/// ```
#[derive(Clone, Default, PartialEq, Eq, Hash)]
pub struct Batch {
    count: usize,
    bytes: Vec<u8>,
}

impl Batch {
    /// Returns a batch without writes.
    pub fn new() -> Batch {
        Batch::default()
    }

    /// Adds a write. That a key is there twice is refused by [`Node::write_batch`](crate::Node::write_batch).
    ///
    /// Refusals, in this order: `BadKey`, `ValueTooLong`, `TooManyWrites`, `NoMemory`. The batch is as it was then.
    pub fn write(&mut self, key: impl AsRef<[u8]>, value: impl AsRef<[u8]>) -> Result<()> {
        self.put(key.as_ref(), Some(value.as_ref()))
    }

    /// Adds a deletion, as [`write`](Batch::write) adds a write.
    pub fn delete(&mut self, key: impl AsRef<[u8]>) -> Result<()> {
        self.put(key.as_ref(), None)
    }

    fn put(&mut self, key: &[u8], value: Option<&[u8]>) -> Result<()> {
        let refusal = |code| Err(Error::new(code, 0));
        if !(1..=MOST_KEY).contains(&key.len()) {
            return refusal(sys::HLC_BAD_KEY);
        }
        if value.is_some_and(|value| value.len() > MOST_VALUE) {
            return refusal(sys::HLC_VALUE_TOO_LONG);
        }
        if self.count == MOST_WRITES {
            return refusal(sys::HLC_TOO_MANY_WRITES);
        }
        let more = 2 + key.len() + value.map_or(0, |value| 2 + value.len());
        self.bytes.try_reserve(more).map_err(|_| Error::NO_MEMORY)?;
        self.bytes.push(key.len() as u8);
        self.bytes.extend_from_slice(key);
        self.bytes.push(value.is_some().into());
        if let Some(value) = value {
            self.bytes.extend_from_slice(&(value.len() as u16).to_be_bytes());
            self.bytes.extend_from_slice(value);
        }
        self.count += 1;
        Ok(())
    }

    /// Returns how many writes it has.
    pub fn len(&self) -> usize {
        self.count
    }

    /// Returns whether it has no writes.
    pub fn is_empty(&self) -> bool {
        self.count == 0
    }

    /// Removes all writes, and keeps the memory for others.
    pub fn clear(&mut self) {
        self.count = 0;
        self.bytes.clear();
    }

    /// Returns its writes, which borrow it.
    pub fn as_writes(&self) -> Writes<'_> {
        Writes { count: self.count, bytes: &self.bytes }
    }

    /// Returns an iterator over its writes, in the order in which they were added.
    pub fn iter(&self) -> WritesIter<'_> {
        self.as_writes().iter()
    }
}

impl fmt::Debug for Batch {
    fn fmt(&self, f: &mut fmt::Formatter<'_>) -> fmt::Result {
        self.as_writes().fmt(f)
    }
}

impl<'a> IntoIterator for &'a Batch {
    type Item = (&'a [u8], Option<&'a [u8]>);
    type IntoIter = WritesIter<'a>;

    fn into_iter(self) -> WritesIter<'a> {
        self.iter()
    }
}

/// The writes of an item that is a batch: those of a [`Batch`], or in the bytes of a log.
///
/// ```
/// use hlcstore::{Batch, Content, Item, Node, Stamp};
///
/// let mut batch = Batch::new();
/// batch.write("city", "Lyon")?;
/// batch.delete("river")?;
/// let log = Node::new(0, Stamp::ZERO).write_batch(5, &batch)?.encode()?;
///
/// let Content::Batch(writes) = Item::decode(&log)?.0.content else { panic!("it is a batch") };
/// assert_eq!(writes.len(), 2);
/// for (key, value) in writes {
///     assert_eq!(value.is_some(), key == b"city");
/// }
/// # Ok::<(), hlcstore::Error>(())
/// ```
#[derive(Clone, Copy, PartialEq, Eq, Hash)]
pub struct Writes<'a> {
    // The bytes are those of this many writes, at most 256, and of nothing else.
    count: usize,
    bytes: &'a [u8],
}

impl<'a> Writes<'a> {
    /// The writes of bytes that have this many, and nothing else.
    pub(crate) fn of(count: usize, bytes: &'a [u8]) -> Writes<'a> {
        Writes { count, bytes }
    }

    /// Returns how many they are.
    pub fn len(self) -> usize {
        self.count
    }

    /// Returns whether there are none, so that no node issues them.
    pub fn is_empty(self) -> bool {
        self.count == 0
    }

    /// Returns an iterator over them, in their order: each key, with its value or none of a deletion.
    pub fn iter(self) -> WritesIter<'a> {
        WritesIter { left: self.count, rest: self.bytes }
    }

    /// Why no store accepts them, whatever it has: `NoWrites` or `KeyTwice`.
    pub(crate) fn check(self) -> Result<()> {
        let (mut len, bytes) = (0, self.bytes);
        // SAFETY: the bytes have this length, and the place for the item has none, so that only the length is written.
        let code = unsafe {
            let nowhere = std::ptr::NonNull::dangling().as_ptr();
            sys::hlc_item_encode_batch(0, 0, 0, self.count, bytes.as_ptr(), bytes.len(), nowhere, 0, &mut len)
        };
        answer(code, 0).map(drop)
    }

    /// Their bytes, as calls of the library take them.
    pub(crate) fn bytes(self) -> &'a [u8] {
        self.bytes
    }

    pub(crate) fn into_owned(self) -> Batch {
        Batch { count: self.count, bytes: self.bytes.to_vec() }
    }
}

impl fmt::Debug for Writes<'_> {
    fn fmt(&self, f: &mut fmt::Formatter<'_>) -> fmt::Result {
        f.debug_list().entries(self.iter()).finish()
    }
}

impl<'a> IntoIterator for Writes<'a> {
    type Item = (&'a [u8], Option<&'a [u8]>);
    type IntoIter = WritesIter<'a>;

    fn into_iter(self) -> WritesIter<'a> {
        self.iter()
    }
}

/// An iterator over the writes of a batch: each key, with its value or none of a deletion.
#[derive(Clone, Debug)]
pub struct WritesIter<'a> {
    left: usize,
    rest: &'a [u8],
}

impl<'a> WritesIter<'a> {
    fn take(&mut self, len: usize) -> &'a [u8] {
        let (taken, rest) = self.rest.split_at(len);
        self.rest = rest;
        taken
    }

    fn take_byte(&mut self) -> u8 {
        self.take(1)[0]
    }
}

impl<'a> Iterator for WritesIter<'a> {
    type Item = (&'a [u8], Option<&'a [u8]>);

    fn next(&mut self) -> Option<Self::Item> {
        self.left = self.left.checked_sub(1)?;
        let key_len = self.take_byte();
        let key = self.take(key_len.into());
        let value = (self.take_byte() == 1).then(|| {
            let len = u16::from_be_bytes([self.take_byte(), self.take_byte()]);
            self.take(len.into())
        });
        Some((key, value))
    }

    fn size_hint(&self) -> (usize, Option<usize>) {
        (self.left, Some(self.left))
    }
}

impl ExactSizeIterator for WritesIter<'_> {}

impl std::iter::FusedIterator for WritesIter<'_> {}
