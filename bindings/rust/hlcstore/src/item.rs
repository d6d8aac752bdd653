use crate::batch::{Batch, Writes};
use crate::buffer::{append, reserve};
use crate::{Error, Result, Stamp};
use hlcstore_sys as sys;

/// An item that a node issued: a write, a deletion, a batch of both, a report or a retirement, with its number on the
/// node's link and its stamp.
///
/// A [`Node`](crate::Node) makes items, and [`Store::accept`](crate::Store::accept) takes them. As bytes they can be
/// kept in a log, or sent to replicas:
///
/// ```
/// use hlcstore::{Item, Stamp, Store};
///
/// let mut log = Item::write(0, 0, Stamp::new(5, 0), b"city", b"Lyon").encode()?;
/// Item::report(0, 1, Stamp::new(6, 0)).encode_into(&mut log)?;
///
/// let store = Store::open(1)?;
/// assert_eq!(store.accept_items(&log)?, 2);
/// assert_eq!(store.floor()?, Stamp::new(6, 0));
/// # Ok::<(), hlcstore::Error>(())
/// ```
#[derive(Clone, Copy, Debug, PartialEq, Eq, Hash)]
pub struct Item<'a> {
    /// The node that issued it.
    pub node: u16,
    /// Its number among the node's items, from 0 on.
    pub number: u64,
    /// Its stamp.
    pub stamp: Stamp,
    /// What it says.
    pub content: Content<'a>,
}

/// What an [`Item`] says.
#[derive(Clone, Copy, Debug, PartialEq, Eq, Hash)]
pub enum Content<'a> {
    /// The value of a key.
    Write {
        /// The key, of 1 to 255 bytes.
        key: &'a [u8],
        /// The value, of at most 65,535 bytes.
        value: &'a [u8],
    },
    /// That a key has no value.
    Delete {
        /// The key, of 1 to 255 bytes.
        key: &'a [u8],
    },
    /// Writes of different keys, of which a snapshot shows all or none.
    Batch(Writes<'a>),
    /// How far the node's stamps are.
    Report,
    /// That this is the node's last item.
    Retire,
}

impl<'a> Item<'a> {
    /// Returns a write.
    pub fn write<K, V>(node: u16, number: u64, stamp: Stamp, key: &'a K, value: &'a V) -> Item<'a>
    where
        K: AsRef<[u8]> + ?Sized,
        V: AsRef<[u8]> + ?Sized,
    {
        Item { node, number, stamp, content: Content::Write { key: key.as_ref(), value: value.as_ref() } }
    }

    /// Returns a deletion.
    pub fn delete<K: AsRef<[u8]> + ?Sized>(node: u16, number: u64, stamp: Stamp, key: &'a K) -> Item<'a> {
        Item { node, number, stamp, content: Content::Delete { key: key.as_ref() } }
    }

    /// Returns the item of the writes of a batch.
    pub fn batch(node: u16, number: u64, stamp: Stamp, batch: &'a Batch) -> Item<'a> {
        Item { node, number, stamp, content: Content::Batch(batch.as_writes()) }
    }

    /// Returns a report.
    pub fn report(node: u16, number: u64, stamp: Stamp) -> Item<'a> {
        Item { node, number, stamp, content: Content::Report }
    }

    /// Returns a retirement.
    pub fn retire(node: u16, number: u64, stamp: Stamp) -> Item<'a> {
        Item { node, number, stamp, content: Content::Retire }
    }

    /// Returns the first item of a log, and the bytes after it. It is the opposite of [`encode`](Item::encode).
    ///
    /// Refusal: `BadBytes`, where 1 is the word if the bytes end within the item.
    ///
    /// ```
    /// use hlcstore::{Item, Stamp};
    ///
    /// let written = Item::write(0, 0, Stamp::new(5, 0), b"city", b"Lyon");
    /// let log = [written.encode()?, Item::report(0, 1, Stamp::new(6, 0)).encode()?].concat();
    /// let (item, rest) = Item::decode(&log)?;
    /// assert_eq!((item, Item::decode(rest)?.0.number), (written, 1));
    /// # Ok::<(), hlcstore::Error>(())
    /// ```
    pub fn decode(log: &'a [u8]) -> Result<(Item<'a>, &'a [u8])> {
        let mut fields = Fields { rest: log };
        fields.expect_version()?;
        let [node_high, node_low] = fields.array()?;
        let (number, stamp) = (fields.word()?, fields.word()?);
        let content = fields.content()?;
        let node = u16::from_be_bytes([node_high, node_low]);
        Ok((Item { node, number, stamp: Stamp::from_bits(stamp), content }, fields.rest))
    }

    /// Returns the same item with a key and a value of its own.
    pub fn into_owned(self) -> OwnedItem {
        let Item { node, number, stamp, content } = self;
        OwnedItem { node, number, stamp, content: content.into_owned() }
    }

    /// Returns the item as bytes, at most 65,814, and of a batch 16,843,285. `docs/formats.md` describes them.
    ///
    /// Refusals: `BadKey`, `ValueTooLong`; of a batch `NoWrites`, `KeyTwice`; `NoMemory`.
    pub fn encode(self) -> Result<Vec<u8>> {
        let mut bytes = Vec::new();
        self.encode_into(&mut bytes)?;
        Ok(bytes)
    }

    /// Appends these bytes to a log. After a refusal the log is as it was.
    pub fn encode_into(self, log: &mut Vec<u8>) -> Result<()> {
        let Item { node, number, stamp, content } = self;
        let stamp = stamp.to_bits();
        reserve(log, content.encoded_len())?;
        // SAFETY: keys, values and the place for the bytes have the lengths that are passed with them. The library
        // writes the item where there is room for it.
        unsafe {
            append(log, |out, room, len| match content {
                Content::Write { key, value } => sys::hlc_item_encode_write(
                    node,
                    number,
                    stamp,
                    key.as_ptr(),
                    key.len(),
                    value.as_ptr(),
                    value.len(),
                    out,
                    room,
                    len,
                ),
                Content::Delete { key } => {
                    sys::hlc_item_encode_delete(node, number, stamp, key.as_ptr(), key.len(), out, room, len)
                }
                Content::Batch(writes) => {
                    let (count, bytes) = (writes.len(), writes.bytes());
                    sys::hlc_item_encode_batch(node, number, stamp, count, bytes.as_ptr(), bytes.len(), out, room, len)
                }
                Content::Report => sys::hlc_item_encode_report(node, number, stamp, out, room, len),
                Content::Retire => sys::hlc_item_encode_retire(node, number, stamp, out, room, len),
            })
        }
    }
}

/// The fields of an item as bytes, from the front on. `docs/formats.md` has the numbers of what is wrong with them.
struct Fields<'a> {
    rest: &'a [u8],
}

const SHORT: u64 = 1;
const OTHER_VERSION: u64 = 2;
const NO_KIND: u64 = 3;
const EMPTY_KEY: u64 = 4;
const NO_FLAG: u64 = 5;

fn bad_bytes<T>(fault: u64) -> Result<T> {
    Err(Error::new(sys::HLC_BAD_BYTES, fault))
}

impl<'a> Fields<'a> {
    fn array<const LEN: usize>(&mut self) -> Result<[u8; LEN]> {
        let Some((field, rest)) = self.rest.split_first_chunk() else { return bad_bytes(SHORT) };
        self.rest = rest;
        Ok(*field)
    }

    fn byte(&mut self) -> Result<u8> {
        self.array().map(|[byte]| byte)
    }

    fn word(&mut self) -> Result<u64> {
        self.array().map(u64::from_be_bytes)
    }

    fn bytes(&mut self, len: usize) -> Result<&'a [u8]> {
        let Some((bytes, rest)) = self.rest.split_at_checked(len) else { return bad_bytes(SHORT) };
        self.rest = rest;
        Ok(bytes)
    }

    fn expect_version(&mut self) -> Result<()> {
        if self.byte()? == 1 { Ok(()) } else { bad_bytes(OTHER_VERSION) }
    }

    fn content(&mut self) -> Result<Content<'a>> {
        match self.byte()? {
            0 => Ok(match self.write()? {
                (key, Some(value)) => Content::Write { key, value },
                (key, None) => Content::Delete { key },
            }),
            1 => Ok(Content::Report),
            2 => Ok(Content::Retire),
            3 => self.batch(),
            _ => bad_bytes(NO_KIND),
        }
    }

    /// One less than the number of writes, and the writes.
    fn batch(&mut self) -> Result<Content<'a>> {
        let count = usize::from(self.byte()?) + 1;
        let bytes = self.rest;
        for _ in 0..count {
            self.write()?;
        }
        let len = bytes.len() - self.rest.len();
        Ok(Content::Batch(Writes::of(count, &bytes[..len])))
    }

    /// A key, and a value or the mark of a deletion.
    fn write(&mut self) -> Result<(&'a [u8], Option<&'a [u8]>)> {
        let len = self.byte()?;
        if len == 0 {
            return bad_bytes(EMPTY_KEY);
        }
        let key = self.bytes(len.into())?;
        match self.byte()? {
            0 => Ok((key, None)),
            1 => {
                let len = u16::from_be_bytes(self.array()?);
                Ok((key, Some(self.bytes(len.into())?)))
            }
            _ => bad_bytes(NO_FLAG),
        }
    }
}

/// An [`Item`] with a key and a value of its own, for a queue or another thread. To make one takes memory as any vector
/// does: where there is none, the program ends.
///
/// ```
/// use hlcstore::{Node, OwnedItem, Stamp, Store};
///
/// let mut node = Node::new(0, Stamp::ZERO);
/// let queue = vec![OwnedItem::from(node.write(5, b"city", b"Lyon")?), node.report(6)?.into_owned()];
/// let store = Store::open(1)?;
/// for item in &queue {
///     store.accept(item.as_item())?;
/// }
/// # Ok::<(), hlcstore::Error>(())
/// ```
#[derive(Clone, Debug, PartialEq, Eq, Hash)]
pub struct OwnedItem {
    /// The node that issued it.
    pub node: u16,
    /// Its number among the node's items, from 0 on.
    pub number: u64,
    /// Its stamp.
    pub stamp: Stamp,
    /// What it says.
    pub content: OwnedContent,
}

/// What an [`OwnedItem`] says, as [`Content`].
#[derive(Clone, Debug, PartialEq, Eq, Hash)]
pub enum OwnedContent {
    /// The value of a key.
    Write {
        /// The key, of 1 to 255 bytes.
        key: Vec<u8>,
        /// The value, of at most 65,535 bytes.
        value: Vec<u8>,
    },
    /// That a key has no value.
    Delete {
        /// The key, of 1 to 255 bytes.
        key: Vec<u8>,
    },
    /// Writes of different keys, of which a snapshot shows all or none.
    Batch(Batch),
    /// How far the node's stamps are.
    Report,
    /// That this is the node's last item.
    Retire,
}

impl OwnedItem {
    /// Returns the same item, which borrows the key and the value of this one.
    pub fn as_item(&self) -> Item<'_> {
        let content = match &self.content {
            OwnedContent::Write { key, value } => Content::Write { key, value },
            OwnedContent::Delete { key } => Content::Delete { key },
            OwnedContent::Batch(batch) => Content::Batch(batch.as_writes()),
            OwnedContent::Report => Content::Report,
            OwnedContent::Retire => Content::Retire,
        };
        Item { node: self.node, number: self.number, stamp: self.stamp, content }
    }
}

impl From<Item<'_>> for OwnedItem {
    fn from(item: Item<'_>) -> OwnedItem {
        item.into_owned()
    }
}

impl<'a> From<&'a OwnedItem> for Item<'a> {
    fn from(item: &'a OwnedItem) -> Item<'a> {
        item.as_item()
    }
}

impl Content<'_> {
    fn into_owned(self) -> OwnedContent {
        match self {
            Content::Write { key, value } => OwnedContent::Write { key: key.to_vec(), value: value.to_vec() },
            Content::Delete { key } => OwnedContent::Delete { key: key.to_vec() },
            Content::Batch(writes) => OwnedContent::Batch(writes.into_owned()),
            Content::Report => OwnedContent::Report,
            Content::Retire => OwnedContent::Retire,
        }
    }

    /// How many bytes an item with this content has, or more.
    fn encoded_len(&self) -> usize {
        const WITHOUT_BYTES: usize = 24;
        match self {
            Content::Write { key, value } => WITHOUT_BYTES + key.len() + value.len(),
            Content::Delete { key } => WITHOUT_BYTES + key.len(),
            Content::Batch(writes) => WITHOUT_BYTES + writes.bytes().len(),
            Content::Report | Content::Retire => WITHOUT_BYTES,
        }
    }
}
