use crate::buffer::{append, reserve};
use crate::{Result, Stamp};
use hlcstore_sys as sys;

/// How many bytes a join has; a threshold has fewer.
const RECORD_ROOM: usize = 11;

/// A record of a log that replicas share, other than an item. The bytes of an [`Item`](crate::Item) are a record too.
///
/// ```
/// use hlcstore::{Item, Record, Stamp, Store};
///
/// let mut log = Item::report(0, 0, Stamp::new(6, 0)).encode()?;
/// Record::Join { node: 1, start: Stamp::new(7, 0) }.encode_into(&mut log)?;
/// Record::Threshold(Stamp::new(5, 0)).encode_into(&mut log)?;
///
/// let store = Store::open(1)?;
/// let applied = store.apply_records(&log)?;
/// assert_eq!((applied.records, applied.threshold), (3, Stamp::new(5, 0)));
/// assert_eq!(store.nodes()?, 2);
/// # Ok::<(), hlcstore::Error>(())
/// ```
#[derive(Clone, Copy, Debug, PartialEq, Eq, Hash)]
pub enum Record {
    /// A node joins: it is assigned this number, and its clock starts at this stamp.
    Join {
        /// The number of the node: the next one that the store assigns.
        node: u16,
        /// The start, at or above the floor.
        start: Stamp,
    },
    /// No more snapshot is opened below this stamp, so each replica may vacuum to it.
    Threshold(Stamp),
}

impl Record {
    /// Returns the record as bytes, 11 of a join and 9 of a threshold. `docs/formats.md` describes them.
    ///
    /// Refusal: `NoMemory`.
    pub fn encode(self) -> Result<Vec<u8>> {
        let mut bytes = Vec::new();
        self.encode_into(&mut bytes)?;
        Ok(bytes)
    }

    /// Appends these bytes to a log. After a refusal the log is as it was.
    pub fn encode_into(self, log: &mut Vec<u8>) -> Result<()> {
        reserve(log, RECORD_ROOM)?;
        // SAFETY: the library writes the record where there is room for it.
        unsafe {
            append(log, |out, room, len| match self {
                Record::Join { node, start } => sys::hlc_record_encode_join(node, start.to_bits(), out, room, len),
                Record::Threshold(stamp) => sys::hlc_record_encode_threshold(stamp.to_bits(), out, room, len),
            })
        }
    }
}

/// How far the records of a log were applied.
#[derive(Clone, Copy, Debug, PartialEq, Eq, Hash)]
pub struct Applied {
    /// How many records were applied, or had been before.
    pub records: usize,
    /// How many bytes they have, so that a later call can continue after them.
    pub bytes: usize,
    /// The greatest retention threshold among them, or 0.0.
    pub threshold: Stamp,
}
