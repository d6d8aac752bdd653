//! The bytes that a call of the library makes, and frees when they are dropped.
//!
//! They are no part of the store, so they are read after its lock was released.

use crate::Result;
use crate::buffer::{append, reserve};
use crate::error::answer;
use crate::vacuum::Certified;
use hlcstore_sys as sys;

/// The bytes that a call makes.
pub(crate) struct Output {
    raw: sys::hlc_output,
    len: usize,
}

// The blocks that are unsafe here call the library. `raw` is `HLC_NO_OUTPUT` at first, only calls of the library change
// it, and it is not copied.
impl Output {
    pub(crate) fn none() -> Output {
        Output { raw: sys::HLC_NO_OUTPUT, len: 0 }
    }

    /// Returns pointers to where a call puts the bytes, and how many they are.
    pub(crate) fn place(&mut self) -> (*mut sys::hlc_output, *mut usize) {
        (&mut self.raw, &mut self.len)
    }

    /// Returns all bytes.
    pub(crate) fn read(mut self) -> Result<Vec<u8>> {
        let mut bytes = Vec::new();
        reserve(&mut bytes, self.len)?;
        unsafe { append(&mut bytes, |out, room, len| sys::hlc_output_read(&mut self.raw, 0, out, room, len))? };
        Ok(bytes)
    }
}

impl Drop for Output {
    fn drop(&mut self) {
        unsafe { sys::hlc_output_drop(&mut self.raw) }
    }
}

/// Returns the bytes of the newer checkpoint that an older one becomes by an [`increment`](crate::Store::increment) of
/// the same store, with the increment's tag. [`Store::restore`](crate::Store::restore) opens a store from them, which
/// answers as the newer one did; its next vacuum drops the rows that vacuums dropped since the older checkpoint. They
/// may be the older checkpoint of the next increment.
///
/// Refusals, in this order: `BadBytes`, of the older checkpoint; `NoIncrement`; `NoCheckpoint`, of one of both;
/// `NotLater`; `AboveFloor`; `NoIncrement` with the word 0; `NoMemory`.
///
/// ```
/// use hlcstore::{Node, Stamp, Store, apply_increment};
///
/// let store = Store::open(1)?;
/// let mut node = Node::new(0, Stamp::ZERO);
/// store.accept(node.write(5, b"city", b"Lyon")?)?;
/// let (older, floor) = (store.checkpoint(1)?, store.floor()?);
///
/// store.accept(node.write(6, b"city", b"Rome")?)?;
/// let newer = apply_increment(&older, &store.increment(floor, 2)?)?;
/// assert_eq!(newer, store.checkpoint(2)?);
/// # Ok::<(), hlcstore::Error>(())
/// ```
pub fn apply_increment(older: &[u8], increment: &[u8]) -> Result<Vec<u8>> {
    let (mut made, mut word) = (Output::none(), 0);
    let (output, len) = made.place();
    // SAFETY: both slices have these lengths, and the other pointers are live and not used otherwise during the call.
    let code = unsafe {
        let (older, older_len) = (older.as_ptr(), older.len());
        sys::hlc_increment_apply(older, older_len, increment.as_ptr(), increment.len(), output, len, &mut word)
    };
    answer(code, word)?;
    made.read()
}

/// Returns the bytes of the two parts of a checkpoint at a key: the first has the rows of lower keys, the second the
/// others. Each has the links, the open snapshots, the horizon and the tag of the whole. A store that is restored from
/// a part goes on from the same log: it takes each write of a key of the other part as a report with the same number
/// and stamp.
///
/// Refusals, in this order: `BadBytes`; `NoCheckpoint`, of either part; `NoMemory`, which may come in place of each.
///
/// ```
/// use hlcstore::{Item, Node, Stamp, Store, merge_checkpoints, split_checkpoint};
///
/// let store = Store::open(1)?;
/// let mut node = Node::new(0, Stamp::ZERO);
/// store.accept_all(&[node.write(5, b"city", b"Lyon")?, node.write(6, b"river", b"Rhone")?])?;
/// let saved = store.checkpoint(1)?;
///
/// let (left, right) = split_checkpoint(&saved, b"m")?;
/// let (cities, _) = Store::restore(&left)?;
/// let next = node.write(7, b"river", b"Saone")?;
/// cities.accept(Item::report(next.node, next.number, next.stamp))?;
/// assert_eq!(cities.snapshot()?.get(b"city")?.as_deref(), Some(&b"Lyon"[..]));
/// assert_eq!(merge_checkpoints(&left, &right)?, saved);
/// # Ok::<(), hlcstore::Error>(())
/// ```
pub fn split_checkpoint(checkpoint: &[u8], key: &[u8]) -> Result<(Vec<u8>, Vec<u8>)> {
    let (mut left, mut right, mut word) = (Output::none(), Output::none(), 0);
    let ((left_output, left_len), (right_output, right_len)) = (left.place(), right.place());
    // SAFETY: both slices have these lengths, and the other pointers are live and not used otherwise during the call.
    let code = unsafe {
        let (bytes, bytes_len) = (checkpoint.as_ptr(), checkpoint.len());
        let (key, key_len) = (key.as_ptr(), key.len());
        sys::hlc_checkpoint_split(
            bytes,
            bytes_len,
            key,
            key_len,
            left_output,
            right_output,
            left_len,
            right_len,
            &mut word,
        )
    };
    answer(code, word)?;
    Ok((left.read()?, right.read()?))
}

/// Returns the bytes of the checkpoint that two neighbouring parts become, of which the left one has the lower keys. It
/// has the tag of the left one. It answers each key as the part that the key is of. If both are parts of one store that
/// took the same log, opened and closed the same snapshots and were vacuumed to the same stamp, it answers as that store
/// does.
///
/// Refusals, in this order: `BadBytes`, of the left part and then of the right one; `NotParts`, with the number of the
/// first thing that differs; `NoCheckpoint`; `NoMemory`, which may come in place of each.
pub fn merge_checkpoints(left: &[u8], right: &[u8]) -> Result<Vec<u8>> {
    let (mut made, mut word) = (Output::none(), 0);
    let (output, len) = made.place();
    // SAFETY: as in `split_checkpoint`.
    let code = unsafe {
        let (left, left_len) = (left.as_ptr(), left.len());
        sys::hlc_checkpoint_merge(left, left_len, right.as_ptr(), right.len(), output, len, &mut word)
    };
    answer(code, word)?;
    made.read()
}

/// How many rows a certificate has, what they cost, and its bytes.
pub(crate) struct Certificate {
    pub(crate) kept: u64,
    pub(crate) bytes: u64,
    pub(crate) text: Output,
}

impl Certificate {
    pub(crate) fn read(self) -> Result<Certified> {
        let certificate = String::from_utf8(self.text.read()?).expect("a certificate is ASCII");
        Ok(Certified { kept: self.kept, bytes: self.bytes, certificate })
    }
}
