//! Ranges of keys.

use crate::Result;
use crate::buffer::{copied, reserve};
use std::ops::{Bound, Range, RangeBounds, RangeFrom, RangeFull, RangeInclusive, RangeTo, RangeToInclusive};

/// A range of keys: any range of byte strings or texts, as `..`, `b"a"..b"f"` or `"a"..`, a pair of bounds, or a
/// [`Prefix`].
pub trait KeyRange: sealed::ToBounds {
    /// Returns the range as the C library takes it: the key from which it goes, and the key below which it ends, or no
    /// bytes where it has no end.
    ///
    /// ```
    /// use hlcstore::{KeyRange, Prefix};
    ///
    /// assert_eq!(Prefix("ab").ends()?, (b"ab".to_vec(), b"ac".to_vec()));
    /// # Ok::<(), hlcstore::Error>(())
    /// ```
    fn ends(&self) -> Result<(Vec<u8>, Vec<u8>)> {
        let Bounds { from, to } = self.to_bounds()?;
        Ok((from, to))
    }
}

impl<R: sealed::ToBounds> KeyRange for R {}

/// All keys that begin with these bytes.
///
/// ```
/// use hlcstore::{Node, Prefix, Stamp, Store};
///
/// let store = Store::open(1)?;
/// let mut node = Node::new(0, Stamp::ZERO);
/// for key in ["city/Lyon", "city/Rome", "lake/Como"] {
///     store.accept(node.write(5, key.as_bytes(), b"")?)?;
/// }
/// assert_eq!(store.snapshot()?.count(Prefix("city/"))?, 2);
/// # Ok::<(), hlcstore::Error>(())
/// ```
#[derive(Clone, Copy, Debug, PartialEq, Eq, Hash)]
pub struct Prefix<K>(pub K);

/// A range as the library takes it: the keys from `from` on and below `to`, or all keys from `from` on if `to` has no
/// bytes.
#[derive(Debug)]
pub struct Bounds {
    pub(crate) from: Vec<u8>,
    pub(crate) to: Vec<u8>,
}

impl Bounds {
    pub(crate) fn pointers(&self) -> (*const u8, usize, *const u8, usize) {
        (self.from.as_ptr(), self.from.len(), self.to.as_ptr(), self.to.len())
    }

    pub(crate) fn copied(&self) -> Result<Bounds> {
        Ok(Bounds { from: copied(&self.from)?, to: copied(&self.to)? })
    }

    /// Goes on after a key: the range begins with the next key that there can be.
    pub(crate) fn move_after(&mut self, key: &[u8]) -> Result<()> {
        self.from = next_key(key)?;
        Ok(())
    }

    /// Ends before a key, which is not empty.
    pub(crate) fn end_before(&mut self, key: &[u8]) -> Result<()> {
        self.to = copied(key)?;
        Ok(())
    }

    /// All keys below one, or all where it has no bytes.
    pub(crate) fn all_below(key: &[u8]) -> Result<Bounds> {
        Ok(Bounds { from: Vec::new(), to: copied(key)? })
    }
}

mod sealed {
    pub trait ToBounds {
        fn to_bounds(&self) -> crate::Result<super::Bounds>;
    }
}

/// The least key above another: the same with a byte 0 after it.
fn next_key(key: &[u8]) -> Result<Vec<u8>> {
    let mut next = Vec::new();
    reserve(&mut next, key.len() + 1)?;
    next.extend_from_slice(key);
    next.push(0);
    Ok(next)
}

/// The bounds of the keys from one on and below another. Below the empty key there are none.
fn below(from: Vec<u8>, to: &[u8]) -> Result<Bounds> {
    const NONE: &[u8] = &[0];
    if to.is_empty() {
        Ok(Bounds { from: copied(NONE)?, to: copied(NONE)? })
    } else {
        Ok(Bounds { from, to: copied(to)? })
    }
}

fn bounds<K: AsRef<[u8]>>(range: &impl RangeBounds<K>) -> Result<Bounds> {
    let from = match range.start_bound() {
        Bound::Included(key) => copied(key.as_ref())?,
        Bound::Excluded(key) => next_key(key.as_ref())?,
        Bound::Unbounded => Vec::new(),
    };
    match range.end_bound() {
        Bound::Included(key) => Ok(Bounds { from, to: next_key(key.as_ref())? }),
        Bound::Excluded(key) => below(from, key.as_ref()),
        Bound::Unbounded => Ok(Bounds { from, to: Vec::new() }),
    }
}

impl sealed::ToBounds for RangeFull {
    fn to_bounds(&self) -> Result<Bounds> {
        Ok(Bounds { from: Vec::new(), to: Vec::new() })
    }
}

impl<K: AsRef<[u8]>> sealed::ToBounds for Prefix<K> {
    fn to_bounds(&self) -> Result<Bounds> {
        let prefix = self.0.as_ref();
        // The keys that begin with the prefix are below the same bytes with the last one raised. A byte of 255 can't be
        // raised, and the one before it is.
        let raised = prefix.iter().rposition(|byte| *byte < u8::MAX);
        let mut to = copied(&prefix[..raised.map_or(0, |place| place + 1)])?;
        if let Some(last) = to.last_mut() {
            *last += 1;
        }
        Ok(Bounds { from: copied(prefix)?, to })
    }
}

macro_rules! ranges_of_keys {
    ($($range:ty),*) => {
        $(impl<K: AsRef<[u8]>> sealed::ToBounds for $range {
            fn to_bounds(&self) -> Result<Bounds> {
                bounds(self)
            }
        })*
    };
}

ranges_of_keys!(Range<K>, RangeFrom<K>, RangeTo<K>, RangeInclusive<K>, RangeToInclusive<K>, (Bound<K>, Bound<K>));
