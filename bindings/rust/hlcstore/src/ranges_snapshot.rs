//! Snapshots of a key space over several stores, and their listings.

use crate::range::Bounds;
use crate::{Division, Error, KeyRange, Pairs, Ranges, RangesError, SharedStore, Snapshot, Stamp};
use std::cmp::Reverse;
use std::collections::BinaryHeap;
use std::fmt;
use std::iter::FusedIterator;
use std::mem;
use std::ops::Range;

type Result<T> = std::result::Result<T, RangesError>;
type Pair = (Vec<u8>, Vec<u8>);

/// An open snapshot of all stores of a [`Ranges`](crate::Ranges), which reads them as they were at one stamp. It closes
/// itself. Any thread may use it.
///
/// ```
/// use hlcstore::{Division, Ranges, Stamp};
///
/// let ranges = Ranges::open(&Division::by_hash(3)?, 1)?;
/// let mut machine = ranges.machine(0, Stamp::ZERO)?;
/// for key in ["pear", "apple", "plum"] {
///     ranges.write(&mut machine, 5, key, "green")?;
/// }
/// ranges.report_all(&mut machine, 6)?;
/// let snapshot = ranges.snapshot()?;
/// assert_eq!(snapshot.get("plum")?.as_deref(), Some(&b"green"[..]));
/// assert_eq!(snapshot.count("b"..)?, 2);
/// let keys = snapshot.iter().map(|pair| Ok(pair?.0)).collect::<Result<Vec<_>, hlcstore::RangesError>>()?;
/// assert_eq!(keys, [&b"apple"[..], b"pear", b"plum"]);
/// # Ok::<(), hlcstore::RangesError>(())
/// ```
pub struct RangesSnapshot {
    division: Division,
    snapshots: Vec<Snapshot<SharedStore>>,
    stamp: Stamp,
}

impl RangesSnapshot {
    /// Opens a snapshot at a stamp in each store. Where one refuses, those that are open close themselves.
    pub(crate) fn open(ranges: &Ranges, stamp: Stamp) -> Result<RangesSnapshot> {
        let stores = ranges.stores().iter().enumerate();
        let open =
            |(number, store): (usize, &SharedStore)| store.snapshot_at(stamp).map_err(RangesError::of_store(number));
        let snapshots = stores.map(open).collect::<Result<_>>()?;
        Ok(RangesSnapshot { division: ranges.division().clone(), snapshots, stamp })
    }

    /// Returns the stamp at which the snapshot was opened in each store.
    pub fn stamp(&self) -> Stamp {
        self.stamp
    }

    /// Returns the value of a key, or none.
    pub fn get(&self, key: impl AsRef<[u8]>) -> Result<Option<Vec<u8>>> {
        let mut value = Vec::new();
        Ok(self.get_into(key, &mut value)?.then_some(value))
    }

    /// Writes the value of a key to a vector, in place of what that contains, and returns whether there is one.
    pub fn get_into(&self, key: impl AsRef<[u8]>, value: &mut Vec<u8>) -> Result<bool> {
        let key = key.as_ref();
        let store = self.division.store_of(key);
        self.snapshots[store].get_into(key, value).map_err(RangesError::of_store(store))
    }

    /// Returns all pairs of a key and its value, in the byte order of the keys, across the stores.
    pub fn iter(&self) -> RangesPairs<'_> {
        self.range(..)
    }

    /// Returns the pairs of a range, in the byte order of the keys, across the stores: by keys of one store after
    /// another, by hash merged from all. There it keeps a page of pairs of each store in memory, at first 4 KiB.
    pub fn range(&self, range: impl KeyRange) -> RangesPairs<'_> {
        RangesPairs::new(self, range.to_bounds())
    }

    /// Counts the keys of a range that have a value.
    pub fn count(&self, range: impl KeyRange) -> Result<u64> {
        let bounds = range.to_bounds()?;
        let count = |store: usize| self.snapshots[store].count_within(&bounds).map_err(RangesError::of_store(store));
        self.stores_of(&bounds).map(count).sum()
    }

    /// Closes the snapshot in every store, and returns its stamp.
    ///
    /// Refusal, of a store: `NoSnapshot`, if it was closed there before. The others are closed then too.
    pub fn close(self) -> Result<Stamp> {
        let mut closed = Ok(self.stamp);
        for (store, snapshot) in self.snapshots.into_iter().enumerate() {
            if let Err(error) = snapshot.close() {
                closed = closed.and(Err(RangesError::Store { store, error }));
            }
        }
        closed
    }

    fn merged(&self, bounds: Bounds) -> Result<Merged<'_>> {
        let stores = self.stores_of(&bounds);
        let (mut sources, mut heads) = (Vec::new(), BinaryHeap::new());
        sources.try_reserve_exact(stores.len()).map_err(|_| Error::NO_MEMORY)?;
        heads.try_reserve_exact(stores.len()).map_err(|_| Error::NO_MEMORY)?;
        sources.extend(stores.map(|store| Source::new(self, store, &bounds)));
        let due = 0..sources.len();
        Ok(Merged { sources, is_in_turn: self.division.is_by_keys(), heads, due })
    }

    /// The stores that may have keys of a range.
    fn stores_of(&self, bounds: &Bounds) -> Range<usize> {
        if !self.division.is_by_keys() {
            return 0..self.snapshots.len();
        }
        let end = if bounds.to.is_empty() { self.snapshots.len() } else { self.division.store_of(&bounds.to) + 1 };
        self.division.store_of(&bounds.from)..end
    }
}

impl fmt::Debug for RangesSnapshot {
    fn fmt(&self, f: &mut fmt::Formatter<'_>) -> fmt::Result {
        f.debug_struct("RangesSnapshot").field("stamp", &self.stamp).finish_non_exhaustive()
    }
}

impl<'a> IntoIterator for &'a RangesSnapshot {
    type Item = Result<Pair>;
    type IntoIter = RangesPairs<'a>;

    fn into_iter(self) -> RangesPairs<'a> {
        self.iter()
    }
}

/// The pairs of one store.
struct Source<'a> {
    store: usize,
    pairs: Pairs<'a, SharedStore>,
}

impl<'a> Source<'a> {
    fn new(snapshot: &'a RangesSnapshot, store: usize, bounds: &Bounds) -> Source<'a> {
        Source { store, pairs: Pairs::new(&snapshot.snapshots[store], bounds.copied()) }
    }

    fn next(&mut self) -> Option<Result<Pair>> {
        self.pairs.next().map(|pair| pair.map_err(RangesError::of_store(self.store)))
    }
}

/// The next pair of a source, ordered by its key.
#[derive(PartialEq, Eq, PartialOrd, Ord)]
struct Head {
    key: Vec<u8>,
    value: Vec<u8>,
    source: usize,
}

/// The pairs of several stores, merged.
struct Merged<'a> {
    sources: Vec<Source<'a>>,
    /// Whether the keys of each source are all below those of the next one.
    is_in_turn: bool,
    /// The next pairs that were read: of each source that has one, or in turn of the first one that has.
    heads: BinaryHeap<Reverse<Head>>,
    /// The sources to read from before the next pair is known.
    due: Range<usize>,
}

impl Merged<'_> {
    fn next(&mut self) -> Result<Option<Pair>> {
        for source in mem::take(&mut self.due) {
            if let Some(pair) = self.sources[source].next() {
                let (key, value) = pair?;
                self.heads.push(Reverse(Head { key, value, source }));
                if self.is_in_turn {
                    break;
                }
            }
        }
        let Some(Reverse(Head { key, value, source })) = self.heads.pop() else { return Ok(None) };
        self.due = source..if self.is_in_turn { self.sources.len() } else { source + 1 };
        Ok(Some((key, value)))
    }
}

/// Iterates over the pairs of a key and its value in a range of a snapshot, in the byte order of the keys, across the
/// stores.
///
/// It reads some pairs of a store at a time, so that no store is locked between. It returns an error once, and is at
/// its end then: it returns none from then on.
pub struct RangesPairs<'a> {
    snapshot: &'a RangesSnapshot,
    /// What is left; or an error, until it is returned. None at the end.
    left: Option<Result<Merged<'a>>>,
}

impl<'a> RangesPairs<'a> {
    fn new(snapshot: &'a RangesSnapshot, bounds: crate::Result<Bounds>) -> RangesPairs<'a> {
        let left = bounds.map_err(RangesError::from).and_then(|bounds| snapshot.merged(bounds));
        RangesPairs { snapshot, left: Some(left) }
    }
}

impl Iterator for RangesPairs<'_> {
    type Item = Result<Pair>;

    fn next(&mut self) -> Option<Result<Pair>> {
        let next = match self.left.as_mut()? {
            Ok(merged) => merged.next(),
            Err(error) => Err(*error),
        };
        if !matches!(next, Ok(Some(_))) {
            self.left = None;
        }
        next.transpose()
    }
}

impl FusedIterator for RangesPairs<'_> {}

impl fmt::Debug for RangesPairs<'_> {
    fn fmt(&self, f: &mut fmt::Formatter<'_>) -> fmt::Result {
        f.debug_tuple("RangesPairs").field(self.snapshot).finish()
    }
}
