//! Listings of snapshots of a file, which go from page to page.

use crate::Result;
use crate::handle::Handle;
use hlcstore::{KeyRange, Page};
use std::fmt;
use std::iter::FusedIterator;
use std::vec;

/// How many bytes an iterator asks for: at first, and then. The second is more than any entry takes.
const FIRST_ROOM: usize = 4096;
const ROOM: usize = 1 << 17;

/// What is listed: pairs, keys, or changes to another snapshot.
trait Listed {
    type Entry: fmt::Debug;

    /// Whether the last key comes first.
    const IS_BACK: bool = false;

    /// Reads the entries of a range that fit in this many bytes, and returns whether more are left.
    fn load(&self, handle: &Handle, range: &Range, room: usize) -> Result<(Vec<Self::Entry>, bool)>;

    fn key(entry: &Self::Entry) -> &[u8];
}

/// A range as the C library takes it: the keys from the first on and below the second, or all of them on if that has no
/// bytes.
type Range = (Vec<u8>, Vec<u8>);

/// Goes through a range of a snapshot, page by page.
#[derive(Debug)]
struct Listing<'a, L: Listed> {
    handle: &'a Handle,
    listed: L,
    /// What is left of the range after the page; or an error, until it is returned; or none at the end.
    range: Option<Result<Range>>,
    room: usize,
    page: vec::IntoIter<L::Entry>,
}

impl<'a, L: Listed> Listing<'a, L> {
    fn new(handle: &'a Handle, listed: L, range: Result<Range>) -> Listing<'a, L> {
        Listing { handle, listed, range: Some(range), room: FIRST_ROOM, page: Vec::new().into_iter() }
    }

    fn next(&mut self) -> Option<Result<L::Entry>> {
        match self.find_next() {
            Ok(()) => self.page.next().map(Ok),
            Err(error) => Some(Err(error)),
        }
    }

    /// Returns the key of the next entry, or none at the end.
    fn next_key(&mut self) -> Result<Option<&[u8]>> {
        self.find_next()?;
        Ok(self.page.as_slice().first().map(L::key))
    }

    /// Loads pages until one has a next entry, or the range is at its end.
    fn find_next(&mut self) -> Result<()> {
        while self.page.as_slice().is_empty() {
            let Some(range) = self.range.take() else { break };
            self.load(range?)?;
        }
        Ok(())
    }

    /// Loads the next page, and keeps what is left of the range.
    fn load(&mut self, (from, to): Range) -> Result<()> {
        let range = (from, to);
        let (page, has_more) = self.listed.load(self.handle, &range, self.room)?;
        self.room = ROOM;
        if has_more {
            let last = page.last().map(|entry| L::key(entry).to_vec());
            self.range = Some(Ok(rest_of(range, last, L::IS_BACK)));
        }
        self.page = page.into_iter();
        Ok(())
    }
}

/// What is left of a range after its last key that was listed.
fn rest_of((from, to): Range, last: Option<Vec<u8>>, is_back: bool) -> Range {
    match last {
        Some(key) if is_back => (from, key),
        Some(mut key) => {
            key.push(0);
            (key, to)
        }
        None => (from, to),
    }
}

type Pair = (Vec<u8>, Vec<u8>);

/// Copies of the pairs of a page, and whether more are left.
fn pairs_of(page: &Page) -> (Vec<Pair>, bool) {
    (page.iter().map(|(key, value)| (key.to_vec(), value.to_vec())).collect(), page.has_more())
}

/// The pairs of the snapshot of this id.
#[derive(Debug)]
struct OfPairs(u64);

impl Listed for OfPairs {
    type Entry = Pair;

    fn load(&self, handle: &Handle, (from, to): &Range, room: usize) -> Result<(Vec<Pair>, bool)> {
        Ok(pairs_of(&handle.scan(self.0, from, to, room, false)?))
    }

    fn key((key, _): &Pair) -> &[u8] {
        key
    }
}

/// The same from the last one on.
#[derive(Debug)]
struct OfPairsBack(u64);

impl Listed for OfPairsBack {
    type Entry = Pair;
    const IS_BACK: bool = true;

    fn load(&self, handle: &Handle, (from, to): &Range, room: usize) -> Result<(Vec<Pair>, bool)> {
        Ok(pairs_of(&handle.scan(self.0, from, to, room, true)?))
    }

    fn key((key, _): &Pair) -> &[u8] {
        key
    }
}

/// The keys of the snapshot of this id.
#[derive(Debug)]
struct OfKeys(u64);

impl Listed for OfKeys {
    type Entry = Vec<u8>;

    fn load(&self, handle: &Handle, (from, to): &Range, room: usize) -> Result<(Vec<Vec<u8>>, bool)> {
        let page = handle.scan_keys(self.0, from, to, room)?;
        Ok((page.iter().map(<[u8]>::to_vec).collect(), page.has_more()))
    }

    fn key(key: &Vec<u8>) -> &[u8] {
        key
    }
}

type Change = (Vec<u8>, Option<Vec<u8>>);

/// The changes from the snapshot of the first id to that of the second one.
#[derive(Debug)]
struct OfChanges((u64, u64));

impl Listed for OfChanges {
    type Entry = Change;

    fn load(&self, handle: &Handle, (from, to): &Range, room: usize) -> Result<(Vec<Change>, bool)> {
        let page = handle.scan_changes(self.0, from, to, room)?;
        let changes = page.iter().map(|(key, value)| (key.to_vec(), value.map(<[u8]>::to_vec)));
        Ok((changes.collect(), page.has_more()))
    }

    fn key((key, _): &Change) -> &[u8] {
        key
    }
}

/// A listing from both ends of a range, until they meet.
#[derive(Debug)]
struct Both<'a, L: Listed> {
    front: Listing<'a, L>,
    back: Listing<'a, OfPairsBack>,
    /// The last key that was returned from the front, and from the back.
    first: Option<Vec<u8>>,
    last: Option<Vec<u8>>,
    is_over: bool,
}

impl<'a, L: Listed> Both<'a, L> {
    fn new(handle: &'a Handle, listed: L, id: u64, range: impl KeyRange) -> Both<'a, L> {
        let range: Result<Range> = range.ends().map_err(Into::into);
        let front = Listing::new(handle, listed, range.clone());
        let back = Listing::new(handle, OfPairsBack(id), range);
        Both { front, back, first: None, last: None, is_over: false }
    }

    fn next(&mut self) -> Option<Result<L::Entry>> {
        let is_before = |key: &[u8]| self.last.as_deref().is_none_or(|last| key < last);
        next_within(&mut self.front, is_before, &mut self.first, &mut self.is_over)
    }

    fn next_back(&mut self) -> Option<Result<Pair>> {
        let is_behind = |key: &[u8]| self.first.as_deref().is_none_or(|first| key > first);
        next_within(&mut self.back, is_behind, &mut self.last, &mut self.is_over)
    }
}

/// Returns the next entry of a listing, and keeps its key, unless all is over or the other end was there.
fn next_within<L: Listed>(
    listing: &mut Listing<'_, L>,
    is_left: impl FnOnce(&[u8]) -> bool,
    returned: &mut Option<Vec<u8>>,
    is_over: &mut bool,
) -> Option<Result<L::Entry>> {
    if *is_over {
        return None;
    }
    let next = match listing.next_key() {
        Ok(Some(key)) if is_left(key) => {
            let returned = returned.get_or_insert_default();
            returned.clear();
            returned.extend_from_slice(key);
            listing.next()
        }
        Ok(_) => None,
        Err(error) => Some(Err(error)),
    };
    *is_over = !matches!(next, Some(Ok(_)));
    next
}

/// Iterates over the pairs of a key and its value in a range of a snapshot, in the byte order of the keys, from both
/// ends.
///
/// It reads some pairs at a time, so that writes go on between. It returns an error once, and is at its end then.
#[derive(Debug)]
pub struct Pairs<'a>(Both<'a, OfPairs>);

/// Iterates over the pairs of a range of a snapshot from its end, the last key first: [`Pairs`] in reverse.
#[derive(Debug)]
pub struct PairsBack<'a>(Both<'a, OfPairs>);

/// Iterates over the keys with a value in a range of a snapshot, in byte order, as [`Pairs`] does, from both ends.
#[derive(Debug)]
pub struct Keys<'a>(Both<'a, OfKeys>);

/// Iterates over what changes from one snapshot to another, as [`Pairs`] does from the front: in byte order, the keys
/// of a range whose answers differ, each with its value in the other snapshot, or none.
#[derive(Debug)]
pub struct Changes<'a>(Listing<'a, OfChanges>);

impl<'a> Pairs<'a> {
    pub(crate) fn new(handle: &'a Handle, id: u64, range: impl KeyRange) -> Pairs<'a> {
        Pairs(Both::new(handle, OfPairs(id), id, range))
    }
}

impl<'a> PairsBack<'a> {
    pub(crate) fn new(handle: &'a Handle, id: u64, range: impl KeyRange) -> PairsBack<'a> {
        PairsBack(Both::new(handle, OfPairs(id), id, range))
    }
}

impl<'a> Keys<'a> {
    pub(crate) fn new(handle: &'a Handle, id: u64, range: impl KeyRange) -> Keys<'a> {
        Keys(Both::new(handle, OfKeys(id), id, range))
    }
}

impl<'a> Changes<'a> {
    pub(crate) fn new(handle: &'a Handle, ids: Result<(u64, u64)>, range: impl KeyRange) -> Changes<'a> {
        let range = ids.and_then(|_| Ok(range.ends()?));
        Changes(Listing::new(handle, OfChanges(ids.unwrap_or_default()), range))
    }
}

impl Iterator for Pairs<'_> {
    type Item = Result<Pair>;

    fn next(&mut self) -> Option<Self::Item> {
        self.0.next()
    }
}

impl DoubleEndedIterator for Pairs<'_> {
    fn next_back(&mut self) -> Option<Self::Item> {
        self.0.next_back()
    }
}

impl Iterator for PairsBack<'_> {
    type Item = Result<Pair>;

    fn next(&mut self) -> Option<Self::Item> {
        self.0.next_back()
    }
}

impl DoubleEndedIterator for PairsBack<'_> {
    fn next_back(&mut self) -> Option<Self::Item> {
        self.0.next()
    }
}

impl Iterator for Keys<'_> {
    type Item = Result<Vec<u8>>;

    fn next(&mut self) -> Option<Self::Item> {
        self.0.next()
    }
}

impl DoubleEndedIterator for Keys<'_> {
    fn next_back(&mut self) -> Option<Self::Item> {
        self.0.next_back().map(|pair| pair.map(|(key, _)| key))
    }
}

impl Iterator for Changes<'_> {
    type Item = Result<Change>;

    fn next(&mut self) -> Option<Self::Item> {
        self.0.next()
    }
}

impl FusedIterator for Pairs<'_> {}
impl FusedIterator for PairsBack<'_> {}
impl FusedIterator for Keys<'_> {}
impl FusedIterator for Changes<'_> {}
