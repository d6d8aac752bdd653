//! Listings of snapshots: pages, and iterators that go from page to page. What changes between two is listed so too.

use crate::buffer::copied;
use crate::handle::Listed;
use crate::range::Bounds;
use crate::{Access, Error, Result, Snapshot};
use std::cmp::Ordering;
use std::fmt;
use std::iter::FusedIterator;

/// How many bytes an iterator asks for at first; then it asks for twice as many each time, since a listing may be
/// long, or its next pair longer than the page. The greatest room is more than any pair takes.
const FIRST_ROOM: usize = 4096;
const GREATEST_ROOM: usize = 1 << 17;

/// A part of a listing, as the library writes it: for each entry its key, and in a listing of pairs its value, each
/// with its length before it.
#[derive(Clone, Default)]
pub(crate) struct Part {
    bytes: Vec<u8>,
    len: usize,
    has_more: bool,
}

impl Part {
    /// Fills the part with the entries of a range that fit in this many bytes, in place of what it contains.
    pub(crate) fn fill<S: Access>(
        &mut self,
        snapshot: &Snapshot<S>,
        listed: Listed,
        range: &Bounds,
        room: usize,
    ) -> Result<()> {
        (self.len, self.has_more) = snapshot.handle()?.scan(listed, snapshot.id(), range, room, &mut self.bytes)?;
        Ok(())
    }

    /// Whether there was no room for the first entry.
    pub(crate) fn is_short(&self) -> bool {
        self.len == 0 && self.has_more
    }

    /// The first pair of a listing of pairs.
    pub(crate) fn first_pair(&self) -> Result<Option<(Vec<u8>, Vec<u8>)>> {
        copied_pair(&mut Strings { rest: &self.bytes }).transpose()
    }
}

/// The byte strings of a part, each with its length before it.
#[derive(Clone, Debug)]
pub(crate) struct Strings<'a> {
    pub(crate) rest: &'a [u8],
}

impl<'a> Strings<'a> {
    /// Takes an answer: a byte 0 for none, or 1 and the value.
    pub(crate) fn answer(&mut self) -> Option<Option<&'a [u8]>> {
        let (has_value, rest) = self.rest.split_first()?;
        self.rest = rest;
        if *has_value == 0 { Some(None) } else { self.next().map(Some) }
    }

    /// Takes a key and its answer.
    fn change(&mut self) -> Option<(&'a [u8], Option<&'a [u8]>)> {
        Some((self.next()?, self.answer()?))
    }
}

impl<'a> Iterator for Strings<'a> {
    type Item = &'a [u8];

    fn next(&mut self) -> Option<&'a [u8]> {
        let (len, rest) = self.rest.split_first_chunk()?;
        let (string, rest) = rest.split_at_checked(u64::from_le_bytes(*len) as usize)?;
        self.rest = rest;
        Some(string)
    }
}

/// Pairs of a key and its value, which [`Snapshot::scan`] and [`Snapshot::scan_back`] return.
#[derive(Clone)]
pub struct Page(pub(crate) Part);

impl Page {
    /// Returns this many pairs in the form of [`as_bytes`](Page::as_bytes), for programs that make calls of the C
    /// library themselves.
    pub fn from_bytes(bytes: Vec<u8>, len: usize, has_more: bool) -> Page {
        Page(Part { bytes, len, has_more })
    }

    /// Returns how many pairs there are.
    pub fn len(&self) -> usize {
        self.0.len
    }

    /// Returns whether there is no pair.
    pub fn is_empty(&self) -> bool {
        self.0.len == 0
    }

    /// Returns whether the range has more pairs, which did not fit. They have keys above the last one here; of
    /// [`Snapshot::scan_back`] below it.
    pub fn has_more(&self) -> bool {
        self.0.has_more
    }

    /// Returns the pairs, in the byte order of the keys; of [`Snapshot::scan_back`] from the last key on.
    pub fn iter(&self) -> impl Iterator<Item = (&[u8], &[u8])> {
        let mut strings = Strings { rest: &self.0.bytes };
        std::iter::from_fn(move || Some((strings.next()?, strings.next()?)))
    }

    /// Returns the pairs as the C library writes them: for each the length of the key, the key, the length of the
    /// value, and the value. A length has eight bytes, the low one first.
    pub fn as_bytes(&self) -> &[u8] {
        &self.0.bytes
    }
}

impl fmt::Debug for Page {
    fn fmt(&self, f: &mut fmt::Formatter<'_>) -> fmt::Result {
        f.debug_map().entries(self.iter()).finish()
    }
}

/// Keys, which [`Snapshot::scan_keys`] returns.
#[derive(Clone)]
pub struct KeyPage(pub(crate) Part);

impl KeyPage {
    /// Returns this many keys in the form of [`as_bytes`](KeyPage::as_bytes), for programs that make calls of the C
    /// library themselves.
    pub fn from_bytes(bytes: Vec<u8>, len: usize, has_more: bool) -> KeyPage {
        KeyPage(Part { bytes, len, has_more })
    }

    /// Returns how many keys there are.
    pub fn len(&self) -> usize {
        self.0.len
    }

    /// Returns whether there is no key.
    pub fn is_empty(&self) -> bool {
        self.0.len == 0
    }

    /// Returns whether the range has more keys, which did not fit. They are above the last one here.
    pub fn has_more(&self) -> bool {
        self.0.has_more
    }

    /// Returns the keys, in byte order.
    pub fn iter(&self) -> impl Iterator<Item = &[u8]> {
        Strings { rest: &self.0.bytes }
    }

    /// Returns the keys as the C library writes them: for each its length in eight bytes, the low one first, and the
    /// key.
    pub fn as_bytes(&self) -> &[u8] {
        &self.0.bytes
    }
}

impl fmt::Debug for KeyPage {
    fn fmt(&self, f: &mut fmt::Formatter<'_>) -> fmt::Result {
        f.debug_list().entries(self.iter()).finish()
    }
}

/// What changes from one snapshot to another, which [`Snapshot::scan_changes`] returns.
#[derive(Clone)]
pub struct ChangePage(pub(crate) Part);

impl ChangePage {
    /// Returns this many changes in the form of [`as_bytes`](ChangePage::as_bytes), for programs that make calls of the
    /// C library themselves.
    pub fn from_bytes(bytes: Vec<u8>, len: usize, has_more: bool) -> ChangePage {
        ChangePage(Part { bytes, len, has_more })
    }

    /// Returns how many changes there are.
    pub fn len(&self) -> usize {
        self.0.len
    }

    /// Returns whether there is no change.
    pub fn is_empty(&self) -> bool {
        self.0.len == 0
    }

    /// Returns whether the range has more changes, which did not fit. They have keys above the last one here.
    pub fn has_more(&self) -> bool {
        self.0.has_more
    }

    /// Returns the changes, in the byte order of the keys: each key with its value in the other snapshot, or none.
    pub fn iter(&self) -> impl Iterator<Item = (&[u8], Option<&[u8]>)> {
        let mut strings = Strings { rest: &self.0.bytes };
        std::iter::from_fn(move || strings.change())
    }

    /// Returns the changes as the C library writes them: for each the length of the key, in eight bytes, the low one
    /// first, and the key; then a byte 0 where it has no value, or 1, the length of the value and the value.
    pub fn as_bytes(&self) -> &[u8] {
        &self.0.bytes
    }
}

impl fmt::Debug for ChangePage {
    fn fmt(&self, f: &mut fmt::Formatter<'_>) -> fmt::Result {
        f.debug_map().entries(self.iter()).finish()
    }
}

/// Goes through a range of a snapshot, page by page.
struct Listing<'a, S: Access> {
    snapshot: &'a Snapshot<S>,
    listed: Listed,
    /// What is left of the range after the page; or an error, until it is returned.
    range: Result<Bounds>,
    room: usize,
    page: Part,
    /// Where the last entry that was returned, and the next one, begin in the page.
    last: usize,
    next: usize,
}

impl<'a, S: Access> Listing<'a, S> {
    fn new(snapshot: &'a Snapshot<S>, listed: Listed, range: Result<Bounds>) -> Listing<'a, S> {
        let page = Part { has_more: true, ..Part::default() };
        Listing { snapshot, listed, range, room: FIRST_ROOM, page, last: 0, next: 0 }
    }

    /// Returns the next entry, which is copied from the page; or an error, once. After it the listing is at its end.
    fn next_entry<T>(&mut self, copy: impl FnOnce(&mut Strings<'_>) -> Option<Result<T>>) -> Option<Result<T>> {
        let entry = self.find_next().and_then(|()| {
            let mut strings = Strings { rest: &self.page.bytes[self.next..] };
            let entry = copy(&mut strings).transpose();
            self.last = self.next;
            self.next = self.page.bytes.len() - strings.rest.len();
            entry
        });
        if entry.is_err() {
            self.page = Part::default();
            (self.last, self.next) = (0, 0);
        }
        entry.transpose()
    }

    /// Returns the key of the next entry, or none at the end.
    fn next_key(&mut self) -> Result<Option<&[u8]>> {
        self.find_next()?;
        Ok(Strings { rest: &self.page.bytes[self.next..] }.next())
    }

    /// Returns the key of the last entry that was returned, if there was one.
    fn last_key(&self) -> Option<&[u8]> {
        let has_returned = self.next > 0;
        Strings { rest: &self.page.bytes[self.last..] }.next().filter(|_| has_returned)
    }

    /// Loads pages until one has a next entry, or the range is at its end.
    fn find_next(&mut self) -> Result<()> {
        while self.next == self.page.bytes.len() && self.page.has_more {
            let range = self.range.as_mut().map_err(|error| *error)?;
            let last_key = Strings { rest: &self.page.bytes[self.last..] }.next();
            match (last_key, self.listed) {
                (Some(key), Listed::PairsBack) => range.end_before(key)?,
                (Some(key), _) => range.move_after(key)?,
                (None, _) => (),
            }
            (self.last, self.next) = (0, 0);
            self.page.fill(self.snapshot, self.listed, range, self.room)?;
            self.room = (2 * self.room).min(GREATEST_ROOM);
        }
        Ok(())
    }
}

/// Takes a key and its value, and returns copies of them.
fn copied_pair(strings: &mut Strings<'_>) -> Option<Result<(Vec<u8>, Vec<u8>)>> {
    let (key, value) = (strings.next()?, strings.next()?);
    Some(copied(key).and_then(|key| Ok((key, copied(value)?))))
}

/// A listing of pairs from both ends of a range, or of their keys, until they meet.
struct Both<'a, S: Access> {
    snapshot: &'a Snapshot<S>,
    listed: Listed,
    /// The whole range; or an error, until it is returned.
    range: Result<Bounds>,
    /// The listings from the two ends, from their first entries on.
    front: Option<Listing<'a, S>>,
    back: Option<Listing<'a, S>>,
    is_over: bool,
}

impl<'a, S: Access> Both<'a, S> {
    fn new(snapshot: &'a Snapshot<S>, listed: Listed, range: Result<Bounds>) -> Both<'a, S> {
        Both { snapshot, listed, range, front: None, back: None, is_over: false }
    }

    /// Begins a listing of the whole range.
    fn begin(&self, listed: Listed) -> Listing<'a, S> {
        let range = self.range.as_ref().map_err(|error| *error).and_then(Bounds::copied);
        Listing::new(self.snapshot, listed, range)
    }

    /// Returns the next entry from the front.
    fn next<T>(&mut self, copy: impl FnOnce(&mut Strings<'_>) -> Option<Result<T>>) -> Option<Result<T>> {
        let mut front = self.front.take().unwrap_or_else(|| self.begin(self.listed));
        let entry = self.step(&mut front, self.back.as_ref(), Ordering::Less, copy);
        self.front = Some(front);
        self.is_over = !matches!(entry, Some(Ok(_)));
        entry
    }

    /// Returns the next entry from the back, as a pair.
    fn next_back<T>(&mut self, copy: impl FnOnce(&mut Strings<'_>) -> Option<Result<T>>) -> Option<Result<T>> {
        let mut back = self.back.take().unwrap_or_else(|| self.begin(Listed::PairsBack));
        let entry = self.step(&mut back, self.front.as_ref(), Ordering::Greater, copy);
        self.back = Some(back);
        self.is_over = !matches!(entry, Some(Ok(_)));
        entry
    }

    /// Returns the next entry of a listing, unless both are over, or its key is not so beside the last one that the
    /// other listing returned.
    fn step<T>(
        &self,
        listing: &mut Listing<'a, S>,
        other: Option<&Listing<'a, S>>,
        beside: Ordering,
        copy: impl FnOnce(&mut Strings<'_>) -> Option<Result<T>>,
    ) -> Option<Result<T>> {
        if self.is_over {
            return None;
        }
        match (listing.next_key(), other.and_then(Listing::last_key)) {
            (Err(error), _) => return Some(Err(error)),
            (Ok(Some(key)), Some(last)) if key.cmp(last) != beside => return None,
            _ => (),
        }
        listing.next_entry(copy)
    }
}

/// Iterates over the pairs of a key and its value in a range of a snapshot, in the byte order of the keys, from both
/// ends.
///
/// It reads some pairs at a time, so that a shared store is not locked between. It returns an error once, also one of
/// the kind `NoMemory`, and is at its end then: it returns none from then on.
pub struct Pairs<'a, S: Access>(Both<'a, S>);

impl<'a, S: Access> Pairs<'a, S> {
    pub(crate) fn new(snapshot: &'a Snapshot<S>, range: Result<Bounds>) -> Pairs<'a, S> {
        Pairs(Both::new(snapshot, Listed::Pairs, range))
    }
}

impl<S: Access> Iterator for Pairs<'_, S> {
    type Item = Result<(Vec<u8>, Vec<u8>)>;

    fn next(&mut self) -> Option<Self::Item> {
        self.0.next(copied_pair)
    }
}

impl<S: Access> DoubleEndedIterator for Pairs<'_, S> {
    fn next_back(&mut self) -> Option<Self::Item> {
        self.0.next_back(copied_pair)
    }
}

impl<S: Access> FusedIterator for Pairs<'_, S> {}

impl<S: Access> fmt::Debug for Pairs<'_, S> {
    fn fmt(&self, f: &mut fmt::Formatter<'_>) -> fmt::Result {
        f.debug_tuple("Pairs").field(self.0.snapshot).finish()
    }
}

/// Iterates over the pairs of a range of a snapshot from its end, the last key first: [`Pairs`] in reverse.
pub struct PairsBack<'a, S: Access>(Both<'a, S>);

impl<'a, S: Access> PairsBack<'a, S> {
    pub(crate) fn new(snapshot: &'a Snapshot<S>, range: Result<Bounds>) -> PairsBack<'a, S> {
        PairsBack(Both::new(snapshot, Listed::Pairs, range))
    }
}

impl<S: Access> Iterator for PairsBack<'_, S> {
    type Item = Result<(Vec<u8>, Vec<u8>)>;

    fn next(&mut self) -> Option<Self::Item> {
        self.0.next_back(copied_pair)
    }
}

impl<S: Access> DoubleEndedIterator for PairsBack<'_, S> {
    fn next_back(&mut self) -> Option<Self::Item> {
        self.0.next(copied_pair)
    }
}

impl<S: Access> FusedIterator for PairsBack<'_, S> {}

impl<S: Access> fmt::Debug for PairsBack<'_, S> {
    fn fmt(&self, f: &mut fmt::Formatter<'_>) -> fmt::Result {
        f.debug_tuple("PairsBack").field(self.0.snapshot).finish()
    }
}

/// Iterates over what changes from one snapshot to another: in byte order, the keys of a range whose answers differ,
/// each with its value in the other snapshot, or none.
///
/// It reads some changes at a time, so that a shared store is not locked between. It returns an error once, also one of
/// the kind `NoMemory`, and is at its end then: it returns none from then on.
pub struct Changes<'a, S: Access> {
    listing: Listing<'a, S>,
    after: &'a Snapshot<S>,
}

impl<'a, S: Access> Changes<'a, S> {
    pub(crate) fn new(before: &'a Snapshot<S>, after: &'a Snapshot<S>, range: Result<Bounds>) -> Changes<'a, S> {
        let range = if before.has_store_of(after) { range } else { Err(Error::NO_SNAPSHOT) };
        Changes { listing: Listing::new(before, Listed::Changes(after.id()), range), after }
    }
}

impl<S: Access> Iterator for Changes<'_, S> {
    type Item = Result<(Vec<u8>, Option<Vec<u8>>)>;

    fn next(&mut self) -> Option<Self::Item> {
        self.listing.next_entry(|strings| {
            let (key, value) = strings.change()?;
            Some(copied(key).and_then(|key| Ok((key, value.map(copied).transpose()?))))
        })
    }
}

impl<S: Access> FusedIterator for Changes<'_, S> {}

impl<S: Access> fmt::Debug for Changes<'_, S> {
    fn fmt(&self, f: &mut fmt::Formatter<'_>) -> fmt::Result {
        f.debug_tuple("Changes").field(self.listing.snapshot).field(self.after).finish()
    }
}

/// Iterates over the keys with a value in a range of a snapshot, in byte order, from both ends.
///
/// It reads some keys at a time, so that a shared store is not locked between. It returns an error once, also one of
/// the kind `NoMemory`, and is at its end then: it returns none from then on.
pub struct Keys<'a, S: Access>(Both<'a, S>);

impl<'a, S: Access> Keys<'a, S> {
    pub(crate) fn new(snapshot: &'a Snapshot<S>, range: Result<Bounds>) -> Keys<'a, S> {
        Keys(Both::new(snapshot, Listed::Keys, range))
    }
}

impl<S: Access> Iterator for Keys<'_, S> {
    type Item = Result<Vec<u8>>;

    fn next(&mut self) -> Option<Self::Item> {
        self.0.next(|strings| strings.next().map(copied))
    }
}

impl<S: Access> DoubleEndedIterator for Keys<'_, S> {
    fn next_back(&mut self) -> Option<Self::Item> {
        self.0.next_back(|strings| {
            let (key, _) = (strings.next()?, strings.next()?);
            Some(copied(key))
        })
    }
}

impl<S: Access> FusedIterator for Keys<'_, S> {}

impl<S: Access> fmt::Debug for Keys<'_, S> {
    fn fmt(&self, f: &mut fmt::Formatter<'_>) -> fmt::Result {
        f.debug_tuple("Keys").field(self.0.snapshot).finish()
    }
}
