//! The calls of a store in the C library, with the types of this crate.
//!
//! A call that only asks goes to a copy of the handle, which is this call's own, and takes `&self`: such calls may run
//! beside each other. A call that changes the store takes `&mut self`, so that nothing else runs beside it.

use crate::buffer::{append, reserve};
use crate::error::answer;
use crate::output::{Certificate, Output};
use crate::range::Bounds;
use crate::vacuum::{VacuumPart, Vacuumed};
use crate::{Applied, Content, Error, Item, Link, Node, OpenSnapshot, Result, Sizes, Stamp, Stopped, Version};
use hlcstore_sys as sys;

/// How many bytes of a value are made room for at first.
const VALUE_ROOM: usize = 64;
/// How many bytes a stored key has at most.
const KEY_ROOM: usize = 255;

/// A store of the C library, closed or open. It closes itself.
#[derive(Debug)]
pub struct Handle {
    raw: sys::hlc_store,
    /// How often it was opened. Ids of snapshots begin anew each time.
    openings: u64,
}

// SAFETY: the library has no state of a thread. What changes a store takes `&mut self`; all else passes a copy of the
// handle to the library, which then allows calls to run beside each other.
unsafe impl Send for Handle {}
// SAFETY: the same.
unsafe impl Sync for Handle {}

/// What a scan lists.
#[derive(Clone, Copy, Debug)]
pub(crate) enum Listed {
    Pairs,
    /// Pairs from the end of the range.
    PairsBack,
    Keys,
    /// The changes to the snapshot of this id.
    Changes(u64),
}

// The blocks that are unsafe here call the library. Pointers come from references and slices, are passed with the
// lengths of these, and live until the call returns; what a call writes to is not used otherwise during it. `raw` is
// `HLC_CLOSED_STORE` at first, and only calls of the library change it.
impl Handle {
    pub(crate) fn closed() -> Handle {
        Handle { raw: sys::HLC_CLOSED_STORE, openings: 0 }
    }

    pub(crate) fn open(&mut self, nodes: u16) -> Result<()> {
        self.change(|store, _| unsafe { sys::hlc_store_open(store, nodes) })?;
        self.openings += 1;
        Ok(())
    }

    pub(crate) fn restore(&mut self, bytes: &[u8]) -> Result<u64> {
        let tag =
            self.change(|store, word| unsafe { sys::hlc_store_restore(store, bytes.as_ptr(), bytes.len(), word) })?;
        self.openings += 1;
        Ok(tag)
    }

    /// Opens the store from the pieces of a restore, and ends that.
    pub(crate) fn finish(&mut self, restoring: &mut sys::hlc_restoring) -> Result<u64> {
        let tag = self.change(|store, word| unsafe { sys::hlc_restoring_finish(restoring, store, word) })?;
        self.openings += 1;
        Ok(tag)
    }

    pub(crate) fn openings(&self) -> u64 {
        self.openings
    }

    pub(crate) fn close(&mut self) {
        unsafe { sys::hlc_store_close(&mut self.raw) }
    }

    /// Makes a call that only asks. It gets pointers to a copy of the handle, and to where a word goes.
    fn ask(&self, call: impl FnOnce(*mut sys::hlc_store, *mut u64) -> u32) -> Result<u64> {
        let (mut copy, mut word) = (self.raw, 0);
        let code = call(&mut copy, &mut word);
        answer(code, word)
    }

    /// Makes a call that changes the store. It gets pointers to the handle, and to where a word goes.
    fn change(&mut self, call: impl FnOnce(*mut sys::hlc_store, *mut u64) -> u32) -> Result<u64> {
        let mut word = 0;
        let code = call(&mut self.raw, &mut word);
        answer(code, word)
    }

    // ---- Items ----

    pub(crate) fn accept(&mut self, item: Item<'_>) -> Result<()> {
        let Item { node, number, stamp, content } = item;
        let stamp = stamp.to_bits();
        let accepted = self.change(|store, word| unsafe {
            match content {
                Content::Write { key, value } => {
                    let (key, key_len, value, value_len) = (key.as_ptr(), key.len(), value.as_ptr(), value.len());
                    sys::hlc_store_accept_write(store, node, number, stamp, key, key_len, value, value_len, word)
                }
                Content::Delete { key } => {
                    sys::hlc_store_accept_delete(store, node, number, stamp, key.as_ptr(), key.len(), word)
                }
                Content::Batch(writes) => {
                    let (count, bytes, bytes_len) = (writes.len(), writes.bytes().as_ptr(), writes.bytes().len());
                    sys::hlc_store_accept_batch(store, node, number, stamp, count, bytes, bytes_len, word)
                }
                Content::Report => sys::hlc_store_accept_report(store, node, number, stamp, word),
                Content::Retire => sys::hlc_store_accept_retire(store, node, number, stamp, word),
            }
        });
        accepted.map(drop)
    }

    pub(crate) fn check(&self, item: Item<'_>) -> Result<()> {
        let Item { node, number, stamp, content } = item;
        let stamp = stamp.to_bits();
        let checked = self.ask(|store, word| unsafe {
            match content {
                Content::Write { key, value } => {
                    let (key, key_len, value, value_len) = (key.as_ptr(), key.len(), value.as_ptr(), value.len());
                    sys::hlc_store_check_write(store, node, number, stamp, key, key_len, value, value_len, word)
                }
                Content::Delete { key } => {
                    sys::hlc_store_check_delete(store, node, number, stamp, key.as_ptr(), key.len(), word)
                }
                // What follows for a batch needs no store.
                Content::Batch(_) | Content::Report | Content::Retire => {
                    sys::hlc_store_check_report(store, node, number, stamp, word)
                }
            }
        });
        checked?;
        if let Content::Batch(writes) = content { writes.check() } else { Ok(()) }
    }

    pub(crate) fn accept_all(&mut self, items: &[Item<'_>]) -> std::result::Result<(), Stopped> {
        for (accepted, item) in items.iter().enumerate() {
            self.accept(*item).map_err(|error| Stopped { items: accepted, bytes: 0, threshold: Stamp::ZERO, error })?;
        }
        Ok(())
    }

    pub(crate) fn accept_items(&mut self, log: &[u8]) -> std::result::Result<usize, Stopped> {
        let (mut bytes, mut items) = (0, 0);
        let accepted = self.change(|store, word| unsafe {
            sys::hlc_store_accept_items(store, log.as_ptr(), log.len(), &mut bytes, &mut items, word)
        });
        accepted.map(|_| items).map_err(|error| Stopped { items, bytes, threshold: Stamp::ZERO, error })
    }

    pub(crate) fn apply_records(&mut self, log: &[u8]) -> std::result::Result<Applied, Stopped> {
        let (mut bytes, mut records, mut threshold) = (0, 0, 0);
        let applied = self.change(|store, word| unsafe {
            sys::hlc_store_apply_records(store, log.as_ptr(), log.len(), &mut bytes, &mut records, &mut threshold, word)
        });
        let threshold = Stamp::from_bits(threshold);
        match applied {
            Ok(_) => Ok(Applied { records, bytes, threshold }),
            Err(error) => Err(Stopped { items: records, bytes, threshold, error }),
        }
    }

    pub(crate) fn join(&mut self) -> Result<Node> {
        let mut node = 0;
        let start = self.change(|store, start| unsafe { sys::hlc_store_join(store, &mut node, start) })?;
        Ok(Node::new(node, Stamp::from_bits(start)))
    }

    pub(crate) fn join_at(&mut self, start: Stamp) -> Result<Node> {
        let mut node = 0;
        self.change(|store, word| unsafe { sys::hlc_store_join_at(store, start.to_bits(), &mut node, word) })?;
        Ok(Node::new(node, start))
    }

    // ---- Snapshots ----

    pub(crate) fn open_snapshot(&mut self) -> Result<OpenSnapshot> {
        let mut stamp = 0;
        let id = self.change(|store, id| unsafe { sys::hlc_snapshot_open_at_floor(store, id, &mut stamp) })?;
        Ok(OpenSnapshot { id, stamp: Stamp::from_bits(stamp) })
    }

    pub(crate) fn open_snapshot_at(&mut self, stamp: Stamp) -> Result<OpenSnapshot> {
        let id = self.change(|store, id| unsafe { sys::hlc_snapshot_open(store, stamp.to_bits(), id) })?;
        Ok(OpenSnapshot { id, stamp })
    }

    pub(crate) fn close_snapshot(&mut self, id: u64) -> Result<Stamp> {
        self.change(|store, stamp| unsafe { sys::hlc_snapshot_close(store, id, stamp) }).map(Stamp::from_bits)
    }

    pub(crate) fn close_all(&mut self) -> Result<()> {
        self.change(|store, _| unsafe { sys::hlc_snapshot_close_all(store) }).map(drop)
    }

    /// The open snapshot at a place, by rising ids; or none after the last.
    fn snapshot_at_place(&self, place: u64) -> Result<Option<OpenSnapshot>> {
        let mut stamp = 0;
        match self.ask(|store, id| unsafe { sys::hlc_snapshot_at_place(store, place, id, &mut stamp) }) {
            Ok(id) => Ok(Some(OpenSnapshot { id, stamp: Stamp::from_bits(stamp) })),
            Err(error) if error.code() == sys::HLC_AFTER_LAST => Ok(None),
            Err(error) => Err(error),
        }
    }

    pub(crate) fn snapshots(&self) -> Result<Vec<OpenSnapshot>> {
        let mut open = Vec::new();
        while let Some(snapshot) = self.snapshot_at_place(open.len() as u64)? {
            open.try_reserve(1).map_err(|_| Error::NO_MEMORY)?;
            open.push(snapshot);
        }
        Ok(open)
    }

    pub(crate) fn snapshot_by_id(&self, id: u64) -> Result<OpenSnapshot> {
        let mut place = 0;
        while let Some(snapshot) = self.snapshot_at_place(place)? {
            if snapshot.id == id {
                return Ok(snapshot);
            }
            place += 1;
        }
        Err(Error::NO_SNAPSHOT)
    }

    // ---- Reads in a snapshot ----

    /// Appends the value of a key, and returns whether it has one.
    pub(crate) fn read(&self, id: u64, key: &[u8], out: &mut Vec<u8>) -> Result<bool> {
        if out.spare_capacity_mut().len() < VALUE_ROOM {
            reserve(out, VALUE_ROOM)?;
        }
        let mut copy = self.raw;
        let read = unsafe {
            append(out, |out, room, len| sys::hlc_snapshot_read(&mut copy, id, key.as_ptr(), key.len(), out, room, len))
        };
        match read {
            Ok(()) => Ok(true),
            Err(error) if error.code() == sys::HLC_NO_VALUE => Ok(false),
            Err(error) => Err(error),
        }
    }

    /// Writes the value of a key to the start of a buffer, if it fits, and returns its length; or none.
    pub(crate) fn read_to(&self, id: u64, key: &[u8], out: &mut [u8]) -> Result<Option<usize>> {
        let (mut copy, mut len) = (self.raw, 0);
        let code = unsafe {
            sys::hlc_snapshot_read(&mut copy, id, key.as_ptr(), key.len(), out.as_mut_ptr(), out.len(), &mut len)
        };
        match code {
            sys::HLC_OK => Ok(Some(len)),
            sys::HLC_NO_VALUE => Ok(None),
            _ => Err(Error::new(code, 0)),
        }
    }

    /// Lists the entries of a range that fit in this many bytes. Returns how many these are, and whether more are left.
    pub(crate) fn scan(
        &self,
        listed: Listed,
        id: u64,
        range: &Bounds,
        room: usize,
        out: &mut Vec<u8>,
    ) -> Result<(usize, bool)> {
        out.clear();
        reserve(out, room)?;
        let (from, from_len, to, to_len) = range.pointers();
        let (mut copy, mut len, mut many) = (self.raw, 0, 0);
        let (store, place, len_at, many_at) = (&mut copy, out.as_mut_ptr(), &mut len, &mut many);
        let code = unsafe {
            match listed {
                Listed::Pairs => {
                    sys::hlc_snapshot_scan(store, id, from, from_len, to, to_len, place, room, len_at, many_at)
                }
                Listed::PairsBack => {
                    sys::hlc_snapshot_scan_back(store, id, from, from_len, to, to_len, place, room, len_at, many_at)
                }
                Listed::Keys => {
                    sys::hlc_snapshot_scan_keys(store, id, from, from_len, to, to_len, place, room, len_at, many_at)
                }
                Listed::Changes(after) => sys::hlc_snapshot_changes(
                    store, id, after, from, from_len, to, to_len, place, room, len_at, many_at,
                ),
            }
        };
        let is_more_left = is_more_left(code)?;
        // The call has written these bytes.
        unsafe { out.set_len(len) };
        Ok((many, is_more_left))
    }

    pub(crate) fn count(&self, id: u64, range: &Bounds) -> Result<u64> {
        let (from, from_len, to, to_len) = range.pointers();
        self.ask(|store, many| unsafe { sys::hlc_snapshot_count(store, id, from, from_len, to, to_len, many) })
    }

    pub(crate) fn digest(&self, id: u64, range: &Bounds) -> Result<[u8; 32]> {
        let (from, from_len, to, to_len) = range.pointers();
        let (mut digest, mut len) = ([0; 32], 0);
        self.ask(|store, _| unsafe {
            let (out, room) = (digest.as_mut_ptr(), digest.len());
            sys::hlc_snapshot_digest(store, id, from, from_len, to, to_len, out, room, &mut len)
        })?;
        Ok(digest)
    }

    // ---- What the store has ----

    pub(crate) fn floor(&self) -> Result<Stamp> {
        self.ask(|store, stamp| unsafe { sys::hlc_store_floor(store, stamp) }).map(Stamp::from_bits)
    }

    pub(crate) fn horizon(&self) -> Result<Stamp> {
        self.ask(|store, stamp| unsafe { sys::hlc_store_horizon(store, stamp) }).map(Stamp::from_bits)
    }

    pub(crate) fn rows(&self) -> Result<u64> {
        self.ask(|store, rows| unsafe { sys::hlc_store_rows(store, rows) })
    }

    pub(crate) fn sizes(&self) -> Result<Sizes> {
        let mut sizes = Sizes::default();
        let Sizes { keys, key_bytes, value_bytes, .. } = &mut sizes;
        sizes.rows =
            self.ask(|store, rows| unsafe { sys::hlc_store_size(store, rows, keys, key_bytes, value_bytes) })?;
        Ok(sizes)
    }

    pub(crate) fn nodes(&self) -> Result<u64> {
        self.ask(|store, many| unsafe { sys::hlc_store_nodes(store, many) })
    }

    pub(crate) fn link(&self, node: u16) -> Result<Link> {
        let (mut head, mut is_retired) = (0, false);
        let next_number =
            self.ask(|store, next| unsafe { sys::hlc_store_link(store, node, next, &mut head, &mut is_retired) })?;
        Ok(Link { next_number, head: Stamp::from_bits(head), is_retired })
    }

    pub(crate) fn floor_node(&self) -> Result<Option<u16>> {
        match self.ask(|store, node| unsafe { sys::hlc_store_floor_node(store, node) }) {
            // A node's number is below 1,024.
            Ok(node) => Ok(Some(node as u16)),
            Err(error) if error.code() == sys::HLC_ALL_RETIRED => Ok(None),
            Err(error) => Err(error),
        }
    }

    pub(crate) fn versions(&self, key: &[u8], above: Stamp, to: Stamp) -> Result<Vec<Version>> {
        let (key, key_len, above, to) = (key.as_ptr(), key.len(), above.to_bits(), to.to_bits());
        let (mut copy, mut bytes, mut many) = (self.raw, Vec::new(), 0);
        reserve(&mut bytes, VALUE_ROOM)?;
        unsafe {
            append(&mut bytes, |out, room, len| {
                sys::hlc_store_versions(&mut copy, key, key_len, above, to, out, room, len, &mut many)
            })?;
        }
        Version::from_bytes(&bytes, many)
    }

    pub(crate) fn checkpoint(&self, tag: u64) -> Result<Output> {
        let mut saved = Output::none();
        let (output, len) = saved.place();
        self.ask(|store, _| unsafe { sys::hlc_checkpoint_make(store, tag, output, len) })?;
        Ok(saved)
    }

    /// Starts a saving in pieces.
    pub(crate) fn start_saving(&self, saving: &mut sys::hlc_saving, tag: u64) -> Result<()> {
        self.ask(|store, len| unsafe { sys::hlc_saving_start(saving, store, tag, len) }).map(drop)
    }

    /// Reads the next piece of a saving, which is as long as there is room. Returns whether more are left.
    pub(crate) fn read_saving(&self, saving: &mut sys::hlc_saving, piece: &mut Vec<u8>) -> Result<bool> {
        piece.clear();
        let (mut copy, mut len) = (self.raw, 0);
        let (out, room) = (piece.as_mut_ptr(), piece.capacity());
        let is_more_left = is_more_left(unsafe { sys::hlc_saving_read(saving, &mut copy, out, room, &mut len) })?;
        // The call has written these bytes.
        unsafe { piece.set_len(len) };
        Ok(is_more_left)
    }

    pub(crate) fn increment(&self, since: Stamp, tag: u64) -> Result<Output> {
        let mut saved = Output::none();
        let (output, len) = saved.place();
        self.ask(|store, horizon| unsafe {
            sys::hlc_increment_make(store, since.to_bits(), tag, output, len, horizon)
        })?;
        Ok(saved)
    }

    // ---- Vacuums ----

    pub(crate) fn vacuum(&mut self) -> Result<Vacuumed> {
        let mut made = Numbers::default();
        let Numbers { stamp, kept, bytes, dropped } = &mut made;
        self.change(|store, _| unsafe { sys::hlc_store_vacuum(store, stamp, kept, bytes, dropped) })?;
        Ok(made.vacuumed())
    }

    pub(crate) fn vacuum_to(&mut self, to: Stamp) -> Result<Vacuumed> {
        let mut made = Numbers::default();
        let Numbers { kept, bytes, dropped, .. } = &mut made;
        made.stamp = self.change(|store, word| unsafe {
            sys::hlc_store_vacuum_to(store, to.to_bits(), word, kept, bytes, dropped)
        })?;
        Ok(made.vacuumed())
    }

    pub(crate) fn vacuum_part(&mut self, to: Stamp, after: &[u8], limit: usize) -> Result<VacuumPart> {
        let (mut made, mut next) = (Numbers::default(), Vec::new());
        let (mut len, mut more) = (0, false);
        // A part of no keys ends where it begins.
        reserve(&mut next, KEY_ROOM.max(after.len()))?;
        let Numbers { kept, bytes, dropped, .. } = &mut made;
        let (at, at_len, out, room) = (after.as_ptr(), after.len(), next.as_mut_ptr(), next.capacity());
        made.stamp = self.change(|store, word| unsafe {
            let to = to.to_bits();
            sys::hlc_store_vacuum_part(
                store, to, at, at_len, limit, word, kept, bytes, dropped, out, room, &mut len, &mut more,
            )
        })?;
        assert!(len <= room, "a stored key has at most {KEY_ROOM} bytes");
        // SAFETY: there was room for the key, so the call has written these bytes.
        unsafe { next.set_len(len) };
        Ok(VacuumPart { vacuumed: made.vacuumed(), next: more.then_some(next) })
    }

    pub(crate) fn check_vacuum(&self, to: Stamp) -> Result<()> {
        self.ask(|store, word| unsafe { sys::hlc_store_check_vacuum(store, to.to_bits(), word) }).map(drop)
    }

    pub(crate) fn certificate(&self, at: Stamp) -> Result<Certificate> {
        let (mut kept, mut bytes, mut text) = (0, 0, Output::none());
        let (output, len) = text.place();
        self.ask(|store, word| unsafe {
            sys::hlc_certificate_make(store, at.to_bits(), word, &mut kept, &mut bytes, output, len)
        })?;
        Ok(Certificate { kept, bytes, text })
    }
}

impl Drop for Handle {
    fn drop(&mut self) {
        self.close();
    }
}

/// Whether a call that returns as much as there is room for left a part.
fn is_more_left(code: u32) -> Result<bool> {
    if code == sys::HLC_MORE { Ok(true) } else { answer(code, 0).map(|_| false) }
}

/// What a vacuum writes: the stamp up to which it went, or the word of a refusal, and the numbers of rows and bytes.
#[derive(Clone, Copy, Default)]
struct Numbers {
    stamp: u64,
    kept: u64,
    bytes: u64,
    dropped: u64,
}

impl Numbers {
    fn vacuumed(self) -> Vacuumed {
        let Numbers { stamp, kept, bytes, dropped } = self;
        Vacuumed { stamp: Stamp::from_bits(stamp), kept, bytes, dropped }
    }
}
