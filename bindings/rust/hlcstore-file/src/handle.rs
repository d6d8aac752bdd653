//! The calls of a file in the C library, with the types of this crate.

use crate::{Error, Promise, Result, Status, Stopped};
use hlcstore::{ChangePage, KeyPage, Link, Page, SaveError, Sizes, Stamp, Vacuumed, Version};
use hlcstore_file_sys as sys;
use hlcstore_sys::{self as store, hlc_store};
use std::ffi::CStr;
use std::io::Write;
use std::mem::ManuallyDrop;
use std::ptr::{self, NonNull};

/// The answers of hlcstore.h that the calls here tell apart.
const OK: u32 = 0;
const NO_MEMORY: u32 = 15;
const NO_VALUE: u32 = 102;
const MORE: u32 = 104;
/// How many bytes a value has at most.
const VALUE_ROOM: usize = 65_535;
/// How many bytes of a value are made room for at first, where it may be read again under the same lock.
const SHORT_ROOM: usize = 64;
/// How many bytes of rows are made room for at first.
const ROWS_ROOM: usize = 1024;
/// How many bytes a piece of a checkpoint has; the last one may have fewer.
const PIECE: usize = 1 << 16;

fn answer<T>(code: u32, word: u64, value: T) -> Result<T> {
    if code == OK { Ok(value) } else { Err(Error::new(code, word)) }
}

/// Room for this many bytes.
fn with_room(room: usize) -> Result<Vec<u8>> {
    let mut bytes = Vec::new();
    bytes.try_reserve_exact(room).map_err(|_| Error::new(NO_MEMORY, 0))?;
    Ok(bytes)
}

/// The bytes of a page, how many entries these are, and whether more are left.
type Filled = (Vec<u8>, usize, bool);

/// Makes a call that fills a page of this many bytes. It gets the place for them, how many there is room for, and where
/// it writes how many bytes and how many entries there are.
///
/// # Safety
///
/// If the call returns `OK` or `MORE`, it has written that many bytes to the place.
unsafe fn fill(room: usize, call: impl FnOnce(*mut u8, usize, &mut usize, &mut usize) -> u32) -> Result<Filled> {
    let (mut bytes, mut len, mut many) = (with_room(room)?, 0, 0);
    let code = call(bytes.as_mut_ptr(), room, &mut len, &mut many);
    if code != OK && code != MORE {
        return Err(Error::new(code, 0));
    }
    // SAFETY: the call has written these bytes.
    unsafe { bytes.set_len(len) };
    Ok((bytes, many, code == MORE))
}

/// Makes a call that writes a value, with so much room at first. It gets the place for the value, how many bytes there
/// is room for, and where it writes how many there are. It is made again with more room where that was too little.
fn value_of(mut room: usize, mut read: impl FnMut(*mut u8, usize, &mut usize) -> u32) -> Result<Option<Vec<u8>>> {
    loop {
        let (mut value, mut len) = (with_room(room)?, 0);
        let code = read(value.as_mut_ptr(), room, &mut len);
        if code == NO_VALUE {
            return Ok(None);
        }
        answer(code, 0, ())?;
        if len <= room {
            // SAFETY: there was room, so the call has written these bytes.
            unsafe { value.set_len(len) };
            value.shrink_to_fit();
            return Ok(Some(value));
        }
        room = len;
    }
}

/// What an answer says. It needs no memory but the caller's.
pub(crate) fn text(code: u32, out: &mut [u8; 256]) -> &str {
    let mut len = 0;
    // SAFETY: `out` has this length.
    unsafe { sys::hlc_file_error_text(code, out.as_mut_ptr(), out.len(), &mut len) };
    out.get(..len).and_then(|text| std::str::from_utf8(text).ok()).unwrap_or_default()
}

/// An open file of the C library. It closes itself.
#[derive(Debug)]
pub(crate) struct Handle(NonNull<sys::hlc_file>);

// SAFETY: the library allows calls of several threads with one file.
unsafe impl Send for Handle {}
// SAFETY: the same.
unsafe impl Sync for Handle {}

/// Which node makes an event, and the reading of its clock.
#[derive(Clone, Copy, Debug)]
pub(crate) struct Origin {
    pub(crate) node: u16,
    pub(crate) reading: u64,
}

type Event = unsafe extern "C" fn(*mut sys::hlc_file, u16, u64, *mut u64) -> u32;
type Vacuum = unsafe extern "C" fn(*mut sys::hlc_file, u64, *mut u64, *mut u64, *mut u64, *mut u64) -> u32;

// The blocks that are unsafe here call the library with a file that is open. Pointers come from references and slices,
// are passed with the lengths of these, and live until the call returns; what a call writes to is not used otherwise
// during it.
impl Handle {
    pub(crate) fn open(path: &CStr, options: &sys::hlc_file_options) -> Result<Handle> {
        let (mut file, mut state) = (ptr::null_mut(), sys::hlc_file_state::default());
        let code = unsafe { sys::hlc_file_open(path.as_ptr(), options, &mut file, &mut state) };
        let refusal = Error::new(code, state.word).with_sqlite(state.sqlite);
        NonNull::new(file).map(Handle).ok_or(refusal)
    }

    pub(crate) fn close(self) -> Result<()> {
        let file = ManuallyDrop::new(self);
        answer(unsafe { sys::hlc_file_close(file.0.as_ptr()) }, 0, ())
    }

    /// Makes a call that writes a word. It gets pointers to the file, and to where the word goes.
    fn call(&self, call: impl FnOnce(*mut sys::hlc_file, *mut u64) -> u32) -> Result<u64> {
        let mut word = 0;
        let code = call(self.0.as_ptr(), &mut word);
        answer(code, word, word)
    }

    fn stamp(&self, call: impl FnOnce(*mut sys::hlc_file, *mut u64) -> u32) -> Result<Stamp> {
        self.call(call).map(Stamp::from_bits)
    }

    pub(crate) fn status(&self) -> Result<Status> {
        let mut state = sys::hlc_file_state { size: size_of::<sys::hlc_file_state>(), ..Default::default() };
        let code = unsafe { sys::hlc_file_status(self.0.as_ptr(), &mut state) };
        answer(code, 0, Status::new(state))
    }

    // ---- Writes ----

    pub(crate) fn append(&self, from: Origin, batch: &mut BatchHandle, promise: Promise) -> Result<Stamp> {
        let (batch, promise) = (batch.0.as_ptr(), promise.to_number());
        self.stamp(|file, word| unsafe { sys::hlc_file_append(file, from.node, from.reading, batch, promise, word) })
    }

    pub(crate) fn write_batch(&self, from: Origin, batch: &mut BatchHandle, promise: Promise) -> Result<Stamp> {
        let (batch, promise) = (batch.0.as_ptr(), promise.to_number());
        self.stamp(|file, word| unsafe {
            sys::hlc_file_write_batch(file, from.node, from.reading, batch, promise, word)
        })
    }

    pub(crate) fn write(&self, from: Origin, key: &[u8], value: &[u8]) -> Result<Stamp> {
        let (key, key_len, value, value_len) = (key.as_ptr(), key.len(), value.as_ptr(), value.len());
        self.stamp(|file, word| unsafe {
            sys::hlc_file_write(file, from.node, from.reading, key, key_len, value, value_len, word)
        })
    }

    pub(crate) fn delete(&self, from: Origin, key: &[u8]) -> Result<Stamp> {
        let (key, key_len) = (key.as_ptr(), key.len());
        self.stamp(|file, word| unsafe { sys::hlc_file_delete(file, from.node, from.reading, key, key_len, word) })
    }

    /// Makes an event that has nothing but its stamp.
    fn event(&self, event: Event, from: Origin) -> Result<Stamp> {
        self.stamp(|file, word| unsafe { event(file, from.node, from.reading, word) })
    }

    pub(crate) fn report(&self, from: Origin) -> Result<Stamp> {
        self.event(sys::hlc_file_report, from)
    }

    pub(crate) fn retire(&self, from: Origin) -> Result<Stamp> {
        self.event(sys::hlc_file_retire, from)
    }

    pub(crate) fn send(&self, from: Origin) -> Result<Stamp> {
        self.event(sys::hlc_file_send, from)
    }

    pub(crate) fn receive(&self, from: Origin, seen: Stamp) -> Result<Stamp> {
        let Origin { node, reading } = from;
        self.stamp(|file, word| unsafe { sys::hlc_file_receive(file, node, seen.to_bits(), reading, word) })
    }

    pub(crate) fn join(&self) -> Result<(u16, Stamp)> {
        let mut node = 0;
        let start = self.stamp(|file, start| unsafe { sys::hlc_file_join(file, &mut node, start) })?;
        Ok((node, start))
    }

    pub(crate) fn append_records(&self, log: &[u8], promise: Promise) -> std::result::Result<usize, Stopped> {
        let mut records = 0;
        let appended = self.call(|file, word| unsafe {
            let promise = promise.to_number();
            sys::hlc_file_append_records(file, log.as_ptr(), log.len(), promise, &mut records, word)
        });
        appended.map(|_| records).map_err(|error| Stopped { records, error })
    }

    pub(crate) fn checkpoint(&self) -> Result<u64> {
        self.call(|file, place| unsafe { sys::hlc_file_checkpoint(file, place) })
    }

    /// Copies the whole state, with a tag of the caller's.
    pub(crate) fn copy(&self, tag: u64) -> Result<Copied> {
        let mut copied = Copied { raw: store::HLC_NO_OUTPUT, len: 0 };
        let code = unsafe { sys::hlc_file_copy(self.0.as_ptr(), tag, &mut copied.raw, &mut copied.len) };
        answer(code, 0, copied)
    }

    fn vacuum(&self, call: Vacuum, to: u64) -> Result<Vacuumed> {
        let (mut kept, mut bytes, mut dropped) = (0, 0, 0);
        let stamp = self.stamp(|file, word| unsafe { call(file, to, word, &mut kept, &mut bytes, &mut dropped) })?;
        Ok(Vacuumed { stamp, kept, bytes, dropped })
    }

    pub(crate) fn vacuum_to(&self, stamp: Stamp) -> Result<Vacuumed> {
        self.vacuum(sys::hlc_file_vacuum_to, stamp.to_bits())
    }

    pub(crate) fn vacuum_older(&self, milliseconds: u64) -> Result<Vacuumed> {
        self.vacuum(sys::hlc_file_vacuum_older, milliseconds)
    }

    // ---- Reads ----

    /// Returns the snapshot's id and its stamp.
    pub(crate) fn open_snapshot(&self, at: Option<Stamp>) -> Result<(u64, Stamp)> {
        let mut stamp = at.map_or(0, Stamp::to_bits);
        let id = self.call(|file, id| unsafe {
            match at {
                Some(_) => sys::hlc_file_open_snapshot(file, stamp, id),
                None => sys::hlc_file_open_snapshot_at_floor(file, id, &mut stamp),
            }
        })?;
        Ok((id, Stamp::from_bits(stamp)))
    }

    pub(crate) fn close_snapshot(&self, id: u64) -> Result<Stamp> {
        self.stamp(|file, stamp| unsafe { sys::hlc_file_close_snapshot(file, id, stamp) })
    }

    pub(crate) fn read(&self, id: u64, key: &[u8]) -> Result<Option<Vec<u8>>> {
        value_of(VALUE_ROOM, |out, room, len| unsafe {
            sys::hlc_file_read(self.0.as_ptr(), id, key.as_ptr(), key.len(), out, room, len)
        })
    }

    /// Reads keys while the store is lent once.
    pub(crate) fn read_all(&self, id: u64, keys: &[&[u8]]) -> Result<Vec<Option<Vec<u8>>>> {
        let mut values = Vec::new();
        values.try_reserve_exact(keys.len()).map_err(|_| Error::new(NO_MEMORY, 0))?;
        self.lend(|lent| {
            for key in keys {
                values.push(value_of(SHORT_ROOM, |out, room, len| unsafe {
                    store::hlc_snapshot_read(lent, id, key.as_ptr(), key.len(), out, room, len)
                })?);
            }
            Ok(values)
        })
    }

    /// Returns the pairs of a range that fit in this many bytes, in byte order or from the last on.
    pub(crate) fn scan(&self, id: u64, from: &[u8], to: &[u8], room: usize, is_back: bool) -> Result<Page> {
        let scan = if is_back { sys::hlc_file_scan_back } else { sys::hlc_file_scan };
        let (from, from_len, to, to_len, file) = (from.as_ptr(), from.len(), to.as_ptr(), to.len(), self.0.as_ptr());
        let (bytes, many, has_more) = unsafe {
            fill(room, |out, room, len, many| scan(file, id, from, from_len, to, to_len, out, room, len, many))?
        };
        Ok(Page::from_bytes(bytes, many, has_more))
    }

    /// Returns the keys of a range that fit in this many bytes.
    pub(crate) fn scan_keys(&self, id: u64, from: &[u8], to: &[u8], room: usize) -> Result<KeyPage> {
        let (from, from_len, to, to_len) = (from.as_ptr(), from.len(), to.as_ptr(), to.len());
        let (bytes, many, has_more) = unsafe {
            fill(room, |out, room, len, many| {
                self.lend(|lent| {
                    store::hlc_snapshot_scan_keys(lent, id, from, from_len, to, to_len, out, room, len, many)
                })
            })?
        };
        Ok(KeyPage::from_bytes(bytes, many, has_more))
    }

    /// Returns the changes of a range from one snapshot to another that fit in this many bytes.
    pub(crate) fn scan_changes(&self, ids: (u64, u64), from: &[u8], to: &[u8], room: usize) -> Result<ChangePage> {
        let ((before, after), from_len, to_len) = (ids, from.len(), to.len());
        let (from, to) = (from.as_ptr(), to.as_ptr());
        let (bytes, many, has_more) = unsafe {
            fill(room, |out, room, len, many| {
                self.lend(|lent| {
                    store::hlc_snapshot_changes(lent, before, after, from, from_len, to, to_len, out, room, len, many)
                })
            })?
        };
        Ok(ChangePage::from_bytes(bytes, many, has_more))
    }

    pub(crate) fn count(&self, id: u64, from: &[u8], to: &[u8]) -> Result<u64> {
        let (from, from_len, to, to_len) = (from.as_ptr(), from.len(), to.as_ptr(), to.len());
        self.call(|file, many| unsafe { sys::hlc_file_count(file, id, from, from_len, to, to_len, many) })
    }

    pub(crate) fn digest(&self, id: u64, from: &[u8], to: &[u8]) -> Result<[u8; 32]> {
        let (from, from_len, to, to_len) = (from.as_ptr(), from.len(), to.as_ptr(), to.len());
        let (mut digest, mut len) = ([0; 32], 0);
        let (out, room) = (digest.as_mut_ptr(), digest.len());
        let digested = self.lend(|lent| unsafe {
            store::hlc_snapshot_digest(lent, id, from, from_len, to, to_len, out, room, &mut len)
        });
        answer(digested, 0, digest)
    }

    // ---- What the store has ----

    /// Lends the store to calls that only ask, and returns their answer. They get a pointer to a copy of the store's
    /// handle, and make no other call with the file.
    fn lend<T>(&self, calls: impl FnOnce(*mut hlc_store) -> T) -> T {
        let mut mine = store::HLC_CLOSED_STORE;
        unsafe { sys::hlc_file_read_begin(self.0.as_ptr(), &mut mine) };
        let answer = calls(&mut mine);
        unsafe { sys::hlc_file_read_end(self.0.as_ptr()) };
        answer
    }

    /// Lends the store to a call that writes a word, which it gets a pointer to.
    fn ask(&self, call: impl FnOnce(*mut hlc_store, *mut u64) -> u32) -> Result<u64> {
        let mut word = 0;
        let code = self.lend(|lent| call(lent, &mut word));
        answer(code, word, word)
    }

    pub(crate) fn rows(&self) -> Result<u64> {
        self.ask(|lent, rows| unsafe { store::hlc_store_rows(lent, rows) })
    }

    pub(crate) fn sizes(&self) -> Result<Sizes> {
        let mut sizes = Sizes::default();
        let Sizes { keys, key_bytes, value_bytes, .. } = &mut sizes;
        sizes.rows =
            self.ask(|lent, rows| unsafe { store::hlc_store_size(lent, rows, keys, key_bytes, value_bytes) })?;
        Ok(sizes)
    }

    pub(crate) fn nodes(&self) -> Result<u64> {
        self.ask(|lent, nodes| unsafe { store::hlc_store_nodes(lent, nodes) })
    }

    pub(crate) fn link(&self, node: u16) -> Result<Link> {
        let (mut head, mut is_retired) = (0, false);
        let next_number =
            self.ask(|lent, next| unsafe { store::hlc_store_link(lent, node, next, &mut head, &mut is_retired) })?;
        Ok(Link { next_number, head: Stamp::from_bits(head), is_retired })
    }

    pub(crate) fn floor_node(&self) -> Result<Option<u16>> {
        match self.ask(|lent, node| unsafe { store::hlc_store_floor_node(lent, node) }) {
            // A node's number is below 1,024.
            Ok(node) => Ok(Some(node as u16)),
            Err(error) if error.code() == store::HLC_ALL_RETIRED => Ok(None),
            Err(error) => Err(error),
        }
    }

    /// Returns the rows of a key above one stamp and at or below another.
    pub(crate) fn versions(&self, key: &[u8], above: Stamp, to: Stamp) -> Result<Vec<Version>> {
        let (key, key_len, above, to) = (key.as_ptr(), key.len(), above.to_bits(), to.to_bits());
        let mut needed = ROWS_ROOM;
        loop {
            let (mut rows, room, mut many) = (with_room(needed)?, needed, 0);
            let out = rows.as_mut_ptr();
            let code = self.lend(|lent| unsafe {
                store::hlc_store_versions(lent, key, key_len, above, to, out, room, &mut needed, &mut many)
            });
            answer(code, 0, ())?;
            // Other threads may add rows between two calls.
            if needed <= room {
                // There was room, so the call has written these bytes.
                unsafe { rows.set_len(needed) };
                return Ok(Version::from_bytes(&rows, many)?);
            }
        }
    }

    pub(crate) fn floor(&self) -> Result<Stamp> {
        self.stamp(|file, stamp| unsafe { sys::hlc_file_floor(file, stamp) })
    }

    pub(crate) fn horizon(&self) -> Result<Stamp> {
        self.stamp(|file, stamp| unsafe { sys::hlc_file_horizon(file, stamp) })
    }
}

impl Drop for Handle {
    fn drop(&mut self) {
        unsafe { sys::hlc_file_close(self.0.as_ptr()) };
    }
}

/// A refusal of the store, in a call that writes its state.
pub(crate) fn as_saving(error: Error) -> SaveError {
    SaveError::Store(hlcstore::Error::new(error.code(), error.word()))
}

/// The bytes of a state that was copied.
pub(crate) struct Copied {
    raw: store::hlc_output,
    len: usize,
}

impl Copied {
    /// Writes the bytes in pieces, and returns how many they are.
    pub(crate) fn write_to<W: Write + ?Sized>(mut self, out: &mut W) -> std::result::Result<u64, SaveError> {
        let (mut piece, mut at) = (with_room(self.len.min(PIECE)).map_err(as_saving)?, 0);
        while at < self.len {
            let mut len = 0;
            // SAFETY: the piece has room for this many bytes, and the call writes the first `len` of them.
            unsafe {
                store::hlc_output_read(&mut self.raw, at, piece.as_mut_ptr(), piece.capacity().min(PIECE), &mut len);
                piece.set_len(len);
            }
            out.write_all(&piece)?;
            at += len;
        }
        Ok(self.len as u64)
    }
}

impl Drop for Copied {
    fn drop(&mut self) {
        // SAFETY: `raw` is `HLC_NO_OUTPUT` at first, only calls of the library change it, and it is not copied.
        unsafe { store::hlc_output_drop(&mut self.raw) }
    }
}

/// A batch of the C library. It frees itself.
#[derive(Debug)]
pub(crate) struct BatchHandle(NonNull<sys::hlc_file_batch>);

// SAFETY: a batch belongs to no thread, and what changes it takes `&mut self`.
unsafe impl Send for BatchHandle {}
// SAFETY: the only call with a shared reference reads a number.
unsafe impl Sync for BatchHandle {}

impl BatchHandle {
    pub(crate) fn new() -> Result<BatchHandle> {
        let mut batch = ptr::null_mut();
        let code = unsafe { sys::hlc_file_batch_new(&mut batch) };
        NonNull::new(batch).map(BatchHandle).ok_or(Error::new(code, 0))
    }

    pub(crate) fn put(&mut self, key: &[u8], value: &[u8]) -> Result<()> {
        let (key, key_len, value, value_len) = (key.as_ptr(), key.len(), value.as_ptr(), value.len());
        answer(unsafe { sys::hlc_file_batch_put(self.0.as_ptr(), key, key_len, value, value_len) }, 0, ())
    }

    pub(crate) fn delete(&mut self, key: &[u8]) -> Result<()> {
        answer(unsafe { sys::hlc_file_batch_delete(self.0.as_ptr(), key.as_ptr(), key.len()) }, 0, ())
    }

    pub(crate) fn many(&self) -> usize {
        unsafe { sys::hlc_file_batch_many(self.0.as_ptr()) }
    }

    pub(crate) fn clear(&mut self) {
        unsafe { sys::hlc_file_batch_clear(self.0.as_ptr()) }
    }
}

impl Drop for BatchHandle {
    fn drop(&mut self) {
        unsafe { sys::hlc_file_batch_drop(self.0.as_ptr()) }
    }
}
