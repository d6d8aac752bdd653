//! Each request of the C library for memory is refused in its turn, since this program has the functions that it calls
//! for memory: a batch is accepted whole, or nothing of it is.
#![cfg(all(target_os = "linux", target_env = "gnu"))]

use hlcstore::{Batch, ErrorKind, Item, Node, Stamp, Store};
use std::cell::Cell;
use std::ffi::c_void;
use std::ptr;

thread_local! {
    /// How many requests of this thread are granted before one is refused; or none, where all are granted.
    static LEFT: Cell<Option<usize>> = const { Cell::new(None) };
}

unsafe extern "C" {
    fn __libc_malloc(size: usize) -> *mut c_void;
    fn __libc_realloc(place: *mut c_void, size: usize) -> *mut c_void;
}

/// Whether the request that is made now is refused. After one that is, all are granted.
fn is_refused() -> bool {
    let left = LEFT.get();
    LEFT.set(left.and_then(|left| left.checked_sub(1)));
    left == Some(0)
}

#[unsafe(no_mangle)]
unsafe extern "C" fn malloc(size: usize) -> *mut c_void {
    // SAFETY: the request is that of the caller.
    if is_refused() { ptr::null_mut() } else { unsafe { __libc_malloc(size) } }
}

#[unsafe(no_mangle)]
unsafe extern "C" fn realloc(place: *mut c_void, size: usize) -> *mut c_void {
    // SAFETY: the same.
    if is_refused() { ptr::null_mut() } else { unsafe { __libc_realloc(place, size) } }
}

/// A store of two nodes with some keys, of which one has a row.
fn store() -> Store {
    let store = Store::open(2).unwrap();
    for number in 0..3_u64 {
        let key = format!("a long key that needs memory, {number}");
        store.accept(Item::write(0, number, Stamp::new(number + 1, 0), &key, "value")).unwrap();
    }
    store
}

/// What a store has, in bytes.
fn saved(store: &Store) -> Vec<u8> {
    store.checkpoint(0).unwrap()
}

/// Lets a store accept in a way, in which another request is refused each time, until none is. Returns how many were.
fn refuse_each(accept: impl Fn(&Store) -> hlcstore::Result<()>) -> usize {
    for number in 0.. {
        let store = store();
        let before = saved(&store);
        LEFT.set(Some(number));
        let accepted = accept(&store);
        let was_refused = LEFT.replace(None).is_none();
        if !was_refused {
            assert_eq!((accepted, store.rows()), (Ok(()), Ok(3 + 5)));
            return number;
        }
        assert_eq!(accepted.unwrap_err().kind(), ErrorKind::NoMemory);
        assert!(saved(&store) == before, "something is left after the refusal of request {number}");
        assert_eq!(accept(&store), Ok(()), "the item is the next one still");
        assert_eq!(store.rows(), Ok(3 + 5));
    }
    unreachable!()
}

#[test]
fn batch_is_accepted_whole_or_not_at_all() {
    let mut batch = Batch::new();
    for number in 1..6 {
        let key = format!("a long key that needs memory, {number}");
        if number == 4 { batch.delete(key).unwrap() } else { batch.write(key, [b'v'; 400]).unwrap() }
    }
    let item = Node::new(1, Stamp::ZERO).write_batch(9, &batch).unwrap();
    let log = item.encode().unwrap();
    // Of five keys at least three are new, and four values are.
    assert!(refuse_each(|store| store.accept(item)) >= 7);
    assert!(refuse_each(|store| store.accept_items(&log).map(drop).map_err(|stopped| stopped.error)) >= 7);
    assert!(refuse_each(|store| store.apply_records(&log).map(drop).map_err(|stopped| stopped.error)) >= 7);
}
