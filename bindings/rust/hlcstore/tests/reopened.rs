//! Snapshots of a store that was closed and opened again: each call is refused, and their end leaves the new snapshots
//! open, although these have the same ids.

use hlcstore::{ErrorKind, Node, Result, SharedStore, Stamp, Store};
use std::fmt::Debug;

/// A checkpoint of a store with one open snapshot, in which the key has the value `two`.
fn saved() -> Vec<u8> {
    let store = Store::open(1).unwrap();
    store.accept(Node::new(0, Stamp::ZERO).write(1, b"key", b"two").unwrap()).unwrap();
    store.snapshot().unwrap().keep();
    store.checkpoint(7).unwrap()
}

fn kind<T: Debug>(result: Result<T>) -> ErrorKind {
    result.unwrap_err().kind()
}

/// The kind of refusal of all calls of a snapshot, which must be the same.
macro_rules! refusal_of {
    ($snapshot:expr) => {{
        let snapshot = &$snapshot;
        let refused = kind(snapshot.get(b"key"));
        assert_eq!(kind(snapshot.get_into(b"key", &mut Vec::new())), refused);
        assert_eq!(kind(snapshot.get_with(b"key", |_| ())), refused);
        assert_eq!(kind(snapshot.get_many(&[b"key"])), refused);
        assert_eq!(kind(snapshot.scan(.., 100)), refused);
        assert_eq!(kind(snapshot.scan_keys(.., 100)), refused);
        assert_eq!(kind(snapshot.count(..)), refused);
        assert_eq!(kind(snapshot.digest(..)), refused);
        assert_eq!(snapshot.iter().map(kind).collect::<Vec<_>>(), [refused]);
        assert_eq!(snapshot.keys(..).map(kind).collect::<Vec<_>>(), [refused]);
        refused
    }};
}

/// Keeps snapshots of a store while it is closed and opened again by a call, which leaves the snapshot 1 open in it.
macro_rules! keep_old_snapshots {
    ($store:expr, $open:expr, $value:expr) => {{
        let store = &$store;
        store.accept(Node::new(0, Stamp::ZERO).write(1, b"key", b"one").unwrap()).unwrap();
        let (old, other) = (store.snapshot().unwrap(), store.snapshot_by_id(1).unwrap());
        assert_eq!((old.id(), other.id()), (1, 1));
        assert_eq!(old.get(b"key").unwrap().as_deref(), Some(&b"one"[..]));
        store.close();
        assert_eq!(refusal_of!(old), ErrorKind::Closed);
        assert_eq!(kind(store.reload(b"")), ErrorKind::BadBytes);
        assert_eq!(refusal_of!(old), ErrorKind::Closed);
        $open;
        assert_eq!(refusal_of!(old), ErrorKind::NoSnapshot);
        let open = store.snapshots().unwrap();
        assert_eq!(open.len(), 1);
        drop(old);
        assert_eq!(kind(other.close()), ErrorKind::NoSnapshot);
        assert_eq!(store.snapshots().unwrap(), open);
        let value: Option<&[u8]> = $value;
        assert_eq!(store.snapshot_by_id(1).unwrap().get(b"key").unwrap().as_deref(), value);
        assert_eq!(store.snapshots().unwrap(), []);
    }};
}

#[test]
fn old_snapshot_does_not_read_a_reloaded_store() {
    let store = Store::open(1).unwrap();
    keep_old_snapshots!(store, assert_eq!(store.reload(&saved()), Ok(7)), Some(b"two"));
}

#[test]
fn old_snapshot_does_not_read_a_reopened_store() {
    let store = Store::open(1).unwrap();
    let open = || {
        store.reopen(1).unwrap();
        assert_eq!(store.snapshot().unwrap().keep(), 1);
    };
    keep_old_snapshots!(store, open(), None);
}

#[test]
fn old_snapshot_does_not_read_a_shared_store_that_a_clone_reloaded() {
    let store = SharedStore::open(1).unwrap();
    let clone = store.clone();
    keep_old_snapshots!(store, assert_eq!(clone.reload(&saved()), Ok(7)), Some(b"two"));
}

#[test]
fn old_snapshot_does_not_read_a_shared_store_that_a_clone_reopened() {
    let store = SharedStore::open(1).unwrap();
    let clone = store.clone();
    let open = || {
        clone.reopen(1).unwrap();
        assert_eq!(clone.snapshot().unwrap().keep(), 1);
    };
    keep_old_snapshots!(store, open(), None);
}

#[test]
fn old_snapshot_does_not_read_a_restored_store_that_was_shared() {
    let (store, tag) = SharedStore::restore(&Store::open(1).unwrap().checkpoint(3).unwrap()).unwrap();
    assert_eq!(tag, 3);
    keep_old_snapshots!(store, assert_eq!(store.reload(&saved()), Ok(7)), Some(b"two"));
}

/// An iterator that began before returns the rest of its page, and then the refusal, once.
#[test]
fn old_iterator_does_not_go_on_in_a_reloaded_store() {
    let store = Store::open(1).unwrap();
    let mut node = Node::new(0, Stamp::ZERO);
    for number in 0..5000_u64 {
        store.accept(node.write(1, &number.to_be_bytes(), b"one").unwrap()).unwrap();
    }
    let old = store.snapshot().unwrap();
    let mut pairs = old.iter();
    assert!(pairs.next().unwrap().is_ok());
    store.close();
    store.reload(&saved()).unwrap();
    let mut errors = 0;
    for pair in pairs.by_ref() {
        match pair {
            Ok((_, value)) => assert!(value == b"one" && errors == 0),
            Err(error) => {
                assert_eq!(error.kind(), ErrorKind::NoSnapshot);
                errors += 1;
            }
        }
    }
    assert_eq!(errors, 1);
    assert!(pairs.next().is_none());
}
