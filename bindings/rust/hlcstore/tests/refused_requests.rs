//! Each request of the crate for memory is refused in its turn, by the allocator of this program. An iterator returns
//! the error once, and then none.

use hlcstore::{Batch, Error, ErrorKind, Item, Node, Stamp, Store};
use hlcstore::{apply_increment, merge_checkpoints, split_checkpoint};
use std::alloc::{GlobalAlloc, Layout, System};
use std::cell::Cell;
use std::fmt::Debug;
use std::ptr;

thread_local! {
    /// How many requests of this thread are granted before one is refused; or none, where all are granted.
    static LEFT: Cell<Option<usize>> = const { Cell::new(None) };
}

/// Whether the request that is made now is refused. After one that is, all are granted.
fn is_refused() -> bool {
    let left = LEFT.get();
    LEFT.set(left.and_then(|left| left.checked_sub(1)));
    left == Some(0)
}

struct Refusing;

// SAFETY: a request is passed on, or is refused.
unsafe impl GlobalAlloc for Refusing {
    unsafe fn alloc(&self, layout: Layout) -> *mut u8 {
        if is_refused() { ptr::null_mut() } else { unsafe { System.alloc(layout) } }
    }

    unsafe fn dealloc(&self, place: *mut u8, layout: Layout) {
        unsafe { System.dealloc(place, layout) }
    }

    unsafe fn realloc(&self, place: *mut u8, layout: Layout, size: usize) -> *mut u8 {
        if is_refused() { ptr::null_mut() } else { unsafe { System.realloc(place, layout, size) } }
    }
}

#[global_allocator]
static ALLOCATOR: Refusing = Refusing;

/// Makes a call again and again, in which another request is refused each time, until it makes no further request.
/// Passes what it returned, and whether a request was refused, to a function that checks it.
fn refuse_each<T>(mut call: impl FnMut() -> T, mut check: impl FnMut(T, bool)) {
    for number in 0.. {
        LEFT.set(Some(number));
        let result = call();
        let was_refused = LEFT.replace(None).is_none();
        check(result, was_refused);
        if !was_refused {
            assert!(number > 0);
            return;
        }
    }
}

/// Makes a call in which no request is refused.
fn granted<T>(call: impl FnOnce() -> T) -> T {
    let left = LEFT.take();
    let result = call();
    LEFT.set(left);
    result
}

/// Pairs of some pages, which get longer.
fn pairs() -> Vec<(Vec<u8>, Vec<u8>)> {
    (0..80).map(|len| (vec![b'k'; len + 1], vec![b'v'; 30 * len])).collect()
}

fn store() -> Store {
    let store = Store::open(1).unwrap();
    let mut node = Node::new(0, Stamp::ZERO);
    for (key, value) in pairs() {
        store.accept(node.write(1, &key, &value).unwrap()).unwrap();
    }
    store
}

/// Checks that an iterator returns some of the entries in turn, with one error at the end where a request was refused,
/// and then none.
fn assert_fused<T: PartialEq + Debug, I>(expected: &[T], begin: impl Fn() -> I)
where
    I: Iterator<Item = Result<T, Error>>,
{
    let walk = || {
        let mut found = granted(|| Vec::with_capacity(2 * expected.len()));
        let mut iterator = begin();
        while let Some(entry) = iterator.next().filter(|_| found.len() < found.capacity()) {
            found.push(entry);
        }
        (found, [iterator.next(), iterator.next()])
    };
    refuse_each(walk, |(mut found, after), was_refused| {
        assert_eq!(after, [None, None]);
        if was_refused {
            assert_eq!(found.pop().unwrap().unwrap_err().kind(), ErrorKind::NoMemory);
        } else {
            assert_eq!(found.len(), expected.len());
        }
        assert!(found.iter().zip(expected).all(|(found, expected)| found.as_ref() == Ok(expected)));
        assert!(found.len() <= expected.len());
    });
}

#[test]
fn iterators_return_an_error_once() {
    let (store, pairs) = (store(), pairs());
    let keys: Vec<_> = pairs.iter().map(|pair| pair.0.clone()).collect();
    let back: Vec<_> = pairs.iter().rev().cloned().collect();
    let changes: Vec<_> = pairs.iter().map(|pair| (pair.0.clone(), Some(pair.1.clone()))).collect();
    let (empty, snapshot) = (store.snapshot_at(Stamp::ZERO).unwrap(), store.snapshot().unwrap());
    assert_fused(&pairs, || snapshot.iter());
    assert_fused(&pairs, || snapshot.range("k"..));
    assert_fused(&keys, || snapshot.keys(.."l"));
    assert_fused(&back, || snapshot.iter().rev());
    assert_fused(&back, || snapshot.range_back(.."l"));
    assert_fused(&changes, || empty.changes(&snapshot, "k"..));
}

#[test]
fn calls_return_the_error_and_lose_nothing() {
    let store = store();
    let snapshot = store.snapshot().unwrap();
    let is_right = |is_right: bool, was_refused| assert!(is_right != was_refused);
    let (saved, all) = (store.checkpoint(7), pairs());
    refuse_each(|| store.checkpoint(7) == saved, is_right);
    refuse_each(|| store.checkpoint_to(&mut std::io::sink(), 7).is_ok(), is_right);
    let increment = store.increment(Stamp::ZERO, 8);
    refuse_each(|| store.increment(Stamp::ZERO, 8) == increment, is_right);
    let older = Store::open(1).unwrap().checkpoint(0).unwrap();
    let newer = store.checkpoint(8);
    refuse_each(|| apply_increment(&older, increment.as_ref().unwrap()) == newer, is_right);
    let parts = split_checkpoint(newer.as_ref().unwrap(), b"kkk");
    refuse_each(|| split_checkpoint(newer.as_ref().unwrap(), b"kkk") == parts, is_right);
    let (left, right) = parts.as_ref().unwrap();
    refuse_each(|| merge_checkpoints(left, right) == newer, is_right);
    let floor = store.vacuum().unwrap().stamp;
    refuse_each(|| store.certificate(floor).is_ok(), is_right);
    refuse_each(|| store.versions(&all[70].0, Stamp::ZERO, floor).is_ok_and(|rows| rows.len() == 1), is_right);
    refuse_each(|| store.vacuum_part(Stamp::new(1, 79), b"", 1).is_ok(), is_right);
    refuse_each(|| snapshot.get(&all[70].0).is_ok_and(|value| value.as_ref() == Some(&all[70].1)), is_right);
    refuse_each(|| snapshot.get_many(&[&all[70].0, b"other"]).is_ok(), is_right);
    refuse_each(|| snapshot.scan("k"..="kkk", 1000).is_ok(), is_right);
    refuse_each(|| snapshot.scan_back("k"..="kkk", 1000).is_ok(), is_right);
    refuse_each(|| snapshot.scan_changes(&snapshot, "k"..="kkk", 1000).is_ok(), is_right);
    refuse_each(|| snapshot.last_below(b"").is_ok_and(|pair| pair.as_ref() == all.last()), is_right);
    refuse_each(|| store.snapshots().is_ok(), is_right);
    assert_eq!(store.snapshots().unwrap().len(), 1);
}

#[test]
fn log_is_as_it_was_after_a_refusal() {
    let item = Item::write(0, 0, Stamp::new(1, 0), b"key", b"value");
    let encoded = item.encode().unwrap();
    let append = || {
        let mut log = granted(|| b"log".to_vec());
        let appended = item.encode_into(&mut log);
        (log, appended)
    };
    refuse_each(append, |(log, appended), was_refused| {
        assert_eq!(appended.is_err(), was_refused);
        let added = if was_refused { &[] } else { &encoded[..] };
        assert_eq!(log, [&b"log"[..], added].concat());
    });
}

#[test]
fn batch_is_as_it_was_after_a_refusal() {
    let value = [b'v'; 500];
    let build = || {
        let mut batch = Batch::new();
        let mut refused = 0;
        for key in ["a", "b", "c", "d", "e"] {
            let before = (batch.len(), batch.iter().count());
            if let Err(error) = batch.write(key, value) {
                refused += 1;
                assert_eq!((error.kind(), before), (ErrorKind::NoMemory, (batch.len(), batch.iter().count())));
            }
        }
        (refused, batch)
    };
    refuse_each(build, |(refused, batch), was_refused| {
        assert_eq!(refused, usize::from(was_refused));
        assert_eq!(batch.len(), 5 - refused);
        assert!(batch.iter().all(|(key, written)| key.len() == 1 && written == Some(&value[..])));
    });
    let (_, batch) = build();
    let item = Item::batch(0, 0, Stamp::new(1, 0), &batch);
    let encoded = item.encode().unwrap();
    refuse_each(
        || item.encode(),
        |bytes, was_refused| {
            assert_eq!(
                bytes.map_err(Error::kind),
                if was_refused { Err(ErrorKind::NoMemory) } else { Ok(encoded.clone()) }
            );
        },
    );
}
