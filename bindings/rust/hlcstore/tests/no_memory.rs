//! Out of memory is an error, and the store is as it was before the call.
#![cfg(target_os = "linux")]

use hlcstore::{ErrorKind, Node, Stamp, Store};
use std::fs;
use std::io;

const RLIMIT_AS: i32 = 9;
const MORE: u64 = 64 << 20;

#[repr(C)]
struct Limit {
    now: u64,
    greatest: u64,
}

unsafe extern "C" {
    fn getrlimit(resource: i32, limit: *mut Limit) -> i32;
    fn setrlimit(resource: i32, limit: *const Limit) -> i32;
}

/// Makes a call while the process may take only so many bytes more.
fn limited<T>(call: impl FnOnce() -> T) -> T {
    let pages: u64 = fs::read_to_string("/proc/self/statm").unwrap().split(' ').next().unwrap().parse().unwrap();
    let mut before = Limit { now: 0, greatest: 0 };
    // SAFETY: the functions are those of the C library, and the pointers are live.
    unsafe {
        assert_eq!(getrlimit(RLIMIT_AS, &mut before), 0);
        let low = Limit { now: pages * 4096 + MORE, greatest: before.greatest };
        assert_eq!(setrlimit(RLIMIT_AS, &low), 0);
    }
    let result = call();
    // SAFETY: the same.
    unsafe { assert_eq!(setrlimit(RLIMIT_AS, &before), 0) };
    result
}

/// The limit is that of the process, in which the thread of another test may just begin: so all is one test.
#[test]
fn lack_of_memory_is_an_error() {
    a_store_without_memory_is_as_it_was();
    a_checkpoint_in_pieces_needs_no_memory_for_all_of_it();
}

fn a_store_without_memory_is_as_it_was() {
    let store = Store::open(1).unwrap();
    let mut node = Node::new(0, Stamp::ZERO);
    let value = vec![b'v'; 65_535];
    let mut log: Vec<u8> = Vec::new();
    let (accepted, error, checkpoint) = limited(|| {
        let mut accepted = 0;
        loop {
            let item = node.write(accepted + 1, b"key", &value).unwrap();
            match store.accept(item) {
                Ok(()) => accepted += 1,
                Err(error) => {
                    // There is none for a checkpoint either.
                    return (accepted, error, store.checkpoint(0).unwrap_err());
                }
            }
        }
    });
    assert_eq!(error.kind(), ErrorKind::NoMemory);
    assert_eq!(checkpoint.kind(), ErrorKind::NoMemory);
    assert_eq!(error.to_string(), "out of memory");
    assert_eq!(store.rows(), Ok(accepted));
    assert_eq!(store.link(0).unwrap().next_number, accepted);

    // With memory it goes on.
    let item = Node::restore(0, Stamp::new(accepted, 0), accepted)
        .unwrap()
        .write(accepted + 1, b"key", &value)
        .unwrap()
        .encode();
    log.extend(item.unwrap());
    assert_eq!(store.accept_items(&log), Ok(1));
    let snapshot = store.snapshot().unwrap();
    assert_eq!(snapshot.get(b"key").unwrap().as_deref(), Some(&value[..]));
}

fn a_checkpoint_in_pieces_needs_no_memory_for_all_of_it() {
    let store = Store::open(1).unwrap();
    let mut node = Node::new(0, Stamp::ZERO);
    let value = vec![b'v'; 65_535];
    let many = 2 * MORE / value.len() as u64;
    for number in 0..many {
        store.accept(node.write(1, &number.to_be_bytes(), &value).unwrap()).unwrap();
    }
    let (whole, pieces) = limited(|| (store.checkpoint(7), store.checkpoint_to(&mut io::sink(), 7)));
    assert_eq!(whole.unwrap_err().kind(), ErrorKind::NoMemory);
    assert!(pieces.unwrap() > 2 * MORE);
}
