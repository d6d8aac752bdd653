//! Items as bytes, and items that own their bytes.

use hlcstore::{Batch, ErrorKind, Item, OwnedItem, Record, Stamp, Store};
use std::sync::LazyLock;

static BATCH: LazyLock<Batch> = LazyLock::new(|| {
    let mut batch = Batch::new();
    batch.write("city", "Rome").unwrap();
    batch.delete("a").unwrap();
    batch.write("b", "").unwrap();
    batch
});

fn items() -> Vec<Item<'static>> {
    const LONG_KEY: &[u8] = &[7; 255];
    const LONG_VALUE: &[u8] = &[8; 65_535];
    let at = |counter| Stamp::new(5, counter);
    vec![
        Item::write(0, 0, at(0), b"city", b"Lyon"),
        Item::write(0, 1, at(1), b"a", b""),
        Item::write(0, 2, at(2), LONG_KEY, LONG_VALUE),
        Item::delete(0, 3, at(3), b"city"),
        Item::report(0, 4, at(4)),
        Item::batch(0, 5, at(5), &BATCH),
        Item::retire(0, 6, Stamp::MAX),
    ]
}

#[test]
fn items_are_read_from_their_bytes() {
    // Each field has a value of its own, the high byte first.
    let bytes = b"\x01\x00\x02\x00\x00\x00\x00\x00\x00\x00\x03\x00\x00\x00\x00\x00\x05\x00\x04\x00\x01k\x01\x00\x02vv";
    let item = Item::write(2, 3, Stamp::new(5, 4), b"k", b"vv");
    assert_eq!((Item::decode(bytes), item.encode()), (Ok((item, &[][..])), Ok(bytes.to_vec())));

    let log: Vec<u8> = items().iter().flat_map(|item| item.encode().unwrap()).collect();
    let mut rest = &log[..];
    for item in items() {
        let (first, after) = Item::decode(rest).unwrap();
        assert_eq!((first, rest.len() - after.len()), (item, item.encode().unwrap().len()));
        rest = after;
    }
    assert!(rest.is_empty());
}

/// Compares what is read from bytes with what the library says of them.
fn compare(bytes: &[u8]) {
    let store = Store::open(1).unwrap();
    let theirs = store.accept_items(bytes).map_err(|stopped| stopped.error);
    match Item::decode(bytes) {
        Ok((item, rest)) => {
            let used = bytes.len() - rest.len();
            match item.encode() {
                Ok(encoded) => assert_eq!(encoded, &bytes[..used]),
                // It has writes that no item may have.
                Err(error) => assert_eq!(error.kind(), ErrorKind::KeyTwice),
            }
            assert!(
                theirs.is_ok() || theirs.is_err_and(|error| error.kind() != ErrorKind::BadBytes || !rest.is_empty())
            );
        }
        Err(error) => assert_eq!(theirs, Err(error), "{bytes:?}"),
    }
}

#[test]
fn bad_bytes_have_the_fault_that_the_library_finds() {
    for item in items() {
        let bytes = item.encode().unwrap();
        for len in (1..bytes.len()).filter(|len| len % 997 == 0 || *len < 300) {
            compare(&bytes[..len]);
        }
        for place in 0..bytes.len().min(50) {
            for changed in [0, 1, 2, 3, 4, 5, b'a', b'b', 254, 255] {
                let mut bytes = bytes.clone();
                bytes[place] = changed;
                compare(&bytes);
            }
        }
    }
    let short = Item::decode(b"").unwrap_err();
    assert_eq!((short.kind(), short.word()), (ErrorKind::BadBytes, 1));
    let join = Record::Join { node: 1, start: Stamp::ZERO }.encode().unwrap();
    assert_eq!(Item::decode(&join).unwrap_err().word(), 2);
}

#[test]
fn owned_items_are_the_same() {
    for item in items() {
        let owned = item.into_owned();
        assert_eq!((owned.as_item(), Item::from(&owned), OwnedItem::from(item)), (item, item, owned.clone()));
        assert_eq!((owned.node, owned.number, owned.stamp), (item.node, item.number, item.stamp));
    }
    let thread = std::thread::spawn(|| items().into_iter().map(Item::into_owned).collect::<Vec<_>>());
    let store = Store::open(1).unwrap();
    for owned in thread.join().unwrap() {
        store.accept(owned.as_item()).unwrap();
    }
    assert!(store.link(0).unwrap().is_retired);
}
