//! Each kind of error that a call can return where there is memory, with its word and its text.

use hlcstore::{Error, ErrorKind, Item, Node, Result, SharedStore, Stamp, Stopped, Store};
use hlcstore::{apply_increment, check_certificate, merge_checkpoints, split_checkpoint};
use std::fmt::Debug;

/// The kind and the word of a refusal.
fn refused<T: Debug>(result: Result<T>) -> (ErrorKind, u64) {
    let error = result.unwrap_err();
    (error.kind(), error.word())
}

fn at(physical: u64) -> Stamp {
    Stamp::new(physical, 0)
}

fn item(number: u64, reading: u64) -> Item<'static> {
    Item::write(0, number, at(reading), b"key", b"value")
}

#[test]
fn store_is_closed_or_open() {
    let store = Store::closed();
    assert_eq!(refused(store.floor()), (ErrorKind::Closed, 0));
    assert_eq!(refused(store.reopen(0)), (ErrorKind::BadNodeCount, 0));
    assert_eq!(refused(store.reopen(65)), (ErrorKind::BadNodeCount, 0));
    store.reopen(64).unwrap();
    assert_eq!(refused(store.reopen(1)), (ErrorKind::IsOpen, 0));
    let saved = store.checkpoint(0).unwrap();
    assert_eq!(refused(store.reload(&saved)), (ErrorKind::IsOpen, 0));
    let snapshot = store.snapshot().unwrap();
    store.close();
    assert_eq!(refused(snapshot.get(b"key")), (ErrorKind::Closed, 0));
    assert_eq!(refused(store.accept(item(0, 5))), (ErrorKind::Closed, 0));
    assert_eq!(refused(store.close_all()), (ErrorKind::Closed, 0));
    assert_eq!(refused(store.versions(b"key", at(0), at(9))), (ErrorKind::Closed, 0));
    assert_eq!(refused(store.increment(at(0), 7)), (ErrorKind::Closed, 0));
    store.reopen(1).unwrap();
    assert_eq!(refused(snapshot.get(b"key")), (ErrorKind::NoSnapshot, 0));
}

#[test]
fn snapshot_of_a_store_that_was_opened_again_closes_no_other() {
    let store = SharedStore::open(1).unwrap();
    let old = store.snapshot().unwrap();
    store.close();
    store.reopen(1).unwrap();
    let new = store.snapshot().unwrap();
    assert_eq!(old.id(), new.id());
    assert_eq!(refused(old.count(..)), (ErrorKind::NoSnapshot, 0));
    assert_eq!(refused(old.close()), (ErrorKind::NoSnapshot, 0));
    assert_eq!(new.count(..), Ok(0));
}

#[test]
fn items_are_refused() {
    let store = Store::open(1).unwrap();
    store.accept(item(0, 5)).unwrap();
    let long_key = [b'k'; 256];
    let long_value = vec![b'v'; 65_536];
    let cases = [
        (Item::report(1, 0, at(5)), ErrorKind::NoNode, 0),
        (item(0, 6), ErrorKind::NotNext, 1),
        (item(2, 6), ErrorKind::NotNext, 1),
        (item(1, 5), ErrorKind::StampNotRising, at(5).to_bits()),
        (Item::write(0, 1, at(6), b"", b""), ErrorKind::BadKey, 0),
        (Item::delete(0, 1, at(6), &long_key), ErrorKind::BadKey, 0),
        (Item::write(0, 1, at(6), b"key", &long_value), ErrorKind::ValueTooLong, 0),
    ];
    for (item, kind, word) in cases {
        assert_eq!(refused(store.check(item)), (kind, word));
        assert_eq!(refused(store.accept(item)), (kind, word));
    }
    assert_eq!(refused(Item::write(0, 1, at(6), b"", b"").encode()), (ErrorKind::BadKey, 0));
    assert_eq!(refused(Item::write(0, 1, at(6), b"key", &long_value).encode()), (ErrorKind::ValueTooLong, 0));
    store.accept(Item::retire(0, 1, at(6))).unwrap();
    assert_eq!(refused(store.check(Item::report(0, 2, at(7)))), (ErrorKind::Retired, 0));
    assert_eq!(refused(store.accept(Item::retire(0, 2, at(7)))), (ErrorKind::Retired, 0));
    assert_eq!(store.floor_node(), Ok(None));
    assert_eq!(refused(store.link(1)), (ErrorKind::NoNode, 0));
}

#[test]
fn batches_and_logs_stop_at_the_refused_item() {
    let store = Store::open(1).unwrap();
    let stopped = store.accept_all(&[item(0, 5), item(1, 6), item(1, 7), item(2, 8)]).unwrap_err();
    assert_eq!((stopped.items, stopped.error.kind(), stopped.error.word()), (2, ErrorKind::NotNext, 2));
    assert_eq!(stopped.to_string(), format!("{}, after 2 accepted items", stopped.error));

    let mut log = item(0, 5).encode().unwrap();
    item(2, 7).encode_into(&mut log).unwrap();
    let whole = log.len();
    item(4, 8).encode_into(&mut log).unwrap();
    let Stopped { items, bytes, error, .. } = store.accept_items(&log).unwrap_err();
    assert_eq!((items, bytes, error.kind(), error.word()), (2, whole, ErrorKind::NotNext, 3));
    let Stopped { items, bytes, error, .. } = store.accept_items(&log[..whole - 1]).unwrap_err();
    assert_eq!((items, bytes, error.kind(), error.word()), (1, whole / 2, ErrorKind::BadBytes, 1));
    assert_eq!(Error::from(store.accept_items(b"\x07").unwrap_err()).kind(), ErrorKind::BadBytes);
}

#[test]
fn snapshots_and_vacuums_are_refused() {
    let store = Store::open(1).unwrap();
    store.accept(item(0, 5)).unwrap();
    let floor = at(5).to_bits();
    assert_eq!(refused(store.snapshot_at(at(6))), (ErrorKind::AboveFloor, floor));
    assert_eq!(refused(store.vacuum_to(at(6))), (ErrorKind::AboveFloor, floor));
    assert_eq!(refused(store.certificate(at(6))), (ErrorKind::AboveFloor, floor));
    assert_eq!(refused(store.vacuum_part(at(6), b"", 1)), (ErrorKind::AboveFloor, floor));
    assert_eq!(refused(store.check_vacuum(at(6))), (ErrorKind::AboveFloor, floor));
    store.accept(item(1, 6)).unwrap();
    assert_eq!(refused(store.certificate(at(6))), (ErrorKind::NotFewest, 0));
    store.vacuum_to(at(5)).unwrap();
    assert_eq!(refused(store.snapshot_at(at(4))), (ErrorKind::BelowHorizon, floor));
    assert_eq!(refused(store.vacuum_to(at(4))), (ErrorKind::BelowHorizon, floor));
    assert_eq!(refused(store.certificate(at(4))), (ErrorKind::BelowHorizon, floor));
    assert_eq!(refused(store.vacuum_part(at(4), b"", 1)), (ErrorKind::BelowHorizon, floor));
    assert_eq!(refused(store.check_vacuum(at(4))), (ErrorKind::BelowHorizon, floor));
    assert_eq!(refused(store.join_at(at(4))), (ErrorKind::BelowFloor, at(6).to_bits()));
    assert_eq!(refused(store.snapshot_by_id(1)), (ErrorKind::NoSnapshot, 0));

    let mut open: Vec<_> = (0..1024).map(|_| store.snapshot().unwrap()).collect();
    assert_eq!(refused(store.snapshot()), (ErrorKind::TooManySnapshots, 0));
    assert_eq!(refused(store.snapshot_at(at(5))), (ErrorKind::TooManySnapshots, 0));
    let snapshot = open.pop().unwrap();
    store.close_all().unwrap();
    assert_eq!(refused(snapshot.get(b"key")), (ErrorKind::NoSnapshot, 0));
    assert_eq!(refused(snapshot.get_many(&[b"key"])), (ErrorKind::NoSnapshot, 0));
    assert_eq!(refused(snapshot.count(..)), (ErrorKind::NoSnapshot, 0));
    assert_eq!(refused(snapshot.digest(..)), (ErrorKind::NoSnapshot, 0));
    assert_eq!(refused(snapshot.scan(.., 100)), (ErrorKind::NoSnapshot, 0));
    assert_eq!(refused(snapshot.scan_back(.., 100)), (ErrorKind::NoSnapshot, 0));
    assert_eq!(refused(snapshot.last_below(b"key")), (ErrorKind::NoSnapshot, 0));
    let new = store.snapshot().unwrap();
    for (before, after) in [(&snapshot, &new), (&new, &snapshot)] {
        assert_eq!(refused(before.changes(after, ..).next().unwrap()), (ErrorKind::NoSnapshot, 0));
    }
    assert_eq!(refused(snapshot.close()), (ErrorKind::NoSnapshot, 0));
}

#[test]
fn node_numbers_end() {
    let store = Store::open(64).unwrap();
    for number in 64..1024 {
        assert_eq!(store.join().unwrap().id(), number);
    }
    assert_eq!(refused(store.join()), (ErrorKind::TooManyNodes, 0));
    assert_eq!(refused(store.join_at(at(1))), (ErrorKind::TooManyNodes, 0));
    assert_eq!(store.nodes(), Ok(1024));
}

#[test]
fn nodes_refuse() {
    let mut node = Node::new(0, Stamp::ZERO);
    assert_eq!(refused(node.write(1 << 48, b"key", b"")), (ErrorKind::ReadingTooLarge, 0));
    assert_eq!(refused(node.send(1 << 48)), (ErrorKind::ReadingTooLarge, 0));
    assert_eq!(refused(node.receive(Stamp::ZERO, 1 << 48)), (ErrorKind::ReadingTooLarge, 0));
    assert_eq!(refused(node.write(1, b"", b"")), (ErrorKind::BadKey, 0));
    assert_eq!(refused(node.delete(1, &[0; 256])), (ErrorKind::BadKey, 0));
    assert_eq!(refused(node.write(1, b"key", &[0; 65_536])), (ErrorKind::ValueTooLong, 0));
    let full = Stamp::new(7, u16::MAX);
    assert_eq!(refused(node.receive(full, 7)), (ErrorKind::CounterFull, full.to_bits()));
    node.raise_to(full);
    assert_eq!(refused(node.report(7)), (ErrorKind::CounterFull, full.to_bits()));
    assert_eq!(node.report(8).unwrap().stamp, at(8));
    node.retire(9).unwrap();
    assert!(node.is_retired());
    assert_eq!(refused(node.report(10)), (ErrorKind::Retired, 0));
    assert_eq!(refused(node.send(10)), (ErrorKind::Retired, 0));

    assert_eq!(refused(Node::restore(0, Stamp::from_bits(2), 3)), (ErrorKind::NoSuchNode, 0));
    let mut last = Node::restore(0, Stamp::MAX, u64::MAX).unwrap();
    assert_eq!(refused(last.report(1)), (ErrorKind::NumbersSpent, 0));
}

#[test]
fn checkpoints_are_refused() {
    let store = Store::open(1).unwrap();
    let saved = store.checkpoint(7).unwrap();
    assert_eq!(refused(Store::restore(b"")), (ErrorKind::BadBytes, 1));
    assert_eq!(refused(Store::restore(&saved[1..])), (ErrorKind::BadBytes, 2));
    let mut damaged = saved.clone();
    *damaged.last_mut().unwrap() ^= 1;
    assert_eq!(refused(SharedStore::restore(&damaged)), (ErrorKind::BadBytes, 7));
    assert_eq!(refused(Store::restore(&from_hex(NO_NODES))), (ErrorKind::NoCheckpoint, 1));
}

#[test]
fn increments_are_refused() {
    let store = Store::open(1).unwrap();
    store.accept(item(0, 5)).unwrap();
    let older = store.checkpoint(0).unwrap();
    store.accept(item(1, 6)).unwrap();
    store.vacuum_to(at(5)).unwrap();
    assert_eq!(refused(store.increment(at(4), 7)), (ErrorKind::BelowHorizon, at(5).to_bits()));
    let increment = store.increment(at(5), 7).unwrap();
    assert!(apply_increment(&older, &increment).is_ok());
    assert_eq!(refused(apply_increment(&older[1..], &increment)), (ErrorKind::BadBytes, 2));
    assert_eq!(refused(apply_increment(&older, b"")), (ErrorKind::NoIncrement, 1));
    assert_eq!(refused(apply_increment(&older, &older)), (ErrorKind::NoIncrement, 3));
    let mut damaged = increment.clone();
    *damaged.last_mut().unwrap() ^= 1;
    assert_eq!(refused(apply_increment(&older, &damaged)), (ErrorKind::NoIncrement, 7));
    assert_eq!(refused(apply_increment(&from_hex(NO_NODES), &increment)), (ErrorKind::NoCheckpoint, 1));
    let other = Store::open(2).unwrap().increment(at(0), 7).unwrap();
    assert_eq!(refused(apply_increment(&older, &other)), (ErrorKind::NotLater, 0));
    let late = store.increment(at(6), 7).unwrap();
    assert_eq!(refused(apply_increment(&older, &late)), (ErrorKind::AboveFloor, at(5).to_bits()));
}

#[test]
fn parts_are_refused() {
    let store = Store::open(1).unwrap();
    store.accept(item(0, 5)).unwrap();
    let whole = store.checkpoint(7).unwrap();
    let (left, right) = split_checkpoint(&whole, b"key").unwrap();
    assert_eq!(refused(split_checkpoint(b"", b"key")), (ErrorKind::BadBytes, 1));
    assert_eq!(refused(split_checkpoint(&whole[1..], b"key")), (ErrorKind::BadBytes, 2));
    assert_eq!(refused(split_checkpoint(&from_hex(NO_NODES), b"key")), (ErrorKind::NoCheckpoint, 1));
    assert_eq!(refused(merge_checkpoints(&left[1..], b"")), (ErrorKind::BadBytes, 2));
    assert_eq!(refused(merge_checkpoints(&left, b"")), (ErrorKind::BadBytes, 1));
    let none = from_hex(NO_NODES);
    assert_eq!(refused(merge_checkpoints(&none, &none)), (ErrorKind::NoCheckpoint, 1));

    // What differs of the other part: the links, the open snapshots, the horizon; or it has a lower key.
    let other = |change: &dyn Fn(&Store)| {
        let (other, _) = Store::restore(&right).unwrap();
        change(&other);
        other.checkpoint(7).unwrap()
    };
    let ahead = other(&|store| store.accept(Item::report(0, 1, at(6))).unwrap());
    let opened = other(&|store| drop(store.snapshot()));
    let vacuumed = other(&|store| assert!(store.vacuum_to(at(5)).is_ok()));
    for (part, difference) in [(ahead, 1), (opened, 2), (vacuumed, 3)] {
        assert_eq!(refused(merge_checkpoints(&left, &part)), (ErrorKind::NotParts, difference));
    }
    assert_eq!(refused(merge_checkpoints(&right, &right)), (ErrorKind::NotParts, 4));
    assert_eq!(merge_checkpoints(&left, &right), Ok(whole));
}

/// A frame of a checkpoint that has no nodes, with the right digest.
const NO_NODES: &str = concat!(
    "00000001000000000000001e0000000000000007000000000000000000000000000000000000000000000000000000000000",
    "a961f2dd677d6287ef908a8d3465cc8cbb38aad056c7f8b0ca00469a7a968793"
);

fn from_hex(text: &str) -> Vec<u8> {
    (0..text.len()).step_by(2).map(|place| u8::from_str_radix(&text[place..place + 2], 16).unwrap()).collect()
}

#[test]
fn certificates_are_refused() {
    assert_eq!(refused(check_certificate("point 5.0\nno line\n")), (ErrorKind::BadLine, 2));
    assert_eq!(refused(check_certificate("point 5.0\nrow key 5.0 0 value x\n")), (ErrorKind::NotShown, 7));
}

#[test]
fn texts_are_those_of_the_library() {
    let store = Store::open(1).unwrap();
    store.accept(item(0, 5)).unwrap();
    let error = store.accept(item(0, 5)).unwrap_err();
    assert_eq!(error.to_string(), "the number is not the next one of the node (1)");
    assert_eq!(format!("{error:?}"), "Error { kind: NotNext, code: 6, word: 1 }");
    let error = store.snapshot_at(Stamp::new(5, 1)).unwrap_err();
    assert_eq!(error.to_string(), "the stamp is above the floor (5.0)");
    let error = store.join_at(Stamp::new(4, 1)).unwrap_err();
    assert_eq!(error.to_string(), "the start is below the floor (5.0)");
    let error = store.accept(item(1, 5)).unwrap_err();
    assert_eq!(error.to_string(), "the stamp is not above that of the last accepted item of the node (5.0)");
    let error = Node::new(0, Stamp::new(5, u16::MAX)).send(5).unwrap_err();
    assert_eq!(error.to_string(), "the counter of the greatest earlier stamp is full (5.65535)");
    let error = Store::restore(b"").unwrap_err();
    assert_eq!(error.to_string(), "the bytes are not an encoding (1)");
    let error = apply_increment(&store.checkpoint(0).unwrap(), b"").unwrap_err();
    assert_eq!(error.to_string(), "the bytes are no increment (1)");
    let error = check_certificate("no line\n").unwrap_err();
    assert_eq!(error.to_string(), "a line of the certificate is bad (1)");
    let saved = store.checkpoint(0).unwrap();
    let error = merge_checkpoints(&saved, &saved).unwrap_err();
    assert_eq!(error.to_string(), "the checkpoints are no two parts of one store (4)");
    let error = Item::report(1, 0, Stamp::ZERO);
    assert_eq!(store.accept(error).unwrap_err().to_string(), "no node has this number");
    let error: Box<dyn std::error::Error> = Box::new(store.accept_all(&[item(0, 5)]).unwrap_err());
    assert_eq!(error.source().unwrap().to_string(), "the number is not the next one of the node (1)");
    assert_eq!(hlcstore::error_name(15), "HLC_NO_MEMORY");
    assert_eq!(hlcstore::error_text(15), "out of memory");
    assert_eq!(hlcstore::error_text(4), "");
}
