//! What changes between two snapshots, and the versions of a key.

use hlcstore::{ErrorKind, Node, Result, SharedStore, Snapshot, Stamp, Store, Version};
use std::collections::BTreeMap;

type Pairs = BTreeMap<Vec<u8>, Vec<u8>>;

fn at(physical: u64) -> Stamp {
    Stamp::new(physical, 0)
}

fn pairs_of(snapshot: &Snapshot<&Store>) -> Pairs {
    snapshot.iter().map(Result::unwrap).collect()
}

/// Returns the pairs with these changes, of which each is needed.
fn patched(mut pairs: Pairs, changes: &[(Vec<u8>, Option<Vec<u8>>)]) -> Pairs {
    for (key, value) in changes {
        let old = match value {
            Some(value) => pairs.insert(key.clone(), value.clone()),
            None => pairs.remove(key),
        };
        assert_ne!(&old, value);
    }
    pairs
}

/// In each round each key is written, deleted or left as it is, some with long values. A snapshot is opened after each.
#[test]
fn changes_lead_from_one_snapshot_to_another() {
    let store = Store::open(1).unwrap();
    let mut node = Node::new(0, Stamp::ZERO);
    let mut snapshots = vec![store.snapshot().unwrap()];
    for round in 1..5_u64 {
        for number in 0..600_u64 {
            let key = format!("key {number:04}").into_bytes();
            let value = vec![b'v'; (number % 5 * 100 + round) as usize];
            match (number + round) % 4 {
                0 => store.accept(node.write(round, &key, &value).unwrap()).unwrap(),
                1 => store.accept(node.delete(round, &key).unwrap()).unwrap(),
                _ => (),
            }
        }
        let key = [b'k'; 255];
        store.accept(node.write(round, &key, &vec![round as u8; 65_535]).unwrap()).unwrap();
        snapshots.push(store.snapshot().unwrap());
    }
    for before in &snapshots {
        for after in &snapshots {
            let changes = before.changes(after, ..).collect::<Result<Vec<_>>>().unwrap();
            assert!(changes.is_sorted_by(|a, b| a.0 < b.0));
            assert!(patched(pairs_of(before), &changes) == pairs_of(after));
            let part = before.changes(after, "key 0100".."key 0200").map(Result::unwrap);
            let is_in_part = |change: &&(Vec<u8>, _)| (&b"key 0100"[..]..b"key 0200").contains(&change.0.as_slice());
            assert!(part.eq(changes.iter().filter(is_in_part).cloned()));
        }
    }
}

#[test]
fn snapshots_of_two_stores_have_no_changes() {
    let (one, other) = (Store::open(1).unwrap(), Store::open(1).unwrap());
    let (before, after) = (one.snapshot().unwrap(), other.snapshot().unwrap());
    let mut changes = before.changes(&after, ..);
    assert_eq!(changes.next().unwrap().unwrap_err().kind(), ErrorKind::NoSnapshot);
    assert!(changes.next().is_none());
    let shared = SharedStore::open(1).unwrap();
    let (before, after) = (shared.snapshot().unwrap(), shared.clone().snapshot().unwrap());
    assert_eq!(before.changes(&after, ..).count(), 0);
    let other = SharedStore::open(1).unwrap().snapshot().unwrap();
    assert!(before.changes(&other, ..).next().unwrap().is_err());
}

#[test]
fn versions_are_the_rows_of_a_key() {
    let store = Store::open(2).unwrap();
    let (mut one, mut two) = (Node::new(0, Stamp::ZERO), Node::new(1, Stamp::ZERO));
    let long = vec![b'v'; 65_535];
    store.accept(one.write(1, b"key", b"first").unwrap()).unwrap();
    store.accept(one.write(2, b"key", &long).unwrap()).unwrap();
    store.accept(two.delete(2, b"key").unwrap()).unwrap();
    store.accept(two.write(2, b"other", b"").unwrap()).unwrap();
    let row =
        |physical, node, value: Option<&[u8]>| Version { stamp: at(physical), node, value: value.map(<[u8]>::to_vec) };
    let all = [row(2, 1, None), row(2, 0, Some(&long)), row(1, 0, Some(b"first"))];
    assert_eq!(store.versions(b"key", Stamp::ZERO, Stamp::MAX).unwrap(), all);
    assert_eq!(store.versions(b"key", at(1), at(2)).unwrap(), all[..2]);
    assert_eq!(store.versions(b"key", Stamp::ZERO, at(1)).unwrap(), all[2..]);
    assert_eq!(store.versions(b"key", at(2), at(1)), Ok(vec![]));
    assert_eq!(store.versions(b"", Stamp::ZERO, Stamp::MAX), Ok(vec![]));
    store.vacuum_to(at(2)).unwrap();
    assert_eq!(store.versions(b"key", Stamp::ZERO, Stamp::MAX), Ok(vec![]));
    assert_eq!(store.versions(b"other", Stamp::ZERO, Stamp::MAX).unwrap().len(), 1);
}
