//! Long certificates after vacuums, and vacuums in parts.

use hlcstore::{Certified, ErrorKind, Node, Stamp, Store, Vacuumed, check_certificate};

const KEYS: u64 = 500;

/// A store with two writes of each key, at the readings 1 and 2.
fn store() -> Store {
    let store = Store::open(1).unwrap();
    let mut node = Node::new(0, Stamp::ZERO);
    for reading in 1..=2 {
        for number in 0..KEYS {
            store.accept(node.write(reading, &number.to_be_bytes(), &reading.to_be_bytes()).unwrap()).unwrap();
        }
    }
    store
}

/// Checks that a vacuum kept one row of each key and dropped the other, and that the certificate says so.
fn assert_certified(store: &Store, vacuumed: Vacuumed, stamp: Stamp) {
    assert_eq!((vacuumed.stamp, vacuumed.kept, vacuumed.dropped), (stamp, KEYS, KEYS));
    assert_eq!(vacuumed.bytes, KEYS * (8 + 8 + 10));
    let Certified { kept, bytes, certificate } = store.certificate(stamp).unwrap();
    assert_eq!((kept, bytes), (vacuumed.kept, vacuumed.bytes));
    assert!(certificate.len() > 4096);
    let checked = check_certificate(certificate).unwrap();
    assert_eq!((checked.rows, checked.bytes), (kept, bytes));
}

#[test]
fn certificate_follows_a_vacuum() {
    let store = store();
    let floor = store.floor().unwrap();
    assert_eq!(store.certificate(floor).unwrap_err().kind(), ErrorKind::NotFewest);
    assert_certified(&store, store.vacuum().unwrap(), floor);
    assert_eq!(store.rows(), Ok(KEYS));
}

#[test]
fn certificate_follows_a_vacuum_to_a_stamp() {
    let store = store();
    let stamp = Stamp::new(2, KEYS as u16 - 1);
    assert_certified(&store, store.vacuum_to(stamp).unwrap(), stamp);
    assert_eq!((store.horizon(), store.certificate(stamp)), (Ok(stamp), store.certificate(stamp)));
}

#[test]
fn parts_of_a_vacuum_leave_one_row_of_each_key() {
    let store = store();
    let stamp = Stamp::new(2, KEYS as u16 - 1);
    let (mut after, mut parts) = (Vec::new(), Vec::new());
    loop {
        let part = store.vacuum_part(stamp, &after, 200).unwrap();
        parts.push((part.vacuumed.kept, part.vacuumed.bytes, part.vacuumed.dropped));
        assert_eq!((part.vacuumed.stamp, store.horizon()), (stamp, Ok(stamp)));
        let Some(next) = part.next else { break };
        assert_eq!(next, (200 * parts.len() as u64 - 1).to_be_bytes());
        after = next;
    }
    assert_eq!(parts, [(200, 5200, 200), (200, 5200, 200), (100, 2600, 100)]);
    assert_eq!((store.rows(), store.certificate(stamp).unwrap().kept), (Ok(KEYS), KEYS));
    assert_eq!(store.vacuum_to(stamp).unwrap().dropped, 0);
}

#[test]
fn parts_end_at_the_longest_keys() {
    let store = Store::open(1).unwrap();
    let mut node = Node::new(0, Stamp::ZERO);
    let keys = [vec![b'a'; 255], b"b".to_vec(), vec![b'c'; 255], vec![b'd'; 254], vec![b'e'; 255]];
    for reading in 1..=2 {
        for key in &keys {
            store.accept(node.write(reading, key, b"value").unwrap()).unwrap();
        }
    }
    let (stamp, mut after) = (store.floor().unwrap(), Vec::new());
    for key in &keys {
        let part = store.vacuum_part(stamp, &after, 1).unwrap();
        assert_eq!((part.vacuumed.kept, part.vacuumed.dropped), (1, 1));
        after = part.next.unwrap();
        assert_eq!(&after, key);
    }
    let last = store.vacuum_part(stamp, &after, 1).unwrap();
    assert_eq!((last.vacuumed.kept, last.vacuumed.dropped, last.next), (0, 0, None));
    assert_eq!(store.rows(), Ok(5));
}

#[test]
fn part_of_no_keys_ends_where_it_begins() {
    let (store, after) = (store(), vec![7; 300]);
    let part = store.vacuum_part(Stamp::new(1, 0), &after, 0).unwrap();
    assert_eq!((part.vacuumed.kept, part.vacuumed.dropped, part.next), (0, 0, Some(after)));
}
