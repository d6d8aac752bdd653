//! A shared store has the calls of a store, and returns the same.

use hlcstore::{Batch, Item, Node, SharedStore, Stamp, Store};
use std::sync::mpsc;
use std::thread;
use std::time::Duration;

/// Returns what each call on a store returns, as text.
macro_rules! answers {
    ($store:expr) => {{
        let store = $store;
        let mut answers = Vec::new();
        let mut add = |answer: &dyn std::fmt::Debug| answers.push(format!("{answer:?}"));
        let mut node = Node::new(0, Stamp::ZERO);
        let at = |physical| Stamp::new(physical, 0);
        for reading in 1..=9 {
            let value = [reading as u8];
            let item = node.write(reading, b"city", &value).unwrap();
            add(&store.check(item));
            add(&store.accept(item));
        }
        let mut batch = Batch::new();
        batch.write(b"lake", b"Como").unwrap();
        batch.delete(b"river").unwrap();
        let item = node.write_batch(10, &batch).unwrap();
        add(&(store.check(item), store.accept(item), store.check(item), store.accept(item)));
        let items = [node.delete(10, b"lake").unwrap(), node.report(11).unwrap()];
        add(&store.accept_all(&items));
        add(&store.accept_all(&items));
        add(&store.accept_items(&items[1].encode().unwrap()));
        add(&store.apply_records(&items[1].encode().unwrap()));
        add(&store.floor());
        add(&store.floor_node());
        add(&store.join());
        add(&store.join_at(at(12)));
        add(&store.accept(Item::report(1, 0, at(13))));
        add(&(store.nodes(), store.link(1), store.link(2), store.link(3)));
        let snapshot = store.snapshot_at(at(5)).unwrap();
        add(&(snapshot.id(), snapshot.stamp(), snapshot.get(b"city"), snapshot.digest(..)));
        let id = snapshot.keep();
        add(&store.snapshots());
        add(&store.snapshot_by_id(id).unwrap().iter().collect::<Vec<_>>());
        add(&store.snapshots());
        add(&(store.check_vacuum(at(4)), store.vacuum_to(at(4)), store.horizon(), store.rows()));
        let snapshot = store.snapshot_at(at(6)).unwrap();
        add(&(store.vacuum_part(at(6), b"", 1), store.vacuum_part(at(6), b"city", 1), store.rows()));
        add(&(store.certificate(at(7)), store.vacuum_to(at(7)), store.certificate(at(7)), store.check_vacuum(at(6))));
        add(&(store.versions(b"city", at(6), at(9)), store.rows()));
        let later = store.snapshot().unwrap();
        add(&snapshot.changes(&later, ..).collect::<Vec<_>>());
        add(&(later.range_back(..).collect::<Vec<_>>(), later.last_below(b"d"), later.last_below(b"c")));
        add(&store.close_all());
        add(&snapshot.get(b"city"));
        add(&(store.vacuum(), store.horizon(), store.rows(), store.sizes()));
        add(&store.certificate(store.floor().unwrap()));
        let saved = store.checkpoint(7).unwrap();
        add(&saved);
        let mut pieces = Vec::new();
        add(&(store.checkpoint_to(&mut pieces, 7).unwrap(), pieces == saved));
        add(&store.reopen(1));
        store.close();
        add(&(store.floor(), store.reload(&saved), store.floor()));
        store.close();
        add(&(store.rows(), store.reopen(3), store.nodes()));
        answers
    }};
}

/// A key that changes the store when its bytes are asked for.
struct Changing<F>(F);

impl<F: Fn()> AsRef<[u8]> for Changing<F> {
    fn as_ref(&self) -> &[u8] {
        self.0();
        b"city"
    }
}

/// Makes each call that takes a key, with one that changes the store, and returns how many changes were made.
macro_rules! changes_by_keys {
    ($store:expr) => {{
        let store = &$store;
        let join = move || {
            store.join().unwrap();
        };
        let key = move || Changing(join);
        let snapshot = store.snapshot().unwrap();
        assert!(store.versions(key(), Stamp::ZERO, Stamp::MAX).unwrap().is_empty());
        assert_eq!(store.vacuum_part(Stamp::ZERO, key(), 1).unwrap().next, None);
        assert_eq!((snapshot.get(key()), snapshot.last_below(key())), (Ok(None), Ok(None)));
        assert_eq!(snapshot.count(key()..), Ok(0));
        store.nodes().unwrap() - 1
    }};
}

#[test]
fn keys_may_change_the_store() {
    assert_eq!(changes_by_keys!(Store::open(1).unwrap()), 5);
    let (say, said) = mpsc::channel();
    thread::spawn(move || say.send(changes_by_keys!(SharedStore::open(1).unwrap())));
    assert_eq!(said.recv_timeout(Duration::from_secs(20)), Ok(5));
}

#[test]
fn shared_store_answers_as_a_store() {
    let expected = answers!(Store::open(1).unwrap());
    assert_eq!(answers!(SharedStore::open(1).unwrap()), expected);
    assert_eq!(answers!(SharedStore::from(Store::open(1).unwrap())), expected);
    assert!(expected.iter().any(|answer| answer.contains("NoSnapshot")));
}

#[test]
fn shared_store_is_restored() {
    let (store, saved) = (Store::open(3).unwrap(), Store::open(3).unwrap().checkpoint(8).unwrap());
    let (shared, tag) = SharedStore::restore(&saved).unwrap();
    assert_eq!((tag, shared.nodes()), (8, store.nodes()));
}
