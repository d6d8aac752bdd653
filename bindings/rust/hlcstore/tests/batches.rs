//! Batches: a snapshot shows all writes of one or none, whatever is accepted, vacuumed, saved and read beside it.

mod random;

use hlcstore::{
    Batch, Content, Error, ErrorKind, Item, Node, OwnedItem, Result, SharedStore, Snapshot, Stamp, Store,
    apply_increment,
};
use random::Random;
use std::collections::{BTreeMap, BTreeSet, VecDeque};
use std::fmt::Debug;
use std::sync::atomic::{AtomicUsize, Ordering};
use std::thread;

type Pairs = Vec<(Vec<u8>, Vec<u8>)>;

fn at(physical: u64) -> Stamp {
    Stamp::new(physical, 0)
}

/// A batch of writes and deletions.
fn batch(writes: &[(&str, Option<&str>)]) -> Batch {
    let mut batch = Batch::new();
    for (key, value) in writes {
        match value {
            Some(value) => batch.write(key, value).unwrap(),
            None => batch.delete(key).unwrap(),
        }
    }
    batch
}

fn pairs(snapshot: &Snapshot<&Store>) -> Pairs {
    snapshot.iter().map(Result::unwrap).collect()
}

/// The kind and the word of a refusal.
fn refused<T: Debug>(result: Result<T>) -> (ErrorKind, u64) {
    let error = result.unwrap_err();
    (error.kind(), error.word())
}

/// A write with its stamp and its node: the value, or none of a deletion.
type Write = (Stamp, u16, Option<Vec<u8>>);

/// All writes of each key that were issued, in no order.
#[derive(Default)]
struct Model(BTreeMap<Vec<u8>, Vec<Write>>);

impl Model {
    fn add(&mut self, item: Item<'_>) {
        let mut add = |key: &[u8], value: Option<&[u8]>| {
            self.0.entry(key.into()).or_default().push((item.stamp, item.node, value.map(<[u8]>::to_vec)));
        };
        match item.content {
            Content::Write { key, value } => add(key, Some(value)),
            Content::Delete { key } => add(key, None),
            Content::Batch(writes) => writes.iter().for_each(|(key, value)| add(key, value)),
            Content::Report | Content::Retire => (),
        }
    }

    /// The pairs at a stamp: of each key the value of its newest write, at one stamp that of the greater node.
    fn at(&self, stamp: Stamp) -> Pairs {
        let newest = |writes: &[Write]| {
            writes.iter().filter(|write| write.0 <= stamp).max_by_key(|write| (write.0, write.1))?.2.clone()
        };
        self.0.iter().filter_map(|(key, writes)| Some((key.clone(), newest(writes)?))).collect()
    }
}

/// Nodes that issue items at random, which are on their way for a time.
struct Feed {
    random: Random,
    model: Model,
    stamps: Vec<Stamp>,
    nodes: Vec<(Node, VecDeque<OwnedItem>)>,
}

impl Feed {
    fn new(nodes: u16, seed: u64) -> Feed {
        let node = |id| (Node::new(id, Stamp::ZERO), VecDeque::new());
        let (random, nodes) = (Random::new(seed), (0..nodes).map(node).collect());
        Feed { random, model: Model::default(), stamps: vec![Stamp::ZERO], nodes }
    }

    fn key(&mut self) -> Vec<u8> {
        let letter = b'a' + self.random.below(12) as u8;
        vec![letter; 1 + self.random.below(2) as usize * 40]
    }

    /// A batch of 1 to 6 writes and deletions.
    fn batch(&mut self, event: u64) -> Batch {
        let (mut batch, many) = (Batch::new(), 1 + self.random.below(6));
        let mut keys = BTreeSet::new();
        while keys.len() < many as usize {
            keys.insert(self.key());
        }
        for key in keys {
            if self.random.below(4) == 0 {
                batch.delete(&key).unwrap();
            } else {
                let value = event.to_be_bytes().repeat(self.random.below(9) as usize);
                batch.write(&key, &value).unwrap();
            }
        }
        batch
    }

    /// Lets a node issue an item, most often a batch.
    fn issue(&mut self, event: u64) {
        let id = self.random.below(self.nodes.len() as u64) as usize;
        let (batch, key, reading) = (self.batch(event), self.key(), event / 5 + 3 * (id as u64 % 2));
        let node = &mut self.nodes[id].0;
        let item = match self.random.below(6) {
            0..3 => node.write_batch(reading, &batch),
            3 => node.write(reading, &key, &key),
            4 => node.delete(reading, &key),
            _ => node.report(reading),
        };
        let item = item.unwrap();
        self.model.add(item);
        self.stamps.push(item.stamp);
        self.nodes[id].1.push_back(item.into_owned());
    }

    /// Lets a store accept the next items of a node, in one of the ways there are.
    fn deliver(&mut self, store: &Store) {
        let id = self.random.below(self.nodes.len() as u64) as usize;
        let most = self.random.below(8) as usize;
        let queue = &mut self.nodes[id].1;
        let items: Vec<_> = queue.drain(..most.min(queue.len())).collect();
        let items: Vec<_> = items.iter().map(OwnedItem::as_item).collect();
        let log: Vec<u8> = items.iter().flat_map(|item| item.encode().unwrap()).collect();
        match self.random.below(4) {
            0 => store.accept_all(&items).unwrap(),
            1 => assert_eq!(store.accept_items(&log), Ok(items.len())),
            2 => assert_eq!(store.apply_records(&log).unwrap().bytes, log.len()),
            _ => items.iter().for_each(|item| {
                assert_eq!((store.check(*item), store.accept(*item)), (Ok(()), Ok(())));
            }),
        }
    }

    /// A stamp at which something was issued, from the horizon to the floor of a store.
    fn stamp(&mut self, store: &Store) -> Stamp {
        let (low, high) = (store.horizon().unwrap(), store.floor().unwrap());
        let within: Vec<_> = self.stamps.iter().filter(|stamp| (low..=high).contains(stamp)).copied().collect();
        if within.is_empty() { high } else { within[self.random.below(within.len() as u64) as usize] }
    }
}

/// Plays a history, in which snapshots open at random stamps and are read at once and later.
fn play(nodes: u16, seed: u64) {
    let (store, mut feed) = (Store::open(nodes).unwrap(), Feed::new(nodes, seed));
    let mut open: VecDeque<Snapshot<&Store>> = VecDeque::new();
    for event in 1..=1_500 {
        match feed.random.below(8) {
            0..4 => feed.issue(event),
            4..6 => feed.deliver(&store),
            6 => {
                let snapshot = store.snapshot_at(feed.stamp(&store)).unwrap();
                assert_eq!(pairs(&snapshot), feed.model.at(snapshot.stamp()));
                open.push_back(snapshot);
            }
            _ if event % 3 == 0 => {
                let stamp = feed.stamp(&store);
                store.vacuum_to(stamp).unwrap();
                // The rows above the stamp are counted too.
                assert!(store.certificate(stamp).unwrap().kept <= store.rows().unwrap());
            }
            _ => open.truncate(5),
        }
        if let Some(snapshot) = open.front() {
            assert_eq!(pairs(snapshot), feed.model.at(snapshot.stamp()));
        }
    }
    let (saved, _) = Store::restore(&store.checkpoint(7).unwrap()).unwrap();
    for snapshot in open {
        let restored = saved.snapshot_by_id(snapshot.id()).unwrap();
        assert_eq!(pairs(&restored), feed.model.at(snapshot.stamp()));
    }
}

#[test]
fn snapshots_are_those_of_the_model() {
    for (nodes, seed) in [(1, 3), (2, 5), (3, 7), (4, 11), (3, 13)] {
        play(nodes, seed);
    }
}

const GROUPS: u64 = 6;
const WRITERS: u16 = 3;

fn keys_of(group: u64) -> impl Iterator<Item = String> {
    (0..5).map(move |key| format!("{key} of {group}"))
}

/// Writes all keys of a group at a time, with one value, or deletes them all.
fn write_groups(store: &SharedStore, id: u16) {
    let (mut node, mut batch, mut random) = (Node::new(id, Stamp::ZERO), Batch::new(), Random::new(id.into()));
    for reading in 1..=2_000 {
        let (group, deletes) = (random.below(GROUPS), random.below(5) == 0);
        let value = format!("{reading} of node {id}").repeat(1 + random.below(3) as usize);
        batch.clear();
        for key in keys_of(group) {
            if deletes { batch.delete(key).unwrap() } else { batch.write(key, &value).unwrap() }
        }
        store.accept(node.write_batch(reading, &batch).unwrap()).unwrap();
        if reading % 100 == 0 {
            store.vacuum().unwrap();
        }
    }
}

/// Counts down at the end of a thread, also where it panics.
struct Ended<'a>(&'a AtomicUsize);

impl Drop for Ended<'_> {
    fn drop(&mut self) {
        self.0.fetch_sub(1, Ordering::SeqCst);
    }
}

/// Checks that all keys of each group have one value, or none has one.
fn check_groups(snapshot: &Snapshot<SharedStore>) {
    let listed: BTreeMap<_, _> = snapshot.iter().map(Result::unwrap).collect();
    for group in 0..GROUPS {
        let values: BTreeSet<_> = keys_of(group).map(|key| snapshot.get(key).unwrap()).collect();
        let in_list: BTreeSet<_> = keys_of(group).map(|key| listed.get(key.as_bytes()).cloned()).collect();
        assert_eq!((values.len(), &values), (1, &in_list), "group {group} at {}", snapshot.stamp());
    }
}

fn read_groups(store: &SharedStore, running: &AtomicUsize) -> usize {
    for seen in 1.. {
        let is_last = running.load(Ordering::SeqCst) == 0;
        let snapshot = store.snapshot().unwrap();
        check_groups(&snapshot);
        // Below the floor, unless a vacuum was there before.
        let below = Stamp::from_bits(snapshot.stamp().to_bits().saturating_sub(3 << 16));
        match store.snapshot_at(below) {
            Ok(older) => check_groups(&older),
            Err(error) => assert_eq!(error.kind(), ErrorKind::BelowHorizon),
        }
        check_groups(&snapshot);
        if is_last {
            return seen;
        }
    }
    unreachable!()
}

#[test]
fn readers_in_threads_see_no_part_of_a_batch() {
    let (store, running) = (SharedStore::open(WRITERS).unwrap(), AtomicUsize::new(WRITERS.into()));
    thread::scope(|scope| {
        let readers: Vec<_> = (0..3).map(|_| scope.spawn(|| read_groups(&store, &running))).collect();
        for id in 0..WRITERS {
            let (store, running) = (&store, &running);
            scope.spawn(move || {
                let _ended = Ended(running);
                write_groups(store, id);
            });
        }
        for reader in readers {
            assert!(reader.join().unwrap() > 1);
        }
    });
    assert_eq!((store.floor(), store.snapshots()), (Ok(at(2_000)), Ok(vec![])));
}

#[test]
fn batch_is_one_item_at_one_stamp() {
    let (store, mut node) = (Store::open(1).unwrap(), Node::new(0, Stamp::ZERO));
    store.accept(node.write(4, "b", "old").unwrap()).unwrap();
    let before = store.snapshot().unwrap();
    let batch = batch(&[("c", Some("3")), ("a", Some("")), ("b", None)]);
    let item = node.write_batch(5, &batch).unwrap();
    assert_eq!(item, Item::batch(0, 1, at(5), &batch));
    assert_eq!((node.next_number(), node.last()), (2, at(5)));
    assert_eq!(store.accept(item), Ok(()));
    assert_eq!((store.rows(), store.floor(), store.link(0).unwrap().next_number), (Ok(4), Ok(at(5)), 2));
    for (key, value) in [("a", Some("")), ("b", None), ("c", Some("3"))] {
        let rows = store.versions(key, at(4), Stamp::MAX).unwrap();
        assert_eq!((rows.len(), rows[0].stamp, rows[0].node), (1, at(5), 0));
        assert_eq!(rows[0].value.as_deref(), value.map(str::as_bytes));
    }
    let pair = |key: &str, value: &str| (key.as_bytes().to_vec(), value.as_bytes().to_vec());
    assert_eq!(pairs(&before), [pair("b", "old")]);
    assert_eq!(pairs(&store.snapshot().unwrap()), [pair("a", ""), pair("c", "3")]);

    // An increment, and the log again, have it whole.
    let increment = store.increment(at(4), 9).unwrap();
    let mut log = Item::write(0, 0, at(4), "b", "old").encode().unwrap();
    let other = Store::open(1).unwrap();
    other.accept_items(&log).unwrap();
    let copy = Store::restore(&apply_increment(&other.checkpoint(8).unwrap(), &increment).unwrap()).unwrap().0;
    item.encode_into(&mut log).unwrap();
    for store in [&copy, &other] {
        for _ in 0..2 {
            assert_eq!(store.accept_items(&log), Ok(2));
            assert_eq!(pairs(&store.snapshot().unwrap()), [pair("a", ""), pair("c", "3")]);
        }
    }
}

#[test]
fn batch_has_its_writes_in_order() {
    let mut built = batch(&[("c", Some("3")), ("a", None), ("bb", Some(""))]);
    let expected: [(&[u8], Option<&[u8]>); 3] = [(b"c", Some(b"3")), (b"a", None), (b"bb", Some(b""))];
    assert!(
        built.iter().eq(expected) && (&built).into_iter().eq(expected) && built.as_writes().into_iter().eq(expected)
    );
    assert_eq!((built.len(), built.is_empty(), built.iter().len()), (3, false, 3));
    assert_eq!(format!("{:?}", batch(&[("a", None)])), "[([97], None)]");
    assert_eq!(built.clone(), built);
    built.clear();
    assert_eq!((built.len(), built.is_empty(), built.iter().next()), (0, true, None));
    assert_eq!(built, Batch::new());
}

/// The bytes of an item that is a batch, as `docs/formats.md` has them.
#[test]
fn batch_has_the_bytes_of_the_format() {
    let head = b"\x01\x00\x02\x00\x00\x00\x00\x00\x00\x00\x03\x00\x00\x00\x00\x00\x05\x00\x04\x03\x01";
    let bytes = [&head[..], b"\x01k\x01\x00\x02vv", b"\x02kk\x00"].concat();
    let batch = batch(&[("k", Some("vv")), ("kk", None)]);
    let item = Item::batch(2, 3, Stamp::new(5, 4), &batch);
    assert_eq!((item.encode(), Item::decode(&bytes)), (Ok(bytes.clone()), Ok((item, &[][..]))));
    assert_eq!(item.into_owned().as_item(), item);
}

#[test]
fn longest_batch_is_accepted() {
    let (mut batch, value) = (Batch::new(), vec![b'v'; 65_535]);
    for number in 0..=255_u8 {
        batch.write([number; 255], &value).unwrap();
    }
    let (store, mut node) = (Store::open(1).unwrap(), Node::new(0, Stamp::ZERO));
    let log = node.write_batch(5, &batch).unwrap().encode().unwrap();
    assert_eq!(log.len(), 16_843_285);
    let (item, rest) = Item::decode(&log).unwrap();
    assert!(rest.is_empty() && item.content == Content::Batch(batch.as_writes()));
    assert_eq!(store.accept_items(&log), Ok(1));
    let snapshot = store.snapshot().unwrap();
    assert!(snapshot.iter().map(Result::unwrap).eq((0..=255).map(|number: u8| (vec![number; 255], value.clone()))));
}

#[test]
fn builder_refuses() {
    let mut batch = Batch::new();
    assert_eq!(refused(batch.write("", "")), (ErrorKind::BadKey, 0));
    assert_eq!(refused(batch.delete([0; 256])), (ErrorKind::BadKey, 0));
    assert_eq!(refused(batch.write([0; 256], [0; 65_536])), (ErrorKind::BadKey, 0));
    assert_eq!(refused(batch.write("a", [0; 65_536])), (ErrorKind::ValueTooLong, 0));
    assert!(batch.is_empty());
    for number in 0..256_u16 {
        batch.write(number.to_be_bytes(), "").unwrap();
    }
    let full = batch.clone();
    assert_eq!(refused(batch.write("a", "")), (ErrorKind::TooManyWrites, 0));
    assert_eq!(refused(batch.delete("a")), (ErrorKind::TooManyWrites, 0));
    assert_eq!(refused(batch.delete("")), (ErrorKind::BadKey, 0));
    assert_eq!(batch, full);
    assert_eq!(Node::new(0, Stamp::ZERO).write_batch(1, &batch).unwrap(), Item::batch(0, 0, at(1), &full));
}

#[test]
fn node_refuses() {
    let (one, none, twice) = (batch(&[("a", None)]), Batch::new(), batch(&[("a", None), ("b", None), ("a", Some(""))]));
    let mut node = Node::new(0, Stamp::ZERO);
    let before = node.clone();
    assert_eq!(refused(node.write_batch(1, &none)), (ErrorKind::NoWrites, 0));
    assert_eq!(refused(node.write_batch(1, &twice)), (ErrorKind::KeyTwice, 0));
    assert_eq!(refused(node.write_batch(1 << 48, &none)), (ErrorKind::NoWrites, 0));
    assert_eq!(refused(node.write_batch(1 << 48, &one)), (ErrorKind::ReadingTooLarge, 0));
    assert_eq!(node, before);
    let full = Stamp::new(7, u16::MAX);
    node.raise_to(full);
    assert_eq!(refused(node.write_batch(7, &one)), (ErrorKind::CounterFull, full.to_bits()));
    node.retire(8).unwrap();
    assert_eq!(refused(node.write_batch(9, &none)), (ErrorKind::Retired, 0));
    let mut last = Node::restore(0, Stamp::MAX, u64::MAX).unwrap();
    assert_eq!(refused(last.write_batch(1, &one)), (ErrorKind::NumbersSpent, 0));
    assert_eq!(refused(last.write_batch(1, &twice)), (ErrorKind::KeyTwice, 0));
}

#[test]
fn store_refuses_and_keeps_no_part() {
    let store = Store::open(1).unwrap();
    let (one, none, twice) = (batch(&[("a", None)]), Batch::new(), batch(&[("a", None), ("b", None), ("a", Some(""))]));
    store.accept(Item::batch(0, 0, at(5), &one)).unwrap();
    let cases = [
        (Item::batch(1, 1, at(6), &none), ErrorKind::NoNode, 0),
        (Item::batch(0, 0, at(6), &twice), ErrorKind::NotNext, 1),
        (Item::batch(0, 2, at(6), &one), ErrorKind::NotNext, 1),
        (Item::batch(0, 1, at(5), &none), ErrorKind::StampNotRising, at(5).to_bits()),
        (Item::batch(0, 1, at(6), &none), ErrorKind::NoWrites, 0),
        (Item::batch(0, 1, at(6), &twice), ErrorKind::KeyTwice, 0),
    ];
    for (item, kind, word) in cases {
        assert_eq!((refused(store.check(item)), refused(store.accept(item))), ((kind, word), (kind, word)));
        let stopped = store.accept_all(&[item]).unwrap_err();
        assert_eq!((stopped.items, stopped.error), (0, Error::new(stopped.error.code(), word)));
    }
    assert_eq!((store.rows(), store.floor()), (Ok(1), Ok(at(5))));
    assert_eq!(refused(Item::batch(0, 1, at(6), &none).encode()), (ErrorKind::NoWrites, 0));
    assert_eq!(refused(Item::batch(0, 1, at(6), &twice).encode()), (ErrorKind::KeyTwice, 0));

    // The bytes of two writes, of which the second key becomes that of the first.
    let mut log = Item::batch(0, 1, at(6), &batch(&[("a", None), ("b", None)])).encode().unwrap();
    let whole = log.len();
    log[whole - 2] = b'a';
    let stopped = store.accept_items(&log).unwrap_err();
    assert_eq!((stopped.items, stopped.bytes, stopped.error.kind()), (0, 0, ErrorKind::KeyTwice));
    assert_eq!(store.apply_records(&log).unwrap_err().error.kind(), ErrorKind::KeyTwice);
    let (decoded, rest) = Item::decode(&log).unwrap();
    assert_eq!((refused(decoded.encode()), rest.len()), ((ErrorKind::KeyTwice, 0), 0));
    log[whole - 2] = b'b';
    assert_eq!(refused(store.accept_items(&log[..whole - 1]).map_err(Error::from)), (ErrorKind::BadBytes, 1));
    assert_eq!((store.rows(), store.accept_items(&log), store.rows()), (Ok(1), Ok(1), Ok(3)));

    store.accept(Item::retire(0, 2, at(7))).unwrap();
    assert_eq!(refused(store.check(Item::batch(0, 3, at(8), &none))), (ErrorKind::Retired, 0));
    assert_eq!(refused(store.accept(Item::batch(0, 3, at(8), &none))), (ErrorKind::Retired, 0));
    store.close();
    assert_eq!(refused(store.check(Item::batch(0, 3, at(8), &none))), (ErrorKind::Closed, 0));
    assert_eq!(refused(store.accept(Item::batch(0, 3, at(8), &none))), (ErrorKind::Closed, 0));
}

#[test]
fn refusals_have_texts() {
    for (code, text) in [(28, "no writes"), (29, "more than 256 writes"), (30, "twice")] {
        let error = Error::new(code, 0);
        assert!(error.to_string().contains(text) && error.kind() != ErrorKind::Other, "{error}");
    }
}
