//! Replicas: a log of items as bytes, checkpoints, and nodes after a restart.

use hlcstore::{Applied, Batch, Content, ErrorKind, Item, Node, Record, Result, Stamp, Stopped, Store};
use hlcstore::{apply_increment, merge_checkpoints, split_checkpoint};

/// Appends the items of two nodes to a log: writes, deletions, batches, reports and, at the end, a retirement.
fn make_log() -> Result<Vec<u8>> {
    let mut log = Vec::new();
    let (mut one, mut two) = (Node::new(0, Stamp::ZERO), Node::new(1, Stamp::ZERO));
    for reading in 1..=300 {
        let (key, value) = (format!("key {}", reading % 17), format!("value {reading}"));
        one.write(reading, key.as_bytes(), value.as_bytes())?.encode_into(&mut log)?;
        match reading % 3 {
            0 => two.delete(reading, key.as_bytes())?.encode_into(&mut log)?,
            1 => two.report(reading)?.encode_into(&mut log)?,
            _ if reading % 4 == 0 => {
                let mut batch = Batch::new();
                batch.write("key of two", &value)?;
                batch.write(format!("key {}", reading % 5), &value)?;
                batch.delete(format!("key {}", 5 + reading % 11))?;
                two.write_batch(reading, &batch)?.encode_into(&mut log)?;
            }
            _ => two.write(reading, b"key of two", value.as_bytes())?.encode_into(&mut log)?,
        }
    }
    two.retire(400)?.encode_into(&mut log)?;
    Ok(log)
}

/// The places between the items of a log, from its start to its end.
fn places(log: &[u8]) -> Vec<usize> {
    let store = Store::open(2).unwrap();
    let mut places = vec![0];
    for end in 1..=log.len() {
        let start = places[places.len() - 1];
        if store.accept_items(&log[start..end]).is_ok() {
            places.push(end);
        }
    }
    places
}

fn assert_alike(one: &Store, other: &Store) {
    assert_eq!(one.floor(), other.floor());
    assert_eq!(one.horizon(), other.horizon());
    assert_eq!(one.rows(), other.rows());
    assert_eq!(one.snapshots(), other.snapshots());
    assert_eq!(one.floor_node(), other.floor_node());
    for node in 0..2 {
        assert_eq!(one.link(node), other.link(node));
    }
    let (mine, theirs) = (one.snapshot().unwrap(), other.snapshot().unwrap());
    assert_eq!(mine.digest(..), theirs.digest(..));
    assert!(mine.iter().eq(theirs.iter()));
}

#[test]
fn replica_goes_on_from_a_checkpoint() {
    let log = make_log().unwrap();
    let places = places(&log);
    assert_eq!(places.len(), 602);
    let middle = places[400];
    let store = Store::open(2).unwrap();
    assert_eq!(store.accept_items(&log[..places[200]]), Ok(200));
    let protected = store.snapshot().unwrap();
    assert_eq!(store.accept_items(&log[places[200]..middle]), Ok(200));
    store.vacuum_to(Stamp::new(150, 0)).unwrap();
    let saved = store.checkpoint(middle as u64).unwrap();

    let (replica, tag) = Store::restore(&saved).unwrap();
    assert_eq!(tag, middle as u64);
    assert_alike(&store, &replica);
    assert_eq!(store.accept_items(&log[middle..]), Ok(201));
    assert_eq!(replica.accept_items(&log[tag as usize..]), Ok(201));
    assert_alike(&store, &replica);
    let same = replica.snapshot_by_id(protected.id()).unwrap();
    assert_eq!(same.stamp(), protected.stamp());
    assert_eq!(same.digest(..), protected.digest(..));
    assert_eq!(same.keep(), protected.id());
    assert_alike(&store, &replica);

    // Reading the log again changes nothing, whichever call reads it.
    let all = Applied { records: 601, bytes: log.len(), threshold: Stamp::ZERO };
    assert_eq!(replica.apply_records(&log), Ok(all));
    assert_alike(&store, &replica);
    assert_eq!(replica.accept_items(&log), Ok(601));
    assert_alike(&store, &replica);
    assert!(replica.link(1).unwrap().is_retired);
    assert_eq!(store.vacuum(), replica.vacuum());
    let floor = store.floor().unwrap();
    assert_eq!(store.certificate(floor).unwrap(), replica.certificate(floor).unwrap());
}

#[test]
fn checkpoint_becomes_a_newer_one_by_increments() {
    let log = make_log().unwrap();
    let places = places(&log);
    let store = Store::open(2).unwrap();
    store.accept_items(&log[..places[200]]).unwrap();
    let protected = store.snapshot().unwrap();
    let (mut saved, mut floor) = (store.checkpoint(200).unwrap(), store.floor().unwrap());
    let mut lengths = vec![saved.len()];
    for end in [300, 500, 601] {
        store.accept_items(&log[..places[end]]).unwrap();
        store.vacuum_to(floor).unwrap();
        let increment = store.increment(floor, end as u64).unwrap();
        saved = apply_increment(&saved, &increment).unwrap();
        lengths.push(saved.len());
        assert!(increment.len() < saved.len());
        floor = store.floor().unwrap();

        // The copy has the rows too that the vacuums dropped, until its next vacuum.
        let (copy, tag) = Store::restore(&saved).unwrap();
        assert_eq!((tag, copy.horizon(), copy.floor()), (end as u64, store.horizon(), Ok(floor)));
        assert!(copy.rows().unwrap() > store.rows().unwrap());
        copy.vacuum_to(copy.horizon().unwrap()).unwrap();
        assert_alike(&store, &copy);
        let same = copy.snapshot_by_id(protected.id()).unwrap();
        assert_eq!(same.digest(..), protected.digest(..));
    }
    assert!(lengths.is_sorted());
}

/// The writes of an item that are of keys of a part.
fn part_of(content: Content<'_>, has: impl Fn(&[u8]) -> bool) -> Batch {
    let mut part = Batch::new();
    let mut add = |key: &[u8], value: Option<&[u8]>| match value.filter(|_| has(key)) {
        Some(value) => part.write(key, value).unwrap(),
        None if has(key) => part.delete(key).unwrap(),
        None => (),
    };
    match content {
        Content::Write { key, value } => add(key, Some(value)),
        Content::Delete { key } => add(key, None),
        Content::Batch(writes) => writes.iter().for_each(|(key, value)| add(key, value)),
        Content::Report | Content::Retire => (),
    }
    part
}

/// Accepts the items of a log: of each its writes of keys of a part, and where there are none a report, but for a
/// retirement.
fn accept_part(store: &Store, mut log: &[u8], has: impl Fn(&[u8]) -> bool) {
    while !log.is_empty() {
        let (item, rest) = Item::decode(log).unwrap();
        let (part, Item { node, number, stamp, content }) = (part_of(item.content, &has), item);
        store
            .accept(match content {
                Content::Retire => item,
                _ if part.is_empty() => Item::report(node, number, stamp),
                _ => Item::batch(node, number, stamp, &part),
            })
            .unwrap();
        log = rest;
    }
}

#[test]
fn parts_of_a_checkpoint_go_on_and_become_the_whole() {
    let log = make_log().unwrap();
    let places = places(&log);
    let (store, bound) = (Store::open(2).unwrap(), b"key 3");
    store.accept_items(&log[..places[200]]).unwrap();
    let protected = store.snapshot().unwrap();
    let whole = store.checkpoint(200).unwrap();
    let (left, right) = split_checkpoint(&whole, bound).unwrap();
    assert_eq!(merge_checkpoints(&left, &right).unwrap(), whole);

    store.accept_items(&log[places[200]..]).unwrap();
    let (below, from) = (Store::restore(&left).unwrap().0, Store::restore(&right).unwrap().0);
    accept_part(&below, &log[places[200]..], |key| key < &bound[..]);
    accept_part(&from, &log[places[200]..], |key| key >= &bound[..]);
    assert_eq!(below.floor(), store.floor());
    let all = store.snapshot().unwrap();
    let (low, high) = (below.snapshot().unwrap(), from.snapshot().unwrap());
    assert!(low.count(..).unwrap() > 0 && high.count(..).unwrap() > 0);
    assert_eq!(low.digest(..), all.digest(..&bound[..]));
    assert_eq!(high.digest(..), all.digest(&bound[..]..));
    let old = from.snapshot_by_id(protected.id()).unwrap();
    assert_eq!(old.digest(..), protected.digest(&bound[..]..));
    for each in [&store, &below, &from] {
        each.vacuum().unwrap();
    }
    let merged = merge_checkpoints(&below.checkpoint(9).unwrap(), &from.checkpoint(9).unwrap()).unwrap();
    assert_eq!(merged, store.checkpoint(9).unwrap());

    // Bounds beyond all keys, and no bound, leave a part without rows.
    for (bound, part) in [(&b"z"[..], 1), (b"", 0)] {
        let parts = split_checkpoint(&whole, bound).unwrap();
        let empty = if part == 0 { &parts.0 } else { &parts.1 };
        assert_eq!(Store::restore(empty).unwrap().0.rows(), Ok(0));
        assert_eq!(merge_checkpoints(&parts.0, &parts.1).unwrap(), whole);
    }
}

#[test]
fn replicas_agree_on_joins_and_vacuums_at_stamps_of_a_log() {
    let stores = [Store::open(1).unwrap(), Store::open(1).unwrap()];
    let mut one = Node::new(0, Stamp::ZERO);
    let items: Vec<Item<'_>> = (1..=9).map(|reading| one.write(reading, b"city", b"Lyon").unwrap()).collect();
    let start = Stamp::new(9, 0);
    stores[0].accept_all(&items[..4]).unwrap();
    stores[1].accept_all(&items).unwrap();
    let joined = stores.each_ref().map(|store| store.join_at(start).unwrap());
    assert_eq!(joined[0], joined[1]);
    assert_eq!((joined[0].id(), joined[0].last()), (1, start));
    stores[0].accept_all(&items[4..]).unwrap();
    let mut two = joined[0].clone();
    let item = two.write(1, b"city", b"Rome").unwrap();
    assert_eq!(item.stamp, Stamp::new(9, 1));
    for store in &stores {
        store.accept(item).unwrap();
        let vacuumed = store.vacuum_to(Stamp::new(6, 0)).unwrap();
        assert_eq!((vacuumed.stamp, vacuumed.kept, vacuumed.dropped), (Stamp::new(6, 0), 1, 5));
    }
    assert_alike(&stores[0], &stores[1]);
}

#[test]
fn node_goes_on_after_a_restart() {
    let store = Store::open(1).unwrap();
    let mut node = Node::new(0, Stamp::ZERO);
    store.accept(node.write(5, b"city", b"Lyon").unwrap()).unwrap();
    node.send(7).unwrap();
    let mut restored = Node::restore(node.id(), node.last(), node.next_number()).unwrap();
    assert_eq!(restored, node);
    restored.raise_to(Stamp::new(9, 3));
    let item = restored.write(8, b"city", b"Rome").unwrap();
    assert_eq!((item.number, item.stamp), (1, Stamp::new(9, 4)));
    store.accept(item).unwrap();
}

#[test]
fn shared_store_takes_a_newer_checkpoint_in_its_place() {
    let log = make_log().unwrap();
    let ahead = Store::open(2).unwrap();
    ahead.accept_items(&log).unwrap();
    let replica = hlcstore::SharedStore::open(2).unwrap();
    let clone = replica.clone();
    replica.close();
    assert_eq!(replica.reload(&ahead.checkpoint(9).unwrap()), Ok(9));
    assert_eq!(clone.floor(), ahead.floor());
    assert_eq!(clone.snapshot().unwrap().digest(..), ahead.snapshot().unwrap().digest(..));
}

#[test]
fn records_are_applied_and_passed_over() {
    let mut log = Item::write(0, 0, Stamp::new(5, 0), b"a", b"x").encode().unwrap();
    let first = log.len();
    Record::Threshold(Stamp::new(3, 0)).encode_into(&mut log).unwrap();
    Record::Join { node: 1, start: Stamp::new(5, 0) }.encode_into(&mut log).unwrap();
    Record::Threshold(Stamp::new(2, 0)).encode_into(&mut log).unwrap();
    assert_eq!(log.len(), first + 9 + 11 + 9);
    let store = Store::open(1).unwrap();
    let all = Applied { records: 4, bytes: log.len(), threshold: Stamp::new(3, 0) };
    for _ in 0..2 {
        assert_eq!(store.apply_records(&log), Ok(all));
        assert_eq!((store.nodes(), store.rows()), (Ok(2), Ok(1)));
    }
    assert_eq!(store.apply_records(&[]), Ok(Applied { records: 0, bytes: 0, threshold: Stamp::ZERO }));

    // A cut log ends with a record before, and a join that leaves out a number is refused with the next one.
    let Stopped { items, bytes, threshold, error } = store.apply_records(&log[..first + 9 + 4]).unwrap_err();
    assert_eq!((items, bytes, threshold), (2, first + 9, Stamp::new(3, 0)));
    assert_eq!((error.kind(), error.word()), (ErrorKind::BadBytes, 1));
    let gap = Record::Join { node: 3, start: Stamp::new(9, 0) }.encode().unwrap();
    let error = store.apply_records(&gap).unwrap_err().error;
    assert_eq!((error.kind(), error.word()), (ErrorKind::NotNext, 2));
    let early = Record::Join { node: 2, start: Stamp::new(4, 0) }.encode().unwrap();
    assert_eq!(store.apply_records(&early).unwrap_err().error.kind(), ErrorKind::BelowFloor);
    assert_eq!(store.nodes(), Ok(2));
}
