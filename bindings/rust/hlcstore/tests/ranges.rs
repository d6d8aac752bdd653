//! Each decision of a key space over several stores, on its own.

use hlcstore::{
    Batch, Division, ErrorKind, Item, Link, Machine, Ranges, RangesError, RangesSnapshot, SharedStore, Stamp, Store,
};
use std::io::{self, Write};
use std::panic::{AssertUnwindSafe, catch_unwind};
use std::sync::mpsc;
use std::thread;
use std::time::Duration;

const LIMIT: Duration = Duration::from_secs(10);

fn at(physical: u64) -> Stamp {
    Stamp::new(physical, 0)
}

fn by_keys() -> Division {
    Division::by_keys(&["g", "n", "t"]).unwrap()
}

fn opened(division: &Division, machines: u16) -> (Ranges, Vec<Machine>) {
    (Ranges::open(division, machines).unwrap(), (0..machines).map(|id| Machine::new(division, id)).collect())
}

/// The kind of the refusal of a store, and its number.
fn refusal<T: std::fmt::Debug>(result: Result<T, RangesError>) -> (usize, ErrorKind) {
    match result.unwrap_err() {
        RangesError::Store { store, error } => (store, error.kind()),
        error => panic!("{error}"),
    }
}

/// The kind of the refusal of a machine.
fn refused<T: std::fmt::Debug>(result: Result<T, RangesError>) -> ErrorKind {
    match result.unwrap_err() {
        RangesError::Refused(error) => error.kind(),
        error => panic!("{error}"),
    }
}

fn are_closed(ranges: &Ranges) -> bool {
    ranges.stores().iter().all(|store| store.snapshots().unwrap().is_empty())
}

fn pairs(snapshot: &RangesSnapshot) -> Vec<(String, String)> {
    let text = |bytes| String::from_utf8(bytes).unwrap();
    snapshot.iter().map(|pair| pair.map(|(key, value)| (text(key), text(value))).unwrap()).collect()
}

#[test]
fn keys_belong_to_the_store_below_the_next_boundary() {
    let division = by_keys();
    let owners = ["\0", "f\u{7f}", "g", "g\0", "m", "n", "s", "t", "~"].map(|key| division.store_of(key));
    assert_eq!(owners, [0, 0, 1, 1, 1, 2, 2, 3, 3]);
    assert_eq!(division.store_of([0xff; 255]), 3);
    let one = Division::by_keys::<&str>(&[]).unwrap();
    assert_eq!((one.stores(), one.store_of("any")), (1, 0));
    assert_eq!(by_keys(), division);
}

#[test]
fn boundaries_ascend() {
    for boundaries in [&["b", "a"][..], &["a", "a"], &["", "a"], &[""], &["a", "c", "b"]] {
        assert_eq!(Division::by_keys(boundaries), Err(RangesError::BadDivision));
    }
    let many = |boundaries: u16| (1..=boundaries).map(u16::to_be_bytes).collect::<Vec<_>>();
    assert_eq!(Division::by_keys(&many(1023)).map(|division| division.stores()), Ok(1024));
    assert_eq!(Division::by_keys(&many(1024)), Err(RangesError::BadDivision));
}

#[test]
fn hashes_divide_among_1_to_1024_stores() {
    assert_eq!([0, 1025].map(Division::by_hash), [Err(RangesError::BadDivision), Err(RangesError::BadDivision)]);
    assert!([1, 1024].iter().all(|stores| Division::by_hash(*stores).unwrap().stores() == *stores));
    // The hashes that the authors of the function publish.
    let hashes: [(&[u8], u64); 5] = [
        (b"", 0xcbf2_9ce4_8422_2325),
        (b"a", 0xaf63_dc4c_8601_ec8c),
        (b"b", 0xaf63_df4c_8601_f1a5),
        (b"foobar", 0x8594_4171_f739_67e8),
        (b"\xff\0\0\x01", 0x6961_1964_91cc_682d),
    ];
    for stores in [1, 2, 7, 64, 1000, 1024] {
        let division = Division::by_hash(stores).unwrap();
        for (key, hash) in hashes {
            assert_eq!(division.store_of(key) as u64, hash % stores as u64);
        }
    }
}

#[test]
fn item_of_another_store_is_refused() {
    let (ranges, _) = opened(&by_keys(), 1);
    let apple = Item::write(0, 0, at(5), "apple", "red");
    let zebra = Item::delete(0, 0, at(5), "zebra");
    assert_eq!(ranges.accept(1, apple), Err(RangesError::WrongStore(0)));
    assert_eq!(ranges.accept(0, zebra), Err(RangesError::WrongStore(3)));
    assert_eq!(ranges.accept(4, apple), Err(RangesError::NoStore(4)));
    assert_eq!(ranges.floor(4), Err(RangesError::NoStore(4)));
    for store in ranges.stores() {
        assert_eq!(store.link(0).map(|link| link.next_number), Ok(0));
    }
    assert_eq!((ranges.accept(0, apple), ranges.accept(3, zebra)), (Ok(()), Ok(())));
    assert_eq!(ranges.accept(1, Item::report(0, 0, at(5))), Ok(()));
    assert_eq!(refusal(ranges.accept(0, apple)), (0, ErrorKind::NotNext));
    assert_eq!(ranges.rows(), Ok(2));
}

/// A batch of writes, each of a key with itself as its value.
fn batch(keys: &[&str]) -> Batch {
    let mut batch = Batch::new();
    keys.iter().for_each(|key| batch.write(key, key).unwrap());
    batch
}

#[test]
fn batch_is_of_one_store() {
    let (ranges, mut machines) = opened(&by_keys(), 1);
    let (before, machine) = (machines[0].clone(), &mut machines[0]);
    for (keys, owner) in [(["h", "m", "n"], 2), (["h", "m", "a"], 0), (["a", "t", "n"], 3)] {
        assert_eq!(machine.write_batch(5, &batch(&keys)), Err(RangesError::WrongStore(owner)));
        assert_eq!(ranges.write_batch(machine, 5, &batch(&keys)), Err(RangesError::WrongStore(owner)));
    }
    assert_eq!(refused(machine.write_batch(5, &batch(&["h", "h"]))), ErrorKind::KeyTwice);
    assert_eq!(refused(ranges.write_batch(machine, 5, &Batch::new())), ErrorKind::NoWrites);
    assert_eq!((&*machine, ranges.rows()), (&before, Ok(0)));

    let middle = batch(&["m", "h", "mm"]);
    let (store, item) = machine.write_batch(5, &middle).unwrap();
    assert_eq!((store, item), (1, Item::batch(0, 0, at(5), &middle)));
    assert_eq!(ranges.accept(2, item), Err(RangesError::WrongStore(1)));
    let other = batch(&["h", "z"]);
    assert_eq!(ranges.accept(1, Item::batch(0, 0, at(5), &other)), Err(RangesError::WrongStore(3)));
    assert_eq!((ranges.accept(1, item), ranges.rows()), (Ok(()), Ok(3)));
    assert_eq!(ranges.write_batch(machine, 5, &batch(&["z", "x"])), Ok(Stamp::new(5, 1)));
    ranges.report_all(machine, 6).unwrap();
    let keys: Vec<_> = pairs(&ranges.snapshot().unwrap()).into_iter().map(|pair| pair.0).collect();
    assert_eq!(keys, ["h", "m", "mm", "x", "z"]);

    // A batch that the store refuses is issued again with the same number.
    ranges.stores()[3].accept(Item::report(0, 2, at(7))).unwrap();
    let (before, late) = (machine.next_numbers().collect::<Vec<_>>(), batch(&["z", "x"]));
    assert_eq!(refusal(ranges.write_batch(machine, 8, &late)), (3, ErrorKind::NotNext));
    assert_eq!(machine.next_numbers().collect::<Vec<_>>(), before);
}

#[test]
fn cut_is_the_least_floor() {
    let (ranges, mut machines) = opened(&by_keys(), 2);
    assert_eq!(ranges.cut(), Ok(Stamp::ZERO));
    ranges.report_all(&mut machines[0], 9).unwrap();
    assert_eq!(ranges.cut(), Ok(Stamp::ZERO));
    ranges.report_all(&mut machines[1], 7).unwrap();
    // The reports of a machine rise: 7.0 to 7.3, store by store.
    let floors: Vec<_> = (0..4).map(|store| ranges.floor(store).unwrap().counter()).collect();
    assert_eq!((floors, ranges.cut()), (vec![0, 1, 2, 3], Ok(at(7))));
}

#[test]
fn snapshot_is_at_or_below_the_cut() {
    let (ranges, mut machines) = opened(&by_keys(), 1);
    ranges.report_all(&mut machines[0], 7).unwrap();
    let above = Stamp::new(7, 1); // the floor of store 1
    assert_eq!(ranges.snapshot_at(above).unwrap_err(), RangesError::AboveCut(at(7)));
    assert!(are_closed(&ranges));
    assert_eq!(ranges.snapshot_at(at(7)).unwrap().stamp(), at(7));
    let snapshot = ranges.snapshot().unwrap();
    assert!(ranges.stores().iter().all(|store| store.snapshots().unwrap()[0].stamp == at(7)));
    assert_eq!(snapshot.close(), Ok(at(7)));
    assert!(are_closed(&ranges));
}

#[test]
fn snapshot_that_one_store_refuses_is_open_in_none() {
    let (ranges, mut machines) = opened(&by_keys(), 1);
    ranges.report_all(&mut machines[0], 7).unwrap();
    let open: Vec<_> = (0..1024).map(|_| ranges.stores()[2].snapshot().unwrap()).collect();
    assert_eq!(refusal(ranges.snapshot()), (2, ErrorKind::TooManySnapshots));
    assert_eq!(refusal(ranges.snapshot_at(at(6))), (2, ErrorKind::TooManySnapshots));
    drop(open);
    assert!(are_closed(&ranges));
    // Above the cut, by a call of one store: each snapshot is refused until the cut is there.
    ranges.stores()[1].vacuum().unwrap();
    assert_eq!(refusal(ranges.snapshot()), (1, ErrorKind::BelowHorizon));
    assert_eq!(refusal(ranges.snapshot_at(at(6))), (1, ErrorKind::BelowHorizon));
    assert!(are_closed(&ranges));
    ranges.report_all(&mut machines[0], 8).unwrap();
    assert_eq!(ranges.snapshot().unwrap().stamp(), at(8));
}

#[test]
fn snapshots_open_beside_vacuums() {
    let (ranges, mut machines) = opened(&Division::by_hash(4).unwrap(), 1);
    ranges.report_all(&mut machines[0], 1).unwrap();
    thread::scope(|scope| {
        let vacuums = scope.spawn(|| {
            for reading in 2..1_500 {
                ranges.report_all(&mut machines[0], reading).unwrap();
                assert_eq!(ranges.vacuum_to(Stamp::MAX).unwrap().stamp, at(reading));
            }
        });
        while !vacuums.is_finished() {
            ranges.snapshot().unwrap().close().unwrap();
        }
    });
    assert!(are_closed(&ranges));
}

#[test]
fn vacuum_goes_to_one_stamp_in_all_stores() {
    let (ranges, mut machines) = opened(&by_keys(), 1);
    let machine = &mut machines[0];
    for reading in 1..=9 {
        // 300 keys of store 0 are more than one part.
        for number in 0..300 {
            ranges.write(machine, reading, &format!("a{number}"), "value").unwrap();
        }
        ranges.write(machine, reading, "zebra", "value").unwrap();
    }
    ranges.report_all(machine, 9).unwrap();
    let vacuumed = ranges.vacuum_to(at(6)).unwrap(); // below the writes of reading 6
    assert_eq!((vacuumed.stamp, vacuumed.kept, vacuumed.dropped), (at(6), 301, 4 * 301 + 1));
    assert_eq!(ranges.rows(), Ok(9 * 301 - 4 * 301 - 1));
    assert!(ranges.stores().iter().all(|store| store.horizon() == Ok(at(6))));
    assert_eq!(refusal(ranges.vacuum_to(at(5))), (0, ErrorKind::BelowHorizon));
    assert_eq!(ranges.vacuum_to(Stamp::MAX).unwrap().stamp, ranges.cut().unwrap());
    assert_eq!(ranges.rows(), Ok(301));
}

#[test]
fn snapshot_lists_across_stores_in_the_order_of_keys() {
    for division in [by_keys(), Division::by_hash(1).unwrap(), Division::by_hash(7).unwrap()] {
        let (ranges, mut machines) = opened(&division, 1);
        let machine = &mut machines[0];
        let mut keys: Vec<_> = (0..500).map(|number| format!("{}{number}", ["a", "g", "h", "z"][number % 4])).collect();
        for key in &keys {
            ranges.write(machine, 5, key, key).unwrap();
        }
        ranges.delete(machine, 5, "a0").unwrap();
        ranges.report_all(machine, 6).unwrap();
        keys.remove(0);
        keys.sort_unstable();
        let snapshot = ranges.snapshot().unwrap();
        assert_eq!(pairs(&snapshot), keys.iter().map(|key| (key.clone(), key.clone())).collect::<Vec<_>>());
        let listed = |range: std::ops::Range<&str>| {
            let listed: Vec<_> = snapshot.range(range.clone()).map(|pair| pair.unwrap().0).collect();
            assert_eq!(snapshot.count(range), Ok(listed.len() as u64));
            listed
        };
        for range in ["a".."z", "b".."g", "g".."h", "g1".."h3", "z".."a", "t".."~", "".."a1", ""..""] {
            let expected: Vec<_> = keys.iter().filter(|key| range.contains(&key.as_str())).collect();
            assert!(listed(range).iter().eq(expected.into_iter().map(String::as_bytes)));
        }
        assert_eq!((snapshot.count(..), snapshot.count("g"..)), (Ok(499), Ok(375)));
        assert_eq!(snapshot.get("a0"), Ok(None));
        assert_eq!(snapshot.get("h2").unwrap().as_deref(), Some(&b"h2"[..]));
    }
}

#[test]
fn listing_returns_an_error_once() {
    for division in [by_keys(), Division::by_hash(4).unwrap()] {
        let (ranges, mut machines) = opened(&division, 1);
        for key in ["a", "h", "p", "z"] {
            ranges.write(&mut machines[0], 5, key, "").unwrap();
        }
        ranges.report_all(&mut machines[0], 6).unwrap();
        let snapshot = ranges.snapshot().unwrap();
        ranges.stores()[3].close_all().unwrap();
        let listed: Vec<_> = snapshot.iter().collect();
        let (last, before) = listed.split_last().unwrap();
        assert_eq!(refusal(last.clone()), (3, ErrorKind::NoSnapshot));
        assert!(before.iter().all(Result::is_ok));
        assert_eq!(refusal(snapshot.count(..)), (3, ErrorKind::NoSnapshot));
        assert_eq!(refusal(snapshot.close()), (3, ErrorKind::NoSnapshot));
        assert!(are_closed(&ranges));
    }
}

#[test]
fn stamps_of_a_machine_rise_in_all_stores() {
    let division = by_keys();
    let (mut one, mut other) = (Machine::new(&division, 0), Machine::new(&division, 1));
    let (store, apple) = one.write(10, "apple", "red").unwrap();
    assert_eq!((store, apple), (0, Item::write(0, 0, at(10), "apple", "red")));
    assert_eq!(one.delete(8, "pear").unwrap(), (2, Item::delete(0, 0, Stamp::new(10, 1), "pear")));
    assert_eq!(one.write(8, "plum", "").unwrap().1.number, 1);
    let message = one.send(11).unwrap();
    assert_eq!((message, one.last()), (at(11), at(11)));
    assert_eq!(other.receive(message, 3), Ok(Stamp::new(11, 1)));
    assert_eq!(other.observe(at(20), 3), Ok(Stamp::new(20, 1)));
    let reports = other.report_all(20).unwrap();
    let expected: Vec<_> = (0..4).map(|store| (store, Item::report(1, 0, Stamp::new(20, store as u16 + 2)))).collect();
    assert_eq!(reports, expected);
    assert_eq!(one.next_numbers().collect::<Vec<_>>(), [1, 0, 2, 0]);
}

#[test]
fn refused_events_leave_the_machine() {
    let division = by_keys();
    let links = [Link { next_number: 0, head: Stamp::ZERO, is_retired: false }; 4];
    let full = Stamp::new(5, u16::MAX - 2);
    let mut machine = Machine::restore(&division, 0, full, &links).unwrap();
    // Two stamps are left, for four stores.
    assert_eq!(machine.report_all(5).unwrap_err().kind(), ErrorKind::CounterFull);
    assert_eq!(machine.next_numbers().sum::<u64>(), 0);
    assert_eq!(machine.write(5, "", "").unwrap_err().kind(), ErrorKind::BadKey);
    assert_eq!(machine.send(1 << 48).unwrap_err().kind(), ErrorKind::ReadingTooLarge);
    assert_eq!(machine.report_all(6).unwrap().len(), 4);
}

#[test]
fn machine_goes_on_after_a_restart() {
    let (ranges, mut machines) = opened(&by_keys(), 2);
    ranges.write(&mut machines[1], 10, "apple", "red").unwrap();
    ranges.write(&mut machines[1], 12, "pear", "green").unwrap();
    let mut again = ranges.machine(1, Stamp::ZERO).unwrap();
    assert_eq!((again.id(), again.last()), (1, at(12)));
    assert_eq!(again.next_numbers().collect::<Vec<_>>(), [1, 0, 1, 0]);
    // A clock that is late, in a store that is behind.
    assert_eq!(ranges.write(&mut again, 3, "hazel", "brown"), Ok(Stamp::new(12, 1)));
    assert_eq!(ranges.machine(1, at(30)).unwrap().last(), at(30));
    assert_eq!(refusal(ranges.machine(2, Stamp::ZERO)), (0, ErrorKind::NoNode));
    let links = [Link { next_number: 0, head: Stamp::ZERO, is_retired: false }; 3];
    assert_eq!(Machine::restore(&by_keys(), 0, Stamp::ZERO, &links), Err(RangesError::BadDivision));
}

#[test]
fn machine_retires_from_all_stores() {
    let (ranges, mut machines) = opened(&by_keys(), 2);
    let (one, rest) = machines.split_at_mut(1);
    ranges.report_all(&mut one[0], 9).unwrap();
    // Two stores have the retirement before a restart.
    for (store, item) in rest[0].retire_all(5).unwrap().into_iter().take(2) {
        ranges.accept(store, item).unwrap();
    }
    let mut again = ranges.machine(1, rest[0].last()).unwrap();
    assert!(!again.is_retired() && rest[0].is_retired());
    assert_eq!(ranges.write(&mut again, 6, "apple", "").unwrap_err().refusal().unwrap().kind(), ErrorKind::Retired);
    ranges.write(&mut again, 6, "zebra", "").unwrap();
    ranges.report_all(&mut again, 6).unwrap();
    ranges.retire_all(&mut again, 7).unwrap();
    assert!(again.is_retired());
    assert_eq!(ranges.cut(), Ok(at(9)));
    for refused in [ranges.report_all(&mut again, 8), ranges.retire_all(&mut again, 8)] {
        assert_eq!(refused.unwrap_err().refusal().unwrap().kind(), ErrorKind::Retired);
    }
    assert_eq!(again.report_all(8).unwrap_err().kind(), ErrorKind::Retired);
    assert_eq!(again.send(8), Ok(at(8)));
}

#[test]
fn refused_write_gives_its_number_again() {
    let (ranges, mut machines) = opened(&by_keys(), 1);
    let machine = &mut machines[0];
    ranges.stores()[2].close();
    assert_eq!(refusal(ranges.write(machine, 5, "pear", "green")), (2, ErrorKind::Closed));
    assert_eq!(refusal(ranges.report_all(machine, 6)), (2, ErrorKind::Closed));
    assert_eq!(machine.next_numbers().collect::<Vec<_>>(), [1, 1, 0, 0]);
    ranges.stores()[2].reopen(1).unwrap();
    // Stamps go on above those that got lost.
    assert_eq!(ranges.write(machine, 5, "pear", "green"), Ok(Stamp::new(6, 3)));
    let mut other = Machine::new(&Division::by_hash(4).unwrap(), 0);
    assert_eq!(ranges.write(&mut other, 9, "apple", ""), Err(RangesError::WrongStore(0))); // whose hash is 3 modulo 4
    assert_eq!(other.next_numbers().sum::<u64>(), 0);
}

#[test]
fn machine_joins_all_stores_at_one_stamp() {
    let (ranges, mut machines) = opened(&by_keys(), 1);
    ranges.report_all(&mut machines[0], 5).unwrap();
    let mut joined = ranges.join().unwrap();
    assert_eq!((joined.id(), joined.last(), ranges.nodes()), (1, Stamp::new(5, 3), Ok(2)));
    assert!(ranges.stores().iter().all(|store| store.link(1).unwrap().head == Stamp::new(5, 3)));
    ranges.report_all(&mut machines[0], 9).unwrap();
    assert_eq!(ranges.cut(), Ok(Stamp::new(5, 3)));
    assert_eq!(ranges.write(&mut joined, 1, "zebra", ""), Ok(Stamp::new(5, 4)));
    ranges.report_all(&mut joined, 9).unwrap();
    assert_eq!(ranges.cut(), Ok(at(9)));
}

#[test]
fn join_that_reached_some_stores_is_ended_by_the_next() {
    let (ranges, mut machines) = opened(&by_keys(), 1);
    ranges.report_all(&mut machines[0], 5).unwrap();
    for store in &ranges.stores()[..2] {
        store.join_at(at(7)).unwrap();
    }
    assert_eq!(ranges.nodes(), Ok(1));
    let mut joined = ranges.join().unwrap();
    assert_eq!((joined.id(), joined.last(), ranges.nodes()), (1, at(7), Ok(2)));
    ranges.report_all(&mut joined, 8).unwrap();
    // What a node of one store issued is no join that was cut off.
    let mut node = ranges.stores()[3].join().unwrap();
    ranges.stores()[3].accept(node.report(9).unwrap()).unwrap();
    assert_eq!(ranges.join(), Err(RangesError::NodesDiffer));
    assert_eq!(ranges.nodes(), Ok(2));
}

#[test]
fn join_without_a_number_left_changes_nothing() {
    let (ranges, _) = opened(&Division::by_hash(3).unwrap(), 64);
    for id in 64..1024 {
        assert_eq!(ranges.join().unwrap().id(), id);
    }
    assert_eq!(refusal(ranges.join()), (0, ErrorKind::TooManyNodes));
    assert_eq!(ranges.nodes(), Ok(1024));
}

/// A writer that lets a machine join while it has a piece, and reads another store.
struct Joining<'a> {
    ranges: &'a Ranges,
    say: mpsc::Sender<u16>,
    has_joined: bool,
}

impl Write for Joining<'_> {
    fn write(&mut self, piece: &[u8]) -> io::Result<usize> {
        if !self.has_joined {
            self.has_joined = true;
            let (ranges, say) = (self.ranges.clone(), self.say.clone());
            thread::spawn(move || say.send(ranges.join().unwrap().id()));
            thread::sleep(Duration::from_millis(50)); // so that the join waits
            assert_eq!(self.ranges.stores().iter().map(SharedStore::nodes).collect::<Vec<_>>(), vec![Ok(1); 4]);
        }
        Ok(piece.len())
    }

    fn flush(&mut self) -> io::Result<()> {
        Ok(())
    }
}

#[test]
fn join_waits_for_a_checkpoint_and_locks_no_store_meanwhile() {
    let (ranges, _) = opened(&by_keys(), 1);
    let (say, said) = mpsc::channel();
    let (mine, saved) = (ranges.clone(), mpsc::channel());
    thread::spawn(move || {
        let mut writer = Joining { ranges: &mine, say, has_joined: false };
        saved.0.send(mine.stores()[2].checkpoint_to(&mut writer, 7).unwrap())
    });
    assert!(saved.1.recv_timeout(LIMIT).is_ok());
    assert_eq!(said.recv_timeout(LIMIT), Ok(1));
}

#[test]
fn checkpoints_restore_all_stores_at_one_cut() {
    let (ranges, mut machines) = opened(&by_keys(), 2);
    for key in ["apple", "pear", "zebra"] {
        ranges.write(&mut machines[0], 5, key, "value").unwrap();
    }
    ranges.report_all(&mut machines[0], 6).unwrap();
    let before = ranges.checkpoint().unwrap();
    ranges.report_all(&mut machines[1], 6).unwrap();
    let open = ranges.snapshot().unwrap();
    let saved = ranges.checkpoint().unwrap();
    let copy = Ranges::restore(&by_keys(), &saved).unwrap();
    assert_eq!((copy.cut(), copy.nodes(), are_closed(&copy)), (Ok(at(6)), Ok(2), true));
    assert_eq!(SharedStore::restore(&saved[3]).unwrap().1, at(6).to_bits());
    assert_eq!(pairs(&copy.snapshot().unwrap()), pairs(&open));
    let mut again = copy.machine(0, Stamp::ZERO).unwrap();
    assert_eq!((again.last(), copy.write(&mut again, 5, "pear", "")), (Stamp::new(6, 3), Ok(Stamp::new(6, 4))));

    let refused = |saved: &[&[u8]]| Ranges::restore(&by_keys(), saved).unwrap_err();
    let [first, second, third, fourth] = [0, 1, 2, 3].map(|store| &saved[store][..]);
    assert_eq!(refused(&[second, third, fourth]), RangesError::BadDivision);
    assert_eq!(refused(&[first, second, third, &before[3]]), RangesError::NotOneCut);
    assert_eq!(refused(&[first, third, second, fourth]), RangesError::WrongStore(2));
    assert_eq!(refusal(Ranges::restore(&by_keys(), &[first, &second[1..], third, fourth])), (1, ErrorKind::BadBytes));
}

#[test]
fn checkpoints_beside_joins_have_the_same_nodes() {
    let (ranges, _) = opened(&Division::by_hash(8).unwrap(), 1);
    thread::scope(|scope| {
        let joins = scope.spawn(|| (0..200).for_each(|_| drop(ranges.join().unwrap())));
        while !joins.is_finished() {
            let copy = Ranges::restore(ranges.division(), &ranges.checkpoint().unwrap()).unwrap();
            let nodes: Vec<_> = copy.stores().iter().map(|store| store.nodes().unwrap()).collect();
            assert_eq!(nodes, vec![nodes[0]; 8]);
        }
    });
}

#[test]
fn stores_are_opened_as_stores() {
    for machines in [0, 65] {
        assert_eq!(refusal(Ranges::open(&by_keys(), machines)), (0, ErrorKind::BadNodeCount));
        assert!(Store::open(machines).is_err());
    }
}

/// A key whose bytes cannot be had.
struct Panics;

impl AsRef<[u8]> for Panics {
    fn as_ref(&self) -> &[u8] {
        panic!("no bytes")
    }
}

#[test]
fn panic_of_a_key_leaves_all_stores_usable() {
    let (ranges, mut machines) = opened(&by_keys(), 1);
    ranges.report_all(&mut machines[0], 5).unwrap();
    let snapshot = ranges.snapshot().unwrap();
    let mut machine = machines[0].clone();
    assert!(catch_unwind(AssertUnwindSafe(|| snapshot.get(Panics))).is_err());
    assert!(catch_unwind(AssertUnwindSafe(|| snapshot.count(Panics..))).is_err());
    assert!(catch_unwind(AssertUnwindSafe(|| ranges.write(&mut machine, 6, &Panics, ""))).is_err());
    let (say, said) = mpsc::channel();
    thread::spawn(move || {
        ranges.report_all(&mut machines[0], 6).unwrap();
        say.send(ranges.cut())
    });
    assert_eq!(said.recv_timeout(LIMIT), Ok(Ok(at(6))));
}

#[test]
fn errors_say_what_was_refused() {
    let texts = [
        (RangesError::WrongStore(3), "the key belongs to store 3"),
        (RangesError::AboveCut(at(7)), "the stamp is above the cut (7.0)"),
        (RangesError::NoStore(9), "there is no store 9"),
    ];
    for (error, text) in texts {
        assert_eq!((error.to_string().as_str(), error.refusal()), (text, None));
    }
    let closed = Store::closed().rows().unwrap_err();
    let error = RangesError::Store { store: 2, error: closed };
    assert_eq!(error.to_string(), format!("store 2 refused: {closed}"));
    assert_eq!(error.refusal(), Some(closed));
    assert_eq!(RangesError::from(closed).to_string(), closed.to_string());
}
