//! Threads at random beside a model: machines with messages, whose items, also batches, are on their way to each store
//! for a time; readers at the cut; and vacuums. Each snapshot has the newest write of each key that was issued at or
//! below its stamp, for whatever store, and keeps it.

mod random;

use hlcstore::{Batch, Content, Division, Item, Machine, OwnedItem, Ranges, RangesSnapshot, Stamp};
use random::Random;
use std::collections::{BTreeMap, BTreeSet, VecDeque};
use std::sync::Mutex;
use std::sync::atomic::{AtomicUsize, Ordering};
use std::sync::mpsc::{self, Receiver, Sender};
use std::thread;
use std::time::{Duration, Instant};

const EVENTS: usize = 1_000;
const KEYS: u64 = 40;

fn key_of(random: &mut Random) -> Vec<u8> {
    let letter = b'a' + random.below(26) as u8;
    vec![letter; 1 + random.below(KEYS / 26 + 1) as usize]
}

type Write = (Stamp, u16, Option<Vec<u8>>);

/// Of each machine how many of its writes happened before: its vector clock.
type Known = Vec<usize>;

/// What was issued.
#[derive(Default)]
struct Issued {
    /// All writes and deletions of each key, in no order.
    of_keys: BTreeMap<Vec<u8>, Vec<Write>>,
    /// Those of each machine, in turn, each with what happened before it.
    of_machines: Vec<Vec<(Stamp, Known)>>,
}

struct Model(Mutex<Issued>);

impl Model {
    fn new(machines: u16) -> Model {
        Model(Mutex::new(Issued { of_machines: vec![Vec::new(); machines.into()], ..Issued::default() }))
    }

    fn add(&self, item: Item<'_>, known: &mut Known) {
        let writes = match item.content {
            Content::Write { key, value } => vec![(key, Some(value))],
            Content::Delete { key } => vec![(key, None)],
            Content::Batch(writes) => writes.iter().collect(),
            Content::Report | Content::Retire => return,
        };
        let mut issued = self.0.lock().unwrap();
        for (key, value) in writes {
            let value = value.map(<[u8]>::to_vec);
            issued.of_keys.entry(key.into()).or_default().push((item.stamp, item.node, value));
        }
        issued.of_machines[usize::from(item.node)].push((item.stamp, known.clone()));
        known[usize::from(item.node)] += 1;
    }

    /// What a machine knows that observed a snapshot at a stamp.
    fn known_at(&self, stamp: Stamp) -> Known {
        let issued = self.0.lock().unwrap();
        issued.of_machines.iter().map(|writes| writes.partition_point(|write| write.0 <= stamp)).collect()
    }

    /// Checks that each write is above all that happened before it.
    fn check_causes(&self) {
        let issued = self.0.lock().unwrap();
        for (stamp, known) in issued.of_machines.iter().flatten() {
            for (writes, many) in issued.of_machines.iter().zip(known) {
                assert!(*many == 0 || writes[many - 1].0 < *stamp);
            }
        }
    }

    /// The pairs at a stamp: of each key the value of its newest write, at one stamp that of the greater machine.
    fn at(&self, stamp: Stamp) -> Vec<(Vec<u8>, Vec<u8>)> {
        let writes = &self.0.lock().unwrap().of_keys;
        let newest = |writes: &[Write]| writes.iter().filter(|write| write.0 <= stamp).max()?.2.clone();
        writes.iter().filter_map(|(key, writes)| Some((key.clone(), newest(writes)?))).collect()
    }
}

/// A machine, and its items on their way to each store.
struct Feed<'a> {
    ranges: &'a Ranges,
    model: &'a Model,
    machine: Machine,
    queues: Vec<VecDeque<OwnedItem>>,
    random: Random,
    known: Known,
    others: Vec<Sender<(Stamp, Known)>>,
    messages: Receiver<(Stamp, Known)>,
    checked: &'a AtomicUsize,
}

impl Feed<'_> {
    fn add(&mut self, (store, item): (usize, Item<'_>)) {
        self.model.add(item, &mut self.known);
        self.queues[store].push_back(item.into_owned());
    }

    /// A batch of a key, and of others of its store.
    fn batch(&mut self, key: &[u8], event: usize) -> Batch {
        let (mut batch, mut keys) = (Batch::new(), BTreeSet::from([key.to_vec()]));
        for _ in 0..self.random.below(8) {
            let other = key_of(&mut self.random);
            if self.ranges.store_of(&other) == self.ranges.store_of(key) {
                keys.insert(other);
            }
        }
        for key in keys {
            match self.random.below(4) {
                0 => batch.delete(key).unwrap(),
                _ => batch.write(&key, [&key[..], &event.to_be_bytes()].concat()).unwrap(),
            }
        }
        batch
    }

    fn deliver(&mut self, store: usize, most: usize) {
        let many = most.min(self.queues[store].len());
        for item in self.queues[store].drain(..many) {
            self.ranges.accept(store, item.as_item()).unwrap();
        }
    }

    fn learn(&mut self, known: &Known) {
        self.known.iter_mut().zip(known).for_each(|(mine, theirs)| *mine = (*theirs).max(*mine));
    }

    /// Makes an event at random. The readings of machines differ, and stop at times.
    fn step(&mut self, event: usize) {
        let reading = (event / 7 + 10 * usize::from(self.machine.id() % 2)) as u64;
        let key = key_of(&mut self.random);
        match self.random.below(12) {
            0..3 => {
                let batch = self.batch(&key, event);
                let item = self.machine.write_batch(reading, &batch).unwrap();
                self.add(item);
            }
            3..5 => {
                let value = [&key[..], &event.to_be_bytes()].concat();
                let item = self.machine.write(reading, &key, &value).unwrap();
                self.add(item);
            }
            5 => {
                let item = self.machine.delete(reading, &key).unwrap();
                self.add(item);
            }
            6 => self.machine.report_all(reading).unwrap().into_iter().for_each(|report| self.add(report)),
            7 => {
                let message = self.machine.send(reading).unwrap();
                let receiver = self.random.below(self.others.len() as u64) as usize;
                // It may have ended.
                let _ = self.others[receiver].send((message, self.known.clone()));
            }
            8 => {
                if let Ok((message, known)) = self.messages.try_recv() {
                    self.learn(&known);
                    assert!(self.machine.receive(message, reading).unwrap() > message);
                }
            }
            9 if event % 10 == 0 => {
                let snapshot = self.ranges.snapshot().unwrap();
                snapshot.get(&key).unwrap();
                self.learn(&self.model.known_at(snapshot.stamp()));
                assert!(self.machine.observe(snapshot.stamp(), reading).unwrap() > snapshot.stamp());
            }
            _ => {
                let store = self.random.below(self.queues.len() as u64) as usize;
                let most = self.random.below(20) as usize;
                self.deliver(store, most);
            }
        }
    }

    /// Waits until a reader has checked once more, or it is late.
    fn let_read(&self, end: Instant) {
        let before = self.checked.load(Ordering::SeqCst);
        while self.checked.load(Ordering::SeqCst) == before && Instant::now() < end {
            thread::sleep(Duration::from_micros(50));
        }
    }

    fn run(mut self) {
        let end = Instant::now() + Duration::from_secs(5);
        for event in 1..=EVENTS {
            self.step(event);
            if event % 40 == 0 {
                self.let_read(end);
            }
        }
        let reports = self.machine.report_all(EVENTS as u64).unwrap();
        reports.into_iter().for_each(|report| self.add(report));
        for store in 0..self.queues.len() {
            self.deliver(store, usize::MAX);
        }
    }
}

/// Counts down at the end of a thread, also where it panics.
struct Ended<'a>(&'a AtomicUsize);

impl Drop for Ended<'_> {
    fn drop(&mut self) {
        self.0.fetch_sub(1, Ordering::SeqCst);
    }
}

fn check(snapshot: &RangesSnapshot, model: &Model, random: &mut Random) {
    let expected = model.at(snapshot.stamp());
    assert!(snapshot.iter().map(Result::unwrap).eq(expected.iter().cloned()), "at {}", snapshot.stamp());
    let (from, to) = (key_of(random), key_of(random));
    let within: Vec<_> = expected.iter().filter(|(key, _)| (&from..&to).contains(&key)).cloned().collect();
    assert!(snapshot.range(&from..&to).map(Result::unwrap).eq(within.iter().cloned()));
    assert_eq!(snapshot.count(from..to), Ok(within.len() as u64));
    let key = key_of(random);
    let value = expected.iter().find(|pair| pair.0 == key).map(|pair| &pair.1);
    assert_eq!(snapshot.get(&key).unwrap().as_ref(), value);
}

/// Opens snapshots and checks them, at once and after the next one was opened. Returns the stamps at which it did.
fn read(ranges: &Ranges, model: &Model, running: &AtomicUsize, checked: &AtomicUsize, mut random: Random) -> usize {
    let (mut before, mut stamps) = (ranges.snapshot().unwrap(), 0);
    loop {
        let is_last = running.load(Ordering::SeqCst) == 0;
        let snapshot = ranges.snapshot().unwrap();
        assert!(snapshot.stamp() >= before.stamp());
        check(&snapshot, model, &mut random);
        check(&before, model, &mut random);
        checked.fetch_add(1, Ordering::SeqCst);
        stamps += usize::from(snapshot.stamp() > before.stamp());
        if is_last {
            return stamps;
        }
        if random.below(3) > 0 {
            before = snapshot;
        }
        thread::yield_now(); // so that machines get at the model
    }
}

/// Runs machines beside two readers and vacuums. The last machine joins while the others run.
fn play(division: &Division, machines: u16, seed: u64) {
    let ranges = Ranges::open(division, machines - 1).unwrap();
    let (model, running, checked) = (Model::new(machines), AtomicUsize::new(machines.into()), AtomicUsize::new(0));
    let (senders, mut receivers): (Vec<_>, Vec<_>) = (0..machines).map(|_| mpsc::channel()).unzip();
    let feed = |machine: Machine, messages| Feed {
        ranges: &ranges,
        model: &model,
        random: Random::new(seed + u64::from(machine.id())),
        queues: vec![VecDeque::new(); division.stores()],
        known: vec![0; machines.into()],
        others: senders.clone(),
        machine,
        messages,
        checked: &checked,
    };
    thread::scope(|scope| {
        let (running, checked, ranges, model) = (&running, &checked, &ranges, &model);
        let start = |feed: Feed<'_>| {
            let _ended = Ended(running);
            feed.run();
        };
        let readers: Vec<_> = (90..92)
            .map(|seed| scope.spawn(move || read(ranges, model, running, checked, Random::new(seed))))
            .collect();
        let last = receivers.pop().unwrap();
        for (id, messages) in receivers.into_iter().enumerate() {
            let feed = feed(Machine::new(division, id as u16), messages);
            scope.spawn(move || start(feed));
        }
        let joined = ranges.join().unwrap();
        assert_eq!(joined.id(), machines - 1);
        let feed = feed(joined, last);
        scope.spawn(move || start(feed));
        while running.load(Ordering::SeqCst) > 0 {
            let vacuumed = ranges.vacuum_to(Stamp::MAX).unwrap();
            assert!(vacuumed.stamp <= ranges.cut().unwrap());
            thread::sleep(Duration::from_micros(200));
        }
        let stamps: usize = readers.into_iter().map(|reader| reader.join().unwrap()).sum();
        assert!(stamps > 3, "readers saw {stamps} cuts");
    });
    model.check_causes();
    let cut = ranges.cut().unwrap();
    assert!(cut >= Stamp::new(EVENTS as u64, 0));
    assert!(ranges.stores().iter().all(|store| store.snapshots().unwrap().is_empty()));
    ranges.vacuum_to(cut).unwrap();
    assert_eq!(ranges.rows(), Ok(model.at(cut).len() as u64));
}

#[test]
fn snapshots_are_the_newest_writes_by_keys() {
    play(&Division::by_keys(&["e", "k", "kk", "t"]).unwrap(), 3, 1);
}

#[test]
fn snapshots_are_the_newest_writes_by_hash() {
    play(&Division::by_hash(6).unwrap(), 4, 7);
}

#[test]
fn snapshots_are_the_newest_writes_of_one_store() {
    play(&Division::by_hash(1).unwrap(), 2, 13);
}
