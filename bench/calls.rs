// Calls of a store that threads share, in plain Rust with the maps of std, and looks at a floor (closed timestamp), in
// an array of atomic words and under a mutex. `crates/bench_calls` is measured against it, with the same lines of
// output.
use std::collections::BTreeMap;
use std::ops::Bound::{Excluded, Included};
use std::sync::atomic::{AtomicBool, AtomicU64, Ordering};
use std::sync::Mutex;
use std::time::Instant;

type Key = Vec<u8>;
type Version = (u64, u16);

#[derive(Clone)]
enum Event {
    Accept { node: u16, number: u64, stamp: u64, key: Key, value: Option<Vec<u8>> },
    Report { node: u16, number: u64, stamp: u64 },
    OpenAt(u64),
    OpenFloor,
    Read { id: u64, key: Key },
}

#[derive(Clone)]
#[allow(dead_code)]
enum Reply {
    Accepted(u16, u64),
    Opened(u64, u64),
    Answer(Option<Vec<u8>>),
    Listing(Vec<(Key, Vec<u8>)>),
    Closed(u64),
    Vacuumed { floor: u64, points: Vec<u64>, kept: u64, dropped: u128, witnesses: Vec<(Key, Option<u64>, u64)> },
    Refused(u16),
    AboveFloor(u64),
}

#[allow(dead_code)]
struct Entry {
    caller: u16,
    event: Event,
    reply: Reply,
}

#[allow(dead_code)]
struct Receipt {
    caller: u16,
    number: u64,
    event: Event,
    reply: Reply,
}

/// The next number of a node's link, the stamp that was accepted last, and whether the node retired.
#[derive(Clone, Copy, Default)]
struct Intake {
    next: u64,
    head: u64,
    retired: bool,
}

struct Guarded {
    nodes: Vec<Intake>,
    columns: BTreeMap<Key, BTreeMap<Version, Option<Vec<u8>>>>,
    snapshots: Vec<(u64, u64)>,
    opened: u64,
    trail: Option<Vec<Entry>>,
    calls: u64,
}

impl Guarded {
    fn new(nodes: usize, trail: bool) -> Guarded {
        Guarded {
            nodes: vec![Intake::default(); nodes],
            columns: BTreeMap::new(),
            snapshots: Vec::new(),
            opened: 0,
            trail: if trail { Some(Vec::new()) } else { None },
            calls: 0,
        }
    }

    fn floor(&self) -> u64 {
        self.nodes.iter().filter(|node| !node.retired).map(|node| node.head).min().unwrap_or(0)
    }

    fn admit(&mut self, node: u16, number: u64, stamp: u64) -> Reply {
        match self.nodes.get_mut(node as usize) {
            Some(intake) if !intake.retired && number == intake.next && stamp > intake.head => {
                *intake = Intake { next: number + 1, head: stamp, retired: false };
                Reply::Accepted(node, stamp)
            }
            _ => Reply::Refused(1),
        }
    }

    fn step(&mut self, event: &Event) -> Reply {
        match event {
            Event::Accept { node, number, stamp, key, value } => {
                let reply = self.admit(*node, *number, *stamp);
                if let Reply::Accepted(..) = reply {
                    self.columns.entry(key.clone()).or_default().insert((*stamp, *node), value.clone());
                }
                reply
            }
            Event::Report { node, number, stamp } => self.admit(*node, *number, *stamp),
            Event::OpenAt(stamp) => {
                let floor = self.floor();
                if *stamp > floor {
                    return Reply::AboveFloor(floor);
                }
                self.opened += 1;
                self.snapshots.push((self.opened, *stamp));
                Reply::Opened(self.opened, *stamp)
            }
            Event::OpenFloor => {
                self.opened += 1;
                let floor = self.floor();
                self.snapshots.push((self.opened, floor));
                Reply::Opened(self.opened, floor)
            }
            Event::Read { id, key } => match self.snapshots.iter().find(|snapshot| snapshot.0 == *id) {
                None => Reply::Refused(12),
                Some(snapshot) => Reply::Answer(self.columns.get(key).and_then(|column| {
                    let range = (Included((0, 0)), Excluded((snapshot.1 + 1, 0)));
                    column.range(range).next_back().and_then(|row| row.1.clone())
                })),
            },
        }
    }

    fn call(&mut self, caller: u16, event: Event) -> Receipt {
        let reply = self.step(&event);
        if let Some(trail) = &mut self.trail {
            trail.push(Entry { caller, event: event.clone(), reply: reply.clone() });
        }
        let number = self.calls;
        self.calls += 1;
        Receipt { caller, number, event, reply }
    }
}

fn timed(threads: u16, trail: bool) -> u128 {
    let store = Mutex::new(Guarded::new(1, trail));
    for number in 0..64u64 {
        let event =
            Event::Accept { node: 0, number, stamp: (number + 1) << 16, key: vec![number as u8], value: Some(vec![7]) };
        store.lock().unwrap().call(0, event);
    }
    store.lock().unwrap().call(0, Event::OpenFloor);
    let share = CALLS / u64::from(threads);
    let start = Instant::now();
    let done: Vec<Vec<Receipt>> = std::thread::scope(|scope| {
        let handles: Vec<_> = (0..threads)
            .map(|caller| {
                let store = &store;
                scope.spawn(move || {
                    let mut receipts = Vec::new();
                    for round in 0..share {
                        let event = Event::Read { id: 1, key: vec![(round % 64) as u8] };
                        receipts.push(store.lock().unwrap().call(caller, event));
                    }
                    receipts
                })
            })
            .collect();
        handles.into_iter().map(|handle| handle.join().unwrap()).collect()
    });
    let took = start.elapsed().as_micros();
    drop(done);
    took
}

const CALLS: u64 = 400_000;

const NODES: usize = 64;

const LOOKS: u64 = 300_000;

/// Returns how many nanoseconds looks by so many readers take, while one writer raises each node's stamp in turn, and
/// how often it raised.
fn looked(readers: u16, raise: impl Fn(usize, u64) + Sync, floor: impl Fn() -> u64 + Sync) -> (u128, u64) {
    let stop = AtomicBool::new(false);
    std::thread::scope(|scope| {
        let start = Instant::now();
        let writer = scope.spawn(|| {
            let mut number = 0;
            while !stop.load(Ordering::Acquire) {
                number += 1;
                for node in 0..NODES {
                    raise(node, number << 16);
                }
            }
            number * NODES as u64
        });
        let look = || (0..LOOKS).map(|_| floor()).max();
        let handles: Vec<_> = (0..readers).map(|_| scope.spawn(look)).collect();
        let seen: Vec<_> = handles.into_iter().map(|handle| handle.join().unwrap()).collect();
        let took = start.elapsed().as_nanos();
        stop.store(true, Ordering::Release);
        std::hint::black_box(seen);
        (took, writer.join().unwrap())
    })
}

/// Passes a node's report of this number to the store, and raises the node's word with it after the lock is free.
fn raise(store: &Mutex<Guarded>, words: &[AtomicU64], node: usize, stamp: u64) {
    let event = Event::Report { node: node as u16, number: (stamp >> 16) - 1, stamp };
    let receipt = store.lock().unwrap().call(0, event);
    if let Reply::Accepted(node, stamp) = receipt.reply {
        words[node as usize].store(stamp, Ordering::Release);
    }
}

fn words() -> Vec<AtomicU64> {
    (0..NODES).map(|_| AtomicU64::new(0)).collect()
}

/// Lets the readers load the words.
fn on_a_board(readers: u16) -> (u128, u64) {
    let (store, words) = (Mutex::new(Guarded::new(NODES, false)), words());
    let least = || words.iter().map(|word| word.load(Ordering::Acquire)).min().unwrap();
    looked(readers, |node, stamp| raise(&store, &words, node, stamp), least)
}

/// Lets the readers make a call that is refused, since its stamp is above the floor.
fn in_a_shared_store(readers: u16) -> (u128, u64) {
    let (store, words) = (Mutex::new(Guarded::new(NODES, false)), words());
    let least = || match store.lock().unwrap().call(1, Event::OpenAt(u64::MAX)).reply {
        Reply::AboveFloor(floor) => floor,
        _ => 0,
    };
    looked(readers, |node, stamp| raise(&store, &words, node, stamp), least)
}

/// Lets the readers only take the lock.
fn behind_a_lock(readers: u16) -> (u128, u64) {
    let store = Mutex::new(Guarded::new(NODES, false));
    let admit = |node: usize, stamp: u64| {
        store.lock().unwrap().admit(node as u16, (stamp >> 16) - 1, stamp);
    };
    looked(readers, admit, || store.lock().unwrap().floor())
}

/// Makes reports of all nodes that have not retired, in turn, each with a question for the floor, and returns how many
/// there were, the nanoseconds that they took, and the greatest floor.
fn delivered(nodes: u16, gone: u16) -> (u64, u128, u64) {
    let mut store = Guarded::new(nodes as usize, false);
    for node in &mut store.nodes[..gone as usize] {
        *node = Intake { next: 1, head: 1 << 16, retired: true };
    }
    let rounds = DELIVERIES / u64::from(nodes - gone);
    let mut greatest = 0;
    let start = Instant::now();
    for number in 0..rounds {
        for node in gone..nodes {
            std::hint::black_box(store.admit(node, number, (number + 1) << 16));
            greatest = greatest.max(store.floor());
        }
    }
    (rounds * u64::from(nodes - gone), start.elapsed().as_nanos(), greatest)
}

const DELIVERIES: u64 = 2_000_000;

fn main() {
    let words: Vec<String> = std::env::args().collect();
    let threads = words.get(1).and_then(|word| word.parse().ok()).unwrap_or(1);
    let second = words.get(2).map_or("", String::as_str);
    if words[1] == "nodes" {
        let (nodes, gone) = (second.parse().unwrap(), words[3].parse().unwrap());
        let (items, nanos, floor) = delivered(nodes, gone);
        println!("nodes {nodes} gone {gone} items {items} nanos {nanos} floor {}.0", floor >> 16);
        return;
    }
    let looks = match words[1].as_str() {
        "board" => on_a_board,
        "shared" => in_a_shared_store,
        "lock" => behind_a_lock,
        _ => {
            let trail = second == "on";
            println!("threads {threads} trail {trail} calls {CALLS} micros {}", timed(threads, trail));
            return;
        }
    };
    let (nanos, raises) = looks(second.parse().unwrap());
    println!("{} readers {second} looks {LOOKS} nanos {nanos} raises {raises}", words[1]);
}
