//! Reads and writes from several threads with the crate of bindings/rust: of one shared store, of one under a mutex,
//! and of 64 stores by the hash of the key. Prints million calls a second, of the readers and of the writers: the
//! medians of so many runs as the argument says, or nine, in which the ways take turns.

use hlcstore::{Division, Machine, Ranges, RangesSnapshot, SharedStore, Snapshot};
use std::sync::Mutex;
use std::sync::atomic::{AtomicBool, Ordering};
use std::thread;
use std::time::Instant;

const KEYS: usize = 20_000;
const VERSIONS: usize = 8;
const READS: usize = 200_000;
const WRITES: usize = 50_000;
const MACHINES: u16 = 4;

/// How threads reach the keys.
#[derive(Clone, Copy)]
enum Way {
    OneUnderMutex,
    OneShared,
    Ranges,
}

const WAYS: [(Way, &str); 3] =
    [(Way::OneUnderMutex, "one store, a mutex"), (Way::OneShared, "one store"), (Way::Ranges, "64 stores")];

struct Filled {
    way: Way,
    mutex: Mutex<()>,
    ranges: Ranges,
    machines: Vec<Machine>,
    /// At the cut, of all stores and of the first.
    all: RangesSnapshot,
    first: Snapshot<SharedStore>,
}

fn key(number: usize) -> [u8; 8] {
    let (mut key, mut number) = (*b"key00000", number % KEYS);
    for digit in key[3..].iter_mut().rev() {
        *digit = b'0' + (number % 10) as u8;
        number /= 10;
    }
    key
}

impl Filled {
    fn new(way: Way) -> Filled {
        let division = Division::by_hash(if matches!(way, Way::Ranges) { 64 } else { 1 }).unwrap();
        let ranges = Ranges::open(&division, MACHINES).unwrap();
        let mut machines: Vec<_> = (0..MACHINES).map(|id| Machine::new(&division, id)).collect();
        for number in 0..KEYS * VERSIONS {
            ranges.write(&mut machines[0], number as u64 + 1, &key(number), &key(number)).unwrap();
        }
        for machine in &mut machines {
            ranges.report_all(machine, (KEYS * VERSIONS) as u64 + 1).unwrap();
        }
        let (all, first) = (ranges.snapshot().unwrap(), ranges.stores()[0].snapshot().unwrap());
        Filled { way, mutex: Mutex::new(()), ranges, machines, all, first }
    }

    fn read(&self, number: usize, value: &mut Vec<u8>) {
        let key = key(number);
        let _locked = matches!(self.way, Way::OneUnderMutex).then(|| self.mutex.lock());
        let is_there = match self.way {
            Way::Ranges => self.all.get_into(key, value).unwrap(),
            _ => self.first.get_into(key, value).unwrap(),
        };
        assert!(is_there && *value == key);
    }

    fn write(&self, machine: &mut Machine, number: usize) {
        let (key, reading) = (key(7919 * number), (KEYS * VERSIONS + 2 + number) as u64);
        let _locked = matches!(self.way, Way::OneUnderMutex).then(|| self.mutex.lock());
        self.ranges.write(machine, reading, &key, &key).unwrap();
    }

    /// Lets threads read, beside a writer or alone. Returns how many million reads and writes a second they make.
    fn reads(mut self, threads: usize, has_writer: bool) -> (f64, f64) {
        let mut machine = self.machines.pop().unwrap();
        let (filled, is_over, start) = (&self, &AtomicBool::new(false), Instant::now());
        thread::scope(|scope| {
            let writer = has_writer.then(|| {
                scope.spawn(move || {
                    (0..)
                        .take_while(|_| !is_over.load(Ordering::Relaxed))
                        .map(|i| filled.write(&mut machine, i))
                        .count()
                })
            });
            let read = move |thread: usize| {
                let mut value = Vec::new();
                (0..READS).for_each(|i| filled.read(77 * thread + 3793 * i, &mut value));
            };
            let readers: Vec<_> = (0..threads).map(|thread| scope.spawn(move || read(thread))).collect();
            readers.into_iter().for_each(|reader| reader.join().unwrap());
            let micros = start.elapsed().as_micros() as f64;
            is_over.store(true, Ordering::Relaxed);
            let writes = writer.map_or(0, |writer| writer.join().unwrap());
            ((threads * READS) as f64 / micros, writes as f64 / micros)
        })
    }

    /// Lets threads write, each as a machine. Returns how many million writes a second they make.
    fn writes(mut self, threads: usize) -> (f64, f64) {
        let machines = self.machines.split_off(self.machines.len() - threads);
        let (filled, start) = (&self, Instant::now());
        thread::scope(|scope| {
            for (thread, mut machine) in machines.into_iter().enumerate() {
                scope.spawn(move || (0..WRITES).for_each(|i| filled.write(&mut machine, 4 * i + thread)));
            }
        });
        (0.0, (threads * WRITES) as f64 / start.elapsed().as_micros() as f64)
    }
}

fn median(mut rates: Vec<f64>) -> f64 {
    rates.sort_unstable_by(f64::total_cmp);
    rates[rates.len() / 2]
}

fn print(runs: usize, what: &str, measure: impl Fn(Filled) -> (f64, f64)) {
    let mut measured = vec![Vec::new(); WAYS.len()];
    for _ in 0..runs {
        for (rates, (way, _)) in measured.iter_mut().zip(WAYS) {
            rates.push(measure(Filled::new(way)));
        }
    }
    for (rates, (_, name)) in measured.into_iter().zip(WAYS) {
        let (reads, writes) = rates.into_iter().unzip();
        println!("Rust, {what}, {name}: {:.2} {:.2}", median(reads), median(writes));
    }
}

fn main() {
    let runs = std::env::args().nth(1).map_or(9, |runs| runs.parse().expect("a number of runs"));
    for threads in [1, 4] {
        print(runs, &format!("{threads} readers"), |filled| filled.reads(threads, false));
        print(runs, &format!("{threads} readers beside a writer"), |filled| filled.reads(threads, true));
        print(runs, &format!("{threads} writers"), |filled| filled.writes(threads));
    }
}
