//! Threads that share a store: a writer that vacuums, and readers that check each answer.

use hlcstore::{Changes, Error, ErrorKind, Keys, Node, Pairs, PairsBack, Result, SharedStore, Snapshot, Stamp, Store};
use std::sync::atomic::{AtomicBool, Ordering};
use std::thread;
use std::time::{Duration, Instant};

const KEYS: u64 = 50;
const WRITES: u64 = 20_000;
const READERS: u64 = 4;

fn key(number: u64) -> [u8; 8] {
    number.to_be_bytes()
}

/// The value that is written at this reading. Some are short, and some are not.
fn value(reading: u64) -> Vec<u8> {
    reading.to_be_bytes().repeat((reading % 9) as usize + 1)
}

/// The reading of the last write of a key at or below another reading, if there is one.
fn last_write(number: u64, reading: u64) -> Option<u64> {
    (1..=reading).rev().take(KEYS as usize).find(|reading| reading % KEYS == number)
}

/// What a snapshot at this reading contains.
fn expected(reading: u64) -> Vec<(Vec<u8>, Vec<u8>)> {
    let pair = |number| Some((key(number).to_vec(), value(last_write(number, reading)?)));
    (0..KEYS).filter_map(pair).collect()
}

/// Vacuums, and makes a certificate. There is none where a snapshot was closed in between, so that a row is not needed.
fn certify(store: &SharedStore) -> Result<()> {
    let vacuumed = store.vacuum()?;
    match store.certificate(vacuumed.stamp) {
        Ok(certified) => assert_eq!((certified.kept, certified.bytes), (vacuumed.kept, vacuumed.bytes)),
        Err(error) => assert_eq!(error.kind(), ErrorKind::NotFewest),
    }
    Ok(())
}

/// Writes one key after another, one at each reading, and vacuums in each way from time to time.
fn write(store: &SharedStore) -> Result<()> {
    let mut node = Node::new(0, Stamp::ZERO);
    for reading in 1..=WRITES {
        store.accept(node.write(reading, &key(reading % KEYS), &value(reading))?)?;
        match reading % 400 {
            0 => drop(store.vacuum()?),
            100 => drop(store.vacuum_to(Stamp::new(reading - 20, 0))?),
            200 => certify(store)?,
            300 => drop(store.checkpoint(reading)?),
            _ => (),
        }
    }
    Ok(())
}

/// Checks each answer of a snapshot.
fn check(snapshot: &Snapshot<SharedStore>) -> Result<()> {
    let expected = expected(snapshot.stamp().physical());
    for number in 0..KEYS {
        let pair = expected.iter().find(|pair| pair.0 == key(number));
        assert_eq!(snapshot.get(key(number))?.as_ref(), pair.map(|pair| &pair.1));
    }
    assert_eq!(snapshot.iter().collect::<Result<Vec<_>>>()?, expected);
    assert!(snapshot.range_back(..).map(Result::unwrap).eq(expected.iter().rev().cloned()));
    assert!(snapshot.keys(..).map(Result::unwrap).eq(expected.iter().map(|pair| pair.0.clone())));
    assert_eq!(snapshot.count(..)?, expected.len() as u64);
    let keys: Vec<_> = (0..KEYS).map(key).collect();
    let keys: Vec<&[u8]> = keys.iter().map(<[u8; 8]>::as_slice).collect();
    let many = snapshot.get_many(&keys)?;
    assert!(many.into_iter().flatten().eq(expected.iter().map(|pair| pair.1.clone())));
    Ok(())
}

/// Opens snapshots and checks them until there is nothing more to write. Returns how many it checked.
fn read(store: &SharedStore, is_written: &AtomicBool) -> Result<u64> {
    let (mut checked, mut floor) = (0, Stamp::ZERO);
    loop {
        let is_last = is_written.load(Ordering::Relaxed);
        let snapshot = store.snapshot()?;
        assert!(snapshot.stamp() >= floor);
        floor = snapshot.stamp();
        check(&snapshot)?;
        assert!(store.floor()? >= floor && store.horizon()? <= store.floor()?);
        assert!(store.snapshots()?.iter().any(|open| open.id == snapshot.id()));
        checked += 1;
        // The snapshot answers alike, whatever was written and dropped since.
        check(&snapshot)?;
        if is_last {
            return Ok(checked);
        }
    }
}

#[test]
fn types_are_for_threads() {
    fn moves<T: Send>() {}
    fn is_shared<T: Send + Sync>() {}
    moves::<Store>();
    is_shared::<SharedStore>();
    is_shared::<Snapshot<SharedStore>>();
    is_shared::<Pairs<'_, SharedStore>>();
    is_shared::<Keys<'_, SharedStore>>();
    is_shared::<PairsBack<'_, SharedStore>>();
    is_shared::<Changes<'_, SharedStore>>();
    is_shared::<Node>();
    is_shared::<Error>();
}

#[test]
fn readers_run_beside_a_writer_that_vacuums() {
    let store = SharedStore::open(1).unwrap();
    let is_written = AtomicBool::new(false);
    thread::scope(|scope| {
        let readers: Vec<_> = (0..READERS).map(|_| scope.spawn(|| read(&store, &is_written))).collect();
        let written = write(&store);
        is_written.store(true, Ordering::Relaxed);
        written.unwrap();
        for reader in readers {
            assert!(reader.join().unwrap().unwrap() > 1);
        }
    });
    assert_eq!(store.snapshots().unwrap(), []);
    store.vacuum().unwrap();
    assert_eq!(store.rows(), Ok(KEYS));
}

/// Eight threads always read, in turns that overlap. A writer makes ten changes before they give up.
#[test]
fn readers_let_a_writer_pass() {
    let store = SharedStore::open(1).unwrap();
    let mut node = Node::new(0, Stamp::ZERO);
    for number in 0..10_000 {
        store.accept(node.write(1, &key(number), b"value").unwrap()).unwrap();
    }
    let snapshot = store.snapshot().unwrap();
    let (end, is_written) = (Instant::now() + Duration::from_secs(20), AtomicBool::new(false));
    thread::scope(|scope| {
        for _ in 0..8 {
            scope.spawn(|| {
                let digest = snapshot.digest(..).unwrap();
                while !is_written.load(Ordering::Relaxed) && Instant::now() < end {
                    assert_eq!(snapshot.digest(..), Ok(digest));
                }
            });
        }
        for reading in 2..12 {
            store.accept(node.report(reading).unwrap()).unwrap();
        }
        is_written.store(true, Ordering::Relaxed);
        assert!(Instant::now() < end);
    });
    assert_eq!(store.floor(), Ok(Stamp::new(11, 0)));
}

#[test]
fn writers_run_beside_each_other() {
    let store = SharedStore::open(READERS as u16).unwrap();
    thread::scope(|scope| {
        for id in 0..READERS as u16 {
            let store = store.clone();
            scope.spawn(move || {
                let mut node = Node::new(id, Stamp::ZERO);
                for reading in 1..=1000 {
                    let key = [id as u8];
                    let value = value(reading);
                    store.accept(node.write(reading, &key, &value).unwrap()).unwrap();
                    let snapshot = store.snapshot().unwrap();
                    let floor = snapshot.stamp().physical();
                    assert_eq!(snapshot.get(key).unwrap(), (floor > 0).then(|| self::value(floor)));
                }
            });
        }
    });
    assert_eq!(store.floor(), Ok(Stamp::new(1000, 0)));
}

#[test]
fn snapshots_move_to_other_threads() {
    let store = SharedStore::open(1).unwrap();
    store.accept(Node::new(0, Stamp::ZERO).write(1, b"key", b"value").unwrap()).unwrap();
    let snapshot = store.snapshot().unwrap();
    let clone = store.clone();
    drop(store);
    let value = thread::spawn(move || snapshot.get(b"key").unwrap()).join().unwrap();
    assert_eq!(value.as_deref(), Some(&b"value"[..]));
    assert_eq!(clone.snapshots().unwrap(), []);
}

#[test]
fn store_for_one_thread_moves_to_another() {
    let store = Store::open(1).unwrap();
    let store = thread::spawn(move || {
        store.accept(Node::new(0, Stamp::ZERO).write(1, b"key", b"value").unwrap()).unwrap();
        store
    });
    assert_eq!(SharedStore::from(store.join().unwrap()).rows(), Ok(1));
}
