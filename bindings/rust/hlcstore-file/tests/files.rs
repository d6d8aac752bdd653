//! Stores in a file: what is written is there, also after the file is opened again, and each refusal is an error.

use hlcstore::{Item, Node, Prefix, SaveError, Stamp, Store};
use hlcstore_file::{Batch, Error, ErrorKind, File, Options, Pairs, PairsBack, Promise, Result, Snapshot, Writer};
use std::io::{self, Write};
use std::path::PathBuf;
use std::sync::Arc;
use std::sync::atomic::{AtomicBool, Ordering};
use std::time::{Duration, Instant};
use std::{env, fs, process, thread};

/// A folder that is removed at the end of a test.
struct Folder(PathBuf);

impl Folder {
    fn new(name: &str) -> Folder {
        let path = env::temp_dir().join(format!("hlcstore-file-{}-{name}", process::id()));
        let _ = fs::remove_dir_all(&path);
        fs::create_dir_all(&path).unwrap();
        Folder(path)
    }

    fn path(&self) -> PathBuf {
        self.0.join("store.hlc")
    }
}

impl Drop for Folder {
    fn drop(&mut self) {
        let _ = fs::remove_dir_all(&self.0);
    }
}

fn at(physical: u64) -> Stamp {
    Stamp::new(physical, 0)
}

fn pair(key: &str, value: &str) -> (Vec<u8>, Vec<u8>) {
    (key.into(), value.into())
}

#[test]
fn past_stamps_are_read() -> Result<()> {
    let folder = Folder::new("past");
    let file = File::open(folder.path())?;
    assert_eq!(file.node(0).at(5).write(b"capital", b"Lyon")?, at(5));
    assert_eq!(file.node(0).at(6).delete(b"capital")?, at(6));
    assert_eq!(file.node(0).at(6).write(b"capital", b"Paris")?, Stamp::new(6, 1));
    assert_eq!(file.floor()?, Stamp::new(6, 1));
    assert_eq!(file.snapshot_at(at(5))?.get(b"capital")?.as_deref(), Some(&b"Lyon"[..]));
    assert_eq!(file.snapshot_at(at(6))?.get(b"capital")?, None);
    assert_eq!(file.snapshot()?.get(b"capital")?.as_deref(), Some(&b"Paris"[..]));
    file.close()
}

#[test]
fn batches_are_appended_whole() -> Result<()> {
    let folder = Folder::new("batches");
    let file = File::open(folder.path())?;
    let mut batch = Batch::new()?;
    file.node(0).at(4).write(b"c", b"old")?;
    batch.write(b"a", b"1")?;
    batch.delete(b"c")?;
    assert_eq!((batch.len(), batch.is_empty()), (2, false));
    assert_eq!(file.node(0).at(5).append(&mut batch, Promise::Group)?, Stamp::new(5, 1));
    assert!(batch.is_empty());
    assert_eq!(file.snapshot()?.iter().collect::<Result<Vec<_>>>()?, [pair("a", "1")]);
    // Each write has a stamp of its own.
    let between = file.snapshot_at(at(5))?.iter().collect::<Result<Vec<_>>>()?;
    assert_eq!(between, [pair("a", "1"), pair("c", "old")]);

    // What is refused adds nothing, and what was added stays.
    batch.write(b"d", b"4")?;
    assert_eq!(batch.write(b"", b"").unwrap_err().kind(), ErrorKind::Store(hlcstore::ErrorKind::BadKey));
    assert_eq!(batch.len(), 1);
    let refused = file.node(7).append(&mut batch, Promise::Default).unwrap_err();
    assert_eq!((refused.kind(), batch.len()), (ErrorKind::Store(hlcstore::ErrorKind::NoNode), 1));
    file.append(&mut batch)?;
    assert_eq!(file.snapshot()?.count(..)?, 2);
    batch.write(b"e", b"5")?;
    batch.clear();
    assert!(batch.is_empty());
    Ok(())
}

#[test]
fn a_batch_of_one_stamp() -> Result<()> {
    let folder = Folder::new("one_stamp");
    let file = File::open(folder.path())?;
    let mut batch = Batch::new()?;
    file.node(0).at(4).write(b"c", b"old")?;
    batch.write(b"a", b"1")?;
    batch.delete(b"c")?;
    let stamp = file.node(0).at(5).write_batch(&mut batch, Promise::Group)?;
    assert_eq!((stamp, batch.is_empty()), (Stamp::new(5, 0), true));
    assert_eq!(file.snapshot_at(Stamp::new(4, 65_535))?.iter().collect::<Result<Vec<_>>>()?, [pair("c", "old")]);
    assert_eq!(file.snapshot_at(stamp)?.iter().collect::<Result<Vec<_>>>()?, [pair("a", "1")]);

    assert_eq!(file.write_batch(&mut batch).unwrap_err().kind(), ErrorKind::Store(hlcstore::ErrorKind::NoWrites));
    batch.write(b"a", b"2")?;
    batch.write(b"a", b"3")?;
    assert_eq!(file.write_batch(&mut batch).unwrap_err().kind(), ErrorKind::Store(hlcstore::ErrorKind::KeyTwice));
    assert_eq!(batch.len(), 2);
    Ok(())
}

#[test]
fn all_is_there_after_opening_again() -> Result<()> {
    let folder = Folder::new("reopened");
    for promise in [Promise::Default, Promise::Synced, Promise::Group, Promise::Written] {
        let path = folder.0.join(format!("{promise:?}"));
        let file = Options::new().promise(promise).open(&path)?;
        file.node(0).at(5).write(b"a", b"1")?;
        file.node(0).at(6).write(b"a", b"2")?;
        assert_eq!(file.checkpoint()?, 2);
        file.node(0).at(7).write(b"b", b"3")?;
        assert!(file.status()?.created);
        file.close()?;

        let file = Options::new().must_exist().open(&path)?;
        let status = file.status()?;
        assert_eq!((status.created, status.applied, status.place, status.checkpoint_place), (false, 1, 3, 2));
        assert_eq!((status.failure, status.writes, status.background), (None, None, None));
        // A write takes 24 bytes beside its key and its value.
        assert_eq!((status.log_bytes, status.clock >= at(7)), (24 + 2, true));
        assert_eq!(file.snapshot_at(at(5))?.get(b"a")?.as_deref(), Some(&b"1"[..]));
        assert_eq!(file.snapshot()?.iter().collect::<Result<Vec<_>>>()?, [pair("a", "2"), pair("b", "3")]);
        assert!(file.node(0).at(1).write(b"a", b"4")? > at(7));
    }
    Ok(())
}

#[test]
fn group_waits_for_more() -> Result<()> {
    let folder = Folder::new("groups");
    let wait = Duration::from_millis(50);
    let file = Options::new().promise(Promise::Group).group_wait(wait).open(folder.path())?;
    let began = Instant::now();
    file.write(b"a", b"1")?;
    assert!(began.elapsed() >= wait);
    Ok(())
}

#[test]
fn ranges_have_the_pairs_of_a_model() -> Result<()> {
    let folder = Folder::new("ranges");
    let file = File::open(folder.path())?;
    // More than fits into the first pages.
    let pairs: Vec<_> =
        (0..3000_usize).map(|number| pair(&format!("{number:05}"), &"v".repeat(number % 300))).collect();
    let mut batch = Batch::new()?;
    for (key, value) in &pairs {
        batch.write(key, value)?;
    }
    file.append(&mut batch)?;
    let snapshot = file.snapshot()?;
    assert_eq!((&snapshot).into_iter().collect::<Result<Vec<_>>>()?, pairs);
    let mut back = snapshot.range_back(..).collect::<Result<Vec<_>>>()?;
    back.reverse();
    assert_eq!(back, pairs);
    assert_eq!(snapshot.range("00100".."01200").collect::<Result<Vec<_>>>()?, pairs[100..1200]);
    assert_eq!(snapshot.range_back("00100"..="01200").count(), 1101);
    assert_eq!(snapshot.count(Prefix("0299"))?, 10);
    assert_eq!(snapshot.range("b".."a").count(), 0);
    assert_eq!(snapshot.last_below(b"00002")?, Some(pair("00001", "v")));
    assert_eq!(snapshot.last_below(b"")?, pairs.last().cloned());
    assert_eq!(snapshot.last_below(b"00000")?, None);
    let page = snapshot.scan(.., 60)?;
    assert_eq!((page.len(), page.has_more()), (2, true));
    assert_eq!(snapshot.scan(.., usize::MAX).unwrap_err().kind(), ErrorKind::Store(hlcstore::ErrorKind::NoMemory));

    let (key, value) = (vec![b'z'; 255], vec![b'v'; 65_535]);
    file.write(&key, &value)?;
    let longest = file.snapshot()?;
    assert_eq!(longest.get(&key)?.as_ref(), Some(&value));
    assert_eq!(longest.range("z"..).collect::<Result<Vec<_>>>()?, [(key, value)]);
    assert_eq!(snapshot.count(..)?, 3000);
    Ok(())
}

#[test]
fn nodes_have_clocks() -> Result<()> {
    let folder = Folder::new("nodes");
    let file = Options::new().nodes(2).open(folder.path())?;
    file.node(0).at(5).write(b"a", b"1")?;
    assert_eq!(file.floor()?, Stamp::ZERO);
    assert_eq!(file.node(1).at(6).report()?, at(6));
    assert_eq!(file.join()?, (2, at(5)));
    assert_eq!(file.node(2).at(7).retire()?, at(7));
    let sent = file.node(0).at(8).send()?;
    assert!(file.node(1).at(1).receive(sent)? > sent);
    let retired = file.node(2).write(b"a", b"1").unwrap_err();
    assert_eq!(retired.kind(), ErrorKind::Store(hlcstore::ErrorKind::Retired));
    Ok(())
}

#[test]
fn records_of_other_machines_are_appended() -> Result<()> {
    let folder = Folder::new("records");
    let file = File::open(folder.path())?;
    let mut node = Node::new(0, Stamp::ZERO);
    let mut log = Vec::new();
    for reading in [5, 6] {
        log.extend(node.write(reading, b"a", b"1").unwrap().encode().unwrap());
    }
    assert_eq!(file.append_records(&log, Promise::Default), Ok(2));
    assert_eq!(file.append_records(&log, Promise::Default), Ok(2));
    let late = Item { node: 0, number: 9, stamp: at(9), content: hlcstore::Content::Report };
    log.extend(late.encode().unwrap());
    let refused = file.append_records(&log, Promise::Default).unwrap_err();
    assert_eq!((refused.records, refused.error.word()), (2, 2));
    assert_eq!(refused.error.kind(), ErrorKind::Store(hlcstore::ErrorKind::NotNext));
    assert!(refused.to_string().ends_with(", after 2 records"));
    Ok(())
}

#[test]
fn vacuums_drop_what_no_snapshot_needs() -> Result<()> {
    let folder = Folder::new("vacuums");
    let file = File::open(folder.path())?;
    for reading in 1..10 {
        file.node(0).at(reading).write(b"city", [reading as u8])?;
    }
    let kept = file.snapshot_at(at(4))?;
    // Of the stamps 1 to 6 the snapshot at 4 needs a row, and the stamp 6.
    let vacuumed = file.vacuum_to(at(6))?;
    assert_eq!((vacuumed.stamp, vacuumed.kept, vacuumed.bytes, vacuumed.dropped), (at(6), 2, 2 * (4 + 1 + 10), 4));
    assert_eq!((kept.get(b"city")?, file.horizon()?), (Some(vec![4]), at(6)));
    drop(kept);
    assert_eq!(file.vacuum_to(at(9))?.dropped, 4);
    assert_eq!(file.vacuum_older(Duration::from_secs(3600))?.stamp, at(9));
    let now = file.write(b"city", b"now")?.physical();
    let to = file.vacuum_older(Duration::from_secs(3600))?.stamp.physical();
    assert!((3_540_000..=3_600_000).contains(&(now - to)), "from {now} to {to}");
    assert_eq!(file.vacuum_older(Duration::MAX).unwrap_err().kind(), ErrorKind::NoStamp);
    Ok(())
}

/// A writer that writes to the file before each piece, and has no room after so many.
struct Meddler<'a>(&'a File, Vec<u8>, usize);

impl Write for Meddler<'_> {
    fn write(&mut self, bytes: &[u8]) -> io::Result<usize> {
        self.0.node(0).at(9).write(b"later", b"").map_err(io::Error::other)?;
        let taken = bytes.len().min(self.2 - self.1.len()).min(50_000);
        self.1.extend(&bytes[..taken]);
        Ok(taken)
    }

    fn flush(&mut self) -> io::Result<()> {
        Ok(())
    }
}

#[test]
fn states_are_written_as_checkpoints() -> std::result::Result<(), Box<dyn std::error::Error>> {
    let folder = Folder::new("states");
    let file = Options::new().promise(Promise::Written).open(folder.path())?;
    for reading in 1..=8 {
        file.node(0).at(reading).write(reading.to_string(), vec![b'v'; 60_000])?;
    }
    let mut out = Meddler(&file, Vec::new(), usize::MAX);
    assert_eq!(file.checkpoint_to(&mut out, 7)?, out.1.len() as u64);
    let (store, tag) = Store::restore(&out.1)?;
    assert_eq!((tag, store.floor()?, store.checkpoint(7)?), (7, at(8), out.1));
    assert_eq!(store.snapshot()?.digest(..)?, file.snapshot_at(at(8))?.digest(..)?);
    assert!(file.floor()? > at(9));
    assert_eq!(file.status()?.checkpoint_place, 0);
    match file.checkpoint_to(&mut Meddler(&file, Vec::new(), 100_000), 0) {
        Err(SaveError::Writer(error)) => assert_eq!(error.kind(), io::ErrorKind::WriteZero),
        other => panic!("{other:?}"),
    }
    Ok(())
}

#[test]
fn calls_are_refused() -> Result<()> {
    use hlcstore::ErrorKind::{AboveFloor, BadBytes, BadKey, BelowHorizon, NoNode, ReadingTooLarge, ValueTooLong};
    let folder = Folder::new("refused");
    let file = File::open(folder.path())?;
    let last = file.node(0).at(5).write(b"a", b"1")?;
    file.vacuum_to(last)?;
    let long = vec![0; 65_536];
    let refusals: [(Error, _, Option<Stamp>); 10] = [
        (file.write(b"", b"").unwrap_err(), BadKey, None),
        (file.delete([0; 256]).unwrap_err(), BadKey, None),
        (file.write(b"a", &long).unwrap_err(), ValueTooLong, None),
        (file.node(1).write(b"a", b"").unwrap_err(), NoNode, None),
        (file.node(0).at(1 << 48).write(b"a", b"").unwrap_err(), ReadingTooLarge, None),
        (file.node(0).at(u64::MAX).write(b"a", b"").unwrap_err(), ReadingTooLarge, None),
        (file.append_records(&[1], Promise::Default).unwrap_err().error, BadBytes, None),
        (file.snapshot_at(at(6)).unwrap_err(), AboveFloor, Some(last)),
        (file.snapshot_at(at(4)).unwrap_err(), BelowHorizon, Some(last)),
        (file.vacuum_to(at(4)).unwrap_err(), BelowHorizon, Some(last)),
    ];
    for (error, kind, stamp) in refusals {
        assert_eq!((error.kind(), error.stamp()), (ErrorKind::Store(kind), stamp));
    }
    assert!(file.snapshot_at(at(6)).unwrap_err().to_string().contains("(5.0)"));
    let mut batch = Batch::new()?;
    let too_long = (0..1025).find_map(|_| batch.write(b"a", &long[1..]).err());
    assert_eq!(too_long.map(Error::kind), Some(ErrorKind::TooLong));
    assert_eq!(file.snapshot()?.count(..)?, 1);
    Ok(())
}

#[test]
fn openings_are_refused() -> Result<()> {
    let folder = Folder::new("openings");
    let kind_of = |options: Options, name: &str| options.open(folder.0.join(name)).unwrap_err().kind();
    fs::write(folder.0.join("text"), "no store, but a text of some length\n".repeat(200)).unwrap();
    assert_eq!(kind_of(Options::new(), "text"), ErrorKind::NotOurs);
    assert_eq!(kind_of(Options::new(), "none/store"), ErrorKind::CannotOpen);
    assert_eq!(kind_of(Options::new(), "a\0b"), ErrorKind::CannotOpen);
    assert_eq!(kind_of(Options::new().must_exist(), "none"), ErrorKind::CannotOpen);
    assert_eq!(kind_of(Options::new().nodes(65), "none"), ErrorKind::BadOption);
    for longer_than_a_second in [Duration::from_micros(1_000_001), Duration::MAX] {
        assert_eq!(kind_of(Options::new().group_wait(longer_than_a_second), "none"), ErrorKind::BadOption);
    }
    let file = Options::new().keep_before_damage().checkpoint_bytes(u64::MAX).open(folder.path())?;
    let refused = File::open(folder.path()).unwrap_err();
    assert_eq!((refused.kind(), refused.code(), refused.word()), (ErrorKind::InUse, 200, 0));
    assert_eq!(refused.to_string(), "another process, or this one, has the file open");
    drop(file);
    File::open(folder.path()).map(drop)
}

#[test]
fn damaged_log_is_refused_or_kept_before_the_damage() -> Result<()> {
    let folder = Folder::new("damaged");
    let file = File::open(folder.path())?;
    file.node(0).at(5).write(b"a", b"first")?;
    file.node(0).at(6).write(b"a", b"second")?;
    file.close()?;
    let mut bytes = fs::read(folder.path()).unwrap();
    let second = bytes.windows(6).position(|bytes| bytes == b"second").unwrap();
    bytes[second] ^= 1;
    fs::write(folder.path(), bytes).unwrap();
    let refused = File::open(folder.path()).unwrap_err();
    assert_eq!((refused.kind(), refused.word()), (ErrorKind::DamagedLog, 2));
    let file = Options::new().keep_before_damage().open(folder.path())?;
    let status = file.status()?;
    assert_eq!((status.aside, status.failure.map(Error::kind)), (1, Some(ErrorKind::DamagedLog)));
    assert_eq!(file.floor()?, at(5));
    Ok(())
}

#[test]
fn checkpoints_are_made_in_the_background() -> Result<()> {
    let folder = Folder::new("background");
    let file = Options::new().checkpoint_bytes(4096).open(folder.path())?;
    file.write(b"a", [b'v'; 5000])?;
    let late = Instant::now() + Duration::from_secs(60);
    while file.status()?.checkpoint_place == 0 {
        assert!(Instant::now() < late);
        thread::sleep(Duration::from_millis(1));
    }
    Ok(())
}

#[test]
fn readers_run_beside_a_writer() -> Result<()> {
    let folder = Folder::new("threads");
    let file = Options::new().promise(Promise::Written).open(folder.path())?;
    let is_done = AtomicBool::new(false);
    let write = || -> Result<()> {
        let mut batch = Batch::new()?;
        for number in 0..300_u32 {
            for key in [b"a", b"b", b"c"] {
                batch.write(key, number.to_le_bytes())?;
            }
            file.append(&mut batch)?;
            if number % 100 == 0 {
                file.checkpoint()?;
                file.vacuum_older(Duration::ZERO)?;
            }
        }
        Ok(())
    };
    let read = || -> Result<()> {
        while !is_done.load(Ordering::Relaxed) {
            let snapshot = file.snapshot()?;
            let pairs = snapshot.iter().collect::<Result<Vec<_>>>()?;
            assert!(pairs.is_empty() || pairs.len() == 3);
            assert!(pairs.windows(2).all(|two| two[0].1 == two[1].1), "{pairs:?}");
            assert_eq!(snapshot.get(b"b")?, pairs.get(1).map(|(_, value)| value.clone()));
        }
        Ok(())
    };
    thread::scope(|scope| {
        let readers = [scope.spawn(read), scope.spawn(read), scope.spawn(read)];
        let written = write();
        is_done.store(true, Ordering::Relaxed);
        readers.into_iter().try_for_each(|reader| reader.join().unwrap()).and(written)
    })?;
    assert_eq!(file.snapshot()?.get(b"c")?, Some(299_u32.to_le_bytes().to_vec()));
    Ok(())
}

#[test]
fn snapshots_own_a_share() -> Result<()> {
    let folder = Folder::new("shares");
    let file = Arc::new(Options::new().promise(Promise::Group).open(folder.path())?);
    let writers: Vec<_> = (0..4_u8)
        .map(|number| {
            let file = Arc::clone(&file);
            thread::spawn(move || (0..50_u8).try_for_each(|turn| file.write([b'a' + number], [turn]).map(drop)))
        })
        .collect();
    for writer in writers {
        writer.join().unwrap()?;
    }
    let snapshot = Snapshot::open(file, None)?;
    assert_eq!(File::open(folder.path()).unwrap_err().kind(), ErrorKind::InUse);
    assert!(snapshot.iter().all(|pair| pair.is_ok_and(|(_, value)| value == [49])));
    assert_eq!(snapshot.count(..)?, 4);
    drop(snapshot);
    File::open(folder.path()).map(drop)
}

#[test]
fn threads_may_share_all() {
    fn is_shared<T: Send + Sync>() {}
    is_shared::<(File, Batch, Snapshot<&File>, Snapshot<Arc<File>>, Options)>();
    is_shared::<(Pairs<'_>, PairsBack<'_>, Writer<'_>, Error)>();
}
