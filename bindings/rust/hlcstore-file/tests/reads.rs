//! What a file reads is what a store in memory with the same items does.

use hlcstore::{ErrorKind as StoreErrorKind, Link, Node, Prefix, Sizes, Stamp, Store, Version};
use hlcstore_file::{ErrorKind, File, Options, Promise, Result, Snapshot};
use std::path::PathBuf;
use std::sync::Arc;
use std::{env, fs, process, thread};

/// A file in a folder that is removed at the end of a test.
struct Folder(PathBuf);

impl Folder {
    fn new(name: &str) -> Folder {
        let path = env::temp_dir().join(format!("hlcstore-reads-{}-{name}", process::id()));
        let _ = fs::remove_dir_all(&path);
        fs::create_dir_all(&path).unwrap();
        Folder(path)
    }

    fn open(&self) -> File {
        Options::new().promise(Promise::Written).open(self.0.join("store.hlc")).unwrap()
    }
}

impl Drop for Folder {
    fn drop(&mut self) {
        let _ = fs::remove_dir_all(&self.0);
    }
}

fn at(physical: u64) -> Stamp {
    Stamp::new(physical, 0)
}

/// The key and the value of a write. The listings have some pages.
fn pair(reading: u64) -> (Vec<u8>, Vec<u8>) {
    (format!("key {:03}", reading % 300).into_bytes(), vec![b'v'; reading as usize % 700])
}

/// Writes the same to a file and to a store: each third key is deleted again.
fn fill(file: &File, store: &Store) {
    let mut node = Node::new(0, Stamp::ZERO);
    for reading in 1..=900 {
        let (key, value) = pair(reading);
        let (written, item) = if reading > 600 && reading % 3 == 0 {
            (file.node(0).at(reading).delete(&key), node.delete(reading, &key))
        } else {
            (file.node(0).at(reading).write(&key, &value), node.write(reading, &key, &value))
        };
        assert_eq!(written.unwrap(), at(reading));
        store.accept(item.unwrap()).unwrap();
    }
}

#[test]
fn store_has_what_one_in_memory_has() -> Result<()> {
    let folder = Folder::new("store");
    let (file, store) = (folder.open(), Store::open(1)?);
    assert_eq!((file.rows()?, file.nodes()?, file.sizes()?, file.floor_node()?), (0, 1, Sizes::default(), Some(0)));
    fill(&file, &store);
    assert_eq!((file.rows()?, file.sizes()?), (900, store.sizes()?));
    assert_eq!((file.nodes()?, file.floor_node()?), (1, Some(0)));
    assert_eq!(file.link(0)?, Link { next_number: 900, head: at(900), is_retired: false });
    assert_eq!(file.link(1).unwrap_err().kind(), ErrorKind::Store(StoreErrorKind::NoNode));
    file.node(0).at(901).retire()?;
    assert_eq!((file.link(0)?.is_retired, file.floor_node()?), (true, None));
    Ok(())
}

#[test]
fn versions_of_a_key() -> Result<()> {
    let folder = Folder::new("versions");
    let (file, store) = (folder.open(), Store::open(1)?);
    fill(&file, &store);
    let row = |reading, value| Version { stamp: at(reading), node: 0, value };
    // The key 3 was written at 3 and 303, and deleted at 603.
    let rows = [row(603, None), row(303, Some(pair(303).1)), row(3, Some(pair(3).1))];
    assert_eq!(file.versions(b"key 003", Stamp::ZERO, Stamp::MAX)?, rows);
    assert_eq!(file.versions(b"key 003", at(3), at(602))?, rows[1..2]);
    assert_eq!(file.versions(b"none", Stamp::ZERO, Stamp::MAX)?, []);
    // More than there is room for at first.
    file.node(0).at(950).write(b"long", [7; 65_535])?;
    file.node(0).at(951).write(b"long", [8; 65_535])?;
    let long = file.versions(b"long", Stamp::ZERO, Stamp::MAX)?;
    assert_eq!(long, [row(951, Some(vec![8; 65_535])), row(950, Some(vec![7; 65_535]))]);
    Ok(())
}

#[test]
fn listings_are_those_of_a_store_in_memory() -> Result<()> {
    let folder = Folder::new("listings");
    let (file, store) = (folder.open(), Store::open(1)?);
    fill(&file, &store);
    let (mine, theirs) = (file.snapshot_at(at(500))?, store.snapshot_at(at(500))?);
    let (later, their_later) = (file.snapshot()?, store.snapshot()?);
    assert_eq!(mine.digest(..)?, theirs.digest(..)?);
    assert_eq!(later.digest("key 1".."key 2")?, their_later.digest("key 1".."key 2")?);
    assert_ne!(mine.digest(..)?, later.digest(..)?);

    let keys = later.keys(..).collect::<Result<Vec<_>>>()?;
    assert_eq!(keys, their_later.keys(..).collect::<hlcstore::Result<Vec<_>>>()?);
    assert_eq!((keys.len(), later.keys(Prefix("key 00")).count()), (200, 6));
    assert_eq!(later.keys("b".."a").count(), 0);

    let changes = mine.changes(&later, ..).collect::<Result<Vec<_>>>()?;
    assert_eq!(changes, theirs.changes(&their_later, ..).collect::<hlcstore::Result<Vec<_>>>()?);
    assert_eq!((changes.len(), &changes[0]), (300, &(b"key 000".to_vec(), None)));
    assert_eq!(mine.changes(&later, "key 003"..="key 003").collect::<Result<Vec<_>>>()?, changes[3..4]);
    assert_eq!(later.changes(&mine, ..).count(), 300);
    assert_eq!(mine.changes(&mine, ..).count(), 0);
    Ok(())
}

#[test]
fn pages_are_those_of_a_store_in_memory() -> Result<()> {
    let folder = Folder::new("pages");
    let (file, store) = (folder.open(), Store::open(1)?);
    fill(&file, &store);
    let (mine, theirs) = (file.snapshot_at(at(5))?, store.snapshot_at(at(5))?);
    let (later, their_later) = (file.snapshot()?, store.snapshot()?);
    let (page, same) = (mine.scan_back(.., 46)?, theirs.scan_back(.., 46)?);
    // A pair of the key 5 takes 8 + 7 + 8 + 5 bytes, and that of the key 4 one less.
    assert_eq!((page.as_bytes(), page.len(), page.has_more()), (same.as_bytes(), 1, true));
    let (page, same) = (later.scan_keys(.., 40)?, their_later.scan_keys(.., 40)?);
    assert_eq!((page.as_bytes(), page.len(), page.has_more()), (same.as_bytes(), 2, true));
    let (page, same) = (mine.scan_changes(&later, .., 700)?, theirs.scan_changes(&their_later, .., 700)?);
    assert_eq!((page.as_bytes(), page.len(), page.has_more()), (same.as_bytes(), 1, true));
    assert_eq!(page.iter().next(), Some((&b"key 001"[..], Some(&pair(601).1[..]))));
    assert_eq!(later.get_many(&[b"key 001", b"none", b"key 003"])?, [Some(pair(601).1), None, None]);
    Ok(())
}

/// Takes entries from both ends, by turns of these lengths, until none is left.
fn from_both_ends<T, E: std::fmt::Debug>(
    mut listing: impl DoubleEndedIterator<Item = std::result::Result<T, E>>,
    (front, back): (usize, usize),
) -> Vec<T> {
    let mut taken = Vec::new();
    loop {
        let before = taken.len();
        taken.extend(listing.by_ref().take(front).map(std::result::Result::unwrap));
        taken.extend(listing.by_ref().rev().take(back).map(std::result::Result::unwrap));
        if taken.len() == before {
            assert!(listing.next().is_none() && listing.next_back().is_none());
            return taken;
        }
    }
}

#[test]
fn listings_from_both_ends_meet() -> Result<()> {
    let folder = Folder::new("ends");
    let (file, store) = (folder.open(), Store::open(1)?);
    fill(&file, &store);
    let (mine, theirs) = (file.snapshot()?, store.snapshot()?);
    for turns in [(1, 1), (3, 1), (0, 1), (1, 0), (90, 170), (1_000, 1)] {
        for range in ["".."~", "key 1".."key 2", "key 011".."key 012", "b".."a"] {
            let (pairs, expected) = (mine.range(range.clone()), theirs.range(range.clone()));
            assert_eq!(from_both_ends(pairs, turns), from_both_ends(expected, turns));
            let (pairs, expected) = (mine.range_back(range.clone()), theirs.range_back(range.clone()));
            assert_eq!(from_both_ends(pairs, turns), from_both_ends(expected, turns));
            let (keys, expected) = (mine.keys(range.clone()), theirs.keys(range));
            assert_eq!(from_both_ends(keys, turns), from_both_ends(expected, turns));
        }
    }
    Ok(())
}

#[test]
fn many_keys_are_read_at_once() -> Result<()> {
    let folder = Folder::new("many");
    let file = folder.open();
    for (key, len) in [("none", 0), ("short", 64), ("longer", 65), ("longest", 65_535)] {
        file.write(key, vec![7; len])?;
    }
    let snapshot = file.snapshot()?;
    let keys: [&[u8]; 6] = [b"longest", b"absent", b"none", b"short", b"longer", b"longest"];
    let lens: Vec<_> = snapshot.get_many(&keys)?.into_iter().map(|value| Some(value?.len())).collect();
    assert_eq!(lens, [Some(65_535), None, Some(0), Some(64), Some(65), Some(65_535)]);
    assert_eq!(snapshot.get_many(&[])?, []);
    Ok(())
}

#[test]
fn changes_are_of_one_file() -> Result<()> {
    let (folder, other) = (Folder::new("one"), Folder::new("other"));
    let (file, other) = (Arc::new(folder.open()), Arc::new(other.open()));
    let refused = ErrorKind::Store(StoreErrorKind::NoSnapshot);
    let (mine, theirs) = (Snapshot::open(Arc::clone(&file), None)?, Snapshot::open(other, None)?);
    let mut changes = mine.changes(&theirs, ..);
    assert_eq!(changes.next().unwrap().unwrap_err().kind(), refused);
    assert!(changes.next().is_none());
    assert_eq!(mine.scan_changes(&theirs, .., 100).unwrap_err().kind(), refused);
    let share = Snapshot::open(file, None)?;
    assert_eq!(mine.changes(&share, ..).count(), 0);
    Ok(())
}

#[test]
fn reads_run_beside_a_writer() -> Result<()> {
    let folder = Folder::new("threads");
    let file = folder.open();
    thread::scope(|scope| {
        let writer =
            scope.spawn(|| (1..=500).try_for_each(|turn: u32| file.write(b"key", turn.to_le_bytes()).map(drop)));
        for _ in 0..200 {
            let (before, after) = (file.snapshot()?, file.snapshot()?);
            let (one, other) = (before.digest(..)?, after.digest(..)?);
            assert_eq!(one == other, before.changes(&after, ..).next().is_none());
            let rows = file.versions(b"key", Stamp::ZERO, after.stamp())?;
            assert_eq!(rows.first().and_then(|row| row.value.clone()), after.get(b"key")?);
            assert!(file.rows()? as usize >= rows.len());
        }
        writer.join().unwrap()
    })
}
