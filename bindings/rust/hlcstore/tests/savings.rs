//! Checkpoints in pieces: writers that fail, write a part, or use the store. Valgrind looks for what they leave.

use hlcstore::{Error, ErrorKind, Node, Restoring, SaveError, SharedStore, Stamp, Store};
use std::io::{self, ErrorKind as IoKind, Write};
use std::panic::{AssertUnwindSafe, catch_unwind};
use std::sync::atomic::{AtomicBool, Ordering};
use std::sync::mpsc;
use std::thread;
use std::time::Duration;

/// How many bytes a piece has, but the last.
const PIECE: usize = 65_536;

/// A store with values of more than three pieces, and a node that goes on.
fn filled() -> (Store, Node) {
    let store = Store::open(1).unwrap();
    let mut node = Node::new(0, Stamp::ZERO);
    for number in 0..200_u64 {
        store.accept(node.write(1, &number.to_be_bytes(), &[number as u8; 1000]).unwrap()).unwrap();
    }
    (store, node)
}

/// What a function writes; it gets how many calls were made before, and the bytes that are left of the piece.
struct Writer<F> {
    calls: usize,
    bytes: Vec<u8>,
    write: F,
}

impl<F: FnMut(usize, &[u8]) -> io::Result<usize>> Writer<F> {
    fn new(write: F) -> Writer<F> {
        Writer { calls: 0, bytes: Vec::new(), write }
    }
}

impl<F: FnMut(usize, &[u8]) -> io::Result<usize>> Write for Writer<F> {
    fn write(&mut self, left: &[u8]) -> io::Result<usize> {
        self.calls += 1;
        let written = (self.write)(self.calls - 1, left)?;
        self.bytes.extend_from_slice(&left[..written]);
        Ok(written)
    }

    fn flush(&mut self) -> io::Result<()> {
        panic!("the writer is not flushed")
    }
}

/// The refusal of a store.
fn refused(result: Result<u64, SaveError>) -> ErrorKind {
    match result.unwrap_err() {
        SaveError::Store(error) => error.kind(),
        SaveError::Writer(error) => panic!("{error}"),
    }
}

/// The kind of the error of a writer.
fn failed(result: Result<u64, SaveError>) -> IoKind {
    match result.unwrap_err() {
        SaveError::Store(error) => panic!("{error}"),
        SaveError::Writer(error) => error.kind(),
    }
}

#[test]
fn pieces_are_the_checkpoint() {
    let (large, _) = filled();
    let _open = large.snapshot().unwrap();
    for (store, rows) in [(&Store::open(3).unwrap(), 0), (&large, 200)] {
        let mut writer = Writer::new(|_, left| Ok(left.len()));
        let written = store.checkpoint_to(&mut writer, 7).unwrap();
        assert_eq!(written, writer.bytes.len() as u64);
        assert_eq!(writer.calls, writer.bytes.len().div_ceil(PIECE));
        assert_eq!(writer.bytes, store.checkpoint(7).unwrap());

        let mut restoring = Restoring::start().unwrap();
        restoring.feed(&writer.bytes).unwrap();
        let (copy, tag) = restoring.finish().unwrap();
        assert_eq!((tag, copy.rows(), copy.snapshots()), (7, Ok(rows), store.snapshots()));
    }
}

#[test]
fn writer_of_any_type_gets_the_bytes() {
    let (store, _) = filled();
    let saved = store.checkpoint(0).unwrap();
    let mut vector = Vec::new();
    let writer: &mut dyn Write = &mut vector;
    store.checkpoint_to(writer, 0).unwrap();
    assert_eq!(vector, saved);
}

#[test]
fn writer_fails_at_each_piece() {
    let (store, mut node) = filled();
    for at in 0..4 {
        let saved = store.checkpoint(7).unwrap();
        let mut writer =
            Writer::new(|call, left| if call < at { Ok(left.len()) } else { Err(IoKind::StorageFull.into()) });
        assert_eq!(failed(store.checkpoint_to(&mut writer, 7)), IoKind::StorageFull);
        assert_eq!((writer.calls, &writer.bytes[..]), (at + 1, &saved[..at * PIECE]));
        store.accept(node.report(2).unwrap()).unwrap();
    }
    assert_eq!(store.link(0).unwrap().next_number, 204);
    let mut bytes = Vec::new();
    store.checkpoint_to(&mut bytes, 7).unwrap();
    assert_eq!(bytes, store.checkpoint(7).unwrap());
}

#[test]
fn writer_that_panics_leaves_the_store() {
    let (store, mut node) = filled();
    let mut writer = Writer::new(|call, left| if call == 1 { panic!("in the middle") } else { Ok(left.len()) });
    let written = catch_unwind(AssertUnwindSafe(|| store.checkpoint_to(&mut writer, 7)));
    assert!(written.is_err());
    store.accept(node.report(2).unwrap()).unwrap();
}

#[test]
fn short_writes_go_on() {
    let (store, _) = filled();
    let saved = store.checkpoint(7).unwrap();
    let mut writer = Writer::new(|call, left| Ok(left.len().min(call % 3000 + 1)));
    assert_eq!(store.checkpoint_to(&mut writer, 7).unwrap(), saved.len() as u64);
    assert_eq!(writer.bytes, saved);
}

#[test]
fn interrupted_writes_are_tried_again() {
    let (store, _) = filled();
    let saved = store.checkpoint(7).unwrap();
    let mut writer =
        Writer::new(
            |call, left| if call % 2 == 0 { Err(IoKind::Interrupted.into()) } else { Ok(left.len().min(9999)) },
        );
    assert_eq!(store.checkpoint_to(&mut writer, 7).unwrap(), saved.len() as u64);
    assert_eq!(writer.bytes, saved);
}

#[test]
fn writer_that_takes_nothing_is_an_error() {
    let (store, _) = filled();
    let mut writer = Writer::new(|call, left| Ok(if call == 0 { left.len() } else { 0 }));
    assert_eq!(failed(store.checkpoint_to(&mut writer, 7)), IoKind::WriteZero);
    assert_eq!(writer.bytes.len(), PIECE);
    let mut writer = Writer::new(|_, _| Err(IoKind::WouldBlock.into()));
    assert_eq!(failed(store.checkpoint_to(&mut writer, 7)), IoKind::WouldBlock);
    assert_eq!(writer.calls, 1);
}

#[test]
fn writer_may_read_the_store() {
    let (store, _) = filled();
    let snapshot = store.snapshot().unwrap();
    let mut writer = Writer::new(|_, left| {
        assert_eq!((store.rows(), snapshot.count(..)), (Ok(200), Ok(200)));
        assert_eq!(store.checkpoint_to(&mut io::sink(), 8).unwrap(), store.checkpoint(8).unwrap().len() as u64);
        Ok(left.len())
    });
    store.checkpoint_to(&mut writer, 7).unwrap();
    assert_eq!(writer.bytes, store.checkpoint(7).unwrap());
}

#[test]
fn writer_that_changes_the_store_ends_the_saving() {
    type Change = fn(&Store);
    let changes: [(Change, ErrorKind); 5] = [
        (
            |store| store.accept(Node::restore(0, Stamp::new(1, 199), 200).unwrap().report(2).unwrap()).unwrap(),
            ErrorKind::Changed,
        ),
        (|store| drop(store.snapshot().unwrap()), ErrorKind::Changed),
        (|store| assert_eq!(store.vacuum().unwrap().kept, 200), ErrorKind::Changed),
        (Store::close, ErrorKind::Closed),
        (
            // Another store with the same numbers.
            |store| {
                let saved = store.checkpoint(0).unwrap();
                store.close();
                store.reload(&saved).unwrap();
            },
            ErrorKind::Changed,
        ),
    ];
    for (change, kind) in changes {
        let (store, _) = filled();
        let mut writer = Writer::new(|call, left| {
            if call == 1 {
                change(&store);
            }
            Ok(left.len())
        });
        assert_eq!(refused(store.checkpoint_to(&mut writer, 7)), kind);
        assert_eq!(writer.calls, 2);
    }
}

#[test]
fn change_after_the_last_piece_is_not_seen() {
    let store = Store::open(1).unwrap();
    let mut writer = Writer::new(|_, left| {
        store.join().unwrap();
        Ok(left.len())
    });
    let saved = store.checkpoint(7).unwrap();
    assert_eq!(store.checkpoint_to(&mut writer, 7).unwrap(), saved.len() as u64);
    assert_eq!((writer.bytes, store.nodes()), (saved, Ok(2)));
}

#[test]
fn closed_store_is_refused() {
    let store = Store::closed();
    assert_eq!(refused(store.checkpoint_to(&mut io::sink(), 7)), ErrorKind::Closed);
    assert_eq!(refused(store.into_shared().checkpoint_to(&mut io::sink(), 7)), ErrorKind::Closed);
}

#[test]
fn errors_say_whose_they_are() {
    let refused = SaveError::from(Error::new(112, 0));
    assert_eq!(refused.to_string(), "the checkpoint was refused: the store changed since the saving began");
    let failed = SaveError::from(io::Error::other("the disk is gone"));
    assert_eq!(failed.to_string(), "the checkpoint was not written: the disk is gone");
    for error in [refused, failed] {
        let source = std::error::Error::source(&error).unwrap().to_string();
        assert!(error.to_string().ends_with(&source));
    }
}

#[test]
fn changes_of_other_threads_wait() {
    let (store, mut node) = filled();
    let saved = store.checkpoint(7).unwrap();
    let (store, has_changed) = (SharedStore::from(store), AtomicBool::new(false));
    thread::scope(|scope| {
        let (mine, has_changed) = (&store, &has_changed);
        let mut item = Some(node.report(2).unwrap());
        let mut writer = Writer::new(|call, left| {
            if call == 0 {
                // A read of another thread runs beside the saving.
                assert_eq!(scope.spawn(|| mine.rows()).join().unwrap(), Ok(200));
            }
            if let Some(item) = item.take() {
                scope.spawn(move || {
                    mine.accept(item).unwrap();
                    has_changed.store(true, Ordering::SeqCst);
                });
            }
            thread::sleep(Duration::from_millis(20));
            assert!(!has_changed.load(Ordering::SeqCst), "a change was made in the middle");
            Ok(left.len())
        });
        assert_eq!(store.checkpoint_to(&mut writer, 7).unwrap(), saved.len() as u64);
        assert_eq!(writer.bytes, saved);
    });
    assert!(has_changed.into_inner());
    assert_eq!(store.link(0).unwrap().next_number, 201);
}

#[test]
fn reads_run_while_a_change_waits() {
    let (store, mut node) = filled();
    let (store, saved) = (SharedStore::from(store), 200);
    let snapshot = store.snapshot().unwrap();
    let expected = store.checkpoint(7).unwrap();
    let mut item = Some(node.report(2).unwrap());
    let (say, said) = mpsc::channel();
    thread::scope(|scope| {
        let (mine, snapshot) = (&store, &snapshot);
        let mut writer = Writer::new(|_, left| {
            if let Some(item) = item.take() {
                scope.spawn(move || mine.accept(item).unwrap());
                thread::sleep(Duration::from_millis(100)); // so that the change waits
            }
            let say = say.clone();
            scope.spawn(move || say.send((mine.rows(), snapshot.count(..))).unwrap());
            match said.recv_timeout(Duration::from_secs(20)) {
                Ok(read) => assert_eq!(read, (Ok(saved), Ok(saved))),
                Err(_) => return Err(IoKind::TimedOut.into()),
            }
            // The thread that saves may read too.
            assert_eq!((mine.rows(), snapshot.count(..)), (Ok(saved), Ok(saved)));
            Ok(left.len())
        });
        store.checkpoint_to(&mut writer, 7).unwrap();
        assert_eq!(writer.bytes, expected);
    });
    assert_eq!(store.link(0).unwrap().next_number, 201);
}

#[test]
fn changes_after_a_saving_that_fails() {
    let (store, mut node) = filled();
    let store = SharedStore::from(store);
    let mut panics = Writer::new(|_, _| panic!("in the middle"));
    assert!(catch_unwind(AssertUnwindSafe(|| store.checkpoint_to(&mut panics, 7))).is_err());
    let mut fails = Writer::new(|_, _| Err(IoKind::StorageFull.into()));
    assert_eq!(failed(store.checkpoint_to(&mut fails, 7)), IoKind::StorageFull);
    store.accept(node.report(2).unwrap()).unwrap();
    assert_eq!(store.link(0).unwrap().next_number, 201);
}
