//! Restores in pieces that are given up or refused. Valgrind looks for what they leave.

use hlcstore::{ErrorKind, Node, Restoring, Stamp, Store};

/// A checkpoint with long keys and values.
fn saved() -> Vec<u8> {
    let store = Store::open(1).unwrap();
    let mut node = Node::new(0, Stamp::ZERO);
    for number in 0..5 {
        store.accept(node.write(1, &[number + 1; 255], &[7; 500]).unwrap()).unwrap();
    }
    store.checkpoint(7).unwrap()
}

#[test]
fn restore_is_given_up() {
    let saved = saved();
    drop(Restoring::start().unwrap());
    for len in [1, saved.len() / 2, saved.len()] {
        let mut restoring = Restoring::start().unwrap();
        for piece in saved[..len].chunks(300) {
            restoring.feed(piece).unwrap();
        }
        drop(restoring);
    }
}

#[test]
fn restore_is_refused() {
    let saved = saved();
    let mut damaged = saved.clone();
    damaged[saved.len() / 2] ^= 1;
    // Short, Damaged and Trailing in docs/formats.md.
    let cases = [(saved[..saved.len() - 1].to_vec(), 1), (damaged, 7), ([&saved[..], &b"more"[..]].concat(), 6)];
    for (bytes, fault) in cases {
        let mut restoring = Restoring::start().unwrap();
        for piece in bytes.chunks(300) {
            restoring.feed(piece).unwrap();
        }
        let error = restoring.finish().unwrap_err();
        assert_eq!((error.kind(), error.word()), (ErrorKind::BadBytes, fault));
        assert_eq!(Store::restore(&bytes).unwrap_err(), error);
    }
}

#[test]
fn closed_store_takes_a_checkpoint_after_a_refusal() {
    let saved = saved();
    let store = Store::open(1).unwrap();
    assert_eq!(store.reload(&saved).unwrap_err().kind(), ErrorKind::IsOpen);
    store.close();
    assert_eq!(store.reload(&saved[1..]).unwrap_err().kind(), ErrorKind::BadBytes);
    assert_eq!(store.floor().unwrap_err().kind(), ErrorKind::Closed);
    assert_eq!(store.reload(&saved), Ok(7));
    assert_eq!(store.checkpoint(7), Ok(saved));
}
