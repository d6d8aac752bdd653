//! What a call of the C library costs from Rust, with the crate of bindings/rust, in ns: the least of nine runs.

use hlcstore::{Item, Stamp, Store};
use std::time::Instant;

const WRITES: u64 = 100_000;

fn key(n: u64) -> [u8; 8] {
    let mut key = *b"key00000";
    key[3..].copy_from_slice(format!("{:05}", n % 1_000).as_bytes());
    key
}

fn main() {
    let keys: Vec<[u8; 8]> = (0..1_000).map(key).collect();
    let (mut accept, mut read) = (f64::MAX, f64::MAX);
    for _ in 0..9 {
        let store = Store::open(1).unwrap();
        let start = Instant::now();
        for i in 0..WRITES {
            let key = &keys[(i % 1_000) as usize];
            store.accept(Item::write(0, i, Stamp::new(i + 1, 0), key, b"value000")).unwrap();
        }
        accept = accept.min(start.elapsed().as_nanos() as f64 / WRITES as f64);
        let snapshot = store.snapshot().unwrap();
        let start = Instant::now();
        for i in 0..WRITES {
            snapshot.get(keys[(i * 7 % 1_000) as usize]).unwrap().unwrap();
        }
        read = read.min(start.elapsed().as_nanos() as f64 / WRITES as f64);
    }
    println!("Rust: accept of a write {accept:.1}");
    println!("Rust: read, 100 versions, into a vector {read:.1}");
}
