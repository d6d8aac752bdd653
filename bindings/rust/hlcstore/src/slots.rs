//! A lock under which reads of different threads touch no common word that one of them changes.
//!
//! A reader enters one of 16 slots, by its thread: it raises the count of that slot, which lies in a cache line of its
//! own. A writer first raises the count of writers, then takes the gate, and waits until one slot after another is
//! empty. A reader that sees a writer leaves its slot and enters it again through the gate, which it shares with other
//! readers.
//!
//! A writer and a reader exclude each other: each first raises its own count, and then looks at the other's, so at
//! least one of them sees the other. A reader that enters through the gate does so while no writer has it.
//!
//! Readers starve no writer: once it has raised its count, each reader passes through the gate first, which it keeps
//! for a moment only; and once it has the gate, no reader enters. It waits for the reads that are under way, and for
//! the writers before it.

use std::cell::{Cell, UnsafeCell};
use std::hint;
use std::ops::{Deref, DerefMut};
use std::sync::atomic::{AtomicUsize, Ordering};
use std::sync::{Condvar, LockResult, Mutex, PoisonError, RwLock, RwLockWriteGuard};

const SLOTS: usize = 16;
/// How often a writer looks at a slot before it sleeps.
const LOOKS: usize = 100;

/// How many readers are in a slot. Processors may fetch cache lines of 64 bytes in pairs.
#[repr(align(128))]
#[derive(Default)]
struct Slot(AtomicUsize);

/// A value that many threads read, or one changes.
pub(crate) struct Slots<T> {
    slots: [Slot; SLOTS],
    /// How many writers wait or write.
    writers: AtomicUsize,
    gate: RwLock<()>,
    /// Whether the writer at the gate sleeps until a slot is empty.
    sleeps: Mutex<bool>,
    is_empty: Condvar,
    value: UnsafeCell<T>,
}

// SAFETY: threads that share the lock share the value, or one of them changes it, while no other has it.
unsafe impl<T: Send + Sync> Sync for Slots<T> {}

/// The value, for a reader. It leaves its slot at the end, also where the thread panics.
pub(crate) struct Reading<'a, T> {
    lock: &'a Slots<T>,
    slot: &'a AtomicUsize,
}

/// The value, for a writer. It is for the thread that took it.
pub(crate) struct Writing<'a, T> {
    lock: &'a Slots<T>,
    _gate: RwLockWriteGuard<'a, ()>,
}

/// What a lock has. No lock here guards what a panic could leave half done, so its poison says nothing.
fn locked<G>(result: LockResult<G>) -> G {
    result.unwrap_or_else(PoisonError::into_inner)
}

/// The slot of this thread. The first 16 threads have slots of their own.
fn own_slot() -> usize {
    static THREADS: AtomicUsize = AtomicUsize::new(0);
    thread_local! {
        static OWN: Cell<Option<usize>> = const { Cell::new(None) };
    }
    OWN.with(|own| {
        own.get().unwrap_or_else(|| {
            let slot = THREADS.fetch_add(1, Ordering::Relaxed) % SLOTS;
            own.set(Some(slot));
            slot
        })
    })
}

impl<T> Slots<T> {
    pub(crate) fn new(value: T) -> Slots<T> {
        Slots {
            slots: Default::default(),
            writers: AtomicUsize::new(0),
            gate: RwLock::new(()),
            sleeps: Mutex::new(false),
            is_empty: Condvar::new(),
            value: UnsafeCell::new(value),
        }
    }

    pub(crate) fn read(&self) -> Reading<'_, T> {
        let reading = self.enter(own_slot());
        if self.writers.load(Ordering::SeqCst) == 0 {
            return reading;
        }
        drop(reading);
        self.read_after_writers(own_slot)
    }

    /// Raises the count of a slot.
    fn enter(&self, slot: usize) -> Reading<'_, T> {
        let slot = &self.slots[slot].0;
        slot.fetch_add(1, Ordering::SeqCst);
        Reading { lock: self, slot }
    }

    /// Enters a slot by the gate, which no writer gets before the reader is in the slot.
    #[cold]
    fn read_after_writers(&self, slot: impl FnOnce() -> usize) -> Reading<'_, T> {
        let _gate = locked(self.gate.read());
        self.enter(slot())
    }

    pub(crate) fn write(&self) -> Writing<'_, T> {
        self.writers.fetch_add(1, Ordering::SeqCst);
        let gate = locked(self.gate.write());
        for Slot(slot) in &self.slots {
            if slot.load(Ordering::SeqCst) > 0 {
                self.wait_until_empty(slot);
            }
        }
        Writing { lock: self, _gate: gate }
    }

    #[cold]
    fn wait_until_empty(&self, slot: &AtomicUsize) {
        for _ in 0..LOOKS {
            hint::spin_loop();
            if slot.load(Ordering::SeqCst) == 0 {
                return;
            }
        }
        let mut sleeps = locked(self.sleeps.lock());
        *sleeps = true;
        while slot.load(Ordering::SeqCst) > 0 {
            sleeps = locked(self.is_empty.wait(sleeps));
        }
        *sleeps = false;
    }

    /// Wakes the writer that sleeps, if there is one: it looks at its slot before it sleeps, and sees that this is
    /// empty, or is told so.
    #[cold]
    fn wake_writer(&self) {
        if *locked(self.sleeps.lock()) {
            self.is_empty.notify_one();
        }
    }
}

impl<T> Drop for Reading<'_, T> {
    fn drop(&mut self) {
        let is_last = self.slot.fetch_sub(1, Ordering::SeqCst) == 1;
        if is_last && self.lock.writers.load(Ordering::SeqCst) > 0 {
            self.lock.wake_writer();
        }
    }
}

impl<T> Drop for Writing<'_, T> {
    fn drop(&mut self) {
        self.lock.writers.fetch_sub(1, Ordering::SeqCst);
    }
}

impl<T> Deref for Reading<'_, T> {
    type Target = T;

    fn deref(&self) -> &T {
        // SAFETY: no writer has the value until the reader leaves its slot.
        unsafe { &*self.lock.value.get() }
    }
}

impl<T> Deref for Writing<'_, T> {
    type Target = T;

    fn deref(&self) -> &T {
        // SAFETY: the writer has the gate, and no reader is in a slot.
        unsafe { &*self.lock.value.get() }
    }
}

impl<T> DerefMut for Writing<'_, T> {
    fn deref_mut(&mut self) -> &mut T {
        // SAFETY: the same.
        unsafe { &mut *self.lock.value.get() }
    }
}

#[cfg(test)]
mod tests {
    use super::{SLOTS, Slots};
    use std::collections::BTreeSet;
    use std::panic::{AssertUnwindSafe, catch_unwind};
    use std::sync::atomic::{AtomicBool, AtomicU64, Ordering};
    use std::sync::{Barrier, mpsc};
    use std::thread;
    use std::time::{Duration, Instant};

    const LIMIT: Duration = Duration::from_secs(2);

    /// Numbers at random, from a seed.
    fn next(random: &mut u64) -> u64 {
        *random ^= *random << 13;
        *random ^= *random >> 7;
        *random ^= *random << 17;
        *random
    }

    #[test]
    fn each_of_sixteen_threads_has_a_slot() {
        let together = Barrier::new(SLOTS);
        let slots = thread::scope(|scope| {
            let own = || {
                together.wait();
                super::own_slot()
            };
            let threads: Vec<_> = (0..SLOTS).map(|_| scope.spawn(own)).collect();
            threads.into_iter().map(|thread| thread.join().unwrap()).collect::<BTreeSet<_>>()
        });
        assert!(slots.iter().all(|slot| *slot < SLOTS));
        // Threads of other tests may take numbers in between.
        assert!(slots.len() > SLOTS / 2);
        assert_eq!(super::own_slot(), super::own_slot());
    }

    #[test]
    fn readers_run_beside_each_other() {
        let lock = Slots::new(5);
        let first = lock.read();
        let (say, said) = mpsc::channel();
        thread::scope(|scope| {
            for _ in 0..2 * SLOTS {
                let (lock, say) = (&lock, say.clone());
                scope.spawn(move || say.send(*lock.read()));
            }
            for _ in 0..2 * SLOTS {
                assert_eq!(said.recv_timeout(LIMIT), Ok(5));
            }
        });
        assert_eq!((*lock.read(), *first), (5, 5));
    }

    /// A writer waits for a reader, though it is long in its slot; a reader waits for a writer.
    #[test]
    fn writer_and_reader_wait_for_each_other() {
        let lock = Slots::new(1);
        let is_over = AtomicBool::new(false);
        let (say, said) = mpsc::channel();
        thread::scope(|scope| {
            let reading = lock.read();
            scope.spawn(|| {
                let mut value = lock.write();
                assert!(is_over.load(Ordering::SeqCst), "a writer did not wait");
                say.send(()).unwrap();
                thread::sleep(Duration::from_millis(50));
                *value = 2;
            });
            thread::sleep(Duration::from_millis(50));
            assert_eq!(*reading, 1);
            is_over.store(true, Ordering::SeqCst);
            drop(reading);
            assert_eq!(said.recv_timeout(LIMIT), Ok(()));
            assert_eq!(*lock.read(), 2, "a reader did not wait");
        });
    }

    #[test]
    fn reader_leaves_the_gate_in_a_slot() {
        let lock = Slots::new(1);
        let reading = lock.read_after_writers(|| {
            assert!(lock.gate.try_write().is_err(), "a writer passes a reader that is in no slot yet");
            SLOTS - 1
        });
        assert!(lock.gate.try_write().is_ok());
        assert_eq!((*reading, lock.slots[SLOTS - 1].0.load(Ordering::SeqCst)), (1, 1));
    }

    #[test]
    fn panics_release_the_lock() {
        let lock = Slots::new(1);
        let panics = |call: &dyn Fn()| assert!(catch_unwind(AssertUnwindSafe(call)).is_err());
        panics(&|| {
            let _reading = lock.read();
            panic!("in a read");
        });
        panics(&|| {
            *lock.write() = 2;
            let _writing = lock.write();
            panic!("in a write");
        });
        let (say, said) = mpsc::channel();
        thread::scope(|scope| {
            scope.spawn(|| {
                *lock.write() += 1;
                say.send(*lock.read())
            });
            assert_eq!(said.recv_timeout(LIMIT), Ok(3));
        });
    }

    #[test]
    fn spinning_readers_starve_no_writer() {
        const WRITES: u64 = 300;
        let (lock, is_over) = (Slots::new(0), AtomicBool::new(false));
        let end = Instant::now() + LIMIT;
        thread::scope(|scope| {
            for _ in 0..4 {
                scope.spawn(|| {
                    let mut last = 0;
                    while !is_over.load(Ordering::Relaxed) && Instant::now() < end {
                        let value = *lock.read();
                        assert!(value >= last);
                        last = value;
                    }
                });
            }
            for _ in 0..WRITES {
                *lock.write() += 1;
            }
            is_over.store(true, Ordering::Relaxed);
            assert!(Instant::now() < end, "a writer was starved");
        });
        assert_eq!(*lock.read(), WRITES);
    }

    /// Two words that a writer keeps equal, with pauses at random, so that readers and writers meet in each order.
    #[test]
    fn no_reader_sees_a_change_half_done() {
        const THREADS: u64 = 2 * SLOTS as u64;
        const ROUNDS: u64 = 60;
        let lock = Slots::new([0, 0]);
        let reads = AtomicU64::new(0);
        thread::scope(|scope| {
            for seed in 1..=THREADS {
                let (lock, reads) = (&lock, &reads);
                scope.spawn(move || {
                    let mut random = seed.wrapping_mul(0x9e37_79b9_7f4a_7c15);
                    for _ in 0..ROUNDS {
                        if seed % 8 == 0 {
                            let mut pair = lock.write();
                            pair[0] += 1;
                            if next(&mut random) % 4 == 0 {
                                thread::yield_now();
                            }
                            pair[1] += 1;
                        } else {
                            let pair = lock.read();
                            let first = pair[0];
                            match next(&mut random) % 64 {
                                0 => thread::sleep(Duration::from_micros(20)),
                                1..8 => thread::yield_now(),
                                _ => (),
                            }
                            assert_eq!([first, first], *pair);
                            reads.fetch_add(1, Ordering::Relaxed);
                        }
                    }
                });
            }
        });
        assert_eq!(*lock.read(), [THREADS / 8 * ROUNDS; 2]);
        assert!(reads.into_inner() > 0);
    }
}
