"""Threads that share one store. Every answer is compared with the only one that is right."""

import collections
import faulthandler
import gc
import io
import operator
import random
import subprocess
import sys
import textwrap
import threading
import time
import unittest
from concurrent.futures import ThreadPoolExecutor
from functools import partial

import hlcstore
from hlcstore import Item, Node, Store, split, stamp

THREADS = 4
INTERVAL = sys.getswitchinterval()


def setUpModule():
    """Lets the interpreter change threads often. Threads that wait for each other for good end the tests."""
    sys.setswitchinterval(1e-5)
    faulthandler.dump_traceback_later(120, exit=True)


def tearDownModule():
    sys.setswitchinterval(INTERVAL)
    faulthandler.cancel_dump_traceback_later()


def in_threads(work, arguments):
    """Runs the work in threads, one for each argument, and raises what one of them raised."""
    with ThreadPoolExecutor(len(arguments)) as threads:
        for done in [threads.submit(work, argument) for argument in arguments]:
            done.result()


def check(is_right, what):
    if not is_right:
        raise AssertionError(what)


def value_of(key, reading):
    """The value that is written to a key at a reading. Some of them are long."""
    return b"%d of %s " % (reading, key) + b"." * (reading % 3 * 700)


class OneSnapshot(unittest.TestCase):
    def test_four_threads_read(self):
        """Each key has a value of its own, so an answer of another key is seen."""
        expected = {b"key %03d" % i: value_of(b"key %03d" % i, i) for i in range(500)}
        store, node, keys = Store(1), Node(0), list(expected)
        store.accept_all(node.write(1, key, value) for key, value in expected.items())
        snapshot = store.snapshot()
        digest = snapshot.digest()

        def read(seed):
            pick = random.Random(seed)
            for _ in range(20_000):
                key = pick.choice(keys)
                check(snapshot[key] == expected[key] and key in snapshot, key)
                check(snapshot.get(key[:-1]) is None and key[1:] not in snapshot, key)
            for _ in range(20):
                some = pick.sample(keys, 50)
                check(snapshot.read_all(some) == [expected[key] for key in some], "values of some keys")
                check(dict(snapshot.items()) == expected and list(snapshot) == keys, "the listing")
                check(list(reversed(snapshot)) == keys[::-1], "the listing from the end")
                check(len(snapshot) == len(keys) and snapshot.digest() == digest, "the digest")

        in_threads(read, range(THREADS))

    def test_an_iterator_gives_each_pair_once(self):
        """Where two threads ask at the same time, one of them may get a ValueError, but no pair is lost."""
        store, node = Store(1), Node(0)
        expected = [(b"%05d" % i, b"%d" % i * 200) for i in range(20_000)]
        store.accept_all([node.write(1, *pair) for pair in expected])
        items, found = store.snapshot().items(), [[] for _ in range(THREADS)]

        def take(number):
            while True:
                try:
                    found[number].append(next(items))
                except ValueError:
                    continue
                except StopIteration:
                    return

        in_threads(take, range(THREADS))
        self.assertEqual(sorted(sum(found, [])), expected)

    def test_a_node_issues_each_number_once(self):
        node, issued = Node(0), [[] for _ in range(THREADS)]

        def issue(number):
            for reading in range(20_000):
                issued[number].append(node.write(reading, b"key", b"%d" % number))

        in_threads(issue, range(THREADS))
        items = sorted(sum(issued, []), key=lambda item: item.number)
        self.assertEqual([item.number for item in items], list(range(20_000 * THREADS)))
        self.assertEqual(Store(1).accept_all(items), len(items))


class OneStore(unittest.TestCase):
    """Each thread has a node, which writes all its keys at each reading, the key i with the counter i. So the stamp of
    a snapshot says which value each key of each node has in it, whatever the other threads do."""

    KEYS = [[b"key %d of node %d" % (i, node) for i in range(20)] for node in range(THREADS)]

    def expected_at(self, at):
        """All pairs at a stamp: the key i was written at its reading, or its counter is too low for that."""
        reading, counter = split(at)
        newest = {key: reading - (i > counter) for keys in self.KEYS for i, key in enumerate(keys)}
        return {key: value_of(key, written) for key, written in newest.items() if written > 0}

    def compare(self, pick, snapshot):
        expected = self.expected_at(snapshot.stamp)
        for key in pick.sample(self.KEYS[pick.randrange(THREADS)], 5):
            check(snapshot.get(key) == expected.get(key) and (key in snapshot) == (key in expected), key)
        if pick.random() < 0.2:
            some = pick.sample(sum(self.KEYS, []), 30)
            check(snapshot.read_all(some) == [expected.get(key) for key in some], "values of some keys")
            check(dict(snapshot.items()) == expected, "the listing")
            check(len(snapshot) == len(expected) and sorted(snapshot) == sorted(expected), "the keys")

    def accept(self, pick, store, items):
        way = pick.randrange(3)
        if way == 0:
            store.accept_all(items)
        elif way == 1:
            store.accept_items(b"".join(map(bytes, items)))
        else:
            for item in items:
                store.accept(item)

    def feed(self, store, number, readings):
        """Writes at each reading, and looks at a snapshot after it."""
        node, pick = Node(number), random.Random(number)
        for reading in readings:
            self.accept(pick, store, [node.write(reading, key, value_of(key, reading)) for key in self.KEYS[number]])
            with store.snapshot() as snapshot:
                self.compare(pick, snapshot)
            if pick.random() < 0.1:
                self.certify(store)
            if pick.random() < 0.05:
                with Store.restore(self.save(pick, store, reading)) as copy:
                    check(copy.tag == reading, "the tag")
                    self.compare(pick, copy.snapshot())

    def save(self, pick, store, tag):
        if pick.random() < 0.5:
            return store.checkpoint(tag)
        saved = io.BytesIO()
        store.checkpoint_to(saved, tag)
        return saved.getvalue()

    def certify(self, store):
        """Other threads may vacuum to a later stamp in between, or close a snapshot for which a row was kept."""
        vacuum = store.vacuum()
        try:
            certified = store.certificate(vacuum.stamp)
        except (hlcstore.BelowHorizon, hlcstore.NotFewest):
            return
        check(hlcstore.check(certified.certificate) == (certified.kept, certified.cost), "the certificate")

    def test_four_threads_read_and_write(self):
        store, turns = Store(THREADS), 200
        in_threads(lambda number: self.feed(store, number, range(1, turns + 1)), range(THREADS))
        self.assertEqual(store.floor, stamp(turns, 19))
        self.assertEqual(dict(store.snapshot().items()), self.expected_at(store.floor))

    def test_threads_whose_store_is_closed(self):
        """Each thread gets right answers until it is refused."""
        for _ in range(10):
            store = Store(THREADS)

            def work(number, store=store):
                with self.assertRaises(hlcstore.Closed):
                    self.feed(store, number, range(1, 10**9))

            threads = [threading.Thread(target=work, args=(number,)) for number in range(THREADS)]
            for thread in threads:
                thread.start()
            time.sleep(0.05)
            store.close()
            for thread in threads:
                thread.join()

    def test_dropped_snapshots_are_closed(self):
        """Snapshots that nobody closes end with their objects, also where these are garbage of another thread."""
        store = Store(1)
        store.accept(Item.write(0, 0, stamp(1), b"key", b"value"))

        def drop(number):
            for turn in range(4000):
                check(store.snapshot()[b"key"] == b"value", "the value")
                ring = [store.snapshot()]
                ring.append(ring)
                if number == 0:
                    store.vacuum()
                # A ring that was in use during a collection or two waits for a whole one, which may be long in coming.
                if turn % 100 == 0:
                    gc.collect()

        thresholds = gc.get_threshold()
        gc.set_threshold(10)
        in_threads(drop, range(THREADS))
        gc.set_threshold(*thresholds)
        gc.collect()
        self.assertEqual(store.snapshots(), [])


class LongCalls(unittest.TestCase):
    @classmethod
    def setUpClass(cls):
        node = Node(0)
        cls.items = [node.write(1, b"%05d" % i, b"v" * 1000) for i in range(10_000)]
        cls.store = Store(2)
        cls.store.accept_all(cls.items)
        cls.store.accept(Item.report(1, 0, node.last))
        cls.snapshot = cls.store.snapshot()
        cls.wide = Store(1)
        cls.wide.accept_all([Item.write(0, i, stamp(i + 1), b"%06d" % i, b"") for i in range(100_000)])

    @classmethod
    def tearDownClass(cls):
        del cls.items, cls.store, cls.snapshot, cls.wide

    def setUp(self):
        """Lets a thread note the time every ten microseconds, where it can."""
        self.ticks, self.is_done = collections.deque([0], maxlen=1_000_000), threading.Event()
        self.ticking = threading.Thread(target=self.tick)
        self.ticking.start()

    def tearDown(self):
        self.is_done.set()
        self.ticking.join()

    def tick(self):
        while not self.is_done.is_set():
            now = time.perf_counter()
            if now - self.ticks[-1] > 1e-5:
                self.ticks.append(now)

    def timed(self, call):
        """When a call begins, and when it ends. No other thread of Python runs between these calls, unless the call
        lets it."""
        started, _, ended = map(operator.call, (time.perf_counter, call, time.perf_counter))
        return started, ended

    def pause_in(self, call):
        """How long a call takes, and the part of this time in which the other thread waits longest."""
        started, ended = self.timed(call)
        times = [started, *(tick for tick in list(self.ticks) if started < tick < ended), ended]
        return ended - started, max(late - early for early, late in zip(times, times[1:])) / (ended - started)

    def test_the_interpreter_runs_meanwhile(self):
        """The other thread goes on in calls that take milliseconds. Since other programs may stop it, some tries are
        allowed."""
        saved, log = self.store.checkpoint(), b"".join(map(bytes, self.items))
        vacuum = self.store.vacuum()
        certificate = self.store.certificate(vacuum.stamp).certificate
        wide, floor = self.wide, self.wide.floor
        pieces = [saved[at : at + 50_000] for at in range(0, len(saved), 50_000)]
        increment = self.store.increment(vacuum.stamp)
        parts = hlcstore.split_checkpoint(saved, b"key 5")
        calls = {
            "accept_all": lambda: Store(1).accept_all(self.items),
            "accept_items": lambda: Store(1).accept_items(log),
            "apply_increment": partial(hlcstore.apply_increment, saved, increment),
            "apply_records": lambda: Store(1).apply_records(log),
            "certificate": partial(self.store.certificate, vacuum.stamp),
            "check": partial(hlcstore.check, certificate),
            "checkpoint": self.store.checkpoint,
            "checkpoint_to": lambda: self.store.checkpoint_to(io.BytesIO()),
            "digest": self.snapshot.digest,
            "increment": partial(wide.increment, stamp(0)),
            "merge_checkpoints": partial(hlcstore.merge_checkpoints, *parts),
            "restore": partial(Store.restore, saved),
            "restore from a piece": partial(Store.restore, [saved]),
            "restore from pieces": partial(Store.restore, pieces),
            "split_checkpoint": partial(hlcstore.split_checkpoint, saved, b"key 5"),
            "vacuum": wide.vacuum,
            "vacuum_part": partial(wide.vacuum_part, floor, limit=100_000),
            "vacuum_to": partial(wide.vacuum_to, floor),
        }
        for name, call in calls.items():
            tries = (self.pause_in(call) for _ in range(30))
            self.assertTrue(any(pause < 0.5 for _, pause in tries), name)

    def test_the_interpreter_runs_while_a_store_is_dropped(self):
        saved = self.wide.checkpoint()

        def pause():
            stores = [Store.restore(saved)]
            return self.pause_in(stores.clear)[1]

        self.assertTrue(any(pause() < 0.5 for _ in range(30)))

    def test_the_interpreter_runs_while_an_output_is_copied(self):
        """The copy is the last part of a call, and short beside the others. If it kept the interpreter, the other
        thread would not run at the end of the call for as long as such a copy takes."""
        store, value = Store(1), bytes(65535)
        store.accept_all([Item.write(0, i, stamp(i + 1), b"%d" % i, value) for i in range(1000)])
        saved, before = store.checkpoint(), time.thread_time()
        copy = bytes(memoryview(saved))
        seconds = time.thread_time() - before
        del copy
        tries = (self.end_without_ticks(store.checkpoint) for _ in range(20))
        self.assertTrue(any(end < seconds / 2 for end in tries), f"{seconds:.3f} s")

    def end_without_ticks(self, call):
        """How long the other thread does not run before a call returns."""
        _, ended = self.timed(call)
        return ended - max(tick for tick in list(self.ticks) if tick < ended)

    def test_the_interpreter_runs_while_a_call_waits(self):
        """One thread always reads. Where a call waits for it, the other thread goes on."""

        def read():
            while not self.is_done.is_set():
                self.snapshot.digest()

        reading = threading.Thread(target=read)
        reading.start()
        self.addCleanup(reading.join)
        tries = (self.pause_in(lambda: self.store.snapshot().close()) for _ in range(300))
        self.assertTrue(any(seconds > 0.003 and pause < 0.5 for seconds, pause in tries))

    def test_readers_let_a_writer_pass(self):
        """Eight threads always read, in turns that overlap. A writer comes to its end."""
        has_written, digest = threading.Event(), self.snapshot.digest()

        def read(number):
            while not has_written.is_set():
                check(self.snapshot.digest() == digest, "the digest")

        def write():
            for reading in range(2, 12):
                self.store.accept(Item.write(1, reading - 1, stamp(reading), b"key", b"value"))
            has_written.set()

        readers = [threading.Thread(target=read, args=(number,)) for number in range(8)]
        for reader in readers:
            reader.start()
        write()
        for reader in readers:
            reader.join()
        self.assertEqual(self.store.link(1).next, 11)


class AtExit(unittest.TestCase):
    def test_threads_that_never_end(self):
        """A program ends, and drops its snapshots, while other threads are in calls that take the store's lock. Such a
        thread never gets the interpreter again."""
        program = """
            import collections
            import io
            import threading
            import time
            import hlcstore

            store, node = hlcstore.Store(1), hlcstore.Node(0)
            store.accept_all([node.write(1, b"%d" % i, bytes(1000)) for i in range(1000)])
            snapshots = [store.snapshot() for _ in range(50)]
            save = lambda: store.checkpoint_to(io.BytesIO())
            for call in (snapshots[0].digest, store.vacuum, store.checkpoint, snapshots[1].count, save):
                forever = iter(call, None)
                threading.Thread(target=collections.deque, args=(forever, 0), daemon=True).start()
            time.sleep(0.1)
        """
        for _ in range(3):
            subprocess.run([sys.executable, "-c", textwrap.dedent(program)], check=True, timeout=60)


if __name__ == "__main__":
    unittest.main()
