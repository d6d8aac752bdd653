"""Batches: items of several writes at one stamp, of which a snapshot shows all or none."""

import copy
import faulthandler
import gc
import os
import pathlib
import pickle
import random
import shutil
import subprocess
import sys
import tempfile
import textwrap
import threading
import unittest

import hlcstore
from hlcstore import BadKey, Batch, CounterFull, Item, KeyTwice, Link, Node, NotNext, NoWrites, NumbersSpent
from hlcstore import ReadingTooLarge, Retired, Stamp, Store, TooManyWrites, ValueTooLong, stamp
from hlcstore.ranges import Division, Machine, Ranges, WrongStore

PAIRS = ((b"city", b"Lyon"), (b"lake", None), (b"a", b""))
TWICE = ((b"a", b"x"), (b"b", None), (b"a", None))


def setUpModule():
    """Threads that wait for each other for good end the tests."""
    faulthandler.dump_traceback_later(120, exit=True)


def tearDownModule():
    faulthandler.cancel_dump_traceback_later()


class Building(unittest.TestCase):
    def test_writes_and_deletions_in_order(self):
        batch = Batch()
        self.assertEqual((len(batch), bool(batch), batch.writes, batch.item), (0, False, (), None))
        batch.write(b"city", b"Lyon")
        batch.delete(b"lake")
        batch.write(key=bytearray(b"a"), value=memoryview(b""))
        self.assertEqual((batch.writes, len(batch), repr(batch)), (PAIRS, 3, f"Batch({PAIRS})"))
        other = Batch()
        other[b"city"] = b"Lyon"
        del other[b"lake"]
        other[memoryview(b"_a_")[1:2]] = bytearray()
        for same in other, Batch(PAIRS), Batch(writes=iter(PAIRS)), Batch(dict(PAIRS).items()), eval(repr(batch)):
            self.assertEqual(same.writes, PAIRS)
        batch.clear()
        self.assertEqual((len(batch), batch.writes), (0, ()))
        batch[b"b"] = b"x" * 65535
        self.assertEqual(batch.writes, ((b"b", b"x" * 65535),))

    def test_a_refused_write_adds_nothing(self):
        batch = Batch(PAIRS)
        for refusal, call, *args in (
            (BadKey, batch.write, b"", b""), (BadKey, batch.write, bytes(256), bytes(65536)),
            (BadKey, batch.delete, b""), (BadKey, batch.__delitem__, bytes(256)),
            (ValueTooLong, batch.write, b"b", bytes(65536)), (ValueTooLong, batch.__setitem__, b"b", bytes(65536)),
            (TypeError, batch.write, "b", b""), (TypeError, batch.write, b"b", None), (TypeError, batch.write, b"b"),
            (TypeError, batch.delete, "b"), (TypeError, batch.delete), (TypeError, batch.__setitem__, b"b", None),
            (TypeError, batch.__setitem__, b"b", "x"), (TypeError, batch.__delitem__, None),
        ):  # fmt: skip
            with self.subTest(args=args[:1]), self.assertRaises(refusal):
                call(*args)
        self.assertEqual(batch.writes, PAIRS)
        for i in range(3, 256):
            batch[b"%d" % i] = b""
        for call in (lambda: batch.write(b"b", b""), lambda: batch.delete(b"b")):
            with self.assertRaises(TooManyWrites) as met:
                call()
        self.assertEqual((met.exception.word, len(batch), len(batch.writes)), (0, 256, 256))
        for writes in (5, None, [None], [b"ab"], [(b"a",)], [(b"a", b"x", 1)], [(b"a", "x")], [["a", b"x"]], {b"a": 1}):
            with self.assertRaises(TypeError, msg=writes):
                Batch(writes)
        with self.assertRaises(BadKey):
            Batch([(b"", None)])
        with self.assertRaises(ZeroDivisionError):
            Batch((b"a", b"%d" % (1 // i)) for i in (1, 0))
        with self.assertRaises(TooManyWrites):
            Batch((b"%d" % i, None) for i in range(257))

    def test_no_more_than_a_builder(self):
        with self.assertRaises(TypeError):
            type("Sub", (Batch,), {})
        with self.assertRaises(TypeError):
            pickle.dumps(Batch())
        with self.assertRaises(TypeError):
            Batch()[b"a"]
        with self.assertRaises(AttributeError):
            Batch().item = None


class Listing(unittest.TestCase):
    class Ring:
        """Garbage that writes to a batch when it is collected."""

        def __init__(self, batch):
            self.itself, self.batch = self, batch

        def __del__(self):
            for _ in range(4):
                self.batch.write(b"new", b"v" * 60_000)

    def test_a_batch_that_grows_meanwhile(self):
        """The list is of the writes at its beginning, wherever garbage is collected."""
        self.addCleanup(gc.set_threshold, *gc.get_threshold())
        pairs = tuple((b"key %03d" % i, b"value %03d" % i) for i in range(60))
        for call, expected in (lambda batch: batch.writes, pairs), (repr, f"Batch({pairs})"):
            for _ in range(20):
                batch = Batch(pairs)
                gc.set_threshold(0)
                self.Ring(batch)
                gc.set_threshold(1, 1, 1)
                self.assertEqual(call(batch), expected)


class Items(unittest.TestCase):
    def test_nodes_issue_them(self):
        node = Node(3, stamp(7))
        for reading, writes in enumerate((Batch(PAIRS), PAIRS, list(PAIRS), iter(PAIRS)), 10):
            item = node.write_batch(reading, batch=writes)
            self.assertEqual(item, Item.batch(3, reading - 10, stamp(reading), PAIRS))
            fields = item.kind, item.node, item.number, item.stamp
            self.assertEqual(fields, ("batch", 3, reading - 10, stamp(reading)))
            self.assertEqual((item.key, item.value, item.writes), (None, None, PAIRS))
        self.assertEqual((node.last, node.next), (stamp(13), 4))
        batch = Batch(PAIRS)
        first, second = node.write_batch(20, batch), node.write_batch(20, batch)
        batch.clear()
        self.assertEqual((first.writes, second.writes, second.stamp), (PAIRS, PAIRS, stamp(20, 1)))
        self.assertIsNone(batch.item)

    def test_writes_of_other_items(self):
        node = Node(0)
        items = node.write(1, b"a", b"x"), node.delete(1, b"b"), node.report(1), node.retire(1)
        self.assertEqual([item.writes for item in items], [((b"a", b"x"),), ((b"b", None),), (), ()])

    def test_items_are_values(self):
        at = stamp(3)
        first, same = (Item.batch(node=1, number=2, stamp=at, writes=writes) for writes in (PAIRS, Batch(PAIRS)))
        self.assertEqual((len({first, same}), repr(first)), (1, f"Item.batch(1, 2, Stamp(3, 0), {PAIRS})"))
        others = [Item.batch(0, 2, at, PAIRS), Item.batch(1, 0, at, PAIRS), Item.batch(1, 2, stamp(0), PAIRS)]
        others += [Item.batch(1, 2, at, PAIRS[:2]), Item.batch(1, 2, at, PAIRS[::-1]), Item.batch(1, 2, at, ())]
        for other in [*others, Item.report(1, 2, at), Item.write(1, 2, at, b"a", b""), PAIRS]:
            self.assertNotEqual(first, other)
        for item in [first, *others, Item.batch(1, 2, at, TWICE)]:
            for protocol in range(2, pickle.HIGHEST_PROTOCOL + 1):
                self.assertEqual(pickle.loads(pickle.dumps(item, protocol)), item)
            self.assertEqual((copy.copy(item), copy.deepcopy(item), eval(repr(item))), (item, item, item))

    def test_their_bytes(self):
        """Each field has a value of its own, the high byte first, and the number of writes is one more."""
        head = bytes.fromhex("01 0002 0000000000000003 0000000000050004 03")
        encoded = head + bytes.fromhex("01 01 6b 01 0002 7676 02 6b6b 00")
        item = Item.batch(2, 3, stamp(5, 4), [(b"k", b"vv"), (b"kk", None)])
        self.assertEqual((bytes(item), Item.decode(encoded)), (encoded, (item, len(encoded))))
        self.assertEqual(Item.decode(b"before" + encoded + b"after", 6), (item, 6 + len(encoded)))
        longest = Item.batch(0, 0, stamp(1), [(bytes([i]) * 255, bytes(65535)) for i in range(256)])
        self.assertEqual(len(bytes(longest)), 16843285)
        self.assertEqual(Item.decode(bytes(longest))[0], longest)
        store = Store(1)
        self.assertEqual((store.accept_items(bytes(longest)), store.rows), (1, 256))
        self.assertEqual(tuple(store.snapshot().items()), longest.writes)

    def test_bad_bytes_have_the_fault_that_the_library_finds(self):
        encoded = bytes(Item.batch(0, 0, stamp(1), PAIRS))
        changes = [encoded[:length] for length in range(1, len(encoded))]
        for place in range(len(encoded)):
            changes += [encoded[:place] + bytes([byte]) + encoded[place + 1 :] for byte in b"\0\1\2\3\4\xffac"]
        for changed in changes:
            try:
                Store(1).accept_items(changed)
                found = None
            except hlcstore.Error as refused:
                found = refused
            if isinstance(found, hlcstore.BadBytes) and found.used == 0:
                with self.assertRaises(hlcstore.BadBytes) as met:
                    Item.decode(changed)
                self.assertEqual(met.exception.word, found.word, changed)
            elif isinstance(found, KeyTwice):
                with self.assertRaises(KeyTwice):
                    bytes(Item.decode(changed)[0])
            else:
                item, end = Item.decode(changed)
                self.assertEqual(bytes(item), changed[:end])

    def test_nodes_refuse(self):
        node = Node(0)
        for refusal, reading, writes in (
            (NoWrites, 1, ()), (NoWrites, 2**48, Batch()), (KeyTwice, 1, TWICE), (KeyTwice, 2**48, Batch(TWICE)),
            (ReadingTooLarge, 2**48, PAIRS), (BadKey, 1, [(b"", None)]), (ValueTooLong, 1, [(b"a", bytes(65536))]),
            (TooManyWrites, 1, [(b"%d" % i, b"") for i in range(257)]), (TypeError, 1, None), (TypeError, 1, [1]),
            (TypeError, None, PAIRS), (OverflowError, -1, PAIRS),
        ):  # fmt: skip
            with self.subTest(refusal=refusal), self.assertRaises(refusal):
                node.write_batch(reading, writes)
        self.assertEqual((node.last, node.next), (0, 0))
        full = stamp(5, 65535)
        with self.assertRaises(CounterFull) as met:
            Node(0, full).write_batch(5, PAIRS)
        self.assertEqual(met.exception.word, full)
        with self.assertRaises(NumbersSpent):
            Node.restore(0, Stamp.from_number(2**64 - 1), 2**64 - 1).write_batch(1, PAIRS)
        node.retire(1)
        with self.assertRaises(Retired):
            node.write_batch(2, ())


class Blocks(unittest.TestCase):
    def test_the_end_issues_the_item(self):
        node = Node(0)
        with node.batch(5) as batch:
            self.assertEqual((batch.item, len(batch)), (None, 0))
            batch[b"k"] = b"v"
            del batch[b"j"]
            batch.write(b"i", b"")
            self.assertEqual((node.next, node.last), (0, 0))
        self.assertEqual(batch.item, Item.batch(0, 0, stamp(5), [(b"k", b"v"), (b"j", None), (b"i", b"")]))
        self.assertEqual((node.next, node.last), (1, stamp(5)))
        store = Store(1)
        store.accept(batch.item)
        self.assertEqual(dict(store.snapshot().items()), {b"k": b"v", b"i": b""})

    def test_a_block_that_raises_issues_nothing(self):
        node = Node(0)
        for kind in ZeroDivisionError, KeyboardInterrupt, GeneratorExit:
            with self.assertRaises(kind), node.batch(5) as batch:
                batch[b"a"] = b"x"
                raise kind
            self.assertEqual((batch.item, node.next, node.last, batch.writes), (None, 0, 0, ((b"a", b"x"),)))
        with self.assertRaises(BadKey), node.batch(5) as batch:
            batch[b"a"] = b"x"
            batch[b""] = b"y"
        self.assertEqual((batch.item, node.next), (None, 0))
        for _ in range(3):
            with node.batch(6) as batch:
                batch[b"a"] = b"x"
                break
        self.assertEqual((batch.item.number, node.next), (0, 1))

    def test_a_refused_item(self):
        node = Node(0)
        with self.assertRaises(KeyTwice), node.batch(5) as batch:
            batch[b"a"] = batch[b"a"] = b"x"
        self.assertEqual((batch.item, node.next), (None, 0))
        with self.assertRaises(NoWrites), node.batch(5):
            pass
        with self.assertRaises(ReadingTooLarge), node.batch(2**48) as batch:
            batch[b"a"] = b"x"
        with self.assertRaises(Retired), node.batch(5) as batch:
            batch[b"a"] = b"x"
            node.retire(4)
        self.assertEqual((batch.item, node.next), (None, 1))
        for call, *args in (node.batch, None), (node.batch,), (node.batch, 1, 2), (node.batch, "1"):
            with self.assertRaises(TypeError):
                call(*args)
        with self.assertRaises(OverflowError):
            node.batch(-1)

    def test_nested_blocks_of_one_node(self):
        """The item of the inner block comes first, and that of the outer one is above it."""
        node, store = Node(0), Store(1)
        with node.batch(5) as outer:
            outer[b"a"] = b"outer"
            outer[b"b"] = b"outer"
            with node.batch(9) as inner:
                inner[b"b"] = b"inner"
                inner[b"c"] = b"inner"
            store.accept(inner.item)
            with self.assertRaises(ZeroDivisionError), node.batch(9) as lost:
                lost[b"d"] = b"lost"
                1 // 0
            outer[b"c"] = b"outer"
        self.assertEqual((inner.item.number, inner.item.stamp), (0, stamp(9)))
        self.assertEqual((outer.item.number, outer.item.stamp, lost.item), (1, stamp(9, 1), None))
        store.accept(outer.item)
        self.assertEqual(dict(store.snapshot().items()), dict.fromkeys((b"a", b"b", b"c"), b"outer"))
        self.assertEqual(dict(store.snapshot(stamp(9)).items()), dict.fromkeys((b"b", b"c"), b"inner"))

    def test_a_batch_is_issued_once(self):
        node = Node(0)
        with node.batch(5) as batch:
            batch[b"a"] = b"x"
        for call in (lambda: batch.write(b"b", b""), lambda: batch.delete(b"b"), batch.__enter__):
            with self.assertRaises(ValueError):
                call()
        batch.__exit__(None, None, None)
        self.assertEqual((batch.item.number, node.next, batch.writes), (0, 1, ((b"a", b"x"),)))
        with self.assertRaises(TypeError), Batch(PAIRS):
            self.fail("the batch is of no node")
        # A block that raised can be gone through again, with what was written.
        again = node.batch(6)
        with self.assertRaises(ZeroDivisionError), again:
            again[b"a"] = b"y"
            1 // 0
        with again:
            again[b"b"] = b"y"
        self.assertEqual(again.item, Item.batch(0, 1, stamp(6), [(b"a", b"y"), (b"b", b"y")]))


class Feeding(unittest.TestCase):
    def test_each_call_accepts_all_writes(self):
        first, item = Item.write(0, 0, stamp(1), b"lake", b"old"), Item.batch(0, 1, stamp(2), PAIRS)
        for accept in (
            lambda store: store.accept(item),
            lambda store: store.accept_all([item]),
            lambda store: store.accept_items(bytes(item) * 2),
            lambda store: store.apply_records(bytes(item) * 2),
            lambda store: store.accept_batch(0, 1, stamp(2), PAIRS),
            lambda store: store.accept_batch(node=0, number=1, stamp=stamp(2), writes=Batch(PAIRS)),
        ):
            store = Store(1)
            store.accept(first)
            self.assertIsNone(store.check_item(item))
            self.assertIsNone(store.check_batch(0, 1, stamp(2), iter(PAIRS)))
            accept(store)
            self.assertEqual((store.rows, store.floor, store.link(0)), (4, stamp(2), Link(2, stamp(2), False)))
            self.assertEqual(dict(store.snapshot().items()), {b"city": b"Lyon", b"a": b""})
            self.assertEqual(dict(store.snapshot(stamp(1)).items()), {b"lake": b"old"})
            for key, value in PAIRS:
                self.assertEqual(store.versions(key, above=stamp(1)), [hlcstore.Version(stamp(2), 0, value)])
            with Store.restore(store.checkpoint()) as same:
                self.assertEqual(same.snapshot().digest(), store.snapshot().digest())

    def test_refusals_in_order(self):
        store = Store(1)
        store.accept(Item.batch(0, 0, stamp(5), [(b"a", None)]))
        for refusal, word, item in (
            (hlcstore.NoNode, 0, Item.batch(1, 1, stamp(6), ())), (NotNext, 1, Item.batch(0, 0, stamp(6), TWICE)),
            (NotNext, 1, Item.batch(0, 2, stamp(6), PAIRS)), (NoWrites, 0, Item.batch(0, 1, stamp(6), ())),
            (hlcstore.StampNotRising, stamp(5), Item.batch(0, 1, stamp(5), TWICE)),
            (KeyTwice, 0, Item.batch(0, 1, stamp(6), TWICE)),
        ):  # fmt: skip
            parts = item.node, item.number, item.stamp, item.writes
            for call, *args in (
                (store.accept, item), (store.check_item, item), (store.accept_batch, *parts),
                (store.check_batch, *parts), (store.accept_all, [item]),
            ):  # fmt: skip
                with self.subTest(refusal=refusal, call=call), self.assertRaises(refusal) as met:
                    call(*args)
                self.assertEqual((met.exception.word, met.exception.accepted), (word, 0))
        for refusal, item in (NoWrites, Item.batch(0, 1, stamp(6), ())), (KeyTwice, Item.batch(0, 1, stamp(6), TWICE)):
            with self.assertRaises(refusal):
                bytes(item)
        two = Item.batch(0, 2, stamp(7), [(b"a", None), (b"b", None)])
        log = bytearray(bytes(Item.report(0, 1, stamp(6))) + bytes(two))
        log[-2:-1] = b"a"
        for call in store.accept_items, store.apply_records:
            with self.assertRaises(KeyTwice) as met:
                call(log)
            self.assertEqual((met.exception.accepted, met.exception.used), (1, 20))
        self.assertEqual((store.rows, store.floor), (1, stamp(6)))
        store.accept_retire(0, 2, stamp(7))
        for call in store.accept, store.check_item:
            with self.assertRaises(Retired):
                call(Item.batch(0, 3, stamp(8), TWICE))
        store.close()
        for call, *args in (
            (store.accept, item), (store.check_item, item), (store.accept_batch, 0, 3, stamp(9), TWICE),
            (store.check_batch, 0, 3, stamp(9), ()),
        ):  # fmt: skip
            with self.assertRaises(hlcstore.Closed):
                call(*args)
        for call, *args in (
            (store.accept_batch, 0, 3, stamp(9)), (store.accept_batch, 0, 3, stamp(9), None),
            (store.check_batch, 0, 3, stamp(9), [1]), (Item.batch, 0, 3, stamp(9)), (Item.batch, 0, 3, stamp(9), "ab"),
        ):  # fmt: skip
            with self.assertRaises(TypeError):
                call(*args)
        with self.assertRaises(OverflowError):
            Item.batch(65536, 0, stamp(0), PAIRS)


class Histories(unittest.TestCase):
    """Nodes issue items at random, most of them batches, which are on their way for a time. Snapshots open at random
    stamps, and have the newest of all writes issued at or below them: of each batch all writes or none."""

    def issue(self, event):
        node, queue = self.pick.choice(self.nodes)
        reading, keys = event // 5 + 3 * (node.id % 2), [b"%d" % i * self.pick.choice((1, 40)) for i in range(9)]
        chance = self.pick.random()
        if chance < 0.6:
            some = self.pick.sample(keys, self.pick.randrange(1, 6))
            writes = [(key, self.pick.choice((None, b"%d" % event * 9, b""))) for key in some]
            item = node.write_batch(reading, writes)
        elif chance < 0.9:
            item = node.write(reading, self.pick.choice(keys), b"%d" % event)
        else:
            item = node.report(reading)
        for key, value in item.writes:
            self.writes.setdefault(key, []).append((item.stamp, item.node, value))
        self.stamps.append(item.stamp)
        queue.append(item)

    def deliver(self, store):
        _, queue = self.pick.choice(self.nodes)
        items = [queue.pop(0) for _ in range(min(len(queue), self.pick.randrange(8)))]
        way = self.pick.randrange(4)
        if way == 0:
            store.accept_all(items)
        elif way == 1:
            store.accept_items(b"".join(map(bytes, items)))
        elif way == 2:
            store.apply_records(b"".join(map(bytes, items)))
        else:
            for item in items:
                store.check_item(item)
                store.accept(item)

    def at(self, cut):
        newest = {key: max((w[:2], w[2] or b"", w[2]) for w in all if w[0] <= cut)
                  for key, all in self.writes.items() if any(w[0] <= cut for w in all)}  # fmt: skip
        return sorted((key, write[2]) for key, write in newest.items() if write[2] is not None)

    def stamp_within(self, store):
        return self.pick.choice([at for at in self.stamps if store.horizon <= at <= store.floor] or [store.floor])

    def play(self, nodes, seed):
        self.pick, self.writes, self.stamps = random.Random(seed), {}, [Stamp(0)]
        self.nodes, store, opened = [(Node(i), []) for i in range(nodes)], Store(nodes), []
        for event in range(1, 1500):
            chance = self.pick.randrange(8)
            if chance < 4:
                self.issue(event)
            elif chance < 6:
                self.deliver(store)
            elif chance == 6:
                opened.append(store.snapshot(self.stamp_within(store)))
                self.assertEqual(list(opened[-1].items()), self.at(opened[-1].stamp))
            elif event % 3 == 0:
                store.vacuum_to(self.stamp_within(store))
            else:
                del opened[5:]
            if opened:
                self.assertEqual(list(opened[0].items()), self.at(opened[0].stamp))
        with Store.restore(store.checkpoint()) as same:
            for snapshot in opened:
                self.assertEqual(list(same.snapshot_by_id(snapshot.id).items()), self.at(snapshot.stamp))

    def test_at_random(self):
        for nodes, seed in (1, 3), (2, 5), (3, 7), (4, 11):
            with self.subTest(nodes=nodes, seed=seed):
                self.play(nodes, seed)


class Threads(unittest.TestCase):
    """Each thread writes all keys of a group at a time, with one value, or deletes them all."""

    GROUPS = [[b"%d of %d" % (i, group) for i in range(5)] for group in range(5)]

    def run_all(self, works):
        wrong = []

        def guarded(work):
            try:
                work()
            except BaseException as error:
                wrong.append(error)
                raise

        threads = [threading.Thread(target=guarded, args=(work,)) for work in works]
        for thread in threads:
            thread.start()
        for thread in threads:
            thread.join()
        self.assertEqual(wrong, [])

    def feed(self, store, number):
        node, pick = Node(number), random.Random(number)
        for reading in range(1, 1500):
            value = None if pick.random() < 0.2 else b"%d of node %d" % (reading, number) * pick.randrange(1, 20)
            with node.batch(reading) as batch:
                for key in pick.choice(self.GROUPS):
                    batch.delete(key) if value is None else batch.write(key, value)
            store.accept(batch.item)
            if reading % 100 == 0:
                store.vacuum()

    def compare(self, snapshot):
        listed = dict(snapshot.items())
        for keys in self.GROUPS:
            found = [snapshot.get(key) for key in keys]
            if len(set(found)) != 1 or [listed.get(key) for key in keys] != found or snapshot.read_all(keys) != found:
                raise AssertionError(f"a part at {snapshot.stamp}: {found}")

    def look(self, store, running):
        while True:
            is_last = not running
            with store.snapshot() as snapshot:
                self.compare(snapshot)
                try:
                    with store.snapshot(max(snapshot.stamp, stamp(3)) - (3 << 16)) as older:
                        self.compare(older)
                except hlcstore.BelowHorizon:
                    pass
                self.compare(snapshot)
            if is_last:
                return

    def test_no_reader_sees_a_part(self):
        store, running = Store(3), [0, 1, 2]

        def feed(number):
            try:
                self.feed(store, number)
            finally:
                running.pop()

        feeds = [lambda i=i: feed(i) for i in range(3)]
        self.run_all(feeds + [lambda: self.look(store, running)] * 3)
        self.assertEqual((store.floor, store.snapshots()), (stamp(1499), []))

    def test_one_batch_of_many_threads(self):
        """Each write is there once, in the order of its thread."""
        batch = Batch()
        self.run_all([lambda i=i: [batch.write(b"%d %02d" % (i, j), b"%d" % j) for j in range(60)] for i in range(4)])
        self.assertEqual((len(batch), len(set(batch.writes))), (240, 240))
        for i in range(4):
            of_thread = [key for key, _ in batch.writes if key.startswith(b"%d " % i)]
            self.assertEqual(of_thread, sorted(of_thread))


class Several(unittest.TestCase):
    LETTERS = Division.by_keys([b"g", b"n", b"t"])

    def test_machines_issue_batches_for_one_store(self):
        machine = Machine(self.LETTERS, 2)
        writes = [(b"h", b"x"), (b"mm", None), (b"g", b"")]
        self.assertEqual(machine.write_batch(5, writes), (1, Item.batch(2, 0, Stamp(5), writes)))
        second = machine.write_batch(reading=5, batch=Batch(writes))
        self.assertEqual(second, (1, Item.batch(2, 1, Stamp(5, 1), writes)))
        other = [(b"z", None)]
        self.assertEqual(machine.write_batch(5, iter(other)), (3, Item.batch(2, 0, Stamp(5, 2), other)))
        for refusal, wrong in (WrongStore, [*writes, (b"n", b"")]), (NoWrites, ()), (KeyTwice, writes * 2):
            with self.assertRaises(refusal):
                machine.write_batch(6, wrong)
        self.assertEqual(machine.last, Stamp(5, 2))
        self.assertEqual(machine.write_batch(6, writes)[1].number, 2)

    def test_stores_accept_batches_of_their_keys(self):
        with Ranges(self.LETTERS, 1) as stores:
            machine = stores.machine(0)
            writes = [(b"h", b"x"), (b"i", b"y"), (b"g", None)]
            self.assertEqual(stores.write_batch(machine, 5, writes), Stamp(5))
            self.assertEqual(stores.write_batch(machine, 6, Batch([(b"a", b"z"), (b"b", b"")])), Stamp(6))
            wrong = [(b"h", b"new"), (b"z", b"new")]
            for refusal, bad in (WrongStore, wrong), (NoWrites, ()), (KeyTwice, writes * 2):
                with self.assertRaises(refusal):
                    stores.write_batch(machine, 7, bad)
            self.assertEqual((machine.last, stores.rows), (Stamp(6), 5))
            for store in range(4):
                with self.assertRaises(WrongStore):
                    stores.accept(store, Item.batch(0, 1, Stamp(7), wrong))
            store, lost = machine.write_batch(8, writes)
            with self.assertRaises(NotNext):
                stores.write_batch(machine, 9, writes)
            self.assertEqual(machine.last, Stamp(8))
            stores.accept(store, lost)
            stores.report_all(machine, 20)
            with stores.snapshot(Stamp(5)) as old, stores.snapshot() as new:
                self.assertEqual(dict(old.items()), {b"h": b"x", b"i": b"y"})
                self.assertEqual(dict(new.items()), {b"a": b"z", b"b": b"", b"h": b"x", b"i": b"y"})
            with self.assertRaises(WrongStore):
                stores.write_batch(Machine(Division.by_hash(1), 0), 9, [(b"a", None)])


# A program that runs under it refuses one request for memory, of its own or of the library, after so many others.
REFUSING = r"""
#include <stddef.h>
void *__libc_malloc(size_t size);
void *__libc_calloc(size_t many, size_t size);
void *__libc_realloc(void *place, size_t size);
static __thread long left = -1;
void refuse_at(long number) { left = number; }
int is_left(void)
{
    int is_one_left = left >= 0;
    left = -1;
    return is_one_left;
}
static int is_refused(void) { return left >= 0 && left-- == 0; }
void *malloc(size_t size) { return is_refused() ? NULL : __libc_malloc(size); }
void *calloc(size_t many, size_t size) { return is_refused() ? NULL : __libc_calloc(many, size); }
void *realloc(void *place, size_t size) { return is_refused() ? NULL : __libc_realloc(place, size); }
"""


needs_compiler = unittest.skipUnless(
    sys.platform == "linux" and shutil.which("cc"), "needs a C compiler, and the library of GNU"
)


def refusing_library(folder):
    """Compiles that into a folder, and returns its path."""
    library = str(pathlib.Path(folder, "refusing.so"))
    words = ["cc", "-shared", "-fPIC", "-O1", "-x", "c", "-", "-o", library]
    subprocess.run(words, input=REFUSING, text=True, check=True)
    return library


class OutOfMemory(unittest.TestCase):
    def run_program(self, program, **environment):
        words = [sys.executable, "-c", textwrap.dedent(program)]
        done = subprocess.run(words, capture_output=True, text=True, timeout=100, env={**os.environ, **environment})
        self.assertEqual((done.stdout, done.stderr), ("all right\n", ""))

    def test_a_store_without_memory_has_whole_batches(self):
        self.run_program("""
            import resource
            import hlcstore

            node, store, value = hlcstore.Node(0), hlcstore.Store(1), bytes(65535)
            items = [node.write_batch(1, [(b"%d" % i, value) for i in range(5)]) for _ in range(600)]
            pages = int(open("/proc/self/statm").read().split()[0])
            limit = pages * resource.getpagesize() + 2**26
            resource.setrlimit(resource.RLIMIT_AS, (limit, resource.RLIM_INFINITY))
            accepted = 0
            try:
                while accepted < len(items):
                    store.accept(items[accepted])
                    accepted += 1
            except hlcstore.NoMemory as refused:
                code = refused.code
            resource.setrlimit(resource.RLIMIT_AS, (resource.RLIM_INFINITY, resource.RLIM_INFINITY))
            assert code == 15 and 0 < accepted < len(items)
            assert (store.link(0).next, store.rows) == (accepted, 5 * accepted)
            assert store.accept_all(items[accepted:]) == len(items) - accepted
            assert dict(store.snapshot().items()) == {b"%d" % i: value for i in range(5)}
            print("all right")
        """)

    @needs_compiler
    def test_each_request_is_refused_in_turn(self):
        """Of Python and of the library: after each refusal the item is issued and accepted, or nothing has changed."""
        with tempfile.TemporaryDirectory() as folder:
            library = refusing_library(folder)
            program = """
                import ctypes
                import hlcstore
                from hlcstore import Batch, Item, Node, Stamp, Store

                refusing = ctypes.CDLL(None)
                old = [(b"a long key that needs memory, %d" % i, b"old") for i in range(3)]
                new = [(b"a long key that needs memory, %d" % i, b"v" * 400 if i != 4 else None) for i in range(1, 6)]
                first = Item.batch(0, 0, Stamp(0, 1), old)
                expected = {**dict(old), **dict(new)}
                del expected[new[3][0]]

                def accept(store, node):
                    store.accept(node.write_batch(9, new))

                def accept_block(store, node):
                    with node.batch(9) as batch:
                        for key, value in new:
                            batch.delete(key) if value is None else batch.write(key, value)
                    store.accept_items(bytes(batch.item))

                for call in accept, accept_block:
                    refused, unchanged = 0, 0
                    for number in range(5000):
                        store, node = Store(1), Node(0, Stamp(0, 1))
                        node.write(1, b"a", b"")
                        store.accept(first)
                        before = store.checkpoint()
                        try:
                            refusing.refuse_at(number)
                            call(store, node)
                            is_over = refusing.is_left()
                        except MemoryError:
                            is_over = False
                            refused += 1
                        assert node.next in (1, 2) and store.link(0).next in (1, 2), number
                        if store.link(0).next == 1:
                            assert store.checkpoint() == before, number
                            unchanged += 1
                        else:
                            assert store.rows == 8 and dict(store.snapshot().items()) == expected, number
                        if is_over:
                            break
                    # Of five keys at least three are new, and four values are.
                    assert is_over and 7 <= unchanged <= refused, (is_over, unchanged, refused)
                print("all right")
            """
            for allocator in "malloc", "pymalloc":
                self.run_program(program, LD_PRELOAD=library, PYTHONMALLOC=allocator)


if __name__ == "__main__":
    unittest.main()
