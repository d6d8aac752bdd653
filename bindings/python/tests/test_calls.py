"""Each call of the package, and what it takes and returns."""

import copy
import doctest
import hashlib
import importlib.metadata
import io
import pickle
import struct
import subprocess
import sys
import textwrap
import tracemalloc
import unittest
from unittest import mock

import hlcstore
from hlcstore import Certified, Checked, Item, Link, Node, Sizes, Stamp, Store, Vacuum, VacuumPart, Version
from hlcstore import split, stamp


def filled(pairs):
    """Returns a store of one node with these pairs, and the node."""
    store, node = Store(1), Node(0)
    for reading, (key, value) in enumerate(pairs, 1):
        store.accept(node.write(reading, key, value))
    return store, node


def digest_of(pairs):
    """The digest that a snapshot with these pairs has."""
    parts = (struct.pack("<Q", len(part)) + part for pair in pairs for part in pair)
    return hashlib.sha256(b"".join(parts)).digest()


def run(program):
    """Runs a program in a process of its own. Returns what it prints, its errors, and its status."""
    words = [sys.executable, "-c", textwrap.dedent(program)]
    done = subprocess.run(words, capture_output=True, text=True, timeout=60)
    return done.stdout, done.stderr, done.returncode


class Items(unittest.TestCase):
    def test_nodes_issue_items(self):
        node = Node(3, stamp(7))
        self.assertEqual((node.id, node.last, node.next, node.retired), (3, stamp(7), 0, False))
        write, delete = node.write(10, b"city", b"Lyon"), node.delete(reading=10, key=b"city")
        report, retire = node.report(11), node.retire(12)
        self.assertEqual(write, Item.write(3, 0, stamp(10), b"city", b"Lyon"))
        self.assertEqual(delete, Item.delete(3, 1, stamp(10, 1), b"city"))
        self.assertEqual(report, Item.report(3, 2, stamp(11)))
        self.assertEqual(retire, Item.retire(3, 3, stamp(12)))
        self.assertEqual((node.last, node.next, node.retired), (stamp(12), 4, True))
        self.assertEqual([item.kind for item in (write, delete, report, retire)], "write delete report retire".split())
        fields = (write.node, write.number, write.stamp, write.key, write.value)
        self.assertEqual(fields, (3, 0, stamp(10), b"city", b"Lyon"))
        self.assertEqual((delete.key, delete.value, report.key, report.value), (b"city", None, None, None))

    def test_items_are_values(self):
        at = stamp(3)
        first, same = (Item.write(node=1, number=2, stamp=at, key=b"a", value=b"x") for _ in range(2))
        self.assertEqual(len({first, same}), 1)
        others = [Item.write(0, 2, at, b"a", b"x"), Item.write(1, 0, at, b"a", b"x"), Item.write(1, 2, at, b"b", b"x")]
        others += [Item.write(1, 2, stamp(0), b"a", b"x"), Item.write(1, 2, at, b"a", b"y")]
        others += [Item.write(1, 2, at, b"ax", b"")]
        others += [Item.delete(1, 2, at, b"a"), Item.report(1, 2, at), Item.retire(1, 2, at), (1, 2, at, b"a", b"x")]
        for other in others:
            self.assertNotEqual(first, other)
        self.assertEqual(repr(first), "Item.write(1, 2, Stamp(3, 0), b'a', b'x')")
        self.assertEqual([repr(other)[:11] for other in others[-4:-1]], ["Item.delete", "Item.report", "Item.retire"])
        with self.assertRaises(AttributeError):
            first.stamp = 4

    def test_items_are_read_from_their_bytes(self):
        """Each field has a value of its own, the high byte first."""
        encoded = bytes.fromhex("01 0002 0000000000000003 0000000000050004 00 01 6b 01 0002 7676")
        item = Item.write(2, 3, stamp(5, 4), b"k", b"vv")
        self.assertEqual((bytes(item), Item.decode(encoded)), (encoded, (item, len(encoded))))
        log, at = b"".join(map(bytes, self.each_kind())), 0
        for item in self.each_kind():
            self.assertEqual(Item.decode(log, at), (item, at + len(bytes(item))))
            at = Item.decode(bytearray(log), at=at)[1]
        self.assertEqual(at, len(log))
        for at in len(log), len(log) + 1, 2**64 - 1:
            with self.assertRaises(hlcstore.BadBytes) as met:
                Item.decode(log, at)
            self.assertEqual(met.exception.word, 1)

    def each_kind(self):
        key, value = b"k" * 255, bytes(65535)
        items = [Item.write(0, 0, stamp(1), b"a", b"x"), Item.write(0, 1, stamp(2), key, value)]
        items += [Item.write(0, 2, stamp(3), b"b", b""), Item.delete(0, 3, stamp(4), key), Item.report(0, 4, stamp(5))]
        items.append(Item.batch(0, 5, stamp(6), [(key, value), (b"b", None)]))
        return [*items, Item.retire(0, 6, Stamp.from_number(2**64 - 1))]

    def test_bad_bytes_have_the_fault_that_the_library_finds(self):
        for item in self.each_kind():
            encoded = bytes(item)
            changes = [encoded[:length] for length in range(1, min(len(encoded), 300))]
            for place in range(min(len(encoded), 30)):
                changes += [encoded[:place] + bytes([byte]) + encoded[place + 1 :] for byte in (0, 1, 2, 3, 254, 255)]
            for changed in changes:
                self.compare_faults(changed)

    def compare_faults(self, log):
        try:
            Store(1).accept_items(log)
            fault = 0
        except hlcstore.BadBytes as refused:
            fault = refused.word if refused.used == 0 else 0
        except hlcstore.Error:
            fault = 0
        if fault:
            with self.assertRaises(hlcstore.BadBytes) as met:
                Item.decode(log)
            self.assertEqual(met.exception.word, fault, log)
        else:
            item, end = Item.decode(log)
            self.assertEqual(bytes(item), log[:end])

    def test_logs_are_read_where_they_are(self):
        item = Item.report(1, 2, stamp(3))
        log = bytearray(bytes(item) + bytes(2**20))
        tracemalloc.start()
        try:
            self.assertEqual(Item.decode(log), (item, 20))
            self.assertLess(tracemalloc.get_traced_memory()[1], 2**16)
        finally:
            tracemalloc.stop()
        doubled = bytes(byte for byte in bytes(item) for _ in range(2))
        self.assertEqual(Item.decode(memoryview(doubled)[::2]), (item, 20))
        log.clear()

    def test_items_are_pickled_and_copied(self):
        for item in [*self.each_kind(), Item.write(0, 0, stamp(0), b"", bytes(70_000))]:
            for protocol in range(2, pickle.HIGHEST_PROTOCOL + 1):
                self.assertEqual(pickle.loads(pickle.dumps(item, protocol)), item)
            self.assertEqual((copy.copy(item), copy.deepcopy(item)), (item, item))

    def test_clocks(self):
        sender, receiver = Node(0), Node(1)
        sent = sender.send(12)
        self.assertEqual((sent, receiver.receive(sent, 11)), (stamp(12), stamp(12, 1)))
        receiver.raise_to(stamp(20, 5))
        receiver.raise_to(stamp(3))
        self.assertEqual((receiver.last, receiver.next, receiver.send(1)), (stamp(20, 5), 0, stamp(20, 6)))
        again = Node.restore(id=receiver.id, last=receiver.last, next=7)
        self.assertEqual((again.id, again.last, again.next), (1, stamp(20, 6), 7))
        self.assertEqual(repr(again), f"<Node 1, last={stamp(20, 6)}, next=7>")


class Feeding(unittest.TestCase):
    def setUp(self):
        self.node, self.other = Node(0), Node(1)
        self.items = [
            self.node.write(1, b"a", b"x"),
            self.node.delete(2, b"b"),
            self.node.report(3),
            self.other.write(3, b"a", bytes(65535)),
            self.other.retire(4),
        ]

    def assert_fed(self, store):
        self.assertEqual((store.floor, store.rows, store.nodes, store.horizon), (stamp(3), 3, 2, 0))
        self.assertEqual(store.sizes, Sizes(rows=3, keys=2, key_bytes=2, value_bytes=65536))
        self.assertEqual(store.link(0), Link(3, stamp(3), False))
        self.assertEqual(store.link(1), Link(2, stamp(4), True))
        self.assertEqual(store.floor_node(), 0)
        with store.snapshot() as snapshot:
            self.assertEqual(dict(snapshot.items()), {b"a": bytes(65535)})

    def test_one_by_one(self):
        store = Store(2)
        for item in self.items:
            store.check_item(item)
            self.assertIsNone(store.accept(item))
        self.assert_fed(store)

    def test_by_their_parts(self):
        store = Store(nodes=2)
        for item in self.items:
            parts = [part for part in (item.key, item.value) if part is not None]
            if item.kind != "retire":
                getattr(store, "check_" + item.kind)(item.node, item.number, item.stamp, *parts)
            getattr(store, "accept_" + item.kind)(item.node, item.number, item.stamp, *parts)
        self.assert_fed(store)

    def test_all_at_once(self):
        store = Store(2)
        self.assertEqual(store.accept_all(iter(self.items)), 5)
        self.assertEqual(store.accept_all([]), 0)
        self.assert_fed(store)
        with self.assertRaises(hlcstore.NotNext) as met:
            Store(2).accept_all([self.items[0], self.items[3], self.items[2]])
        self.assertEqual((met.exception.accepted, met.exception.used, met.exception.word), (2, 0, 1))

    def test_as_bytes(self):
        log = b"".join(bytes(item) for item in self.items)
        for kind in bytes, bytearray, memoryview:
            store = Store(2)
            self.assertEqual(store.accept_items(kind(log)), 5)
            self.assertEqual(store.accept_items(kind(log)), 5)
            self.assert_fed(store)
        store, first = Store(2), len(bytes(self.items[0]))
        with self.assertRaises(hlcstore.BadBytes) as met:
            store.accept_items(log[: first + 5])
        self.assertEqual((met.exception.accepted, met.exception.used, met.exception.word), (1, first, 1))
        self.assertEqual(store.accept_items(log[first:]), 4)
        self.assert_fed(store)

    def test_records(self):
        first, *rest = map(bytes, self.items)
        log = first + hlcstore.threshold_record(stamp(2)) + hlcstore.join_record(2, stamp(9)) + b"".join(rest)
        self.assertEqual(hlcstore.join_record(node=2, start=stamp(0, 9)), b"\2\0\2" + bytes(7) + b"\x09")
        self.assertEqual(hlcstore.threshold_record(stamp(1)), b"\3\0\0\0\0\0\1\0\0")
        store = Store(2)
        for kind in bytes, bytearray, memoryview:
            self.assertEqual(store.apply_records(kind(log)), hlcstore.Applied(7, stamp(2)))
        self.assertEqual((store.nodes, store.link(2).head), (3, stamp(9)))
        with self.assertRaises(hlcstore.BadBytes) as met:
            Store(2).apply_records(log[: len(first) + 9 + 3])
        error = met.exception
        self.assertEqual((error.accepted, error.used, error.threshold, error.word), (2, len(first) + 9, stamp(2), 1))
        with self.assertRaises(hlcstore.NotNext) as met:
            store.apply_records(hlcstore.join_record(4, stamp(9)))
        self.assertEqual((met.exception.word, store.nodes), (3, 3))
        with self.assertRaises(OverflowError):
            hlcstore.join_record(1 << 16, stamp(0))

    def test_nodes_join(self):
        store, node = filled([(b"a", b"x")])
        joined = store.join()
        self.assertEqual((joined.id, joined.last, joined.next), (1, stamp(1), 0))
        store.accept(joined.write(1, b"a", b"y"))
        store.accept(node.report(9))
        later = store.join_at(stamp(12))
        self.assertEqual((later.id, later.last, store.nodes), (2, stamp(12), 3))


class Snapshots(unittest.TestCase):
    def test_a_snapshot_is_a_mapping(self):
        store, node = filled([(b"city", b"Lyon"), (b"lake", b"")])
        with store.snapshot() as snapshot:
            store.accept(node.write(9, b"town", b"Ulm"))
            self.assertEqual((snapshot[b"city"], snapshot[b"lake"]), (b"Lyon", b""))
            with self.assertRaises(KeyError):
                snapshot[b"town"]
            self.assertEqual((snapshot.get(b"city"), snapshot.get(b"town"), snapshot.get(b"a", 7)), (b"Lyon", None, 7))
            self.assertTrue(b"lake" in snapshot and b"town" not in snapshot)
            self.assertTrue(b"" not in snapshot and bytes(256) not in snapshot)
            self.assertEqual((len(snapshot), list(snapshot)), (2, [b"city", b"lake"]))
            self.assertEqual(dict(snapshot), {b"city": b"Lyon", b"lake": b""})
            self.assertEqual(snapshot.read_all([b"town", b"lake", b"city", b""]), [None, b"", b"Lyon", None])
            self.assertEqual(snapshot.read_all([]), [])
            self.assertEqual(repr(snapshot), "<Snapshot 1 at 2.0>")
        self.assertEqual(len(store.snapshot()), 3)

    def test_any_bytes_are_read(self):
        store, node = filled([])
        wide = memoryview(b"c_i_t_y_")[::2]
        store.accept(node.write(1, wide, bytearray(b"Lyon")))
        snapshot = store.snapshot()
        for key in b"city", bytearray(b"city"), memoryview(b"city"), wide:
            self.assertEqual((snapshot[key], snapshot.get(key), key in snapshot), (b"Lyon", b"Lyon", True))
            self.assertIs(type(snapshot[key]), bytes)

    def test_long_values(self):
        lengths = [0, 1, 1023, 1024, 1025, 65534, 65535]
        pairs = [(b"%05d" % length, bytes([length % 251]) * length) for length in lengths]
        snapshot = filled(pairs)[0].snapshot()
        self.assertEqual(list(snapshot.items()), pairs)
        self.assertEqual([snapshot[key] for key, _ in pairs], [value for _, value in pairs])
        many = [pairs[i % len(pairs)] for i in range(500)]
        self.assertEqual(snapshot.read_all(key for key, _ in many), [value for _, value in many])

    def test_ranges(self):
        pairs = [(b"%03d" % i + b"\0\xff"[: i % 3], b"v" * (i * 7 % 300)) for i in range(1000)]
        snapshot = filled(reversed(pairs))[0].snapshot()
        for start, end in [(b"", b""), (b"5", b""), (b"", b"07"), (b"123", b"456\0"), (b"9", b"1"), (b"999\0", b"x")]:
            part = [pair for pair in pairs if pair[0] >= start and (not end or pair[0] < end)]
            self.assertEqual(list(snapshot.items(start, end)), part)
            self.assertEqual(list(snapshot.keys(start=start, end=end)), [key for key, _ in part])
            self.assertEqual(snapshot.count(start, end), len(part))
            self.assertEqual(snapshot.digest(start, end), digest_of(part))
            self.assertEqual(list(snapshot.items(start, end, reverse=True)), part[::-1])
            self.assertEqual(list(snapshot.keys(start, end, reverse=True)), [key for key, _ in part][::-1])
            below = [pair for pair in pairs if not end or pair[0] < end]
            self.assertEqual(snapshot.last_below(end), below[-1] if below else None)
        self.assertEqual((list(snapshot), len(snapshot)), ([key for key, _ in pairs], 1000))
        self.assertEqual(list(reversed(snapshot)), [key for key, _ in pairs][::-1])
        self.assertEqual((snapshot.last_below(key=b"000"), snapshot.last_below()), (None, pairs[-1]))
        items = snapshot.items()
        self.assertEqual([next(items) for _ in range(10)], pairs[:10])
        self.assertEqual(list(items), pairs[10:])
        self.assertEqual(list(items), [])

    def test_the_last_pair_of_any_length(self):
        for length in (0, 200, 300, 65535):
            pair = b"key", bytes(length)
            self.assertEqual(filled([pair])[0].snapshot().last_below(b"kez"), pair)

    def test_many_long_values_at_once(self):
        pairs = {b"%04d" % i: b"%04d" % i * 25 for i in range(5000)}
        self.assertEqual(filled(pairs.items())[0].snapshot().read_all(pairs), list(pairs.values()))

    def test_the_longest_pairs(self):
        keys = [b"a", b"a\0", b"a\0\0", b"a\0\1", b"a\1", *[bytes([i]) * 255 for i in range(100, 105)]]
        pairs = [(key, key[-1:] * 65535) for key in keys]
        snapshot = filled(pairs)[0].snapshot()
        self.assertEqual(list(snapshot.items()), pairs)
        self.assertEqual(list(snapshot), keys)
        self.assertEqual(list(snapshot.items(reverse=True)), pairs[::-1])
        self.assertEqual(snapshot.read_all(snapshot), [value for _, value in pairs])

    def test_changes(self):
        """In each round each key is written, deleted or left as it is, some with long values."""
        store, node = Store(1), Node(0)
        snapshots = [store.snapshot()]
        for reading in range(1, 5):
            for i in range(600):
                kind, key = (i + reading) % 4, b"%03d" % i
                if kind < 2:
                    value = b"v" * (i % 5 * 200 + reading)
                    store.accept(node.write(reading, key, value) if kind else node.delete(reading, key))
            store.accept(node.write(reading, b"k" * 255, bytes([reading]) * 65535))
            snapshots.append(store.snapshot())
        for before in snapshots:
            for after in snapshots:
                old, new = dict(before.items()), dict(after.items())
                changed = [(key, new.get(key)) for key in sorted({*old, *new}) if old.get(key) != new.get(key)]
                self.assertEqual(list(before.changes(after)), changed)
                part = [change for change in changed if b"1" <= change[0] < b"2"]
                self.assertEqual(list(before.changes(after=after, start=b"1", end=bytearray(b"2"))), part)
        changes = snapshots[0].changes(snapshots[4])
        next(changes)
        snapshots[4].close()
        with self.assertRaises(hlcstore.NoSnapshot):
            list(changes)
        with self.assertRaises(hlcstore.NoSnapshot):
            snapshots[0].changes(Store(1).snapshot())

    def test_opening_and_closing(self):
        store, node = filled([(b"a", b"x"), (b"a", b"y")])
        old, new = store.snapshot(stamp(1)), store.snapshot(stamp=None)
        self.assertEqual((old[b"a"], new[b"a"], old.stamp, new.stamp), (b"x", b"y", stamp(1), stamp(2)))
        listed = store.snapshots()
        self.assertEqual([(each.id, each.stamp) for each in listed], [(old.id, stamp(1)), (new.id, stamp(2))])
        del listed
        self.assertEqual(len(store.snapshots()), 2)
        store.snapshots()[0].close()
        self.assertEqual([each.id for each in store.snapshots()], [new.id])
        old.close()
        del new
        self.assertEqual(store.snapshots(), [])
        third = store.snapshot()
        self.assertEqual(store.close_snapshot(third.id), stamp(2))
        fourth = store.snapshot()
        store.close_all()
        for closed in old, third, fourth:
            with self.assertRaises(hlcstore.NoSnapshot):
                closed[b"a"]

    def test_a_snapshot_by_its_id(self):
        store, node = filled([(b"a", b"x"), (b"a", b"y")])
        old, new = store.snapshot(stamp(1)), store.snapshot()
        with Store.restore(store.checkpoint()) as copy:
            for mine in old, new:
                its = copy.snapshot_by_id(mine.id)
                self.assertEqual((its.id, its.stamp, its[b"a"]), (mine.id, mine.stamp, mine[b"a"]))
            del its
            self.assertEqual(len(copy.snapshots()), 2)
            copy.snapshot_by_id(old.id).close()
            for none in old.id, 0, 2**64 - 1:
                with self.assertRaises(hlcstore.NoSnapshot):
                    copy.snapshot_by_id(none)

    def test_all_open_snapshots_are_listed(self):
        store, node = filled([(b"a", b"x")])
        for reading in range(2, 1025):
            store.accept(node.report(reading))
        opened = [store.snapshot(stamp(reading)) for reading in range(1, 1025)]
        listed = [(each.id, each.stamp) for each in store.snapshots()]
        self.assertEqual(listed, [(number, stamp(number)) for number in range(1, 1025)])
        self.assertEqual(listed, [(each.id, each.stamp) for each in opened])
        self.assertEqual(store.snapshot_by_id(1024).stamp, stamp(1024))

    def test_a_finalizer_uses_the_iterator(self):
        """Garbage may be collected while a pair is made. Its finalizers call the same iterator, which gives each pair
        once, or refuses them."""
        program = """
            import gc
            import hlcstore

            class Ring:
                def __init__(self):
                    self.ring = self

                def __del__(self):
                    for _ in range(3):
                        try:
                            found.append(next(items))
                        except (ValueError, StopIteration):
                            pass

            store, node = hlcstore.Store(1), hlcstore.Node(0)
            pairs = [(b"%05d" % i, b"%d" % i * 50) for i in range(5000)]
            store.accept_all([node.write(1, *pair) for pair in pairs])
            for read in store.snapshot().items, store.snapshot().keys:
                items, found = read(), []
                gc.set_threshold(1, 1, 1)
                for item in items:
                    Ring()
                    found.append(item)
                gc.set_threshold(700, 10, 10)
                gc.collect()
                assert sorted(found) == list(read())
            print("all right")
        """
        self.assertEqual(run(program), ("all right\n", "", 0))

    def test_a_finalizer_of_a_start_uses_the_iterator(self):
        """A start may be of a subclass of bytes. It is dropped when the buffer is filled again."""

        class Start(bytes):
            def __del__(self):
                next(items)

        pairs = [(b"%05d" % i, bytes(1000)) for i in range(1000)]
        items = filled(pairs)[0].snapshot().items(Start(b"0"))
        with mock.patch("sys.unraisablehook") as refused:
            self.assertEqual(list(items), pairs)
        self.assertEqual([call.args[0].exc_type for call in refused.call_args_list], [ValueError])

    def test_a_list_of_values_has_no_empty_place(self):
        """Another thread looks at each list that there is, while values are read in several calls."""
        program = """
            import gc
            import sys
            import threading
            import hlcstore

            sys.setswitchinterval(1e-5)
            store, node = hlcstore.Store(1), hlcstore.Node(0)
            keys = [b"%03d" % i for i in range(100)]
            store.accept_all([node.write(1, key, bytes(5000)) for key in keys])
            snapshot, is_done = store.snapshot(), threading.Event()

            def read():
                for _ in range(300):
                    assert snapshot.read_all(keys) == [bytes(5000)] * 100
                is_done.set()

            reading = threading.Thread(target=read)
            reading.start()
            while not is_done.is_set():
                for each in gc.get_objects(generation=0):
                    if type(each) is list:
                        list(each)
            reading.join()
            print("all right")
        """
        self.assertEqual(run(program), ("all right\n", "", 0))

    def test_a_snapshot_keeps_its_store(self):
        snapshot = filled([(b"a", b"x")])[0].snapshot()
        items = snapshot.items()
        self.assertEqual(snapshot[b"a"], b"x")
        del snapshot
        self.assertEqual(list(items), [(b"a", b"x")])


    def test_values(self):
        store, _ = filled([(b"%04d" % i, b"%d" % i * 50) for i in range(2000)])
        snapshot = store.snapshot()
        values = [value for _, value in snapshot.items()]
        self.assertEqual((len(values), list(snapshot.values())), (2000, values))
        self.assertEqual(list(snapshot.values(reverse=True)), values[::-1])
        self.assertEqual(list(snapshot.values(b"0007", end=b"0009")), [b"7" * 50, b"8" * 50])


class Vacuums(unittest.TestCase):
    def setUp(self):
        self.store, node = filled([(b"a", b"x"), (b"a", b"yy"), (b"b", b"z")])
        self.store.accept(node.write(4, b"b", b"zz"))

    def test_to_the_floor(self):
        vacuum = self.store.vacuum()
        self.assertEqual(vacuum, Vacuum(stamp=stamp(4), kept=2, cost=26, dropped=2))
        self.assertEqual((self.store.horizon, self.store.rows), (stamp(4), 2))
        self.assertEqual(self.store.sizes, (2, 2, 2, 4))

    def test_to_a_stamp(self):
        self.store.check_vacuum(stamp(2))
        self.assertEqual(self.store.vacuum_to(stamp(2)), (stamp(2), 1, 13, 1))
        self.assertEqual((self.store.horizon, self.store.rows), (stamp(2), 3))

    def test_in_parts(self):
        first = self.store.vacuum_part(stamp(4), limit=1)
        self.assertEqual(first, VacuumPart(stamp=stamp(4), kept=1, cost=13, dropped=1, next=b"a"))
        self.assertEqual((self.store.horizon, self.store.rows), (stamp(4), 3))
        self.assertEqual(self.store.vacuum_part(stamp(4), bytearray(b"a"), 2), (stamp(4), 1, 13, 1, None))
        self.assertEqual(self.store.vacuum_part(stamp=stamp(4), after=b"b"), (stamp(4), 0, 0, 0, None))
        self.assertEqual(self.store.vacuum_part(stamp(4)), (stamp(4), 2, 26, 0, None))
        self.assertEqual(self.store.vacuum_to(stamp(4)), (stamp(4), 2, 26, 0))

    def test_a_part_ends_at_the_longest_key(self):
        keys = [bytes([i]) * 255 for i in b"abc"]
        store, _ = filled([(key, b"x") for key in keys])
        self.assertEqual(store.vacuum_part(stamp(3), limit=1), (stamp(3), 1, 266, 0, keys[0]))
        self.assertEqual(store.vacuum_part(stamp(3), keys[0], 1), (stamp(3), 1, 266, 0, keys[1]))
        self.assertEqual(store.vacuum_part(stamp(3), keys[1], 2), (stamp(3), 1, 266, 0, None))

    def test_a_part_of_no_keys(self):
        for after in b"", b"b", b"c" * 255, b"c" * 300:
            self.assertEqual(self.store.vacuum_part(stamp(1), after, 0), (stamp(1), 0, 0, 0, after))
        self.assertEqual(self.store.rows, 4)

    def test_certificates(self):
        with self.assertRaises(hlcstore.NotFewest):
            self.store.certificate(stamp(4))
        self.assertEqual(self.store.vacuum(), (stamp(4), 2, 26, 2))
        kept, cost, certificate = self.store.certificate(stamp(4))
        self.assertEqual((kept, cost, hlcstore.check(certificate)), (2, 26, Checked(rows=2, cost=26)))
        self.assertEqual(hlcstore.check(bytearray(certificate)).rows, 2)
        self.assertEqual(self.store.vacuum_to(stamp(4)).dropped, 0)
        self.assertEqual(self.store.certificate(stamp(4)), Certified(2, 26, certificate))

    def test_a_long_certificate(self):
        store = filled([(b"key %d" % (i % 2000), b"value") for i in range(3000)])[0]
        vacuum = store.vacuum()
        self.assertEqual((vacuum.stamp, vacuum.kept, vacuum.dropped), (stamp(3000), 2000, 1000))
        self.assertEqual(hlcstore.check(store.certificate(vacuum.stamp).certificate), (vacuum.kept, vacuum.cost))

    def test_versions(self):
        store, one, two = Store(2), Node(0), Node(1)
        long = bytes(65535)
        store.accept_all([one.write(1, b"a", b"x"), one.write(2, b"a", long), two.delete(2, b"a")])
        rows = [Version(stamp(2), 1, None), Version(stamp(2), 0, long), Version(stamp(1), 0, b"x")]
        self.assertEqual(store.versions(b"a"), rows)
        self.assertEqual(store.versions(bytearray(b"a"), stamp(1)), rows[:2])
        self.assertEqual(store.versions(key=b"a", above=stamp(0), to=stamp(1)), rows[2:])
        none = store.versions(b"b"), store.versions(b""), store.versions(b"a", stamp(2), stamp(1))
        self.assertEqual(none, ([], [], []))
        self.assertEqual(len(filled([(b"a", b"%d" % i) for i in range(300)])[0].versions(b"a")), 300)


class Texts(unittest.TestCase):
    def test_of_a_store(self):
        store, node = filled([(b"a", b"x"), (b"b", b"y")])
        self.assertEqual(repr(store), "<Store, floor=2.0, rows=2>")
        store.accept(node.report(2))
        self.assertEqual(str(store), "<Store, floor=2.1, rows=2>")
        store.close()
        self.assertEqual(repr(store), "<Store, closed>")


class Restarts(unittest.TestCase):
    def test_a_replica_is_restored(self):
        store, node = filled([(b"key %d" % (i % 100), b"value %d" % i) for i in range(1000)])
        old, new = store.snapshot(stamp(500)), store.snapshot()
        store.vacuum()
        saved = store.checkpoint(tag=77)
        with Store.restore(saved) as copy:
            self.assertEqual((copy.tag, copy.floor, copy.rows, copy.nodes), (77, store.floor, store.rows, store.nodes))
            self.assertEqual((copy.horizon, copy.link(0), copy.checkpoint(77)), (store.horizon, store.link(0), saved))
            for mine, its in zip((old, new), copy.snapshots(), strict=True):
                self.assertEqual((its.id, its.stamp, list(its.items())), (mine.id, mine.stamp, list(mine.items())))
                self.assertEqual(its.digest(), mine.digest())
            item = node.write(2000, b"key 7", b"later")
            for each in store, copy:
                each.accept(item)
            self.assertEqual(copy.snapshot().digest(), store.snapshot().digest())
        self.assertEqual((store.tag, Store.restore(bytearray(store.checkpoint())).tag), (0, 0))

    def test_a_replica_is_restored_from_pieces(self):
        store, _ = filled([(b"key %d" % i, b"value") for i in range(100)])
        saved = store.checkpoint(tag=7)
        with Store.restore(saved[at : at + 99] for at in range(0, len(saved), 99)) as copy:
            self.assertEqual((copy.tag, copy.checkpoint(7)), (7, saved))
        with self.assertRaises(hlcstore.BadBytes):
            Store.restore([saved[:-1]])
        with self.assertRaises(TypeError):
            Store.restore([saved, None])
        with self.assertRaises(ZeroDivisionError):
            Store.restore(bytes(1 // i) for i in (1, 0))

    def test_a_checkpoint_becomes_a_newer_one(self):
        store, node = filled([(b"key %d" % (i % 10), b"value %d" % i) for i in range(100)])
        saved, floor = store.checkpoint(), store.floor
        old = store.snapshot(stamp(50))
        for turn in range(2):
            for i in range(20):
                store.accept(node.write(200 + turn, b"key %d" % i, b"later %d" % turn))
            made = store.increment(floor, tag=turn)
            self.assertLess(len(made), len(store.checkpoint()))
            if turn == 0:
                self.assertEqual(hlcstore.apply_increment(saved, bytearray(made)), store.checkpoint(turn))
            store.vacuum_to(floor)
            made = store.increment(since=floor, tag=turn)
            saved, floor = hlcstore.apply_increment(older=saved, increment=made), store.floor
            with Store.restore(saved) as copy:
                self.assertEqual((copy.tag, copy.horizon, copy.floor), (turn, store.horizon, floor))
                self.assertEqual(copy.link(0), store.link(0))
                self.assertGreater(copy.rows, store.rows)
                self.assertEqual(copy.snapshot().digest(), store.snapshot().digest())
                self.assertEqual(copy.snapshots()[0].digest(), old.digest())
                copy.vacuum_to(copy.horizon)
                self.assertEqual(copy.rows, store.rows)

    def test_parts_of_a_checkpoint_go_on_and_become_the_whole(self):
        store, node = filled([(b"key %d" % (i % 10), b"value %d" % i) for i in range(100)])
        old, bound = store.snapshot(stamp(50)), b"key 4"
        whole = store.checkpoint(7)
        for key in b"", b"a", bound, b"z", bytes(300):
            parts = hlcstore.split_checkpoint(bytearray(whole), memoryview(key))
            self.assertEqual(hlcstore.merge_checkpoints(*map(bytearray, parts)), whole)
        left, right = hlcstore.split_checkpoint(checkpoint=whole, key=bound)
        low, high = Store.restore(left), Store.restore(right)
        self.assertEqual((low.tag, high.tag, low.floor, high.horizon), (7, 7, store.floor, store.horizon))
        for i in range(30):
            item = node.write(200, b"key %d" % i, b"later") if i % 3 else node.delete(200, b"key %d" % i)
            report = Item.report(item.node, item.number, item.stamp)
            store.accept(item)
            low.accept(item if item.key < bound else report)
            high.accept(report if item.key < bound else item)
        for each in store, low, high:
            each.vacuum()
        self.assertTrue(low.rows and high.rows)
        new = store.snapshot()
        for part, start, end in (low, b"", bound), (high, bound, b""):
            self.assertEqual(part.snapshots()[0].digest(), old.digest(start, end))
            self.assertEqual(part.snapshot().digest(), new.digest(start, end))
        low.close_all(), high.close_all(), store.close_all()
        merged = hlcstore.merge_checkpoints(left=low.checkpoint(8), right=high.checkpoint(9))
        self.assertEqual(merged, store.checkpoint(8))

    def test_a_node_is_restored(self):
        store, node = filled([(b"a", b"x")])
        again = Node.restore(node.id, node.last, node.next)
        store.accept(again.write(1, b"a", b"y"))
        self.assertEqual(store.snapshot()[b"a"], b"y")


class Arguments(unittest.TestCase):
    def test_wrong_types(self):
        store, node, at = Store(1), Node(0), stamp(1)
        snapshot, item = store.snapshot(), node.report(1)
        calls = [
            (Stamp, 1.0), (Stamp,), (Stamp.from_number, "1"), (Stamp.parse, 5), (Stamp.parse, b"5.0"),
            (stamp, 1.0), (stamp, "1"), (stamp, 1, None), (split, 1.5), (split, b"1"), (hlcstore.error_name, "1"),
            (Store, "1"), (Store,), (Store, 1, 2), (Node, None), (Node.restore, 1, at), (Item,), (hlcstore.Snapshot,),
            (Item.decode,), (Item.decode, "a"), (Item.decode, b"a", "1"), (snapshot.values, 1),
            (Item.write, 0, 0, at, "a", b""), (Item.write, 0, 0, at, b"a", 5), (Item.report, 0.5, 0, at),
            (node.write, 1, "a", b""), (node.write, 1, b"a", None), (node.write, 1, b"a"), (node.report, "1"),
            (node.report,), (node.receive, at), (node.raise_to, None), (store.accept, (0, 0, 1)), (store.accept, None),
            (store.accept_all, 5), (store.accept_all, [item, None]), (store.accept_items, [1, 2]),
            (store.accept_items, 8), (store.accept_write, 0, 0, at, ["a"], b""), (store.snapshot, "floor"),
            (store.close_snapshot, None), (store.restore, None), (store.checkpoint, b""), (store.link, None),
            (store.snapshot_by_id, "1"),
            (store.checkpoint_to,), (store.checkpoint_to, io.BytesIO(), b""), (store.checkpoint_to, io.StringIO()),
            (snapshot.get, "a"), (snapshot.get,), (snapshot.get, b"a", 1, 2), (snapshot.items, 1),
            (snapshot.read_all, b"ab"), (snapshot.read_all, None), (snapshot.digest, b"", "z"),
            (snapshot.items, b"", b"", True), (snapshot.last_below, 1), (snapshot.changes,), (snapshot.changes, store),
            (snapshot.changes, snapshot, 1), (store.versions,), (store.versions, "a"), (store.certificate, None),
            (snapshot.__getitem__, 1), (snapshot.__contains__, "a"), (hlcstore.check, "point 1.0"),
            (store.increment,), (store.increment, b""), (store.increment, at, None), (store.increment, at, 0, 0),
            (hlcstore.apply_increment, b""), (hlcstore.apply_increment, "", b""), (hlcstore.apply_increment, b"", 5),
            (hlcstore.apply_increment, b"", b"", b""), (hlcstore.split_checkpoint, b""),
            (hlcstore.split_checkpoint, "", b""), (hlcstore.split_checkpoint, b"", 5),
            (hlcstore.merge_checkpoints, b""), (hlcstore.merge_checkpoints, "", b""),
            (hlcstore.merge_checkpoints, b"", b"", b""),
        ]  # fmt: skip
        for call, *args in calls:
            with self.assertRaises(TypeError, msg=f"{call} {args}"):
                call(*args)
        self.assertEqual((store.rows, store.link(0).next, node.next), (0, 0, 1))

    def test_numbers_that_do_not_fit(self):
        """The text says which numbers fit."""
        store, node, at = Store(1), Node(0), stamp(1)
        words, halves, parts = "from 0 to 18446744073709551615$", "from 0 to 65535$", "from 0 to 281474976710655$"
        calls = [
            (Store, 65536), (Store, -1), (Node, 65536), (Item.report, 65536, 0, at), (Item.report, 0, -1, at),
            (node.report, 2**64), (node.send, -1), (store.link, 65536), (store.checkpoint, 2**64),
            (hlcstore.error_text, -1), (store.checkpoint_to, io.BytesIO(), 2**64),
        ]  # fmt: skip
        for call, *args in calls:
            with self.assertRaisesRegex(OverflowError, f"{words}|{halves}", msg=f"{call} {args}"):
                call(*args)
        texts = {
            words: [
                (Node.restore, 0, at, 2**64), (Item.delete, 0, 2**64, at, b"a"), (Item.retire, 0, -(2**64), at),
                (node.write, -1, b"a", b""), (node.delete, 2**80, b"a"), (node.retire, -1), (node.receive, at, -1),
                (node.receive, at, 2**64), (store.accept_write, 0, -1, at, b"a", b""), (store.accept_retire, 0, -1, at),
                (store.check_delete, 0, -1, at, b"a"), (store.close_snapshot, -1), (store.checkpoint, -1),
                (store.checkpoint, 10**5000), (store.vacuum_part, at, b"", -1), (store.increment, at, 2**64),
                (Stamp.from_number, -1), (Stamp.from_number, 2**64), (hlcstore.error_name, 2**64),
            ],
            halves: [(Store, -1), (Node, -1), (store.link, -1), (Item.report, 2**64, 0, at), (stamp, 1, 70000),
                     (stamp, 1, -1), (store.check_report, 65536, 0, at), (Node.restore, -1, at, 0)],
            parts: [(Stamp, -1), (Stamp, 2**48, 1), (stamp, -1), (stamp, 2**48), (stamp, 2**50, 1), (stamp, 10**5000)],
        }  # fmt: skip
        for text, calls in texts.items():
            for call, *args in calls:
                with self.subTest(call=call), self.assertRaisesRegex(OverflowError, text):
                    call(*args)
        self.assertEqual((store.link(0), store.nodes, node.last, node.next), (Link(0, 0, False), 1, 0, 0))

    def test_classes_are_final(self):
        for kind in Store, Node, Item, hlcstore.Batch, hlcstore.Snapshot:
            with self.assertRaises(TypeError):
                type("Sub", (kind,), {})
            with self.assertRaises(TypeError):
                kind.accept = None

    def test_the_version(self):
        first, second, third = map(int, hlcstore.__version__.split("."))
        self.assertEqual(hlcstore.version(), first * 10000 + second * 100 + third)
        self.assertEqual(importlib.metadata.version("hlcstore"), hlcstore.__version__)

    def test_the_example_of_the_module(self):
        result = doctest.testmod(hlcstore)
        self.assertEqual((result.failed, result.attempted > 0), (0, True))

    def test_results_are_pickled(self):
        results = [Vacuum(1, 2, 3, 4), VacuumPart(1, 2, 3, 4, b"5"), Link(1, 2, True), Checked(1, 2)]
        for result in [*results, Certified(1, 2, b"3"), Version(1, 2, None)]:
            self.assertEqual(pickle.loads(pickle.dumps(result)), result)


if __name__ == "__main__":
    unittest.main()
