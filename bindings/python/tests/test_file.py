"""Stores in a file: what is written is there, also after the file is opened again, and each refusal is an exception."""

import ast
import contextlib
import copy
import gc
import inspect
import io
import pathlib
import pickle
import resource
import signal
import sqlite3
import subprocess
import sys
import tempfile
import time
import unittest
from datetime import timedelta

import hlcstore
import hlcstore.file
from hlcstore import Closed, split, stamp
from hlcstore.file import File, FileError, Promise, Snapshot
from test_stub import declared, real_parameters, stub_parameters


class InFolder(unittest.TestCase):
    """A test with a path for its file."""

    def setUp(self):
        folder = tempfile.TemporaryDirectory()
        self.addCleanup(folder.cleanup)
        self.path = pathlib.Path(folder.name, "store.hlc")


class Calls(InFolder):
    def test_a_past_stamp(self):
        with File(self.path) as file:
            before = file.write(b"capital", b"Lyon", reading=5)
            deleted = file.delete(b"capital", reading=6)
            file.write(bytearray(b"capital"), memoryview(b"Paris"), reading=6)
            self.assertEqual((str(before), str(deleted), str(file.floor)), ("5.0", "6.0", "6.1"))
            self.assertEqual(file.snapshot(before)[b"capital"], b"Lyon")
            self.assertIsNone(file.snapshot(at=deleted).get(b"capital"))
            self.assertEqual(file.snapshot()[b"capital"], b"Paris")

    def test_the_clock_of_the_system(self):
        with File(self.path) as file:
            earliest = time.time_ns() // 1_000_000
            written = file.write(b"a", b"")
            latest = time.time_ns() // 1_000_000
            self.assertTrue(earliest <= split(written)[0] <= latest)
            self.assertLess(written, file.write(b"a", b"", reading=1))

    def test_a_batch(self):
        with File(self.path) as file:
            file.write(b"c", b"old", reading=4)
            with file.batch(reading=5) as batch:
                batch.write(b"a", b"1")
                batch.delete(b"c")
                self.assertEqual(len(file.snapshot()), 1)
                self.assertIsNone(batch.stamp)
            self.assertEqual((split(batch.stamp), len(batch)), ((5, 1), 2))
            self.assertEqual(dict(file.snapshot(batch.stamp).items()), {b"a": b"1"})
            self.assertEqual(split(file.append({b"d": b"4", b"a": None}, reading=6)), (6, 1))
            self.assertEqual(split(file.append(iter([(b"e", b"5")]), reading=6)), (6, 2))
            self.assertEqual(list(file.snapshot()), [b"d", b"e"])

    def test_a_batch_of_one_stamp(self):
        with File(self.path) as file:
            file.write(b"c", b"old", reading=4)
            stamp = file.write_batch({b"a": b"1", b"c": None}, reading=5)
            self.assertEqual(split(stamp), (5, 0))
            self.assertEqual(dict(file.snapshot(stamp - 1).items()), {b"c": b"old"})
            self.assertEqual(dict(file.snapshot(stamp).items()), {b"a": b"1"})
            for refused, pairs in ((hlcstore.NoWrites, []), (hlcstore.KeyTwice, [(b"a", b"2"), (b"a", b"3")])):
                with self.assertRaises(refused):
                    file.write_batch(pairs)

    def test_a_batch_that_is_left_is_not_appended(self):
        with File(self.path) as file:
            with self.assertRaises(ZeroDivisionError), file.batch() as batch:
                batch.write(b"a", b"1")
                1 / 0
            with self.assertRaises(hlcstore.BadKey), file.batch() as batch:
                batch.write(b"a", b"1")
                batch.write(b"", b"2")
            with file.batch() as empty:
                pass
            self.assertEqual((len(file.snapshot()), batch.stamp, empty.stamp, file.status.place), (0, None, None, 0))

    def test_each_promise(self):
        for promise in Promise:
            path = self.path.with_name(promise.name)
            with File(path, promise=promise) as file:
                file.write(b"a", b"1")
                file.append([(b"b", b"2")], promise=promise)
            with File(path, must_exist=True) as file:
                self.assertEqual(dict(file.snapshot().items()), {b"a": b"1", b"b": b"2"})

    def test_nodes(self):
        with File(self.path, nodes=2) as file:
            file.write(b"a", b"1", reading=5)
            self.assertEqual(file.floor, 0)
            self.assertEqual(split(file.report(node=1, reading=6)), (6, 0))
            self.assertEqual(split(file.floor), (5, 0))
            node, start = file.join()
            self.assertEqual((node, split(start)), (2, (5, 0)))
            self.assertEqual(split(file.retire(node=2, reading=7)), (7, 0))
            sent = file.send(reading=8)
            self.assertLess(sent, file.receive(sent, node=1, reading=1))
            with self.assertRaises(hlcstore.Retired):
                file.write(b"a", b"1", node=2)

    def test_records_of_other_machines(self):
        node = hlcstore.Node(0)
        log = bytes(node.write(5, b"a", b"1")) + bytes(node.write(6, b"a", b"2"))
        with File(self.path) as file:
            self.assertEqual(file.append_records(log), 2)
            self.assertEqual(file.append_records(log + bytes(node.delete(7, b"a")), promise=Promise.WRITTEN), 3)
            with self.assertRaises(hlcstore.NotNext) as refused:
                file.append_records(log + bytes(hlcstore.Item.report(0, 9, stamp(9))))
            self.assertEqual((refused.exception.accepted, refused.exception.word), (2, 3))
            self.assertEqual(file.snapshot(stamp(6)).get(b"a"), b"2")
            self.assertEqual(list(file.snapshot()), [])

    def test_vacuums(self):
        with File(self.path) as file:
            for reading in range(1, 10):
                file.write(b"city", b"%d" % reading, reading=reading)
            kept = file.snapshot(stamp(4))
            # Of stamps 1 to 6 the snapshot at 4 needs a row, and the stamp 6.
            self.assertEqual(file.vacuum(stamp(6)), (stamp(6), 2, 2 * (4 + 1 + 10), 4))
            self.assertEqual((kept[b"city"], file.horizon), (b"4", stamp(6)))
            kept.close()
            self.assertEqual(file.vacuum(), (stamp(9), 1, 15, 4))
            self.assertEqual(file.vacuum(older_than=timedelta(hours=1)).stamp, stamp(9))

    def test_a_checkpoint(self):
        with File(self.path) as file:
            file.write(b"a", b"1")
            self.assertEqual(file.checkpoint(), 1)
            status = file.status
            self.assertEqual((status.place, status.checkpoint_place, status.log_bytes), (1, 1, 0))
            self.assertEqual((status.created, status.failure, status.writes), (True, 0, 0))


    def test_a_checkpoint_to_a_file(self):
        with File(self.path, promise=Promise.WRITTEN) as file:
            for reading in range(1, 9):
                file.write(b"%d" % reading, b"v" * 60_000, reading=reading)
            saved = io.BytesIO()
            # A write takes some bytes alone, and may change the file: what is saved is of before.
            class Short:
                def write(self, data):
                    file.write(b"later", b"", reading=9)
                    return saved.write(data[:100_000])

            self.assertEqual(file.checkpoint_to(Short(), tag=7), len(saved.getvalue()))
            store = hlcstore.Store.restore(saved.getvalue())
            self.assertEqual((store.tag, store.floor), (7, stamp(8)))
            self.assertEqual(store.checkpoint(7), saved.getvalue())
            self.assertEqual(store.snapshot().digest(), file.snapshot(stamp(8)).digest())
            again = io.BytesIO()
            self.assertGreater(file.checkpoint_to(file=again), len(saved.getvalue()))
            self.assertEqual(file.status.checkpoint_place, 0)
            with self.assertRaises(AttributeError):
                file.checkpoint_to(b"")
            with self.assertRaises(OSError):
                file.checkpoint_to(Lazy())
        with self.assertRaises(Closed):
            file.checkpoint_to(io.BytesIO())


class Lazy:
    """A file that takes nothing."""

    def write(self, data):
        return 0


def at_each_depth(call):
    """Makes a call within more and more others, until there are too many. Returns what it returned."""
    made, most = [], sys.getrecursionlimit()

    def at(depth):
        return at(depth - 1) if depth else call()

    for depth in range(most - 200, most):
        with contextlib.suppress(RecursionError):
            made.append(at(depth))
    assert 0 < len(made) < 200
    return made


class Depth(InFolder):
    """A call does nothing where Python refuses it since calls are too deep."""

    def test_events(self):
        with File(self.path) as file:
            written = at_each_depth(lambda: file.write(b"a", b"x"))
            self.assertEqual((file.rows, file.floor), (len(written), written[-1]))
            joined = at_each_depth(file.join)
            self.assertEqual(file.nodes, 1 + len(joined))

    def test_snapshots(self):
        """None stays open."""
        with File(self.path) as file:
            file.write(b"a", b"1")
            at_each_depth(lambda: file.snapshot().stamp)
            file.write(b"a", b"2")
            self.assertEqual(file.vacuum().kept, 1)


class Snapshots(InFolder):
    def setUp(self):
        super().setUp()
        self.file = File(self.path)
        self.addCleanup(self.file.close)
        # More than fits into the buffers of an iterator.
        self.pairs = {b"%05d" % number: b"v" * (number % 300) for number in range(3000)}
        self.file.append(self.pairs)
        self.snapshot = self.file.snapshot()

    def test_a_mapping(self):
        keys = list(self.pairs)
        self.assertEqual(dict(self.snapshot.items()), self.pairs)
        self.assertEqual(list(self.snapshot), keys)
        self.assertEqual(list(reversed(self.snapshot)), keys[::-1])
        self.assertEqual((len(self.snapshot), b"00007" in self.snapshot, b"7" in self.snapshot), (3000, True, False))
        self.assertEqual(self.snapshot.get(b"none", 7), 7)
        self.assertEqual(self.snapshot.read_all([b"00002", b"none"]), [b"vv", None])
        with self.assertRaises(KeyError):
            self.snapshot[b"none"]

    def test_ranges(self):
        keys = list(self.pairs)
        self.assertEqual(list(self.snapshot.keys(b"00100", b"01200")), keys[100:1200])
        self.assertEqual(list(self.snapshot.keys(b"00100", b"01200", reverse=True)), keys[100:1200][::-1])
        self.assertEqual(list(self.snapshot.items(end=b"00002")), [(b"00000", b""), (b"00001", b"v")])
        self.assertEqual(self.snapshot.count(start=b"02990"), 10)
        self.assertEqual(list(self.snapshot.values(b"00001", b"00004")), [b"v", b"vv", b"vvv"])
        self.assertEqual(list(self.snapshot.values(end=b"00003", reverse=True)), [b"vv", b"v", b""])
        self.assertEqual(self.snapshot.last_below(b"00002"), (b"00001", b"v"))
        self.assertEqual(self.snapshot.last_below(), (b"02999", b"v" * 299))
        self.assertIsNone(self.snapshot.last_below(b"00000"))

    def test_long_values(self):
        values = {b"%d" % length: bytes(length) for length in (0, 1, 1023, 1024, 1025, 65535)}
        self.file.append(values)
        snapshot = self.file.snapshot()
        self.assertEqual({key: snapshot[key] for key in values}, values)

    def test_the_longest_pair(self):
        key, value = b"z" * 255, b"v" * 65535
        self.file.write(key, value)
        snapshot = self.file.snapshot()
        self.assertEqual(snapshot[key], value)
        self.assertEqual(next(snapshot.items(reverse=True)), (key, value))
        self.assertEqual(list(snapshot.items(b"z")), [(key, value)])

    def test_it_stays_as_it_was(self):
        self.file.append([(key, b"new") for key in self.pairs])
        self.assertEqual(self.snapshot[b"00002"], b"vv")
        at = "%d.%d" % split(self.snapshot.stamp)
        self.assertEqual(repr(self.snapshot), f"<Snapshot {self.snapshot.id} at {at}>")

    def test_closing(self):
        rest = self.snapshot.items()
        next(rest)
        with self.snapshot:
            pass
        self.snapshot.close()
        for call in (lambda: self.snapshot[b"00002"], lambda: len(self.snapshot), lambda: list(rest)):
            with self.assertRaises(hlcstore.NoSnapshot):
                call()

    def test_no_copies(self):
        """A copy would be a second owner of what is open, or of what is to be written."""
        for owner in self.snapshot, self.file.batch(), self.file:
            for make in copy.copy, copy.deepcopy, pickle.dumps:
                with self.assertRaisesRegex(TypeError, "cannot"):
                    make(owner)

    def test_a_forgotten_one_is_closed(self):
        self.file.append([(key, b"new") for key in self.pairs])
        self.assertEqual(self.file.vacuum().dropped, 0)
        del self.snapshot
        gc.collect()
        self.assertEqual(self.file.vacuum().dropped, 3000)


class Reads(InFolder):
    """What a file reads is what a store in memory with the same items does."""

    def setUp(self):
        super().setUp()
        self.file = File(self.path, promise=Promise.WRITTEN)
        self.addCleanup(self.file.close)
        self.store, node = hlcstore.Store(1), hlcstore.Node(0)
        # The listings have some pages. Each third key is deleted at the end.
        for reading in range(1, 901):
            key, value = b"key %03d" % (reading % 300), b"v" * (reading % 700)
            if reading > 600 and reading % 3 == 0:
                self.store.accept(node.delete(reading, key))
                self.file.delete(key, reading=reading)
            else:
                self.store.accept(node.write(reading, key, value))
                self.file.write(key, value, reading=reading)

    def test_what_it_has(self):
        file, store = self.file, self.store
        self.assertEqual(repr(file), "<File, floor=900.0, rows=900>")
        self.assertEqual((file.rows, file.nodes, file.sizes, file.floor_node()), (900, 1, store.sizes, 0))
        self.assertEqual(file.link(0), (900, stamp(900), False))
        file.retire(reading=901)
        self.assertEqual(file.link(0), (901, stamp(901), True))
        with self.assertRaises(hlcstore.NoNode):
            file.link(1)
        with self.assertRaises(hlcstore.AllRetired):
            file.floor_node()

    def test_versions(self):
        rows = [(stamp(603), 0, None), (stamp(303), 0, b"v" * 303), (stamp(3), 0, b"vvv")]
        self.assertEqual(self.file.versions(b"key 003"), rows)
        self.assertEqual(self.file.versions(bytearray(b"key 003"), stamp(3), to=stamp(602)), rows[1:2])
        self.assertEqual(self.file.versions(key=b"none"), [])
        # More than there is room for at first.
        for reading in (950, 951):
            self.file.write(b"long", b"%d" % reading * 20_000, reading=reading)
        self.assertEqual([row.value[:3] for row in self.file.versions(b"long")], [b"951", b"950"])

    def test_listings(self):
        mine, theirs = self.file.snapshot(stamp(500)), self.store.snapshot(stamp(500))
        later, their_later = self.file.snapshot(), self.store.snapshot()
        self.assertEqual(mine.digest(), theirs.digest())
        self.assertEqual(later.digest(b"key 1", end=b"key 2"), their_later.digest(b"key 1", b"key 2"))
        changes = list(mine.changes(later))
        self.assertEqual(changes, list(theirs.changes(their_later)))
        self.assertEqual((len(changes), changes[0], changes[1]), (300, (b"key 000", None), (b"key 001", b"v" * 601)))
        self.assertEqual(list(mine.changes(later, start=b"key 003", end=b"key 004")), changes[3:4])
        self.assertEqual((len(list(later.changes(mine))), list(mine.changes(mine))), (300, []))

    def test_changes_are_of_one_file(self):
        with File(self.path.with_name("other")) as other, self.assertRaises(hlcstore.NoSnapshot):
            self.file.snapshot().changes(other.snapshot())
        for after in None, self.store.snapshot(), 5:
            with self.assertRaises(TypeError):
                self.file.snapshot().changes(after)

    def test_of_a_closed_snapshot(self):
        with self.file.snapshot() as closed:
            pass
        for call in closed.digest, lambda: list(closed.changes(self.file.snapshot())):
            with self.assertRaises(hlcstore.NoSnapshot):
                call()


class Refusals(InFolder):
    def test_of_opening(self):
        folder = self.path.parent
        (folder / "text").write_text("no store, but a text of some length\n" * 200)
        with contextlib.closing(sqlite3.connect(folder / "other")) as other:
            other.execute("CREATE TABLE towns(name)")
        for path, options, refusal in (
            (self.path, {"must_exist": True}, hlcstore.file.CannotOpen),
            (folder / "none" / "store", {}, hlcstore.file.CannotOpen),
            (folder / "text", {}, hlcstore.file.NotOurs),
            (folder / "other", {}, hlcstore.file.NotOurs),
            (self.path, {"nodes": 65}, hlcstore.file.BadOption),
            (self.path, {"promise": 4}, hlcstore.file.BadOption),
            (self.path, {"group_microseconds": 1_000_001}, hlcstore.file.BadOption),
            (self.path, {"group_microseconds": 2**40}, hlcstore.file.BadOption),
        ):
            with self.assertRaises(refusal, msg=(path, options)):
                File(path, **options)
        self.assertIn("no store", (folder / "text").read_text())
        for wrong in (5, None, "a\0b"):
            with self.assertRaises((TypeError, ValueError)):
                File(wrong)

    def test_in_use(self):
        attempt = "import sys, hlcstore.file as f\ntry: f.File(sys.argv[1])\nexcept f.InUse: print('in use')"
        with File(self.path):
            with self.assertRaises(hlcstore.file.InUse):
                File(self.path)
            run = subprocess.run([sys.executable, "-c", attempt, self.path], capture_output=True, text=True)
            self.assertEqual((run.stdout, run.stderr), ("in use\n", ""))
        File(self.path).close()

    def test_of_calls(self):
        with File(self.path) as file:
            last = file.write(b"a", b"1", reading=5)
            file.vacuum(last)
            for call, refusal, word in (
                (lambda: file.write(b"", b""), hlcstore.BadKey, 0),
                (lambda: file.delete(b"k" * 256), hlcstore.BadKey, 0),
                (lambda: file.write(b"a", bytes(65536)), hlcstore.ValueTooLong, 0),
                (lambda: file.append([(b"b", b"1"), (b"a", bytes(65536))]), hlcstore.ValueTooLong, 0),
                (lambda: file.append([(b"a", bytes(65535))] * 1024), hlcstore.file.TooLong, 0),
                (lambda: file.append([(b"a", b"")], promise=4), hlcstore.file.BadOption, 0),
                (lambda: file.write(b"a", b"", node=1), hlcstore.NoNode, 0),
                (lambda: file.write(b"a", b"", reading=2**48), hlcstore.ReadingTooLarge, 0),
                (lambda: file.write(b"a", b"", reading=2**64 - 1), hlcstore.ReadingTooLarge, 0),
                (lambda: file.append_records(b"\1"), hlcstore.BadBytes, 1),
                (lambda: file.snapshot(stamp(5, 1)), hlcstore.AboveFloor, last),
                (lambda: file.snapshot(stamp(4)), hlcstore.BelowHorizon, last),
                (lambda: file.vacuum(stamp(6)), hlcstore.AboveFloor, last),
                (lambda: file.vacuum(stamp(4)), hlcstore.BelowHorizon, last),
                (lambda: file.vacuum(older_than=timedelta(days=100_000)), hlcstore.file.NoStamp, 0),
            ):
                with self.assertRaises(refusal) as refused:
                    call()
                self.assertEqual(refused.exception.word, word, refusal)
            self.assertEqual((file.floor, dict(file.snapshot().items())), (last, {b"a": b"1"}))
            self.assertIn("(5.0)", str(self.refusal(file.snapshot, stamp(6))))

    def refusal(self, call, *args):
        with self.assertRaises(hlcstore.Error) as refused:
            call(*args)
        return refused.exception

    def test_wrong_types(self):
        with File(self.path) as file:
            for call in (
                lambda: file.write("a", b""),
                lambda: file.write(b"a", None),
                lambda: file.append([b"ab"]),
                lambda: file.append([(b"a",)]),
                lambda: file.append([(b"a", 5)]),
                lambda: file.append([(b"a", b"1"), ("b", b"1")]),
                lambda: file.append(5),
                lambda: file.batch().write(5, b""),
                lambda: file.snapshot("5"),
                lambda: file.snapshot().items(5),
                lambda: file.snapshot().digest("a"),
                lambda: file.versions("a"),
                lambda: file.link(None),
                lambda: file.vacuum(1, older_than=timedelta(1)),
            ):
                with self.assertRaises(TypeError):
                    call()
            with self.assertRaises(OverflowError):
                file.vacuum(older_than=timedelta(-1))
            with self.assertRaises(ZeroDivisionError):
                file.append((b"a", b"%d" % (1 // number)) for number in (1, 0))
            self.assertEqual((len(file.snapshot()), file.status.place), (0, 0))

    def test_closed(self):
        file = File(self.path)
        snapshot, rest = file.snapshot(), file.snapshot().items()
        file.close()
        file.close()
        self.assertEqual(repr(file), "<File, closed>")
        for call in (
            lambda: file.write(b"a", b""),
            lambda: file.floor,
            lambda: file.status,
            file.snapshot,
            file.checkpoint,
            lambda: file.rows,
            lambda: file.sizes,
            lambda: file.nodes,
            lambda: file.link(0),
            lambda: file.versions(b"a"),
            file.floor_node,
            lambda: snapshot.get(b"a"),
            snapshot.digest,
            lambda: list(snapshot.changes(snapshot)),
            lambda: list(rest),
        ):
            with self.assertRaises(Closed):
                call()
        snapshot.close()

    def change(self, *statements):
        """Changes the tables of the file that is closed."""
        with contextlib.closing(sqlite3.connect(self.path, isolation_level=None)) as tables:
            for statement in statements:
                tables.execute(statement)

    def test_a_later_schema(self):
        File(self.path).close()
        self.change("PRAGMA user_version = 1000")
        self.assertEqual(self.refusal(File, self.path).word, 1000)
        self.assertIsInstance(self.refusal(File, self.path), hlcstore.file.Newer)

    def test_a_damaged_log(self):
        with File(self.path, checkpoint_bytes=2**64 - 1) as file:
            for number in range(1, 6):
                file.write(b"a", b"%d" % number, reading=number)
        self.change("DELETE FROM log WHERE place = 4")
        self.assertIsInstance(self.refusal(File, self.path), hlcstore.file.DamagedLog)
        self.assertEqual(self.refusal(File, self.path).word, 4)
        with File(self.path, keep_before_damage=True) as file:
            self.assertEqual((file.snapshot()[b"a"], file.status.aside), (b"3", 1))

    def test_damaged_checkpoints(self):
        with File(self.path) as file:
            for number in range(1, 4):
                file.write(b"a", b"%d" % number, reading=number)
                file.checkpoint()
        whole = self.path.read_bytes()
        # The older one of the two is whole, and the log goes on behind it.
        self.change("UPDATE piece SET sum = sum + 1 WHERE checkpoint = (SELECT max(id) FROM checkpoint)")
        with File(self.path) as file:
            self.assertEqual((file.snapshot()[b"a"], file.status.damaged), (b"3", 1))
        self.path.write_bytes(whole)
        self.change("UPDATE piece SET sum = sum + 1")
        refused = self.refusal(File, self.path)
        self.assertIsInstance(refused, hlcstore.file.NoWholeCheckpoint)
        self.assertEqual((refused.word, str(refused).endswith(" (2)")), (2, True))

    def test_a_full_disk(self):
        """A file that may not grow refuses writes. What was there stays, and is read on."""
        with File(self.path) as file:
            file.append({b"a": b"1"})
        run = subprocess.run([sys.executable, __file__, "--full", self.path], capture_output=True, text=True)
        self.assertEqual(run.stderr, "")
        with File(self.path) as file:
            self.assertEqual(dict(file.snapshot().items(end=b"b")), {b"a": b"1"})
            # Since a later write was not refused, the batch of which it was unknown is not on disk.
            self.assertEqual((len(file.snapshot()), file.snapshot()[b"c"]), (int(run.stdout) + 1, b"1"))


def refusals_of(file, written):
    """Writes until the file is sealed, and returns the kinds of refusals that came. written: what was not refused."""
    refused = []
    for number in range(100):
        key, value = b"b%03d" % number, bytes(60_000)
        try:
            file.append({key: value})
            written[key] = value
        except FileError as error:
            refused.append(type(error))
        if hlcstore.file.Sealed in refused:
            break
    return refused


def expect(is_so, what):
    if not is_so:
        raise AssertionError(what)


def fill_disk(path):
    """Writes until the limit of a file's size, as the other process of a test. A refused batch may leave it unknown
    whether it is on disk; then the file is sealed, until a write finds out."""
    signal.signal(signal.SIGXFSZ, signal.SIG_IGN)
    file, written = File(path), {b"a": b"1"}
    resource.setrlimit(resource.RLIMIT_FSIZE, (1 << 20, resource.RLIM_INFINITY))
    *refused, last = refusals_of(file, written)
    expect(set(refused) <= {hlcstore.file.Full, hlcstore.file.Io, hlcstore.file.Unknown}, refused)
    expect(refused[-1] is hlcstore.file.Unknown and last is hlcstore.file.Sealed, (refused, last))
    expect(file.status.writes == file.status.failure == hlcstore.file.Unknown.code, file.status)
    expect(dict(file.snapshot().items()) == written, len(file.snapshot()))
    resource.setrlimit(resource.RLIMIT_FSIZE, (resource.RLIM_INFINITY, resource.RLIM_INFINITY))
    file.append({b"c": b"1"})
    expect(file.status.writes == 0, file.status)
    file.close()
    print(len(written))


class Reopening(InFolder):
    def test_all_is_there(self):
        with File(self.path) as file:
            first = file.write(b"a", b"1", reading=5)
            file.write(b"a", b"2", reading=6)
            file.checkpoint()
            last = file.write(b"b", b"3", reading=7)
        with File(self.path) as file:
            self.assertEqual((file.floor, file.status.created, file.status.applied), (last, False, 1))
            self.assertEqual(file.snapshot(first)[b"a"], b"1")
            self.assertEqual(dict(file.snapshot().items()), {b"a": b"2", b"b": b"3"})
            self.assertLess(last, file.write(b"a", b"4", reading=1))

    def test_a_forgotten_file_is_closed(self):
        file = File(self.path)
        snapshot = file.snapshot()
        file.write(b"a", b"1")
        del file
        with self.assertRaises(hlcstore.file.InUse):
            File(self.path)
        del snapshot
        with File(self.path) as file:
            self.assertEqual(file.snapshot()[b"a"], b"1")

    def test_a_process_that_ends_at_once(self):
        program = "import os, sys, hlcstore.file as f\nf.File(sys.argv[1]).write(b'a', b'1')\nos._exit(0)"
        subprocess.run([sys.executable, "-c", program, self.path], check=True)
        with File(self.path) as file:
            self.assertEqual(file.snapshot()[b"a"], b"1")


class Stub(unittest.TestCase):
    """The stub has the parameters of the extension, and all calls are documented."""

    def test_parameters(self):
        stub = ast.parse(pathlib.Path(hlcstore.file.__file__).with_name("_file.pyi").read_text())
        named = declared(declared(stub.body)["File"].body)
        extension = File.__mro__[1]
        self.assertEqual(set(vars(extension)) - {"__doc__", "__module__"}, set(named))
        for name, function in named.items():
            if name == "__new__":
                self.assertEqual(stub_parameters(function), real_parameters(extension))
            elif not name.startswith("_") and not function.decorator_list:
                self.assertEqual(stub_parameters(function), real_parameters(getattr(extension, name)), name)

    def test_documentation(self):
        for kind in File, Snapshot, hlcstore.file.Batch, *FileError.__subclasses__():
            for name in [name for name in dir(kind) if not name.startswith("_")] + ["__doc__"]:
                if callable(getattr(kind, name)) or name == "__doc__":
                    self.assertTrue(inspect.getdoc(getattr(kind, name)), (kind, name))


class Memory(InFolder):
    def play(self):
        """One round: each call, also refused."""
        with File(self.path, promise=Promise.WRITTEN) as file:
            before = file.snapshot()
            self.write(file)
            snapshot = file.snapshot()
            snapshot[b"key"], snapshot.get(b"none"), list(snapshot.items()), list(reversed(snapshot)), len(snapshot)
            snapshot.last_below(), next(snapshot.items()), file.status, file.horizon, snapshot.read_all([b"key"])
            snapshot.digest(), list(before.changes(snapshot)), file.versions(b"key"), file.versions(b"none")
            file.sizes, file.rows, file.link(0), file.floor_node(), file.nodes
            file.vacuum(), file.vacuum(older_than=timedelta(1)), file.checkpoint(), file.report(), file.send()
            file.checkpoint_to(io.BytesIO())
            for call in (
                lambda: File(self.path),
                lambda: file.snapshot(stamp(2**47)),
                lambda: file.append([(b"a", bytes(60_000)), (b"", b"")]),
                lambda: file.append([(bytearray(b"a"), 5)]),
                lambda: snapshot[b"none"],
                lambda: file.append_records(bytes(60_000)),
                lambda: file.write(bytearray(b"a"), b"", node=5),
                lambda: file.checkpoint_to(Lazy()),
                lambda: file.checkpoint_to(io.StringIO()),
            ):
                with contextlib.suppress(hlcstore.Error, TypeError, OSError):
                    call()
        with contextlib.suppress(Closed):
            snapshot[b"key"]

    def write(self, file):
        """The same pairs each time, so that the file does not grow."""
        file.append([(b"key", b"v" * 3000), (bytearray(b"key 2"), memoryview(b"v")), (b"key 3", None)])
        file.write(b"key", bytearray(b"value" * 100)), file.delete(bytearray(b"key 2"))

    def test_the_process_does_not_grow(self):
        for _ in range(100):
            self.play()
        before = resource.getrusage(resource.RUSAGE_SELF).ru_maxrss
        for _ in range(300):
            self.play()
        grown = resource.getrusage(resource.RUSAGE_SELF).ru_maxrss - before
        self.assertLess(grown, 1500, "KiB")

    def test_references_are_dropped(self):
        key, value, number = b"a key of many", b"a value " * 100, 2**40
        with File(self.path, promise=Promise.WRITTEN) as file:
            snapshot = file.snapshot()

            def use():
                file.write(key, value, reading=number), file.append([(key, value)]), file.delete(key)
                snapshot.get(key, value)
                list(snapshot.items(key, value)), snapshot.count(key, value)
                with contextlib.suppress(hlcstore.Error):
                    file.snapshot(stamp(2**47))

            watched = [key, value, number, file, snapshot, None, True, False, File, Snapshot, hlcstore.AboveFloor]
            for _ in range(50):
                use()
            gc.collect()
            before = [sys.getrefcount(each) for each in watched]
            for _ in range(100):
                use()
            gc.collect()
            for each, references in zip(watched, before):
                self.assertLess(abs(sys.getrefcount(each) - references), 50, repr(each)[:50])


if __name__ == "__main__":
    if sys.argv[1:2] == ["--full"]:
        fill_disk(sys.argv[2])
    else:
        unittest.main()
