"""Each exception of the package: what raises it, its code, its word and its text."""

import hashlib
import io
import pickle
import subprocess
import sys
import textwrap
import unittest

import hlcstore
from hlcstore import Error, Item, Node, Store, stamp

FULL = stamp(5, 65535)


def fed():
    """Returns a store with one item, at the stamp 2.0."""
    store = Store(1)
    store.accept(Item.write(0, 0, stamp(2), b"a", b"x"))
    return store


def vacuumed():
    store = fed()
    store.vacuum()
    return store


def closed():
    with Store(1) as store:
        return store


def deleted():
    """Returns a store with a value and a deletion of the same key, of which a vacuum needs none."""
    store = fed()
    store.accept(Item.delete(0, 1, stamp(3), b"a"))
    return store


def retired():
    node = Node(0)
    node.retire(1)
    return node


def all_retired():
    """Returns a store whose only node has retired."""
    store = Store(1)
    store.accept_retire(0, 0, stamp(2))
    return store


def certificate():
    """Returns a certificate with a line too few."""
    store = deleted()
    text = store.certificate(stamp(2)).certificate
    return b"".join(text.splitlines(keepends=True)[:-1])


def checkpoint_without_nodes():
    """Returns a checkpoint of a store with no nodes at the start, which its digest fits."""
    saved = bytearray(Store(1).checkpoint())
    saved[20:22] = bytes(2)
    saved[-32:] = hashlib.sha256(saved[:-32]).digest()
    return saved


class ChangingFile:
    """A file that changes the store when it is written to."""

    def __init__(self, store):
        self.store = store

    def write(self, piece):
        self.store.join()
        return len(piece)


def saved_in_vain():
    """Saves a store of several pieces, which the file changes."""
    store = Store(1)
    store.accept_all([Item.write(0, i, stamp(i + 1), b"%d" % i, bytes(60_000)) for i in range(9)])
    store.checkpoint_to(ChangingFile(store))


def increment():
    """Returns a checkpoint of a store with one item, and an increment of a store with one more."""
    store = fed()
    saved = store.checkpoint()
    store.accept(Item.report(0, 1, stamp(3)))
    return saved, store.increment(stamp(2))


# For each class, but NoMemory: a call that raises it, and its word.
REFUSED = {
    hlcstore.NoNode: (lambda: Store(1).link(1), 0),
    hlcstore.ReadingTooLarge: (lambda: Node(0).report(2**48), 0),
    hlcstore.CounterFull: (lambda: Node(0, FULL).report(5), FULL),
    hlcstore.NotNext: (lambda: fed().accept_report(0, 5, stamp(3)), 1),
    hlcstore.StampNotRising: (lambda: fed().accept_report(0, 1, stamp(1)), stamp(2)),
    hlcstore.AboveFloor: (lambda: fed().snapshot(stamp(3)), stamp(2)),
    hlcstore.BelowHorizon: (lambda: vacuumed().snapshot(stamp(1)), stamp(2)),
    hlcstore.NoSnapshot: (lambda: Store(1).close_snapshot(1), 0),
    hlcstore.TooManySnapshots: (lambda: [store.snapshot() for store in [Store(1)] for _ in range(1025)], 0),
    hlcstore.BadKey: (lambda: Node(0).delete(1, bytes(256)), 0),
    hlcstore.ValueTooLong: (lambda: bytes(Item.write(0, 0, stamp(1), b"a", bytes(65536))), 0),
    hlcstore.NumbersSpent: (lambda: Node.restore(0, stamp(2**48 - 1, 65535), 2**64 - 1).report(1), 0),
    hlcstore.BadLine: (lambda: hlcstore.check(b"point 1.0\npoint"), 2),
    hlcstore.NotShown: (lambda: hlcstore.check(certificate()), 7),
    hlcstore.TooManyNodes: (lambda: [store.join() for store in [Store(1)] for _ in range(1024)], 0),
    hlcstore.Retired: (lambda: retired().send(5), 0),
    hlcstore.NoWrites: (lambda: Node(0).write_batch(1, []), 0),
    hlcstore.TooManyWrites: (lambda: hlcstore.Batch((b"%d" % i, None) for i in range(257)), 0),
    hlcstore.KeyTwice: (lambda: Node(0).write_batch(1, [(b"a", b""), (b"a", None)]), 0),
    hlcstore.Closed: (lambda: closed().rows, 0),
    hlcstore.NoValue: (lambda: fed().snapshot()[b"b"], 0),
    hlcstore.NoSuchNode: (lambda: Node.restore(7, stamp(0, 2), 3), 0),
    hlcstore.BadBytes: (lambda: Store.restore(bytes(60)), 2),
    hlcstore.NoCheckpoint: (lambda: Store.restore(checkpoint_without_nodes()), 1),
    hlcstore.NotFewest: (lambda: deleted().certificate(stamp(3)), 0),
    hlcstore.NoIncrement: (lambda: hlcstore.apply_increment(fed().checkpoint(), fed().checkpoint()), 3),
    hlcstore.NotLater: (lambda: hlcstore.apply_increment(Store(2).checkpoint(), increment()[1]), 0),
    hlcstore.Changed: (saved_in_vain, 0),
    hlcstore.NotParts: (lambda: hlcstore.merge_checkpoints(fed().checkpoint(), fed().checkpoint()), 4),
    hlcstore.BadNodeCount: (lambda: Store(0), 0),
    hlcstore.AllRetired: (lambda: all_retired().floor_node(), 0),
    hlcstore.BelowFloor: (lambda: fed().join_at(stamp(1)), stamp(2)),
}
# How the text of a refusal has its word.
WORDS = {
    # Of these the word is a stamp.
    hlcstore.CounterFull: "5.65535",
    hlcstore.StampNotRising: "2.0",
    hlcstore.AboveFloor: "2.0",
    hlcstore.BelowHorizon: "2.0",
    hlcstore.BelowFloor: "2.0",
    # Of these it is another number.
    hlcstore.NotNext: "1",
    hlcstore.BadLine: "2",
    hlcstore.NotShown: "7",
    hlcstore.BadBytes: "2",
    hlcstore.NoCheckpoint: "1",
    hlcstore.NoIncrement: "3",
    hlcstore.NotParts: "4",
}


class Refusals(unittest.TestCase):
    def test_each_is_raised(self):
        for kind, (call, word) in REFUSED.items():
            with self.subTest(kind.__name__), self.assertRaises(Error) as met:
                call()
            refused, text = met.exception, hlcstore.error_text(kind.code)
            self.assertIs(type(refused), kind)
            self.assertEqual((refused.word, refused.accepted, refused.used), (word, 0, 0), kind)
            self.assertEqual(str(refused), f"{text} ({WORDS[kind]})" if word else text)
            copy = pickle.loads(pickle.dumps(refused))
            self.assertEqual((type(copy), copy.word, str(copy)), (kind, word, str(refused)))

    def test_a_word_of_0(self):
        """A stamp of 0 is printed, and a number of 0 is none."""
        with self.assertRaisesRegex(hlcstore.AboveFloor, r"\(0\.0\)$"):
            Store(1).snapshot(stamp(1))
        with self.assertRaisesRegex(hlcstore.BadKey, r"[a-z]$"):
            Node(0).delete(1, b"")

    def test_each_class_has_a_call(self):
        self.assertEqual(set(REFUSED) | {hlcstore.NoMemory}, set(Error.__subclasses__()))

    def test_other_numbers_have_no_text(self):
        for code in 4, 999, 2**32 - 1, 2**40:
            self.assertEqual((hlcstore.error_name(code), hlcstore.error_text(code)), ("", ""))

    def test_classes_of_python_catch_two(self):
        self.assertTrue(issubclass(hlcstore.NoValue, KeyError) and issubclass(hlcstore.NoMemory, MemoryError))
        self.assertEqual(str(hlcstore.NoMemory()), hlcstore.error_text(15))

    def test_increments_are_refused(self):
        saved, made = increment()
        self.assertEqual(Store.restore(hlcstore.apply_increment(saved, made)).floor, stamp(3))
        with self.assertRaises(hlcstore.BelowHorizon) as met:
            vacuumed().increment(stamp(1))
        self.assertEqual(met.exception.word, stamp(2))
        with self.assertRaises(hlcstore.AboveFloor) as met:
            hlcstore.apply_increment(Store(1).checkpoint(), made)
        self.assertEqual(met.exception.word, 0)
        with self.assertRaises(hlcstore.BadBytes):
            hlcstore.apply_increment(saved[1:], made)
        with self.assertRaises(hlcstore.NoCheckpoint):
            hlcstore.apply_increment(checkpoint_without_nodes(), made)
        for at in range(len(made)):
            changed = bytearray(made)
            changed[at] ^= 1
            with self.assertRaises(hlcstore.NoIncrement):
                hlcstore.apply_increment(saved, changed)

    def test_parts_are_refused(self):
        saved, none = fed().checkpoint(), checkpoint_without_nodes()
        left, right = hlcstore.split_checkpoint(saved, b"a")
        ahead, opened, vacuumed = (Store.restore(right) for _ in range(3))
        ahead.accept_report(0, 1, stamp(3))
        opened.snapshot().close()
        vacuumed.vacuum()
        split, merge = hlcstore.split_checkpoint, hlcstore.merge_checkpoints
        for kind, word, call, *args in (
            (hlcstore.BadBytes, 1, split, b"", b"a"),
            (hlcstore.BadBytes, 2, split, saved[1:], b"a"),
            (hlcstore.NoCheckpoint, 1, split, none, b"a"),
            (hlcstore.BadBytes, 2, merge, left[1:], b""),
            (hlcstore.BadBytes, 1, merge, left, b""),
            (hlcstore.NotParts, 1, merge, left, ahead.checkpoint()),
            (hlcstore.NotParts, 2, merge, left, opened.checkpoint()),
            (hlcstore.NotParts, 3, merge, left, vacuumed.checkpoint()),
            (hlcstore.NotParts, 4, merge, right, right),
            (hlcstore.NoCheckpoint, 1, merge, none, none),
        ):
            with self.subTest(kind=kind, word=word), self.assertRaises(kind) as met:
                call(*args)
            self.assertEqual(met.exception.word, word)

    def test_a_refused_item_changes_nothing(self):
        node = Node(0)
        for call in (lambda: node.write(1, b"", b""), lambda: node.report(2**48), lambda: node.send(2**63)):
            with self.assertRaises(Error):
                call()
        self.assertEqual((node.last, node.next), (0, 0))

    def test_out_of_memory(self):
        """In a process whose memory has a limit, writes are refused at last, and are accepted again without it."""
        program = """
            import resource
            import hlcstore

            node, store, value = hlcstore.Node(0), hlcstore.Store(1), bytes(65535)
            pages = int(open("/proc/self/statm").read().split()[0])
            limit = pages * resource.getpagesize() + 2**26
            resource.setrlimit(resource.RLIMIT_AS, (limit, resource.RLIM_INFINITY))
            items = [node.write(1, b"key", value) for _ in range(3000)]
            accepted = 0
            try:
                while accepted < len(items):
                    store.accept(items[accepted])
                    accepted += 1
            except hlcstore.NoMemory as refused:
                code = refused.code
            resource.setrlimit(resource.RLIMIT_AS, (resource.RLIM_INFINITY, resource.RLIM_INFINITY))
            assert code == 15 and 0 < accepted < len(items)
            assert store.link(0).next == store.rows == accepted
            assert store.accept_all(items[accepted:]) == len(items) - accepted
            assert store.snapshot()[b"key"] == value
            print("all right")
        """
        words = [sys.executable, "-c", textwrap.dedent(program)]
        done = subprocess.run(words, capture_output=True, text=True, timeout=60)
        self.assertEqual((done.stdout, done.stderr), ("all right\n", ""))


class AfterClose(unittest.TestCase):
    def test_a_closed_store_refuses(self):
        store, at, item = Store(1), stamp(1), Item.report(0, 0, stamp(1))
        store.close()
        store.close()
        calls = [
            (store.accept, item), (store.accept_write, 0, 0, at, b"a", b""), (store.accept_delete, 0, 0, at, b"a"),
            (store.accept_report, 0, 0, at), (store.accept_retire, 0, 0, at), (store.accept_all, [item]),
            (store.accept_all, []), (store.accept_items, bytes(item)), (store.apply_records, bytes(item)),
            (store.check_item, item), (store.check_report, 0, 0, at),
            (store.check_write, 0, 0, at, b"a", b""), (store.check_delete, 0, 0, at, b"a"),
            (store.join,), (store.join_at, at), (store.link, 0), (store.floor_node,), (store.snapshot,),
            (store.snapshot, at), (store.snapshots,), (store.snapshot_by_id, 1), (store.close_snapshot, 1),
            (store.close_all,), (store.vacuum,),
            (store.vacuum_to, at), (store.vacuum_part, at), (store.check_vacuum, at), (store.certificate, at),
            (store.checkpoint,), (store.checkpoint_to, io.BytesIO()), (store.increment, at), (store.versions, b"a"),
            *[(getattr, store, name) for name in ("floor", "horizon", "rows", "sizes", "nodes")],
        ]  # fmt: skip
        for call, *args in calls:
            with self.assertRaises(hlcstore.Closed, msg=f"{call} {args}"):
                call(*args)
        self.assertEqual(store.tag, 0)

    def assert_refused(self, snapshot, items, kind):
        calls = [
            (snapshot.get, b"a"), (snapshot.__getitem__, b"a"), (snapshot.__contains__, b"a"), (len, snapshot),
            (list, snapshot), (list, snapshot.keys()), (list, snapshot.items()), (snapshot.count,),
            (list, reversed(snapshot)), (list, snapshot.items(reverse=True)), (snapshot.last_below,),
            (list, snapshot.changes(snapshot)), (snapshot.digest,), (snapshot.read_all, [b"a"]),
            (snapshot.read_all, []), (next, items), (next, items),
        ]  # fmt: skip
        for call, *args in calls:
            with self.assertRaises(kind, msg=f"{call} {args}"):
                call(*args)

    def test_a_closed_snapshot_refuses(self):
        store = fed()
        with store.snapshot() as snapshot:
            items = snapshot.items()
        snapshot.close()
        self.assert_refused(snapshot, items, hlcstore.NoSnapshot)
        self.assertEqual((snapshot.id, snapshot.stamp), (1, stamp(2)))

    def test_a_snapshot_of_a_closed_store_refuses(self):
        with fed() as store:
            snapshot = store.snapshot()
            items = snapshot.items()
        self.assert_refused(snapshot, items, hlcstore.Closed)
        snapshot.close()

    def test_a_block_that_raises_closes(self):
        with self.assertRaises(ZeroDivisionError), fed() as store, store.snapshot():
            raise ZeroDivisionError
        with self.assertRaises(hlcstore.Closed):
            store.snapshots()


if __name__ == "__main__":
    unittest.main()
