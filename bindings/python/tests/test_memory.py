"""Memory and references: calls free and drop what they took, also where they are refused."""

import gc
import io
import pickle
import resource
import sys
import tracemalloc
import unittest

import hlcstore
from hlcstore import Batch, Error, Item, Node, Store, stamp

KEY, VALUE = b"a key of many", b"a value " * 300
LONG_KEY = b"a long key " * 20
TOO_LONG = bytes(65536)
# How often every call is made in each half of the test of objects.
ROUNDS = 500


def refuse(kind, call, *args):
    """Makes a call that is refused."""
    try:
        call(*args)
    except kind:
        return
    raise AssertionError(f"{call} was not refused")


def use_batches():
    """Makes each call of a batch."""
    store, node, batch = Store(1), Node(0), Batch([(KEY, VALUE), (bytearray(LONG_KEY), None)])
    refuse(hlcstore.BadKey, batch.write, b"", VALUE)
    refuse(hlcstore.ValueTooLong, batch.write, b"other", TOO_LONG)
    refuse(TypeError, batch.write, b"other", "text")
    refuse(TypeError, batch.delete, "text")
    refuse(TypeError, Batch, [(KEY, VALUE), (KEY, "text")])
    refuse(TypeError, Batch, [(KEY, VALUE), KEY])
    refuse(TypeError, node.write_batch, 1, [(KEY, VALUE), None])
    refuse(hlcstore.KeyTwice, node.write_batch, 1, [(KEY, VALUE), (KEY, None)])
    item = node.write_batch(1, batch)
    repr(batch), repr(item), batch.writes, item.writes, len(batch), hash(item)
    item == Item.batch(0, 0, stamp(2), batch), refuse(TypeError, Item.batch, 0, 0, 2, batch)
    with node.batch(2) as block:
        block[KEY] = memoryview(VALUE)
        del block[LONG_KEY]
    refuse(ZeroDivisionError, fail_in_block, node)
    refuse(hlcstore.NoWrites, node.batch(3).__exit__, None, None, None)
    refuse(ValueError, block.write, KEY, VALUE)
    refuse(TypeError, batch.__enter__)
    store.check_item(item), store.accept(item), store.accept(block.item)
    store.check_batch(0, 2, stamp(9), batch), store.accept_batch(0, 2, stamp(9), [(KEY, VALUE)])
    refuse(hlcstore.NotNext, store.accept_batch, 0, 2, stamp(9), batch)
    refuse(hlcstore.KeyTwice, bytes, Item.batch(0, 0, stamp(1), [(KEY, None)] * 2))
    refuse(hlcstore.BadBytes, Item.decode, bytes(item)[:-1])
    Item.decode(bytes(item)), pickle.loads(pickle.dumps(item)), item.__reduce__()
    batch.clear()


def fail_in_block(node):
    with node.batch(3) as block:
        block[KEY] = VALUE
        1 // 0


def feed(store, node):
    """Makes each call that feeds a store."""
    items = [node.write(1, KEY, VALUE), node.delete(2, KEY), node.report(3)]
    items.append(node.write(4, bytearray(KEY), memoryview(VALUE)))
    refuse(hlcstore.NotNext, store.accept_all, items[1:])
    store.check_item(items[0])
    store.accept(items[0])
    store.accept_all(iter(items[1:3]))
    store.accept_items(b"".join(map(bytes, items)))
    store.accept_write(0, 4, stamp(5), KEY, VALUE)
    store.check_delete(0, 5, stamp(6), KEY)
    refuse(hlcstore.BadBytes, store.accept_items, b"\1")
    refuse(TypeError, store.accept_all, [items[0], KEY])
    refuse(TypeError, store.accept_write, 0, 5, stamp(6), KEY, "text")
    refuse(hlcstore.ValueTooLong, node.write, 9, KEY, TOO_LONG)
    refuse(hlcstore.ValueTooLong, bytes, Item.write(0, 0, stamp(1), KEY, TOO_LONG))
    hash(items[0]), repr(items), items[0] == items[3], items[0].kind, items[0].value
    for item in items:
        Item.decode(bytes(item)), pickle.loads(pickle.dumps(item))
    repr(store)
    return items


def read(snapshot):
    """Makes each call of a snapshot."""
    snapshot[KEY], snapshot.get(KEY), snapshot.get(b"other"), snapshot.get(b"other", VALUE), KEY in snapshot
    refuse(KeyError, snapshot.__getitem__, b"other")
    refuse(TypeError, snapshot.get, "text")
    snapshot.read_all([KEY, b"other"] * 50)
    refuse(TypeError, snapshot.read_all, [KEY, None])
    list(snapshot.items()), list(snapshot.keys(KEY, b"z")), len(snapshot), snapshot.count(KEY), snapshot.digest(b"a")
    list(snapshot.items(end=bytearray(b"z"), reverse=True)), list(reversed(snapshot)), snapshot.last_below(LONG_KEY)
    list(snapshot.values()), list(snapshot.values(KEY, reverse=True))
    snapshot.last_below(b"a"), list(snapshot.changes(snapshot, KEY, b"z"))
    next(snapshot.items()), next(snapshot.keys(reverse=True))
    refuse(TypeError, snapshot.changes, None)
    refuse(TypeError, snapshot.changes, snapshot, KEY, 5)
    refuse(TypeError, snapshot.items, KEY, 5)


class ShortFile:
    """A file that takes 2,000 bytes at a time, and drops a snapshot."""

    def __init__(self, snapshot):
        self.snapshot = snapshot

    def write(self, piece):
        self.snapshot = None
        return min(len(piece), 2000)


class FullFile:
    def write(self, piece):
        return None


def keep(store):
    """Makes the calls that vacuum, certify, save and restore."""
    vacuum = store.vacuum()
    certificate = store.certificate(vacuum.stamp).certificate
    store.vacuum_to(vacuum.stamp)
    store.versions(KEY), store.versions(bytearray(LONG_KEY), stamp(0), vacuum.stamp)
    refuse(TypeError, store.versions, KEY, "1")
    refuse(hlcstore.AboveFloor, store.certificate, stamp(2**47))
    store.vacuum_part(vacuum.stamp, limit=1), store.vacuum_part(vacuum.stamp, bytearray(KEY), 0)
    refuse(hlcstore.AboveFloor, store.vacuum_to, stamp(2**47))
    refuse(hlcstore.AboveFloor, store.vacuum_part, stamp(2**47), KEY)
    refuse(TypeError, store.vacuum_part, vacuum.stamp, KEY, "1")
    hlcstore.check(certificate)
    refuse(hlcstore.BadLine, hlcstore.check, b"point")
    saved = store.checkpoint()
    store.checkpoint_to(io.BytesIO()), store.checkpoint_to(file=ShortFile(store.snapshot()), tag=5)
    refuse(BlockingIOError, store.checkpoint_to, FullFile())
    refuse(TypeError, store.checkpoint_to, io.StringIO())
    refuse(AttributeError, store.checkpoint_to, KEY)
    with Store.restore(saved) as copy:
        [copy.snapshot_by_id(each.id) for each in copy.snapshots()], refuse(hlcstore.NoSnapshot, copy.snapshot_by_id, 0)
        copy.snapshots(), copy.link(0), copy.floor, copy.join(), copy.join_at(stamp(2**34)), copy.floor_node()
    with Store.restore(saved[at : at + 500] for at in range(0, len(saved), 500)) as copy:
        empty_a_key(copy)
    made = store.increment(vacuum.stamp), store.increment(since=vacuum.stamp, tag=5)
    hlcstore.apply_increment(saved, bytearray(made[0])), hlcstore.apply_increment(older=saved, increment=made[1])
    refuse(hlcstore.BelowHorizon, store.increment, stamp(0)), refuse(TypeError, store.increment, 0)
    refuse(hlcstore.NoIncrement, hlcstore.apply_increment, bytearray(saved), made[0][:-1])
    refuse(TypeError, hlcstore.apply_increment, bytearray(saved), 5)
    parts = hlcstore.split_checkpoint(bytearray(saved), key=bytearray(KEY))
    hlcstore.merge_checkpoints(*parts), hlcstore.merge_checkpoints(left=parts[0], right=bytearray(parts[1]))
    refuse(hlcstore.BadBytes, hlcstore.split_checkpoint, bytearray(saved)[:-1], KEY)
    refuse(TypeError, hlcstore.split_checkpoint, bytearray(saved), 5)
    refuse(hlcstore.NotParts, hlcstore.merge_checkpoints, bytearray(saved), saved)
    refuse(TypeError, hlcstore.merge_checkpoints, bytearray(saved), 5)
    refuse(Error, Store.restore, saved[:-1])
    refuse(Error, Store.restore, [saved[:-1]])
    refuse(TypeError, Store.restore, [saved[:-1], None])


def empty_a_key(store):
    """Deletes a long key, of which a vacuum in parts then drops all rows, and after six rows a whole one; and the last
    key, so that a part leaves nothing."""
    node = Node.restore(0, store.link(0).head, store.link(0).next)
    store.accept_all([node.write(9, LONG_KEY, VALUE), node.delete(10, LONG_KEY)])
    store.close_all()
    keys, part = store.sizes.keys, store.vacuum_part(store.floor, limit=1)
    while part.next is not None:
        part = store.vacuum_part(store.floor, part.next, limit=1)
    if store.sizes.keys != keys - 1:
        raise AssertionError("the key has rows")
    store.accept_all([*(node.write(11, LONG_KEY, VALUE) for _ in range(5)), node.delete(12, LONG_KEY)])
    store.vacuum()
    store.accept(node.delete(13, KEY)), store.vacuum_part(store.floor)
    if store.rows:
        raise AssertionError("a key has rows")


def change():
    """Lists what changes between two snapshots, and the versions of a key."""
    with Store(1) as store:
        before, node = store.snapshot(), Node(0)
        store.accept_all([node.write(1, KEY, VALUE), node.delete(2, LONG_KEY), node.write(3, KEY, b"")])
        list(before.changes(store.snapshot())), list(store.snapshot().changes(before)), store.versions(KEY)
        next(before.changes(store.snapshot(), KEY))


def play():
    """One round: every call, on a store of its own."""
    node = Node(0)
    Node.restore(node.id, node.last, node.next)
    with Store(1) as store:
        feed(store, node)
        with store.snapshot() as snapshot:
            read(snapshot)
            keep(store)
        refuse(hlcstore.NoSnapshot, list, snapshot)
        store.snapshot().close()
        other = store.snapshot()
        store.close_snapshot(other.id)
    with Store(1).snapshot() as apart, Store(1).snapshot() as other:
        refuse(hlcstore.NoSnapshot, apart.changes, other, KEY)
    change()
    use_batches()
    Store(1)
    refuse(hlcstore.BadNodeCount, Store, 0)


class Memory(unittest.TestCase):
    def test_the_process_does_not_grow(self):
        for _ in range(500):
            play()
        before = resource.getrusage(resource.RUSAGE_SELF).ru_maxrss
        for _ in range(2500):
            play()
        grown = resource.getrusage(resource.RUSAGE_SELF).ru_maxrss - before
        self.assertLess(grown, 500, "KiB")

    def test_no_object_stays(self):
        """What Python allocates is counted. An object that stayed in each round would have 16 bytes or more. Some are
        left in the lists of free objects, which Python keeps."""
        tracemalloc.start()
        for _ in range(ROUNDS):
            play()
        gc.collect()
        before, _ = tracemalloc.get_traced_memory()
        for _ in range(ROUNDS):
            play()
        gc.collect()
        after, _ = tracemalloc.get_traced_memory()
        tracemalloc.stop()
        self.assertLess(after - before, 8 * ROUNDS, "bytes")

    def test_references_are_dropped(self):
        """Each object that a call is passed has as many references after it as before."""
        store, node, default = Store(1), Node(0), object()
        items = feed(store, node)
        snapshot = store.snapshot()

        def use():
            read(snapshot)
            use_batches()
            snapshot.get(b"other", default)
            iterators = snapshot.items(KEY, VALUE), iter(snapshot), store.snapshot(), store.snapshots()
            del iterators
            refuse(hlcstore.NotNext, store.accept, items[0])
            refuse(hlcstore.NotNext, store.accept_all, items)
            Node(1).write(1, KEY, VALUE), Item.delete(0, 1, stamp(2), KEY), refuse(TypeError, Item.delete, 0, 1, 2, KEY)
            items[0].key, store.link(0).retired, node.retired
            bytes(items[0]), repr(items[0]), hash(items[0])
            Item.decode(bytes(items[0])), items[0].__reduce__(), list(snapshot.values(KEY)), repr(store)
            refuse(hlcstore.BadBytes, Item.decode, KEY)

        watched = [KEY, VALUE, LONG_KEY, TOO_LONG, default, store, node, snapshot, items[0]]
        watched += [Store, Node, Item, Batch, Error, None, True]
        for _ in range(50):
            use()
        gc.collect()
        before = [sys.getrefcount(each) for each in watched]
        for _ in range(100):
            use()
        gc.collect()
        for each, references in zip(watched, before):
            self.assertLess(abs(sys.getrefcount(each) - references), 50, repr(each)[:50])


if __name__ == "__main__":
    unittest.main()
