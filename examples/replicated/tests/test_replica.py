"""The replica: checkpoints between two entries of the log, and beginnings."""

import json
import threading
import unittest
from unittest import mock

from support import MemoryCase

import hlcstore
import life
import log
import serve
from etcd import Stopped


class Between:
    """A lock that notes whether the store and the revision fit together when it is taken, and when it is given back."""

    def __init__(self, fits):
        self.lock, self.fits, self.seen = threading.Lock(), fits, []

    def __enter__(self):
        self.lock.acquire()
        self.seen.append(self.fits())

    def __exit__(self, *_):
        self.seen.append(self.fits())
        self.lock.release()


class NotedStore:
    """A store that notes whether the lock is taken at each call that changes or saves it."""

    def __init__(self, replica):
        self.store, self.replica = replica.store, replica
        self.entries, self.locked, self.saved = 0, [], []

    def __getattr__(self, name):
        self.locked.append((name, self.replica.between.lock.locked()))
        return getattr(self.store, name)

    def apply_records(self, records):
        self.entries += 1
        return self.__getattr__("apply_records")(records)

    def checkpoint(self, tag):
        self.saved.append((tag, self.entries))
        return self.__getattr__("checkpoint")(tag)


class Applying(MemoryCase):
    """Three entries, at the revisions 1 to 3, which a replica applies and saves."""

    def setUp(self):
        super().setUp()
        self.replica = self.new_replica()
        self.store = self.replica.store = NotedStore(self.replica)
        self.replica.between = Between(lambda: self.store.entries == self.replica.revision)
        first, start = bytes(hlcstore.Node(0).report(5)), hlcstore.Stamp(5)
        second = hlcstore.threshold_record(hlcstore.Stamp(0, 3)) + hlcstore.join_record(1, start)
        third = hlcstore.threshold_record(hlcstore.Stamp(0, 2)) + bytes(hlcstore.Node(1, start).report(6))
        self.entries = [log.Entry(number, records) for number, records in enumerate((first, second, third), 1)]

    def test_an_entry_and_its_revision_come_at_once(self):
        for entry in self.entries:
            self.replica.apply(entry)
        self.assertEqual(self.replica.between.seen, [True] * 6)
        self.assertEqual(self.store.locked, [("apply_records", True)] * 3)
        self.assertEqual((self.replica.threshold, self.store.store.nodes), (3, 2))

    def test_entries_that_come_again_change_nothing(self):
        for entry in self.entries + self.entries:
            self.replica.apply(entry)
        store = self.store.store
        self.assertEqual((self.replica.threshold, store.nodes, store.link(1).next), (3, 2, 1))

    def test_a_checkpoint_is_made_between_two_entries(self):
        for entry in self.entries:
            self.replica.apply(entry)
            self.replica.save()
        self.assertEqual(self.store.saved, [(1, 1), (2, 2), (3, 3)])
        self.assertIn(("checkpoint", True), self.store.locked)
        self.assertNotIn(("checkpoint", False), self.store.locked)

    def test_a_checkpoint_waits_for_an_entry(self):
        """Nor is its revision read before the entry is whole."""
        save = threading.Thread(target=self.replica.save)
        apply = self.store.apply_records

        def apply_beside_a_save(records):
            save.start()
            save.join(0.05)
            return apply(records)

        self.store.apply_records = apply_beside_a_save
        self.replica.apply(self.entries[0])
        save.join()
        self.assertEqual(self.store.saved, [(1, 1)])
        self.assertEqual(hlcstore.Store.restore(self.replica.newest()).tag, 1)


class Beginning(MemoryCase):
    def setUp(self):
        super().setUp()
        self.coordinator = self.start_coordinator()
        for _ in range(3):
            self.coordinator.append_item(self.coordinator.node.report)

    def test_snapshots_of_a_checkpoint_are_closed(self):
        """Their readers are gone, and nobody else would close them."""
        old = self.replay()
        with old.store.snapshot():
            saved = old.store.checkpoint(old.revision)
        new = self.new_replica()
        new.begin("test", lambda: saved)
        self.assertEqual(len(hlcstore.Store.restore(saved).snapshots()), 1)
        self.assertEqual(new.store.snapshots(), [])
        self.assertEqual((new.revision, new.store.floor), (old.revision, old.store.floor))

    def test_it_goes_on_behind_its_checkpoint(self):
        old = self.replay()
        old.save()
        self.coordinator.append_item(self.coordinator.node.report)
        new = self.new_replica()
        new.begin_from_disk()
        self.assertEqual(new.revision, old.revision)
        for entry in log.page(self.new_etcd(), new.revision)[0]:
            new.apply(entry)
        self.assertEqual(new.store.floor, self.coordinator.node.last)

    def test_a_damaged_checkpoint_is_removed(self):
        old = self.replay()
        old.save()
        (old.checkpoints.folder / "ffffffffffffffff.checkpoint").write_bytes(old.newest()[:-1])
        new = self.new_replica()
        new.begin_from_disk()
        self.assertEqual(new.revision, old.revision)
        self.assertEqual(len(new.checkpoints.paths()), 1)

    def test_a_checkpoint_of_another_version_stays(self):
        old = self.replay()
        old.save()
        path = old.checkpoints.folder / "ffffffffffffffff.checkpoint"
        path.write_bytes(b"\0\0\0\2" + old.newest()[4:])
        with self.assertRaisesRegex(life.Never, f"^{path} is of another version"):
            self.new_replica().begin_from_disk()
        self.assertEqual(len(old.checkpoints.paths()), 2)

    def test_it_begins_from_another_where_the_log_was_cut(self):
        other = self.replay()
        other.save()
        for name, address in ("r0", "a..b:1"), ("r2", serve.start(other.replica).address):  # the first is no address
            words = {"name": name, "address": address, "checkpoint": other.revision}
            self.put(b"replica/" + name.encode(), log.to_json(words))
        log.cut(self.new_etcd(), self.coordinator.link, other.revision)
        late = self.new_replica()
        with self.assertRaises(log.Cut):
            log.page(self.new_etcd(), late.revision)
        late.begin_from_another(self.new_etcd())
        self.assertEqual((late.revision, late.store.floor), (other.revision, other.store.floor))

    def test_it_publishes_while_a_checkpoint_is_made(self):
        """That may take longer than its lease."""
        ended, published = threading.Event(), threading.Semaphore(0)

        def pause(_):
            if ended.wait(0.01):
                raise Stopped

        self.enterContext(mock.patch("time.sleep", pause))
        replica = self.replay().replica
        replica.seconds, replica.publish, replica.save_all = 0, lambda *_: published.release(), ended.wait
        life.essential(replica.keep_up, "address")
        seen = [published.acquire(timeout=60) for _ in range(3)]
        ended.set()
        for thread in threading.enumerate():
            if thread.name.startswith("keep_"):
                thread.join()
        self.assertEqual(seen, [True] * 3)

    def test_it_publishes_its_oldest_checkpoint(self):
        replica, etcd = self.replay(), self.new_etcd()
        replica.checkpoints.save(3, b"old")
        replica.checkpoints.save(4, b"new")
        with mock.patch.object(etcd, "lease", lambda _: 0):
            replica.replica.publish(etcd, None, "address")
        words = {"name": "r1", "address": "address", "floor": replica.store.floor, "checkpoint": 3}
        self.assertEqual(json.loads(self.value(b"replica/r1")), words)


if __name__ == "__main__":
    unittest.main()
