"""What the tests of ranges share: clusters in memory, and replicas and a model that are driven step by step."""

import json
import time
from unittest import mock

from support import Memory, MemoryCase, MemoryEtcd

import hlcstore
import log
import ranges
import replica
from checkpoints import KEEP
from model import Model
from part import Part

OTHER = "other:1"  # the member of a second cluster


class RangeCase(MemoryCase):
    """A coordinator, and a writer w1, of a log in one range."""

    def setUp(self):
        super().setUp()
        self.second = Memory()
        self.etcds = []  # all connections that programs made
        for program in "replica", "coordinator", "writer":
            self.enterContext(mock.patch(program + ".Etcd", self.etcd_at))
        self.coordinator = self.start_coordinator()
        self.coordinator.report_all()
        self.coordinator.let_join(b"w1")
        self.writer = self.start_writer("w1")

    def etcd_at(self, members, *_):
        etcd = MemoryEtcd(self.second if OTHER in members else self.memory)
        self.etcds.append(etcd)
        return etcd

    # ---- What an operator asks for ----

    def ask(self, request, words=None):
        self.put(b"ask/" + request, b"" if words is None else json.dumps(words).encode())
        self.coordinator.answer()
        return self.value(b"ask/" + request)

    def split(self, key, **words):
        return self.ask(b"split/" + key.hex().encode(), words or None)

    def merge(self, key):
        return self.ask(b"merge/" + key.hex().encode())

    def live(self):
        """Returns the ranges that go on: the number and the ends of each."""
        return [(found.id, found.start, found.end) for found in ranges.read_map(self.new_etcd()).all_live()]

    # ---- What programs do ----

    def write(self, *keys, writer=None):
        """Writes to these keys, whose values name what is written, and returns the pairs that a writer has appended."""
        writer = writer or self.writer
        writer.append_changes([[(key, key)] for key in keys])
        writer.append_waiting()

    def report(self):
        """Lets the coordinator and the writer report in all ranges, so that the floors come up to here."""
        time.sleep(0.002)  # the clocks have read a later time than that of the last write
        self.coordinator.report_all()
        for part in self.writer.machine.parts.values():
            part.appended = 0
        self.writer.take_over()
        self.writer.report_idle(1e9)

    def entries(self, found, after=0):
        """Yields the entries of a range's log behind a revision."""
        etcd = self.etcd_at(found.members)
        while page := log.page(etcd, after, found.prefix)[0]:
            yield from page
            after = page[-1].revision

    def known(self):
        return ranges.read_map(self.new_etcd())

    def new_model(self):
        """Returns a model of all logs."""
        model = Model()
        for number, found in sorted(self.known().ranges.items()):
            for entry in self.entries(found):
                model.apply(entry, number)
        return model

    def new_replica(self, name="r1"):
        return replica.Replica(name, self.folder / name, 1, ["member"])

    def catch_up(self, replica):
        """Lets a replica apply all logs, and returns it. Its parts have no threads."""
        replica.map.read(self.new_etcd())
        for number, found in sorted(replica.map.ranges.items()):
            part = replica.parts.setdefault(number, Part(replica, found))
            if part.store is None and not part.begin_from_disk():
                self.assertTrue(part.begin_from_parents())
            for entry in self.entries(found, part.revision):
                part.apply(entry)
        return replica

    def caught_up(self, name="r1"):
        return self.catch_up(self.new_replica(name))

    def save_twice(self, replica):
        """Lets the ranges that go on have enough checkpoints of their own."""
        for number in replica.map.live:
            part = replica.parts[number]
            for revision in range(KEEP):
                part.checkpoints.save(part.revision + revision, part.store.checkpoint(part.revision))

    # ---- What is compared ----

    def pairs(self, answerer, stamp=None):
        with answerer.snapshot(stamp) as snapshot:
            return [(key, value.split(b".")[2]) for key, value in snapshot.items(b"", b"")]

    def compare(self, *replicas, stamp=None):
        """Compares replicas with the model at a stamp, or at the cut; returns the keys, with what was written."""
        model = self.new_model()
        stamp = model.floor() if stamp is None else stamp
        with model.snapshot(stamp) as snapshot:
            digest = snapshot.digest(b"", b"")
        for each in replicas:
            with each.snapshot(stamp) as snapshot:
                self.assertEqual(snapshot.digest(b"", b""), digest)
            for number in self.known().live:
                links = [list(link) for link in each.parts[number].links()]
                self.assertEqual(links, model.logs[number].links)
        return dict(self.pairs(model, stamp))

    def writes(self):
        """Returns the keys of all writes in the logs, in the order of their stamps."""
        versions = [(stamp, key) for key, found in self.new_model().versions.items() for stamp, _, _ in found]
        return [key for _, key in sorted(versions)]


def stamp_of(reading):
    return hlcstore.stamp(reading)
