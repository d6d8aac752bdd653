"""The coordinator: it appends nothing that a replica cannot apply, and takes no replica's entries away."""

import contextlib
import json
import time
import unittest
from unittest import mock

from support import RETENTION, MemberCase, MemoryCase

import life
import log
from coordinator import MOST_NODES
from etcd import delete
from hlcstore import Node, Stamp, split, stamp, threshold_record

HOUR = 3_600_000  # milliseconds


class CoordinatorCases:
    def setUp(self):
        super().setUp()
        self.coordinator = self.start_coordinator()
        self.coordinator.append_item(self.coordinator.node.report)

    def join(self, name):
        """Lets a node join for a name, and returns its number."""
        self.coordinator.let_join(name)
        return json.loads(self.value(b"node/" + name))

    def ask(self, wish):
        self.put(b"ask/" + wish)
        self.coordinator.answer()

    def retire(self, coordinator):
        coordinator.retires = True
        coordinator.work()

    def links(self):
        """Returns of each node, at a replica with the whole log: the next number, and whether it retired."""
        store = self.replay().store
        return [(store.link(node).next, store.link(node).retired) for node in range(store.nodes)]

    # ---- The end of the coordinator ----

    def test_none_is_started_after_a_retirement(self):
        self.retire(self.coordinator)
        with self.assertRaisesRegex(life.Never, "the coordinator's node retired"):
            self.start_coordinator()
        self.assertRaises(log.Retired, self.coordinator.append_plan, threshold_record(stamp(1)), threshold=1)
        self.assertEqual(self.links(), [(2, True)])

    def test_one_that_was_killed_is_followed_by_another(self):
        second = self.start_coordinator()
        second.append_item(second.node.report)
        self.assertRaises(log.Fenced, self.coordinator.append_item, self.coordinator.node.report)
        self.retire(second)
        self.assertEqual(self.links(), [(3, True)])

    def test_a_join_whose_coordinator_was_fenced(self):
        second = self.start_coordinator()
        self.assertRaises(log.Fenced, self.coordinator.let_join, b"w1")
        second.let_join(b"w1")
        self.assertEqual(self.links(), [(1, False), (0, False)])

    # ---- Joins ----

    def test_a_join_starts_at_the_last_report(self):
        self.join(b"w1")
        self.coordinator.append_item(self.coordinator.node.report)
        last = self.coordinator.node.last
        self.join(b"w2")
        self.assertEqual(self.replay().store.link(2).head, last)

    def test_a_name_joins_once(self):
        self.ask(b"join/w1")
        self.ask(b"join/w1")
        self.assertIsNone(self.value(b"ask/join/w1"))
        self.assertEqual(self.links(), [(1, False), (0, False)])

    def test_requests_that_are_none(self):
        for wish in b"", b"join", b"lost", b"lost/nobody", b"leave/w1":
            self.ask(wish)
        self.assertIsNone(self.value(b"ask/lost/nobody"))
        self.assertEqual(self.links(), [(1, False)])

    # ---- Writers that are lost ----

    def test_a_lost_writer_is_retired(self):
        self.join(b"w1")
        self.ask(b"lost/w1")
        self.assertEqual(self.links(), [(1, False), (1, True)])
        self.assertIsNone(self.value(b"ask/lost/w1"))
        self.assertIsNone(self.value(b"node/w1"))
        self.assertEqual(self.join(b"w1"), 2)

    def test_a_lost_writer_retires_by_itself(self):
        """Once just before the coordinator takes its link over, and once after that: then the writer is fenced."""
        for places in 0, 1:
            with self.subTest(places=places):
                number = self.join(b"w%d" % places)
                writer = log.Link(self.new_etcd(), number)
                node = Node(number, Stamp.from_number(writer.claim(None)["last"]))
                item = bytes(node.retire(split(node.last)[0]))
                state = {"next": 1, "last": node.last, "retired": True}
                fenced = self.assertRaises(log.Fenced) if places else contextlib.nullcontext()

                def retire():
                    with fenced:
                        writer.append(log.batch_key(number, 0), item, state)

                self.coordinator.etcd.before = [lambda: None] * places + [retire]
                self.ask(b"lost/w%d" % places)
                self.assertEqual(self.links()[number], (1, True))
                self.assertIsNone(self.value(b"ask/lost/w%d" % places))

    def test_another_coordinator_retires_it_first(self):
        """The first coordinator has read the request, or has taken the writer's link over, when the second one comes.

        The name belongs to a new node by then: the first one leaves it there.
        """
        for places in 0, 1:
            with self.subTest(places=places):
                first, name = self.start_coordinator(), b"w%d" % places
                first.let_join(name)
                number = json.loads(self.value(b"node/" + name))

                def take_over():
                    self.coordinator = self.start_coordinator()
                    self.ask(b"lost/" + name)
                    self.join(name)

                first.etcd.before = [lambda: None] * places + [take_over]
                first.retire_lost(name)
                self.assertEqual(self.links()[number:], [(1, True), (0, False)])
                self.assertEqual(json.loads(self.value(b"node/" + name)), number + 1)

    def test_a_fenced_coordinator_retires_nobody(self):
        """Also where it took the writer's link over before: the request stays for the second coordinator."""
        number = self.join(b"w1")
        self.put(b"ask/lost/w1")
        for places in 0, 1:
            with self.subTest(places=places):
                first = self.coordinator

                def take_over():
                    self.coordinator = self.start_coordinator()

                first.etcd.before = [lambda: None] * places + [take_over]
                first.retire_lost(b"w1")
                self.assertEqual(self.links()[number], (0, False))
                self.assertIsNotNone(self.value(b"ask/lost/w1"))
        self.coordinator.answer()
        self.assertEqual(self.links()[number], (1, True))

    def test_a_fenced_coordinator_fences_no_writer(self):
        number = self.join(b"w1")
        writer = log.Link(self.new_etcd(), number)
        node = Node(number, Stamp.from_number(writer.claim(None)["last"]))
        self.coordinator.etcd.before = [self.start_coordinator]
        self.coordinator.retire_lost(b"w1")
        item = bytes(node.report(split(node.last)[0]))
        writer.append(log.batch_key(number, 0), item, {"next": 1, "last": node.last})
        self.assertEqual(self.links()[number], (1, False))

    def test_answers_that_are_lost(self):
        self.coordinator.etcd.answers_are_lost = True
        self.ask(b"join/w1")
        self.ask(b"join/w2")
        self.ask(b"lost/w1")
        self.retire(self.coordinator)
        self.assertEqual(self.links(), [(2, True), (1, True), (0, False)])

    # ---- The clock ----

    def test_its_clock_was_set_back(self):
        """The stamps of the last reading are nearly used up: the next ones go on above them."""
        ahead = stamp(time.time_ns() // 1_000_000 + HOUR, 65_530)
        self.coordinator.node = Node.restore(0, ahead, self.coordinator.node.next)
        for _ in range(20):
            before = self.coordinator.node.last
            self.coordinator.append_item(self.coordinator.node.report)
            self.assertGreater(self.coordinator.node.last, before)
        self.assertEqual(self.links(), [(21, False)])

    def test_its_clock_was_set_forward(self):
        """A node that joins starts where the clock was, also after it is right again."""
        with mock.patch("coordinator.reading", lambda *_: time.time_ns() // 1_000_000 + HOUR):
            self.coordinator.append_item(self.coordinator.node.report)
        ahead = self.coordinator.node.last
        self.coordinator.append_item(self.coordinator.node.report)
        self.join(b"w1")
        start = self.replay().store.link(1).head
        self.assertEqual((split(start)[0], start), (split(ahead)[0], self.coordinator.node.last))

    def test_a_lost_writer_with_a_full_counter(self):
        number = self.join(b"w1")
        link = log.Link(self.new_etcd(), number)
        state = link.claim(None)
        node = Node.restore(number, stamp(time.time_ns() // 1_000_000 + HOUR, 65_534), 0)
        item = bytes(node.report(0))
        link.append(log.batch_key(number, 0), item, state | {"next": 1, "last": node.last})
        self.assertEqual(split(node.last)[1], 65_535)
        self.ask(b"lost/w1")
        self.assertEqual(self.links()[number], (2, True))

    # ---- Retention, and the log's length ----

    def publish(self, name, floor, checkpoint):
        self.put(b"replica/" + name, log.to_json({"name": name.decode(), "floor": floor, "checkpoint": checkpoint}))

    def revisions(self):
        return [entry.revision for entry in log.page(self.new_etcd(), 0)[0]]

    def test_the_slowest_replica_counts(self):
        """The threshold is below the lower floor, and the log is cut up to the older checkpoint."""
        for number in range(4):
            self.coordinator.append_item(self.coordinator.node.report)
        revisions = self.revisions()
        low, high = stamp(RETENTION + 50), stamp(RETENTION + 90)
        for first, second in (b"r1", b"r2"), (b"r2", b"r1"):
            with self.subTest(first=first):
                self.publish(first, low, revisions[3])
                self.publish(second, high, revisions[1])
                self.coordinator.keep_up()
                self.assertEqual(self.coordinator.head["threshold"], stamp(50))
                self.assertEqual(json.loads(self.value(log.CUT)), revisions[1])

    def test_the_threshold_is_in_the_log_and_rises(self):
        self.publish(b"r1", stamp(RETENTION + 50), 0)
        self.coordinator.keep_up()
        self.publish(b"r2", stamp(RETENTION + 10), 0)
        self.coordinator.keep_up()
        self.assertEqual(self.replay().threshold, stamp(50))
        self.publish(b"r2", stamp(RETENTION + 70), 0)
        self.publish(b"r1", stamp(RETENTION + 60), 0)
        self.coordinator.keep_up()
        self.assertEqual(self.replay().threshold, stamp(60))
        self.assertIsNone(self.value(log.CUT))

    def test_a_replica_comes_back_with_an_old_checkpoint(self):
        """The log was cut while it was away. What was cut stays so for a third replica."""
        for number in range(4):
            self.coordinator.append_item(self.coordinator.node.report)
        revisions = self.revisions()
        self.publish(b"r1", 0, revisions[3])
        self.coordinator.keep_up()
        self.publish(b"r3", 0, revisions[0])
        self.coordinator.keep_up()
        self.assertEqual(json.loads(self.value(log.CUT)), revisions[3])
        with self.assertRaises(log.Cut):
            log.page(self.new_etcd(), revisions[1])

    def test_no_replica_is_there(self):
        self.coordinator.keep_up()
        self.assertIsNone(self.value(log.CUT))
        self.assertEqual(self.coordinator.head["threshold"], 0)


class InMemory(CoordinatorCases, MemoryCase):
    def test_the_last_number_is_assigned(self):
        """A further join is refused, and the writer that asked ends with a text that says so."""
        for number in range(1, MOST_NODES):
            self.assertEqual(self.join(b"w%d" % number), number)
        self.coordinator.append_item(self.coordinator.node.report)
        with mock.patch("writer.time.sleep", lambda _: self.coordinator.answer()):
            with self.assertRaisesRegex(life.Never, "no node for late: all 1024 node numbers are assigned"):
                self.start_writer("late")
        self.assertIsNone(self.value(b"ask/join/late"))
        self.assertIsNone(self.value(b"node/late"))
        self.coordinator.append_item(self.coordinator.node.report)
        self.assertEqual(len(self.links()), 1024)

    def test_a_request_is_refused_for_two_writers_of_one_name(self):
        """The first one takes the request back as it ends, and the second one asks again."""
        self.coordinator.head["nodes"] = MOST_NODES
        waits = []

        def wait(_):
            self.coordinator.answer()
            if not waits:
                self.new_etcd().transact([], [delete(b"ask/join/late")])
            waits.append(1)

        with mock.patch("writer.time.sleep", wait), self.assertRaisesRegex(life.Never, "no node for late"):
            self.start_writer("late")
        self.assertIsNone(self.value(b"ask/join/late"))

    def test_a_refused_request_is_answered_once(self):
        self.coordinator.head["nodes"] = MOST_NODES
        self.ask(b"join/late")
        revision = self.memory.revision
        self.coordinator.answer()
        self.assertEqual(self.memory.revision, revision)

    def test_its_input(self):
        unknown = self.obey(self.coordinator, "\nretire now\nclock soon\nclock -7\nretire\nretired\n")
        self.assertEqual((self.coordinator.retires, self.coordinator.offset), (True, -7))
        self.assertEqual(unknown, ["", "retire now", "clock soon", "retired"])
        self.assertFalse(self.coordinator.life.asked.is_set())


class OfAMember(CoordinatorCases, MemberCase):
    pass


class ByTheGateway(CoordinatorCases, MemberCase):
    by_rpc = False


if __name__ == "__main__":
    unittest.main()
