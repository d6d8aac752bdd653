"""The writer: its clock beside wrong ones, its node, and its end."""

import json
import unittest
from unittest import mock

from support import MemoryCase

import clock
import life
import log
from hlcstore import CounterFull, Node, split, stamp
from writer import AHEAD

HOUR = 3_600_000  # milliseconds
NOW = 1_700_000_000_000  # milliseconds


class Clock(MemoryCase):
    def setUp(self):
        super().setUp()
        self.enterContext(mock.patch("clock.time.time_ns", lambda: NOW * 1_000_000))
        self.coordinator = self.start_coordinator()
        self.coordinator.append_item(self.coordinator.node.report)
        self.coordinator.let_join(b"w1")
        self.writer = self.start_writer("w1")

    def test_the_stamps_of_a_reading_are_used_up(self):
        """A clock that stands still, or was set back, gives more stamps than the counter has places."""
        for offset in 0, -HOUR:
            self.writer.offset = offset
            with self.assertRaises(CounterFull):
                for _ in range(1 << 16):
                    self.writer.node.report(NOW + offset)
            for _ in range((1 << 16) + 10):
                before = self.writer.node.last
                self.writer.node.report(self.writer.reading())
                self.assertGreater(self.writer.node.last, before)
        self.assertLess(split(self.writer.node.last)[0], NOW + 10)

    def test_a_clock_that_is_right_is_read(self):
        self.assertEqual(self.writer.reading(), NOW)
        self.writer.offset = -5
        self.assertEqual(self.writer.reading(), NOW - 5)
        self.writer.node = Node.restore(1, stamp(NOW + 3, clock.FULL - 1), 0)
        self.assertEqual(self.writer.reading(), NOW - 5)
        self.writer.node = Node.restore(1, stamp(NOW + 3, clock.FULL), 0)
        self.assertEqual(self.writer.reading(), NOW + 4)
        self.writer.offset = 4
        self.assertEqual(self.writer.reading(), NOW + 4)

    def test_a_clock_before_its_first_millisecond(self):
        self.writer.offset = -2 * NOW
        self.assertEqual(self.writer.reading(), 0)

    # ---- Stamps of others ----

    def hear(self, physical):
        """Receives a stamp of this physical part, and returns whether the writer's clock has it now."""
        heads = [head for head in self.new_etcd().list(b"link/") if head.key == log.link_key(0)]
        state = json.loads(heads[0].value) | {"last": stamp(physical, 7)}
        with mock.patch.object(self.writer.etcd, "list", lambda _: [heads[0]._replace(value=log.to_json(state))]):
            self.writer.listen()
        return self.writer.node.last > stamp(physical, 7)

    def test_a_stamp_of_a_wrong_clock_is_not_taken_over(self):
        before = self.writer.node.last
        for ahead in AHEAD, HOUR:
            self.assertFalse(self.hear(NOW + ahead))
        self.assertEqual(self.writer.node.last, before)

    def test_a_stamp_that_is_a_little_ahead_is_taken_over(self):
        self.assertTrue(self.hear(NOW + AHEAD - 1))
        self.assertEqual(split(self.writer.node.last)[0], NOW + AHEAD - 1)

    def test_a_clock_that_was_set_back_is_carried_along(self):
        self.writer.node = Node.restore(1, stamp(NOW), 0)
        self.writer.offset = -HOUR
        self.assertTrue(self.hear(NOW + 1000))
        self.assertEqual(split(self.writer.node.last)[0], NOW + 1000)


class Nodes(MemoryCase):
    def setUp(self):
        super().setUp()
        self.coordinator = self.start_coordinator()
        self.coordinator.append_item(self.coordinator.node.report)

    def start_beside(self, call, name="w1"):
        """Starts a writer. While it waits for the coordinator, this call is made."""
        with mock.patch("writer.time.sleep", lambda _: call()):
            return self.start_writer(name)

    def test_it_waits_for_its_node(self):
        writer = self.start_beside(self.coordinator.answer)
        self.assertEqual((writer.number, writer.node.last), (1, self.coordinator.node.last))

    def test_it_goes_on_where_it_was(self):
        first = self.start_beside(self.coordinator.answer)
        first.append(0, bytes(first.issue_batch(3)))
        second = self.start_writer("w1")
        self.assertEqual((second.number, second.node.next), (1, first.node.next))
        self.assertEqual(second.node.last, first.node.last)
        self.assertRaises(log.Fenced, first.append, first.node.next, bytes(first.issue_batch(1)))
        second.append(second.node.next, bytes(second.issue_batch(1)))
        self.assertEqual(self.replay().store.link(1).next, second.node.next)

    def test_it_retires(self):
        """Its name is free again, and a request to retire it is answered by that."""
        writer = self.start_beside(self.coordinator.answer)
        self.put(b"ask/lost/w1")
        writer.retires = True
        writer.write()
        self.assertTrue(self.replay().store.link(1).retired)
        self.assertIsNone(self.value(b"node/w1"))
        self.assertIsNone(self.value(b"ask/lost/w1"))
        self.assertRaises(log.Retired, writer.append, 1, b"")
        self.assertEqual(self.start_beside(self.coordinator.answer).number, 2)

    def test_its_node_retires_while_it_starts(self):
        first = self.start_beside(self.coordinator.answer)
        first.retires = True
        with mock.patch("writer.Writer.find_node", lambda _: first.write() or 1):
            with self.assertRaisesRegex(life.Never, "node 1 of w1 retired"):
                self.start_writer("w1")
        self.assertEqual(self.replay().store.link(1)[::2], (1, True))

    def test_the_coordinator_retires_while_it_waits(self):
        def retire():
            self.coordinator.retires = True
            self.coordinator.work()

        with self.assertRaisesRegex(life.Never, "no node for w1: the coordinator retired"):
            self.start_beside(retire)

    def test_its_input(self):
        writer = self.start_beside(self.coordinator.answer)
        unknown = self.obey(writer, "\nclock\nclock soon\nclock -5\nstop\nretire\n")
        self.assertEqual((writer.offset, writer.retires), (-5, True))
        self.assertEqual(unknown, ["", "clock", "clock soon", "stop"])
        self.assertFalse(writer.life.asked.is_set())


if __name__ == "__main__":
    unittest.main()
