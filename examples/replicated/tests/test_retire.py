"""A node that ends in several ranges: a writer or a coordinator is killed at each step, and no merge waits for good."""

import unittest
from unittest import mock

from range_support import OTHER, RangeCase

import log
import machine
from etcd import delete
from machine import RETIRES


class Killed(Exception):
    pass


def kill():
    raise Killed


def nothing():
    pass


def finish(coordinator, left=10.0):
    """Lets a coordinator look at decisions to retire, of which it leaves those of so many seconds to their writers."""
    with mock.patch("coordinator.LEFT", left), mock.patch("logs.warning"):
        coordinator.finish_retirements()


class Ends(RangeCase):
    def setUp(self):
        super().setUp()
        self.split(b"m")
        self.write(b"a", b"b", b"z")

    def killed_at(self, place, etcd, call):
        """Lets a program be killed before this transaction of a call."""
        etcd.before = [nothing] * place + [kill]
        with self.assertRaises(Killed):
            call()
        etcd.before = []

    def decided(self):
        return [pair.key for pair in self.new_etcd().list(RETIRES)]

    def links(self, node):
        model = self.new_model()
        return [model.logs[number].links[node] for number in self.known().live]

    def assert_retired(self, node=1, name=b"w1"):
        """A node has retired, with links that are alike, and nothing is left of it that a merge waits for."""
        links = self.links(node)
        self.assertEqual(links, [links[0]] * len(links))
        self.assertTrue(links[0][2])
        self.assertEqual(self.decided(), [])
        self.assertIsNone(self.value(b"node/" + name))
        if len(links) > 1:
            self.assertIsNone(self.merge(b"m"))
            self.assertEqual(len(self.live()), 1)

    # ---- The writer is killed, and does not come again ----

    def test_it_is_killed_before_it_decides(self):
        """Nothing was decided: a merge takes place, and the next process goes on."""
        self.killed_at(0, self.writer.etcd, self.writer.retire)
        self.assertIsNone(self.merge(b"m"))
        finish(self.coordinator, -1)
        self.assertFalse(self.start_writer("w1").retires)

    def test_it_is_killed_after_its_decision(self):
        """Before its last items in both ranges, or in one: the coordinator leaves them to it for some seconds."""
        for place in 1, 2:
            with self.subTest(place=place):
                name = b"w%d" % place
                self.coordinator.let_join(name)
                writer = self.start_writer(name.decode())
                self.killed_at(place, writer.etcd, writer.retire)
                self.assertIsNotNone(self.merge(b"m"))
                finish(self.coordinator)
                self.assertEqual(len(self.decided()), 1)
                finish(self.coordinator, -1)
                self.assert_retired(place, name)
                self.split(b"m")

    def test_it_is_killed_after_its_last_items(self):
        """Nobody can append anything for it: the coordinator does not wait."""
        self.killed_at(3, self.writer.etcd, self.writer.retire)
        self.assertIsNotNone(self.merge(b"m"))
        finish(self.coordinator)
        self.assert_retired()

    def test_so_is_a_coordinator_that_does_the_rest(self):
        """Before it takes links over, before last items, and before the decision goes: the next one does the rest."""
        self.killed_at(1, self.writer.etcd, self.writer.retire)
        for place in 0, 1, 2, 3, 4, 3, 1:
            with self.subTest(place=place):
                self.killed_at(place, self.coordinator.etcd, lambda: finish(self.coordinator, -1))
                self.assertEqual(len(self.decided()), 1)
                self.coordinator = self.start_coordinator()
        finish(self.coordinator, -1)
        self.assert_retired()

    def test_a_coordinator_that_is_fenced(self):
        self.killed_at(1, self.writer.etcd, self.writer.retire)
        first, self.coordinator = self.coordinator, self.start_coordinator()
        before = self.memory.revision
        finish(first, -1)
        self.assertEqual(self.memory.revision, before)
        finish(self.coordinator, -1)
        self.assert_retired()

    def test_its_name_has_another_node(self):
        """The decision of a node without a name is done too, and no other node loses its name."""
        self.killed_at(1, self.writer.etcd, self.writer.retire)
        self.coordinator.decide([delete(b"node/w1")])
        self.coordinator.let_join(b"w1")
        finish(self.coordinator, -1)
        self.assertEqual((self.decided(), self.value(b"node/w1")), ([], b"2"))
        self.assertTrue(all(link[2] for link in self.links(1)))

    def test_an_answer_is_lost(self):
        self.killed_at(1, self.writer.etcd, self.writer.retire)
        self.coordinator.etcd.answers_are_lost = True
        finish(self.coordinator, -1)
        self.coordinator.etcd.answers_are_lost = False
        self.assert_retired()

    # ---- The writer is slow, or comes again ----

    def test_the_coordinator_does_the_rest_of_a_slow_one(self):
        """It has decided, and finds after a while that its node has retired: it ends as if it had done so itself."""
        for place in 1, 2, 3:
            with self.subTest(place=place):
                name, number = b"w%d" % (place + 3), place + 1
                if place > 1:
                    self.split(b"m")
                self.coordinator.let_join(name)
                writer = self.start_writer(name.decode())
                writer.etcd.before = [nothing] * place + [lambda: finish(self.coordinator, -1)]
                writer.retire()
                self.assert_retired(number, name)

    def test_one_that_stood_still_decides_nothing(self):
        """Another process of its name has appended since, so its links are further than it knows."""

        def go_on():
            self.second = self.start_writer("w1")
            self.write(*[b"c"] * 9, b"y", writer=self.second)

        self.writer.etcd.before = [go_on]
        self.assertRaises(log.Fenced, self.writer.retire)
        self.assertEqual(self.decided(), [])
        self.second.retire()
        self.assert_retired()

    def test_one_that_was_lost_decides_nothing(self):
        for name, before in ("w1", nothing), ("w2", lambda: self.merge(b"m")):
            with self.subTest(name=name):
                self.coordinator.let_join(name.encode())
                writer = self.start_writer(name)
                before()

                def lose():
                    self.ask(b"lost/" + name.encode())

                with mock.patch.object(writer.machine, "is_simple", lambda: False):
                    writer.etcd.before = [lose]
                    self.assertRaises(log.Fenced, writer.retire)
                self.assertEqual(self.decided(), [])
                self.assertTrue(all(link[2] for link in self.links(writer.number)))

    def begin_at_once(self):
        """Starts a process, and a second one before the first takes a link over. Returns the second one."""
        take, second = machine.Machine.take_link, []

        def take_link(*words):
            if not second:
                second.append(None)
                second.append(self.start_writer("w1"))
            return take(*words)

        with mock.patch("machine.Machine.take_link", take_link):
            self.assertRaises(log.Fenced, self.start_writer, "w1")
        return second[1]

    def test_two_processes_begin_at_once(self):
        second = self.begin_at_once()
        self.write(b"a", b"z", writer=second)
        second.retire()
        self.assert_retired()

    def test_two_processes_begin_at_once_in_another_cluster(self):
        """The first one takes the links of the second one over there, and ends all the same."""
        for key in b"61", b"7a":
            self.ask(b"move/" + key, {"members": [OTHER]})
        self.assertRaises(log.Fenced, self.write, b"a", writer=self.begin_at_once())
        self.start_writer("w1").retire()
        self.assert_retired()

    # ---- One range is left ----

    def test_a_merge_was_under_way(self):
        """It decides in two ranges, is killed, and its next process finds one, with all that is of no range."""

        def decide():
            self.writer.machine.decide_to_retire(self.writer.reading())

        self.coordinator.etcd.before = [decide]
        self.merge(b"m")
        self.assertEqual((len(self.live()), len(self.decided())), (1, 1))
        again = self.start_writer("w1")
        self.assertTrue(again.retires)
        again.write()
        self.assert_retired()

    def test_it_is_lost_when_one_range_is_left(self):
        self.coordinator.etcd.before = [lambda: self.writer.machine.decide_to_retire(self.writer.reading())]
        self.merge(b"m")
        self.ask(b"lost/w1")
        self.assert_retired()

    def test_a_log_in_another_cluster(self):
        """There is one range all the time, which is moved between the decision and the last item."""
        self.merge(b"m")
        self.ask(b"move/6d", {"members": [OTHER]})
        self.writer.append_waiting()
        self.writer.take_over()
        self.killed_at(1, self.writer.etcd, self.retire_there)
        self.ask(b"move/6d")
        finish(self.coordinator, -1)
        self.assert_retired()

    def retire_there(self):
        """The last item goes into another cluster, so the transaction after the decision gives the name back."""
        with mock.patch.object(self.writer.machine, "retire", lambda _: kill()):
            self.writer.retire()


if __name__ == "__main__":
    unittest.main()
