"""Ranges and their surroundings: nodes that come and go, coordinators that are killed, clusters, and replicas."""

import json
import unittest
from unittest import mock

from range_support import OTHER, RangeCase

import life
import log
import machine
import part
import ranges
import serve
from checkpoints import KEEP
from etcd import Etcd, Stopped, delete


class Nodes(RangeCase):
    """Nodes that come and go, where there are two ranges."""

    def setUp(self):
        super().setUp()
        self.split(b"m")

    def links(self, node):
        model = self.new_model()
        return [model.logs[number].links[node] for number in self.known().live]

    def test_a_node_joins_everywhere(self):
        self.put(b"ask/join/w2")
        self.coordinator.answer()
        self.write(b"a", b"z", writer=self.start_writer("w2"))
        self.assertEqual([link[0] for link in self.links(2)], [1, 1])
        self.assertIsNone(self.value(b"ask/join/w2"))

    def test_a_request_of_a_writer_that_is_gone(self):
        """The request was read, and is taken back before the name gets its node."""
        self.put(b"ask/join/w2")
        self.coordinator.etcd.before = [lambda: self.new_etcd().transact([], [delete(b"ask/join/w2")])]
        self.coordinator.answer()
        self.assertIsNone(self.value(b"node/w2"))
        self.assertEqual(len(self.new_model().logs[1].links), 2)

    def test_another_coordinator_finishes_a_join(self):
        """The first one has put it into one of both logs, and is then killed: the number belongs to the name."""
        self.put(b"ask/join/w2")
        part = self.coordinator.machine.parts[1]
        self.coordinator.decide([])
        self.put(b"node/w2", b"2")
        self.coordinator.let_join_in(part, b"w2", 2)
        self.put(b"ask/join/w0")
        self.coordinator = self.start_coordinator()
        self.coordinator.answer()
        self.coordinator.answer()
        self.assertEqual((self.value(b"node/w2"), self.value(b"node/w0")), (b"2", b"3"))
        self.assertEqual([len(self.new_model().logs[number].links) for number in (1, 2)], [4, 4])

    def test_links_of_a_node_that_retired_are_alike(self):
        self.write(b"a", b"b", b"z")
        self.writer.retire()
        one, other = self.links(1)
        self.assertEqual(one, other)
        self.assertTrue(one[2])
        self.assertIsNone(self.value(b"node/w1"))
        self.assertEqual(self.new_etcd().list(b"retires/"), [])

    def test_a_writer_is_killed_while_it_retires(self):
        """Its next process goes on with what was decided, and gives the name back."""
        self.write(b"a", b"b", b"z")
        end = self.writer.machine.decide_to_retire(self.writer.reading())
        self.writer.machine.retire_in(self.writer.machine.parts[2], end)
        again = self.start_writer("w1")
        self.assertTrue(again.retires)
        again.write()
        self.assertEqual(self.links(1), [list(end)] * 2)
        self.assertIsNone(self.value(b"node/w1"))

    def test_it_is_killed_before_it_gives_the_name_back(self):
        self.writer.machine.retire(self.writer.machine.decide_to_retire(self.writer.reading()))
        with self.assertRaisesRegex(life.Never, "retired"):
            self.start_writer("w1")
        self.assertIsNone(self.value(b"node/w1"))

    def test_a_lost_writer(self):
        self.write(b"a", b"b", b"z")
        self.ask(b"lost/w1")
        one, other = self.links(1)
        self.assertEqual((one, one[2]), (other, True))
        self.assertIsNone(self.value(b"node/w1"))
        self.assertEqual(self.new_etcd().list(b"retires/"), [])
        self.assertRaises(log.Fenced, self.writer.append_changes, [[(b"a", b"a")]])

    def test_a_lost_writer_that_stood_still_over_a_split(self):
        """Of the ranges that go on it was in some, or in none: it ends as one whose node another process has."""
        for name, starts in (b"w1", [b"t"]), (b"w2", [b"f", b"p", b"v"]):
            with self.subTest(name=name):
                self.coordinator.let_join(name)
                writer = self.start_writer(name.decode())
                for start in starts:
                    self.split(start)
                self.ask(b"lost/" + name)
                self.assertRaises(log.Fenced, self.write, b"z", writer=writer)
        self.assertEqual(self.writes(), [])

    def test_a_lost_writer_that_stood_still_on_its_way_into_ranges(self):
        """Its node retires between the map and a link, or between two links."""
        take = machine.Machine.take_link
        for place, name in enumerate([b"w1", b"w2", b"w3"]):
            with self.subTest(place=place):
                self.coordinator.let_join(name)
                writer, places = self.start_writer(name.decode()), iter(range(3))
                self.split(b"%dm" % place)
                self.split(b"%dt" % place)

                def take_link(of, found, new, name=name, mine=writer.machine, place=place, places=places):
                    if of is mine and next(places) == place:
                        self.ask(b"lost/" + name)
                    return take(of, found, new)

                with mock.patch("machine.Machine.take_link", take_link):
                    self.assertRaises(log.Fenced, writer.take_over)
                self.assertIsNone(self.value(b"node/" + name))

    def test_a_lost_writer_that_retired_everywhere(self):
        """Its writer, or a coordinator, was killed before it gave the name back: no merge waits for it for good."""
        self.writer.machine.retire(self.writer.machine.decide_to_retire(self.writer.reading()))
        self.ask(b"lost/w1")
        self.assertIsNone(self.value(b"node/w1"))
        self.assertEqual(self.new_etcd().list(b"retires/"), [])
        self.assertIsNone(self.merge(b"m"))

    def test_the_coordinator_retires(self):
        self.coordinator.retires = True
        self.coordinator.work()
        self.assertTrue(all(link[2] for link in self.links(0)))
        with self.assertRaises(life.Never):
            self.start_coordinator()


class Coordinators(RangeCase):
    def killed_at(self, place, wish):
        """Lets the coordinator be killed before this transaction of a request, and returns the next one."""

        class Killed(Exception):
            pass

        def kill():
            raise Killed

        self.put(b"ask/" + wish)
        self.coordinator.etcd.before = [lambda: None] * place + [kill]
        with self.assertRaises(Killed):
            self.coordinator.answer()
        self.coordinator.etcd.before = []
        return self.start_coordinator()

    def test_it_is_killed_while_it_splits(self):
        """Before the seal, between it and the map, before it takes its links over, and before the request goes."""
        self.write(b"a", b"z")
        for place, key in enumerate([b"f", b"g", b"h", b"i", b"j"]):
            with self.subTest(place=place):
                before = self.coordinator
                self.coordinator = self.killed_at(place, b"split/" + key.hex().encode())
                self.assertRaises(log.Fenced, before.report_all)
                with mock.patch("logs.warning"):
                    self.coordinator.answer()
                self.write(b"a", b"f", b"z")
                self.assertIn(key, [start for _, start, _ in self.live()])
        self.report()
        self.compare(self.caught_up())

    def test_it_is_killed_while_it_merges(self):
        self.write(b"a", b"z")
        for place in range(5):
            with self.subTest(place=place):
                self.split(b"m")
                self.write(b"a", b"n", b"z")
                self.coordinator = self.killed_at(place, b"merge/6d")
                with mock.patch("logs.warning"):
                    self.coordinator.answer()
                self.write(b"a", b"n", b"z")
                self.assertEqual(len(self.live()), 1)
        self.report()
        self.compare(self.caught_up())

    def test_a_writer_waits_for_the_map(self):
        """The coordinator was killed before it. Until the next one comes, the writer appends nothing, and can end."""
        words = ranges.split_words(self.known(), b"m")
        self.coordinator.first.link.end_log(words)
        revision, process = self.memory.revision, self.writer.life
        with mock.patch("writer.time.sleep", lambda _: process.ask(0, "SIGTERM")):
            self.assertRaises(Stopped, self.write, b"a", b"z")
        self.assertEqual(self.memory.revision, revision)
        process.asked.clear()
        with mock.patch("writer.time.sleep", lambda _: self.start_coordinator()):
            self.writer.append_waiting()
        self.assertEqual(self.writes(), [b"a", b"z"])

    def test_a_fenced_one_seals_nothing(self):
        first, self.coordinator = self.coordinator, self.start_coordinator()
        self.put(b"ask/split/6d")
        self.assertRaises(log.Fenced, first.answer)
        self.assertIsNone(self.value(log.SEAL))
        self.assertEqual(self.live(), [(0, b"", b"")])

    def test_answers_that_are_lost(self):
        for etcd in self.etcds:
            etcd.answers_are_lost = True
        self.split(b"m")
        self.write(b"a", b"z")
        self.merge(b"m")
        self.write(b"a", b"z")
        self.report()
        self.assertEqual(self.writes(), [b"a", b"z", b"a", b"z"])
        self.compare(self.caught_up())


class Clusters(RangeCase):
    def test_a_log_in_another_cluster(self):
        self.write(b"a", b"z")
        self.split(b"m", members=[OTHER])
        self.write(b"b", b"y", b"x")
        self.assertTrue(self.second.pairs)
        self.split(b"t")
        self.write(b"n", b"w")
        self.report()
        self.assertEqual(len(self.compare(self.caught_up())), 7)

    def test_logs_move_and_are_merged(self):
        """Revisions of the one cluster say nothing of the other one."""
        self.split(b"m", members=[OTHER])
        for key, members in (b"a", [OTHER]), (b"z", None), (b"a", None):
            self.write(b"a", b"z")
            self.ask(b"move/" + key.hex().encode(), {"members": members} if members else None)
        self.write(b"a", b"z")
        self.ask(b"move/7a", {"members": [OTHER]})
        self.merge(b"m")
        self.write(b"a", b"z")
        self.ask(b"lost/w1")
        self.coordinator.report_all()
        self.assertEqual(self.compare(self.caught_up()), {b"a": b"a", b"z": b"z"})

    def test_members_that_do_not_answer(self):
        """Nobody is there, or no etcd. The range goes on, and the next coordinator has nothing to finish."""
        self.write(b"a")
        for address in "127.0.0.1:1", serve.start(self.caught_up()).address:
            for request in b"split/6d", b"move/61":
                with mock.patch("coordinator.Etcd", Etcd), mock.patch("logs.warning"):
                    refusal = json.loads(self.ask(request, {"members": [address]}))["refused"]
                self.assertRegex(refusal, f"^no etcd answers at {address}: ")
                self.assertIsNone(self.value(log.SEAL))
        self.coordinator = self.start_coordinator()
        self.write(b"z")
        self.report()
        self.assertEqual(self.compare(self.caught_up()), {b"a": b"a", b"z": b"z"})
        self.assertEqual(self.live(), [(0, b"", b"")])

    def test_a_node_retires_in_two_clusters(self):
        self.split(b"m", members=[OTHER])
        self.write(b"a", b"z")
        self.writer.retire()
        model = self.new_model()
        self.assertEqual(model.logs[1].links[1], model.logs[2].links[1])


class Cutting(RangeCase):
    def publish(self, name, checkpoints):
        words = {"name": name, "address": "", "floor": 0, "checkpoint": 0}
        parts = {str(number): {"floor": 0, "checkpoint": each} for number, each in checkpoints.items()}
        self.put(b"replica/" + name.encode(), log.to_json(words | {"ranges": parts}))

    def test_the_log_of_a_range_is_cut_by_itself(self):
        self.split(b"m")
        for _ in range(3):
            self.write(b"a", b"z")
        known = self.known()
        revisions = [[entry.revision for entry in self.entries(known.ranges[number])] for number in (1, 2)]
        self.publish("r1", {1: revisions[0][1], 2: revisions[1][0]})
        self.publish("r2", {1: revisions[0][2]})
        self.coordinator.keep_up()
        self.assertEqual(json.loads(self.value(known.ranges[1].prefix + log.CUT)), revisions[0][1])
        self.assertEqual(json.loads(self.value(known.ranges[2].prefix + log.CUT)), revisions[1][0])

    def test_an_ended_log_is_cut_when_nobody_needs_it(self):
        self.write(b"a", b"z")
        self.split(b"m")
        self.publish("r1", {0: 0, 1: 5, 2: 5})
        self.coordinator.keep_up()
        self.assertIsNone(self.value(log.CUT))
        self.publish("r1", {1: 5})
        self.coordinator.keep_up()
        self.assertIsNone(self.value(log.CUT))
        self.publish("r1", {1: 5, 2: 5})
        self.coordinator.keep_up()
        self.assertEqual(list(self.entries(ranges.Range(0), 1 << 30)), [])
        self.assertIsNotNone(self.value(log.SEAL))
        self.assertRaises(log.Cut, log.page, self.new_etcd(), 0)


class AtAReplica(RangeCase):
    """What a replica begins and drops, without threads."""

    def setUp(self):
        super().setUp()
        self.enterContext(mock.patch("part.start"))
        self.write(b"a", b"z")

    def test_the_old_range_stays_until_others_have_checkpoints(self):
        self.split(b"m")
        replica = self.caught_up()
        replica.parts[0].save()
        replica.look_at_map(self.new_etcd())
        self.assertEqual(sorted(replica.parts), [0, 1, 2])
        self.save_twice(replica)
        replica.look_at_map(self.new_etcd())
        self.assertEqual(sorted(replica.parts), [1, 2])
        self.assertEqual(list((self.folder / "r1").glob("*.checkpoint")), [])

    def test_its_state_has_the_oldest_checkpoint_of_all_ranges(self):
        self.split(b"m")
        replica = self.caught_up()
        for number, revision in (1, 20), (2, 30):
            for more in range(KEEP):
                replica.parts[number].checkpoints.save(revision + more, b"saved")
        self.assertEqual(replica.state()["checkpoint"], 20)

    def test_a_range_moves_to_another_replica(self):
        """The old one has it until the new one has it too."""
        self.split(b"m")
        replica = self.caught_up()
        self.save_twice(replica)
        self.ask(b"place/2", ["r2"])
        replica.look_at_map(self.new_etcd())
        self.assertEqual(sorted(replica.parts), [1, 2])
        words = {"name": "r2", "address": "", "ranges": {"2": {"floor": 0, "checkpoint": 7}}}
        self.put(b"replica/r2", log.to_json(words))
        replica.look_at_map(self.new_etcd())
        self.assertEqual(sorted(replica.parts), [1])
        with replica.snapshot(None) as snapshot:
            self.assertEqual(len(list(snapshot.items(b"", b"m"))), 0)
            self.assertRaises(serve.Refused, lambda: list(snapshot.items(b"", b"")))
            self.assertRaises(serve.Refused, snapshot.read_all, [b"z"])

    def test_a_range_that_is_dropped_while_it_begins(self):
        """Its files are gone when it reads them: that is no failure of the replica."""
        self.split(b"m")
        dropped = self.caught_up().parts[0]
        dropped.save()
        paths = dropped.checkpoints.paths()
        dropped.drop()
        with mock.patch.object(dropped.checkpoints, "paths", lambda: paths), mock.patch("life.end") as end:
            part.work(dropped)
        end.assert_not_called()

    def test_a_fresh_replica_takes_what_others_have(self):
        """It begins no range of before, unless nobody else has the new ones."""
        self.split(b"m")
        words = {"name": "r2", "address": "", "ranges": {"1": {"floor": 0, "checkpoint": 7}}}
        self.put(b"replica/r2", log.to_json(words))
        self.ask(b"place/2", ["r2"])
        replica = self.new_replica()
        replica.look_at_map(self.new_etcd())
        self.assertEqual(sorted(replica.parts), [1])
        self.put(b"replica/r2", log.to_json({"name": "r2", "address": "", "ranges": {}}))
        replica.look_at_map(self.new_etcd())
        self.assertEqual(sorted(replica.parts), [0, 1])


if __name__ == "__main__":
    unittest.main()
