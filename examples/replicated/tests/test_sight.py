"""Who holds the floor back, and which alarms there are, from known inputs."""

import copy
import pathlib
import re
import unittest

from support import MemoryCase

import alarms
import log
import sight
from hlcstore import stamp
from members import words_of
from sight import Head, Look, NodeSeen, Sight, held_back

NOW = 1_700_000_000.0  # seconds
RUNBOOK = pathlib.Path(__file__).resolve().parent.parent / "RUNBOOK.md"
NAMES = {0: "coordinator", 1: "w1", 2: "w 2"}


def aged(seconds):
    """Returns a stamp of this age."""
    return stamp(round((NOW - seconds) * 1000))


def node(number, age, next=10, retired=False, appended=None, silent=0.1, name=None, has_moved=True):
    name, appended = NAMES[number] if name is None else name, next if appended is None else appended
    return NodeSeen(number, name, aged(age), next, retired, appended, silent, has_moved)


class HoldsBack(unittest.TestCase):
    def held(self, *nodes, unseen=0.5):
        return held_back(nodes, NOW, unseen)

    def test_a_young_floor(self):
        held = self.held(node(0, 0.02), node(1, 0.04, silent=30.0), unseen=60.0)
        self.assertEqual((held.node, held.name, held.by, held.cure), (1, "w1", "nothing", ""))
        self.assertAlmostEqual(held.age, 0.04)

    def test_a_writer_that_appends_nothing(self):
        held = self.held(node(0, 0.02), node(1, 7.5, silent=7.4), node(2, 0.03))
        self.assertEqual((held.node, held.name, held.by), (1, "w1", "node"))
        self.assertEqual(held.why, "w1 (node 1) has appended nothing for 7 s or longer")
        self.assertEqual(
            held.cure, "start the writer w1 again; if it is lost for good: etcdctl put ask/lost/w1 ''"
        )

    def test_a_name_that_a_shell_would_take_apart(self):
        self.assertIn("etcdctl put 'ask/lost/w 2' ''", self.held(node(2, 7.5, silent=7.4)).cure)

    def test_the_coordinator_appends_nothing(self):
        held = self.held(node(0, 7.5, silent=7.4), node(1, 0.1))
        self.assertEqual((held.node, held.by), (0, "node"))
        self.assertRegex(held.cure, "^start a coordinator")

    def test_a_node_without_a_name(self):
        held = self.held(node(0, 0.1), node(1, 7.5, silent=7.4, name=""))
        self.assertIn("node 1 has appended nothing", held.why)
        self.assertIn("its retirement is on its way", held.cure)

    def test_a_clock_that_is_behind(self):
        """The node appends, and its head stays old."""
        held = self.held(node(0, 0.1), node(1, 3600.0, silent=0.3))
        self.assertEqual((held.node, held.by), (1, "clock"))
        self.assertEqual(held.why, "the clock of w1 (node 1) is 3600.0 s behind")
        self.assertEqual(held.cure, "set the clock of the machine of w1 (node 1) right")
        self.assertIn("start a coordinator where the clock is right", self.held(node(0, 9.0), node(1, 1.0)).cure)

    def test_a_node_that_is_slow(self):
        held = self.held(node(0, 0.1), node(1, 4.9, silent=1.9))
        self.assertEqual((held.node, held.by), (1, "slow"))
        self.assertEqual(held.why, "w1 (node 1) appends, and its last stamp is 4.9 s old")

    def test_a_node_that_has_not_been_watched_for_long(self):
        held = self.held(node(0, 0.1), node(1, 3600.0, silent=1.9, has_moved=False))
        self.assertEqual((held.node, held.by), (1, "unknown"))
        self.assertEqual(self.held(node(0, 0.1), node(1, 3600.0, silent=2.1, has_moved=False)).by, "node")

    def test_a_replica_that_is_behind(self):
        """The log has more of the node than this program, whether the node still appends or not."""
        for silent in 0.1, 60.0:
            held = self.held(node(0, 0.1), node(1, 9.0, next=10, appended=25, silent=silent))
            self.assertEqual((held.node, held.by), (1, "replica"))
            self.assertEqual(held.why, "the log has 15 items of w1 (node 1) that are not applied here")

    def test_etcd_does_not_answer(self):
        held = self.held(node(0, 9.0, silent=9.0), node(1, 9.5, appended=25, silent=9.0), unseen=8.6)
        self.assertEqual((held.node, held.by), (1, "log"))
        self.assertIn("etcd has not answered for 9 s", held.why)

    def test_nodes_that_retired_hold_nothing_back(self):
        held = self.held(node(0, 5.0, silent=5.0), node(1, 900.0, retired=True, silent=900.0))
        self.assertEqual((held.node, held.by), (0, "node"))
        self.assertEqual(self.held(node(0, 5.0, retired=True)).by, "nothing")

    def test_equal_heads(self):
        self.assertEqual(self.held(node(2, 7.0), node(1, 7.0)).node, 1)


class Looking(MemoryCase):
    def setUp(self):
        super().setUp()
        self.time = 100.0
        self.links = [[0, 0, False]]
        self.sight = Sight(lambda: self.links, lambda: self.time)

    def note(self, **heads):
        names = {0: "coordinator", 1: "w1"}
        self.sight.note(Look({int(key[1:]): head for key, head in heads.items()}, names, [], []))

    def test_what_etcd_has(self):
        coordinator = self.start_coordinator()
        coordinator.append_item(coordinator.node.report)
        coordinator.let_join(b"w1")
        self.put(b"ask/lost/w9")
        self.put(b"replica/r1", log.to_json({"name": "r1", "floor": 5}))
        seen = sight.look(self.new_etcd())
        last = coordinator.node.last
        self.assertEqual(seen.heads, {0: Head(1, last, False), 1: Head(0, last, False)})
        self.assertEqual(seen.names, {0: "coordinator", 1: "w1"})
        words = {"name": "r1", "address": "", "floor": 5, "checkpoint": 0}
        self.assertEqual((seen.replicas, seen.requests), ([words], ["lost/w9"]))

    def test_it_changes_nothing(self):
        self.start_coordinator()
        revision = self.memory.revision
        sight.look(self.new_etcd())
        self.assertEqual(self.memory.revision, revision)

    def test_how_long_a_node_is_silent(self):
        """From when its number was first seen, not from the look before."""
        self.note(n0=Head(1, 1, False))
        for number in 2, 2, 2:
            self.time += 1
            self.note(n0=Head(number, 2, False))
        self.time += 0.5
        seen = self.sight.nodes([[2, 2, False], [0, 0, False]])
        self.assertEqual([(node.silent, node.has_moved) for node in seen], [(2.5, True), (0.0, False)])
        self.assertEqual(self.sight.unseen(), 0.5)

    def test_what_is_missing_here(self):
        self.links = [[5, 1, False], [3, 1, False]]
        self.note(n0=Head(5, 1, False), n1=Head(3, 1, False))
        self.assertEqual(self.sight.behind(self.links), (0, 0.0))
        self.time += 1
        self.note(n0=Head(6, 1, False), n1=Head(7, 1, False))
        self.time += 2
        self.assertEqual(self.sight.behind(self.links), (5, 3.0))
        self.assertEqual([seen.appended for seen in self.sight.nodes(self.links)], [6, 7])
        self.links = [[9, 1, False], [7, 1, False]]
        self.assertEqual(self.sight.behind(self.links), (0, 0.0))
        self.assertEqual([seen.appended for seen in self.sight.nodes(self.links)], [9, 7])

    def test_a_join_that_is_missing_here(self):
        self.time += 4
        self.note(n0=Head(0, 0, False), n1=Head(0, 0, False))
        self.assertEqual(self.sight.behind(self.links), (0, 4.0))

    def test_items_a_second(self):
        self.assertIsNone(self.sight.rate.a_second())
        for items in 0, 100, 300:
            self.links = [[items, 1, False]]
            self.note(n0=Head(items, 1, False))
            self.time += 1
        self.assertEqual(self.sight.rate.a_second(), 150.0)
        self.links = [[7, 1, False]]  # it began again, at an older checkpoint
        self.note(n0=Head(300, 1, False))
        self.assertIsNone(self.sight.rate.a_second())

    def test_a_member_of_etcd(self):
        full = {"dbSize": "77", "leader": "1", "errors": ["memberID:1 alarm:NOSPACE "]}
        self.assertEqual(words_of("a:1", full), {"address": "a:1", "answers": True, "bytes": 77, "no_space": True})
        self.assertEqual(words_of("a:1", None), {"address": "a:1", "answers": False, "bytes": 0, "no_space": False})


# ---- Alarms ----

WELL = {
    "floor": 1, "floor_age_seconds": 0.03, "horizon_age_seconds": 6.0,
    "held_back": {"node": 1, "name": "w1", "by": "nothing", "age_seconds": 0.03, "why": "reason", "cure": "cure"},
    "nodes": [{"node": 0, "name": "coordinator", "age_seconds": 0.03, "retired": False},
              {"node": 1, "name": "w1", "age_seconds": -9.0, "retired": False},
              {"node": 2, "name": "gone", "age_seconds": -900.0, "retired": True}],
    "replicas": [{"name": "r1", "age_seconds": 0.1}, {"name": "r2", "age_seconds": 5.0}],
    "log": {"items_behind": 7, "behind_seconds": 4.9, "unseen_seconds": 4.9, "trouble": ""},
    "checkpoints": {"failure": "", "age_seconds": 184.9, "every_seconds": 60},
    "snapshots": [{"open_seconds": 59.0}],
    "coordinator": {"append_age_seconds": 4.9, "trouble": "", "clock_behind_seconds": 0.9, "numbers_assigned": 999,
                    "members": [{"address": "a:1", "answers": True, "no_space": False}]},
}  # fmt: skip
WRONG = {  # of each alarm: a place in the state, a value there, and what the text says
    "FloorOld": (["held_back", "by"], "node", "the floor is 6 s old: reason"),
    "LogUnreachable": (["log", "unseen_seconds"], 5.1, "etcd has not answered for 5 s"),
    "ClocksApart": (["nodes", 1, "age_seconds"], -10.1, "the last stamp of w1 is 10 s ahead"),
    "ReplicaBehind": (["log", "behind_seconds"], 5.1, "7 items of the log are not applied after 5 s"),
    "CheckpointFailed": (["checkpoints", "failure"], "no space left", "was not saved: no space left"),
    "CheckpointOld": (["checkpoints", "age_seconds"], 185.1, "the newest checkpoint is 185 s old"),
    "SnapshotOld": (["snapshots", 0, "open_seconds"], 60.1, "a snapshot has been open for 60 s"),
    "AppendsWait": (["coordinator", "append_age_seconds"], 5.1, "no append has ended for 5 s"),
    "ClockBehind": (["coordinator", "clock_behind_seconds"], 1.1, "clock is 1 s behind its own last stamp"),
    "NoReplica": (["replicas"], [], "no replica publishes"),
    "ReplicaSlow": (["replicas", 1, "age_seconds"], 5.2, "r2: more than 5 s behind"),
    "FewNumbers": (["coordinator", "numbers_assigned"], 1000, "1000 of the 1024 numbers"),
    "MemberDown": (["coordinator", "members", 0, "answers"], False, "of etcd's members a:1 does not answer"),
    "NoSpace": (["coordinator", "members", 0, "no_space"], True, "a member is above its quota .a:1."),
}
ALL = alarms.OF_A_REPLICA | alarms.OF_THE_COORDINATOR


def changed(path, value):
    """Returns the state in which all is well, but for the value at a place."""
    state = copy.deepcopy(WELL)
    if path == ["held_back", "by"]:
        state["floor_age_seconds"] = 6.0
    at = state
    for step in path[:-1]:
        at = at[step]
    at[path[-1]] = value
    return state


class Alarms(unittest.TestCase):
    def test_all_is_well(self):
        self.assertEqual(alarms.alarms_of(WELL, ALL), [])

    def test_each_alarm_alone(self):
        self.assertEqual(WRONG.keys(), ALL.keys())
        for name, (path, value, text) in WRONG.items():
            with self.subTest(alarm=name):
                found = alarms.alarms_of(changed(path, value), ALL)
                self.assertEqual([alarm["alarm"] for alarm in found], [name])
                self.assertRegex(found[0]["text"], text)
                self.assertTrue(found[0]["cure"])

    def test_an_old_floor_that_nothing_holds_back(self):
        """All nodes have retired."""
        state = copy.deepcopy(WELL) | {"floor_age_seconds": 600.0}
        self.assertEqual(alarms.alarms_of(state, ALL), [])

    def test_a_store_without_items(self):
        state = changed(["held_back", "by"], "node") | {"floor": 0, "floor_age_seconds": NOW}
        self.assertIn("the floor is still 0.0: ", alarms.floor_old(state)[0])

    def test_the_trouble_is_named(self):
        state = changed(["log", "unseen_seconds"], 7.0)
        state["log"]["trouble"] = "connection refused"
        self.assertEqual(alarms.log_unreachable(state)[0], "etcd has not answered for 7 s: connection refused")
        state = changed(["coordinator", "append_age_seconds"], 7.0)
        state["coordinator"]["trouble"] = "database space exceeded"
        self.assertEqual(alarms.appends_wait(state)[0], "no append has ended for 7 s: database space exceeded")

    def test_the_runbook_has_each(self):
        heads = re.findall(r"^### (\w+)$", RUNBOOK.read_text(), re.M)
        self.assertEqual(sorted(heads), sorted(ALL))


if __name__ == "__main__":
    unittest.main()
