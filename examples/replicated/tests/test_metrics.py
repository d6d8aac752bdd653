"""The numbers in the text format of Prometheus: the text, and what a replica and the coordinator say."""

import contextlib
import http.client
import re
import time
import unittest
from unittest import mock

import exposition
from support import RETENTION, MemoryCase

import alarms
import hlcstore
import log
import metrics
import serve
import sight
from exposition import number
from metrics import Counters, Family, Rate, text_of
from programs import HERE

QUOTED = 'a"b\\c\nd'


class Text(unittest.TestCase):
    def test_families(self):
        families = [
            Family("a", "gauge", "The\nfirst \\ one.", [({}, 1)]),
            Family("b_total", "counter", "Help.", [({"x": QUOTED, "y": ""}, 0.5), ({"x": "é", "y": "{},="}, True)]),
            Family("c", "gauge", "Help.", []),
        ]
        text = text_of(families)
        lines = text.splitlines()
        self.assertEqual(lines[:4], ["# HELP a The\\nfirst \\\\ one.", "# TYPE a gauge", "a 1", "# HELP b_total Help."])
        self.assertEqual(lines[5], 'b_total{x="a\\"b\\\\c\\nd",y=""} 0.5')
        read = exposition.read(text)
        self.assertEqual((read["a"][0], read["b_total"][0], read["c"]), ("gauge", "counter", ("gauge", {})))
        self.assertEqual(number(read, "b_total", x=QUOTED, y=""), 0.5)
        self.assertEqual(number(read, "b_total", x="é", y="{},="), 1)

    def test_numbers(self):
        for value, text in (1 << 60, "1152921504606846976"), (1e-7, "1e-07"), (-3.0, "-3.0"), (False, "0"):
            self.assertEqual(metrics.number_text(value), text)

    def test_the_reader_is_strict(self):
        good = "# HELP a Help.\n# TYPE a gauge\na 1\n"
        exposition.read(good)
        for wrong in (
            good[:-1], good + "a 1\n", good + "b 1\n", good + good, good + "\n", "a 1\n" + good, good[15:],
            good.replace("a 1", "a  1"), good.replace("a 1", "a 1 "), good.replace("a 1", "a one"),
            good.replace("a 1", 'a{x="1" 1'), good.replace("a 1", 'a{x="1",} 1'), good.replace("a 1", 'a{x="\\q"} 1'),
            good.replace("a 1", 'a{x="1",x="2"} 1'), good.replace("gauge", "counter"), good.replace("a 1", "a NaN"),
            good.replace("gauge", "number"), good + "# HELP b Help.\n",
        ):  # fmt: skip
            with self.subTest(wrong=wrong), self.assertRaises(exposition.Wrong):
                exposition.read(wrong)

    def test_counters(self):
        counters = Counters()
        counters.add("answers", status=200)
        counters.add("answers", 2, status=404)
        counters.add("answers", status=200)
        counters.add("seconds", 0.5)
        samples = [({"status": 200}, 2), ({"status": 404}, 2)]
        family = counters.family("answers", "answers_total", "Help.")
        self.assertEqual(family, Family("answers_total", "counter", "Help.", samples))
        self.assertEqual((counters.of("seconds"), counters.of("none")), (0.5, 0))

    def test_a_rate(self):
        times = iter([0.0, 1.0, 2.0, 13.0, 14.0])
        rate = Rate(lambda: next(times))
        seen = []
        for value in 0, 10, 40, 40, 5:
            rate.note(value)
            seen.append(rate.a_second())
        self.assertEqual(seen, [None, 10.0, 20.0, None, None])


def raised(answerer):
    """Returns the names of the alarms."""
    return {alarm["alarm"] for alarm in answerer.state()["alarms"]}


class Answers(MemoryCase):
    def look(self, answerer):
        """Lets a program look at etcd, after which its eyes stand still."""
        answerer.sight.note(sight.look(self.new_etcd()))
        answerer.sight.clock = lambda: answerer.sight.when

    def ask(self, answerer, *paths):
        """Returns the kind and the text of the last answer."""
        connection = http.client.HTTPConnection(serve.start(answerer).address, timeout=60)
        with contextlib.closing(connection):
            for path in paths:
                connection.request("GET", path)
                answer = connection.getresponse()
                body = answer.read().decode()
        return answer.getheader("Content-Type"), body

    def read(self, answerer, *paths):
        kind, text = self.ask(answerer, *paths, "/metrics")
        self.assertEqual(kind, "text/plain; version=0.0.4; charset=utf-8")
        return exposition.read(text)

    def new_coordinator(self):
        coordinator = self.start_coordinator()
        coordinator.append_item(coordinator.node.report)
        coordinator.let_join(b"w1")
        return coordinator


class OfAReplica(Answers):
    def setUp(self):
        super().setUp()
        self.coordinator = self.new_coordinator()
        writer = self.start_writer("w1")
        self.start = writer.node.last
        for items in 3, 4:
            writer.append(writer.node.next, writer.issue_batch(items))
        self.last = writer.node.last
        self.coordinator.offset = 1000  # its head is above that of the writer
        self.coordinator.append_item(self.coordinator.node.report)
        self.part = self.replay()
        self.replica = self.part.replica
        self.look(self.replica)

    def test_what_is_stored(self):
        store = self.part.store
        read = self.read(self.replica)
        for name in "rows", "keys", "key_bytes", "value_bytes":
            self.assertEqual(number(read, "hlcstore_" + name), getattr(store.sizes, name))
        self.assertGreater(store.rows, 0)
        self.assertEqual(number(read, "hlcstore_items_total"), 7 + 2)
        self.assertEqual(number(read, "hlcstore_nodes"), 2)
        self.assertEqual(number(read, "hlcstore_log_revision"), self.part.revision)
        self.assertEqual(number(read, "hlcstore_log_behind_items"), 0)
        self.assertEqual(number(read, "hlcstore_floor_seconds"), (self.last >> 16) / 1000)
        self.assertEqual(number(read, "hlcstore_horizon_seconds"), 0)

    def test_heads(self):
        read = self.read(self.replica)
        heads = read["hlcstore_head_seconds"][1]
        self.assertEqual(len(heads), 2)
        self.assertEqual(number(read, "hlcstore_head_seconds", node=1, name="w1"), (self.last >> 16) / 1000)
        self.assertLess(number(read, "hlcstore_head_age_seconds", node=0, name="coordinator"), 120)

    def test_who_holds_the_floor_back(self):
        self.replica.seconds = 60
        with mock.patch("replica.time.time", lambda: (self.last >> 16) / 1000 + 60):
            self.replica.sight.moved[1] = (7, self.replica.sight.when - 60, True)
            state, read = self.replica.state(), self.read(self.replica)
        held = state["held_back"]
        self.assertEqual((held["node"], held["name"], held["by"], held["age_seconds"]), (1, "w1", "node", 60.0))
        self.assertEqual(number(read, "hlcstore_floor_held_back_seconds", node=1, name="w1", by="node"), 60)
        names = {alarm["alarm"] for alarm in state["alarms"]}
        self.assertIn("FloorOld", names)
        for alarm in alarms.OF_A_REPLICA:
            self.assertEqual(number(read, "hlcstore_alarm", alarm=alarm), alarm in names)

    def test_it_is_behind(self):
        late = self.new_replica().replica
        self.look(late)
        read = self.read(late)
        self.assertEqual(number(read, "hlcstore_log_behind_items"), 7 + 2)
        self.assertEqual(late.state()["held_back"]["by"], "replica")

    def test_refusals_and_answers(self):
        stamps = [int(self.last) + (1 << 16), int(self.start)]
        read = self.read(
            self.replica, "/read?key=k", f"/read?key=k&stamp={stamps[0]}", f"/certificate?stamp={int(self.last)}",
            f"/read?key=k&stamp={stamps[1]}", f"/read?key=k&stamp={stamps[1]}", "/none",
        )  # fmt: skip
        for code, times in (hlcstore.AboveFloor.code, 1), (hlcstore.BelowHorizon.code, 2):
            labels = {"code": code, "name": hlcstore.error_name(code)}
            self.assertEqual(number(read, "hlcstore_refusals_total", **labels), times)
        answers = [number(read, "hlcstore_http_answers_total", status=status) for status in (200, 404, 410, 425, 500)]
        self.assertEqual(answers, [2, 1, 2, 1, None])
        self.assertEqual(number(read, "hlcstore_vacuums_total"), 1)
        self.assertGreater(number(read, "hlcstore_vacuum_seconds_total"), 0)

    def test_snapshots(self):
        now = time.monotonic
        with self.replica.snapshot(None), mock.patch("replica.time.monotonic", lambda: now() + 90):
            read = self.read(self.replica)
            self.assertEqual(number(read, "hlcstore_snapshots_open"), 1)
            self.assertGreater(number(read, "hlcstore_snapshot_open_seconds"), 89)
            self.assertIn("SnapshotOld", raised(self.replica))
        self.assertEqual(number(self.read(self.replica), "hlcstore_snapshots_open"), 0)
        self.assertEqual(self.replica.opened, {})

    def test_checkpoints(self):
        self.assertEqual(number(self.read(self.replica), "hlcstore_checkpoint_bytes"), 0)
        self.part.try_to_save()
        read = self.read(self.replica)
        size = self.part.checkpoints.paths()[0].stat().st_size
        self.assertEqual(number(read, "hlcstore_checkpoint_bytes"), size)
        self.assertEqual(number(read, "hlcstore_checkpoints_total"), 1)
        self.assertLess(number(read, "hlcstore_checkpoint_age_seconds"), 120)

    def test_a_checkpoint_that_is_not_saved(self):
        """The replica goes on, and says so until one is saved."""
        self.part.try_to_save()
        before = self.part.checkpoints.paths()
        with mock.patch("os.fsync", side_effect=OSError(28, "No space left on device")), mock.patch("logs.error"):
            self.part.try_to_save()
        self.assertEqual(list(self.part.checkpoints.folder.iterdir()), before)
        self.assertIn("CheckpointFailed", raised(self.replica))
        self.assertIn("No space left on device", self.replica.state()["checkpoints"]["failure"])
        self.assertEqual(number(self.read(self.replica), "hlcstore_checkpoints_failed_total"), 1)
        self.part.try_to_save()
        self.assertNotIn("CheckpointFailed", raised(self.replica))


class OfTheCoordinator(Answers):
    def setUp(self):
        super().setUp()
        self.coordinator = self.new_coordinator()
        self.put(b"replica/r1", log.to_json({"name": "r1", "floor": self.coordinator.node.last, "checkpoint": 0}))
        self.look(self.coordinator)

    def test_what_it_has(self):
        read = self.read(self.coordinator)
        self.assertEqual(number(read, "hlcstore_appends_total"), 2)
        self.assertEqual(number(read, "hlcstore_joins_total"), 1)
        self.assertEqual(number(read, "hlcstore_numbers_assigned"), 2)
        self.assertEqual(number(read, "hlcstore_retention_seconds"), RETENTION / 1000)
        self.assertEqual(number(read, "hlcstore_clock_behind_seconds"), 0)
        self.assertLess(number(read, "hlcstore_replica_floor_age_seconds", replica="r1"), 120)
        self.assertEqual(len(read["hlcstore_head_seconds"][1]), 2)
        self.assertNotIn("ClockBehind", raised(self.coordinator))

    def test_before_it_has_looked(self):
        read = self.read(self.start_coordinator())
        self.assertEqual(number(read, "hlcstore_nodes"), 1)

    def test_its_clock_is_set_back(self):
        self.coordinator.offset = -3_600_000
        self.coordinator.append_item(self.coordinator.node.report)
        state = self.coordinator.state()
        self.assertAlmostEqual(state["coordinator"]["clock_behind_seconds"], 3600, delta=120)
        self.assertIn("ClockBehind", raised(self.coordinator))

    def test_members_that_do_not_answer(self):
        self.coordinator.members.addresses = ["127.0.0.1:1"]
        self.coordinator.members.look()
        self.assertIn("MemberDown", raised(self.coordinator))
        read = self.read(self.coordinator)
        self.assertEqual(number(read, "hlcstore_etcd_no_space", member="127.0.0.1:1"), 0)

    def test_the_runbook_has_each_name(self):
        """Those of a replica are read from its source, as it has others."""
        sources = [HERE / "exported.py", HERE / "metrics.py"]
        names = {name for path in sources for name in re.findall(r'"((?:hlcstore|process)_\w+)"', path.read_text())}
        described = set(re.findall(r"`((?:hlcstore|process)_\w+)`", (HERE / "RUNBOOK.md").read_text()))
        self.assertEqual(names, described)
        self.assertLessEqual(self.read(self.coordinator).keys(), names)

    def test_it_has_no_reads(self):
        for path in "/read?key=k", "/digest", "/checkpoint":
            self.assertIn("there is no such path", self.ask(self.coordinator, path)[1])


if __name__ == "__main__":
    unittest.main()
