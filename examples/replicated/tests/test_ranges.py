"""Ranges: splits, merges and moves while writers go on, and reads at one cut across them."""

import json
import unittest
from unittest import mock

from range_support import RangeCase

import hlcstore
import log
import ranges
import reshape
import serve
from ranges import Head, Range, joined, level


class OfTheMap(unittest.TestCase):
    def test_what_entries_say(self):
        known = ranges.Map()
        known.apply(ranges.split_words(known, b"m", ["a:1"]))
        self.assertEqual(known.live, [1, 2])
        self.assertEqual(known.ranges[2], Range(2, b"m", b"", ("a:1",), (0,)))
        known.apply(ranges.split_words(known, b"g"))
        self.assertEqual(known.live, [3, 4, 2])
        known.apply(ranges.merge_words(known, b"m"))
        self.assertEqual((known.live, known.ranges[5]), ([3, 5], Range(5, b"g", b"", (), (4, 2))))
        self.assertEqual([known.at(key).id for key in (b"\0", b"f", b"g", b"m", b"z")], [3, 3, 5, 5, 5])

    def test_what_came_from_a_range_while_the_map_grows(self):
        """One thread of a replica asks, and another one applies an entry just then."""
        known = ranges.Map()

        class Growing:
            @property
            def parents(self):
                known.ranges[max(known.ranges) + 1] = Range(9)
                return (0,)

        known.ranges[1] = found = Growing()
        self.assertEqual(known.children(0), [found])

    def test_replicas_of_a_range(self):
        known = ranges.Map()
        known.apply({"range": 0, "replicas": ["r2"]})
        known.apply(ranges.split_words(known, b"m"))
        known.apply({"range": 2, "replicas": ["r1", "r3"]})
        self.assertEqual(known.ranges[1].replicas, ("r2",))
        known.apply(ranges.merge_words(known, b"m"))
        self.assertEqual(known.ranges[3].replicas, ("r1", "r2", "r3"))
        self.assertEqual([known.ranges[3].is_of(name) for name in ("r1", "r4")], [True, False])
        self.assertTrue(Range(0).is_of("r4"))

    def test_what_makes_no_sense(self):
        known = ranges.Map()
        for wrong in b"", b"m":
            self.assertRaises(ValueError, ranges.merge_words, known, wrong)
        self.assertRaises(ValueError, ranges.split_words, known, b"")

    def test_ends(self):
        for part, ends, found in (
            (Range(1, b"d", b"m"), (b"", b""), (b"d", b"m")), (Range(1, b"d", b"m"), (b"a", b"f"), (b"d", b"f")),
            (Range(1, b"d", b"m"), (b"m", b""), None), (Range(1, b"d"), (b"a", b"d"), None),
            (Range(1, b"d"), (b"", b""), (b"d", b"")), (Range(1), (b"a", b"b"), (b"a", b"b")),
        ):  # fmt: skip
            self.assertEqual(part.within(*ends), found)


class Links(unittest.TestCase):
    def test_links_are_filled_to_one_head(self):
        one, other = Head(5, 70, False), Head(9, 60, False)
        self.assertEqual(joined([one, other]), Head(10, 75, False))
        self.assertEqual(joined([one, one]), one)
        self.assertEqual(joined([one, Head(9, 90, True)]), Head(9, 90, True))

    def test_what_fills_a_link(self):
        """Numbers without a gap, stamps that rise up to the head, and a retirement last where that is one."""
        for to in Head(8, 100, False), Head(8, 100, True):
            (items,) = ranges.fill(3, Head(5, 97, False), to)
            found, at = [], 0
            while at < len(items):
                item, at = hlcstore.Item.decode(items, at)
                found.append((item.node, item.number, int(item.stamp), item.kind))
            last = "retire" if to.retired else "report"
            self.assertEqual(found, [(3, 5, 98, "report"), (3, 6, 99, "report"), (3, 7, 100, last)])

    def test_all_can_be_filled_to_a_level(self):
        heads = [Head(5, 70, False), Head(9, 60, False)]
        for more, least in (1, 0), (2, 0), (2, 500):
            found = level(heads, more, least)
            self.assertEqual(found.next, 9 + more)
            self.assertGreaterEqual(found.last, least)
            for head in heads:
                self.assertGreaterEqual(found.last - head.last, found.next - head.next)

    def test_a_decision_leaves_room_for_a_merge(self):
        """Whatever two links a merge joins meanwhile, the last item still fits behind what fills them."""
        heads = [Head(5, 70, False), Head(9, 60, False), Head(9, 71, False)]
        end = level(heads, 2)
        for one in heads:
            for other in heads:
                merged = joined([one, other])
                self.assertGreater(end.next, merged.next)
                self.assertGreaterEqual(end.last - merged.last, end.next - merged.next)


class Splits(RangeCase):
    def test_a_split_while_a_batch_is_under_way(self):
        """Nothing of the batch is in the old log, and all of it is in the new ones, each write once."""
        self.write(b"a", b"z")
        self.writer.etcd.before = [lambda: self.split(b"m")]
        self.write(b"b", b"n", b"c")
        self.assertEqual(self.live(), [(1, b"", b"m"), (2, b"m", b"")])
        self.assertEqual(self.writes(), [b"a", b"z", b"b", b"c", b"n"])
        self.report()
        self.assertEqual(self.compare(self.caught_up()), {key: key for key in (b"a", b"b", b"c", b"n", b"z")})

    def test_a_batch_whose_answer_is_lost_before_a_split(self):
        """It is in the old log: when it is sent again, that log is sealed, and it is not written a second time."""
        transact, calls = self.writer.etcd.transact, []

        def lose_the_answer(*words):
            answer = transact(*words)
            if not calls:
                calls.append(self.split(b"m"))
                return transact(*words)
            return answer

        with mock.patch.object(self.writer.etcd, "transact", lose_the_answer):
            self.write(b"b", b"n")
        self.assertEqual(self.writes(), [b"b", b"n"])
        self.report()
        self.assertEqual(self.compare(self.caught_up()), {b"b": b"b", b"n": b"n"})

    def items(self, number):
        """Returns the writes of each item of the writer in the log of a range, and its stamp."""
        entries = [entry.records for entry in self.entries(self.known().ranges[number])]
        items = [hlcstore.Item.decode(records)[0] for records in entries if records[:1] == b"\1"]
        found = []
        for item in items:
            if item.node == self.writer.number and item.writes:
                found.append(([(key, value and value.split(b".")[2]) for key, value in item.writes], item.stamp))
        return found

    def test_an_item_of_several_keys(self):
        """It is in the log of its range as a whole. Where that is split meanwhile, each part has one of its keys."""
        whole = [(b"a", b"1"), (b"n", b"1"), (b"z", None)]
        self.writer.append_changes([whole])
        self.writer.etcd.before = [lambda: self.split(b"m")]
        self.writer.append_changes([[(b"n", b"2"), (b"b", b"2"), (b"a", None), (b"o", b"2")]])
        self.writer.append_waiting()
        ((first, at),) = self.items(0)
        ((left, at_left),) = self.items(1)
        ((right, at_right),) = self.items(2)
        self.assertEqual((first, left), (whole, [(b"b", b"2"), (b"a", None)]))
        self.assertEqual(right, [(b"n", b"2"), (b"o", b"2")])
        self.report()
        replica, new = self.caught_up(), {b"b": b"2", b"n": b"2", b"o": b"2"}
        self.assertEqual(self.compare(replica), new)
        old = {b"a": b"1", b"n": b"1"}
        for stamp, found in (at - 1, {}), (at, old), (min(at_left, at_right) - 1, old), (max(at_left, at_right), new):
            self.assertEqual(dict(self.pairs(replica, stamp)), found)

    def test_changes_of_a_writer(self):
        """A fifth of them are of two to five keys of one range."""
        self.split(b"key0000030")
        self.writer.take_over()
        changes = [self.writer.next_change() for _ in range(5000)]
        for change in changes:
            keys = [key for key, _ in change]
            self.assertEqual((len(set(keys)), len(set(map(self.known().at, keys)))), (len(keys), 1))
        many = [len(change) for change in changes]
        self.assertEqual(set(many), {1, 2, 3, 4, 5})
        self.assertTrue(0.15 < sum(each > 1 for each in many) / len(many) < 0.25)
        self.writer.append_changes(changes[:200])
        self.report()
        self.compare(self.caught_up())

    def test_a_writer_that_routes_by_an_old_map(self):
        """Two splits and a merge later it goes on at the right range."""
        self.write(b"b", b"n")
        self.split(b"m")
        self.split(b"f")
        self.merge(b"m")
        self.write(b"b", b"n", b"g")
        self.assertEqual(self.live(), [(3, b"", b"f"), (5, b"f", b"")])
        self.assertEqual(self.writes(), [b"b", b"n", b"b", b"n", b"g"])
        self.report()
        self.compare(self.caught_up())

    def test_a_writer_that_was_away(self):
        """Its links in new ranges begin where those of old ones ended, also over ranges in which it never was."""
        self.write(b"b", b"n")
        self.split(b"m")
        self.split(b"t")
        again = self.start_writer("w1")
        self.write(b"b", b"u", writer=again)
        self.writer = again
        self.assertEqual(self.writes(), [b"b", b"n", b"b", b"u"])
        self.report()
        self.compare(self.caught_up())

    def test_stamps_rise_over_the_ranges(self):
        self.split(b"m")
        self.write(*[b"a", b"z"] * 10)
        stamps = [stamp for found in self.new_model().versions.values() for stamp, _, _ in found]
        self.assertEqual(len(set(stamps)), 20)

    def test_reads_at_a_cut_across_a_split(self):
        """What could be read before the split is read after it, from the parents first, and then from the others."""
        self.write(b"a", b"z")
        self.report()
        replica = self.caught_up()
        cut = replica.parts[0].store.floor
        before = self.pairs(replica, cut)
        self.split(b"m")
        replica.map.read(self.new_etcd())
        self.assertEqual(self.pairs(replica, cut), before)
        self.write(b"a", b"b", b"y")
        self.report()
        self.catch_up(replica)
        self.assertEqual(self.pairs(replica, cut), before)
        self.compare(replica, stamp=cut)
        self.assertEqual(len(self.compare(replica)), 4)

    def test_a_cut_waits_for_the_slowest_range(self):
        self.split(b"m")
        self.write(b"a", b"z")
        self.coordinator.report_all()
        replica = self.caught_up()
        floors = [replica.parts[number].store.floor for number in (1, 2)]
        with replica.snapshot(None) as snapshot:
            self.assertEqual(snapshot.stamp, min(floors))
        with self.assertRaises(serve.Refused) as refused, replica.snapshot(max(floors)):
            pass
        self.assertEqual(refused.exception.args[0], 425)

    def test_a_restart_between_a_split_and_its_checkpoints(self):
        """The replica has a checkpoint of the old range alone, from before its seal."""
        self.write(b"a", b"z")
        first = self.caught_up()
        first.parts[0].save()
        self.split(b"m")
        self.write(b"b", b"y")
        self.report()
        again = self.caught_up()
        self.assertEqual([part.revision for part in again.parts.values()],
                         [part.revision for part in self.caught_up("r2").parts.values()])  # fmt: skip
        self.assertEqual(len(self.compare(again)), 4)

    def test_a_restart_with_a_checkpoint_behind_the_seal(self):
        """The seal is applied once more, so that the ranges begin that come from it."""
        self.write(b"a", b"z")
        self.split(b"m")
        first = self.caught_up()
        first.parts[0].save()
        again = self.caught_up()
        self.assertTrue(again.parts[0].seal)
        self.report()
        self.compare(self.catch_up(again))

    def test_requests_that_make_no_sense(self):
        for request, words in (
            (b"split/", None), (b"split/xy", None), (b"merge/6d", None), (b"place/7", []), (b"place/x", []),
            (b"place/0", {}), (b"split/6d", []), (b"split/6d", {"members": "a:1"}), (b"move/6d", {"members": ["a"]}),
            (b"split/6d", {"members": 0}), (b"split/6d", {"members": False}),
        ):  # fmt: skip
            with self.subTest(request=request, words=words), mock.patch("logs.warning"):
                self.assertTrue(json.loads(self.ask(request, words))["refused"])
        self.assertEqual(self.live(), [(0, b"", b"")])
        self.put(b"ask/fly/6d")
        self.coordinator.answer()

    def test_a_request_that_is_nested_too_deeply(self):
        self.put(b"ask/split/6d", b"[" * 100_000)
        with mock.patch("logs.warning"):
            self.coordinator.answer()
        self.assertTrue(json.loads(self.value(b"ask/split/6d"))["refused"])


class Merges(RangeCase):
    def setUp(self):
        super().setUp()
        self.write(b"a", b"z")
        self.split(b"m")
        self.report()

    def test_a_merge_with_different_horizons(self):
        self.write(*[b"a", b"b", b"a", b"y"] * 3)
        self.report()
        replica, other = self.caught_up("r1"), self.caught_up("r2")
        replica.parts[1].make_vacuum(replica.parts[1].store.floor)
        other.parts[2].make_vacuum(other.parts[2].store.floor - (1 << 8))
        with replica.parts[2].store.snapshot(), other.parts[1].store.snapshot():
            pass  # other snapshots were opened in one range than in the other
        self.merge(b"m")
        self.write(b"c", b"x")
        self.report()
        self.catch_up(replica), self.catch_up(other)
        self.assertEqual(self.live(), [(3, b"", b"")])
        self.assertEqual(len(self.compare(replica, other)), 6)

    def test_a_merge_while_a_batch_is_under_way(self):
        self.writer.etcd.before = [lambda: self.merge(b"m")]
        self.write(b"b", b"n", b"c", b"o")
        self.assertEqual(self.writes(), [b"a", b"z", b"b", b"c", b"n", b"o"])
        self.report()
        self.compare(self.caught_up())

    def test_a_merge_between_the_batches_of_two_ranges(self):
        """The batch of the first range is in its log, and that of the second one goes to the range of both."""
        self.writer.etcd.before = [lambda: None, lambda: self.merge(b"m")]
        self.write(b"b", b"n", b"c", b"o")
        self.assertEqual(self.writes(), [b"a", b"z", b"b", b"c", b"n", b"o"])
        self.report()
        self.compare(self.caught_up())

    def test_a_range_of_which_a_replica_has_a_part(self):
        """It takes the whole from another one."""
        self.ask(b"place/1", ["r1", "r2"])
        self.ask(b"place/2", ["r2"])
        self.merge(b"m")
        self.report()
        whole = self.caught_up("r2")
        whole.parts[3].save()
        words = {"name": "r2", "address": serve.start(whole).address, "floor": 0, "checkpoint": 0,
                 "ranges": {"3": {"floor": 0, "checkpoint": 0}}}  # fmt: skip
        self.put(b"replica/r2", log.to_json(words))
        part = self.new_replica("r1")
        part.map.read(self.new_etcd())
        self.enterContext(mock.patch("part.Part.follow"))
        part.have(part.map.ranges[3])
        while part.parts[3].store is None:
            pass
        part.parts[3].dropped.set()
        self.assertEqual(part.parts[3].store.link(1), whole.parts[3].store.link(1))

    def test_a_merge_waits_for_a_retirement(self):
        self.writer.machine.decide_to_retire(self.writer.reading())
        self.assertIsNotNone(self.merge(b"m"))
        self.assertEqual(len(self.live()), 2)
        self.writer.retire()
        self.coordinator.answer()
        self.assertEqual(self.live(), [(3, b"", b"")])
        self.coordinator.report_all()
        self.assertTrue(self.compare(self.caught_up()))

    def test_a_merge_waits_for_a_join(self):
        self.put(b"ask/join/w2")
        part = self.coordinator.machine.parts[1]
        self.put(b"node/w2", b"2")
        self.coordinator.let_join_in(part, b"w2", 2)
        self.assertRaises(reshape.NotNow, reshape.refuse_unlike, self.coordinator, [1, 2])
        self.merge(b"m")
        self.assertEqual(self.live(), [(3, b"", b"")])
        self.assertEqual(len(self.new_model().logs[3].links), 3)

    def test_a_writer_that_decides_to_retire_while_a_merge_begins(self):
        """The first log is sealed when it decides, and the second one afterwards."""
        seal = log.Link.end_log

        def decide(link, words):
            seal(link, words)
            if link.prefix == log.prefix_of_range(1):
                self.writer.machine.decide_to_retire(self.writer.reading())

        with mock.patch.object(log.Link, "end_log", decide):
            self.merge(b"m")
        self.writer.retire()
        self.coordinator.report_all()
        model = self.new_model()
        self.assertTrue(model.logs[3].links[1][2])
        self.compare(self.caught_up())


if __name__ == "__main__":
    unittest.main()
