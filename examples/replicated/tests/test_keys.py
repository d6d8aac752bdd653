"""Keys that make no sense, as a slip of an operator leaves them: no program ends by one."""

import unittest
from unittest import mock

from range_support import RangeCase

import keys
import log
import part
import sight
from etcd import Pair

JUNK = [b"", b"junk", b"\xff", b"5.5", b"-1", b"1024", b"true", b"null", b'"x"', b"[]", b"[" * 100_000]
NO_REPLICA = [
    b'{"floor": "x"}', b'{"floor": -1}', b'{"floor": 18446744073709551616}', b'{"floor": 1.5}', b'{"checkpoint": null}',
    b'{"name": 5}', b'{"address": []}', b'{"ranges": []}', b'{"ranges": {"0": 5}}', b'{"ranges": {"0": {"floor": 5}}}',
    b'{"a": ' * 100_000,
]  # fmt: skip


class Keys(RangeCase):
    def setUp(self):
        super().setUp()
        self.warning = self.enterContext(mock.patch("logs.warning"))

    def test_what_replicas_publish(self):
        known = {"name": "r1", "address": "a:1", "floor": 5, "checkpoint": 3}
        for words in known, known | {"ranges": {"7": {"floor": 5, "checkpoint": 3}}}:
            self.assertEqual(keys.replicas([Pair(b"replica/r1", log.to_json(words), 5)]), [words])
        for junk in JUNK + NO_REPLICA:
            with self.subTest(junk=junk[:40]):
                self.assertEqual(keys.replicas([Pair(b"replica/x", junk, 5)]), [])

    def test_the_numbers_of_names(self):
        pairs = [Pair(b"node/x%d" % place, junk, 5) for place, junk in enumerate([*JUNK, b"{}"])]
        self.assertEqual(keys.names([*pairs, Pair(b"node/w1", b"1", 5)]), {1: b"w1"})
        self.assertEqual(keys.names([Pair(b"node/w/2", b"1023", 5)]), {1023: b"w/2"})

    def test_it_is_said_once(self):
        for revision, said in (8, 1), (8, 1), (9, 2):
            keys.replicas([Pair(b"replica/again", b"junk", revision)])
            self.assertEqual(self.warning.call_count, said)
        self.assertEqual(self.warning.call_args.kwargs["key"], "replica/again")

    def test_programs_go_on(self):
        self.write(b"a", b"z")
        for split in False, True:
            for place, junk in enumerate(JUNK):
                self.put(b"node/x%d" % place, junk)
                self.put(b"replica/x%d" % place, junk)
            self.put(b"map/junk", b"junk")
            self.put(b"replica/r1", b'{"name": "r1", "address": "", "floor": %d, "checkpoint": 0}' % (1 << 62))
            self.coordinator.keep_up()
            self.assertGreater(self.coordinator.head["threshold"], 1 << 61)
            self.coordinator.finish_retirements()
            self.assertEqual([words["name"] for words in part.published(self.new_etcd(), 0)], ["r1"])
            seen = sight.look(self.new_etcd())
            self.assertEqual((seen.names, len(seen.replicas)), ({0: "coordinator", 1: "w1"}, 1))
            replica = self.caught_up(f"r{split}")
            with mock.patch("part.start"):
                replica.look_at_map(self.new_etcd())
            for place in range(len(JUNK)):
                self.put(b"ask/lost/x%d" % place)
                self.put(b"ask/join/x%d" % place)
            self.coordinator.answer()
            self.assertEqual([link[0] for link in self.new_model().logs[self.known().live[-1]].links[2:]], [])
            if not split:
                self.split(b"m")
        self.coordinator = self.start_coordinator()
        self.write(b"b", b"y")
        self.assertEqual(self.writes(), [b"a", b"z", b"b", b"y"])


if __name__ == "__main__":
    unittest.main()
