"""The checker of histories: what it accepts, and each thing that must not be."""

import json
import pathlib
import tempfile
import unittest

import support  # noqa: F401  finds the example

import checker
from history import History
from programs import Difference

KEY, OTHER = b"k".hex(), b"l".hex()


class Histories(unittest.TestCase):
    def setUp(self):
        self.folder = pathlib.Path(self.enterContext(tempfile.TemporaryDirectory()))

    def judge(self, **files):
        """Judges files of these lines; a line without a process is of process 1."""
        for name, lines in files.items():
            text = "".join(json.dumps({"by": 1} | line) + "\n" for line in lines)
            (self.folder / name).write_text(text)
        return list(checker.judge(self.folder))

    def refuse(self, text, **files):
        with self.assertRaisesRegex(Difference, text):
            self.judge(**files)

    def wrote(self, *writes, done=True):
        return self.sent(*((stamp, {KEY: value}) for stamp, value in writes), done=done)

    def sent(self, *items, done=True, node=1):
        """Each item has a stamp, and values by their keys."""
        sends = [[stamp, [[key, value] for key, value in writes.items()]] for stamp, writes in items]
        return [{"sends": sends, "node": node}, *([] if done is None else [{"done": done}])]

    def read(self, stamp, value, key=KEY):
        return self.read_all(stamp, {key: value})

    def read_all(self, stamp, values):
        return [{"read": stamp, "values": [[key, value] for key, value in values.items()], "began": 0}]

    def test_reads_that_are_right(self):
        writes = self.wrote((5, "a"), (7, None), (9, "b"))
        reads = []
        for stamp, value in (4, None), (5, "a"), (6, "a"), (7, None), (9, "b"):
            reads += self.read(stamp, value)
        (said,) = self.judge(w1=writes, reads=reads)
        self.assertIn("3 writes, 0 refused, 0 items of several; 5 reads of 5 values at 5 cuts", said)

    def test_a_write_that_is_missing(self):
        for stamp, value in (5, None), (8, "a"), (9, None):
            self.refuse("was acknowledged", w1=self.wrote((5, "a"), (8, "b")), reads=self.read(stamp, value))

    def test_a_value_that_nobody_wrote(self):
        self.refuse("nobody wrote", w1=[], reads=self.read(5, "a"))
        self.refuse("was acknowledged", w1=self.wrote((5, "a"), (9, "b")), reads=self.read(8, "b"))

    def test_a_write_of_which_nobody_heard(self):
        """It may be in the log, or not; but not in one read at a stamp and missing in another one."""
        writes = self.wrote((5, "a")) + self.wrote((7, "b"), done=None)
        for value in "a", "b":
            self.judge(w1=writes, reads=self.read(8, value))
        self.refuse("is now", w1=writes, reads=self.read(8, "a") + self.read(8, "b"))
        self.refuse("was acknowledged", w1=writes, reads=self.read(8, None))
        self.judge(w1=writes, reads=self.read(6, "a") + self.read(8, "b"))
        for reads in self.read(7, "a") + self.read(8, "b"), self.read(8, "b") + self.read(9, "a"):
            self.refuse("that a read shows", w1=writes, reads=reads)

    def test_a_part_of_an_item(self):
        """Whether it was acknowledged, or nobody heard of it, at one stamp or at two."""
        old, new = {KEY: "a", OTHER: "b"}, {KEY: "c", OTHER: "d"}
        before = self.sent((5, old))
        for done in True, None:
            writes = before + self.sent((7, new), done=done)
            said = self.judge(w1=writes, reads=self.read_all(7, new))[0]
            self.assertIn("4 writes, 0 refused, 2 items of several", said)
            self.judge(w1=writes, reads=self.read_all(6, old) + self.read_all(9, new))
            for part in {KEY: "c", OTHER: "b"}, {OTHER: "d", KEY: "a"}, {KEY: "c", OTHER: None}:
                text = "was acknowledged" if done else "is of an item that a read shows"
                self.refuse(text, w1=writes, reads=self.read_all(8, part))
                at_two = [self.read(8 + at, value, key) for at, (key, value) in enumerate(part.items())]
                self.refuse(text, w1=writes, reads=at_two[0] + at_two[1])
        unheard = before + self.sent((7, new), done=None)
        self.judge(w1=unheard, reads=self.read_all(8, old))
        newer = self.sent((7, new), done=None) + [line | {"by": 2} for line in self.sent((8, {OTHER: "e"}))]
        self.judge(w1=before + newer, reads=self.read_all(8, {KEY: "c", OTHER: "e"}))
        self.refuse("was acknowledged", w1=before + newer, reads=self.read_all(9, {KEY: "c", OTHER: "d"}))
        refused = before + self.sent((7, new), done=False)
        self.judge(w1=refused, reads=self.read_all(8, old))
        self.refuse("was acknowledged", w1=refused, reads=self.read_all(8, {KEY: "c", OTHER: "b"}))

    def test_a_value_of_two_items(self):
        """The next process may send the value of an item that was lost. A read of it does not say which one it is."""
        lost, later = self.sent((7, {KEY: "a", OTHER: "b"}), done=None), self.sent((8, {KEY: "a"}))
        writes = lost + [line | {"by": 2} for line in later]
        self.judge(w1=writes, reads=self.read_all(9, {KEY: "a", OTHER: None}))
        self.refuse("that a read shows", w1=writes, reads=self.read(7, "a") + self.read(9, None, OTHER))

    def test_two_nodes_at_one_stamp(self):
        """The write of the greater node is the newer one, whatever the names of the writers."""
        for low, high in ("w1", "w2"), ("w2", "w1"):
            for value in "b", None:
                writes = {low: self.sent((7, {KEY: "a"})), high: self.sent((7, {KEY: value}), node=3)}
                self.judge(**writes, reads=self.read(7, value) + self.read(9, value))
                self.refuse("of node 3 at 7 was acknowledged", **writes, reads=self.read(8, "a"))
                unheard = writes | {high: self.sent((7, {KEY: value}), done=None, node=3)}
                self.judge(**unheard, reads=self.read(7, "a"))
                self.judge(**unheard, reads=self.read(8, value))
                self.refuse("of node 1 at 7 was acknowledged", **unheard, reads=self.read(8, "c"))

    def test_what_was_refused_is_in_no_read(self):
        writes = self.wrote((5, "a")) + self.wrote((7, "b"), done=False) + self.wrote((9, "b"))
        self.judge(w1=writes, reads=self.read(8, "a") + self.read(9, "b"))
        self.refuse("was acknowledged", w1=writes, reads=self.read(8, "b"))

    def test_reads_at_a_stamp_that_change(self):
        self.refuse("is now", w1=self.wrote((5, "a")), one=self.read(5, "a"), two=self.read(5, "b"))

    def test_stamps_that_fall(self):
        self.refuse("had been at 7", w1=self.wrote((7, "a")) + self.wrote((6, "b")))
        self.refuse("had been at 7", w1=self.wrote((7, "a")) + [line | {"by": 2} for line in self.wrote((7, "b"))])
        self.judge(w1=self.wrote((7, "a"), done=None) + [line | {"by": 2} for line in self.wrote((6, "b"))])

    def test_what_was_seen_is_before(self):
        self.refuse("had been at 8", w1=[*self.wrote((7, "a")), {"saw": 8}, *self.wrote((8, "b"))])
        self.judge(w1=[*self.wrote((7, "a")), {"saw": 8}, *self.wrote((9, "b"))])

    def test_two_processes_of_a_name(self):
        """The word of the first one, which stood still, is not that of the second one."""
        first, other = self.wrote((7, "a")), [line | {"by": 2} for line in self.wrote((8, "b"), done=None)]
        self.judge(w1=[first[0], other[0], first[1]], reads=self.read(8, "a"))

    def test_a_line_that_is_not_whole(self):
        path = self.folder / "w1"
        history = History(path)
        history.issue(5, [(b"k", b"a"), (b"l", None)])
        history.sends(1)
        history.done(True)
        history.file.close()
        with open(path, "a") as file:
            file.write('{"sends": [[9, [["6b"')
        self.assertIn("2 writes", self.judge(reads=self.read(5, b"a".hex()))[0])
        for _ in range(2):  # the next process of this name goes on in the same file
            history = History(path)
            history.saw(7)
            history.file.close()
        self.assertIn("2 writes", self.judge(reads=self.read(5, b"a".hex()))[0])
        self.assertEqual([line.get("saw") for line in checker.lines_of(path)], [None, None, 7, 7])


if __name__ == "__main__":
    unittest.main()
