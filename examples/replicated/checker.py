#!/usr/bin/env python3
"""Judges a history of writes and reads by itself, without the log and without the model.

    checker.py FOLDER

Each file of the folder has what one client wrote and read (history.py). Of what must be true:

    a read at a stamp never changes: a key has one value in all reads at one stamp
    a read at a cut has each write at or below it that was acknowledged: its value is that of the newest such write, or
      of a newer one at or below the cut that nobody heard of, which was sent; of two at one stamp, that of the greater
      node is the newer one
    what was refused is in no read
    no read shows a part of an item: where one has a write of it, all of its writes are in the log
    the stamps of a client rise, also over its restarts: a cut that has one of its writes has all that it wrote before
    what a client wrote after it saw a read is above the stamp of that read
"""

import bisect
import json
import pathlib
import sys

from programs import Difference

UNKNOWN, ACKNOWLEDGED, SHOWN = None, "was acknowledged", "is of an item that a read shows"
NOTHING = 0, ()  # what a process sent that sent nothing


class Item:
    """What a node sent at a stamp. `known` says from what it is known to be in the log, if it is."""

    def __init__(self, stamp, node, known):
        self.stamp, self.node, self.known = stamp, node, known


def lines_of(path):
    """Yields the words of each whole line: the last one of a process that was killed may be none."""
    with open(path) as file:
        for line in file:
            if line.endswith("}\n"):
                yield json.loads(line)


def rise(name, last, sent):
    """Returns the last stamp of these items, which are to be above another one, each above the one before."""
    for stamp, writes in sent:
        if stamp <= last:
            raise Difference(f"{name} wrote {writes} at {stamp}, and had been at {last} before")
        last = stamp
    return last


def stamp_of(write):
    return write[0].stamp


def order_of(write):
    """Returns what says which of two writes of a key is the newer one: their stamps, and then their nodes."""
    return write[0].stamp, write[0].node


class Checker:
    def __init__(self):
        self.writes = {}  # of each key: the item and the value of each write
        self.refused = set()  # the key, the stamp and the value of each write
        self.reads = []
        self.many = self.together = 0  # writes, and items of several

    # ---- What the files say ----

    def add_client(self, path):
        sent, last = {}, {}  # of each process: its node and what it sent, and its last stamp
        acknowledged = 0  # the greatest stamp that any of them knows to be in the log
        for words in lines_of(path):
            by = words["by"]
            last.setdefault(by, acknowledged)
            if "sends" in words:
                self.keep(*sent.pop(by, NOTHING), UNKNOWN)
                sent[by] = words["node"], words["sends"]
                last[by] = rise(path.name, last[by], words["sends"])
            elif "done" in words:
                node, items = sent.pop(by, NOTHING)
                if words["done"]:
                    self.keep(node, items, ACKNOWLEDGED)
                    acknowledged = max([acknowledged, *(stamp for stamp, _ in items)])
                else:
                    self.refuse(items)
            elif "saw" in words:
                last[by] = max(last[by], words["saw"])
            else:
                self.reads.append(words)
        for node, items in sent.values():
            self.keep(node, items, UNKNOWN)

    def refuse(self, items):
        self.refused.update((key, stamp, value) for stamp, writes in items for key, value in writes)

    def keep(self, node, items, known):
        for stamp, writes in items:
            item = Item(stamp, node, known)
            self.together += len(writes) > 1
            for key, value in writes:
                self.many += 1
                self.writes.setdefault(key, []).append((item, value))

    # ---- What must be true ----

    def mark_shown(self):
        """What a read shows of an item is in the log, and so are all of its writes. Where the value may be that of
        another item, as of one that was lost and one that a process sent after it, that says nothing of either."""
        with_value = {}
        for key, writes in self.writes.items():
            for item, value in writes:
                with_value.setdefault((key, value), []).append(item)
        for key, stamp, value in self.values():
            items = [item for item in with_value.get((key, value), ()) if value is not None and item.stamp <= stamp]
            if len(items) == 1 and items[0].known is UNKNOWN:
                items[0].known = SHOWN

    def check(self):
        for writes in self.writes.values():
            writes.sort(key=order_of)
        seen = {}
        for key, stamp, value in self.values():
            before = seen.setdefault((stamp, key), value)
            if before != value:
                raise Difference(f"{key} at {stamp} was {before}, and is now {value}")
        self.mark_shown()
        for key, stamp, value in self.values():
            self.check_value(key, stamp, value)

    def values(self):
        """Yields what all reads answered: a key, the stamp of the read, and the value."""
        for read in self.reads:
            for key, value in read["values"]:
                yield key, read["read"], value

    def check_value(self, key, stamp, value):
        """Looks back from the stamp: what is not known to be in the log may be missing, the first that is may not."""
        writes = self.writes.get(key, [])
        for place in range(bisect.bisect_right(writes, stamp, key=stamp_of) - 1, -1, -1):
            item, written = writes[place]
            if written == value:
                return
            if item.known:
                said = f"{written} of node {item.node} at {item.stamp} {item.known}"
                raise Difference(f"{key} at {stamp} is {value}, and {said}")
        if value is not None:
            raise Difference(f"{key} at {stamp} is {value}, which nobody wrote at or below it")


def judge(folder):
    """Yields what was judged, in lines; raises Difference where something cannot be."""
    checker = Checker()
    for path in sorted(pathlib.Path(folder).iterdir()):
        checker.add_client(path)
    checker.check()
    values = sum(len(read["values"]) for read in checker.reads)
    stamps = len({read["read"] for read in checker.reads})
    said = f"the history: {checker.many} writes, {len(checker.refused)} refused, {checker.together} items of several"
    yield f"{said}; {len(checker.reads)} reads of {values} values at {stamps} cuts"


def main():
    if len(sys.argv) != 2:
        print(__doc__)
        return 2
    try:
        for line in judge(sys.argv[1]):
            print(line)
    except Difference as difference:
        print("DIFFERENCE:", difference)
        return 1
    return 0


if __name__ == "__main__":
    sys.exit(main())
