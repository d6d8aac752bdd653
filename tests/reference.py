"""A store, written only from its definitions: it keeps every write that it ever accepted, and looks through all of them
for each answer. It shares nothing with the product.

A stamp is a number, or a pair of a reading and a counter. A write is (key, stamp, node, value), where the value of a
deletion is None; a row is a write that is stored. A link is [next number, head, retired].
"""
from typing import NamedTuple

# How many node numbers there are, and how many snapshots may be open.
MOST = 1_024


class Refused(Exception):
    """A refusal: its number, as docs/refusals.md has it, and the word that comes with it, or 0."""

    def __init__(self, number, word=0):
        super().__init__(number, word)


def newest_write(writes, key, bound):
    """Returns the newest write of the key, by stamp and node, at or below the bound; None where there is none."""
    below = [write for write in writes if write[0] == key and write[1] <= bound]
    return max(below, key=lambda write: write[1:3]) if below else None


def newest(writes, key, bound):
    """Returns the value of that write; None where there is none."""
    write = newest_write(writes, key, bound)
    return write[3] if write else None


def listing(writes, bound):
    """Returns the keys that have a value at the bound, each with it, by rising keys."""
    values = [(key, newest(writes, key, bound)) for key in sorted({write[0] for write in writes})]
    return {key: value for key, value in values if value is not None}


def changes(writes, points):
    """Returns the changes of answers: each key, the point before, if any, and the point at which its answer differs."""
    found = []
    for key in sorted({write[0] for write in writes}):
        before, last = None, None
        for point in points:
            value = newest(writes, key, point)
            if value != last:
                found.append((key, before, point))
            before, last = point, value
    return found


def cost(writes):
    """Returns what rows of these writes cost: for each the bytes of its key and of its value, none for a deletion, and
    10."""
    return sum(len(key) + len(value or b"") + 10 for key, _, _, value in writes)


def sizes(writes):
    """Returns how many rows and keys these are, the bytes of the keys, each once, and those of the values."""
    keys = {write[0] for write in writes}
    return len(writes), len(keys), sum(map(len, keys)), sum(len(value or b"") for _, _, _, value in writes)


def floor_of(links):
    """Returns the floor (closed timestamp): the least head of the nodes that have not retired; where all have, the
    greatest head, which is then the greatest stamp of an accepted item."""
    left = [head for _, head, retired in links if not retired]
    return min(left) if left else max(head for _, head, _ in links)


class Vacuumed(NamedTuple):
    """What a vacuum returns: the open snapshots' stamps and its own, the changes of answers at them, how many rows it
    kept for these, what they cost, and how many rows it dropped."""

    points: list
    changes: list
    kept: int
    cost: int
    dropped: int


class Store:
    """A store of so many nodes at the start. Its calls raise the first of their refusals, and change nothing then."""

    def __init__(self, nodes, zero=0):
        self.start = nodes
        self.links = [[0, zero, False] for _ in range(nodes)]
        self.writes, self.rows = [], []
        # The stamps of the open snapshots by their ids, and the id that was given last.
        self.snapshots, self.opened = {}, 0
        self.horizon = zero

    def floor(self):
        return floor_of(self.links)

    def accept(self, node, number, stamp, writes=(), last=False):
        """Accepts an item with these writes, each a key and a value or None; the node retires with its last item."""
        if node >= len(self.links):
            raise Refused(1)
        next_number, head, retired = self.links[node]
        if retired:
            raise Refused(27)
        if number != next_number:
            raise Refused(6, next_number)
        if stamp <= head:
            raise Refused(7, head)
        if len({key for key, _ in writes}) < len(writes):
            raise Refused(30)
        self.links[node] = [number + 1, stamp, last]
        accepted = [(key, stamp, node, value) for key, value in writes]
        self.writes += accepted
        self.rows += accepted

    def join(self, start):
        """Returns the number of the node that joins."""
        if len(self.links) == MOST:
            raise Refused(26)
        if start < self.floor():
            raise Refused(9, self.floor())
        self.links.append([0, start, False])
        return len(self.links) - 1

    def check(self, stamp):
        """Checks that a stamp is not above the floor, and not below the horizon (GC threshold)."""
        if stamp > self.floor():
            raise Refused(8, self.floor())
        if stamp < self.horizon:
            raise Refused(9, self.horizon)

    def open(self, stamp):
        """Returns the id of the snapshot that is opened."""
        self.check(stamp)
        if len(self.snapshots) == MOST:
            raise Refused(11)
        self.opened += 1
        self.snapshots[self.opened] = stamp
        return self.opened

    def at(self, snapshot):
        """Returns the stamp of an open snapshot."""
        if snapshot not in self.snapshots:
            raise Refused(10)
        return self.snapshots[snapshot]

    def close(self, snapshot):
        """Returns the stamp of the snapshot that is closed."""
        at = self.at(snapshot)
        del self.snapshots[snapshot]
        return at

    def read(self, snapshot, key):
        return newest(self.writes, key, self.at(snapshot))

    def list(self, snapshot):
        return listing(self.writes, self.at(snapshot))

    def vacuum(self, stamp, keys=None):
        """Keeps of all rows at or below the stamp, or of those of these keys, the newest at each change of answers."""
        self.check(stamp)
        keys = {write[0] for write in self.writes} if keys is None else keys
        points = sorted({stamp, *(at for at in self.snapshots.values() if at <= stamp)})
        vacuumed = [write for write in self.writes if write[0] in keys]
        found = changes(vacuumed, points)
        kept = [newest_write(self.rows, key, at) for key, _, at in found]
        assert all(listing(kept, point) == listing(vacuumed, point) for point in points)
        rows = kept + [row for row in self.rows if row[0] not in keys or row[1] > stamp]
        dropped = len(self.rows) - len(rows)
        self.rows, self.horizon = rows, stamp
        return Vacuumed(points, found, len(kept), cost(kept), dropped)
