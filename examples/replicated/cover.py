"""Reads over several ranges at one stamp: the pieces of the keys that a replica has, and a snapshot of all of them."""

import bisect
import hashlib
import struct

import serve


def pieces(replica):
    """Returns the ends and the part of each piece of the keys that a replica can read, in the order of the keys.

    A range that has not begun is read in those from which it comes, up to their floor. So a read at a stamp goes on
    while a range is split, merged or moved.
    """
    found = []
    for wanted in replica.wanted():
        found += pieces_of(replica, wanted, wanted.start, wanted.end)
    return found


def pieces_of(replica, found, start, end):
    part = replica.parts.get(found.id)
    if part and part.store is not None:
        return [(start, end, part)]
    listed = []
    for parent in sorted((replica.map.ranges[number] for number in found.parents), key=lambda each: each.start):
        if ends := parent.within(start, end):
            listed += pieces_of(replica, parent, *ends)
    return listed


def over(pieces):
    """Returns a snapshot of these pieces, each with its ends and its snapshot. One of all keys is its own."""
    if len(pieces) == 1 and pieces[0][:2] == (b"", b""):
        return pieces[0][2]
    return Cover(pieces)


def sizes(stores):
    """Returns the sums of the sizes of stores."""
    words = {}
    for store in stores:
        for name, size in store.sizes._asdict().items():
            words[name] = words.get(name, 0) + size
    return words


class Cover:
    """A snapshot of pieces at one stamp. A read of keys that are in none is refused, and nothing is left out."""

    def __init__(self, pieces):
        self.pieces, self.stamp = pieces, pieces[0][2].stamp
        self.starts = [start for start, _, _ in pieces]

    def snapshot_at(self, key):
        place = bisect.bisect_right(self.starts, key) - 1
        if place < 0 or (end := self.pieces[place][1]) and key >= end:
            raise serve.Refused(404, f"the range of the key {key.hex()} is not here")
        return self.pieces[place]

    def read_all(self, keys):
        keys, places = list(keys), {}
        for place, key in enumerate(keys):
            _, _, snapshot = self.snapshot_at(key)
            places.setdefault(snapshot, []).append(place)
        values = [None] * len(keys)
        for snapshot, listed in places.items():
            for place, value in zip(listed, snapshot.read_all([keys[each] for each in listed]), strict=True):
                values[place] = value
        return values

    def between(self, start, end):
        """Returns the ends and the snapshot of each piece from `start` on and below `end`, without a gap."""
        at, found = start, []
        while not end or at < end:
            _, piece_end, snapshot = self.snapshot_at(at)
            last = not piece_end or end and end <= piece_end
            found.append((at, end if last else piece_end, snapshot))
            if last:
                return found
            at = piece_end
        return found

    def items(self, start, end):
        for first, last, snapshot in self.between(start, end):
            yield from snapshot.items(first, last)

    def count(self, start, end):
        return sum(snapshot.count(first, last) for first, last, snapshot in self.between(start, end))

    def digest(self, start, end):
        found = self.between(start, end)
        if len(found) == 1:
            first, last, snapshot = found[0]
            return snapshot.digest(first, last)
        digest = hashlib.sha256()
        for key, value in self.items(start, end):
            digest.update(struct.pack("<Q", len(key)) + key + struct.pack("<Q", len(value)) + value)
        return digest.digest()
