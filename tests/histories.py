#!/usr/bin/env python3
"""Plays 10,000 short random histories, with the C library beside a model that keeps all writes: nodes write and delete
keys, one at a time or several in a batch, snapshots are opened and closed, and vacuums drop rows up to random stamps.
Requests for memory are refused at random: then nothing of the item may be there, and the call is made again. The store
is closed and made again from a checkpoint, and a replica reads the bytes of the items, some of them twice. Then, of
each two open snapshots, the changes from one to the other are applied to the listing of the first: that must give the
listing of the second, and each change must be needed; and at stamps by lot both stores show what all writes give, and
of each batch all or nothing. The arguments are the shared object, linked with grant.c, and a seed. Prints `all right`
at the end, and fails at the first difference."""
import random
import struct
import sys

from no_memory import writes_of
from raw_calls import Handle, Library
from reference import Store, listing

HISTORIES = 10_000
KEYS = [b"a", b"a\0", b"b", b"c\xff", b"d"]
VALUES = [b"", b"x", b"y", b"long" * 8]
ROOM = 4096
OK, NO_MEMORY, MORE = 0, 15, 104


def ok(name, *args):
    """Makes a call that is not refused, and returns what it wrote."""
    answer, *written = library.call(name, *args)
    assert answer == OK, (name, answer)
    return written


def accept(name, *args):
    """Accepts an item, with each of its requests for memory refused by lot before it is granted. A refusal leaves the
    store as it was, so the same call can be made again."""
    sizes = ok("store_size", args[0])
    for granted in range(pick.randint(0, 3)):
        library.granted.value = granted
        answer, *_ = library.call(name, *args)
        library.granted.value = -1
        if answer == OK:
            return
        assert answer == NO_MEMORY and ok("store_size", args[0]) == sizes, (name, answer)
    ok(name, *args)


def take_part(data, at):
    """The bytes at a place, with their length before them, and the place behind them."""
    (length,) = struct.unpack_from("<Q", data, at)
    return data[at + 8 : at + 8 + length], at + 8 + length


class History:
    """A store with its nodes and a replica, and the model of both; the bytes of the items, and the batches: of each its
    stamp, its node and its writes."""

    def __init__(self, pick):
        self.pick, self.store, self.model = pick, Handle(), Store(pick.randint(1, 3))
        self.replica, self.log, self.fed, self.batches = Handle(), [], 0, []
        for store in (self.store, self.replica):
            ok("store_open", store, self.model.start)

    def issue(self):
        """Lets a node write or delete a key or some keys, or report. Nodes may use the same stamps."""
        node = self.pick.randrange(len(self.model.links))
        number, last, _ = self.model.links[node]
        stamp, key = last + self.pick.randint(1, 3), self.pick.choice(KEYS)
        kind = self.pick.choice(("write", "write", "write", "delete", "batch", "batch", "report"))
        value = self.pick.choice(VALUES) if kind == "write" else None
        writes, parts = [(key, value)] * (kind in ("write", "delete")), ()
        if kind == "batch":
            keys = self.pick.sample(KEYS, self.pick.randint(1, len(KEYS)))
            writes = [(key, self.pick.choice((None, *VALUES))) for key in keys]
            parts = writes_of(*writes)
            self.batches.append((stamp, node, writes))
        elif kind != "report":
            parts = (key,) if value is None else (key, value)
        accept("store_accept_" + kind, self.store, node, number, stamp, *parts)
        length, data = ok("item_encode_" + kind, node, number, stamp, *parts, ROOM)
        assert len(data) == length
        self.log.append(data)
        self.model.accept(node, number, stamp, writes)

    def feed(self):
        """Lets the replica read on, from an item before the next one or from that."""
        start = self.pick.randint(max(0, self.fed - 2), self.fed)
        end = self.pick.randint(self.fed, len(self.log))
        data = b"".join(self.log[start:end])
        assert ok("store_accept_items", self.replica, data) == [len(data), end - start, 0]
        self.fed = end

    def restart(self):
        """Closes the store, or the replica, and makes it again from its checkpoint."""
        name = self.pick.choice(("store", "replica"))
        output, again = Handle(), Handle()
        (length,) = ok("checkpoint_make", getattr(self, name), 7, output)
        read, data = ok("output_read", output, 0, length)
        assert read == length
        library.call("output_drop", output)
        library.call("store_close", getattr(self, name))
        ok("store_restore", again, data)
        setattr(self, name, again)

    def open(self):
        floor = self.model.floor()
        stamp = self.pick.choice((floor, self.pick.randint(self.model.horizon, floor)))
        assert ok("snapshot_open", self.store, stamp) == [self.model.open(stamp)]

    def close(self):
        if len(self.model.snapshots) > 2:
            id = self.pick.choice(list(self.model.snapshots))
            assert ok("snapshot_close", self.store, id) == [self.model.close(id)]

    def vacuum(self):
        stamp = self.pick.randint(self.model.horizon, self.model.floor())
        assert ok("store_vacuum_to", self.store, stamp) == [stamp, *self.model.vacuum(stamp)[2:]]

    def play(self):
        events = [self.issue] * 6 + [self.open] * 2 + [self.close, self.vacuum, self.feed, self.restart]
        for _ in range(self.pick.randint(4, 30)):
            self.pick.choice(events)()
        self.open()

    def listing(self, id):
        """What a snapshot lists, which must be what all writes give."""
        pairs, at = {}, 0
        length, data = ok("snapshot_list", self.store, id, ROOM)
        while at < length:
            key, at = take_part(data, at)
            pairs[key], at = take_part(data, at)
        assert pairs == self.model.list(id)
        return pairs

    def changes(self, before, after):
        """The changes from one snapshot to another, in pieces by lot: each a key, and its value or none."""
        found, start, code = [], b"", MORE
        while code == MORE:
            room = self.pick.choice((0, 30, 60, ROOM))
            code, length, data, many = library.call("snapshot_changes", self.store, before, after, start, b"", room)
            at, value = 0, None
            while at < length:
                key, at = take_part(data, at)
                value, end = take_part(data, at + 1) if data[at] == 1 else (None, at + 1)
                found.append((key, value))
                start, at, many = key + b"\0", end, many - 1
            assert many == 0
        assert code == OK and [key for key, _ in found] == sorted({key for key, _ in found})
        return found

    def show(self, store, floor):
        """Reads each key at a stamp by lot up to the floor, and judges it by all writes, and by each batch alone."""
        at = self.pick.randint(self.model.horizon, max(floor, self.model.horizon))
        (id,) = ok("snapshot_open", store, at)
        shown = {}
        for key in KEYS:
            answer, length, data = library.call("snapshot_read", store, id, key, ROOM)
            if answer == OK:
                shown[key] = data[:length]
        ok("snapshot_close", store, id)
        assert shown == listing(self.model.writes, at)
        for stamp, node, writes in self.batches:
            later = {key for key, when, who, _ in self.model.writes if (when, who) > (stamp, node) and when <= at}
            seen = {shown.get(key) == value for key, value in writes if key not in later}
            assert stamp > at or seen <= {True}, "a part of a batch"

    def compare(self):
        """Applies the changes between each two snapshots."""
        listings = {id: self.listing(id) for id in self.model.snapshots}
        for before, pairs in listings.items():
            for after, expected in listings.items():
                patched = dict(pairs)
                for key, value in self.changes(before, after):
                    assert patched.get(key) != value, "a change that changes nothing"
                    if value is None:
                        del patched[key]
                    else:
                        patched[key] = value
                assert patched == expected
        return len(listings) ** 2


library = Library(sys.argv[1])
pick, compared = random.Random(int(sys.argv[2])), 0
for _ in range(HISTORIES):
    history = History(pick)
    history.play()
    compared += history.compare()
    history.show(history.store, history.model.floor())
    history.fed = min(history.fed, len(history.log))
    history.feed()
    if history.fed == len(history.log):
        history.show(history.replica, history.model.floor())
    for store in (history.store, history.replica):
        library.call("store_close", store)
print(f"{compared} pairs of snapshots", file=sys.stderr)
print("all right")
