"""The map of the ranges: which have which keys, where their logs are, and from which others they came.

The map is a log of its own, in the first cluster. Its entries, in JSON, have the keys `map/NUMBER`:

    {"parents": [1], "into": [{"id": 2, "from": "", "to": "6d", "members": []}, ..]}     a split, a merge, or a move of
                                                                                         a log to another cluster
    {"range": 2, "replicas": ["r1", "r4"]}                                               who has a range; none: all

The first kind is appended when the log of each parent has ended with the same words, its seal. So whoever knows a range
by the map knows that its parents have their last entry. Where there is no entry, there is one range: 0, with all keys.
"""

import json
from typing import NamedTuple

import hlcstore
import log

MAP = b"map/"
MOST_FILLED = 1 << 14  # items in a piece of those that fill a link: an entry takes as many


class Range(NamedTuple):
    """Keys from `start` on and below `end`, where no end means all. `members` are those of the cluster of its log: none
    are those of the first. `replicas` are the names of who has it: none means all."""

    id: int
    start: bytes = b""
    end: bytes = b""
    members: tuple = ()
    parents: tuple = ()
    replicas: tuple = ()

    @property
    def prefix(self):
        return log.prefix_of_range(self.id)

    def has(self, key):
        return self.start <= key and (not self.end or key < self.end)

    def within(self, start, end):
        """Returns what of these keys are below `end` and from `start` on, as two ends, or None."""
        start = max(start, self.start)
        end = min(end, self.end) if end and self.end else end or self.end
        return (start, end) if not end or start < end else None

    def is_of(self, replica):
        return not self.replicas or replica in self.replicas


class Map:
    """What the entries up to some number say."""

    def __init__(self):
        self.ranges = {0: Range(0)}
        self.live = [0]  # the ranges whose logs go on, in the order of their keys
        self.changes = 0

    def apply(self, words):
        self.changes += 1
        if "into" not in words:
            found = self.ranges[words["range"]]
            self.ranges[found.id] = found._replace(replicas=tuple(words["replicas"]))
            return
        parents = [self.ranges[number] for number in words["parents"]]
        everywhere = any(not parent.replicas for parent in parents)
        replicas = () if everywhere else tuple(sorted({name for parent in parents for name in parent.replicas}))
        for part in words["into"]:
            ends = bytes.fromhex(part["from"]), bytes.fromhex(part["to"])
            numbers = tuple(parent.id for parent in parents)
            self.ranges[part["id"]] = Range(part["id"], *ends, tuple(part["members"]), numbers, replicas)
        live = set(self.live) - set(words["parents"]) | {part["id"] for part in words["into"]}
        self.live = sorted(live, key=lambda number: self.ranges[number].start)

    def read(self, etcd):
        """Applies what was appended since, and returns whether there was something."""
        before = self.changes
        for pair in etcd.list(MAP):
            if pair.key == self.next_key():
                self.apply(json.loads(pair.value))
        return self.changes > before

    def next_key(self):
        return MAP + b"%016x" % self.changes

    def at(self, key):
        """Returns the live range of a key."""
        return next(found for found in self.all_live() if found.has(key))

    def all_live(self):
        return [self.ranges[number] for number in self.live]

    def next_id(self):
        return max(self.ranges) + 1

    def children(self, number):
        return [found for found in list(self.ranges.values()) if number in found.parents]  # other threads ask, too


def read_map(etcd):
    known = Map()
    known.read(etcd)
    return known


# ---- What is done to ranges, as the words of a seal and of the map ----


def part_words(number, start, end, members):
    return {"id": number, "from": start.hex(), "to": end.hex(), "members": list(members)}


def split_words(known, key, members=None):
    """Divides the range of a key there. The right part's log goes to other members, where some are given."""
    found, number = known.at(key), known.next_id()
    if key == found.start:
        raise ValueError("a range begins at this key already")
    right = found.members if members is None else members
    parts = [part_words(number, found.start, key, found.members), part_words(number + 1, key, found.end, right)]
    return {"parents": [found.id], "into": parts}


def merge_words(known, key):
    """Joins the two ranges of which the second begins at a key."""
    place = next((place for place, found in enumerate(known.all_live()) if place and found.start == key), None)
    if place is None:
        raise ValueError("no range begins at this key")
    left, right = known.all_live()[place - 1 : place + 1]
    part = part_words(known.next_id(), left.start, right.end, left.members)
    return {"parents": [left.id, right.id], "into": [part]}


def move_words(known, key, members):
    """Lets the log of the range of a key go on at other members."""
    found = known.at(key)
    return {"parents": [found.id], "into": [part_words(known.next_id(), found.start, found.end, members)]}


# ---- The links of a node in a range that came from others ----


class Head(NamedTuple):
    """Where a link ends: the next number, the last stamp, and whether the node retired."""

    next: int
    last: int
    retired: bool


def head_of(state):
    return Head(state["next"], state["last"], bool(state.get("retired")))


def joined(heads):
    """Returns the head to which links of a node are filled before they are one, in the same way by all who do it.

    The library joins stores only where their links are equal. So each gets reports: up to one number, with stamps that
    rise up to one stamp. A node that retired before in one of them retires in the others with that item.
    """
    if len(set(heads)) == 1:
        return heads[0]
    retired = [head for head in heads if head.retired]
    return retired[0] if retired else level(heads, 1)


def level(heads, more, least=0):
    """Returns a head to which each of these can be filled, which has so many numbers more than the greatest has."""
    number = max(head.next for head in heads) + more
    return Head(number, max(least, *(head.last + number - head.next for head in heads)), False)


def fill(node, link, to):
    """Yields the bytes of the items that bring a link to a head, some at a time."""
    for first in range(link.next, to.next, MOST_FILLED):
        items = []
        for number in range(first, min(first + MOST_FILLED, to.next)):
            last = to.retired and number + 1 == to.next
            issue = hlcstore.Item.retire if last else hlcstore.Item.report
            at = hlcstore.Stamp.from_number(to.last - (to.next - 1 - number))
            items.append(bytes(issue(node, number, at)))
        yield b"".join(items)


def state_of(connect, known, found, node):
    """Returns the state of a node's link in a range, as the last append left it there, or in the ranges from which it
    came; or None, where the node has not joined. `connect(members)` returns an Etcd."""
    head = connect(found.members).get(log.link_key(node, found.prefix))
    if head:
        return json.loads(head.value)
    states = [state_of(connect, known, known.ranges[number], node) for number in found.parents]
    if not states or None in states:
        return None
    state = {"owner": ""} | joined([head_of(state) for state in states])._asdict()
    if node == log.COORDINATOR:
        state |= {"nodes": states[0]["nodes"], "plans": 0, "threshold": max(each["threshold"] for each in states)}
    return state


# ---- The store of a range that came from others ----


def clip(checkpoint, start, end):
    """Returns the checkpoint of the part of the keys from `start` on and below `end`."""
    if start:
        checkpoint = hlcstore.split_checkpoint(checkpoint, start)[1]
    return hlcstore.split_checkpoint(checkpoint, end)[0] if end else checkpoint


def links_of(store):
    return [Head(link.next, link.head, link.retired) for link in map(store.link, range(store.nodes))]


def inherit(found, checkpoints):
    """Returns the store with which a range begins: from those of its parents, which have the whole of their logs."""
    if len(checkpoints) > 1:
        stores = [hlcstore.Store.restore(checkpoint) for checkpoint in checkpoints]
        make_alike(stores)
        checkpoints = [store.checkpoint() for store in stores]
    whole = checkpoints[0]
    for right in checkpoints[1:]:
        whole = hlcstore.merge_checkpoints(whole, right)
    return hlcstore.Store.restore(clip(whole, found.start, found.end))


def make_alike(stores):
    """Fills the links of stores, and vacuums them to one horizon, so that they can be merged."""
    links = [links_of(store) for store in stores]
    for node, heads in enumerate(zip(*links, strict=True)):
        for store, head in zip(stores, heads, strict=True):
            for items in fill(node, head, joined(heads)):
                store.accept_items(items)
    horizon = max(store.horizon for store in stores)
    for store in stores:
        store.close_all()
        if store.horizon < horizon:
            store.vacuum_to(horizon)
    opened = [opened_in(store) for store in stores]
    for store, last in zip(stores, opened, strict=True):
        while last < max(opened):
            last = opened_in(store)


def opened_in(store):
    """Opens a snapshot, and returns its number: so many were opened before. It is closed again."""
    with store.snapshot() as snapshot:
        return snapshot.id
