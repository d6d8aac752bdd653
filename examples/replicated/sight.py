"""What a replica or the coordinator sees of the others through etcd, and what follows from it.

Who holds the floor back is a node with the least head, among those that have not retired. Why its head is old, and what
cures that, follows from whether its items reach the log, and whether they reach this program.
"""

import http.client
import json
import shlex
import threading
import time
from typing import NamedTuple

import keys
import log
from etcd import Refused, Unavailable, get, pairs_of, prefix_end
from metrics import Rate

EACH = 1.0  # seconds from one look to the next
HELD = 1.0  # seconds: nothing holds back a floor that is younger
SILENT = 2.0  # seconds without an item after which a node is silent: it reports every 50 ms
APART = 5.0  # seconds: the head of a node that appends is not as old, unless its clock is behind
LINKS = b"link/"
PREFIXES = [b"node/", b"replica/", b"ask/"]
FAILURES = (OSError, http.client.HTTPException, Unavailable, Refused, *keys.SENSELESS)


class Head(NamedTuple):
    """Where the link of a node ends in the log."""

    next: int
    last: int
    retired: bool


class Look(NamedTuple):
    """What etcd has at one moment: heads and names of nodes, by their numbers; what replicas publish; open requests.
    The head of a node in several ranges has the least last stamp, and the sum of the numbers."""

    heads: dict
    names: dict
    replicas: list
    requests: list


class NodeSeen(NamedTuple):
    """A node: how far this program has its items, how far the log has them, for how long that has not changed, and
    whether it was ever seen to change."""

    node: int
    name: str
    head: int
    next: int
    retired: bool
    appended: int
    silent: float
    has_moved: bool


class HeldBack(NamedTuple):
    """What the floor waits for: a `node` that is silent or `slow`, or its `clock`; this `replica`, the `log`, or
    `nothing`. It is `unknown` while a node has not been watched for long enough."""

    node: int
    name: str
    by: str
    age: float
    why: str
    cure: str


def physical(stamp):
    """Returns the reading of a clock that is in a stamp, in seconds."""
    return (stamp >> 16) / 1000


# ---- Looking ----


def look(etcd, ranges=((None, b""),)):
    """`ranges` has, of each range, a connection to the cluster of its log, or None for this one, and its prefix."""
    answer = etcd.transact([], [get(prefix, prefix_end(prefix)) for prefix in PREFIXES])
    nodes, replicas, requests = (pairs_of(part["response_range"]) for part in answer["responses"])
    heads = {}
    for other, prefix in ranges:
        links = prefix + LINKS
        for pair in (other or etcd).list(links):
            node, state = int(pair.key.removeprefix(links), 16), json.loads(pair.value)
            head = Head(state["next"], state["last"], bool(state.get("retired")))
            heads[node] = together(heads[node], head) if node in heads else head
    names = {number: name.decode(errors="replace") for number, name in keys.names(nodes).items()}
    names[log.COORDINATOR] = "coordinator"
    texts = [pair.key.removeprefix(b"ask/").decode(errors="replace") for pair in requests]
    return Look(heads, names, keys.replicas(replicas), texts)


class Eyes:
    """Connections of a sight to the clusters of further ranges. `connect(members)` returns a new one."""

    def __init__(self, connect):
        self.connect, self.connections = connect, {}

    def of(self, ranges):
        """Returns what `look` takes of ranges."""
        return [(self.at(found.members), found.prefix) for found in ranges]

    def at(self, members):
        if members and members not in self.connections:
            self.connections[members] = self.connect(list(members))
        return self.connections.get(members)


def together(one, other):
    """Returns the head of a node in two ranges: the floor waits for the lower one, unless that has retired."""
    last = min((head.last for head in (one, other) if not head.retired), default=max(one.last, other.last))
    return Head(one.next + other.next, last, one.retired and other.retired)


def links_together(links):
    """Returns the links of nodes in several ranges, of which each has a list."""
    nodes = {}
    for of_range in links:
        for node, link in enumerate(of_range):
            nodes[node] = together(nodes[node], Head(*link)) if node in nodes else Head(*link)
    return [list(nodes[node]) for node in sorted(nodes)]


class Sight:
    """The newest look, and what changed from one to the next. `links()` returns the links that this program has."""

    def __init__(self, links, clock=time.monotonic):
        self.links, self.clock = links, clock
        self.lock = threading.Lock()
        self.last, self.when = Look({}, {log.COORDINATOR: "coordinator"}, [], []), clock()
        self.moved = {}  # of each node: its next number, when that was first seen, and whether another one was before
        self.whole_at = clock()  # when this program last had all that the newest look had
        self.rate = Rate(clock)

    def note(self, seen):
        links = self.links()
        numbers = {node: link[0] for node, link in enumerate(links)}  # a link may be as it came from another range
        numbers |= {node: head.next for node, head in seen.heads.items()}
        with self.lock:
            self.last, self.when = seen, self.clock()
            for node, number in numbers.items():
                if node not in self.moved or self.moved[node][0] != number:
                    self.moved[node] = number, self.when, node in self.moved
        self.rate.note(sum(link[0] for link in links))
        self.behind(links)

    def go_on(self, etcd, ranges=lambda: ((None, b""),)):
        """Looks again and again. Where etcd does not answer, what was seen before gets older."""
        while True:
            try:
                self.note(look(etcd, ranges()))
            except FAILURES:
                pass
            time.sleep(EACH)

    def unseen(self):
        """Returns the age of the newest look, in seconds."""
        return self.clock() - self.when

    def nodes(self, links):
        """Returns each node that this program has."""
        with self.lock:
            now, seen, moved = self.clock(), self.last, dict(self.moved)
        nodes = []
        for node, (number, head, retired) in enumerate(links):
            in_log = seen.heads.get(node, Head(number, head, retired))
            _, since, has_moved = moved.get(node, (number, now, False))
            appended, name = max(in_log.next, number), seen.names.get(node, "")
            nodes.append(NodeSeen(node, name, head, number, retired, appended, now - since, has_moved))
        return nodes

    def behind(self, links):
        """Returns how many items of the newest look are missing here, and for how many seconds some have been."""
        heads = self.last.heads
        known = {node: link[0] for node, link in enumerate(links)}
        missing = sum(max(head.next - known.get(node, 0), 0) for node, head in heads.items())
        if not missing and heads.keys() <= known.keys():
            self.whole_at = self.clock()
        return missing, self.clock() - self.whole_at


# ---- Who holds the floor back ----


def called(seen):
    """Returns how people call a node."""
    return f"{seen.name} (node {seen.node})" if seen.name else f"node {seen.node}"


def held_back(nodes, now, unseen):
    """Returns what holds the floor back, at a time in seconds, where etcd was seen so many seconds ago."""
    active = [seen for seen in nodes if not seen.retired]
    if not active:
        return HeldBack(-1, "", "nothing", 0.0, "all nodes have retired, so the floor stands for good", "")
    slowest = min(active, key=lambda seen: (seen.head, seen.node))
    age = now - physical(slowest.head)
    by, why, cure = reason(slowest, age, unseen)
    return HeldBack(slowest.node, slowest.name, by, age, why, cure)


def reason(slowest, age, unseen):
    """Returns what keeps the head of a node where it is, why, and what cures it."""
    who = called(slowest)
    if age < HELD:
        return "nothing", f"{who} has the oldest head, which is young", ""
    if unseen > SILENT:
        why = f"etcd has not answered for {unseen:.0f} s, and {who} had the oldest head"
        return "log", why, "see which members run, and start a majority of them: etcdctl endpoint health"
    if slowest.appended > slowest.next:
        missing = slowest.appended - slowest.next
        why = f"the log has {missing} items of {who} that are not applied here"
        return "replica", why, "see the log lines and the processor's load of this replica; ask another one meanwhile"
    if slowest.silent < SILENT and not slowest.has_moved:
        return "unknown", f"{who} has the oldest head, and has been watched for less than {SILENT:.0f} s", "ask again"
    if slowest.silent < SILENT and age < APART:
        why = f"{who} appends, and its last stamp is {age:.1f} s old"
        return "slow", why, "see whether etcd, or its machine, is slow"
    if slowest.silent < SILENT:
        return "clock", f"the clock of {who} is {age:.1f} s behind", clock_cure(slowest)
    return "node", f"{who} has appended nothing for {slowest.silent:.0f} s or longer", silent_cure(slowest)


def clock_cure(seen):
    if seen.node == log.COORDINATOR:
        return "set the clock of the coordinator's machine right, or start a coordinator where the clock is right"
    return f"set the clock of the machine of {called(seen)} right"


def silent_cure(seen):
    if seen.node == log.COORDINATOR:
        return "start a coordinator: it takes over from one that stands still"
    if not seen.name:
        return "wait: this node has no name, so its retirement is on its way"
    lost = shlex.quote(f"ask/lost/{seen.name}")
    return f"start the writer {seen.name} again; if it is lost for good: etcdctl put {lost} ''"


# ---- What all programs answer alike ----


def stamp_text(stamp):
    return f"{stamp >> 16}.{stamp & 0xFFFF}"


def node_words(seen, now):
    return {
        "node": seen.node, "name": seen.name, "head": seen.head, "age_seconds": round(now - physical(seen.head), 3),
        "next": seen.next, "items_behind": seen.appended - seen.next, "silent_seconds": round(seen.silent, 3),
        "retired": seen.retired,
    }  # fmt: skip


def replica_words(words, now):
    floor = words.get("floor", 0)
    return {
        "name": words.get("name", ""), "address": words.get("address", ""), "floor": floor,
        "age_seconds": round(now - physical(floor), 3), "checkpoint": words.get("checkpoint", 0),
    }  # fmt: skip


def state(sight, links, floor, now, trouble=""):
    """Returns the part of a state that a replica and the coordinator have alike, for these links and this floor."""
    nodes, unseen = sight.nodes(links), sight.unseen()
    held = held_back(nodes, now, unseen)
    missing, behind = sight.behind(links)
    rate = sight.rate.a_second()
    return {
        "time": now, "floor": floor, "floor_text": stamp_text(floor),
        "floor_age_seconds": round(now - physical(floor), 3),
        "held_back": {
            "node": held.node, "name": held.name, "by": held.by, "age_seconds": round(held.age, 3), "why": held.why,
            "cure": held.cure,
        },
        "nodes": [node_words(seen, now) for seen in nodes],
        "replicas": [replica_words(words, now) for words in sight.last.replicas],
        "log": {
            "items": sum(link[0] for link in links), "items_per_second": rate and round(rate, 1),
            "items_behind": missing, "behind_seconds": round(behind, 3), "unseen_seconds": round(unseen, 3),
            "trouble": trouble,
        },
    }  # fmt: skip
