"""A node in all ranges: one clock, and in each range a link with numbers of its own.

Whatever ranges its items are for, its stamps rise. Where the log of a range ends, it goes on in those that the map has
in its place.

Keys in etcd, in the first cluster:

    node/NAME         the number of the node that has this name
    owner/link/NODE   which process has the node: a lock, with the form of the head of a link
    retires/NODE      the head that all links of the node get with its last item, from the decision that it retires on
                      until it has in all ranges
"""

import contextlib
import json
import time

import hlcstore
import log
import ranges
from etcd import delete, put, unchanged
from hlcstore import Node, Stamp

NODE, JOIN, LOST = b"node/", b"ask/join/", b"ask/lost/"  # what etcd has by the name of a writer
RETIRES, OWNER = b"retires/", b"owner/"
PAUSE = 0.01  # seconds from one look at the map to the next, where a range is on its way into it


class Part:
    """The end of the node's link in a range. `state` is what its last append left there."""

    def __init__(self, found, link, state, number):
        self.range, self.link, self.state = found, link, state
        self.node = Node.restore(number, Stamp.from_number(state["last"]), state["next"])
        self.appended = time.monotonic()

    def append(self, key, records, also=(), **changed):
        state = {"next": self.node.next, "last": self.node.last, "retired": self.node.retired}
        self.state = self.state | state | changed
        self.link.append(key, records, self.state, also)
        self.appended = time.monotonic()

    def append_items(self, number, items, also=(), **changed):
        """Appends items, of which the first has this number."""
        self.append(log.batch_key(self.node.id, number, self.range.prefix), items, also, **changed)


def retires_key(number):
    """The key of the decision that a node retires. It is there until the node has in all ranges."""
    return RETIRES + b"%04x" % number


def given_back(number, name):
    """Returns what changes when a node has retired in all ranges: its name is free, if it has one, and no process
    decides anything for it any more."""
    keys = [retires_key(number), *(kind + name for kind in (NODE, JOIN, LOST) if name)]
    return [*map(delete, keys), put(log.link_key(number, OWNER), log.to_json({"owner": "", "retired": True}))]


class Machine:
    """The node of a number. `connect(members)` returns a new connection to a cluster; none is the first one. Further
    `conditions` of a range are those of all that is done to its link, and those `at_home` of what is of no range.

    It has a lock in the first cluster, which it claims before it takes links over, and looks at afterwards: a link in
    another cluster cannot have a condition here. So whoever has the lock then knows the ends of all links, and no other
    process appends to one.
    """

    def __init__(self, number, home, connect, conditions=lambda found: (), at_home=()):
        self.number, self.home, self.conditions, self.at_home = number, home, conditions, at_home
        self.lock = log.Link(home, number, OWNER)
        self.new_connection, self.connections = connect, {(): home}
        self.map = ranges.Map()
        self.parts = {}  # of each live range in which the node has not retired
        self.last = Stamp(0)  # of its last event, in whatever range

    def connect(self, members):
        if members not in self.connections:
            self.connections[members] = self.new_connection(list(members))
        return self.connections[members]

    def first(self):
        return self.parts[min(self.parts)]

    def is_simple(self):
        """Returns whether there is one range, whose log is where all else is: then a transaction may have both."""
        return len(self.map.live) == 1 and not self.map.all_live()[0].members

    def take_over(self, new=None):
        """Takes the links over in the ranges that the map has now. Returns whether it has them all.

        A link is not there yet while the node joins; and a range whose log has ended is not in the map for long. Raises
        Fenced where another process has the node, whatever that one has done with it, and Retired where the node has
        in all ranges.
        """
        if not self.lock.revision:
            self.lock.claim({}, self.at_home)
        self.map.read(self.home)
        self.parts = {number: part for number, part in self.parts.items() if number in self.map.live}
        missing, retired = 0, None
        for found in self.map.all_live():
            if found.id not in self.parts:
                try:
                    missing += not self.take_link(found, new)
                except log.Retired as failure:
                    retired = failure
                except log.Sealed:
                    missing += 1
            elif self.parts[found.id].link.is_sealed:
                missing += 1
        if not self.lock.is_held():
            raise log.Fenced(f"another process has node {self.number}")
        if retired and not missing and not self.parts:
            raise retired
        return not missing

    def take_link(self, found, new):
        etcd = self.connect(found.members)
        state = ranges.state_of(self.connect, self.map, found, self.number) or new
        if state is None:
            return False
        link = log.Link(etcd, self.number, found.prefix)
        with_lock = [] if found.members else [self.lock.is_mine()]
        state = link.claim(state, [*self.conditions(found), *with_lock])
        self.parts[found.id] = Part(found, link, state, self.number)
        self.last = max(self.last, self.parts[found.id].node.last)
        return True

    def acting(self, part):
        """Returns the node in a range, raised to the clock: its next stamps are above those in all other ranges."""
        part.node.raise_to(self.last)
        return part.node

    def acted(self, part):
        self.last = max(self.last, part.node.last)

    # ---- The end of a node in several ranges ----

    def decide_to_retire(self, reading):
        """Returns the head that all links of this node get with its last item, from a decision that is made once.

        So the links of nodes that retired are alike in all ranges, which can then be merged. One merge may be under way
        while this is decided, and takes a number of its own. The next one waits until no decision is left. It is made
        by the process that has the lock, so no link is beyond this head.
        """
        key = retires_key(self.number)
        while True:
            if found := self.home.get(key):
                return ranges.Head(*json.loads(found.value))
            heads = [ranges.head_of(part.state) for part in self.parts.values()]
            end = ranges.level(heads, 2, max(hlcstore.stamp(reading), self.last))
            words = log.to_json([end.next, end.last, True])
            conditions = [unchanged(key, 0), self.lock.is_mine(), *self.at_home]
            if not self.home.transact(conditions, [put(key, words)]).get("succeeded"):
                if not self.home.get(key):
                    raise log.Fenced(f"node {self.number} cannot retire under these conditions")

    def retire(self, end):
        """Appends the last items in all ranges: reports up to the last number, and that one."""
        while not self.has_retired():
            with contextlib.suppress(log.Retired):
                self.take_over()
            for part in self.parts.values():
                if not part.state.get("retired"):
                    with contextlib.suppress(log.Sealed):  # other ranges go on with it soon
                        self.retire_in(part, end)
            time.sleep(PAUSE)

    def retire_in(self, part, end):
        head = ranges.head_of(part.state)
        for items in ranges.fill(self.number, head, end):
            after = hlcstore.Item.decode(items)[0].number
            number = min(after + ranges.MOST_FILLED, end.next)
            state = {"next": number, "last": end.last - (end.next - number), "retired": number == end.next}
            part.state = part.state | state
            key = log.batch_key(self.number, after, part.range.prefix)
            part.link.append(key, items, part.state, (), self.conditions(part.range))

    def has_retired(self):
        """Returns whether the map has no further range in which the node has not."""
        self.map.read(self.home)
        states = [ranges.state_of(self.connect, self.map, found, self.number) for found in self.map.all_live()]
        return all(state and state.get("retired") for state in states)
