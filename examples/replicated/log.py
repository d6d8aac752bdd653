"""The log: what the writers and the coordinator append, in one order that is the same for all replicas.

Keys in etcd:

    log/NODE/NUMBER   a batch of a node's items, as the bytes of hlcstore; NUMBER is that of the first one
    log/plan/NUMBER   a record of the coordinator, as such bytes: a join, or a retention threshold
    log/seal          the last entry of a log that others go on with, in JSON: ranges.py has what it says
    link/NODE         the head of a link, in JSON: who may append to it, and where the next process goes on
    cut               in JSON: the revision up to which entries were deleted
    seal              what log/seal says: where there is this key, nothing can be appended any more

These are those of range 0. The keys of another range have `range/ID/` before them.

etcd numbers its changes: these numbers are its revisions. An append is one transaction and so one revision, and the
order of the log is that of the revisions. A replica that has applied all entries up to a revision needs nothing else to
go on from there.
"""

import http.client
import json
import secrets
from typing import NamedTuple

from etcd import Compacted, Unavailable, delete, get, pairs_of, prefix_end, prefix_of, put, revision_of, unchanged

LOG, CUT, SEAL = b"log/", b"cut", b"seal"
PAGE = 64  # entries in an answer
COORDINATOR = 0  # the coordinator's node


class Fenced(Exception):
    """Another process took the link over. This one has to end."""


class Retired(Exception):
    """The node of the link retired: no replica could apply a further item of it."""


class Sealed(Exception):
    """The log of the range has ended: other ranges go on with its keys."""


class Cut(Exception):
    """The next entry was cut off the log: only a newer checkpoint helps."""


class Entry(NamedTuple):
    """A part of the log: a batch of items, or a record of the coordinator; or its end, a seal."""

    revision: int
    records: bytes

    def seal(self):
        """Returns what a seal says, or None. No record begins as JSON does."""
        return json.loads(self.records) if self.records[:1] == b"{" else None


def prefix_of_range(number):
    """Returns what the keys of a range have before them."""
    return b"range/%08x/" % number if number else b""


def batch_key(node, number, prefix=b""):
    return b"%slog/%04x/%016x" % (prefix, node, number)


def plan_key(number, prefix=b""):
    return b"%slog/plan/%016x" % (prefix, number)


def link_key(node, prefix=b""):
    return b"%slink/%04x" % (prefix, node)


def to_json(value):
    return json.dumps(value).encode()


def entry_of(pair):
    return Entry(pair.revision, pair.value)


class Link:
    """The end of a node's link at which one process appends.

    An append takes place only while the head is as this process left it, which is never the head of a retired node. So
    nothing comes after a retirement, and a node retires once. Nor is anything appended to a log that is sealed.
    """

    def __init__(self, etcd, node, prefix=b""):
        self.etcd, self.prefix = etcd, prefix
        self.key, self.seal = link_key(node, prefix), prefix + SEAL
        self.owner = secrets.token_hex(8)
        self.revision = 0
        self.has_retired = self.is_sealed = False

    def claim(self, new, conditions=()):
        """Takes the link over, and returns the state that the last append left, or `new` if there is no such link.

        From now on an append of any other process is refused, also one that is on its way to etcd. The link of a node
        that retired stays as it is: nobody takes it over.
        """
        while True:
            head = self.etcd.get(self.key)
            state = json.loads(head.value) if head else new
            if state.get("retired"):
                raise Retired(f"the node of {self.key.decode()} retired")
            is_as_read = unchanged(self.key, head.revision if head else 0)
            if self.change([is_as_read, self.is_open(), *conditions], state):
                return state
            self.refuse_sealed()
            if self.etcd.get(self.key) == head:
                raise Fenced(f"{self.key.decode()} cannot be taken over under these conditions")

    def append(self, key, value, state, also=(), conditions=()):
        """Appends an entry, with the link's new state and other changes, and returns the entry's revision.

        All is one transaction, whose condition is that the head is as this process left it. Further conditions are
        those of the caller.
        """
        if self.has_retired:
            raise Retired(f"the node of {self.key.decode()} retired")
        if not self.change([self.is_mine(), self.is_open(), *conditions], state, [put(key, value), *also]):
            head = self.etcd.get(self.key)
            if head.revision == self.revision:
                self.refuse_sealed()
                raise Fenced(f"nothing can be appended to {self.key.decode()} under these conditions")
            raise Fenced(f"{self.key.decode()} belongs to {json.loads(head.value)['owner']}")
        self.has_retired = bool(state.get("retired"))
        return self.revision

    def change(self, conditions, state, changes=()):
        """Leaves a head with this state, together with other changes, and returns whether the conditions were true.

        If the answer is lost and the transaction is sent again, it takes place once. The states that a process leaves
        are all different: a head that already has this one was left by this very transaction.
        """
        mine = to_json(state | {"owner": self.owner})
        answer = self.etcd.transact(conditions, [put(self.key, mine), *changes], [get(self.key)])
        if answer.get("succeeded"):
            self.revision = revision_of(answer)
            return True
        for head in pairs_of(answer["responses"][0]["response_range"]):
            if head.value == mine:
                self.revision = head.revision
                return True
        return False

    def end_log(self, words, conditions=()):
        """Seals the log: its last entry has these words. Refused where another process has the link, or sealed it."""
        text = to_json(words)
        then = [put(self.seal, text), put(self.prefix + LOG + SEAL, text)]
        if not self.etcd.transact([self.is_mine(), self.is_open(), *conditions], then).get("succeeded"):
            seal = self.etcd.get(self.seal)
            if not seal or seal.value != text:
                raise Fenced(f"the log of {self.key.decode()} cannot be sealed")

    def is_mine(self):
        """A condition for other transactions: no other process has taken the link over."""
        return unchanged(self.key, self.revision)

    def is_held(self):
        """Returns whether no other process has taken the link over."""
        head = self.etcd.get(self.key)
        return head is not None and head.revision == self.revision

    def is_open(self):
        """A condition for other transactions: the log is not sealed."""
        return unchanged(self.seal, 0)

    def refuse_sealed(self):
        if self.etcd.get(self.seal):
            self.is_sealed = True
            raise Sealed(f"the log of {self.key.decode()} is sealed")


# ---- Reading ----


def page(etcd, after, prefix=b""):
    """Returns the first entries above a revision, and the revision of the answer: up to it there is nothing between."""
    wish = {"min_mod_revision": str(after + 1), "sort_target": "MOD", "sort_order": "ASCEND", "limit": str(PAGE)}
    of_log = prefix + LOG
    answer = etcd.transact([], [get(prefix + CUT), get(of_log, prefix_end(of_log), **wish)])
    cut, entries = (pairs_of(part["response_range"]) for part in answer["responses"])
    if cut and json.loads(cut[0].value) > after:
        raise Cut(f"the log begins behind {json.loads(cut[0].value)}, and {after} was asked for")
    return [entry_of(pair) for pair in entries], revision_of(answer)


def follow(etcd, after, prefix=b""):
    """Yields each entry above a revision, in order, and goes on as entries are appended.

    The entries come by a watch. Where etcd has dropped the history that the watch needs, the keys are still there,
    unless the log was cut: then they come by pages until a watch can go on.
    """
    while True:
        try:
            for pairs in etcd.watch(prefix + LOG, after + 1):
                for pair in pairs:
                    yield entry_of(pair)
                    after = pair.revision
        except Compacted:
            entries, revision = page(etcd, after, prefix)
            yield from entries
            after = entries[-1].revision if entries else revision
        except (OSError, http.client.HTTPException, Unavailable):
            etcd.next_member()


# ---- Cutting ----


def cut(etcd, link, revision):
    """Deletes all entries up to a revision, and the history that etcd keeps of them. The caller has this link. Returns
    the revision up to which the log is cut.

    `cut` is written first, so that a replica that needs what is deleted next sees that it is too late. The rest may be
    done twice, or be left to the next time.
    """
    revision = raise_cut(etcd, link, revision)
    wish = {"keys_only": True, "max_mod_revision": str(revision), "sort_target": "KEY", "sort_order": "ASCEND"}
    last = {}
    for pair in pairs_of(etcd.call("kv/range", prefix_of(link.prefix + LOG, **wish))):
        last[pair.key[: pair.key.rindex(b"/") + 1]] = pair.key
    for prefix, key in last.items():
        etcd.transact([], [delete(prefix, key + b"\0")])
    try:
        etcd.call("kv/compaction", {"revision": str(revision)})
    except Compacted:
        pass
    return revision


def raise_cut(etcd, link, revision):
    """Raises `cut` to a revision, and returns what it is then: it never falls.

    The least checkpoint of the replicas can fall, as one that was away comes back with old ones. But what is deleted
    stays so: a lower `cut` would hide that from a replica that needs it.
    """
    key = link.prefix + CUT
    while True:
        found = etcd.get(key)
        if found and json.loads(found.value) >= revision:
            return json.loads(found.value)
        conditions = [link.is_mine(), unchanged(key, found.revision if found else 0)]
        if etcd.transact(conditions, [put(key, to_json(revision))]).get("succeeded"):
            return revision
        if etcd.get(link.key).revision != link.revision:
            raise Fenced("another process cuts the log")
