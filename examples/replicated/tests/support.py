"""What the tests share: an etcd in memory, a member of etcd, and interleavings of transactions."""

import atexit
import contextlib
import functools
import io
import pathlib
import shutil
import signal
import sys
import tempfile
import unittest
from unittest import mock

sys.path.insert(0, str(pathlib.Path(__file__).resolve().parent.parent))

import etcd
import hlcstore
import log
import logs
from cluster import Cluster
from coordinator import Coordinator
from etcd import Compacted, Etcd, Pair, delete, put
from part import Part
from ranges import Range
from replica import Replica
from writer import Writer

QUOTA = 64 << 20  # bytes of the member's database
RETENTION = 6000  # milliseconds
PATIENCE = 120  # seconds after which a test fails that waits for what does not come: much may run beside it


class Interleaved(Etcd):
    """An Etcd whose transactions can take place twice, or after what others do meanwhile."""

    def __init__(self, members):
        super().__init__(members)
        self.before = []  # calls: the first one is made before the next transaction, and so on
        self.answers_are_lost = False  # then each transaction is sent again

    def transact(self, conditions, then, otherwise=()):
        if self.before:
            self.before.pop(0)()
        if self.answers_are_lost:
            super().transact(conditions, then, otherwise)
        return super().transact(conditions, then, otherwise)


# ---- An etcd in memory ----


class Memory:
    """What a cluster keeps: the pair of each key, and all that was put, by revisions."""

    def __init__(self):
        self.revision, self.compacted = 1, 0
        self.pairs = {}
        self.puts = []

    def call(self, path, request):
        calls = {"kv/txn": self.transact, "kv/range": self.range, "kv/compaction": self.compact}
        return calls[path](request) | {"header": {"revision": str(self.revision)}}

    def transact(self, request):
        succeeded = all(map(self.is_true, request["compare"]))
        revision, responses = self.revision + 1, []
        for operation in request["success" if succeeded else "failure"]:
            ((kind, words),) = operation.items()
            if kind == "request_put":
                self.put(Pair(words["key"], words["value"], revision))
            elif kind == "request_delete_range":
                self.delete(self.keys(words), revision)
            responses.append({"response_range": self.range(words)} if kind == "request_range" else {})
        return {"responses": responses} | ({"succeeded": True} if succeeded else {})

    def is_true(self, condition):
        assert (condition["target"], condition["result"]) == ("MOD", "EQUAL")
        pair = self.pairs.get(condition["key"])
        return int(condition["mod_revision"]) == (pair.revision if pair else 0)

    def put(self, pair):
        self.revision = pair.revision
        self.pairs[pair.key] = pair
        self.puts.append(pair)

    def delete(self, keys, revision):
        for key in keys:
            self.revision = revision
            del self.pairs[key]

    def keys(self, words):
        first, end = words["key"], words.get("range_end", b"")
        return sorted(key for key in self.pairs if (first <= key < end if end else key == first))

    def range(self, words):
        low, high = int(words.get("min_mod_revision", 0)), int(words.get("max_mod_revision", self.revision))
        pairs = [self.pairs[key] for key in self.keys(words)]
        pairs = [pair for pair in pairs if low <= pair.revision <= high]
        if words.get("sort_target") == "MOD":
            pairs.sort(key=lambda pair: pair.revision)
        return {"kvs": [texts(pair) for pair in pairs[: int(words.get("limit", 0)) or None]]}

    def compact(self, request):
        revision = int(request["revision"])
        assert revision <= self.revision
        if revision <= self.compacted:
            raise Compacted
        self.compacted = revision
        return {}


def texts(pair):
    return {"key": pair.key, "value": pair.value, "mod_revision": str(pair.revision)}


class MemoryEtcd(Interleaved):
    def __init__(self, memory):
        super().__init__(["memory"])
        self.memory = memory

    def call(self, path, request):
        return self.memory.call(path, request)

    def watch(self, prefix, revision):
        if revision < self.memory.compacted:
            raise Compacted
        for pair in self.memory.puts:
            if pair.key.startswith(prefix) and pair.revision >= revision:
                yield [pair]
        raise AssertionError("a test follows the log beyond its end")


# ---- Cases ----


def fail(*_):
    raise AssertionError("the test has taken too long")


class Case(unittest.TestCase):
    """A test whose programs print nothing. `new_etcd()` returns a further connection to its etcd."""

    patience = PATIENCE

    def setUp(self):
        signal.signal(signal.SIGALRM, fail)
        signal.alarm(self.patience)
        self.addCleanup(signal.alarm, 0)
        self.printed = self.enterContext(contextlib.redirect_stdout(io.StringIO()))
        self.enterContext(mock.patch.object(logs.Chosen, "level", "error"))
        self.folder = pathlib.Path(self.enterContext(tempfile.TemporaryDirectory()))

    def obey(self, program, text):
        """Gives a program its standard input, and returns the lines that it does not know."""
        said = []
        with mock.patch("sys.stdin", io.StringIO(text)), mock.patch("logs.warning", lambda _, line: said.append(line)):
            program.life.obey(program.command, lambda: program.retires)
        return said

    def start_coordinator(self):
        with mock.patch("coordinator.Etcd", self.etcd_at):
            return Coordinator(RETENTION, ["member"])

    def start_writer(self, name, keys=100):
        with mock.patch("writer.Etcd", self.etcd_at):
            return Writer(name, 10, 0, keys, ["member"])

    def etcd_at(self, members):
        """Returns a connection to the cluster of these members."""
        return self.new_etcd()

    def put(self, key, value=b""):
        self.new_etcd().transact([], [put(key, value)])

    def value(self, key):
        """Returns the value of a key, or None."""
        pair = self.new_etcd().get(key)
        return pair.value if pair else None

    def new_replica(self):
        """Returns range 0 at a replica, with an empty store, which does nothing by itself."""
        part = Part(Replica("r1", self.folder / "r1", 1, ["member"]), Range(0))
        part.replica.parts[0], part.store = part, hlcstore.Store(1)
        return part

    def replay(self):
        """Returns range 0 at a replica that has applied the whole log. It raises what the store refuses."""
        part, etcd = self.new_replica(), self.new_etcd()
        while entries := log.page(etcd, part.revision)[0]:
            for entry in entries:
                part.apply(entry)
        return part


class MemoryCase(Case):
    def setUp(self):
        super().setUp()
        self.memory = Memory()

    def new_etcd(self):
        return MemoryEtcd(self.memory)


@functools.cache
def started_member():
    """Returns the address of a member that ends with this process."""
    folder = tempfile.mkdtemp()
    atexit.register(shutil.rmtree, folder)
    cluster = Cluster(folder, QUOTA, members=1)
    atexit.register(cluster.stop)
    cluster.start_all()
    return cluster.addresses


@unittest.skipUnless(shutil.which("etcd"), "no etcd")
class MemberCase(Case):
    """`by_rpc` says whether its connections are those of gRPC: where Python has it, unless a case says other."""

    by_rpc = etcd.BY_RPC

    def setUp(self):
        super().setUp()
        answer = self.new_etcd().transact([], [delete(b"\0", b"\0")])
        with contextlib.suppress(Compacted):  # so that no watch sees what tests of before put
            self.new_etcd().call("kv/compaction", {"revision": str(etcd.revision_of(answer))})

    def new_etcd(self):
        client = Interleaved(started_member())
        client.by_rpc = self.by_rpc
        self.addCleanup(client.close)
        return client
