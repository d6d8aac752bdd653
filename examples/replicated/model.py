"""A model of the store in plain Python, from the log alone. It shares no code with the library.

    model.py --members HOST:PORT ..

It follows the log as a replica does, decodes the items itself, keeps every version of every key from the first entry
on, and answers the same requests. It also checks what the replicas take for granted: that the numbers of each link have
no gap and no double, that stamps rise, that the value of each write names the item's own node and number, and that the
key is one of the range whose log has it. Each range's log is followed from its first entry on, when those from which it
came have ended. With --piped its first line of output has its address, and it ends with its standard input.
"""

import bisect
import hashlib
import json
import struct
import threading

import life
import log
import logs
import serve
import settings
from etcd import Etcd

ITEM = struct.Struct(">BHQQB")  # version, node, number, stamp, kind: docs/formats.md
JOINED, THRESHOLD = struct.Struct(">BHQ"), struct.Struct(">BQ")  # what else a record is, by its first byte
WRITE, REPORT, RETIRE, BATCH = 0, 1, 2, 3


def items_of(data):
    """Yields what each item says: node, number, stamp, kind, and of each write its key and its value, or None."""
    at = 0
    while at < len(data):
        version, node, number, stamp, kind = ITEM.unpack_from(data, at)
        known = version == 1 and kind in (WRITE, REPORT, RETIRE, BATCH)
        expect(known, f"an item of version {version} and kind {kind}")
        at += ITEM.size
        many, writes = int(kind == WRITE), []
        if kind == BATCH:
            many = data[at] + 1
            at += 1
        for _ in range(many):
            key, value, at = write_at(data, at)
            writes.append((key, value))
        yield node, number, stamp, kind, writes


def write_at(data, at):
    """Returns the key and the value of a write, or None in a deletion, and the place after it."""
    key = data[at + 1 : at + 1 + data[at]]
    at += 1 + len(key)
    if not data[at]:
        return key, None, at + 1
    end = at + 3 + int.from_bytes(data[at + 1 : at + 3])
    return key, data[at + 3 : end], end


def expect(truth, text):
    if not truth:
        raise life.Never(f"the log is wrong: {text}")


class Log:
    """What the log of a range says: its links, its threshold, and how it ended."""

    def __init__(self, number, start, end, links, threshold=0):
        self.number, self.start, self.end = number, start, end
        self.links, self.threshold = links, threshold  # of each node: next number, head, retired
        self.revision, self.seal = 0, None

    def floor(self):
        heads = [head for _, head, retired in self.links if not retired]
        return min(heads) if heads else max(head for _, head, _ in self.links)

    def has(self, key):
        return self.start <= key and (not self.end or key < self.end)

    def words(self):
        return {
            "range": self.number, "from": self.start.hex(), "to": self.end.hex(), "floor": self.floor(),
            "revision": self.revision, "threshold": self.threshold, "links": [list(link) for link in self.links],
            "live": self.seal is None,
        }  # fmt: skip


def filled(one, other):
    """Returns the link that two of a node become in a merge: each takes reports up to a number that both reach."""
    if one == other:
        return list(one)
    for link in one, other:
        if link[2]:
            return list(link)
    number = max(one[0], other[0]) + 1
    return [number, max(head + number - before for before, head, _ in (one, other)), False]


class Model(serve.Answerer):
    def __init__(self):
        super().__init__()
        self.lock = threading.Lock()
        self.logs = {0: Log(0, b"", b"", [[0, 0, False]])}
        self.versions = {}  # of each key: stamp, node and value of each write, rising
        self.keys = []  # rising
        self.items = 0

    # ---- The log ----

    def apply(self, entry, number=0):
        """Applies an entry of a range's log, and returns the ranges that begin with it, each with its members."""
        of_range, begin = self.logs[number], []
        with self.lock:
            expect(of_range.seal is None, f"an entry behind the seal of range {number}")
            if entry.records[:1] == b"{":
                of_range.seal = json.loads(entry.records)
                begin = self.begin(of_range.seal)
            elif entry.records[:1] == b"\2":
                self.join(of_range, *JOINED.unpack(entry.records)[1:])
            elif entry.records[:1] == b"\3":
                _, threshold = THRESHOLD.unpack(entry.records)
                expect(threshold > of_range.threshold, "the threshold falls")
                of_range.threshold = threshold
            else:
                for item in items_of(entry.records):
                    self.accept(of_range, *item)
            of_range.revision = entry.revision
        return begin

    def begin(self, seal):
        """Lets the ranges begin that come from others, when the last of those has ended."""
        parents = [self.logs[number] for number in seal["parents"]]
        if any(parent.seal is None for parent in parents):
            return []
        expect(all(parent.seal == seal for parent in parents), f"other seals than {seal}")
        links = [list(link) for link in parents[0].links]
        for parent in parents[1:]:
            expect(len(parent.links) == len(links), f"other nodes than those of range {parent.number}")
            links = [filled(*pair) for pair in zip(links, parent.links, strict=True)]
        threshold = max(parent.threshold for parent in parents)
        for part in seal["into"]:
            ends = bytes.fromhex(part["from"]), bytes.fromhex(part["to"])
            self.logs[part["id"]] = Log(part["id"], *ends, [list(link) for link in links], threshold)
        return [(part["id"], part["members"]) for part in seal["into"]]

    def join(self, of_range, node, start):
        expect(node == len(of_range.links) and start >= of_range.floor(), f"a bad join of node {node} at {start}")
        of_range.links.append([0, start, False])

    def accept(self, of_range, node, number, stamp, kind, writes):
        link = of_range.links[node]
        expect(not link[2], f"item {number} of node {node}, which retired")
        expect(number == link[0], f"item {number} of node {node}, where {link[0]} is next")
        expect(stamp > link[1], f"item {number} of node {node} at {stamp}, which is not above {link[1]}")
        link[:] = [number + 1, stamp, kind == RETIRE]
        self.items += 1
        expect(len({key for key, _ in writes}) == len(writes), f"item {number} of node {node} writes a key twice")
        for key, value in writes:
            self.write(of_range, node, number, stamp, key, value)

    def write(self, of_range, node, number, stamp, key, value):
        expect(value is None or value.startswith(b"%d.%d." % (node, number)), f"{number} of {node} is {value}")
        expect(of_range.has(key), f"a write of {key} in the log of range {of_range.number}")
        if key not in self.versions:
            bisect.insort(self.keys, key)
            self.versions[key] = []
        bisect.insort(self.versions[key], (stamp, node, value))

    def follow(self, home, members=(), number=0):
        """Follows the log of a range up to its seal, and then those that begin with it, in threads of their own."""
        for entry in log.follow(Etcd(list(members) or home), 0, log.prefix_of_range(number)):
            begin = self.apply(entry, number)
            for child, of_child in begin:
                threading.Thread(target=self.follow_part, args=(home, of_child, child), daemon=True).start()
            if self.logs[number].seal:
                return

    def follow_part(self, *words):
        try:
            self.follow(*words)
        except BaseException as failure:
            life.end(life.tell(failure))

    def follow_all(self, home):
        """Follows all logs, from that of range 0 on."""
        self.follow(home)
        threading.Event().wait()

    # ---- Answers ----

    def live(self):
        """The ranges that go on; and those that have ended, while the ones that come from them wait for another."""
        return [each for each in self.logs.values() if each.seal is None or each.seal["into"][0]["id"] not in self.logs]

    def floor(self):
        """The cut: up to it the logs of all ranges have all that is in them. It stands still while ranges change."""
        return min((each.floor() for each in self.live()), default=0)

    def state(self):
        with self.lock:
            live = sorted(self.live(), key=lambda each: each.start)
            return {
                "name": "model", "revision": max(each.revision for each in self.logs.values()), "floor": self.floor(),
                "threshold": max(each.threshold for each in self.logs.values()), "items": self.items,
                "links": [list(link) for link in live[0].links] if live else [],
                "ranges": [each.words() for each in live],
            }  # fmt: skip

    def snapshot(self, stamp):
        with self.lock:
            floor = self.floor()
        if stamp is not None and stamp > floor:
            raise serve.Refused(425, "the stamp is above the floor")
        return Snapshot(self, floor if stamp is None else stamp)


class Snapshot:
    """What the model reads at a stamp. It stays the same, as all later versions have greater stamps."""

    def __init__(self, model, stamp):
        self.model, self.stamp = model, stamp

    def __enter__(self):
        return self

    def __exit__(self, *_):
        pass

    def read(self, key):
        versions = self.model.versions.get(key, ())
        place = bisect.bisect_right(versions, self.stamp, key=lambda version: version[0])
        return versions[place - 1][2] if place else None

    def read_all(self, keys):
        with self.model.lock:
            return [self.read(key) for key in keys]

    def items(self, start, end):
        with self.model.lock:
            keys = self.model.keys
            last = bisect.bisect_left(keys, end) if end else len(keys)
            pairs = [(key, self.read(key)) for key in keys[bisect.bisect_left(keys, start) : last]]
        return [(key, value) for key, value in pairs if value is not None]

    def count(self, start, end):
        return len(self.items(start, end))

    def digest(self, start, end):
        digest = hashlib.sha256()
        for key, value in self.items(start, end):
            digest.update(struct.pack("<Q", len(key)) + key + struct.pack("<Q", len(value)) + value)
        return digest.digest()


def main():
    words = settings.read(__doc__, [settings.MEMBERS, settings.LISTEN, settings.LOG_LEVEL])
    logs.choose(words.log_level, "model")

    def work(process):
        model = Model()
        server = serve.start(model, words.listen)
        logs.info("answers over HTTP", address=server.address)
        life.essential(model.follow_all, words.members)
        if words.piped:
            print(json.dumps({"address": server.address}), flush=True)
            process.start_to_obey(lambda _: False)
        process.wait()

    life.run(work)


if __name__ == "__main__":
    main()
