"""The six kinds of script with which the program is measured, each made from a seed and of about so many bytes.

scripts.py KIND SIZE FILE writes one. It is a process of its own, so that its memory is not counted with that of the
programs, whose peak would start at that of the process that starts them.
"""
import random
import sys

LIMIT = 16_000_000


class Script:
    """The lines of a script of so many nodes, with the numbers that its next lines need."""

    def __init__(self, nodes, seed, limit):
        self.random = random.Random(seed)
        self.lines = [f"nodes {nodes}"]
        self.size = len(self.lines[0]) + 1
        self.limit = limit
        self.nodes = nodes
        self.reading = 0
        self.issued = [0] * nodes
        self.delivered = [0] * nodes
        self.opened = 0
        self.sent = 0

    def add(self, line):
        self.lines.append(line)
        self.size += len(line) + 1

    def is_full(self):
        return self.size + 64 >= self.limit

    def issue(self, verb, said):
        node = self.random.randrange(self.nodes)
        self.reading += self.random.randrange(2)
        self.add(f"{verb} {node} {self.reading} {said}")
        self.issued[node] += 1
        return node

    def write(self, key, value):
        return self.issue("write", f"{key} {value}")

    def delete(self, key):
        return self.issue("delete", key)

    def deliver(self, node):
        self.add(f"deliver {node} {self.delivered[node]}")
        self.delivered[node] += 1

    def fed(self, key, value):
        self.deliver(self.write(key, value))

    def level(self):
        """Makes each node report and delivers it, so that the floor (closed timestamp) comes to the last writes."""
        self.reading += 1
        for node in range(self.nodes):
            self.add(f"report {node} {self.reading}")
            self.issued[node] += 1
            while self.delivered[node] < self.issued[node]:
                self.deliver(node)

    def open(self):
        self.add("open floor")
        self.opened += 1
        return self.opened

    def text(self):
        return ("\n".join(self.lines) + "\n").encode()


def value(script):
    return "v" + str(script.random.randrange(10**12))


def feed(limit):
    """Writes to 10,000 keys, each delivered at once."""
    script = Script(3, 1, limit)
    while not script.is_full():
        script.fed(f"key{script.random.randrange(10_000):05}", value(script))
    return script.text()


def reads(limit):
    """10,000 keys of two versions, and then reads."""
    script = Script(3, 2, limit)
    for key in range(10_000):
        script.fed(f"key{key:05}", value(script))
        script.fed(f"key{key:05}", value(script))
    script.level()
    snapshot = script.open()
    while not script.is_full():
        script.add(f"read {snapshot} key{script.random.randrange(10_000):05}")
    return script.text()


def hot(limit):
    """One key, and as many reads of it as it has versions."""
    versions = limit // 60
    return versions_read(versions, versions)


def one_key(versions):
    """20,000 reads of one key of so many versions."""
    return versions_read(versions, 20_000)


def versions_read(versions, reads):
    script = Script(2, 3, LIMIT)
    for _ in range(versions):
        script.fed("hot", value(script))
    script.level()
    snapshot = script.open()
    for _ in range(reads):
        script.add(f"read {snapshot} hot")
    return script.text()


def snapshots(limit):
    """Writes and deletions with some twelve snapshots open at once, reads of them, and vacuums on the way."""
    script = Script(3, 4, limit)
    open_ids = []
    while not script.is_full():
        for _ in range(40):
            key = f"key{script.random.randrange(2_000):05}"
            if script.random.randrange(8) == 0:
                script.deliver(script.delete(key))
            else:
                script.fed(key, value(script))
        script.level()
        open_ids.append(script.open())
        for _ in range(4):
            script.add(f"read {script.random.choice(open_ids)} key{script.random.randrange(2_000):05}")
        if len(open_ids) > 12:
            script.add(f"close {open_ids.pop(script.random.randrange(len(open_ids)))}")
        if script.opened % 16 == 0:
            script.add("vacuum")
            script.add("rows")
    return script.text()


def messages(limit):
    """Messages between 16 nodes, and reports."""
    script = Script(16, 5, limit)
    while not script.is_full():
        script.reading += script.random.randrange(2)
        node = script.random.randrange(16)
        turn = script.random.randrange(8)
        if turn < 3 or script.sent == 0:
            script.add(f"send {node} {script.reading}")
            script.sent += 1
        elif turn < 7:
            script.add(f"receive {node} {script.reading} {script.random.randrange(script.sent)}")
        else:
            script.add(f"report {node} {script.reading}")
            script.issued[node] += 1
            script.deliver(node)
    return script.text()


def vacuums(limit):
    """20,000 keys of few values, 64 snapshots, and two large vacuums."""
    script = Script(3, 6, limit)
    while not script.is_full():
        for _ in range(2_000):
            if script.is_full():
                break
            script.fed(f"key{script.random.randrange(20_000):05}", f"v{script.random.randrange(4)}")
        script.level()
        if script.opened < 64:
            script.open()
    script.add("vacuum")
    script.add("rows")
    for snapshot in range(1, script.opened + 1, 2):
        script.add(f"close {snapshot}")
    script.add("vacuum")
    script.add("rows")
    return script.text()


KINDS = {
    "feed": feed,
    "reads": reads,
    "hot key": hot,
    "snapshots": snapshots,
    "messages": messages,
    "vacuums": vacuums,
    "one key": one_key,
}


if __name__ == "__main__":
    kind, size, path = sys.argv[1:]
    with open(path, "wb") as script:
        script.write(KINDS[kind](int(size)))
