"""What a call of the package hlcstore costs in Python, in ns: the least of nine runs."""

import time

from hlcstore import Item, Node, Store, stamp

WRITES = 100_000
KEYS = [b"key%05d" % n for n in range(1_000)]
PARTS = [(0, i, stamp(i + 1), KEYS[i % 1_000], b"value000") for i in range(WRITES)]
ITEMS = [Item.write(*parts) for parts in PARTS]
BATCHES = [ITEMS[start : start + 1_000] for start in range(0, WRITES, 1_000)]
LOGS = [b"".join(map(bytes, batch)) for batch in BATCHES]
ASKED = [KEYS[i * 7 % 1_000] for i in range(WRITES)]
ASKED_BATCHES = [ASKED[start : start + 1_000] for start in range(0, WRITES, 1_000)]
least = {}


def take(kind, call, arguments):
    """Times the calls with each of these arguments."""
    started = time.perf_counter_ns()
    for argument in arguments:
        call(argument)
    each = (time.perf_counter_ns() - started) / WRITES
    least[kind] = min(least.get(kind, each), each)


def run():
    take("accept of a write, in batches of 1000", Store(1).accept_all, BATCHES)
    take("accept of a write, as bytes of 1000", Store(1).accept_items, LOGS)
    store = Store(1)
    take("accept of a write, by its parts", lambda parts: store.accept_write(*parts), PARTS)
    store = Store(1)
    take("accept of a write, as an item", store.accept, ITEMS)
    snapshot = store.snapshot()
    take("read, 100 versions", snapshot.get, ASKED)
    take("read, 100 versions, in batches of 1000", snapshot.read_all, ASKED_BATCHES)
    node = Node(0)
    take("node's write", lambda reading: node.write(reading, KEYS[0], b"value000"), range(WRITES))


for _ in range(9):
    run()
for kind, each in least.items():
    print("Python:", kind, f"{each:.0f}")
