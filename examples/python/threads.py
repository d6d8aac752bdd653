"""Four threads write to one store and read from it, with the package hlcstore.

Each thread has a node and a key of its own. All writes have a counter of 0, so the value of a key in a snapshot at the
floor (closed timestamp) is that of the reading of the floor."""

from concurrent.futures import ThreadPoolExecutor

from hlcstore import Node, Store, split

THREADS, TURNS = 4, 5000


def value_of(number, reading):
    return b"%d of %d" % (reading, number)


def work(store, number):
    node, key = Node(number), b"key of %d" % number
    for reading in range(1, TURNS + 1):
        store.accept(node.write(reading, key, value_of(number, reading)))
        with store.snapshot() as snapshot:
            found, (newest, _) = snapshot.get(key), split(snapshot.stamp)
        if found != (value_of(number, newest) if newest else None):
            raise ValueError(f"{key} at {newest}: {found}")


with Store(THREADS) as store, ThreadPoolExecutor(THREADS) as threads:
    for done in [threads.submit(work, store, number) for number in range(THREADS)]:
        done.result()
    print("all right")
