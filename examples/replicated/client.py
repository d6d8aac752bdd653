"""A client that reads over all ranges at one cut, for `run`; its history is judged by checker.py.

It knows the ranges by the map, and the replicas by what they publish. The cut is the least, over all ranges, of the
greatest floor that a replica of the range has. It keeps asking at stamps of before, too.
"""

import http.client
import threading
import time

import part
from etcd import Etcd, Refused, Stopped, Unavailable
from history import History
from programs import PATIENCE, Difference, ask
from ranges import Map

EACH = 0.1  # seconds from one read to the next
KEYS_READ = 12
FAILURES = (OSError, http.client.HTTPException, Unavailable, Refused, Stopped, ValueError)


class Client:
    def __init__(self, members, keys, chance, history):
        self.members, self.keys, self.chance, self.path = members, keys, chance, history
        self.ending = threading.Event()
        self.map, self.stamps, self.thread = Map(), [], None

    def start(self):
        self.history = History(self.path)
        self.etcd = Etcd(self.members, self.ending)
        self.thread = threading.Thread(target=self.go_on, daemon=True)
        self.thread.start()

    def end(self, seconds):
        """Lets the thread end, and returns whether it did within so many seconds."""
        self.ending.set()
        if self.thread:
            self.thread.join(seconds)
        return not self.thread or not self.thread.is_alive()

    def stop(self):
        """Ends the thread. A replica closes a snapshot before it answers: none is open for this client afterwards."""
        if not self.end(PATIENCE):
            raise Difference(f"the client's read does not end within {PATIENCE} s")

    def go_on(self):
        while not self.ending.is_set():
            try:
                self.read()
            except FAILURES:
                pass  # a replica, or etcd, is away: it asks again
            self.ending.wait(EACH)

    def places(self):
        """Returns of each range the floors and the addresses of its replicas."""
        self.map.read(self.etcd)
        pairs = self.etcd.list(b"replica/")
        return {found.id: part.published_in(pairs, found.id) for found in self.map.all_live()}

    def read(self):
        places = self.places()
        if not all(places.values()):
            return
        cut = min(max(words["floor"] for words in of_range) for of_range in places.values())
        before = [stamp for stamp in self.stamps[-20:] if self.chance.random() < 0.1]
        stamp = before[0] if before else cut
        keys = sorted({b"key%07d" % int(self.keys * self.chance.random() ** 4) for _ in range(KEYS_READ)})
        began, values = time.time(), []
        for found in self.map.all_live():
            asked = [key for key in keys if found.has(key)]
            if asked:
                values += zip((key.hex() for key in asked), self.ask(places[found.id], stamp, asked), strict=True)
        self.stamps.append(stamp)
        self.history.read(stamp, values, began)

    def ask(self, of_range, stamp, keys):
        """Returns the values that a replica of the range answers, by chance one of those that can."""
        for words in self.chance.sample(of_range, len(of_range)):
            if words["floor"] >= stamp:
                status, content = ask(words["address"], "/read", stamp=stamp, key=keys)
                if status == 200:
                    return content["values"]
        raise Unavailable("no replica of a range answers at the stamp")
