"""A replica: applies the log to a store of its own, and answers reads at closed timestamps over HTTP.

    replica.py --name r1 --folder /var/lib/hlcstore/r1 --members HOST:PORT .. --listen HOST:PORT

It makes a checkpoint in the folder every so many seconds, with the revision up to which it applied the log as the tag.
After a restart it goes on from the newest checkpoint and the log behind it. Where it has none that the log still
continues, it takes one from another replica. Each range that the map lets it have is a store of its own (part.py), and
reads are over all of them at one stamp (cover.py). A first SIGTERM or SIGINT ends it with a last checkpoint. With
--piped it says in JSON on its output where it began and its address, and ends with its standard input.
"""

import contextlib
import json
import pathlib
import threading
import time

import alarms
import cover
import exported
import hlcstore
import life
import log
import logs
import metrics
import part
import ranges
import serve
import settings
import sight
from etcd import Etcd, Refused, put

LEASE = 10  # seconds after which the cluster forgets a replica that is gone
PAUSE = 0.5  # seconds between two rounds of upkeep
LOOK = 0.2  # seconds between two looks at the map
GRACE = 3.0  # seconds for answers that are under way when it ends
SETTINGS = [
    settings.Setting("name", settings.name, "its name, under which it publishes where it is"),
    settings.Setting("folder", settings.path, "the folder of its checkpoints, which is made if it is not there"),
    settings.Setting("checkpoint_seconds", settings.number(0, float, open_end=True),
                     "seconds from one checkpoint to the next", 60.0),
    settings.MEMBERS, settings.LISTEN, settings.LOG_LEVEL,
]  # fmt: skip


class Replica(serve.Answerer):
    def __init__(self, name, folder, seconds, members, process=None, piped=False):
        super().__init__()
        self.name, self.members, self.piped = name, members, piped
        self.folder, self.seconds = pathlib.Path(folder), seconds
        self.life = process or life.Life()
        self.map = ranges.Map()
        self.parts = {}  # of each range that it has; and of those from which these came, for as long as they are needed
        self.clean = set()  # ranges of which nothing is left on the disk
        self.others = {"/certificate": self.certificate, "/checkpoint": self.newest}
        self.pages = {"/": serve.page, "/metrics": self.metrics}
        self.counters = metrics.Counters()
        self.sight = sight.Sight(self.links)
        self.eyes = self.connect(())
        self.opened = {}  # when each snapshot was opened, by its range and its id
        self.started, self.printing = time.time(), threading.Lock()

    def connect(self, members):
        """Returns a connection of a thread's own. No members are those of the first cluster."""
        return Etcd(list(members) or self.members, self.life.asked)

    def report(self, **words):
        """Says on its output, to the program that started it, what its log says to people."""
        if self.piped:
            with self.printing:
                print(json.dumps(words), flush=True)

    # ---- The ranges that it has ----

    def begun(self):
        """Returns the parts that have a store."""
        return {number: each for number, each in sorted(self.parts.items()) if each.store is not None}

    def wanted(self):
        return [found for found in self.map.all_live() if found.is_of(self.name)]

    def look_at_map(self, etcd):
        """Begins the ranges that the map lets it have, and drops those that nobody here needs any more."""
        self.map.read(etcd)
        for found in self.wanted():
            self.have(found)
        for each in list(self.parts.values()):
            if each.store is None and each.lacks_parents():
                self.have_parents(etcd, each)
        for each in list(self.parts.values()):
            if not self.needs(etcd, self.map.ranges[each.range.id]):
                del self.parts[each.range.id]
                each.drop()
                logs.info("has a range no more", range=each.range.id)
        for found in self.map.ranges.values():
            if found.id not in self.parts and found.id not in self.clean and not self.needs(etcd, found):
                part.remove_files(self, found)
                self.clean.add(found.id)

    def have(self, found):
        if found.id not in self.parts:
            self.clean.discard(found.id)
            self.parts[found.id] = part.Part(self, found)
            part.start(self.parts[found.id])

    def have_parents(self, etcd, child):
        """Begins the ranges from which one came: where they are on this disk, or no other replica has that one."""
        others = [words for words in part.published(etcd, child.range.id) if words["name"] != self.name]
        for number in child.range.parents:
            if number not in self.parts and (not others or part.has_files(self, self.map.ranges[number])):
                self.have(self.map.ranges[number])

    def needs(self, etcd, found):
        """Returns whether this replica has a range by the map, or needs it for one that came from it."""
        if found.id not in self.map.live:
            return any(self.is_unsafe(child) for child in self.map.children(found.id))
        if found.is_of(self.name):
            return True
        others = {words["name"] for words in part.published(etcd, found.id) if words["checkpoint"]}
        return not others & set(found.replicas)

    def is_unsafe(self, child):
        """Returns whether a range is to begin here, or has begun, and has not enough checkpoints of its own."""
        if child.id in self.parts:
            return not self.parts[child.id].is_safe()
        return child.id in self.map.live and child.is_of(self.name)

    def keep_map(self):
        etcd = self.connect(())
        while True:
            self.look_at_map(etcd)
            time.sleep(LOOK)

    # ---- Answers ----

    def links(self):
        """Returns of each node, over all ranges that go on: the next number, the head, and whether it retired."""
        links = [each.links() for each in self.current()]
        return links[0] if len(links) == 1 else sight.links_together(links)

    def current(self):
        """Returns the parts of the ranges that it has; of those that have not begun, the ones from which they come."""
        return list(dict.fromkeys(each for _, _, each in cover.pieces(self)))

    def state(self):
        now, parts = time.time(), self.current()
        stores = [each.store for each in parts]
        horizon = max((store.horizon for store in stores), default=hlcstore.Stamp(0))
        state = {
            "program": "replica", "name": self.name, "revision": max((each.revision for each in parts), default=0),
            "horizon": horizon, "horizon_text": str(horizon),
            "horizon_age_seconds": round(now - sight.physical(horizon), 3),
            "rows": sum(store.rows for store in stores),
            "threshold": max((each.threshold for each in parts), default=0),
            "checkpoint": min((each.checkpoints.oldest() for each in parts), default=0), "links": self.links(),
            "sizes": cover.sizes(stores), "snapshots": self.snapshots(parts, now),
            "checkpoints": self.saved(parts, now),
            "vacuum": {"seconds": max((each.vacuum_seconds for each in parts), default=0.0)},
            "ranges": [self.range_words(each, now) for each in self.begun().values()],
        }  # fmt: skip
        floor = min((store.floor for store in stores), default=hlcstore.Stamp(0))
        state |= sight.state(self.sight, state["links"], floor, now, self.eyes.trouble)
        return state | {"alarms": alarms.alarms_of(state, alarms.OF_A_REPLICA)}

    def range_words(self, each, now):
        with each.between:
            store, revision, links = each.store, each.revision, part.links_of(each.store)
        return {
            "range": each.range.id, "from": each.range.start.hex(), "to": each.range.end.hex(),
            "live": each.range.id in self.map.live, "sealed": each.seal is not None, "revision": revision,
            "floor": store.floor, "floor_age_seconds": round(now - sight.physical(store.floor), 3),
            "horizon": store.horizon, "rows": store.rows, "checkpoint": each.checkpoints.oldest(), "links": links,
        }  # fmt: skip

    def snapshots(self, parts, now):
        """Returns the stamps of open snapshots, and for how long each has been open."""
        before, listed = time.monotonic(), []
        for each in parts:
            for snapshot in each.store.snapshots():
                opened = self.opened.get((each.range.id, snapshot.id), before)
                listed.append({"id": snapshot.id, "stamp": snapshot.stamp, "open_seconds": round(before - opened, 3),
                               "age_seconds": round(now - sight.physical(snapshot.stamp), 3)})  # fmt: skip
        return listed

    def saved(self, parts, now):
        """Returns how old the newest checkpoint is: or the process, until there is one. Of several ranges, the oldest
        of their newest ones counts."""
        newest = [each.checkpoints.newest() for each in parts]
        since = min((found.st_mtime if found else self.started for found in newest), default=self.started)
        failures = [each.failure for each in parts if each.failure]
        return {"age_seconds": round(now - since, 3), "bytes": sum(found.st_size for found in newest if found),
                "every_seconds": self.seconds, "failure": failures[0] if failures else ""}  # fmt: skip

    def metrics(self):
        return serve.metrics(metrics.text_of(exported.of_a_replica(self.state(), self.counters, alarms.OF_A_REPLICA)))

    def note(self, status):
        self.counters.add("http_answers", status=status)

    def count_refusal(self, refused):
        self.counters.add("refusals", code=refused.code, name=hlcstore.error_name(refused.code))

    @contextlib.contextmanager
    def snapshot(self, stamp):
        """Opens a snapshot at a stamp, or at the floor, in all ranges that this replica has, or in none."""
        pieces = cover.pieces(self)
        if not pieces:
            raise serve.Refused(503 if self.wanted() else 404, "no range is here yet")
        with contextlib.ExitStack() as opened:
            if stamp is None:
                stamp = min(each.store.floor for _, _, each in pieces)
            of_parts = {each: opened.enter_context(self.snapshot_of(each, stamp)) for _, _, each in pieces}
            yield cover.over([(start, end, of_parts[each]) for start, end, each in pieces])

    @contextlib.contextmanager
    def snapshot_of(self, each, stamp):
        with self.refusals():
            snapshot = each.store.snapshot(hlcstore.Stamp.from_number(stamp))
        key = each.range.id, snapshot.id
        self.opened[key] = time.monotonic()
        try:
            with snapshot:
                yield snapshot
        finally:
            self.opened.pop(key, None)

    def part_of(self, number):
        """Returns the part of a range, or the only one."""
        parts = self.begun() if number is not None else {each.range.id: each for each in self.current()}
        if number is None and len(parts) == 1:
            return next(iter(parts.values()))
        if number not in parts:
            raise serve.Refused(404, "there is no such range here" if number is not None else "a range is missing")
        return parts[number]

    def certificate(self, stamp, number=None):
        if stamp is None:
            raise serve.Refused(400, "a stamp is missing")
        each, at = self.part_of(number), hlcstore.Stamp.from_number(stamp)
        with self.refusals():
            while True:
                each.make_vacuum(at)
                with contextlib.suppress(hlcstore.NotFewest):  # a snapshot was closed just now
                    return each.store.certificate(at).certificate

    def newest(self, _, number=None):
        return self.part_of(number).newest()

    @contextlib.contextmanager
    def refusals(self):
        """Turns the store's refusals into statuses of HTTP, and counts them."""
        try:
            yield
        except hlcstore.Error as refused:
            self.count_refusal(refused)
            if type(refused) not in STATUSES:
                raise
            raise serve.Refused(STATUSES[type(refused)], str(refused)) from None

    # ---- Upkeep ----

    def keep_up(self, address):
        """Publishes the floor and the oldest checkpoint, vacuums to the threshold, and makes checkpoints."""
        life.essential(self.keep_published, address)
        saved = time.monotonic()
        while True:
            for each in self.current():
                each.vacuum()
            if time.monotonic() - saved >= self.seconds:
                self.save_all()
                saved = time.monotonic()
            time.sleep(PAUSE)

    def keep_published(self, address):
        """Publishes beside the rest of the upkeep: a vacuum, or a checkpoint, may take longer than the lease."""
        etcd, lease = self.connect(()), None
        while True:
            lease = self.publish(etcd, lease, address)
            time.sleep(PAUSE)

    def save_all(self):
        for each in list(self.begun().values()):
            if not each.dropped.is_set():
                each.try_to_save()

    def publish(self, etcd, lease, address):
        """Puts where this replica is, for as long as the lease is kept alive, and returns the lease."""
        if lease is None or not etcd.keep_alive(lease):
            lease = etcd.lease(LEASE)
        parts, words = self.current(), {"name": self.name, "address": address}
        if not parts:
            return lease
        words["floor"] = min(each.store.floor for each in parts)
        words["checkpoint"] = min(each.checkpoints.oldest() for each in parts)
        if list(self.begun()) != [0]:
            words["ranges"] = {str(number): each.words() for number, each in self.begun().items()}
        try:
            etcd.transact([], [put(b"replica/" + self.name.encode(), log.to_json(words), lease=lease)])
        except Refused:  # the lease ended just now
            lease = None
        return lease

    def work(self, listen):
        """Starts all parts, and waits until the process is asked to end."""
        self.look_at_map(self.connect(()))
        server = serve.start(self, listen)
        logs.info("answers over HTTP", address=server.address, members=",".join(self.members))
        life.essential(self.keep_map)
        life.essential(self.keep_up, server.address)
        more = sight.Eyes(self.connect)
        life.essential(self.sight.go_on, self.eyes, lambda: more.of([each.range for each in self.current()]))
        self.report(address=server.address)
        if self.piped:
            self.life.start_to_obey(lambda _: False)
        self.life.wait()
        server.finish(GRACE)
        self.save_all()


STATUSES = {
    hlcstore.AboveFloor: 425,
    hlcstore.BelowHorizon: 410,
    hlcstore.TooManySnapshots: 503,
    hlcstore.NoMemory: 503,
}


def main():
    words = settings.read(__doc__, SETTINGS)
    logs.choose(words.log_level, f"replica/{words.name}")
    life.EXPECTED.append(hlcstore.Error)

    def work(process):
        replica = Replica(words.name, words.folder, words.checkpoint_seconds, words.members, process, words.piped)
        replica.work(words.listen)

    life.run(work)


if __name__ == "__main__":
    main()
