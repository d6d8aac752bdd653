"""A range at a replica: its log applied to a store of its own, and the store's checkpoints.

A range that came from others begins with what their stores are behind the last entry of their logs, the seal. As that
entry is at one place, all replicas begin it alike. Where a replica has no such store, it takes a checkpoint of another.
"""

import http.client
import threading
import time

import hlcstore
import keys
import life
import log
import logs
import ranges
import serve
from checkpoints import KEEP, Checkpoints

FIRST_NODES = 1  # the coordinator's node; all others join
DAMAGED = (hlcstore.BadBytes, hlcstore.NoCheckpoint)
OTHER_VERSION = 2  # the word of BadBytes
WAIT = 0.05  # seconds from one look to the next whether a range can begin


class Dropped(Exception):
    """The replica has this range no more."""


class Part:
    def __init__(self, replica, found):
        self.replica, self.range = replica, found
        self.checkpoints = Checkpoints(folder_of(replica, found))
        self.between = threading.Lock()  # whoever has it sees the store between two entries of the log
        self.saving = threading.Lock()
        self.store, self.revision, self.threshold = None, 0, 0
        self.seal = None  # what the last entry says, once it is applied
        self.is_cut = False  # the log was cut before it was applied here: the range cannot go on at this replica
        self.dropped = threading.Event()
        self.failure, self.vacuum_seconds = "", 0.0

    # ---- Applying the log ----

    def apply(self, entry):
        """Accepts items, and lets nodes join: all replicas do so at the same place of the log, with the same start.
        What was applied before is passed over."""
        seal = entry.seal()
        with self.between:
            if not seal:
                applied = self.store.apply_records(entry.records)
                self.threshold = max(self.threshold, applied.threshold)
            self.revision, self.seal = entry.revision, seal

    def follow(self, etcd):
        """Applies the log up to its seal."""
        while not self.seal and not self.dropped.is_set():
            try:
                for entry in log.follow(etcd, self.revision, self.range.prefix):
                    self.apply(entry)
                    if self.seal or self.dropped.is_set():
                        return
            except log.Cut as cut:
                logs.warning(f"begins from another replica: {cut}", range=self.range.id)
                self.begin_from_another(etcd)

    def work(self):
        """Begins the range, and follows its log. `replica.connect(members)` is a connection of the thread's own."""
        try:
            if not self.begin_from_disk():
                self.begin_from_others()
            self.follow(self.replica.connect(self.range.members))
        except Dropped:
            pass

    # ---- Beginning ----

    def begin_from_disk(self):
        """Begins with the newest checkpoint that is whole; or, where the range came from no others, with an empty store
        before the first entry. Returns whether it did. A checkpoint of another version stays for its program."""
        for path in self.checkpoints.paths():
            try:
                self.begin("disk", path.read_bytes)
                return True
            except DAMAGED as refused:
                self.replica.count_refusal(refused)
                if isinstance(refused, hlcstore.BadBytes) and refused.word == OTHER_VERSION:
                    said = f"{path} is of another version, or its beginning is damaged"
                    raise life.Never(f"{said}: start the program that saved it, or remove it") from None
                logs.warning("removes a damaged checkpoint", file=path.name, text=refused)
                self.replica.report(damaged=path.name, text=str(refused))
                path.unlink()
        if not self.range.parents:
            self.begin("empty", None)
        return not self.range.parents

    def begin(self, origin, read):
        start = time.monotonic()
        store = hlcstore.Store.restore(read()) if read else hlcstore.Store(FIRST_NODES)
        self.begin_with(origin, store, start)

    def begin_with(self, origin, store, start):
        store.close_all()  # a checkpoint has the snapshots that were open; their readers are gone
        with self.between:
            self.store, self.revision = store, store.tag
        seconds = round(time.monotonic() - start, 3)
        self.replica.counters.add("begins", origin=origin)
        words = {"range": self.range.id, "revision": store.tag, "rows": store.rows, "seconds": seconds}
        logs.info(f"begins from {origin}", **words)
        self.replica.report(begins=origin, **words)

    def begin_from_others(self):
        """Begins with the stores of the ranges from which it came, or with a checkpoint of another replica."""
        etcd = self.replica.connect(())
        while not self.begin_from_parents():
            if self.lacks_parents() and self.take_checkpoint(etcd, -1):
                break
            self.wait()
        self.try_to_save()

    def parents(self):
        return [self.replica.parts.get(number) for number in self.range.parents]

    def lacks_parents(self):
        return any(parent is None or parent.is_cut for parent in self.parents())

    def begin_from_parents(self):
        """Returns whether this replica has all parents up to their seals, and began with them."""
        parents = self.parents()
        if not all(parent and parent.seal for parent in parents):
            return False
        start = time.monotonic()
        checkpoints = [parent.store.checkpoint(0) for parent in parents]
        self.begin_with("parents", ranges.inherit(self.range, checkpoints), start)
        self.threshold = max(parent.threshold for parent in parents)
        return True

    def begin_from_another(self, etcd):
        """Begins with the checkpoint of another replica, as soon as one has a newer one."""
        while not self.take_checkpoint(etcd, self.revision):
            if self.replica.map.children(self.range.id):
                self.is_cut = True  # those that came from it are taken from others
                raise Dropped
            self.wait(0.2)

    def take_checkpoint(self, etcd, after):
        """Returns whether another replica has a newer checkpoint than the one at a revision, and this one began so."""
        for words in published(etcd, self.range.id):
            if words["name"] != self.replica.name and words["checkpoint"] > after:
                path = f"/checkpoint?range={self.range.id}"
                try:
                    self.begin(words["name"], lambda: serve.fetch(words["address"], path))
                    return True
                except (OSError, ValueError, http.client.HTTPException, *DAMAGED) as failure:
                    # that one was killed, its disk is damaged, or its address is none
                    logs.warning("no checkpoint of another replica", name=words["name"], text=failure)
        return False

    def wait(self, seconds=WAIT):
        if self.dropped.wait(seconds):
            raise Dropped

    # ---- Checkpoints, and the vacuum ----

    def is_safe(self):
        """Returns whether the range no longer needs those from which it came: it has its own checkpoints."""
        return self.store is not None and len(self.checkpoints.paths()) >= KEEP

    def floor(self):
        return self.store.floor

    def vacuum(self):
        store = self.store
        if store.horizon < self.threshold <= store.floor and not self.seal:
            try:
                self.make_vacuum(self.threshold)
            except hlcstore.BelowHorizon:
                pass  # a certificate at a later stamp was asked for just now

    def make_vacuum(self, stamp):
        start = time.monotonic()
        made = self.store.vacuum_to(stamp)
        self.vacuum_seconds = time.monotonic() - start
        for name, amount in ("s", 1), ("_seconds", self.vacuum_seconds), ("_rows_dropped", made.dropped):
            self.replica.counters.add("vacuum" + name, amount)
        logs.debug("vacuumed", stamp=stamp, kept=made.kept, dropped=made.dropped, seconds=self.vacuum_seconds)

    def try_to_save(self):
        """Makes a checkpoint. Where that fails, the replica goes on with those that it has, and tries again later."""
        start = time.monotonic()
        try:
            revision, size = self.save()
        except (OSError, hlcstore.NoMemory) as failure:
            self.failure = str(failure)
            self.replica.counters.add("checkpoints_failed")
            logs.error("a checkpoint was not saved", text=failure)
            return
        seconds, self.failure = time.monotonic() - start, ""
        self.replica.counters.add("checkpoints")
        self.replica.counters.add("checkpoint_seconds", seconds)
        logs.info("saved a checkpoint", revision=revision, bytes=size, seconds=seconds, range=self.range.id)

    def save(self):
        """Saves a checkpoint, and returns its revision and its size."""
        with self.saving:
            with self.between:
                # the tag of a sealed log is that of the entry before: whoever restores it applies the seal once more
                revision = self.revision - 1 if self.seal else self.revision
                saved = self.store.checkpoint(revision)
            self.checkpoints.save(revision, saved)
            return revision, len(saved)

    def newest(self):
        paths = self.checkpoints.paths()
        if not paths:
            raise serve.Refused(404, "there is no checkpoint yet")
        return paths[0].read_bytes()

    # ---- What it is ----

    def links(self):
        """Returns of each node, between two entries: the next number, the head, and whether it retired."""
        with self.between:
            return links_of(self.store)

    def words(self):
        """What the replica publishes of it."""
        return {"floor": self.store.floor, "checkpoint": self.checkpoints.oldest()}

    def drop(self):
        """Ends its thread, and removes its checkpoints."""
        self.dropped.set()
        with self.saving:
            remove_files(self.replica, self.range)


def folder_of(replica, found):
    return replica.folder / f"range-{found.id:08x}" if found.id else replica.folder


def has_files(replica, found):
    """Returns whether a replica has checkpoints of a range on its disk."""
    return any(folder_of(replica, found).glob("*.checkpoint"))


def remove_files(replica, found):
    for path in folder_of(replica, found).glob("*.checkpoint"):
        path.unlink(missing_ok=True)


def links_of(store):
    return [list(store.link(node)) for node in range(store.nodes)]


def published(etcd, number):
    """Returns what replicas publish of a range: their names, addresses, floors and oldest checkpoints."""
    return published_in(etcd.list(b"replica/"), number)


def published_in(pairs, number):
    found = []
    for words in keys.replicas(pairs):
        parts = words.get("ranges", {"0": words})
        if str(number) in parts:
            found.append({"name": words["name"], "address": words["address"]} | parts[str(number)])
    return found


def start(part):
    """Lets a range work in a thread of its own."""
    threading.Thread(target=work, args=(part,), daemon=True, name=f"range {part.range.id}").start()


def work(part):
    """The process ends where the work of a range fails, unless the range was dropped meanwhile, with its files."""
    try:
        part.work()
    except BaseException as failure:
        if not part.replica.life.asked.is_set() and not part.dropped.is_set():
            life.end(life.tell(failure))
