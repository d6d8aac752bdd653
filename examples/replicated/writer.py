"""A writer: issues writes and deletions as a node, and appends them to the node's links in batches.

A fifth of its items write several keys of one range, which a snapshot shows all or none of.

    writer.py --name w1 --members HOST:PORT ..

Each write goes to the range that has its key. Where the log of that range has ended, nothing of the batch is in it: its
writes are issued again, for the ranges that the map has instead. The coordinator has a node for each name. A writer
that comes again under its name goes on behind the last item of the log. If no node can join for its name, it ends with
status 5. Where another process of its name takes over, it ends with status 3. A first SIGTERM or SIGINT ends it without
a retirement: the floor waits until it comes again, or is lost. With --piped its output has its node, and after each
append the next number: what is below is in the log for good. It ends with its standard input, of which `clock MS` sets
its clock off by so many milliseconds, and `retire` ends it for good.
"""

import json
import random
import re
import time

import clock
import hlcstore
import life
import log
import logs
import machine
import settings
from etcd import Etcd, Stopped, delete, put, unchanged
from history import History
from hlcstore import Stamp, split

MOST_BYTES = 1_000_000  # in a batch: etcd takes transactions of at most 1.5 MiB
AHEAD = 10_000  # milliseconds: stamps that are further ahead of this node come from a wrong clock
LINGER = 0.02  # seconds from one append to the next, unless a batch is full
TOGETHER, MOST_KEYS = 0.2, 5  # how often an item is of several keys, and of how many
IDLE = 0.05  # seconds without an item after which it reports, so that the floor does not wait for it
SETTINGS = [
    settings.Setting("name", settings.name, "its name, to which its node belongs"),
    settings.Setting("batch", settings.number(1), "the most items in a batch", 512),
    settings.Setting("rate", settings.number(0), "items a second; 0: as many as there is time for", 1000),
    settings.Setting("keys", settings.number(1), "the number of keys", 20_000),
    settings.Setting("history", settings.path, "a file that gets what it writes, for checker.py", None),
    settings.MEMBERS, settings.LOG_LEVEL,
]  # fmt: skip


class Writer:
    def __init__(self, name, batch, rate, keys, members, process=None, piped=False, history=None):
        self.name, self.batch, self.rate, self.keys = name, batch, rate, keys
        self.life, self.piped = process or life.Life(), piped
        self.etcd = self.connect(members)
        self.offset, self.retires = 0, False
        self.history = History(history)
        self.chance = random.Random(name)
        self.waiting = []  # changes that no log has yet: those of a batch that was refused come again
        self.number = self.find_node()
        self.machine = machine.Machine(self.number, self.etcd, self.connect)
        self.take_over()
        if self.etcd.get(machine.retires_key(self.number)):
            self.retires = True  # this was decided before, and is not done
        logs.info("has its node", node=self.number, next=self.items())
        self.report("node", self.number)

    def connect(self, members):
        etcd = Etcd(members)
        etcd.ending = self.life.asked
        return etcd

    def take_over(self):
        """Takes the node's links over, in all ranges that there are now."""
        try:
            while not self.machine.take_over():
                self.pause()
        except log.Retired:
            self.forget()
            raise life.Never(f"node {self.number} of {self.name} retired") from None

    def pause(self):
        if self.life.asked.is_set():
            raise Stopped
        time.sleep(0.02)

    @property
    def node(self):
        """The node in the first range."""
        return self.machine.first().node

    @node.setter
    def node(self, node):
        self.machine.first().node = node

    def items(self):
        """Returns how many items the node has issued, in all ranges."""
        return sum(part.node.next for part in self.machine.parts.values())

    def report(self, *words):
        """Says on its output, to the program that started it, how far it is."""
        if self.piped:
            print(*words, flush=True)

    def find_node(self):
        """Returns the node of this name. If there is none, the coordinator is asked to let one join."""
        name = self.name.encode()
        while not (found := self.etcd.get(machine.NODE + name)):
            self.ask(machine.JOIN + name)
            self.pause()
        return json.loads(found.value)

    def ask(self, request):
        """Makes a request if it is not there, and ends the program if no node can join any more.

        Another process of this name may have made the same request, and have taken it back.
        """
        answer, coordinator = self.etcd.get(request), self.etcd.get(log.link_key(log.COORDINATOR))
        if coordinator and json.loads(coordinator.value).get("retired"):
            raise life.Never(f"no node for {self.name}: the coordinator retired")
        if not answer:
            self.etcd.transact([], [put(request, b"")])
        elif answer.value:
            self.etcd.transact([], [delete(request)])
            raise life.Never(f"no node for {self.name}: {json.loads(answer.value)['refused']}")

    # ---- The clock ----

    def reading(self):
        """The reading of its clock, for the next item in whatever range."""
        node = self.machine.acting(self.machine.first())
        return clock.reading(node, self.offset)

    def listen(self):
        """Receives the last stamp of another writer's link, as a message would bring it.

        So a node whose clock stands still or was set back is carried along. A stamp far ahead is not taken over: one
        wrong clock must not set all others wrong.
        """
        part = self.chance.choice(list(self.machine.parts.values()))
        links = self.machine.connect(part.range.members).list(part.range.prefix + b"link/")
        last = json.loads(self.chance.choice(links).value)["last"]
        self.observe(Stamp.from_number(last))

    def observe(self, stamp):
        """What it writes later is above this stamp, unless that is far ahead."""
        reading, part = self.reading(), self.machine.first()
        if split(stamp)[0] - max(reading, split(part.node.last)[0]) < AHEAD:
            part.node.receive(stamp, reading)
            self.machine.acted(part)
            self.history.saw(stamp)

    # ---- Items ----

    def next_write(self):
        """Returns a key, and what follows in its value; or None, where it is to be deleted."""
        key = b"key%07d" % int(self.keys * self.chance.random() ** 4)
        return key, None if self.chance.random() < 0.1 else b"x" * self.chance.randrange(80)

    def next_change(self):
        """Returns the writes of an item: most often one, else those of up to five keys of one range."""
        change = dict([self.next_write()])
        if self.chance.random() < TOGETHER:
            (first,) = change
            wanted, of_range = self.chance.randint(2, MOST_KEYS), self.machine.map.at(first)
            for _ in range(4 * MOST_KEYS):
                key, value = self.next_write()
                if of_range.has(key):
                    change.setdefault(key, value)
                if len(change) == wanted:
                    break
        return list(change.items())

    def issue(self, part, change):
        """Returns a next item. Its values name its node and number, so that the model sees whether it is in place."""
        reading, node = self.reading(), self.machine.acting(part)
        name = b"%d.%d." % (self.number, node.next)
        writes = [(key, None if value is None else name + value) for key, value in change]
        if len(writes) > 1:
            item = node.write_batch(reading, writes)
        else:
            ((key, value),) = writes
            item = node.delete(reading, key) if value is None else node.write(reading, key, value)
        self.machine.acted(part)
        self.history.issue(node.last, writes)
        return bytes(item)

    def routed(self, changes):
        """Returns the changes for each range, in their order: each goes to the range of its keys.

        Since it was made, its range may have been split: then it is a change in each part.
        """
        by_range = {}
        for change in changes:
            of_change = {}
            for write in change:
                of_change.setdefault(self.machine.map.at(write[0]).id, []).append(write)
            for number, writes in of_change.items():
                by_range.setdefault(number, []).append(writes)
        return by_range

    def issue_batch(self, most):
        """Returns the bytes of items for the first range, which are not appended yet."""
        return b"".join(self.issue(self.machine.first(), self.next_change()) for _ in range(most))

    def append(self, number, items, also=(), part=None):
        """Appends items, of which the first has this number. Only afterwards further ones are issued."""
        (part or self.machine.first()).append_items(number, items, also)
        logs.debug("appended", next=self.items())
        self.report("next", self.items())

    def append_changes(self, changes):
        """Appends each change in the range of its keys. Those of a range whose log has ended wait for another round."""
        for number, of_range in self.routed(changes).items():
            part = self.machine.parts[number]
            while of_range:
                first, items, size = part.node.next, [], 0
                while len(items) < len(of_range) and size < MOST_BYTES - 70_000:
                    items.append(self.issue(part, of_range[len(items)]))
                    size += len(items[-1])
                self.history.sends(self.number)
                try:
                    self.append(first, b"".join(items), part=part)
                except log.Sealed:
                    self.history.done(False)
                    self.waiting += of_range
                    break
                self.history.done(True)
                del of_range[: len(items)]

    def report_idle(self, now):
        """Reports in each range for which there was nothing, so that no floor waits for this writer."""
        for part in self.machine.parts.values():
            if now - part.appended > IDLE:
                first, node = part.node.next, self.machine.acting(part)
                item = bytes(node.report(self.reading()))
                self.machine.acted(part)
                self.append(first, item, part=part)

    def write(self):
        rounds, allowed, before, appended = 0, 0.0, time.monotonic(), time.monotonic()
        while not self.retires and not self.life.asked.is_set():
            now = time.monotonic()
            allowed = min(allowed + (now - before) * self.rate, self.rate)  # those of a second at most
            before = now
            most = min(self.batch, int(allowed)) if self.rate else self.batch
            try:
                if most == self.batch or most > 0 and now - appended > LINGER:
                    allowed -= most
                    self.append_changes([self.next_change() for _ in range(most)])
                    appended = now
                elif all(now - part.appended <= IDLE for part in self.machine.parts.values()):
                    time.sleep(0.002)
                    continue
                self.report_idle(now)
                rounds += 1
                if rounds % 10 == 0:
                    self.listen()
            except log.Sealed:
                self.take_over()
            self.append_waiting()
        if self.retires:
            self.retire()
        else:
            logs.warning("the floor waits until this writer comes again, or is lost", node=self.number)

    def append_waiting(self):
        """Appends the changes of refused batches, in the ranges that have their keys now."""
        while self.waiting:
            self.take_over()
            changes, self.waiting = self.waiting, []
            self.append_changes(changes)

    def retire(self):
        """Appends the last item. With it the name is free again: the next writer of this name joins as another node."""
        if self.machine.is_simple():
            try:
                also = machine.given_back(self.number, self.name.encode())
                return self.append(self.node.next, bytes(self.node.retire(self.reading())), also)
            except log.Sealed:
                self.take_over()
        end = self.machine.decide_to_retire(self.reading())
        try:
            self.machine.retire(end)
        except log.Fenced as failure:  # whoever has the node now does what was decided
            logs.info(f"another process does the rest: {failure}", node=self.number)
            while not self.machine.has_retired():
                self.pause()
        self.report("next", self.items())
        self.forget()

    def forget(self):
        """Gives the name back, of a node that retired in all ranges, unless that was done before."""
        name = self.name.encode()
        found = self.etcd.get(machine.NODE + name)
        if found and json.loads(found.value) == self.number:
            also = machine.given_back(self.number, name)
            self.etcd.transact([unchanged(found.key, found.revision)], also)

    def command(self, words):
        """Carries a line of standard input out, and returns whether it knows it."""
        match words:
            case ["clock", offset] if re.fullmatch(r"-?[0-9]+", offset):
                self.offset = int(offset)
            case ["retire"]:
                self.retires = True
            case _:
                return False
        return True


def main():
    words = settings.read(__doc__, SETTINGS)
    logs.choose(words.log_level, f"writer/{words.name}")
    life.EXPECTED.append(hlcstore.Error)

    def work(process):
        amounts = words.batch, words.rate, words.keys
        writer = Writer(words.name, *amounts, words.members, process, words.piped, words.history)
        if words.piped:
            process.start_to_obey(writer.command, lambda: writer.retires)
        writer.write()

    life.run(work)


if __name__ == "__main__":
    main()
