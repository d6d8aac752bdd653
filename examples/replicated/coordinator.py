"""The coordinator: decides what all replicas have to do alike, and puts it into the log.

    coordinator.py --retention-ms 60000 --members HOST:PORT .. --listen HOST:PORT

It lets nodes join, says from which stamp on reads are possible, retires nodes whose writers are lost, cuts the log, and
splits, merges and moves ranges (reshape.py). Others ask it by keys: `ask/join/NAME` for a node for this name, and
`ask/lost/NAME` to retire the node of a name. Where no node can join, a text that says so replaces the request. Over
HTTP it answers how all others are. Another coordinator may be started at any time: it takes over, and this one ends
with status 3. A first SIGTERM or SIGINT ends it; the floor waits for the next one. With --piped it ends with its
standard input, of which the line `retire` ends it after it has retired its own node: then no other one can be started.
The line `clock MS` sets its clock off by so many milliseconds.

The coordinator is a node itself, number 0, which only reports. So no replica's floor is above the coordinator's last
stamp when a replica comes to an entry that the coordinator appended behind it: a node that joins starts there.
"""

import contextlib
import json
import re
import time

import alarms
import exported
import hlcstore
import keys
import life
import log
import logs
import machine
import metrics
import ranges
import reshape
import serve
import settings
import sight
from clock import reading
from etcd import Etcd, delete, put, unchanged
from hlcstore import Node, Stamp, join_record, threshold_record
from machine import JOIN, LOST, NODE
from members import Members

PERIOD = 0.03  # seconds from one report to the next
UPKEEP = 2.0  # seconds from one threshold, and one cut, to the next
LEFT = 10.0  # seconds for which a decision to retire is left to the writer that made it
GRACE = 1.0  # seconds for answers that are under way when it ends
NUMBER = log.COORDINATOR
NEW = {"next": 0, "last": 0, "nodes": 1, "plans": 0, "threshold": 0}
MOST_NODES = 1024  # numbers that a store can assign: a further join would be refused by every replica
SETTINGS = [
    settings.Setting("retention_ms", settings.number(0), "milliseconds for which reads stay possible", 60_000),
    settings.MEMBERS, settings.LISTEN, settings.LOG_LEVEL,
]  # fmt: skip


class Coordinator(serve.Answerer):
    def __init__(self, retention, members, process=None, piped=False):
        super().__init__()
        self.retention, self.piped = retention, piped
        self.life = process or life.Life()
        self.pages = {"/": serve.page, "/metrics": self.metrics}
        self.counters = metrics.Counters()
        self.etcd = self.connect(members)
        self.members, self.sight = Members(members), sight.Sight(self.links)
        self.offset, self.appended, self.cut = 0, time.monotonic(), 0
        self.done = set()  # ranges whose logs were cut as a whole
        self.decisions = {}  # of other nodes, to retire: when each was seen first
        self.lock = log.Link(self.etcd, NUMBER, b"coordinator/")  # for what is of no range
        self.lock.claim({})
        self.machine = machine.Machine(NUMBER, self.etcd, self.connect, at_home=[self.lock.is_mine()])
        self.take_over()
        self.report("node", NUMBER)
        self.retires = False

    def connect(self, members):
        etcd = Etcd(members)
        etcd.ending = self.life.asked
        return etcd

    def take_over(self):
        """Takes its links over, and finishes what another coordinator has begun."""
        try:
            while not self.machine.take_over(NEW):
                reshape.finish(self)
            if self.etcd.get(machine.retires_key(NUMBER)):
                self.machine.retire(self.machine.decide_to_retire(0))
                raise log.Retired
            reshape.make_links(self)
        except log.Retired:
            raise life.Never("the coordinator's node retired: no coordinator can be started for this log") from None

    @property
    def first(self):
        return self.machine.first()

    @property
    def link(self):
        return self.first.link

    @property
    def head(self):
        return self.first.state

    @property
    def node(self):
        """Its node in the first range."""
        return self.first.node

    @node.setter
    def node(self, node):
        self.first.node = node

    def report(self, *words):
        """Says on its output, to the program that started it, how far it is."""
        if self.piped:
            print(*words, flush=True)

    # ---- Appending ----

    def append(self, part, *words, **changed):
        part.append(*words, **changed)
        self.appended = time.monotonic()
        self.counters.add("appends")

    def append_item(self, issue, part=None):
        """Appends what `issue`, a call of the node in a range, returns for a reading of the clock."""
        part = part or self.first
        node = self.machine.acting(part)
        number = node.next
        item = bytes(issue(reading(node, self.offset)))
        self.machine.acted(part)
        self.append(part, log.batch_key(NUMBER, number, part.range.prefix), item)

    def append_plan(self, record, also=(), part=None, **changed):
        """Appends a record that is no item, together with what changes by it."""
        part = part or self.first
        number = part.state["plans"]
        key = log.plan_key(number, part.range.prefix)
        self.append(part, key, record, also, plans=number + 1, **changed)

    # ---- Nodes that come and go ----

    def let_join(self, name):
        """Puts a join into each log, and makes the link of the new node. The name belongs to the node from then on."""
        found = self.etcd.get(NODE + name)
        if self.machine.is_simple():
            if found:
                self.etcd.transact([self.link.is_mine()], [delete(JOIN + name)])
            elif self.can_join(name, self.head["nodes"]):
                also = [put(NODE + name, log.to_json(self.head["nodes"])), delete(JOIN + name)]
                self.let_join_in(self.first, name, self.head["nodes"], also)
                self.counters.add("joins")
            return
        counts = {part.state["nodes"] for part in self.machine.parts.values()}
        number = keys.number_in(found) if found else max(counts)
        if number is None:
            return  # nobody knows which node has the name
        if not found:
            if len(counts) > 1 or not self.can_join(name, number):
                return  # another join is under way, whose name comes first
            request = self.etcd.get(JOIN + name)
            still = unchanged(JOIN + name, request.revision if request else 0)
            if not self.decide([put(NODE + name, log.to_json(number))], [still]):
                return  # nobody asks any more
            self.counters.add("joins")
        for part in self.machine.parts.values():
            if part.state["nodes"] == number:
                self.let_join_in(part, name, number)
        self.decide([delete(JOIN + name)])

    def let_join_in(self, part, name, number, also=()):
        start, key = part.node.last, log.link_key(number, part.range.prefix)
        link = put(key, log.to_json({"owner": "", "next": 0, "last": start}))
        self.append_plan(join_record(number, start), [link, *also], part, nodes=number + 1)
        logs.info("a node joins", node=number, name=name.decode(errors="replace"), start=sight.stamp_text(start))

    def decide(self, changes, conditions=()):
        """Changes what is of no range, unless another coordinator has taken over. Returns whether it did."""
        done = self.etcd.transact([self.lock.is_mine(), *conditions], changes).get("succeeded", False)
        if not done and (not conditions or self.etcd.get(self.lock.key).revision != self.lock.revision):
            raise log.Fenced("another coordinator decides")
        return done

    def can_join(self, name, number):
        if number == MOST_NODES:
            self.refuse_join(name, f"all {MOST_NODES} node numbers are assigned")
        return number < MOST_NODES

    def refuse_join(self, name, text):
        """Replaces a request by its answer, for the writer that asked."""
        self.counters.add("joins_refused")
        logs.warning(f"refuses a join: {text}", name=name.decode(errors="replace"))
        refusal = log.to_json({"refused": text})
        self.etcd.transact([self.link.is_mine()], [put(JOIN + name, refusal)])

    def retire_lost(self, name):
        """Retires the node of a writer that does not come back: without this it would stop the floor for good.

        The coordinator takes the links over, so the writer can append nothing more if it is alive after all. All this
        takes place only while no other coordinator has taken over, as that one has the same request.
        """
        request, simple = LOST + name, self.machine.is_simple()
        mine = [self.link.is_mine() if simple else self.lock.is_mine()]
        found = self.etcd.get(NODE + name)
        if not found:
            self.etcd.transact(mine, [delete(request)])
            return
        number = keys.number_in(found)
        if number is None:
            return  # nobody knows which node has the name
        retire = self.retire_in_one if simple else self.retire_in_all
        try:
            if retire(number, name, mine):
                self.counters.add("lost")
                logs.warning("retires the node of a lost writer", node=number, name=name.decode(errors="replace"))
        except log.Retired:  # the writer has retired it just now
            self.etcd.transact(mine, [delete(request)])
        except log.Fenced:  # the writer has come back just now; the request stays, for the next round
            pass

    def retire_in_one(self, number, name, mine):
        link = log.Link(self.etcd, number, self.first.range.prefix)
        first = ranges.state_of(self.machine.connect, self.machine.map, self.first.range, number)
        state = link.claim(first, mine)
        node = Node.restore(number, Stamp.from_number(state["last"]), state["next"])
        item = bytes(node.retire(reading(node)))
        state |= {"next": node.next, "last": node.last, "retired": True}
        also = machine.given_back(number, name)
        link.append(log.batch_key(number, node.next - 1, link.prefix), item, state, also, mine)
        return True

    def retire_in_all(self, number, name, mine):
        """Retires a node in each range, or does what is left of that. Returns whether it could: not while it joins."""
        lost = machine.Machine(number, self.etcd, self.connect, self.is_mine_in, mine)
        with contextlib.suppress(log.Retired):  # in all ranges, and its name was not given back
            if not lost.take_over():
                return False
            lost.retire(lost.decide_to_retire(reading(lost.first().node)))
        self.decide(machine.given_back(number, name))
        return True

    def finish_retirements(self):
        """Does what is left of decisions to retire whose writers were killed: until then no ranges can be merged.

        Where a node has retired in all ranges, nothing can be appended for it, and nobody needs the decision. Else its
        writer, or the next process of its name, has some seconds to do it. Nothing is lost by doing it here: who has
        decided to retire writes nothing more.
        """
        now, names = time.monotonic(), keys.names(self.etcd.list(NODE))
        numbers = [int(pair.key.removeprefix(machine.RETIRES), 16) for pair in self.etcd.list(machine.RETIRES)]
        self.decisions = {number: self.decisions.get(number, now) for number in numbers if number != NUMBER}
        for number, since in self.decisions.items():
            if now - since > LEFT or machine.Machine(number, self.etcd, self.connect).has_retired():
                try:
                    if self.retire_in_all(number, names.get(number), [self.lock.is_mine()]):
                        logs.warning("did the rest for a node that retires", node=number)
                except log.Fenced:  # its writer is at it
                    pass

    def is_mine_in(self, found):
        """The conditions that no other coordinator has taken over in a range."""
        return [self.machine.parts[found.id].link.is_mine()]

    def answer(self):
        for pair in self.etcd.list(b"ask/"):
            if pair.key.startswith(JOIN) and not pair.value:  # a value is the answer
                self.let_join(pair.key.removeprefix(JOIN))
            elif pair.key.startswith(LOST):
                self.retire_lost(pair.key.removeprefix(LOST))
            else:
                reshape.answer(self, pair)

    # ---- Retention and the log's length ----

    def keep_up(self):
        """Raises the threshold, and cuts what each replica has in its checkpoints: each that still publishes."""
        replicas = keys.replicas(self.etcd.list(b"replica/"))
        if not replicas:
            return
        threshold = min(words["floor"] for words in replicas) - (self.retention << 16)
        for part in self.machine.parts.values():
            if threshold > part.state["threshold"]:
                record = threshold_record(Stamp.from_number(threshold))
                self.append_plan(record, part=part, threshold=threshold)
        for number in self.machine.map.ranges:
            reshape.cut(self, number, replicas)

    def report_all(self):
        for part in self.machine.parts.values():
            self.append_item(part.node.report, part)

    def work(self):
        kept_up = time.monotonic()
        while not self.retires and not self.life.asked.is_set():
            self.report_all()
            self.answer()
            if time.monotonic() - kept_up >= UPKEEP:
                self.keep_up()
                self.finish_retirements()
                kept_up = time.monotonic()
            time.sleep(PERIOD)
        if self.retires:
            self.retire()
            logs.warning("its node retired: no coordinator can be started for this log any more")

    def retire(self):
        if self.machine.is_simple():
            self.append_item(self.node.retire)
        else:
            self.machine.retire(self.machine.decide_to_retire(reading(self.node, self.offset)))

    def command(self, words):
        """Carries a line of standard input out, and returns whether it knows it."""
        match words:
            case ["retire"]:
                self.retires = True
            case ["clock", offset] if re.fullmatch(r"-?[0-9]+", offset):
                self.offset = int(offset)
            case _:
                return False
        return True

    # ---- Answers ----

    def links(self):
        """Returns of each node, as the log has it: the next number, the head, and whether it retired."""
        heads = self.sight.last.heads
        return [[*heads.get(node, (0, 0, False))] for node in range(max(heads, default=0) + 1)]

    def state(self):
        now, links = time.time(), self.links()
        heads = [head for _, head, retired in links if not retired]
        floor = min(heads) if heads else max(head for _, head, _ in links)
        state = {"program": "coordinator", "name": "coordinator", "threshold": self.head["threshold"], "snapshots": []}
        state["coordinator"] = self.seen(now)
        state |= sight.state(self.sight, links, floor, now, self.etcd.trouble)
        return state | {"alarms": alarms.alarms_of(state, alarms.OF_THE_COORDINATOR)}

    def seen(self, now):
        """Returns the part of its state that no replica has."""
        reading_now = now + self.offset / 1000
        threshold = self.head["threshold"]
        return {
            "append_age_seconds": round(time.monotonic() - self.appended, 3), "trouble": self.etcd.trouble,
            "clock_behind_seconds": round(max(sight.physical(self.node.last) - reading_now, 0), 3),
            "retention_seconds": self.retention / 1000, "numbers_assigned": self.head["nodes"], "cut": self.cut,
            "threshold_age_seconds": round(now - sight.physical(threshold), 3) if threshold else None,
            "requests": self.sight.last.requests, "members": self.members.words,
        }  # fmt: skip

    def metrics(self):
        families = exported.of_the_coordinator(self.state(), self.counters, alarms.OF_THE_COORDINATOR)
        return serve.metrics(metrics.text_of(families))

    def note(self, status):
        self.counters.add("http_answers", status=status)

    def start(self, listen, members):
        """Starts what runs beside its work, and returns the server."""
        server = serve.start(self, listen)
        logs.info("answers over HTTP", address=server.address, members=",".join(members))
        eyes = sight.Eyes(lambda members: Etcd(members, self.life.asked))
        life.essential(self.sight.go_on, Etcd(members, self.life.asked), lambda: eyes.of(self.machine.map.all_live()))
        life.essential(self.members.go_on)
        if self.piped:
            print(json.dumps({"address": server.address}), flush=True)
            self.life.start_to_obey(self.command, lambda: self.retires)
        return server


def main():
    words = settings.read(__doc__, SETTINGS)
    logs.choose(words.log_level, "coordinator")
    life.EXPECTED.append(hlcstore.Error)

    def work(process):
        coordinator = Coordinator(words.retention_ms, words.members, process, words.piped)
        server = coordinator.start(words.listen, words.members)
        coordinator.work()
        server.finish(GRACE)

    life.run(work)


if __name__ == "__main__":
    main()
