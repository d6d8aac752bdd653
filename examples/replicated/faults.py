"""Faults at random, for `run`: what can happen to the programs, and how they start again."""

import heapq
import itertools
import shutil
import signal
import time

from cluster import MEMBERS
from etcd import Etcd, put
from machine import LOST, NODE, retires_key

HOUR = 3_600_000  # milliseconds
LEAST_WRITERS, MOST_WRITERS = 2, 5


class Faults:
    """A fault returns a text about itself; or None if it is not possible now."""

    def __init__(self, programs, chance):
        self.programs, self.chance = programs, chance
        self.later = []  # (when, place, call)
        self.places = itertools.count()
        self.member_down = None
        self.names = itertools.count(4)  # of further writers
        self.counts = {}
        self.faults = [self.kill_member, self.freeze_member, self.kill_coordinator, self.replace_coordinator]
        self.faults += [self.kill_replica] * 3 + [self.damage_replica, self.empty_replica, self.kill_all]
        self.faults += [self.fail_power] * 2
        self.faults += [self.kill_writer] * 2 + [self.replace_writer, self.set_clock, self.set_clock]
        self.faults += [self.add_writer, self.retire_writer, self.lose_writer, self.kill_retiring]

    def after(self, least, most, call, *words):
        when = time.monotonic() + self.chance.uniform(least, most)
        heapq.heappush(self.later, (when, next(self.places), lambda: call(*words)))

    def repair(self, at_once=False):
        """Makes the calls whose time has come, or all."""
        while self.later and (at_once or self.later[0][0] <= time.monotonic()):
            heapq.heappop(self.later)[2]()

    def make(self):
        """Makes a fault that is possible now, and returns its text."""
        for fault in self.chance.sample(self.faults, len(self.faults)):
            text = fault()
            if text:
                self.counts[fault.__name__] = self.counts.get(fault.__name__, 0) + 1
                return text
        return "no fault is possible"

    # ---- Members of the cluster: one at a time, so that two are left ----

    def choose_member(self):
        leader = self.programs.cluster.leader()
        member = self.chance.choice([leader if leader is not None else 0, self.chance.randrange(MEMBERS)])
        self.member_down = member
        return member, f"member {member}" + (", the leader" if member == leader else "")

    def kill_member(self):
        if self.member_down is not None:
            return None
        member, text = self.choose_member()
        self.programs.cluster.kill(member)
        self.after(1, 4, self.start_member, member)
        return f"kill -9 {text}"

    def start_member(self, member):
        self.programs.cluster.start(member, "existing")
        self.await_member(member)

    def await_member(self, member):
        """Waits until the member takes part again."""
        if (self.programs.cluster.status(member) or {}).get("leader"):
            self.member_down = None
        else:
            self.after(0.2, 0.2, self.await_member, member)

    def freeze_member(self):
        """A member that stands still: its connections stay open, and nothing comes."""
        if self.member_down is not None:
            return None
        member, text = self.choose_member()
        self.programs.cluster.running[member].send_signal(signal.SIGSTOP)
        self.after(2, 6, self.thaw_member, member)
        return f"{text}, stands still"

    def thaw_member(self, member):
        self.programs.cluster.running[member].send_signal(signal.SIGCONT)
        self.await_member(member)

    def kill_all(self):
        """All at once, as if the power failed. Of the members, the kernel still writes what it has."""
        if self.member_down is not None or self.later:
            return None
        programs = self.programs
        for cluster in programs.clusters:
            for member in list(cluster.running):
                cluster.kill(member)
        names, writers = list(programs.replicas), list(programs.writers)
        for name in names:
            programs.kill_replica(name)
            if programs.power:
                programs.fail_power(name)
        for name in writers:
            programs.kill_writer(name)
        programs.coordinator.kill()
        for cluster in programs.clusters:
            cluster.start_all("existing")
        programs.coordinator = programs.start_coordinator()
        for name in names:
            programs.start_replica(name)
        for name in writers:
            programs.start_writer(name)
        return "kill -9 all members, replicas, writers and the coordinator"

    # ---- Replicas ----

    def kill_replica(self):
        ready = self.programs.answering()
        if len(ready) < 2:
            return None
        name = self.chance.choice(list(ready))
        self.programs.kill_replica(name)
        self.after(0.2, 5, self.programs.start_replica, name)
        return f"kill -9 replica {name}"

    def damage_replica(self):
        """The newest checkpoint of a replica is damaged: it goes on from the one before, or from that of another."""
        if len(self.programs.answering()) < 3:
            return None
        name = self.chance.choice(list(self.programs.replicas))
        self.programs.kill_replica(name)
        for path in sorted((self.programs.folder / name).rglob("*.checkpoint"))[-1:]:
            content = bytearray(path.read_bytes())
            content[self.chance.randrange(4, len(content))] ^= 1  # not its version: then the replica refuses to start
            path.write_bytes(content)
        self.after(0.2, 2, self.programs.start_replica, name)
        return f"kill -9 replica {name}, and its newest checkpoint is damaged"

    def empty_replica(self):
        """A replica loses its disk: it goes on from the checkpoint of another one."""
        if len(self.programs.answering()) < 3:
            return None
        name = self.chance.choice(list(self.programs.replicas))
        self.programs.kill_replica(name)
        shutil.rmtree(self.programs.folder / name)
        shutil.rmtree(self.programs.shadow(name), ignore_errors=True)
        self.after(0.2, 2, self.programs.start_replica, name)
        return f"kill -9 replica {name}, and its disk is empty"

    def fail_power(self):
        """A replica's machine loses its power, and with it what was not synchronised."""
        ready = self.programs.answering()
        if len(ready) < 2 or not self.programs.power:
            return None
        name = self.chance.choice(list(ready))
        self.programs.kill_replica(name)
        lost = self.programs.fail_power(name)
        self.after(0.2, 5, self.programs.start_replica, name)
        return f"the power of replica {name} fails, and {lost} files are other than they were"

    # ---- The coordinator ----

    def kill_coordinator(self):
        if not self.programs.coordinator:
            return None
        self.programs.coordinator.kill()
        self.programs.coordinator = None
        self.after(0.2, 2, self.start_coordinator)
        return "kill -9 the coordinator"

    def start_coordinator(self):
        self.programs.coordinator = self.programs.start_coordinator()

    def replace_coordinator(self):
        if not self.programs.coordinator or "node" not in self.programs.coordinator.numbers:
            return None  # the one that takes the link over last would be the first one
        self.programs.expect_end(self.programs.coordinator, 3)
        self.start_coordinator()
        return "a second coordinator takes over"

    # ---- Writers ----

    def choose_writer(self):
        """Returns the name of a writer that has written, or None."""
        names = [name for name, writer in self.programs.writers.items() if "next" in writer.numbers]
        return self.chance.choice(names) if names else None

    def kill_writer(self):
        name = self.choose_writer()
        if name is None:
            return None
        self.programs.kill_writer(name)
        self.after(0.2, 3, self.programs.start_writer, name)
        return f"kill -9 writer {name}"

    def replace_writer(self):
        """A writer stands still, and a second process of its name takes over. When the first goes on, it is fenced."""
        name = self.choose_writer()
        if name is None:
            return None
        first = self.programs.writers.pop(name)
        first.process.send_signal(signal.SIGSTOP)
        self.programs.expect_end(first, 3)
        self.programs.start_writer(name)
        self.after(0, 3, first.process.send_signal, signal.SIGCONT)
        return f"writer {name} stands still, and a second one takes over"

    def add_writer(self):
        if len(self.programs.writers) >= MOST_WRITERS:
            return None
        name = f"w{next(self.names)}"
        self.programs.start_writer(name)
        return f"writer {name} joins"

    def retire_writer(self):
        name = self.choose_writer()
        if name is None or len(self.programs.writers) <= LEAST_WRITERS:
            return None
        self.programs.retire_writer(name)
        return f"writer {name} retires"

    def lose_writer(self):
        """A writer is lost for good: the coordinator is asked to retire its node."""
        name = self.choose_writer()
        if name is None or len(self.programs.writers) <= LEAST_WRITERS:
            return None
        self.programs.kill_writer(name)
        self.ask_to_retire(name)
        return f"writer {name} is lost"

    def ask_to_retire(self, name):
        Etcd(self.programs.cluster.addresses).transact([], [put(LOST + name.encode(), b"")])

    def kill_retiring(self):
        """A writer is killed while it retires. What it has decided is done by the coordinator; else it is lost."""
        name = self.choose_writer()
        if name is None or len(self.programs.writers) <= LEAST_WRITERS:
            return None
        writer = self.programs.writers[name]
        writer.say("retire")
        time.sleep(self.chance.uniform(0, 0.3))
        self.programs.kill_writer(name)
        etcd = Etcd(self.programs.cluster.addresses)
        if etcd.get(retires_key(writer.numbers["node"])):
            return f"writer {name} is killed while it retires"
        if etcd.get(NODE + name.encode()):
            self.ask_to_retire(name)
            return f"writer {name} is lost before it retires"
        return f"writer {name} retires, and is killed"

    def set_clock(self):
        """A writer's clock jumps by an hour, and is right again after a while."""
        name = self.choose_writer()
        if name is None:
            return None
        writer, jump = self.programs.writers[name], self.chance.choice([HOUR, -HOUR])
        self.say(writer, f"clock {jump}")
        self.after(2, 5, self.say, writer, "clock 0")
        return f"the clock of writer {name} is set {'forward' if jump > 0 else 'back'} by an hour"

    def say(self, writer, line):
        try:
            writer.say(line)
        except (OSError, ValueError):
            pass  # it was killed or replaced
