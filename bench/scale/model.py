"""The model: nodes that report to ranges, which processes keep; and its simulation.

Each node has a link to each range. A report raises the head of its link alone. The floor of a range is the least head
of its nodes, and the cut is the least floor. What a simulation yields is the cut at every moment.

No event is a link's. All links from one node to the ranges of one process have the same head at each moment where one
message reports for them: so one event is exact for all of them. Where each link has a message of its own, only the last
of these messages matters to the least head, and the delay of the last of k independent messages is drawn at once, from
the k-th power of their law; the process's work on all k is counted when the last came. Reports of a link are accepted
in order: that is a running maximum over the reports of a link, and commutes with the maximum over links.
"""

import dataclasses
import functools
import heapq
import math
import random

from costs import Costs

BELOW_ONE = math.nextafter(1, 0)
NEVER = math.inf  # the head of a node that has retired: it no longer counts


@dataclasses.dataclass(frozen=True)
class Network:
    """How long a message is on its way, in seconds: `base`, and an exponential jitter of this mean, which is cut off at
    `resend`. A message is lost with the chance `loss`, and is sent again after `resend`."""

    base: float = 0.5e-3
    jitter: float = 0.5e-3
    loss: float = 1e-4
    resend: float = 0.2

    @functools.cached_property
    def cut_off(self):
        """The share of the jitter's law below `resend`, negative."""
        return math.expm1(-self.resend / self.jitter) if self.jitter else -1.0

    def tail(self, delay):
        """Returns the chance that a message takes longer."""
        if delay < self.base:
            return 1.0
        losses, rest = divmod(delay - self.base, self.resend)
        come = math.expm1(-rest / self.jitter) / self.cut_off if self.jitter else 1.0
        return self.loss**losses * (1 - (1 - self.loss) * come)

    def passed_by(self, chance):
        """Returns the delay that a message passes with this chance, above 0 and at most 1."""
        delay = self.base
        if chance <= self.loss:
            losses = int(math.log(chance) / math.log(self.loss))
            delay += losses * self.resend
            chance /= self.loss**losses
        come = min((1 - chance) / (1 - self.loss), BELOW_ONE)
        return delay - self.jitter * math.log1p(come * self.cut_off)

    def longest(self, chance, many):
        """Returns the delay that the slowest of so many messages does not pass with this chance, above 0."""
        return self.passed_by(-math.expm1(math.log(chance) / many) or 1e-300)


@dataclasses.dataclass(frozen=True)
class Setting:
    """Times are in seconds. `ranges` are divided evenly among the processes."""

    ranges: int = 100
    nodes: int = 16
    processes: int = 1
    interval: float = 0.1  # from one report of a node to its next
    batched: bool = True  # one message for all ranges of a process, otherwise one for each link
    network: Network = Network()
    refused: bool = False  # a report that overtakes another is refused and sent again, otherwise the receiver holds it
    slow: float = 0.0  # how much longer the reports of node 0 take, or how far its clock is behind
    lost_at: float = NEVER  # when node 0 is lost
    noticed_after: float = 10.0  # how long after that another one retires it, on each link
    keys: int = 10_000  # of a range
    writes: float = 10.0  # of a range, each second
    retention: float = 60.0  # how far below the cut reads stay possible
    vacuum_every: float = 60.0  # of each range
    checkpoint_every: float = 600.0
    part: int = 1_024  # keys that a vacuum reads in one piece of work
    costs: Costs = Costs()

    @property
    def of_process(self):
        """The ranges of a process."""
        return self.ranges // self.processes

    @property
    def streams(self):
        """The messages of one report of a node."""
        return self.processes if self.batched else self.ranges

    @property
    def service(self):
        """Seconds of a process for one report of a node."""
        messages = 1 if self.batched else self.of_process
        return messages * self.costs.message + self.of_process * self.costs.accept(self.nodes)

    @property
    def upkeep(self):
        """Vacuums in parts, and checkpoints, in a process: how long a piece of work takes, and how often one comes. A
        checkpoint is one piece, since it must be of one state of its store."""
        part = min(self.part, self.keys)
        vacuums = part * self.costs.vacuum, self.vacuum_every / self.of_process * part / self.keys
        return [vacuums, (self.keys * self.costs.checkpoint, self.checkpoint_every / self.of_process)]

    @property
    def free(self):
        """The share of a process's processor that writes leave."""
        return 1 - self.of_process * self.writes * self.costs.write


class Run:
    """What a simulation of so many reports of each node yields.

    `steps` are the moments at which the cut changes, with the cut; `busy` is the share of a processor that a process
    took, the greatest of all; `again` is how often a report was refused and sent again."""

    def __init__(self, setting, reports, seed):
        self.setting, self.again = setting, 0
        chance = random.Random(seed).random
        phases = [chance() * setting.interval for _ in range(setting.nodes)]
        plan = [[(phase + turn * setting.interval,) * 2 for turn in range(reports)] for phase in phases]
        if setting.lost_at < NEVER:
            plan[0] = [send for send in plan[0] if send[0] < setting.lost_at]
            plan[0].append((setting.lost_at + setting.noticed_after, NEVER))
        self.seconds = reports * setting.interval
        finished, most = [[0.0] * len(sends) for sends in plan], 0.0
        for _ in range(setting.processes):
            most = max(most, self.serve(plan, finished, chance))
        self.busy = most / self.seconds + 1 - setting.free
        self.steps = steps(plan, finished, self.seconds)

    def arrivals(self, plan, chance):
        """Yields when each report can be accepted by one process: its node, its number, and the moment."""
        network, trip = self.setting.network, 2 * (self.setting.network.base + self.setting.network.jitter)
        links = 1 if self.setting.batched else self.setting.of_process
        refused, passed_by, longest = self.setting.refused, network.passed_by, network.longest
        for node, sends in enumerate(plan):
            before, slow = 0.0, 0.0 if node else self.setting.slow
            for number, (sent, _) in enumerate(sends):
                draw = 1.0 - chance()
                at = sent + slow + (passed_by(draw) if links == 1 else longest(draw, links))
                if at < before:
                    trips = math.ceil((before - at) / trip)
                    self.again += trips * refused
                    at = at + trips * trip if refused else before
                before = at
                yield at, node, number

    def serve(self, plan, finished, chance):
        """Lets one process accept all reports as they come, between pieces of its upkeep. Notes when each report has
        been accepted by all processes so far, and returns the seconds that this one worked."""
        free = max(self.setting.free, 1e-9)
        work = self.setting.service / free
        jobs = list(self.arrivals(plan, chance))
        for length, every in self.setting.upkeep:
            start = chance() * every
            pieces = math.ceil((self.seconds - start) / every)
            jobs += [(start + piece * every, -1, length / free) for piece in range(pieces)]
        jobs.sort()
        idle_from = worked = 0.0
        for at, node, number in jobs:
            took = work if node >= 0 else number
            if at > idle_from:
                idle_from = at
            idle_from += took
            worked += took
            if node >= 0 and idle_from > finished[node][number]:
                finished[node][number] = idle_from
        return worked * free

    def ages(self, start):
        """Returns the ages of the cut from a moment on, as pieces of time, each from its least age to its greatest:
        between two steps the age rises as the time does. Nothing is said of the time after the last report."""
        times = [at for at, _ in self.steps[1:]] + [self.seconds]
        pieces = ((max(at, start), till, cut) for (at, cut), till in zip(self.steps, times))
        return [(at - cut, till - cut) for at, till, cut in pieces if at < till]


def steps(plan, finished, seconds):
    """Returns the cut's steps: the least of the nodes' heads, when each report is on all links."""
    events = sorted((at, node, sends[number][1]) for node, sends in enumerate(plan)
                    for number, at in enumerate(finished[node]) if at <= seconds)
    heads = [0.0] * len(plan)
    least = [(0.0, node) for node in range(len(plan))]
    found = [(0.0, 0.0)]
    for at, node, head in events:
        heads[node] = head
        while least[0][0] < heads[least[0][1]]:
            heapq.heapreplace(least, (heads[least[0][1]], least[0][1]))
        if least[0][0] > found[-1][1]:
            found.append((at, least[0][0]))
    return found


def quantiles(pieces, shares):
    """Returns the ages that are passed in all but these shares of the time, the shares ascending: over all moments."""
    turns = sorted([(low, 1) for low, _ in pieces] + [(high, -1) for _, high in pieces])
    total = sum(high - low for low, high in pieces)
    wanted, answers = list(shares), []
    many, seen, before = 0, 0.0, turns[0][0]
    for age, turn in turns:
        while wanted and many and seen + many * (age - before) >= wanted[0] * total:
            answers.append(before + (wanted.pop(0) * total - seen) / many)
        seen, before, many = seen + many * (age - before), age, many + turn
    return answers + [turns[-1][0]] * len(wanted)
