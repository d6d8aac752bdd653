"""Closed formulas beside the simulation: the law of the cut's age where processors are not the limit, a rule of thumb,
and what messages, processors and memory the reports take."""

import math

POINTS = 400  # of the integral over the moment at which a node reports


def chance_of_age(setting, age):
    """Returns the chance that the cut is at most so old, at a moment by chance.

    A node's least head is at most so old where the first report that it sent within this time came on all links, as did
    those before it. Reports are sent at a phase by chance, and delays are independent: so this is the mean over the
    phase of a product over reports, to the power of the messages of a report; and of all nodes, to the power of their
    number."""
    total = 0.0
    for point in range(POINTS):
        late = age - (point + 0.5) / POINTS * setting.interval
        logarithm = 0.0
        while late >= setting.network.base:
            tail = setting.network.tail(late)
            if tail * setting.streams < 1e-9:
                break
            logarithm += setting.streams * math.log1p(-tail) if tail < 1 else -math.inf
            late += setting.interval
        else:
            logarithm = -math.inf
        total += math.exp(logarithm)
    return (total / POINTS) ** setting.nodes


def age(setting, share):
    """Returns the age that the cut does not pass in this share of the time."""
    low, high = 0.0, setting.interval + setting.network.base + 1
    while chance_of_age(setting, high) < share:
        high *= 2
    while high - low > 1e-4 * high:
        middle = (low + high) / 2
        low, high = (middle, high) if chance_of_age(setting, middle) < share else (low, middle)
    return high


def rule(setting, share):
    """Returns the rule of thumb for the same age: one interval, and the delay that no report of an interval passes in
    this share of the intervals."""
    return setting.interval + setting.network.longest(share, setting.streams * setting.nodes)


def messages(setting):
    """Returns the messages that all nodes send in a second, with those that are sent again after a loss."""
    return setting.nodes * setting.streams / setting.interval / (1 - setting.network.loss)


def bytes_sent(setting):
    """Returns the bytes of these messages."""
    return messages(setting) * (setting.costs.header + setting.costs.item)


def process_share(setting):
    """Returns the share of one processor that a process takes: for reports, writes, vacuums and checkpoints."""
    reports = setting.nodes * setting.service / setting.interval
    return reports + 1 - setting.free + sum(length / every for length, every in setting.upkeep)


def node_share(setting):
    """Returns the share of one processor that a node takes for its reports."""
    sends = messages(setting) * setting.interval / setting.nodes * setting.costs.message
    return (sends + setting.ranges * setting.costs.issue) / setting.interval


def link_memory(setting):
    """Returns the bytes of a process's links."""
    return setting.of_process * setting.nodes * setting.costs.link


def rows_waiting(setting, age_of_cut):
    """Returns the rows of a range that a vacuum would drop or may drop later, just before its vacuum, if each write is
    to a key that has a version."""
    return setting.writes * (setting.retention + setting.vacuum_every + age_of_cut)

