"""Numbers in the text format of Prometheus, version 0.0.4."""

import collections
import os
import threading
import time
from typing import NamedTuple

STARTED = time.time()
WINDOW = 10.0  # seconds over which a rate is taken


class Family(NamedTuple):
    """Samples of one name: each has its labels and its number. `kind` is `gauge` or `counter`."""

    name: str
    kind: str
    help: str
    samples: list


def gauge(name, help, value):
    """Returns a family of one number, or of none where it is not known."""
    return Family(name, "gauge", help, [] if value is None else [({}, value)])


def gauges(name, help, samples):
    return Family(name, "gauge", help, samples)


def counter(name, help, value):
    return Family(name, "counter", help, [({}, value)])


# ---- Text ----


def escaped(text):
    return text.replace("\\", "\\\\").replace("\n", "\\n")


def label_text(label, value):
    text = escaped(str(value)).replace('"', '\\"')
    return f'{label}="{text}"'


def number_text(value):
    return str(int(value)) if isinstance(value, (bool, int)) else repr(float(value))


def sample_text(name, labels, value):
    pairs = ",".join(label_text(label, text) for label, text in labels.items())
    return f"{name}{{{pairs}}} {number_text(value)}" if pairs else f"{name} {number_text(value)}"


def text_of(families):
    """Returns the text that has these families. One without samples has its help and its type alone."""
    lines = []
    for family in families:
        lines += [f"# HELP {family.name} {escaped(family.help)}", f"# TYPE {family.name} {family.kind}"]
        lines += [sample_text(family.name, labels, value) for labels, value in family.samples]
    return "\n".join(lines) + "\n"


# ---- Numbers that a program keeps ----


class Counters:
    """Numbers that only rise, from any thread: by name and labels."""

    def __init__(self):
        self.lock, self.values = threading.Lock(), collections.Counter()

    def add(self, name, amount=1, /, **labels):
        with self.lock:
            self.values[name, tuple(sorted(labels.items()))] += amount

    def of(self, name):
        """Returns the number of a name without labels."""
        with self.lock:
            return self.values[name, ()]

    def family(self, name, exported, help):
        """Returns the family of a name, under its name for others: a sample for each set of labels that was counted."""
        with self.lock:
            samples = [(dict(labels), value) for (known, labels), value in sorted(self.values.items()) if known == name]
        return Family(exported, "counter", help, samples)


class Rate:
    """How much a number rose in a second, over the last seconds."""

    def __init__(self, clock=time.monotonic):
        self.clock, self.seen = clock, collections.deque()

    def note(self, value):
        now = self.clock()
        while self.seen and (now - self.seen[0][0] > WINDOW or value < self.seen[-1][1]):
            self.seen.popleft()  # too old; or the store began again, further back
        self.seen.append((now, value))

    def a_second(self):
        """Returns the rate, or None until there are two readings."""
        if len(self.seen) < 2:
            return None
        (first, low), (last, high) = self.seen[0], self.seen[-1]
        return (high - low) / (last - first) if last > first else None


def process_families():
    """What Prometheus knows of each process by these names."""
    with open("/proc/self/statm") as file:
        resident = int(file.read().split()[1]) * os.sysconf("SC_PAGE_SIZE")
    yield gauge("process_start_time_seconds", "When the process started, in Unix time.", STARTED)
    yield gauge("process_resident_memory_bytes", "Memory of the process.", resident)
    times = os.times()
    yield counter("process_cpu_seconds_total", "Processor time of the process.", times.user + times.system)
