"""What things cost: as docs/performance.md has it, or as calibrate.c measures it on this machine."""

import dataclasses


@dataclasses.dataclass(frozen=True)
class Costs:
    """Seconds of one processor, and bytes. Each is of one report, write, message, key or row."""

    issue: float = 2e-9  # a node makes a report
    accept_few: float = 0.1e-6  # a store of at most 64 nodes accepts a report, and is asked for its floor
    accept_many: float = 0.2e-6  # the same with 1,000 nodes
    write: float = 1.94e-6  # a store accepts a write: a million keys of four versions
    vacuum: float = 0.762e-6  # a vacuum, of each key
    checkpoint: float = 0.83e-6  # a checkpoint and its bytes, of each row
    message: float = 10e-6  # a message is sent, or is received, with the system's part: assumed, not measured
    header: int = 66  # bytes of a message around what it says: Ethernet, IP and TCP
    item: int = 20  # bytes of a report: docs/formats.md
    link: int = 40  # memory of a link in its store: what comes next, and its head
    row: int = 118  # memory of a row of keys and values of 8 bytes, two versions of a key

    def accept(self, nodes):
        """Seconds to accept one report in a store of so many nodes: a straight line between the two measures."""
        beyond = min(max(nodes - 64, 0), 936) / 936
        return self.accept_few + (self.accept_many - self.accept_few) * beyond


def read(path):
    """Returns the costs of a file, which has lines of a name and a number as calibrate.c prints them."""
    fields = {field.name: field.type for field in dataclasses.fields(Costs)}
    words = [line.split() for line in open(path)]
    return Costs(**{name: fields[name](number) for name, number in words})
