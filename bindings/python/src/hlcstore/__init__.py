"""A multi-version store that several nodes feed, and the nodes' clocks.

>>> from hlcstore import Node, Store
>>> node = Node(0)
>>> with Store(1) as store:
...     store.accept(node.write(5, b"city", b"Lyon"))
...     with store.snapshot() as snapshot:
...         print(snapshot[b"city"])
b'Lyon'

Any thread may call anything, but an iterator belongs to one thread at a time. After a fork of a process with threads
the child must make no call: another thread may have been in the middle of one. A refusal of the library is an exception
below `Error`. A number that is negative or has too many bits is an OverflowError.
"""

from ._errors import (
    AboveFloor,
    AllRetired,
    BadBytes,
    BadKey,
    BadLine,
    BadNodeCount,
    BelowFloor,
    BelowHorizon,
    Changed,
    Closed,
    CounterFull,
    Error,
    KeyTwice,
    NoCheckpoint,
    NoIncrement,
    NoMemory,
    NoNode,
    NoSnapshot,
    NoSuchNode,
    NotFewest,
    NotLater,
    NotNext,
    NotParts,
    NotShown,
    NoValue,
    NoWrites,
    NumbersSpent,
    ReadingTooLarge,
    Retired,
    StampNotRising,
    TooManyNodes,
    TooManySnapshots,
    TooManyWrites,
    ValueTooLong,
)
from ._native import VERSION as __version__
from ._native import (
    Batch,
    Item,
    Node,
    Snapshot,
    Store,
    apply_increment,
    check,
    error_name,
    error_text,
    join_record,
    merge_checkpoints,
    split_checkpoint,
    threshold_record,
    version,
)
from ._results import Applied, Certified, Checked, Link, Sizes, Vacuum, VacuumPart, Version
from ._stamp import Stamp, required

__all__ = [
    "AboveFloor",
    "AllRetired",
    "Applied",
    "BadBytes",
    "BadKey",
    "BadLine",
    "BadNodeCount",
    "Batch",
    "BelowFloor",
    "BelowHorizon",
    "Certified",
    "Changed",
    "Checked",
    "Closed",
    "CounterFull",
    "Error",
    "Item",
    "KeyTwice",
    "Link",
    "NoCheckpoint",
    "NoIncrement",
    "NoMemory",
    "NoNode",
    "NoSnapshot",
    "NoSuchNode",
    "NoValue",
    "NoWrites",
    "Node",
    "NotFewest",
    "NotLater",
    "NotNext",
    "NotParts",
    "NotShown",
    "NumbersSpent",
    "ReadingTooLarge",
    "Retired",
    "Sizes",
    "Snapshot",
    "Stamp",
    "StampNotRising",
    "Store",
    "TooManyNodes",
    "TooManySnapshots",
    "TooManyWrites",
    "Vacuum",
    "VacuumPart",
    "ValueTooLong",
    "Version",
    "__version__",
    "apply_increment",
    "check",
    "error_name",
    "error_text",
    "join_record",
    "merge_checkpoints",
    "split",
    "split_checkpoint",
    "stamp",
    "threshold_record",
    "version",
]


def stamp(physical: int, counter: int = 0) -> Stamp:
    """Return the stamp with this physical part, below 2^48, and this counter, below 2^16."""
    return Stamp(physical, counter)


def split(stamp: Stamp) -> tuple[int, int]:
    """Return the physical part and the counter of a stamp."""
    whole = required(stamp)
    return whole.physical, whole.counter
