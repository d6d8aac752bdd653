"""What calls return that have several numbers to return."""

from collections.abc import Callable
from typing import Any, NamedTuple, get_type_hints

from ._stamp import Stamp, stamp_of


class Vacuum(NamedTuple):
    """What a vacuum left up to a stamp, and what it dropped there."""

    stamp: Stamp
    """The stamp: that of the call, or the floor."""
    kept: int
    """How many rows are left up to it."""
    cost: int
    """What these cost: for each the length of its key and of its value, and 10."""
    dropped: int
    """How many rows were dropped."""


class VacuumPart(NamedTuple):
    """What a part of a vacuum left of the rows of its keys up to a stamp, and what it dropped there."""

    stamp: Stamp
    """The stamp of the call."""
    kept: int
    """How many rows of these keys are left up to it."""
    cost: int
    """What these cost: for each the length of its key and of its value, and 10."""
    dropped: int
    """How many rows were dropped."""
    next: bytes | None
    """The key after which the next part goes on, or None, only where no key is left."""


class Certified(NamedTuple):
    """The certificate of the rows up to a stamp: no rows with the same answers are fewer, or cost less."""

    kept: int
    """How many rows there are."""
    cost: int
    """What these cost: for each the length of its key and of its value, and 10."""
    certificate: bytes
    """The text of the certificate, for `check` and `hlcstore check`."""


class Version(NamedTuple):
    """A stored row of a key."""

    stamp: Stamp
    """The stamp of the write, or of the deletion."""
    node: int
    """The number of the node that issued it."""
    value: bytes | None
    """The value, or None in a deletion."""


class Applied(NamedTuple):
    """How far the records of a log were applied."""

    records: int
    """How many were applied, or had been before."""
    threshold: Stamp
    """The greatest retention threshold among them, or 0."""


class Link(NamedTuple):
    """What a store accepted from a node."""

    next: int
    """The number of the node's next item."""
    head: Stamp
    """The stamp of its last accepted item, or of its start."""
    retired: bool
    """Whether its retirement was accepted."""


class Sizes(NamedTuple):
    """How much a store contains. A number is 2^64 - 1 where it would be greater."""

    rows: int
    """How many rows are stored."""
    keys: int
    """How many keys have rows."""
    key_bytes: int
    """The bytes of these keys, each counted once."""
    value_bytes: int
    """The bytes of the values of all rows. A deletion has none."""


class Checked(NamedTuple):
    """What a certificate shows: no rows with the same answers are fewer, or cost less."""

    rows: int
    """How many rows."""
    cost: int
    """What they cost."""


class Status(NamedTuple):
    """How an `hlcstore.file.File` is."""

    failure: int
    """The code of the last answer from 200 on that was no mistake of the caller, or 0."""
    sqlite: int
    """SQLite's extended result code of it, or 0."""
    word: int
    """Its word, or 0."""
    writes: int
    """0 where the file takes writes; else the code of `Unknown`, where the next write first finds out, or `Sealed`."""
    damaged: int
    """How many damaged checkpoints opening passed over."""
    applied: int
    """How many log records behind the checkpoint opening applied."""
    aside: int
    """How many log rows opening moved aside."""
    place: int
    """The place of the last log row on disk, or 0."""
    checkpoint_place: int
    """The place that the newest checkpoint has."""
    log_bytes: int
    """How many bytes of records are behind it."""
    clock: Stamp
    """No stamp above this one was accepted or returned."""
    waiting: int
    """How many batches are on disk, but not accepted, after `Later`."""
    background: int
    """The code of the last checkpoint in the background, or 0."""
    created: bool
    """Whether opening made the file."""


def _is_stamp_of(kind: type) -> list[bool]:
    """Of each field of a class whether it is a stamp."""
    return [annotation is Stamp for annotation in get_type_hints(kind).values()]


_CLASSES: dict[str, tuple[Callable[..., tuple[Any, ...]], list[bool]]] = {
    kind.__name__: (kind, _is_stamp_of(kind))
    for kind in (Vacuum, VacuumPart, Certified, Version, Applied, Link, Sizes, Checked, Status)
}


def result(name: str, values: tuple[Any, ...]) -> tuple[Any, ...]:
    """Return a result of the class of this name, in whose values stamps are numbers. The extensions call it."""
    kind, is_stamp = _CLASSES[name]
    return kind(*(stamp_of(value) if is_one else value for value, is_one in zip(values, is_stamp, strict=True)))
