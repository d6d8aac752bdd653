"""A durable store in one file, which is read as it was at a past stamp.

>>> from hlcstore.file import File
>>> with File("towns.hlc") as file:
...     before = file.write(b"capital", b"Lyon")
...     file.write(b"capital", b"Paris")
...     print(file.snapshot(before)[b"capital"])
b'Lyon'

A call that returns has kept its promise: see `Promise`. After an exception nothing of the call is visible or on disk,
except where `Unknown` and `Later` say otherwise. Any thread may call anything. Each call lets go of the interpreter:
reads wait for no disk, writes wait for each other. After a fork the child must make no call.
"""

import collections.abc
from collections.abc import Iterator
from datetime import timedelta
from enum import IntEnum
from types import TracebackType
from typing import TYPE_CHECKING, Self, TypeVar, final, overload

from ._errors import REFUSALS, Closed, Error, NoSnapshot, NoValue
from ._owner import Owner
from ._results import Status, Vacuum
from ._stamp import Stamp

try:
    from . import _file
    from ._file import error_name, error_text
except ImportError as _missing:
    raise ImportError(
        "hlcstore.file needs libhlcstore-file, SQLite and zlib: install them, and then the package again"
        f" ({_missing})"
    ) from _missing

if TYPE_CHECKING:
    from _typeshed import ReadableBuffer as _ReadableBuffer

    _Pair = tuple[_ReadableBuffer, _ReadableBuffer | None]
    _Pairs = collections.abc.Iterable[_Pair] | collections.abc.Mapping[bytes, bytes | None]

__all__ = [
    "BadOption",
    "Batch",
    "CannotOpen",
    "Corrupt",
    "DamagedLog",
    "File",
    "FileError",
    "Full",
    "InUse",
    "Io",
    "Later",
    "Newer",
    "NoStamp",
    "NoWholeCheckpoint",
    "NotOurs",
    "Promise",
    "Sealed",
    "Snapshot",
    "TooLong",
    "Unknown",
    "error_name",
    "error_text",
]

_Default = TypeVar("_Default")


# bindings/refusals makes the classes below this one from include/refusals.toml.
class FileError(Error):
    """An answer of a file that a store in memory does not have."""

    sqlite: int = 0
    """SQLite's extended result code, where opening was refused; or 0. Of other calls `File.status` has it."""

    def _text(self) -> str:
        return error_text(self.code)


class InUse(FileError):
    """Another process, or this one, has the file open."""

    code = 200


class CannotOpen(FileError):
    """The path, or the lock file beside it, cannot be opened or made; or the file has several hard links."""

    code = 201


class NotOurs(FileError):
    """Another application's file, or none of SQLite. It is unchanged."""

    code = 202


class Newer(FileError):
    """The file is of a later version of the library, whose schema is the word. It is unchanged."""

    code = 203


class BadOption(FileError):
    """An option or a promise is out of range."""

    code = 204


class Full(FileError):
    """The disk is full."""

    code = 205


class Io(FileError):
    """The disk failed."""

    code = 206


class Corrupt(FileError):
    """SQLite finds its own structure damaged; or the file is missing or empty beside its write-ahead log."""

    code = 207


class DamagedLog(FileError):
    """A log row is missing, swapped or altered: that at the place of the word."""

    code = 208


class NoWholeCheckpoint(FileError):
    """No checkpoint is whole, and the log does not begin at the first record. The word is how many are damaged."""

    code = 209


class Unknown(FileError):
    """Whether the batch is on disk cannot be known before the file is opened again. It is not visible."""

    code = 210


class Sealed(FileError):
    """The file takes no writes until it is opened again. Reads go on."""

    code = 211


class Later(FileError):
    """The batch is on disk, but there was no memory for it: the next write accepts it first. Do not append it again."""

    code = 212


class TooLong(FileError):
    """The batch would have more than 64 MiB."""

    code = 213


class NoStamp(FileError):
    """The system's clock reads less than the age of the vacuum."""

    code = 214


REFUSALS.update((refusal.code, refusal) for refusal in FileError.__subclasses__())


class Promise(IntEnum):
    """When a call that writes returns."""

    DEFAULT = 0
    """As the file's option says, and that by default as SYNCED."""
    SYNCED = 1
    """The batch is synced, in a transaction of its own."""
    GROUP = 2
    """It is synced, in a transaction with batches of other threads."""
    WRITTEN = 3
    """It is written, not synced: it outlives the process. A loss of power may lose it with all batches behind it."""


# How many bytes of pairs an iterator asks for: at first, and then. The second is more than any pair has.
_FIRST_ROOM, _ROOM = 4096, 1 << 17


@final
class Snapshot(Owner):
    """An open snapshot, which answers like a mapping from keys to values, as `hlcstore.Snapshot` does.

    It closes itself, and it closes with its file.
    """

    __slots__ = ("_file", "_id", "_stamp")

    _id: int
    _stamp: Stamp

    def __init__(self, file: "File", at: Stamp | None = None) -> None:
        self._file = file
        file._open_snapshot(self, at)

    @property
    def id(self) -> int:
        """Its number, which no other snapshot gets while the file is open."""
        return self._id

    @property
    def stamp(self) -> Stamp:
        """The stamp at which it was opened."""
        return self._stamp

    def close(self) -> None:
        """Close the snapshot."""
        self._file._close_snapshot(self._id)

    def __del__(self) -> None:
        if hasattr(self, "_id"):
            self.close()

    def __enter__(self) -> Self:
        return self

    def __exit__(self, *exception: type[BaseException] | BaseException | TracebackType | None) -> None:
        self.close()

    def __repr__(self) -> str:
        return f"<Snapshot {self._id} at {self._stamp}>"

    def __getitem__(self, key: "_ReadableBuffer", /) -> bytes:
        value = self._file._read(self._id, key)
        if value is None:
            raise NoValue
        return value

    @overload
    def get(self, key: "_ReadableBuffer", default: None = None, /) -> bytes | None: ...
    @overload
    def get(self, key: "_ReadableBuffer", default: _Default, /) -> bytes | _Default: ...
    def get(self, key: "_ReadableBuffer", default: _Default | None = None, /) -> bytes | _Default | None:
        """Return the value of a key, or the default if it has none."""
        value = self._file._read(self._id, key)
        return default if value is None else value

    def __contains__(self, key: "_ReadableBuffer", /) -> bool:
        return self._file._read(self._id, key) is not None

    def __len__(self) -> int:
        return self.count()

    def count(self, start: "_ReadableBuffer" = b"", end: "_ReadableBuffer" = b"") -> int:
        """Return how many keys there are from start on and below end. No end means all from start on."""
        return self._file._count(self._id, start, end)

    def __iter__(self) -> Iterator[bytes]:
        return self.keys()

    def __reversed__(self) -> Iterator[bytes]:
        return self.keys(reverse=True)

    def keys(
        self, start: "_ReadableBuffer" = b"", end: "_ReadableBuffer" = b"", *, reverse: bool = False
    ) -> Iterator[bytes]:
        """Iterate over such keys, in byte order. In reverse the last key comes first."""
        return (key for key, _ in self.items(start, end, reverse=reverse))

    def items(
        self, start: "_ReadableBuffer" = b"", end: "_ReadableBuffer" = b"", *, reverse: bool = False
    ) -> Iterator[tuple[bytes, bytes]]:
        """Iterate over such keys and their values. They are read in pieces, so that writes wait for a piece at most."""
        return self._pairs(bytes(memoryview(start)), bytes(memoryview(end)), reverse)

    def values(
        self, start: "_ReadableBuffer" = b"", end: "_ReadableBuffer" = b"", *, reverse: bool = False
    ) -> Iterator[bytes]:
        """Iterate over the values of such keys, in the order of these."""
        return (value for _, value in self.items(start, end, reverse=reverse))

    def _pairs(self, start: bytes, end: bytes, reverse: bool) -> Iterator[tuple[bytes, bytes]]:
        room, has_more = _FIRST_ROOM, True
        while has_more:
            pairs, has_more = self._file._scan(self._id, start, end, reverse, room)
            room = _ROOM
            yield from pairs
            if pairs and reverse:
                end = pairs[-1][0]
            elif pairs:
                start = pairs[-1][0] + b"\0"

    def changes(
        self, after: "Snapshot", start: "_ReadableBuffer" = b"", end: "_ReadableBuffer" = b""
    ) -> Iterator[tuple[bytes, bytes | None]]:
        """Iterate over such keys whose answers in another snapshot of the file differ, each with its value there, or
        None. Either snapshot may be the older one."""
        if not isinstance(after, Snapshot):
            raise TypeError(f"a Snapshot of a file is required, not {type(after)}")
        if after._file is not self._file:
            raise NoSnapshot
        return self._changes(after, bytes(memoryview(start)), bytes(memoryview(end)))

    def _changes(self, after: "Snapshot", start: bytes, end: bytes) -> Iterator[tuple[bytes, bytes | None]]:
        room, has_more = _FIRST_ROOM, True
        while has_more:
            changes, has_more = self._file._changes(self._id, after._id, start, end, room)
            room = _ROOM
            yield from changes
            if changes:
                start = changes[-1][0] + b"\0"

    def digest(self, start: "_ReadableBuffer" = b"", end: "_ReadableBuffer" = b"") -> bytes:
        """Return the SHA-256 of such keys and their values. Replicas compare it."""
        return self._file._digest(self._id, start, end)

    def last_below(self, key: "_ReadableBuffer" = b"") -> tuple[bytes, bytes] | None:
        """Return the last key below this one and its value, or None. No key means the last of all."""
        return next(self.items(end=key, reverse=True), None)

    def read_all(self, keys: "collections.abc.Iterable[_ReadableBuffer]", /) -> list[bytes | None]:
        """Return the values of keys, None for a key without one."""
        return [self.get(key) for key in keys]


@final
class Batch(Owner):
    """Writes and deletions that a with statement appends at its end; and none where it is left by an exception.

    After a crash all of it is in the file or none. Each write has its own stamp, so that a snapshot between two of them
    shows a part: for one stamp use `File.write_batch`. One thread at a time uses a batch."""

    stamp: Stamp | None
    """The stamp of the last of them, at which a snapshot has all; None before the end, and of an empty batch."""

    def __init__(self, file: "File", node: int, reading: int | None, promise: int) -> None:
        self._file, self._node, self._reading, self._promise = file, node, reading, promise
        self._pairs: list[tuple[bytes, bytes | None]] = []
        self.stamp = None

    def write(self, key: "_ReadableBuffer", value: "_ReadableBuffer") -> None:
        """Write a value to a key."""
        self._pairs.append((bytes(memoryview(key)), bytes(memoryview(value))))

    def delete(self, key: "_ReadableBuffer") -> None:
        """Delete a key's value."""
        self._pairs.append((bytes(memoryview(key)), None))

    def __len__(self) -> int:
        return len(self._pairs)

    def __enter__(self) -> Self:
        return self

    def __exit__(self, kind: type[BaseException] | None, error: BaseException | None, at: TracebackType | None) -> None:
        if kind is None and self._pairs:
            self.stamp = self._file.append(self._pairs, node=self._node, reading=self._reading, promise=self._promise)


@final
class File(_file.File):
    """An open file, which closes itself. In a with statement it is closed at the end.

    It is made where the path has none, but not with `must_exist`. With `keep_before_damage` a file whose log is damaged
    opens with what is before the damage. A new file has this many `nodes`, 1 to 64. `promise` is that of the calls that
    name none. GROUP waits `group_microseconds` for batches of other threads. A checkpoint is made in the background
    after `checkpoint_bytes` of log, 64 MiB by default.
    """

    def __enter__(self) -> Self:
        return self

    def __exit__(self, *exception: type[BaseException] | BaseException | TracebackType | None) -> None:
        self.close()

    def __repr__(self) -> str:
        try:
            floor, rows = self.floor, self.rows
        except Closed:
            return "<File, closed>"
        return f"<File, floor={floor}, rows={rows}>"

    def append(
        self,
        pairs: "_Pairs",
        *,
        node: int = 0,
        reading: int | None = None,
        promise: int = Promise.DEFAULT,
    ) -> Stamp:
        """Append writes, as pairs of a key and its value, and deletions, with None as the value: after a crash all of
        them are in the file or none. An empty batch does nothing.

        Each write has its own stamp. Return that of the last one, at which a snapshot has all of them; one between two
        of them shows a part. For one stamp use `write_batch`.
        """
        listed = pairs.items() if isinstance(pairs, collections.abc.Mapping) else pairs
        return super().append(listed, node=node, reading=reading, promise=promise)

    def write_batch(
        self,
        pairs: "_Pairs",
        *,
        node: int = 0,
        reading: int | None = None,
        promise: int = Promise.DEFAULT,
    ) -> Stamp:
        """Write 1 to 256 different keys, as pairs of a key and its value, or None for a deletion, at one stamp.

        Return the stamp: a snapshot, at whatever stamp, shows all of them or none.
        """
        listed = pairs.items() if isinstance(pairs, collections.abc.Mapping) else pairs
        return super().write_batch(listed, node=node, reading=reading, promise=promise)

    def batch(self, *, node: int = 0, reading: int | None = None, promise: int = Promise.DEFAULT) -> Batch:
        """Return an empty batch for a with statement, which appends it at its end, as `append` does."""
        return Batch(self, node, reading, promise)

    def snapshot(self, at: Stamp | None = None) -> Snapshot:
        """Open a snapshot at a stamp from the horizon to the floor, or at the floor."""
        return Snapshot(self, at)

    def vacuum(self, to: Stamp | None = None, *, older_than: timedelta | None = None) -> Vacuum:
        """Drop the rows up to a stamp that neither it nor an open snapshot below it needs, and return what is left.

        The stamp is `to`; or that of the system's clock so long ago, or the floor where that is lower. Without both it
        is the floor. No snapshot opens below it any more.
        """
        if to is not None and older_than is not None:
            raise TypeError("a vacuum goes to a stamp, or to an age")
        if older_than is not None:
            return self._vacuum_older(older_than // timedelta(milliseconds=1))
        return self._vacuum_to(self.floor if to is None else to)
