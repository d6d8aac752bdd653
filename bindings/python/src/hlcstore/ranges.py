"""Several stores that share the keys, each with a lock of its own, and all are read at one stamp.

>>> from hlcstore.ranges import Division, Machine, Ranges
>>> division = Division.by_keys([b"m"])
>>> machine = Machine(division, 0)
>>> with Ranges(division, 1) as ranges:
...     stamp = ranges.write(machine, 10, b"apple", b"red")
...     stamp = ranges.write(machine, 11, b"plum", b"blue")
...     ranges.report_all(machine, 20)
...     with ranges.snapshot() as snapshot:
...         print(snapshot.stamp, dict(snapshot.items()))
20.0 {b'apple': b'red', b'plum': b'blue'}

A stamp at or below the floor of every store is a cut: all items at or below it that were issued, for whatever store,
were accepted, and so was all that happened before them on any machine. A cut stays one.

Any thread may call anything, but an iterator belongs to one thread at a time. A vacuum or a checkpoint of one store
keeps only the calls on that store waiting. Since the interpreter runs one thread at a time, reads of several stores by
several threads are no faster than those of one store.
"""

import heapq
import threading
from bisect import bisect_right
from collections.abc import Callable, Iterable, Iterator, Sequence
from contextlib import ExitStack, contextmanager
from itertools import chain
from operator import index, itemgetter
from types import TracebackType
from typing import TYPE_CHECKING, Concatenate, ParamSpec, Self, TypeAlias, TypeVar, final, overload

from ._errors import AboveFloor, BelowHorizon, Error, NoNode, Retired, TooManyNodes
from ._native import Batch, Item, Node, Snapshot, Store
from ._owner import Owner
from ._results import Link, Vacuum
from ._stamp import Stamp, required

if TYPE_CHECKING:
    from _typeshed import ReadableBuffer as _ReadableBuffer

    _Writes: TypeAlias = Batch | Iterable[tuple[_ReadableBuffer, _ReadableBuffer | None]]
    _Saved: TypeAlias = tuple[Stamp, int] | None  # the last stamp and the next number of a node, unless it retired

__all__ = ["BadDivision", "Division", "Machine", "NotOneCut", "Ranges", "RangesError", "RangesSnapshot", "WrongStore"]

_Default = TypeVar("_Default")
_Arguments = ParamSpec("_Arguments")

_MOST_STORES = 1024
# The node numbers of a store; the keys of a part of a vacuum; and how often a snapshot is opened, or a checkpoint made,
# that vacuums overtake.
_MOST_NODES, _KEYS_OF_PART, _MOST_TRIES = 1024, 256, 8
_MAX_STAMP = (1 << 64) - 1


class RangesError(Error):
    """A refusal of what divides the keys among stores, which the stores do not know. Its code is 0."""

    def _text(self) -> str:
        return (self.__doc__ or "").split("\n", 1)[0]


class BadDivision(RangesError, ValueError):
    """the boundaries do not ascend, or there are not 1 to 1,024 stores"""


class WrongStore(RangesError, LookupError):
    """the key is of another store, or no store has this number"""


class NotOneCut(RangesError, ValueError):
    """the checkpoints are not those of all stores at one cut"""


def _batch_of(writes: "_Writes") -> Batch:
    """Return a batch of the writes, or the batch that they are."""
    return writes if isinstance(writes, Batch) else Batch(writes)


@final
class Division:
    """Says which of several stores, numbered from 0, has a key."""

    __slots__ = ("_boundaries", "_hashed")

    _boundaries: tuple[bytes, ...]
    _hashed: int  # how many stores there are by hash; or 0

    @classmethod
    def by_keys(cls, boundaries: "Iterable[_ReadableBuffer]" = (), /) -> Self:
        """Divide the keys by their order, as bytes: store i has the keys from boundary i on and below boundary i + 1,
        counted from 1. Boundaries that do not ascend, of which the first has no bytes, or of which there are more than
        1,023, are refused with `BadDivision`."""
        division = super().__new__(cls)
        division._hashed = 0
        division._boundaries = tuple(bytes(memoryview(boundary)) for boundary in boundaries)
        pairs = zip((b"", *division._boundaries), division._boundaries, strict=False)
        if len(division._boundaries) >= _MOST_STORES or any(after <= before for before, after in pairs):
            raise BadDivision
        return division

    @classmethod
    def by_hash(cls, stores: int, /) -> Self:
        """Divide the keys among this many stores, 1 to 1,024, by the 64-bit FNV-1a of their bytes, modulo that number.
        Any other number is refused with `BadDivision`."""
        division = super().__new__(cls)
        division._boundaries = ()
        division._hashed = index(stores)
        if not 1 <= division._hashed <= _MOST_STORES:
            raise BadDivision
        return division

    def __new__(cls) -> Self:
        raise TypeError("a division is made by Division.by_keys or Division.by_hash")

    @property
    def stores(self) -> int:
        """How many stores there are."""
        return self._hashed or len(self._boundaries) + 1

    def store_of(self, key: "_ReadableBuffer", /) -> int:
        """Return the number of the store that has the key. By hash it costs some 0.2 microseconds for each byte."""
        taken = key if type(key) is bytes else bytes(memoryview(key))
        if not self._hashed:
            return bisect_right(self._boundaries, taken)
        found = 0xCBF29CE484222325
        for byte in taken:
            found = (found ^ byte) * 0x100000001B3 & _MAX_STAMP
        return found % self._hashed

    def _store_of_all(self, batch: Batch) -> int:
        """Return the number of the store that has all keys of a batch, or 0 where there are none."""
        stores = {self.store_of(key) for key, _ in batch.writes} or {0}
        if len(stores) > 1:
            raise WrongStore
        return stores.pop()

    def __reduce__(self) -> tuple[Callable[..., "Division"], tuple[object]]:
        if self._hashed:
            return Division.by_hash, (self._hashed,)
        return Division.by_keys, (self._boundaries,)

    def __eq__(self, other: object) -> bool:
        if not isinstance(other, Division):
            return NotImplemented
        return (self._hashed, self._boundaries) == (other._hashed, other._boundaries)

    def __hash__(self) -> int:
        return hash((self._hashed, self._boundaries))

    def __repr__(self) -> str:
        if self._hashed:
            return f"Division.by_hash({self._hashed})"
        return f"Division.by_keys({list(self._boundaries)})"


@final
class Machine(Owner):
    """A writer to several stores: one clock, and in each store a node with numbers of its own.

    Its node of a store is raised to the clock before it acts, so the stamps of the machine rise, whatever stores its
    items are for. After a refusal it is as it was. The machine of a number below that of `Ranges` is there from the
    start; `Ranges.join` returns others, and `Ranges.machine` one after a restart.
    """

    __slots__ = ("_division", "_id", "_last", "_lock", "_nodes")

    def __init__(self, division: Division, id: int) -> None:
        self._begin(division, id, [Node(id) for _ in range(division.stores)], Stamp(0))

    def _begin(self, division: Division, id: int, nodes: list[Node | None], last: Stamp) -> None:
        self._lock = threading.Lock()
        self._division, self._id, self._last = division, id, last
        self._nodes = nodes  # in each store; None where it retired before it was restored

    @classmethod
    def _of(cls, division: Division, id: int, nodes: list[Node | None], last: Stamp) -> "Machine":
        machine = cls.__new__(cls)
        machine._begin(division, id, nodes, last)
        return machine

    @property
    def id(self) -> int:
        """The number, which all its nodes have."""
        return self._id

    @property
    def last(self) -> Stamp:
        """The stamp of the machine's last event, whatever store that was for."""
        return self._last

    @property
    def retired(self) -> bool:
        """Whether it retired in all stores."""
        return not self._present()

    def write(self, reading: int, key: "_ReadableBuffer", value: "_ReadableBuffer") -> tuple[int, Item]:
        """Issue a write at this reading. Return the number of the key's store, and the item for it."""
        store = self._division.store_of(key)
        with self._lock:
            return store, self._issue(store, Node.write, reading, key, value)

    def delete(self, reading: int, key: "_ReadableBuffer") -> tuple[int, Item]:
        """Issue a deletion at this reading. Return the number of the key's store, and the item for it."""
        store = self._division.store_of(key)
        with self._lock:
            return store, self._issue(store, Node.delete, reading, key)

    def write_batch(self, reading: int, batch: "_Writes") -> tuple[int, Item]:
        """Issue one item at this reading, of a `Batch` or of pairs of a key and its value, or None for a deletion.
        Return the number of the store that has the keys, and the item for it. Where not all keys are of one store, it
        is refused with `WrongStore`, and nothing is issued."""
        taken = _batch_of(batch)
        store = self._division._store_of_all(taken)
        with self._lock:
            return store, self._issue(store, Node.write_batch, reading, taken)

    def report_all(self, reading: int, /) -> list[tuple[int, Item]]:
        """Issue a report at this reading for each store, all or none, so that all floors may rise, and with them the
        cut. Return each store with its item."""
        with self._lock:
            return self._issue_all(Node.report, reading)

    def retire_all(self, reading: int, /) -> list[tuple[int, Item]]:
        """Issue the machine's last item at this reading for each store, all or none, except where its node retired
        before it was restored. Return each store with its item."""
        with self._lock:
            return self._issue_all(Node.retire, reading)

    def send(self, reading: int, /) -> Stamp:
        """Send a message at this reading. Return its stamp, which goes to the receiver."""
        with self._lock:
            self._last = self._acting(self._present_all()[0]).send(reading)
            return self._last

    def receive(self, seen: Stamp, reading: int) -> Stamp:
        """Receive a message with this stamp at this reading, which is no stamp. Return the stamp of the event, which is
        above that stamp and above the machine's last one."""
        if isinstance(reading, Stamp):
            raise TypeError("the reading must not be a stamp: it comes after the stamp")
        with self._lock:
            self._last = self._acting(self._present_all()[0]).receive(seen, reading)
            return self._last

    def observe(self, seen: Stamp, reading: int) -> Stamp:
        """Do what `receive` does, after the machine read at a cut with this stamp: what it writes later is above it."""
        return self.receive(seen, reading)

    def __repr__(self) -> str:
        return f"<Machine {self._id} at {self._last}>"

    def _acting(self, store: int) -> Node:
        """Return the node in a store, raised to the clock."""
        node = self._nodes[store]
        if node is None:
            raise Retired
        node.raise_to(self._last)
        return node

    def _present(self) -> list[int]:
        """Return the stores from which it did not retire."""
        return [store for store, node in enumerate(self._nodes) if node is not None and not node.retired]

    def _present_all(self) -> list[int]:
        """Return these stores, of which a machine that acts has one at least."""
        present = self._present()
        if not present:
            raise Retired
        return present

    def _issue(
        self,
        store: int,
        issue: Callable[Concatenate[Node, _Arguments], Item],
        *args: _Arguments.args,
        **kwargs: _Arguments.kwargs,
    ) -> Item:
        item = issue(self._acting(store), *args, **kwargs)
        self._last = item.stamp
        return item

    def _issue_all(self, issue: Callable[[Node, int], Item], reading: int) -> list[tuple[int, Item]]:
        before, last = [(store, self._saved(store)) for store in self._present_all()], self._last
        try:
            return [(store, self._issue(store, issue, reading)) for store, _ in before]
        except BaseException:
            for store, saved in before:
                self._put_back(store, saved)
            self._last = last
            raise

    def _saved(self, store: int) -> "_Saved":
        """Return what `_put_back` takes."""
        node = self._nodes[store]
        return None if node is None or node.retired else (node.last, node.next)

    def _put_back(self, store: int, saved: "_Saved") -> None:
        """Make a node what it was before it issued items of which nothing knows."""
        if saved is not None:
            self._nodes[store] = Node.restore(self._id, *saved)


@final
class RangesSnapshot(Owner):
    """A snapshot of all stores at a cut, which answers like a mapping from keys to values, as `hlcstore.Snapshot` does.

    Of each key it has the newest write of all that were issued at or below its stamp. It has a snapshot open in each
    store, which closes itself when nothing refers to it any more.
    """

    __slots__ = ("_division", "_parts", "_stamp")

    def __init__(self, division: Division, stamp: Stamp, parts: Sequence[Snapshot]) -> None:
        self._division, self._stamp, self._parts = division, stamp, parts

    @property
    def stamp(self) -> Stamp:
        """The stamp at which it was opened."""
        return self._stamp

    def close(self) -> None:
        """Close the snapshot in each store."""
        for part in self._parts:
            part.close()

    def __enter__(self) -> Self:
        return self

    def __exit__(self, *exception: type[BaseException] | BaseException | TracebackType | None) -> None:
        self.close()

    def __repr__(self) -> str:
        return f"<RangesSnapshot at {self._stamp}>"

    def __getitem__(self, key: "_ReadableBuffer", /) -> bytes:
        return self._parts[self._division.store_of(key)][key]

    @overload
    def get(self, key: "_ReadableBuffer", default: None = None, /) -> bytes | None: ...
    @overload
    def get(self, key: "_ReadableBuffer", default: _Default, /) -> bytes | _Default: ...
    def get(self, key: "_ReadableBuffer", default: _Default | None = None, /) -> bytes | _Default | None:
        """Return the value of a key, or the default if it has none."""
        return self._parts[self._division.store_of(key)].get(key, default)

    def __contains__(self, key: "_ReadableBuffer", /) -> bool:
        return key in self._parts[self._division.store_of(key)]

    def __len__(self) -> int:
        return self.count()

    def count(self, start: "_ReadableBuffer" = b"", end: "_ReadableBuffer" = b"") -> int:
        """Return how many keys there are from start on and below end. No end means all from start on."""
        return sum(part.count(start, end) for part in self._between(start, end))

    def __iter__(self) -> Iterator[bytes]:
        return self.keys()

    def __reversed__(self) -> Iterator[bytes]:
        return self.keys(reverse=True)

    def keys(
        self, start: "_ReadableBuffer" = b"", end: "_ReadableBuffer" = b"", *, reverse: bool = False
    ) -> Iterator[bytes]:
        """Iterate over such keys, in byte order over all stores. In reverse the last key comes first."""
        parts = self._between(start, end)
        lists = (part.keys(start, end, reverse=reverse) for part in (reversed(parts) if reverse else parts))
        return iter(heapq.merge(*lists, reverse=reverse) if self._division._hashed else chain.from_iterable(lists))

    def items(
        self, start: "_ReadableBuffer" = b"", end: "_ReadableBuffer" = b"", *, reverse: bool = False
    ) -> Iterator[tuple[bytes, bytes]]:
        """Iterate over such keys and their values. Stores of ranges are read one after another; those of a hash are
        merged, with a piece of each in memory."""
        parts = self._between(start, end)
        lists = (part.items(start, end, reverse=reverse) for part in (reversed(parts) if reverse else parts))
        if self._division._hashed:
            return iter(heapq.merge(*lists, key=itemgetter(0), reverse=reverse))
        return chain.from_iterable(lists)

    def values(
        self, start: "_ReadableBuffer" = b"", end: "_ReadableBuffer" = b"", *, reverse: bool = False
    ) -> Iterator[bytes]:
        """Iterate over the values of such keys, in the order of these."""
        return (value for _, value in self.items(start, end, reverse=reverse))

    def _between(self, start: "_ReadableBuffer", end: "_ReadableBuffer") -> Sequence[Snapshot]:
        """Return the snapshots of the stores that may have such keys."""
        if self._division._hashed:
            return self._parts
        behind = self._division.store_of(end) + 1 if memoryview(end).nbytes else len(self._parts)
        return self._parts[self._division.store_of(start) : behind]


@final
class Ranges(Owner):
    """Several stores that share the keys, and are read at one cut. Each writer is a `Machine`.

    Its machines have the numbers from 0 on, of which as many as the second argument says, 1 to 64, are there from the
    start. A store that hears nothing from a machine keeps the cut back, so let machines report to all stores.
    """

    __slots__ = ("_division", "_locks", "_stores")

    def __init__(self, division: Division, machines: int) -> None:
        self._begin(division, [Store(machines) for _ in range(division.stores)])

    def _begin(self, division: Division, stores: list[Store]) -> None:
        self._division, self._stores = division, stores
        # Who holds the lock of a store keeps its floor from rising.
        self._locks = [threading.Lock() for _ in stores]

    @classmethod
    def restore(cls, division: Division, checkpoints: "Iterable[_ReadableBuffer]") -> "Ranges":
        """Return the stores of the checkpoints that `checkpoint` returned, and close their snapshots, whose readers are
        gone. `machine` returns the machines.

        Where there is not one for each store, or they have different tags or numbers of nodes, they are refused with
        `NotOneCut`; where a store has a value at its floor of another store's key, with `WrongStore`."""
        stores = [Store.restore(checkpoint) for checkpoint in checkpoints]
        tags = {(store.tag, store.nodes) for store in stores}
        if len(stores) != division.stores or len(tags) != 1:
            raise NotOneCut
        for number, store in enumerate(stores):
            store.close_all()
            with store.snapshot() as snapshot:
                if any(division.store_of(key) != number for key in snapshot):
                    raise WrongStore
        ranges = cls.__new__(cls)
        ranges._begin(division, stores)
        return ranges

    @property
    def division(self) -> Division:
        """Which store has a key."""
        return self._division

    @property
    def stores(self) -> int:
        """How many stores there are."""
        return len(self._stores)

    @property
    def nodes(self) -> int:
        """How many node numbers each store has assigned, those of retired machines too."""
        return self._stores[0].nodes

    @property
    def rows(self) -> int:
        """How many rows all stores have."""
        return sum(store.rows for store in self._stores)

    @property
    def cut(self) -> Stamp:
        """The least floor of all stores, which is the greatest cut."""
        return min(store.floor for store in self._stores)

    def close(self) -> None:
        """Close all stores."""
        for store in self._stores:
            store.close()

    def __enter__(self) -> Self:
        return self

    def __exit__(self, *exception: type[BaseException] | BaseException | TracebackType | None) -> None:
        self.close()

    def store_of(self, key: "_ReadableBuffer", /) -> int:
        """Return the number of the store that has the key."""
        return self._division.store_of(key)

    def floor(self, store: int, /) -> Stamp:
        """Return the floor of a store."""
        return self._of(store).floor

    def link(self, store: int, machine: int) -> Link:
        """Return what a store accepted from the node of a machine."""
        return self._of(store).link(machine)

    def _of(self, store: int) -> Store:
        if not 0 <= index(store) < len(self._stores):
            raise WrongStore
        return self._stores[store]

    def accept(self, store: int, item: Item) -> None:
        """Accept an item for a store, if it is the next one of its node there. Where a key is of another store, or no
        store has this number, it is refused with `WrongStore`; otherwise as by `Store.accept`."""
        of = self._of(store)
        if any(self._division.store_of(key) != store for key, _ in item.writes):
            raise WrongStore
        with self._locks[store]:
            of.accept(item)

    def write(self, machine: Machine, reading: int, key: "_ReadableBuffer", value: "_ReadableBuffer") -> Stamp:
        """Let a machine write at this reading, accept the item, and return its stamp. After a refusal the machine is as
        it was, too; after what a signal's handler raises, it has issued the item if the store has accepted it."""
        with machine._lock:
            return self._put(machine, self.store_of(key), Node.write, reading, key, value)

    def delete(self, machine: Machine, reading: int, key: "_ReadableBuffer") -> Stamp:
        """Let a machine delete a key at this reading, likewise."""
        with machine._lock:
            return self._put(machine, self.store_of(key), Node.delete, reading, key)

    def write_batch(self, machine: Machine, reading: int, batch: "_Writes") -> Stamp:
        """Let a machine issue one item at this reading, of a `Batch` or of pairs of a key and its value, or None for a
        deletion, likewise: a snapshot shows all of its writes or none. Where not all keys are of one store, it is
        refused with `WrongStore`."""
        taken = _batch_of(batch)
        with machine._lock:
            return self._put(machine, self._division._store_of_all(taken), Node.write_batch, reading, taken)

    def report_all(self, machine: Machine, reading: int) -> None:
        """Let a machine report to one store after another at this reading, and accept the reports. It ends at the first
        that is refused: those before it are accepted, and the machine is as they left it."""
        with machine._lock:
            self._put_all(machine, Node.report, reading)

    def retire_all(self, machine: Machine, reading: int) -> None:
        """Do with the machine's last items what `report_all` does with reports."""
        with machine._lock:
            self._put_all(machine, Node.retire, reading)

    def _put(
        self,
        machine: Machine,
        store: int,
        issue: Callable[Concatenate[Node, _Arguments], Item],
        *args: _Arguments.args,
        **kwargs: _Arguments.kwargs,
    ) -> Stamp:
        """Let a machine issue an item for a store, which accepts it."""
        if len(machine._nodes) != len(self._stores):
            raise WrongStore
        before, last = machine._saved(store), machine._last
        try:
            item = machine._issue(store, issue, *args, **kwargs)
            with self._locks[store]:
                self._stores[store].accept(item)
        except BaseException as raised:
            # What is no refusal, as an exception of a signal's handler, may come after the store accepted the item.
            if isinstance(raised, Error) or not self._has_next(store, machine, before):
                machine._put_back(store, before)
                machine._last = last
            raise
        return item.stamp

    def _has_next(self, store: int, machine: Machine, before: "_Saved") -> bool:
        """Whether a store accepted the item that a machine's node issued when it was as it was before."""
        return before is not None and self._stores[store].link(machine.id).next > before[1]

    def _put_all(self, machine: Machine, issue: Callable[[Node, int], Item], reading: int) -> None:
        for store in machine._present_all():
            self._put(machine, store, issue, reading)

    def join(self) -> Machine:
        """Let a machine join, and return it: its node has one number in all stores, and its clock starts at the
        greatest floor. Meanwhile no store accepts items. Where it is refused, no store has the node; only after
        `NoMemory` the first stores may have it. Then they keep the cut back, and the next join goes on with that node.
        """
        with self._all_locked():
            id = min(store.nodes for store in self._stores)
            start = max(store.floor for store in self._stores)
            if id >= _MOST_NODES:
                raise TooManyNodes
            nodes: list[Node | None] = []
            for store in self._stores:
                has_joined = store.nodes > id
                nodes.append(Node(id, store.link(id).head) if has_joined else store.join_at(start))
        return Machine._of(self._division, id, nodes, start)

    @contextmanager
    def _all_locked(self) -> Iterator[None]:
        """Keep items and machines out of all stores."""
        with ExitStack() as held:
            for lock in self._locks:
                held.enter_context(lock)
            yield

    def machine(self, id: int, last: Stamp | None = None) -> Machine:
        """Return a machine as it was before a restart, of what the stores accepted from its nodes: they go on with the
        numbers behind that. A machine that retired in all stores is refused with `Retired`.

        Its clock is at the greatest stamp of these items and of `last`, which is to be at or above the stamp of each of
        its events: of those that no store has, as a message or an item that was lost, too."""
        links = [store.link(id) for store in self._stores]
        if all(link.retired for link in links):
            raise Retired
        nodes = [None if link.retired else Node.restore(id, link.head, link.next) for link in links]
        clock = max(Stamp(0) if last is None else required(last), *(link.head for link in links))
        return Machine._of(self._division, id, nodes, clock)

    def snapshot(self, stamp: Stamp | None = None) -> RangesSnapshot:
        """Open a snapshot of all stores at a stamp, from the horizon of each to the cut; or at the cut.

        Above the cut it is refused with `AboveFloor`, whose word is the cut. Where a store refuses it, no store has it
        open. At the cut, where a vacuum to a greater cut comes first, it begins anew, a few times."""
        if stamp is None:
            return self._snapshot_at_one_of(lambda: self.cut)
        cut = self.cut
        if required(stamp) > cut:
            raise AboveFloor(cut)
        return self._open_all(stamp)

    def _snapshot_at_one_of(self, cuts: Callable[[], Stamp]) -> RangesSnapshot:
        """Open a snapshot at a cut, or where a vacuum comes first, at a later one."""
        for _ in range(_MOST_TRIES - 1):
            try:
                return self._open_all(cuts())
            except BelowHorizon:
                pass
        return self._open_all(cuts())

    def _open_all(self, cut: Stamp) -> RangesSnapshot:
        """Open a snapshot at a cut in all stores, or in none."""
        with ExitStack() as opened:
            parts = [opened.enter_context(store.snapshot(cut)) for store in self._stores]
            opened.pop_all()
        return RangesSnapshot(self._division, parts[0].stamp, parts)

    def vacuum_to(self, stamp: Stamp, /) -> Vacuum:
        """Drop in each store all rows up to a stamp, or the cut where that is less, except the fewest that give the
        same answers, as `Store.vacuum_to` does. Return the sums of all stores. It keeps the calls on one store at a
        time waiting, for 256 keys.

        Where a store was vacuumed to a greater stamp it is refused with `BelowHorizon`, and before its first part
        nothing is changed."""
        to = min(self.cut, required(stamp))
        self._check_vacuum(to)
        kept = cost = dropped = 0
        for store in self._stores:
            after: bytes | None = b""
            while after is not None:
                part = store.vacuum_part(to, after, _KEYS_OF_PART)
                kept, cost, dropped, after = kept + part.kept, cost + part.cost, dropped + part.dropped, part.next
        return Vacuum(to, kept, cost, dropped)

    def checkpoint(self) -> list[bytes]:
        """Return the whole state of each store, as `Store.checkpoint` does, with the cut as its tag. Writers go on
        between the stores: a later one may have later items. So what is restored has at least that cut, and a snapshot
        opens there. Where a machine joins meanwhile, or a vacuum goes above the cut, all are made anew.

        Where vacuums come first eight times, it is refused with `BelowHorizon`; where a join that found no memory left
        stores without the node, with `NoNode`: join first."""
        tries = 0
        while True:
            nodes, cut = self._same_nodes(), self.cut
            saved = [store.checkpoint(cut) for store in self._stores]
            if self._same_nodes() != nodes:
                continue
            tries += 1
            try:
                self._check_vacuum(cut)
                return saved
            except BelowHorizon:
                if tries == _MOST_TRIES:
                    raise

    def _same_nodes(self) -> int:
        """Return how many nodes each store has, while no machine joins."""
        with self._all_locked():
            nodes = {store.nodes for store in self._stores}
        if len(nodes) > 1:
            raise NoNode
        return nodes.pop()

    def _check_vacuum(self, stamp: Stamp) -> None:
        """Refuse a stamp up to the cut, if it is below the horizon of a store."""
        for store in self._stores:
            store.check_vacuum(stamp)
