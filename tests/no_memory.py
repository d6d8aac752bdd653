"""Checks which calls of the C library take no memory, as the table of its header says.

`check(library)` makes calls while each request for memory would be refused, and sees whether there is one (grant.c). A
call without memory makes none, whatever it answers; nor does a call with memory that is refused by a number which the
table has before 15. Every call of the header, and each of these refusals, must be met: a new call that is missing here
is an error. The stores are large, and their keys and values are too long to be kept in place, so that a copy of any of
them is a request.
"""
import hashlib
import re
import struct
from collections import defaultdict

from raw_calls import ENTRY, HEADER, PLACE, Handle, RawNode

OK, CLOSED, MORE = 0, 100, 104
TOP = 2**64 - 1
KEYS = 10_000
KEY, VALUE = b"key %06d, which is longer than 30 bytes", b"value %d of key %06d, which is longer than 30 bytes"
ABSENT = b"no key of a store, and longer than 30 bytes"
PLENTY = 3_000_000
# Refusals that these calls find in what they take memory for.
LATE = {"certificate_make": {109}, "certificate_check": {16}, "store_restore": {107}, "restoring_finish": {107}}
LATE |= {"increment_apply": {8, 107, 110, 111}, "checkpoint_split": {107}, "checkpoint_merge": {107, 113}}


# ---- The table of the header ----


class Row:
    """A call of the table: its refusals, but those after 15, and whether it takes memory."""

    def __init__(self, refusals, takes_memory):
        self.refusals, self.takes_memory = refusals, takes_memory


def lines_of_table():
    """The columns of each line of the table: names, refusals and memory."""
    lines = HEADER.read_text().split("\n")
    start = next(i for i, line in enumerate(lines) if line.startswith(" *   call "))
    columns = [lines[start].index(word) for word in ("call", "refusals", "memory", "beside")]
    for line in lines[start + 1 : lines.index(" */", start)]:
        names, refusals, memory = (line[a:b].strip() for a, b in zip(columns, columns[1:]))
        assert names.startswith("hlc_") and memory in ("", "yes"), line
        yield full_names(names), refusals, memory == "yes"


def full_names(text):
    """The names of a line, without hlc_. A part such as _delete takes the place of the last part of the name before."""
    names = []
    for part in text.split(", "):
        names.append(names[-1].rpartition("_")[0] + part if part.startswith("_") else part)
    return [name.removeprefix("hlc_") for name in names]


def table():
    """The rows of the table by name."""
    texts, memory = {}, {}
    for names, refusals, takes_memory in lines_of_table():
        parts = refusals.split("; ")
        for place, name in enumerate(names):
            texts[name], memory[name] = parts[min(place, len(parts) - 1)], takes_memory
    on_stores = set(re.findall(r"hlc_(\w+)\(hlc_store \*store", HEADER.read_text()))
    on_stores -= {"store_open", "store_restore", "store_close"}

    def refusals_of(name):
        found = {int(number) for number in re.findall(r"\d+", re.split(r"\b15\b", texts[name])[0])}
        if "those of hlc_store_accept" in texts[name]:
            same = "store_accept_write" if name == "store_accept_all" else name.replace("check", "accept")
            found |= refusals_of(same)
        # A deletion has no value that could be too long.
        found -= {13} if name.endswith("_delete") else LATE.get(name, set())
        return found | ({CLOSED} if name in on_stores else set())

    return {name: Row(refusals_of(name), memory[name]) for name in texts}


# ---- Calls that are counted ----


class Counted:
    """Makes calls, with or without memory, and collects what those without answered."""

    def __init__(self, library):
        self.library = library
        self.answers = defaultdict(set)

    def ok(self, name, *args):
        """Makes a call that has memory and is not refused, and returns what it wrote."""
        answer, *written = self.library.call(name, *args)
        assert answer == OK, (name, answer)
        return written

    def starved(self, name, *args):
        """Makes a call without memory. Returns its answer, and whether it made a request."""
        self.library.granted.value = 0
        answer, *_ = self.library.call(name, *args)
        has_asked = self.library.granted.value < 0
        self.library.granted.value = -1
        return answer, has_asked

    def count(self, expected, name, *args):
        """Makes a call that must make no request, and must answer so if an answer is given."""
        answer, has_asked = self.starved(name, *args)
        assert not has_asked, f"hlc_{name} asked for memory, and answered {answer}"
        assert expected is None or answer == expected, (name, expected, answer)
        self.answers[name].add(answer if isinstance(answer, int) else None)

    def check_all(self):
        """Checks that all calls of the header were counted, with each answer that the table names."""
        rows = table()
        assert set(rows) == set(self.library.calls), set(rows) ^ set(self.library.calls)
        for name, row in rows.items():
            assert row.takes_memory or name in self.answers, f"hlc_{name} was not counted"
            expected = row.refusals if row.takes_memory or not row.refusals else row.refusals | {OK}
            assert expected <= self.answers[name], (name, expected - self.answers[name])
            assert not row.takes_memory or OK not in self.answers[name], name


# ---- Stores ----


def entry(number, stamp, key, value, deletes=False, node=0, at=0):
    """An entry whose key is at this place, with the value after it."""
    return ENTRY.pack(node, deletes, number, stamp, at, len(key), at + len(key), len(value))


def filled_store(calls):
    """Returns a store, and how many items node 0 wrote, at the stamps from 1 on: two values of each key, and then a
    deletion of every seventh. Node 1 has retired. Snapshots are open after each of these turns, and in the first."""
    store, number = Handle(), 0
    calls.ok("store_open", store, 2)
    calls.ok("store_accept_retire", store, 1, 0, 3 * KEYS)
    for turn, step in (0, 1), (1, 1), (2, 7):
        entries, texts = [], bytearray()
        for i in range(0, KEYS, step):
            key, value = KEY % i, VALUE % (turn, i)
            entries.append(entry(number, number + 1, key, value, deletes=turn == 2, at=len(texts)))
            texts += key + value
            number += 1
        assert calls.ok("store_accept_all", store, b"".join(entries), bytes(texts)) == [len(entries), 0]
        calls.ok("snapshot_open_at_floor", store)
    calls.ok("snapshot_open", store, KEYS // 2)
    return store, number


def framed(body, tag):
    """The bytes of a frame, as docs/formats.md has them."""
    front = struct.pack(">IQQ", 1, len(body), tag) + body
    return front + hashlib.sha256(front).digest()


def checkpoint_of(nodes, next, opened):
    """The bytes of a checkpoint of so many nodes at the start, of which there is one, and of so many snapshots that
    were opened."""
    return framed(struct.pack(">HHQQBHQQQ", nodes, 1, next, TOP, 0, 0, opened, 0, 0), 0)


def spent_store(calls):
    """A store in which no number of node 0 is left, and no id of a snapshot."""
    store = Handle()
    calls.ok("store_restore", store, checkpoint_of(1, TOP, TOP - 1))
    return store


def full_output(calls, store):
    output = Handle()
    calls.ok("checkpoint_make", store, 5, output)
    return output


def restoring_of(calls, saved):
    restoring = Handle()
    calls.ok("restoring_start", restoring)
    calls.ok("restoring_feed", restoring, saved)
    return restoring


# ---- Calls without memory ----


def count_reads(calls, store):
    """Counts the calls that ask a snapshot."""
    texts = b"".join(KEY % i for i in range(3000))
    places = b"".join(PLACE.pack(i * len(KEY % 0), len(KEY % 0)) for i in range(3000))
    for id in 1, 2, 3, 4:
        for room in 0, 100, PLENTY:
            calls.count(OK, "snapshot_list", store, id, room)
            for start, end in (b"", b""), (KEY % 5, KEY % 9000), (ABSENT, b""):
                calls.count(OK if room == PLENTY else None, "snapshot_scan", store, id, start, end, room)
                calls.count(OK if room == PLENTY else None, "snapshot_scan_keys", store, id, start, end, room)
                calls.count(OK if room == PLENTY else None, "snapshot_scan_back", store, id, start, end, room)
                calls.count(OK if room == PLENTY else None, "snapshot_changes", store, id, 2, start, end, room)
                calls.count(OK, "snapshot_digest", store, id, start, end, room)
                calls.count(OK, "snapshot_count", store, id, start, end)
            calls.count(OK, "snapshot_read", store, id, KEY % 1, room)
            calls.count(102, "snapshot_read", store, id, ABSENT, room)
            calls.count(OK, "snapshot_view", store, id, KEY % 1)
            calls.count(102, "snapshot_view", store, id, ABSENT)
            calls.count(OK if room == PLENTY else MORE, "snapshot_read_all", store, id, places, texts, room)
        calls.count(103, "snapshot_read_all", store, id, PLACE.pack(len(texts), 1), texts, PLENTY)
        calls.count(OK, "snapshot_at_place", store, id - 1)
    whole = b"", b"", PLENTY
    words = {"snapshot_list": whole[2:], "snapshot_count": whole[:2], "snapshot_digest": whole}
    words |= {"snapshot_scan": whole, "snapshot_scan_keys": whole, "snapshot_scan_back": whole}
    words |= {"snapshot_changes": (1, *whole)}
    words |= {"snapshot_read": (KEY % 1, PLENTY), "snapshot_view": (KEY % 1,)}
    words |= {"snapshot_read_all": (places, texts, PLENTY)}
    for name, args in words.items():
        calls.count(10, name, store, 9, *args)
        calls.count(CLOSED, name, Handle(), 1, *args)
    calls.count(10, "snapshot_changes", store, 1, 9, *whole)
    calls.count(117, "snapshot_at_place", store, 9)
    calls.count(CLOSED, "snapshot_at_place", Handle(), 0)


def count_questions(calls, store, floor, retired):
    """Counts the calls that ask what a store has. In another one all nodes have retired."""
    for each, answer in (store, OK), (Handle(), CLOSED):
        for name in "store_floor", "store_rows", "store_size", "store_horizon", "store_nodes", "store_floor_node":
            calls.count(answer, name, each)
        calls.count(answer, "store_link", each, 1)
        for key in KEY % 1, ABSENT:
            for room in 0, PLENTY:
                calls.count(answer, "store_versions", each, key, 0, TOP, room)
        calls.count(answer, "store_check_vacuum", each, floor)
    calls.count(115, "store_floor_node", retired)
    calls.count(1, "store_link", store, 2)
    calls.count(8, "store_check_vacuum", store, floor + 1)
    calls.count(9, "store_check_vacuum", store, floor - 1)


def item_refusals(kind, store, next, spent):
    """The refusals of an item of a kind: for each a store, and the item."""

    def item(node, number, stamp, key=KEY % 1, value=VALUE % (1, 1)):
        return node, number, stamp, *{"write": (key, value), "delete": (key,)}.get(kind, ())

    found = {
        1: (store, item(2, 0, next + 1)),
        6: (store, item(0, next + 1, next + 1)),
        7: (store, item(0, next, next)),
        14: (spent, item(0, TOP, TOP)),
        27: (store, item(1, 1, TOP)),
        CLOSED: (Handle(), item(0, next, next + 1)),
    }
    if kind in ("write", "delete"):
        found[12] = store, item(0, next, next + 1, key=bytes(256))
    if kind == "write":
        found[13] = store, item(0, next, next + 1, value=bytes(65536))
    return found


def writes_of(*changes):
    """How many writes these are, and their bytes. Of a deletion the value is None."""
    parts = []
    for key, value in changes:
        parts.append(bytes([len(key)]) + key)
        parts.append(b"\0" if value is None else b"\1" + len(value).to_bytes(2, "big") + value)
    return len(changes), b"".join(parts)


def bytes_of_batch(node, number, stamp, count, writes):
    """The bytes of an item that is a batch, also of one that no call would write."""
    return struct.pack(">BHQQBB", 1, node, number, stamp, 3, count - 1) + writes


# A batch, and those that are refused, by their numbers.
BATCH = writes_of((KEY % 1, VALUE % (1, 1)), (KEY % 2, None), (ABSENT, VALUE % (1, 2)))
BAD_BATCHES = {28: (0, b""), 29: (257, BATCH[1]), 30: writes_of((KEY % 1, None), (KEY % 1, VALUE % (1, 1)))}
BAD_BATCHES[106] = BATCH[0], BATCH[1][:-1]


def count_batches(calls, store, next, spent):
    """Counts each refusal of a batch, by the calls of a node, a store and a log."""
    for answer, (each, (*item,)) in item_refusals("report", store, next, spent).items():
        calls.count(answer, "store_accept_batch", each, *item, *BATCH)
    for answer, batch in BAD_BATCHES.items():
        calls.count(answer, "store_accept_batch", store, 0, next, next + 1, *batch)
        calls.count(answer, "item_encode_batch", 0, next, next + 1, *batch, PLENTY)
        calls.count(answer, "node_write_batch", RawNode(), 3, *batch)
    for room in 0, 100, PLENTY:
        calls.count(OK, "item_encode_batch", 0, next, next + 1, *BATCH, room)
    for name in "store_accept_items", "store_apply_records":
        for answer, (each, (*item,)) in item_refusals("report", store, next, spent).items():
            calls.count(answer, name, each, bytes_of_batch(*item, *BATCH))
        calls.count(30, name, store, bytes_of_batch(0, next, next + 1, *BAD_BATCHES[30]))
        calls.count(106, name, store, bytes_of_batch(0, next, next + 1, *BAD_BATCHES[106]))
        assert calls.starved(name, store, bytes_of_batch(0, 0, 1, *BATCH)) == (OK, False)


def count_items(calls, store, next, spent):
    """Counts the checks of items, and each refusal of one."""
    for kind, parts in ("write", (KEY % 1, VALUE % (1, 1))), ("delete", (KEY % 1,)), ("report", ()), ("retire", ()):
        for answer, (each, item) in item_refusals(kind, store, next, spent).items():
            calls.count(answer, "store_accept_" + kind, each, *item)
            if kind != "retire":
                calls.count(answer, "store_check_" + kind, each, *item)
        if kind != "retire":
            calls.count(OK, "store_check_" + kind, store, 0, next, next + 1, *parts)
    for answer, (each, (*numbers, key, value)) in item_refusals("write", store, next, spent).items():
        packed = entry(numbers[1], numbers[2], key, value, node=numbers[0])
        calls.count(answer, "store_accept_all", each, packed, key + value)
    calls.count(103, "store_accept_all", store, entry(next, next + 1, KEY % 1, b"12"), KEY % 1 + b"1")


def count_outputs(calls, store):
    output = full_output(calls, store)
    length = len(calls.ok("output_read", output, 0, PLENTY)[1])
    for answer, place, room in (OK, 0, length), (MORE, 0, length - 1), (MORE, 5, 0), (OK, length, 5), (OK, TOP, 5):
        calls.count(answer, "output_read", output, place, room)
    for _ in range(2):
        calls.count(None, "output_drop", output)
        calls.count(OK, "output_read", output, 0, 5)


def count_ends(calls, store):
    """Counts the calls that close snapshots, restores and stores, also where these are closed."""
    output = full_output(calls, store)
    restoring = restoring_of(calls, calls.ok("output_read", output, 0, PLENTY)[1])
    calls.library.call("output_drop", output)
    calls.count(OK, "snapshot_close", store, 2)
    calls.count(10, "snapshot_close", store, 2)
    calls.count(CLOSED, "snapshot_close", Handle(), 2)
    calls.count(OK, "snapshot_close_all", store)
    calls.count(CLOSED, "snapshot_close_all", Handle())
    for _ in range(2):
        calls.count(None, "restoring_drop", restoring)
        calls.count(None, "store_close", store)


def count_nodes(calls):
    """Counts the calls of nodes, and those without a store."""
    calls.count(None, "version")
    for number in 0, 6, 107, 999:
        for room in 0, 200:
            calls.count(None, "error_name", number, room)
            calls.count(None, "error_text", number, room)
    calls.count(None, "node_open", 3, 7)
    calls.count(None, "node_raise", RawNode(), 7)
    calls.count(OK, "node_restore", 0, 3, 2, RawNode())
    calls.count(105, "node_restore", 0, 2, 3, RawNode())
    before = {"receive": (5,)}
    after = {"write": (KEY % 1, VALUE % (1, 1)), "delete": (KEY % 1,), "write_batch": BATCH}
    for kind in "write", "delete", "write_batch", "report", "retire", "send", "receive":
        nodes = {OK: RawNode(), 2: RawNode(), 3: RawNode(0, TOP, 1), 27: RawNode(0, 1, 1, True)}
        if kind not in ("send", "receive"):
            nodes[14] = RawNode(0, TOP, TOP)
        for answer, node in nodes.items():
            reading = 2**48 if answer == 2 else 3
            calls.count(answer, "node_" + kind, node, *before.get(kind, ()), reading, *after.get(kind, ()))
    calls.count(12, "node_write", RawNode(), 3, bytes(256), b"")
    calls.count(12, "node_delete", RawNode(), 3, bytes(256))
    calls.count(13, "node_write", RawNode(), 3, KEY % 1, bytes(65536))


# ---- Refusals of calls with memory ----


def count_opening(calls, store, floor, spent):
    """Counts the refusals of calls that open a store or a snapshot, or let a node join."""
    nodes, snapshots = Handle(), Handle()
    calls.ok("store_open", nodes, 64)
    for _ in range(1024 - 64):
        calls.ok("store_join", nodes)
    calls.ok("store_open", snapshots, 1)
    for _ in range(1024):
        calls.ok("snapshot_open_at_floor", snapshots)
    calls.count(114, "store_open", Handle(), 65)
    calls.count(101, "store_open", store, 1)
    for answer, each in (26, nodes), (CLOSED, Handle()):
        calls.count(answer, "store_join", each)
        calls.count(answer, "store_join_at", each, TOP)
    calls.count(116, "store_join_at", store, floor - 1)
    for answer, each, join in (26, nodes, (1024, TOP)), (116, store, (2, floor - 1)), (6, store, (3, TOP)):
        calls.count(answer, "store_apply_records", each, calls.ok("record_encode_join", *join, PLENTY)[1])
    for answer, each in (11, snapshots), (14, spent), (CLOSED, Handle()):
        calls.count(answer, "snapshot_open", each, 0)
        calls.count(answer, "snapshot_open_at_floor", each)
    calls.count(8, "snapshot_open", store, floor + 1)
    calls.count(9, "snapshot_open", store, floor - 1)
    for each in nodes, snapshots:
        calls.library.call("store_close", each)


def count_outputs_refused(calls, store, floor):
    """Counts the refusals of vacuums, checkpoints, increments and certificates."""
    full = full_output(calls, store)
    calls.count(CLOSED, "store_vacuum", Handle())
    for answer, each, stamp in (8, store, floor + 1), (9, store, floor - 1), (CLOSED, Handle(), floor):
        calls.count(answer, "store_vacuum_to", each, stamp)
        calls.count(answer, "certificate_make", each, stamp, Handle())
        calls.count(answer, "store_vacuum_part", each, stamp, KEY % 1, TOP, 255)
    for answer, each, output in (108, store, full), (CLOSED, Handle(), Handle()):
        calls.count(answer, "certificate_make", each, floor, output)
        calls.count(answer, "checkpoint_make", each, 5, output)
        calls.count(answer, "increment_make", each, floor - 1, 5, output)
    calls.count(9, "increment_make", store, floor - 1, 5, Handle())
    calls.count(108, "increment_apply", bytes(60), bytes(60), full)
    calls.count(106, "increment_apply", bytes(60), bytes(60), Handle())
    calls.count(108, "checkpoint_split", bytes(60), KEY % 1, Handle(), full)
    calls.count(106, "checkpoint_split", bytes(60), KEY % 1, Handle(), Handle())
    calls.count(108, "checkpoint_merge", bytes(60), bytes(60), full)
    calls.count(106, "checkpoint_merge", bytes(60), bytes(60), Handle())
    calls.library.call("output_drop", full)
    assert calls.starved("certificate_check", b"point 1.0\npoint")[0] == 16


def count_logs(calls, store, next, spent):
    """Counts the calls that write records as bytes, and the refusals of such bytes."""
    kinds = {"write": (KEY % 1, VALUE % (1, 1)), "delete": (KEY % 1,), "report": (), "retire": ()}
    for kind, parts in kinds.items():
        for room in 0, 100, PLENTY:
            calls.count(OK, "item_encode_" + kind, 0, next, next + 1, *parts, room)
    for room in 0, PLENTY:
        calls.count(OK, "record_encode_join", 2, next, room)
        calls.count(OK, "record_encode_threshold", next, room)
    calls.count(12, "item_encode_write", 0, 0, 1, bytes(256), b"", PLENTY)
    calls.count(12, "item_encode_delete", 0, 0, 1, bytes(256), PLENTY)
    calls.count(13, "item_encode_write", 0, 0, 1, KEY % 1, bytes(65536), PLENTY)
    for name in "store_accept_items", "store_apply_records":
        for kind in kinds:
            for answer, (each, item) in item_refusals(kind, store, next, spent).items():
                if answer not in (12, 13):
                    calls.count(answer, name, each, calls.ok("item_encode_" + kind, *item, PLENTY)[1])
        write = calls.ok("item_encode_write", 0, next, next + 1, *kinds["write"], PLENTY)[1]
        old = calls.ok("item_encode_write", 0, 0, 1, *kinds["write"], PLENTY)[1]
        calls.count(106, name, store, write[:-1])
        assert calls.starved(name, store, old + old) == (OK, False)
    calls.count(106, "store_apply_records", store, b"\4")


def count_restores(calls, store):
    """Counts the refusals of restores."""
    damaged, no_nodes = bytes(60), checkpoint_of(0, 0, 0)
    calls.count(101, "store_restore", store, no_nodes)
    calls.count(106, "store_restore", Handle(), damaged)
    calls.count(118, "restoring_feed", Handle(), KEY)
    calls.count(118, "restoring_finish", Handle(), Handle())
    restoring = restoring_of(calls, damaged)
    calls.count(119, "restoring_start", restoring)
    calls.count(101, "restoring_finish", restoring, store)
    calls.count(106, "restoring_finish", restoring, Handle())


def count_savings(calls, store, other):
    """Counts the refusals of savings, and their end."""
    saving = Handle()
    calls.count(CLOSED, "saving_start", saving, Handle(), 5)
    calls.count(118, "saving_read", saving, store, 5)
    calls.ok("saving_start", saving, store, 5)
    calls.count(119, "saving_start", saving, store, 5)
    calls.count(CLOSED, "saving_read", saving, Handle(), 5)
    calls.count(112, "saving_read", saving, other, 5)
    for _ in range(2):
        calls.count(None, "saving_drop", saving)


def check(library):
    """Checks all calls of the header."""
    calls = Counted(library)
    spent = spent_store(calls)
    store, next = filled_store(calls)
    retired = Handle()
    calls.ok("store_open", retired, 1)
    calls.ok("store_accept_retire", retired, 0, 0, 1)
    count_nodes(calls)
    count_reads(calls, store)
    calls.ok("store_vacuum_to", store, next)
    count_reads(calls, store)
    count_questions(calls, store, next, retired)
    count_items(calls, store, next, spent)
    count_batches(calls, store, next, spent)
    count_opening(calls, store, next, spent)
    count_outputs_refused(calls, store, next)
    count_logs(calls, store, next, spent)
    count_restores(calls, store)
    count_savings(calls, store, retired)
    count_outputs(calls, store)
    calls.count(OK, "store_accept_report", store, 0, next, next + 1)
    calls.count(OK, "store_accept_retire", store, 0, next + 1, next + 2)
    count_ends(calls, store)
    calls.check_all()
    for each in spent, retired:
        library.call("store_close", each)
