#!/usr/bin/env python3
"""Makes random calls of the C library, and compares every answer with a model that keeps all writes. Then checks which
calls take no memory (no_memory.py). The arguments are the shared object, linked with grant.c, and a seed. Prints
`all right` at the end, and fails at the first difference."""
import hashlib
import random
import struct
import sys
from copy import copy as copied
from typing import NamedTuple

import no_memory
from model import certificate_line
from no_memory import framed
from raw_calls import PLACE, Handle, Library
from reference import Store, sizes

ROUNDS = 300
OK, NOT_NEXT, ABOVE_FLOOR, BELOW_HORIZON, NO_SNAPSHOT, NO_MEMORY = 0, 6, 8, 9, 10, 15
MORE, BAD_BYTES, NO_CHECKPOINT, HAS_BYTES, NOT_FEWEST = 104, 106, 107, 108, 109
CLOSED, NO_VALUE, AFTER_LAST, NOT_UNDER_WAY, IS_UNDER_WAY = 100, 102, 117, 118, 119
NO_INCREMENT, NOT_LATER, CHANGED = 110, 111, 112
TOP = 2**64 - 1


def ok(name, *args):
    """Makes a call that is not refused, and returns what it wrote."""
    answer, *written = library.call(name, *args)
    assert answer == OK, (name, answer)
    return written[0] if len(written) == 1 else tuple(written)


def whole(name, *args):
    """Makes a call whose last argument is the room of a buffer, again where it is too short, and returns the bytes."""
    length, data = ok(name, *args, 64)
    return ok(name, *args, length)[1] if data is None else data


def read_pieces(pick, output, length):
    """Reads an output of so many bytes, at once, in pieces from one place to the next, and from places by lot. Returns
    the bytes."""
    code, many, data = library.call("output_read", output, 0, length)
    assert (code, many) == (OK, length)
    read, code = b"", MORE
    while code == MORE:
        code, many, piece = library.call("output_read", output, len(read), pick.randint(0, 200))
        read += piece
    assert read == data
    for _ in range(4):
        place, room = pick.randint(0, length + 2), pick.randint(0, length + 2)
        piece = data[place : place + room]
        code = MORE if place + room < length else OK
        assert library.call("output_read", output, place, room) == (code, len(piece), piece)
    return data


def has_no_bytes(output):
    return all(library.call("output_read", output, place, 9) == (OK, 0, b"") for place in (0, 5))


def put(name, *args):
    """Makes a call whose last argument is an output. Returns its answer, how many bytes it made, and what numbers it
    wrote."""
    code, *written = library.call(name, *args)
    length = written.pop(0 if name.startswith("increment_") else -1)
    return code, length, written


def made(pick, name, *args):
    """Makes a call that puts bytes into an output, and returns what it wrote, the bytes last."""
    output = Handle()
    code, length, numbers = put(name, *args, output)
    assert code == OK, (name, code)
    data = read_pieces(pick, output, length)
    library.call("output_drop", output)
    assert has_no_bytes(output)
    return (*numbers, data) if numbers else data


def whole_state(pick, store):
    """Returns the bytes of a checkpoint, with the tag 5."""
    return made(pick, "checkpoint_make", store, 5)


def opened(nodes):
    store = Handle()
    ok("store_open", store, nodes)
    return store


def sized(part):
    """Some bytes, with their length before them."""
    return struct.pack("<Q", len(part)) + part


def listing(pairs):
    """The bytes of some pairs, as hlc_snapshot_list writes them."""
    return b"".join(sized(part) for pair in pairs for part in pair)


def answer(value):
    """The bytes of an answer, as hlc_snapshot_read_all writes them."""
    return b"\0" if value is None else b"\1" + sized(value)


def fitting(parts, room):
    """How many whole parts fit."""
    many = 0
    while many < len(parts) and len(parts[many]) <= room:
        room -= len(parts[many])
        many += 1
    return many


def expected(parts, room):
    """What a call with so much room returns that writes these parts: its answer, their length, and how many they
    are."""
    many = fitting(parts, room)
    written = b"".join(parts[:many])
    return MORE if many < len(parts) else OK, len(written), written, many


class Model(Store):
    """What a store must have; and the stamp of a vacuum in parts that has not ended, with the key to go on from."""

    begun = None

    def keys(self):
        return sorted({row[0] for row in self.rows})


def vacuum_part(pick, store, model):
    """Makes the next part of a vacuum, or the first one of another, and compares what it returns with the model."""
    floor = model.floor()
    at, after = model.begun or (pick.randint(model.horizon, floor + 1), b"")
    most, room = pick.randint(0, 3), pick.choice((0, 2, 255))
    made_part = library.call("store_vacuum_part", store, at, after, most, room)
    answer, word, kept, bytes, dropped, length, end, more = made_part
    if at > floor or at < model.horizon:
        refusal = (ABOVE_FLOOR, floor) if at > floor else (BELOW_HORIZON, model.horizon)
        assert (answer, word, kept, bytes, dropped, length, more) == (*refusal, 0, 0, 0, 0, False)
        model.begun = None
        return
    keys = [key for key in model.keys() if key > after][:most]
    assert (answer, word, kept, bytes, dropped) == (OK, at, *model.vacuum(at, keys)[2:])
    assert more == (len(keys) == most)
    last = (keys or [after])[-1] if more else b""
    assert (length, end) == (len(last), last if len(last) <= room else None)
    model.begun = (at, last) if more else None
    if not more and pick.random() < 0.5:
        _, _, kept, bytes, dropped = model.vacuum(at)
        certify(pick, store, model, at, kept, bytes)
        assert ok("store_vacuum_to", store, at) == (at, kept, bytes, 0) and dropped == 0


def certify(pick, store, model, at, kept, bytes):
    """Makes the certificate of the rows at or below a stamp, and compares it with the model."""
    *numbers, text = made(pick, "certificate_make", store, at)
    assert numbers == [0, kept, bytes] and ok("certificate_check", text) == (kept, bytes, 0)
    assert certified_rows(text) == sorted(row for row in model.rows if row[1] <= at)


def refuse_certificates(pick, store, model):
    """Makes no certificate above the floor or below the horizon."""
    floor, output = model.floor(), Handle()
    above = pick.randint(floor + 1, floor + 9)
    assert tuple(library.call("certificate_make", store, above, output)) == (ABOVE_FLOOR, floor, 0, 0, 0)
    if model.horizon > 0:
        below = pick.randint(0, model.horizon - 1)
        assert tuple(library.call("certificate_make", store, below, output)) == (BELOW_HORIZON, model.horizon, 0, 0, 0)
    assert has_no_bytes(output)


def vacuum(pick, store, model):
    """Vacuums to the floor, or to a stamp. A certificate is there after it, and before it where it drops nothing."""
    floor = model.floor()
    at = floor if pick.random() < 0.3 else pick.randint(model.horizon, floor)
    name, args = ("store_vacuum", ()) if at == floor and pick.random() < 0.9 else ("store_vacuum_to", (at,))
    refuse_certificates(pick, store, model)
    _, _, kept, bytes, dropped = model.vacuum(at)
    if dropped > 0:
        output = Handle()
        assert tuple(library.call("certificate_make", store, at, output)) == (NOT_FEWEST, 0, 0, 0, 0)
        assert has_no_bytes(output)
    else:
        certify(pick, store, model, at, kept, bytes)
    assert ok(name, store, *args) == (at, kept, bytes, dropped)
    certify(pick, store, model, at, kept, bytes)


class Older(NamedTuple):
    """A checkpoint of before: its bytes, the floor, and the rows."""

    saved: bytes
    floor: int
    rows: list


def older_of(pick, store, model):
    return Older(whole_state(pick, store), model.floor(), list(model.rows))


def increment_of(pick, store, model, since):
    """Returns an increment with the tag 5; or none where the stamp is below the horizon, and that is refused."""
    if since < model.horizon:
        output = Handle()
        assert tuple(library.call("increment_make", store, since, 5, output)) == (BELOW_HORIZON, 0, model.horizon)
        assert has_no_bytes(output)
        return None
    zero, increment = made(pick, "increment_make", store, since, 5)
    assert zero == 0
    return increment


def newer_of(pick, store, model, older):
    """Makes a newer checkpoint of an older one by an increment, since its floor or a stamp below it. Returns it, or
    none where the stamp is below the horizon."""
    since = older.floor if pick.random() < 0.7 else pick.randint(0, older.floor)
    increment = increment_of(pick, store, model, since)
    if increment is None:
        return None
    zero, saved = made(pick, "increment_apply", older.saved, increment)
    rows = [row for row in older.rows if row[1] <= since] + [row for row in model.rows if row[1] > since]
    assert zero == 0
    if sorted(rows) == sorted(model.rows):
        assert saved == whole_state(pick, store)
    return Older(saved, model.floor(), rows)


def shared_record(pick, model, nodes, reading):
    """Returns a record that is no item, with its threshold or 0: a node joins at the floor or above, and is one of the
    nodes from then on; or the reading is a threshold."""
    if len(nodes) > 7 or pick.random() < 0.7:
        return whole("record_encode_threshold", reading), reading
    start = model.floor() + pick.randint(0, 2)
    nodes += library.call("node_open", len(nodes), start)
    return whole("record_encode_join", model.join(start), start), 0


def item_bytes(kind, node, number, stamp, key=b"", value=None):
    """The bytes of an item that is no batch, as docs/formats.md has them."""
    body = {"report": b"\1", "retire": b"\2"}.get(kind) or b"\0" + no_memory.writes_of((key, value))[1]
    return struct.pack(">BHQQ", 1, node, number, stamp) + body


def feed_batch(pick, store, node, raw, reading, keys, model):
    """Lets a node issue a batch, which the store takes by its own call or as bytes. Returns these."""
    changes = [
        (key, pick.choice((None, b"", bytes(pick.choices(b"xyz", k=30)))))
        for key in pick.sample(sorted(set(keys)), pick.randint(1, len(set(keys))))
    ]
    count, writes = no_memory.writes_of(*changes)
    number, stamp = ok("node_write_batch", raw, reading, count, writes)
    model.accept(node, number, stamp, changes)
    encoded = whole("item_encode_batch", node, number, stamp, count, writes)
    assert encoded == no_memory.bytes_of_batch(node, number, stamp, count, writes)
    if pick.random() < 0.5:
        assert ok("store_accept_batch", store, node, number, stamp, count, writes) == stamp
    assert ok("store_accept_items", store, encoded) == (len(encoded), 1, 0)
    return encoded


def feed_item(pick, store, node, raw, reading, keys, model):
    """Lets a node issue an item that is no batch, which the store takes as bytes. Returns these."""
    kind = pick.choice(("write", "write", "write", "delete", "report", "report"))
    key = pick.choice(keys)
    value = bytes(pick.choices(b"xyz", k=pick.randint(0, 30))) if kind == "write" else None
    parts = {"write": (key, value), "delete": (key,), "report": ()}[kind]
    number, stamp = ok("node_" + kind, raw, reading, *parts)
    model.accept(node, number, stamp, [(key, value)] if parts else [])
    encoded = whole("item_encode_" + kind, node, number, stamp, *parts)
    assert encoded == item_bytes(kind, node, number, stamp, *parts)
    assert ok("store_accept_items", store, encoded) == (len(encoded), 1, 0)
    return encoded


def feed(pick, store, nodes, keys):
    """Lets the nodes issue items, which the store takes as bytes, and opens snapshots and vacuums between. Returns the
    model; the records of the log, each with its threshold or 0; and a checkpoint of before."""
    model, log, reading = Model(len(nodes)), [], 1
    older = older_of(pick, store, model)
    for _ in range(pick.randint(5, 60)):
        reading += pick.randint(0, 2)
        node = pick.randrange(len(nodes))
        issue = feed_batch if pick.random() < 0.2 else feed_item
        log.append((issue(pick, store, node, nodes[node], reading, keys, model), 0))
        if pick.random() < 0.1:
            entry = shared_record(pick, model, nodes, reading)
            assert ok("store_apply_records", store, entry[0]) == (len(entry[0]), 1, entry[1], 0)
            log.append(entry)
        if pick.random() < 0.1:
            library.call("node_raise", nodes[node], max(other.last for other in nodes))
        if pick.random() < 0.2 and len(model.snapshots) < 6:
            assert ok("snapshot_open_at_floor", store) == (model.open(model.floor()), model.floor())
        if pick.random() < 0.05:
            vacuum(pick, store, model)
        if pick.random() < 0.3:
            vacuum_part(pick, store, model)
        if pick.random() < 0.1:
            older = older_of(pick, store, model)
        if pick.random() < 0.1:
            older = newer_of(pick, store, model, older) or older
    assert whole("item_encode_retire", 263, 3, 131_077) == item_bytes("retire", 263, 3, 131_077)
    return model, log, older


def entries_of(name, data):
    """The entries that a call lists, and the key of the last one."""
    entries, key, at = [], b"", 0
    while at < len(data):
        first = at
        (length,) = struct.unpack_from("<Q", data, at)
        key, at = data[at + 8 : at + 8 + length], at + 8 + length
        at += 1 if name == "snapshot_changes" else 0
        if name != "snapshot_changes" or data[at - 1]:
            at += 8 + struct.unpack_from("<Q", data, at)[0]
        entries.append(data[first:at])
    return entries, key


def in_pieces(pick, name, *args):
    """All entries that a call lists of a range, the last two arguments, in pieces that go on from each other."""
    *args, start, end = args
    found, code = [], MORE
    while code == MORE:
        code, length, data, many = library.call(name, *args, start, end, pick.randint(0, 150))
        entries, last = entries_of(name, data)
        assert (len(data), len(entries)) == (length, many)
        found += entries
        if many > 0:
            start, end = (start, last) if name == "snapshot_scan_back" else (last + b"\0", end)
    assert code == OK
    return found


def some_range(pick):
    return tuple(bytes(pick.choices(b"ab\0\xff", k=pick.randint(0, 4))) for _ in range(2))


def look(pick, store, id, pairs, keys):
    """Compares what a snapshot returns with its pairs."""
    assert whole("snapshot_list", store, id) == listing(pairs)
    for _ in range(6):
        start, end = some_range(pick)
        part = [pair for pair in pairs if pair[0] >= start and (not end or pair[0] < end)]
        assert ok("snapshot_count", store, id, start, end) == len(part)
        assert whole("snapshot_digest", store, id, start, end) == hashlib.sha256(listing(part)).digest()
        room = pick.randint(0, 120)
        both = [listing([pair]) for pair in part]
        assert library.call("snapshot_scan", store, id, start, end, room) == expected(both, room)
        alone = [len(key).to_bytes(8, "little") + key for key, _ in part]
        assert library.call("snapshot_scan_keys", store, id, start, end, room) == expected(alone, room)
        assert library.call("snapshot_scan_back", store, id, start, end, room) == expected(both[::-1], room)
        assert in_pieces(pick, "snapshot_scan", store, id, start, end) == both
        assert in_pieces(pick, "snapshot_scan_back", store, id, start, end) == both[::-1]
        asked = [pick.choice(keys + [b"zz", b""]) for _ in range(pick.randint(0, 6))]
        places, data = b"", b""
        for key in asked:
            places += PLACE.pack(len(data), len(key))
            data += key
        answers = [answer(dict(pairs).get(key)) for key in asked]
        assert library.call("snapshot_read_all", store, id, places, data, room) == expected(answers, room)
        for key in asked:
            code, length, value = library.call("snapshot_view", store, id, key)
            assert (code, value) == ((OK, dict(pairs)[key]) if key in dict(pairs) else (NO_VALUE, None))
            assert (code, length, value) == library.call("snapshot_read", store, id, key, 99)[:2] + (value,)


def look_at_changes(pick, store, answers):
    """Compares what changes between two snapshots with the answers of all of them, by their ids."""
    before, after = (pick.choice(list(answers)) for _ in range(2))
    start, end = some_range(pick)
    old, new = answers[before], answers[after]
    changed = [key for key in sorted({*old, *new}) if old.get(key) != new.get(key)]
    parts = [sized(key) + answer(new.get(key)) for key in changed if key >= start and (not end or key < end)]
    room = pick.randint(0, 120)
    assert library.call("snapshot_changes", store, before, after, start, end, room) == expected(parts, room)
    assert in_pieces(pick, "snapshot_changes", store, before, after, start, end) == parts
    missing = max(answers) + 1
    for ids in (before, missing), (missing, after):
        assert library.call("snapshot_changes", store, *ids, start, end, room) == (NO_SNAPSHOT, 0, b"", 0)


def look_at_versions(pick, store, model, keys):
    """Compares the rows of a key between two stamps with the model."""
    key, room = pick.choice(keys + [b"zz", b""]), pick.randint(0, 200)
    stamps = [0, TOP, model.horizon, *(stamp + off for _, stamp, *_ in model.writes for off in (0, 1))]
    above, to = pick.choice(stamps), pick.choice(stamps)
    rows = sorted((row for row in model.rows if row[0] == key and above < row[1] <= to), reverse=True)
    data = b"".join(struct.pack("<QH", stamp, node) + answer(value) for _, stamp, node, value in rows)
    returned = OK, len(data), data if len(data) <= room else None, len(rows)
    assert library.call("store_versions", store, key, above, to, room) == returned
    if above >= model.horizon:
        accepted = [write for write in model.writes if write[0] == key and above < write[1] <= to]
        assert rows == sorted(accepted, reverse=True)


def open_snapshots(store):
    """The ids and the stamps of the open snapshots."""
    found = []
    while True:
        code, id, stamp = library.call("snapshot_at_place", store, len(found))
        if code == AFTER_LAST:
            return found
        found.append((id, stamp))


def compare(pick, store, model, keys):
    """Compares all that the store returns with the model."""
    nodes, floor, heads = len(model.links), model.floor(), [head for _, head, _ in model.links]
    assert [[*ok("store_link", store, node)] for node in range(nodes)] == model.links
    assert ok("store_nodes", store) == nodes and ok("store_floor", store) == floor
    assert ok("store_floor_node", store) == heads.index(floor)
    assert open_snapshots(store) == sorted(model.snapshots.items())
    assert ok("store_horizon", store) == model.horizon
    assert ok("store_size", store) == sizes(model.rows)
    answers = {id: model.list(id) for id in model.snapshots}
    for id, pairs in answers.items():
        look(pick, store, id, [*pairs.items()], keys)
    for _ in range(10):
        if answers:
            look_at_changes(pick, store, answers)
        look_at_versions(pick, store, model, keys)


def certified_rows(text):
    """The rows of a certificate, as those of a store."""
    rows = (certificate_line(line) for line in text.split(b"\n") if line.startswith(b"row "))
    return [(key, physical << 16 | counter, node, value) for key, (physical, counter), node, value in rows]


def read_saving(pick, saving, store):
    """Reads a saving to its end, in pieces of sizes by lot, and returns the bytes. In some calls a request for memory
    is refused: such a call returns fewer bytes, or none, and the next one goes on."""
    read, code = b"", MORE
    while code == MORE:
        room, granted = pick.choice((0, 1, 7, 100, 5000)), pick.choice((-1, -1, 0, 3))
        library.granted.value = granted
        code, many, piece = library.call("saving_read", saving, store, room)
        library.granted.value = -1
        if code == NO_MEMORY:
            assert granted >= 0 and many == 0
            code = MORE
        assert many == len(piece) and (code == OK or many == room or granted >= 0)
        read += piece
    assert code == OK
    return read


def save_in_pieces(pick, store, tag):
    """Saves a store in pieces, and returns the bytes."""
    saving = Handle()
    length = ok("saving_start", saving, store, tag)
    assert library.call("saving_start", saving, store, tag) == (IS_UNDER_WAY, 0)
    saved = read_saving(pick, saving, store)
    assert len(saved) == length
    assert library.call("saving_read", saving, store, 9) == (NOT_UNDER_WAY, 0, b"")
    return saved


def change_while_saved(pick, saved):
    """Opens a snapshot while a store is saved in pieces, which is refused from then on."""
    saving, store = Handle(), restored(saved)
    ok("saving_start", saving, store, 5)
    room = pick.randrange(len(saved))
    assert library.call("saving_read", saving, store, room) == (MORE, room, saved[:room])
    id, _ = ok("snapshot_open_at_floor", store)
    assert library.call("saving_read", saving, store, 9) == (CHANGED, 0, b"")
    ok("snapshot_close", store, id)
    assert library.call("saving_read", saving, store, 9) == (CHANGED, 0, b"")
    library.call("saving_drop", saving)
    assert library.call("saving_read", saving, store, 9) == (NOT_UNDER_WAY, 0, b"")
    library.call("store_close", store)


def restore_in_pieces(pick, store, saved):
    """Restores a store from pieces by lot, and returns the answer and the word."""
    restoring = Handle()
    ok("restoring_start", restoring)
    while saved:
        size = pick.randint(0, 200)
        ok("restoring_feed", restoring, saved[:size])
        saved = saved[size:]
    returned = library.call("restoring_finish", restoring, store)
    library.call("restoring_drop", restoring)
    return returned


def apply_all(store, log):
    """Applies records, of which none is refused."""
    data = b"".join(entry for entry, _ in log)
    greatest = max((threshold for _, threshold in log), default=0)
    assert ok("store_apply_records", store, data) == (len(data), len(log), greatest, 0)


def read_again(pick, store, log, nodes, saved):
    """Reads a log again from a place by lot, which changes nothing; and as a whole into a new store of so many nodes,
    and into the same, saved in the middle: then they have the same links, and the same answers at the floor."""
    apply_all(store, log[pick.randint(0, len(log)) :])
    assert whole_state(pick, store) == saved
    copy, middle = opened(nodes), pick.randint(0, len(log))
    apply_all(copy, log[:middle])
    early = restored(whole_state(pick, copy))
    apply_all(copy, log[middle:])
    apply_all(early, log[pick.randint(0, middle) :])
    assert whole_state(pick, early) == whole_state(pick, copy)
    for node in range(ok("store_nodes", store)):
        assert ok("store_link", copy, node) == ok("store_link", store, node)
    ids = [ok("snapshot_open_at_floor", each) for each in (store, copy)]
    assert whole("snapshot_list", store, ids[0][0]) == whole("snapshot_list", copy, ids[1][0])
    assert ids[0][1] == ids[1][1]
    ok("snapshot_close", store, ids[0][0])
    next = ok("store_nodes", store)
    gap = whole("record_encode_join", next + 1, ids[0][1])
    assert tuple(library.call("store_apply_records", store, gap)) == (NOT_NEXT, 0, 0, 0, next)
    for each in copy, early:
        library.call("store_close", each)


def refuse(pick, saved, log, nodes):
    """Checks that changed and cut bytes are refused, by a restore in pieces too."""
    changed = bytearray(saved)
    changed[pick.randrange(len(changed))] ^= 1 << pick.randrange(8)
    refused = library.call("store_restore", Handle(), bytes(changed))
    assert refused[0] == BAD_BYTES and restore_in_pieces(pick, Handle(), bytes(changed)) == refused
    cut = saved[: pick.randrange(len(saved))]
    assert restore_in_pieces(pick, Handle(), cut) == library.call("store_restore", Handle(), cut)
    for end in range(0, len(log), len(log) // 20 + 1):
        other = opened(nodes)
        code, used, _, _, word = library.call("store_apply_records", other, log[:end])
        assert (code, used, word) == (OK, end, 0) or (code, word) == (BAD_BYTES, 1)
        library.call("store_close", other)


def refuse_full(pick, store):
    """Makes each call with an output that has bytes: nothing takes place, and it keeps them. A closed store is refused
    before it, and a stamp above the floor or below the horizon after it."""
    output, saved = Handle(), whole_state(pick, store)
    length = ok("checkpoint_make", store, 5, output)
    stamp = pick.randint(0, 2 * ok("store_floor", store) + 1)
    for name, *args in ("certificate_make", stamp), ("checkpoint_make", 6), ("increment_make", stamp, 6):
        for each, refusal in (store, HAS_BYTES), (Handle(), CLOSED):
            code, *written = library.call(name, each, *args, output)
            assert code == refusal and not any(written)
    assert tuple(library.call("increment_apply", saved, b"", output)) == (HAS_BYTES, 0, 0)
    assert read_pieces(pick, output, length) == saved and whole_state(pick, store) == saved
    library.call("output_drop", output)


def refuse_increments(pick, store, model, older, many):
    """Checks which bytes are no increment of an older checkpoint, or of a newer one, and in which order that is found.
    Each flipped bit of a small increment is refused."""
    increment = increment_of(pick, store, model, older.floor)
    if increment is None:
        return
    saved, output = older.saved, Handle()

    def refusal(older_bytes, increment_bytes):
        code, length, word = library.call("increment_apply", older_bytes, increment_bytes, output)
        assert code != OK and length == 0 and has_no_bytes(output)
        return code, word

    changed = bytearray(saved)
    changed[pick.randrange(len(changed))] ^= 1 << pick.randrange(8)
    assert refusal(bytes(changed), b"") == (BAD_BYTES, library.call("store_restore", Handle(), bytes(changed))[1])
    assert refusal(saved, increment[: pick.randrange(len(increment))]) == (NO_INCREMENT, 1)
    assert refusal(saved, saved) == (NO_INCREMENT, 3)
    inner = increment[21:-32]
    since, state = struct.unpack_from(">Q", inner, 12)[0], inner[20:-32]
    assert since == older.floor and framed(b"\1" + framed(state, since), 5) == increment
    assert refusal(saved, framed(b"\1" + framed(bytes(2) + state[2:], since), 5)) == (NO_CHECKPOINT, 1)
    assert refusal(saved, framed(b"\1" + framed(state, since + 1), 5)) == (ABOVE_FLOOR, since)
    if model.horizon > 0:
        assert refusal(saved, framed(b"\1" + framed(state, model.horizon - 1), 5)) == (NO_INCREMENT, 0)
    early = increment_of(pick, store, model, model.horizon)
    if early[41:-64] != increment[41:-64]:
        assert refusal(saved, framed(b"\1" + framed(early[41:-64], since), 5)) == (NO_INCREMENT, 0)
    other = opened(many + 1)
    assert refusal(saved, increment_of(pick, other, Model(many + 1), 0)) == (NOT_LATER, 0)
    library.call("store_close", other)
    if len(increment) < 500 and pick.random() < 0.1:
        for bit in range(8 * len(increment)):
            changed = bytearray(increment)
            changed[bit // 8] ^= 1 << bit % 8
            code, word = refusal(saved, bytes(changed))
            assert code == NO_INCREMENT and word > 0


def look_at_newer(pick, store, model, older, keys):
    """Compares a store with the model that is restored from an older checkpoint and an increment. It also has the rows
    that vacuums dropped since, until it is vacuumed itself."""
    newer = newer_of(pick, store, model, older)
    if newer is None:
        return
    seen, other = copied(model), restored(newer.saved)
    seen.rows = newer.rows
    assert whole_state(pick, other) == newer.saved
    compare(pick, other, seen, keys)
    at = model.horizon
    assert ok("store_vacuum_to", other, at) == (at, *seen.vacuum(at)[2:])
    assert ok("store_size", other) == sizes(seen.rows)
    library.call("store_close", other)


def restored(saved):
    store = Handle()
    ok("store_restore", store, saved)
    return store


def with_grants(pick, grants, name, *args):
    """Makes a call that puts bytes into an output, while so many of its requests for memory are granted, and then one
    is refused. Returns its answer, what it wrote, and whether there was such a request. Reading and dropping an output
    takes no memory."""
    output = Handle()
    library.granted.value = grants
    code, length, numbers = put(name, *args, output)
    is_met = library.granted.value < 0
    library.granted.value = 0
    data = read_pieces(pick, output, length)
    library.call("output_drop", output)
    assert library.granted.value == 0
    library.granted.value = -1
    return code, (*numbers, data), is_met


def refused_in_turn(pick, name, *args):
    """Refuses each request for memory of a call that puts bytes into an output. After a refusal the output has no
    bytes. Returns after each call, so that what the call got can be looked at."""
    first = made(pick, name, *args)
    first = first if isinstance(first, tuple) else (first,)
    grants, is_met = 0, True
    while is_met:
        code, written, is_met = with_grants(pick, grants, name, *args)
        if code == OK:
            assert written == first
        else:
            assert code == NO_MEMORY and is_met and not any(written)
        yield
        grants += 1
    assert grants > 1


def refuse_memory(pick, saved, name, *args):
    """Refuses each request for memory of a call with a store, which stays as it was."""
    store = restored(saved)
    for _ in refused_in_turn(pick, name, store, *args):
        assert whole_state(pick, store) == saved
    library.call("store_close", store)


def play(pick):
    many = pick.randint(1, 4)
    keys = [bytes(pick.choices(b"ab\0\xff", k=pick.randint(1, 4))) for _ in range(8)]
    store, copy = opened(many), Handle()
    nodes = [library.call("node_open", node, 0)[0] for node in range(many)]
    model, log, older = feed(pick, store, nodes, keys)
    saved = whole_state(pick, store)
    assert ok("store_restore", copy, saved) == 5 and whole_state(pick, copy) == saved
    library.call("store_close", copy)
    assert tuple(restore_in_pieces(pick, copy, saved)) == (OK, 5) and whole_state(pick, copy) == saved
    assert save_in_pieces(pick, store, 5) == saved == save_in_pieces(pick, copy, 5)
    change_while_saved(pick, saved)
    for each in store, copy:
        compare(pick, each, model, keys)
    assert ok("store_rows", store) == ok("store_size", store)[0]
    refuse(pick, saved, b"".join(entry for entry, _ in log), many)
    refuse_full(pick, store)
    look_at_newer(pick, store, model, older, keys)
    refuse_increments(pick, store, model, older, many)
    at, kept, total, _ = ok("store_vacuum", store)
    *numbers, text = made(pick, "certificate_make", store, at)
    assert at == model.floor() and numbers == [0, kept, total]
    assert ok("certificate_check", text) == (kept, total, 0)
    above = [write for write in model.writes if write[1] > at]
    assert ok("store_size", store) == sizes(certified_rows(text) + above)
    assert ok("store_horizon", store) == model.floor()
    if pick.random() < 0.1:
        vacuumed = whole_state(pick, store)
        refuse_memory(pick, vacuumed, "checkpoint_make", 5)
        refuse_memory(pick, vacuumed, "certificate_make", at)
        refuse_memory(pick, vacuumed, "increment_make", at, 5)
        for _ in refused_in_turn(pick, "increment_apply", vacuumed, made(pick, "increment_make", store, at, 5)[1]):
            pass
    model.begun = (at, b"")
    while model.begun:
        vacuum_part(pick, copy, model)
    assert ok("store_size", copy) == ok("store_size", store)
    ok("snapshot_close_all", store)
    assert open_snapshots(store) == []
    read_again(pick, store, log, many, whole_state(pick, store))
    library.call("store_close", store)
    library.call("store_close", copy)


library = Library(sys.argv[1])
pick = random.Random(int(sys.argv[2]))
for _ in range(ROUNDS):
    play(pick)
no_memory.check(library)
print("all right")
