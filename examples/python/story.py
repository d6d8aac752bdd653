"""The story of examples/c/story.c, with the package hlcstore.

The package has no buffers of its caller and no store that is not open yet. So what the C program prints about the room
of a buffer is computed here, and three of its answers are only printed.
"""

import struct

import hlcstore
from hlcstore import Error, Item, Node, Store, stamp


def put(*words):
    """Prints a line, in which a stamp is its number."""
    print(*(int(word) if isinstance(word, int) else word for word in words))


def print_answer(what, call, *args):
    """Prints the code of an answer, and its number or the refusal's word."""
    try:
        put(what, 0, call(*args))
    except Error as refused:
        put(what, refused.code, refused.word)


def print_check(call, *args):
    print_answer("check", lambda: call(*args) or 0)


def line(what, call, *args):
    try:
        call(*args)
        put(what, 0)
    except Error as refused:
        put(what, refused.code)


def print_bytes(what, call, *args):
    try:
        code, value = 0, call(*args)
    except Error as refused:
        code, value = refused.code, b""
    put(what, code, len(value), value.hex())


def print_item(what, call, *args):
    """Prints the number and the stamp of the item that a node issues, and returns it."""
    try:
        item = call(*args)
    except Error as refused:
        put(what, refused.code, 0, refused.word)
        return None
    put(what, 0, item.number, item.stamp)
    return item


def accept(store, item):
    print_answer("accept", lambda: store.accept(item) or item.stamp)


def write(store, node, reading, key, value):
    """Lets a node issue a write, and the store accept it."""
    item = print_item("write", node.write, reading, key, value)
    if item:
        accept(store, item)


def report(store, node, reading):
    accept(store, print_item("report", node.report, reading))


def open_snapshot(store):
    snapshot = store.snapshot()
    put("snapshot", 0, snapshot.id, snapshot.stamp)
    return snapshot


def closed_snapshot():
    """Returns a snapshot that is not open."""
    with Store(1).snapshot() as snapshot:
        return snapshot


def sized(part):
    """Some bytes with their length before them, as hlc_snapshot_list writes them."""
    return struct.pack("<Q", len(part)) + part


def pairs(snapshot, *bounds):
    """The pairs of a range, as hlc_snapshot_list writes them."""
    return [sized(key) + sized(value) for key, value in snapshot.items(*bounds)]


def print_list(snapshot):
    print_bytes("list", lambda: b"".join(pairs(snapshot)))


def print_fitting(what, parts, room, code=0):
    """Prints as many of some parts as have room. If all of them have, the code is this one."""
    fitting = b""
    many = 0
    while many < len(parts) and len(fitting) + len(parts[many]) <= room:
        fitting += parts[many]
        many += 1
    put(what, 104 if many < len(parts) else code, len(fitting), many, fitting.hex())


def scan(room, snapshot, *bounds):
    try:
        print_fitting("scan", pairs(snapshot, *bounds), room)
    except Error as refused:
        put("scan", refused.code, 0, 0, "")


def scan_back(room, snapshot, *bounds):
    try:
        listed = [sized(key) + sized(value) for key, value in snapshot.items(*bounds, reverse=True)]
        print_fitting("back", listed, room)
    except Error as refused:
        put("back", refused.code, 0, 0, "")


def answer(value):
    """The bytes of an answer, as hlc_snapshot_read_all writes them."""
    return b"\0" if value is None else b"\1" + sized(value)


def changes(room, before, after, *bounds):
    """Prints what changes from one snapshot to another."""
    try:
        listed = [sized(key) + answer(value) for key, value in before.changes(after, *bounds)]
        print_fitting("changes", listed, room)
    except Error as refused:
        put("changes", refused.code, 0, 0, "")


def versions(store, key, *stamps):
    """Prints the rows of a key above one stamp and at or below another."""
    rows = [struct.pack("<QH", row.stamp, row.node) + answer(row.value) for row in store.versions(key, *stamps)]
    print_fitting("versions", rows, 64)


def scan_keys(room, snapshot):
    try:
        print_fitting("scan", [sized(key) for key in snapshot.keys()], room)
    except Error as refused:
        put("scan", refused.code, 0, 0, "")


def read_all(room, snapshot, code=0):
    """Reads two keys. The C program reads a third one, whose place is outside the bytes, where it gets the code."""
    try:
        values = snapshot.read_all([b"city", b"town"])
        print_fitting("read all", [answer(value) for value in values], room, code)
    except Error as refused:
        put("read all", refused.code, 0, 0, "")


def look_round(store, first, second):
    """Lists parts of snapshots, what changes between them and the rows of a key, and asks what the store has."""
    closed = closed_snapshot()
    scan(64, second)
    scan(64, first, b"a", b"d")
    scan(24, first, b"a")
    scan(64, first, b"d")
    scan(64, closed)
    scan_keys(12, first)
    scan_keys(11, first)
    scan_keys(64, closed)
    scan_back(64, second)
    scan_back(64, first, b"a", b"d")
    scan_back(24, first)
    scan_back(64, first, b"", b"city")
    scan_back(64, closed)
    changes(64, first, second)
    changes(64, second, first)
    changes(13, first, second)
    changes(64, first, second, b"d")
    changes(64, first, first)
    changes(64, first, closed)
    versions(store, b"city")
    versions(store, b"city", stamp(10), stamp(21) - 1)
    versions(store, b"lake")
    print_bytes("digest", first.digest)
    print_bytes("digest", first.digest, b"d")
    print_bytes("digest", closed.digest)
    read_all(64, first)
    read_all(14, first)
    read_all(64, first, 103)
    read_all(64, closed)
    print_answer("count", first.count, b"a", b"d")
    print_answer("count", closed.count, b"a", b"d")
    print_answer("horizon", lambda: store.horizon)
    print_answer("nodes", lambda: store.nodes)
    for node in 0, 1, 2:
        try:
            link = store.link(node)
            put("link", 0, link.next, link.head, int(link.retired))
        except Error as refused:
            put("link", refused.code, 0, 0, 0)
    print_answer("floor node", store.floor_node)
    print_opened(store)


def print_sizes(store):
    try:
        put("sizes", 0, *store.sizes)
    except Error as refused:
        put("sizes", refused.code, 0, 0, 0, 0)


def print_opened(store):
    for snapshot in store.snapshots():
        put("opened", 0, snapshot.id, snapshot.stamp)
    put("opened", 117, 0, 0)


def save(store):
    """Saves the store, makes another one of the bytes, and reads it. Bytes that were cut or changed are refused."""
    for _ in range(2):
        print_answer("checkpoint", lambda: len(store.checkpoint(77)))
    saved = store.checkpoint(77)
    print_answer("restore", Store.restore, saved[:-1])
    print_answer("restore", Store.restore, bytes([saved[0] ^ 1]) + saved[1:])
    with Store.restore(saved) as copy:
        put("restore", 0, copy.tag)
        put("restore", 101, 0)
        print_answer("rows", lambda: copy.rows)
        print_bytes("read", copy.snapshots()[0].get, b"city")


def print_accepted(store, log):
    try:
        many = store.accept_items(log)
        put("items", 0, len(log), many, 0)
    except Error as refused:
        put("items", refused.code, refused.used, refused.accepted, refused.word)


def replicate():
    """Writes three items to a log, and lets another store take them from there, some of them again."""
    items = [
        Item.write(0, 0, stamp(10), b"city", b"Lyon"),
        Item.report(0, 1, stamp(11)),
        Item.retire(0, 2, stamp(12)),
        Item.delete(0, 3, stamp(13), b""),
    ]
    for item in items:
        print_answer("item", lambda: len(bytes(item)))
    log = b"".join(bytes(item) for item in items[:3])
    with Store(1) as replica:
        put("open", 0)
        for part in log[:32], log[52:72], log[:40], log:
            print_accepted(replica, part)
        print_answer("rows", lambda: replica.rows)
        replica.close()
        print_accepted(replica, log)


def restart():
    """Makes a node as it was before a restart, and raises its clock."""
    try:
        Node.restore(7, stamp(0, 2), 3)
    except Error as refused:
        put("restore", refused.code, 0, 2)
    node = Node.restore(7, stamp(10), 3)
    put("restore", 0, node.next, node.last)
    node.raise_to(stamp(12, 5))
    node.raise_to(stamp(11))
    print_item("report", node.report, 1)


def accept_three(store, node):
    """Lets a node issue a write and a deletion, and passes them to the store in one call. The C program adds an entry
    whose key is not there, and gets its code."""
    items = [
        print_item("write", node.write, 40, b"lake", b"Como"),
        print_item("delete", node.delete, 41, b"town"),
    ]
    put("all", 103, store.accept_all(items), 0)
    try:
        store.accept_all(items[1:])
    except Error as refused:
        put("all", refused.code, refused.accepted, refused.word)


def print_vacuum(what, vacuum):
    put(what, 0, vacuum.stamp)
    put("kept", 0, vacuum.kept, vacuum.cost)
    put("dropped", 0, vacuum.dropped)


def certify(store, at):
    """Makes the certificate of the rows at or below a stamp."""
    try:
        kept, cost, certificate = store.certificate(at)
    except Error as refused:
        put("certificate", refused.code, 0, refused.word)
        return None
    put("certificate", 0, len(certificate), 0)
    put("kept", 0, kept, cost)
    return certificate


def check(certificate):
    try:
        put("checked", 0, *hlcstore.check(certificate), 0)
    except Error as refused:
        put("checked", refused.code, 0, 0, refused.word)


def join_at(store, start):
    try:
        node = store.join_at(start)
        put("join at", 0, node.id, node.last)
    except Error as refused:
        put("join at", refused.code, 0, refused.word)


def keep_above(store, node):
    """Lets a node join at a start that the caller names, and vacuums to a stamp below the floor (closed timestamp),
    which keeps what lies above that stamp."""
    write(store, node, 39, b"city", b"Bern")
    report(store, node, 45)
    join_at(store, stamp(40))
    join_at(store, stamp(50))
    print_check(store.check_vacuum, stamp(42))
    print_check(store.check_vacuum, stamp(40))
    print_vacuum("vacuum to", store.vacuum_to(stamp(40)))
    print_answer("vacuum to", store.vacuum_to, stamp(39))
    certify(store, stamp(40))
    print_answer("rows", lambda: store.rows)
    print_sizes(store)


def vacuum_parts(store, at, limit):
    """Vacuums in parts of so many keys, and prints the key after which each next part goes on."""
    after = b""
    while after is not None:
        try:
            *numbers, after = store.vacuum_part(at, after, limit)
        except Error as refused:
            put("part", refused.code, refused.word, 0, 0, 0, 0, "")
            return
        put("part", 0, *numbers, int(after is not None), (after or b"").hex())


def keep_in_parts(store, b, c):
    """Vacuums key by key, and by two keys at a later stamp, after which a whole vacuum drops nothing."""
    write(store, c, 46, b"city", b"Oslo")
    write(store, c, 47, b"lake", b"Nemi")
    write(store, c, 48, b"city", b"Riga")
    report(store, b, 48)
    vacuum_parts(store, stamp(49), 1)
    vacuum_parts(store, stamp(47), 1)
    print_answer("horizon", lambda: store.horizon)
    vacuum_parts(store, stamp(46), 1)
    vacuum_parts(store, stamp(48), 2)
    print_vacuum("vacuum to", store.vacuum_to(stamp(48)))
    print_sizes(store)


def begin():
    """Opens the store of the story, as late as the C program does."""
    put("version", hlcstore.version() - 200)
    for answer in 0, 6, 4, 107, 108:
        print(f"answer {answer} {hlcstore.error_name(answer)}: {hlcstore.error_text(answer)}")
    with Store(1) as closed:
        pass
    print_answer("rows", lambda: closed.rows)
    print_sizes(closed)
    line("open", Store, 0)
    store = Store(2)
    put("open", 0)
    put("open", 101)
    return store


def write_and_read(store, a, b):
    """Lets two nodes write, and returns two snapshots."""
    write(store, a, 10, b"city", b"Lyon")
    print_answer("again", store.accept_write, 0, 0, stamp(10), b"city", b"Lyon")
    print_check(store.check_write, 0, 1, stamp(11), b"", b"Lyon")
    write(store, a, 10, b"city", b"Paris")
    sent = a.send(12)
    put("send", 0, sent)
    print_answer("receive", b.receive, sent, 11)
    report(store, b, 11)
    print_answer("floor", lambda: store.floor)
    print_answer("snapshot", store.snapshot, store.floor + 1)
    first = open_snapshot(store)
    print_bytes("read", first.get, b"city")
    put("short", 0, len(first[b"city"]), 1)
    print_bytes("read", first.__getitem__, b"town")
    print_bytes("read", closed_snapshot().get, b"city")
    write(store, b, 20, b"town", b"")
    item = print_item("delete", a.delete, 21, b"city")
    accept(store, item)
    report(store, b, 22)
    return first, open_snapshot(store)


def vacuum(store, first):
    print_answer("rows", lambda: store.rows)
    print_sizes(store)
    print_vacuum("vacuum", store.vacuum())
    print_bytes("read", first.get, b"city")
    print_answer("close", store.close_snapshot, first.id)
    print_answer("close", store.close_snapshot, first.id)
    print_answer("floor", lambda: store.floor)
    certify(store, store.floor)
    print_vacuum("vacuum", store.vacuum())
    certify(store, store.floor - 1)
    certify(store, store.floor + 1)
    certificate = certify(store, store.floor)
    print(certificate.decode(), end="")
    check(certificate)
    check(certificate[:35])
    check(certificate[:4])
    print_answer("rows", lambda: store.rows)
    print_sizes(store)
    print_answer("snapshot", store.snapshot, stamp(0, 1))


def join_and_retire(store, a, b):
    c = store.join()
    put("join", 0, c.id, c.last)
    write(store, c, 1, b"city", b"Rome")
    accept_three(store, b)
    item = print_item("retire", a.retire, 30)
    accept(store, item)
    write(store, a, 31, b"city", b"Nice")
    print_check(store.check_report, 0, 4, stamp(31))
    write(store, b, 1 << 48, b"city", b"Nice")
    write(store, b, 31, bytes(256), b"Nice")
    write(store, b, 31, b"city", bytes(65536))
    keep_above(store, c)
    keep_in_parts(store, b, c)


with begin() as store:
    a, b = Node(0), Node(1)
    first, second = write_and_read(store, a, b)
    for snapshot in first, second, closed_snapshot():
        print_list(snapshot)
    look_round(store, first, second)
    save(store)
    replicate()
    restart()
    vacuum(store, first)
    join_and_retire(store, a, b)
    line("close all", store.close_all)
    print_opened(store)
    store.close()
    line("close all", store.close_all)
    print_answer("floor", lambda: store.floor)
