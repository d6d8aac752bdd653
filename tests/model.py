"""What the program is expected to return, written only from the formats, and of a store from its definitions
(reference.py). It shares nothing with the product.

A stamp is a pair of a reading and a counter. A write is (key, stamp, node, value), where the value of a deletion is
None.
"""
import re

from reference import Refused, Store, cost, newest

MOST_NUM = 2**64 - 1
MOST_READING = 2**48 - 1
MOST_COUNTER = 2**16 - 1
START = (0, 0)
# What the word of a refusal is, by the number of the refusal.
WORDS = {3: b"at", 6: b"next", 8: b"floor", 9: b"horizon"}


def spelled(data):
    """Returns the only word that spells these bytes."""
    if not data:
        return b"%"
    return b"".join(b"%c" % byte if 0x21 <= byte <= 0x7E and byte != 0x25 else b"%%%02X" % byte for byte in data)


def num(word):
    if not re.fullmatch(rb"0|[1-9][0-9]*", word) or int(word) > MOST_NUM:
        raise ValueError
    return int(word)


def node_num(word):
    if num(word) > 65_535:
        raise ValueError
    return num(word)


def stamp(word):
    reading, dot, counter = word.partition(b".")
    if not dot or num(reading) > MOST_READING or num(counter) > MOST_COUNTER:
        raise ValueError
    return num(reading), num(counter)


def data(word):
    raw = b"" if word == b"%" else re.sub(rb"%([0-9A-F]{2})", lambda found: bytes([int(found[1], 16)]), word)
    if not word or spelled(raw) != word:
        raise ValueError
    return raw


def put(at):
    return b"%d.%d" % at


def lines_of(text):
    """Returns the lines of an input; the last one may have no line feed."""
    lines = text.split(b"\n")
    return lines[:-1] if lines[-1] == b"" else lines


def key_fits(key):
    return 1 <= len(key) <= 255


def value_fits(value):
    return value is None or len(value) <= 65_535


def witness_line(change):
    key, before, at = change
    return b"witness %s %s %s" % (spelled(key), put(before) if before else b"none", put(at))


def refusal_line(number, word):
    if number not in WORDS:
        return b"refused %d" % number
    return b"refused %d %s %s" % (number, WORDS[number], put(word) if isinstance(word, tuple) else b"%d" % word)


class World:
    """The nodes, the messages between them, and the store that they feed."""

    FORMS = {
        b"write": (node_num, num, data, data),
        b"delete": (node_num, num, data),
        b"report": (node_num, num),
        b"join": (),
        b"retire": (node_num, num),
        b"send": (node_num, num),
        b"receive": (node_num, num, num),
        b"observe": (node_num, num, num),
        b"deliver": (node_num, num),
        b"open": (lambda word: None if word == b"floor" else stamp(word),),
        b"read": (num, data),
        b"list": (num,),
        b"close": (num,),
        b"floor": (),
        b"vacuum": (),
        b"rows": (),
    }

    def __init__(self, nodes):
        self.clocks = [START] * nodes
        self.items = [[] for _ in range(nodes)]
        self.closed = [False] * nodes
        self.messages = []
        self.store = Store(nodes, START)

    def event(self, line):
        """Returns the call that a line asks for; raises ValueError where it is not the line of an event."""
        verb, *words = line.split(b" ")
        forms = self.FORMS.get(verb)
        if forms is None or len(forms) != len(words):
            raise ValueError
        values = [form(word) for form, word in zip(forms, words)]
        return lambda: getattr(self, verb.decode())(*values)

    def answer(self, line):
        call = self.event(line)
        try:
            return call()
        except Refused as refusal:
            return [refusal_line(*refusal.args)]

    def known(self, node):
        if node >= len(self.clocks):
            raise Refused(1)

    def active(self, node):
        """Checks that the node exists, and has not issued its last item."""
        self.known(node)
        if self.closed[node]:
            raise Refused(27)

    def join(self):
        start = self.store.floor()
        node = self.store.join(start)
        self.clocks.append(start)
        self.items.append([])
        self.closed.append(False)
        return [b"joined %d start %s" % (node, put(start))]

    def tick(self, node, reading, other=START):
        """Returns the least stamp above the node's and the other one, at this reading or later, and makes it the
        node's."""
        if reading > MOST_READING:
            raise Refused(2)
        last = max(self.clocks[node], other)
        if reading > last[0]:
            self.clocks[node] = (reading, 0)
        elif last[1] == MOST_COUNTER:
            raise Refused(3, last)
        else:
            self.clocks[node] = (last[0], last[1] + 1)
        return self.clocks[node]

    def issue(self, node, reading, *writes):
        self.active(node)
        for key, value in writes:
            if not key_fits(key):
                raise Refused(12)
            if not value_fits(value):
                raise Refused(13)
        at = self.tick(node, reading)
        self.items[node].append((at, writes))
        return [b"stamp %s item %d" % (put(at), len(self.items[node]) - 1)]

    def write(self, node, reading, key, value):
        return self.issue(node, reading, (key, value))

    def delete(self, node, reading, key):
        return self.issue(node, reading, (key, None))

    def report(self, node, reading):
        return self.issue(node, reading)

    def retire(self, node, reading):
        returned = self.issue(node, reading)
        self.closed[node] = True
        return returned

    def send(self, node, reading):
        self.active(node)
        self.messages.append(self.tick(node, reading))
        return [b"stamp %s message %d" % (put(self.messages[-1]), len(self.messages) - 1)]

    def receive(self, node, reading, message):
        self.active(node)
        if message >= len(self.messages):
            raise Refused(4)
        return [b"stamp " + put(self.tick(node, reading, self.messages[message]))]

    def observe(self, node, reading, snapshot):
        self.active(node)
        return [b"stamp " + put(self.tick(node, reading, self.store.at(snapshot)))]

    def deliver(self, node, item):
        self.known(node)
        if item >= len(self.items[node]):
            raise Refused(5)
        at, writes = self.items[node][item]
        self.store.accept(node, item, at, writes, self.closed[node] and item == len(self.items[node]) - 1)
        return [b"accepted " + put(at)]

    def open(self, at):
        snapshot = self.store.open(self.store.floor() if at is None else at)
        return [b"snapshot %d at %s" % (snapshot, put(self.store.at(snapshot)))]

    def read(self, snapshot, key):
        value = self.store.read(snapshot, key)
        return [b"none" if value is None else b"value " + spelled(value)]

    def list(self, snapshot):
        rows = [b"row %s %s" % (spelled(key), spelled(value)) for key, value in self.store.list(snapshot).items()]
        return [b"listing %d" % len(rows)] + rows

    def close(self, snapshot):
        return [b"closed " + put(self.store.close(snapshot))]

    def floor(self):
        return [b"floor " + put(self.store.floor())]

    def vacuum(self):
        floor = self.store.floor()
        _, changes, kept, bytes, dropped = self.store.vacuum(floor)
        first = b"vacuum %s kept %d dropped %d bytes %d" % (put(floor), kept, dropped, bytes)
        return [first] + [witness_line(change) for change in changes]

    def rows(self):
        return [b"rows %d" % len(self.store.rows)]


def run(text):
    """Returns what `run` writes for an input, and its exit status."""
    lines = lines_of(text)
    try:
        verb, count = lines[0].split(b" ")
        if verb != b"nodes" or not 1 <= num(count) <= 64:
            raise ValueError
    except (ValueError, IndexError):
        return b"refused 17\n", 2
    world, output = World(num(count)), [lines[0]]
    for number, line in enumerate(lines[1:], 2):
        try:
            output += world.answer(line)
        except ValueError:
            return b"\n".join(output + [b"refused 16 line %d" % number, b""]), 2
    return b"\n".join(output + [b""]), 0


def certificate_line(line):
    """Returns what a line of a certificate says; raises ValueError where it is no such line."""
    verb, *words = line.split(b" ")
    if verb == b"point" and len(words) == 1:
        return stamp(words[0])
    if verb == b"row" and len(words) == 5 and words[3] == b"value":
        return data(words[0]), stamp(words[1]), node_num(words[2]), data(words[4])
    if verb == b"row" and len(words) == 4 and words[3] == b"delete":
        return data(words[0]), stamp(words[1]), node_num(words[2]), None
    if verb == b"witness" and len(words) == 3:
        return data(words[0]), None if words[1] == b"none" else stamp(words[1]), stamp(words[2])
    raise ValueError


def ascends(keys):
    return all(one < next_one for one, next_one in zip(keys, keys[1:]))


def reason(points, rows, witnesses):
    """Returns the first reason why a certificate shows nothing, 0 where there is none."""
    if not points or not ascends(points):
        return 1
    if not ascends([row[:3] for row in rows]):
        return 2
    if any(row[1] > points[-1] for row in rows):
        return 3
    before_each = dict(zip(points, [None] + points))
    last = None
    for key, before, at in witnesses:
        if last is not None and (key, at) <= last:
            return 4
        last = key, at
        if at not in before_each or before_each[at] != before:
            return 5
        if newest(rows, key, at) == (newest(rows, key, before) if before else None):
            return 6
    if len(rows) != len(witnesses):
        return 7
    return 0 if all(key_fits(key) and value_fits(value) for key, _, _, value in rows) else 8


def check(text):
    """Returns what `check` writes for an input, and its exit status."""
    kinds = [b"point", b"row", b"witness"]
    parts = {kind: [] for kind in kinds}
    last = 0
    for number, line in enumerate(lines_of(text), 1):
        try:
            said = certificate_line(line)
            kind = line.split(b" ")[0]
            if kinds.index(kind) < last:
                raise ValueError
        except ValueError:
            return b"refused 16 line %d\n" % number, 2
        last = kinds.index(kind)
        parts[kind].append(said)
    why = reason(*parts.values())
    rows = parts[b"row"]
    return (b"refused 22 reason %d\n" % why, 2) if why else (b"fewest %d bytes %d\n" % (len(rows), cost(rows)), 0)


def storm(nodes, writes, keys):
    """Returns what a storm of these sizes writes: all nodes write with the same stamps, so those of the greatest node
    are read."""
    values = {b"k%d" % (number % keys): b"%d.%d" % (nodes - 1, number) for number in range(writes)}
    lines = [b"accepted %d %d" % (node, writes + 1) for node in range(nodes)] + [b"floor %d.0" % (writes + 1)]
    lines += [b"%s %s" % pair for pair in sorted(values.items())]
    return b"\n".join(lines + [b"kept %d" % len(values), b"history legal", b""])
