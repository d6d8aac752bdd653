"""For tests only: the calls of the C library with ctypes, as its header declares them. Programs use bindings/python.

`call(NAME, ..)` makes the call hlc_NAME. Its arguments are what the call reads: a number; a Handle or an RawNode; bytes
for bytes with their length, also for packed entries and places; and for a buffer its room. It returns the answer, and
then what the call wrote, in the order of the header: numbers; of a buffer the length, and the bytes if they fit; and of
a place of bytes the length, and the bytes there, or None at NULL.
Every call has words and buffers of its own. For one thread.

`granted.value` is how many requests for memory are granted before one is refused, or below 0: see grant.c, with which
the library is linked.
"""
import ctypes as c
import pathlib
import re
import struct

HEADER = pathlib.Path(__file__).resolve().parent.parent / "include" / "hlcstore.h"
NUMBERS = {"uint16_t": c.c_uint16, "uint32_t": c.c_uint32, "uint64_t": c.c_uint64, "size_t": c.c_size_t}
NUMBERS |= {"bool": c.c_bool, "hlc_answer": c.c_uint32}
# An entry of hlc_store_accept_all and a place of hlc_snapshot_read_all, packed in the layout of C.
ENTRY = struct.Struct("@H?QQNNNN")
PLACE = struct.Struct("@NN")
SIZES = {"uint8_t": 1, "hlc_entry": ENTRY.size, "hlc_place": PLACE.size}


class Handle(c.Structure):
    """A store, closed at first; a restore or a saving, not started; or an output, without bytes."""

    _fields_ = [("at", c.c_void_p), ("live", c.c_bool)]


class RawNode(c.Structure):
    _fields_ = [("id", c.c_uint16), ("last", c.c_uint64), ("next", c.c_uint64), ("retired", c.c_bool)]


STRUCTURES = {name: Handle for name in ("hlc_store", "hlc_output", "hlc_restoring", "hlc_saving")}
STRUCTURES["hlc_node"] = RawNode


class Number:
    """A number that a call reads."""

    def __init__(self, type):
        self.types = [NUMBERS[type]]

    def passed(self, taken):
        return [next(taken)], []


class Place:
    """A number that a call writes."""

    def __init__(self, type):
        self.number = NUMBERS[type]
        self.types = [c.POINTER(self.number)]

    def passed(self, taken):
        number = self.number()
        return [number], [lambda: number.value]


class Structure:
    """A store, an output, a restore, a saving or a node."""

    def __init__(self, type):
        self.types = [c.POINTER(STRUCTURES[type])]

    def passed(self, taken):
        return [next(taken)], []


class Bytes:
    """Bytes that a call reads, and how many entries of this type they are."""

    types = [c.c_char_p, c.c_size_t]

    def __init__(self, type):
        self.size = SIZES[type]

    def passed(self, taken):
        data = next(taken)
        return [data, len(data) // self.size], []


class Buffer:
    """A buffer that a call writes, its room, and the length of the answer."""

    types = [c.c_void_p, c.c_size_t, c.POINTER(c.c_size_t)]

    def passed(self, taken):
        room = next(taken)
        out, length = c.create_string_buffer(room), c.c_size_t()
        written = [lambda: length.value, lambda: out.raw[: length.value] if length.value <= room else None]
        return [out, room, length], written


class Lent:
    """A place of bytes that a call writes, and their length."""

    types = [c.POINTER(c.c_void_p), c.POINTER(c.c_size_t)]

    def passed(self, taken):
        at, length = c.c_void_p(1), c.c_size_t(1)
        written = [lambda: length.value, lambda: at.value and c.string_at(at.value, length.value)]
        return [at, length], written


def parameters(text):
    """The parameters of a declaration."""
    found = []
    parts = re.findall(r"(const )?(\w+) (\*{0,2})(\w+)", text)
    while parts:
        const, type, pointer, _ = parts.pop(0)
        if not pointer:
            found.append(Number(type))
        elif pointer == "**":
            found.append(Lent())
            del parts[0]
        elif type in STRUCTURES:
            found.append(Structure(type))
        elif const:
            found.append(Bytes(type))
            del parts[0]
        elif type == "uint8_t":
            found.append(Buffer())
            del parts[:2]
        else:
            found.append(Place(type))
    return found


class Library:
    """The library in a shared object."""

    def __init__(self, path):
        library = c.CDLL(path)
        self.granted = c.c_long.in_dll(library, "requests_granted")
        self.calls = {}
        declarations = re.sub(r"/\*.*?\*/", "", HEADER.read_text(), flags=re.S)
        for result, name, text in re.findall(r"^(\w+) hlc_(\w+)\(([^)]*)\)[^;]*;", declarations, re.M):
            function, reads = getattr(library, "hlc_" + name), parameters(text)
            function.argtypes = [type for parameter in reads for type in parameter.types]
            function.restype = STRUCTURES.get(result) or NUMBERS.get(result)
            self.calls[name] = function, reads

    def call(self, name, *args):
        """Makes a call, and returns a tuple of its answer and what it wrote."""
        function, reads = self.calls[name]
        taken, passed, written = iter(args), [], []
        for parameter in reads:
            arguments, results = parameter.passed(taken)
            passed += arguments
            written += results
        assert next(taken, None) is None, "too many arguments"
        answer = function(*passed)
        return (answer, *(result() for result in written))
