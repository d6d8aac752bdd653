"""etcd's gRPC for `etcd.py`, where Python has grpc (python3-grpcio): without base64 and JSON.

A request and an answer are the same dictionaries as those of the gateway, but with bytes as they are. Their messages
are coded here by tables of the fields that are used, which are those of etcd's rpc.proto. Without grpc, `grpc` is None.
"""

import queue
import sys
import threading

try:
    import grpc
except ImportError:
    DEBIAN = "/usr/lib/python3/dist-packages"  # where Debian has it, for a Python that looks elsewhere
    sys.path.append(DEBIAN)
    try:
        import grpc
    except ImportError:
        grpc = None
    finally:
        sys.path.remove(DEBIAN)

ENUMS = {"ASCEND": 1, "DESCEND": 2, "KEY": 0, "MOD": 2, "EQUAL": 0, "NODELETE": 1}
SORT_BY_MOD = 3  # as a sort's target, which has another number there than as that of a comparison

# Of each message: the number of a field, its name, and whether it is a number, bytes, or a message (in a list, many).
HEADER = {3: ("revision", int)}
PAIR = {1: ("key", bytes), 3: ("mod_revision", int), 5: ("value", bytes)}
RANGE = {
    1: ("key", bytes), 2: ("range_end", bytes), 3: ("limit", int), 5: ("sort_order", int), 6: ("sort_target", int),
    8: ("keys_only", int), 10: ("min_mod_revision", int), 11: ("max_mod_revision", int),
}  # fmt: skip
RANGED = {1: ("header", HEADER), 2: ("kvs", [PAIR])}
PUT = {1: ("key", bytes), 2: ("value", bytes), 3: ("lease", int)}
DELETE = {1: ("key", bytes), 2: ("range_end", bytes)}
COMPARE = {1: ("result", int), 2: ("target", int), 3: ("key", bytes), 6: ("mod_revision", int)}
OPERATION = {1: ("request_range", RANGE), 2: ("request_put", PUT), 3: ("request_delete_range", DELETE)}
DONE = {1: ("response_range", RANGED)}
TRANSACTION = {1: ("compare", [COMPARE]), 2: ("success", [OPERATION]), 3: ("failure", [OPERATION])}
TRANSACTED = {1: ("header", HEADER), 2: ("succeeded", int), 3: ("responses", [DONE])}
CREATE = {
    1: ("key", bytes), 2: ("range_end", bytes), 3: ("start_revision", int), 5: ("filters", int), 8: ("fragment", int),
}  # fmt: skip
WATCH = {1: ("create_request", CREATE)}
EVENT = {2: ("kv", PAIR)}
WATCHED = {1: ("header", HEADER), 4: ("canceled", int), 5: ("compact_revision", int), 11: ("events", [EVENT])}
CALLS = {
    "kv/range": ("/etcdserverpb.KV/Range", RANGE, RANGED),
    "kv/txn": ("/etcdserverpb.KV/Txn", TRANSACTION, TRANSACTED),
    "kv/compaction": ("/etcdserverpb.KV/Compact", {1: ("revision", int)}, {1: ("header", HEADER)}),
}
WATCH_CALL = "/etcdserverpb.Watch/Watch"


# ---- The coding of protocol buffers ----


def varint(number):
    number &= (1 << 64) - 1
    out = bytearray()
    while number > 127:
        out.append(number & 127 | 128)
        number >>= 7
    out.append(number)
    return bytes(out)


def number_of(value, name):
    if name == "sort_target" and value == "MOD":
        return SORT_BY_MOD
    return ENUMS[value] if value in ENUMS else int(value)


def coded(words, fields):
    """Returns the bytes of a message."""
    out = []
    for number, (name, kind) in fields.items():
        if name not in words:
            continue
        for value in words[name] if isinstance(words[name], (list, tuple)) else [words[name]]:
            if value == b"":
                continue  # etcd reads an end that is there and empty as another one
            if kind is int:
                out += varint(number << 3), varint(number_of(value, name))
            else:
                data = value if kind is bytes else coded(value, kind[0] if isinstance(kind, list) else kind)
                out += varint(number << 3 | 2), varint(len(data)), data
    return b"".join(out)


def read_varint(data, at):
    number = shift = 0
    while True:
        byte = data[at]
        at += 1
        number |= (byte & 127) << shift
        if byte < 128:
            return number, at
        shift += 7


def decoded(data, fields, at=0, end=None):
    """Returns what the bytes of a message say, of the fields that are known."""
    words, end = {}, len(data) if end is None else end
    while at < end:
        tag, at = read_varint(data, at)
        name, kind = fields.get(tag >> 3, (None, None))
        if tag & 7 == 0:
            value, at = read_varint(data, at)
        elif tag & 7 == 2:
            length, at = read_varint(data, at)
            first, at = at, at + length
            if kind is bytes:
                value = data[first:at]
            elif name:
                value = decoded(data, kind[0] if isinstance(kind, list) else kind, first, at)
        else:
            raise ValueError(f"a field of kind {tag & 7}")
        if name and isinstance(kind, list):
            words.setdefault(name, []).append(value)
        elif name:
            words[name] = value
    return words


# ---- Calls ----


class Connection:
    """A connection to a member."""

    def __init__(self, address, timeout):
        self.timeout = timeout
        options = [("grpc.max_receive_message_length", -1), ("grpc.max_send_message_length", -1),
                   ("grpc.use_local_subchannel_pool", 1)]  # fmt: skip
        self.channel = grpc.insecure_channel(address, options)
        self.calls = {}

    def ask(self, path, request):
        """Returns the answer of a call, or raises grpc.RpcError."""
        if path not in self.calls:
            name, asked, answered = CALLS[path]
            self.calls[path] = self.channel.unary_unary(
                name, lambda words: coded(words, asked), lambda data: decoded(data, answered)
            )
        return self.calls[path](request, timeout=self.timeout)

    def watch(self, request):
        """Yields the answers of a watch. Where none comes in time, it ends with grpc.RpcError."""
        call = self.channel.stream_stream(
            WATCH_CALL, lambda words: coded(words, WATCH), lambda data: decoded(data, WATCHED)
        )
        return Answers(call, request, self.timeout)

    def close(self):
        self.channel.close()


class Answers:
    """The answers of a watch, each of which comes within some seconds after the one before."""

    def __init__(self, call, request, timeout):
        self.timeout, self.ending = timeout, threading.Event()
        self.queue = queue.SimpleQueue()
        self.call = call(self.requests(request))
        threading.Thread(target=self.read, daemon=True).start()

    def requests(self, request):
        yield request
        self.ending.wait()

    def read(self):
        try:
            for answer in self.call:
                self.queue.put(answer)
            self.queue.put(EOFError("the member ended the watch"))
        except grpc.RpcError as failure:
            self.queue.put(failure)

    def __iter__(self):
        try:
            while True:
                answer = self.queue.get(timeout=self.timeout)
                if isinstance(answer, Exception):
                    raise answer
                yield answer
        finally:
            self.ending.set()
            self.call.cancel()
