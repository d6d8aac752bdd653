"""A client of etcd that needs the standard library alone: it speaks to etcd's HTTP/JSON gateway. Where Python has gRPC
(rpc.py), calls go by that, unless ETCD_RPC is `json` in the environment; and watches too, where it is `all`.

A cluster has several members, and each of them answers for all. Where one does not answer in time, the call goes to the
next. The first may have carried it out all the same, so that a call can take place twice: `log.py` makes only calls for
which that is harmless. In the gateway's JSON, bytes are in base64, 64-bit numbers are strings, and zeros are left out.
"""

import base64
import http.client
import json
import os
import queue
import random
import threading
import time
from typing import NamedTuple

import logs
import rpc

TIMEOUT = 3.0  # seconds without an answer, or without a watched change, after which the next member is asked
PATIENCE = 120.0  # seconds without any member's answer after which a call fails
BY_RPC = rpc.grpc is not None and os.environ.get("ETCD_RPC") != "json"
WATCH_BY_RPC = BY_RPC and os.environ.get("ETCD_RPC") == "all"
BUSY = (408, 429, 500, 503, 504)  # no leader, no answer in time, no space: the call can be made again


class Unavailable(Exception):
    """The member cannot answer now."""


class Compacted(Exception):
    """etcd has dropped the history that was asked for."""


class Refused(Exception):
    """etcd refuses the call, and would refuse it again."""


class Stopped(Exception):
    """The program was asked to end while a call waited for an answer."""


class Pair(NamedTuple):
    """A key with its value, and the revision that put it there."""

    key: bytes
    value: bytes
    revision: int


def encode(data):
    return base64.b64encode(data).decode()


def plain(data):
    """Returns bytes of an answer: those of the gateway are in base64."""
    return base64.b64decode(data) if isinstance(data, str) else data


def pair_of(words):
    """Returns what a key-value of the gateway says."""
    return Pair(plain(words["key"]), plain(words.get("value", b"")), int(words["mod_revision"]))


def pairs_of(answer):
    return [pair_of(words) for words in answer.get("kvs", [])]


def revision_of(answer):
    return int(answer["header"]["revision"])


def prefix_end(prefix):
    """Returns the first key above all keys with this prefix."""
    return prefix[:-1] + bytes([prefix[-1] + 1])


def trouble_text(failure):
    """Returns what a failure says: of an answer of the gateway, its text alone."""
    text = str(failure) or type(failure).__name__
    try:
        return json.loads(text)["error"]
    except (ValueError, KeyError, TypeError):
        return text


# ---- Parts of requests ----


def range_of(key, end=b"", **more):
    """Asks for a key; or for the keys from `key` on and below `end`."""
    return {"key": key, "range_end": end, **more}


def prefix_of(prefix, **more):
    return range_of(prefix, prefix_end(prefix), **more)


def put(key, value, **more):
    return {"request_put": {"key": key, "value": value, **more}}


def get(key, end=b"", **more):
    return {"request_range": range_of(key, end, **more)}


def delete(key, end=b""):
    return {"request_delete_range": range_of(key, end)}


def unchanged(key, revision):
    """A condition: the key was last changed at this revision, which is 0 where there is no such key."""
    return {"key": key, "target": "MOD", "result": "EQUAL", "mod_revision": str(revision)}


class Etcd:
    """A connection to one member at a time. Each thread has its own.

    `trouble` is the text of the last failure, and empty once a call was answered. A call that no member answers fails
    after `patience` seconds, and ends when `ending` is set.
    """

    def __init__(self, members, ending=None):
        self.members = members
        self.ending = ending or threading.Event()
        self.at = random.randrange(len(members))
        self.connection = self.channel = None
        self.by_rpc = BY_RPC
        self.patience = PATIENCE
        self.trouble = ""

    def connect(self):
        host, port = self.members[self.at].rsplit(":", 1)
        return http.client.HTTPConnection(host, int(port), timeout=TIMEOUT)

    def next_member(self):
        """Turns to the next member, after a short while."""
        self.close()
        self.at = (self.at + 1) % len(self.members)
        time.sleep(0.05)

    def close(self):
        for connection in self.connection, self.channel:
            if connection:
                connection.close()
        self.connection = self.channel = None

    def call(self, path, request):
        """Returns the answer of the first member that answers.

        A process may stand still in a call. Of each attempt no more counts than it may take, so that the others follow.
        """
        left = self.patience
        while True:
            start = time.monotonic()
            try:
                answer = self.ask(path, request)
                self.note("")
                return answer
            except (OSError, http.client.HTTPException, Unavailable) as failure:
                self.note(trouble_text(failure))
                self.next_member()
                if self.ending.is_set():
                    raise Stopped from None
                left -= min(time.monotonic() - start, TIMEOUT)
                if left < 0:
                    raise

    def note(self, trouble):
        """Keeps what the last failure was, and logs where failures begin and end."""
        if trouble and not self.trouble:
            logs.warning("a member of etcd does not answer", member=self.members[self.at], text=trouble)
        elif self.trouble and not trouble:
            logs.info("etcd answers again", member=self.members[self.at])
        self.trouble = trouble

    def ask(self, path, request):
        if self.by_rpc and path in rpc.CALLS:
            return self.ask_by_rpc(path, request)
        self.connection = self.connection or self.connect()
        self.connection.request("POST", "/v3/" + path, json.dumps(request, default=encode))
        answer = self.connection.getresponse()
        text = answer.read()
        if answer.status == 200:
            return json.loads(text)
        if answer.status in BUSY:
            raise Unavailable(text.decode())
        if b"has been compacted" in text:
            raise Compacted(text.decode())
        raise Refused(f"{path}: {text.decode()}")

    def ask_by_rpc(self, path, request):
        self.channel = self.channel or rpc.Connection(self.members[self.at], TIMEOUT)
        try:
            return self.channel.ask(path, request)
        except rpc.grpc.RpcError as failure:
            raise of_rpc(failure) from None

    # ---- Calls ----

    def get(self, key):
        """Returns the pair of a key, or None."""
        pairs = pairs_of(self.call("kv/range", range_of(key)))
        return pairs[0] if pairs else None

    def list(self, prefix):
        """Returns the pairs of all keys with a prefix, in the order of the keys."""
        return pairs_of(self.call("kv/range", prefix_of(prefix)))

    def transact(self, conditions, then, otherwise=()):
        """Makes the changes `then` if all conditions are true, and else those of `otherwise`, as one change."""
        return self.call("kv/txn", {"compare": conditions, "success": list(then), "failure": list(otherwise)})

    def lease(self, seconds):
        """Returns a lease: keys that are put with it are deleted if it is not kept alive for so many seconds."""
        return self.call("lease/grant", {"TTL": str(seconds)})["ID"]

    def keep_alive(self, lease):
        """Returns whether the lease is still there, from now on for its whole time."""
        return "TTL" in self.call("lease/keepalive", {"ID": lease})["result"]

    def watch(self, prefix, revision):
        """Yields lists of the pairs that were put below a prefix from a revision on, without a gap.

        The lists are in the order of revisions. Ends with Compacted, or with another exception where the member stops
        answering: then a watch from behind the last pair goes on.
        """
        wish = {"start_revision": str(revision), "fragment": True, "filters": ["NODELETE"]}
        if self.by_rpc and WATCH_BY_RPC:
            yield from self.watch_by_rpc(prefix_of(prefix, **wish))
        connection = self.connect()
        try:
            text = json.dumps({"create_request": prefix_of(prefix, **wish)}, default=encode)
            connection.request("POST", "/v3/watch", text)
            for line in connection.getresponse():
                answer = json.loads(line)
                if "error" in answer:
                    raise Unavailable(line.decode())
                if "compact_revision" in answer["result"]:
                    raise Compacted(line.decode())
                if answer["result"].get("canceled"):
                    raise Unavailable(line.decode())
                yield [pair_of(event["kv"]) for event in answer["result"].get("events", [])]
            raise Unavailable("the member ended the watch")
        finally:
            connection.close()

    def watch_by_rpc(self, wish):
        channel = rpc.Connection(self.members[self.at], TIMEOUT)
        try:
            for answer in channel.watch({"create_request": wish}):
                if answer.get("compact_revision"):
                    raise Compacted(f"revisions below {answer['compact_revision']}")
                if answer.get("canceled"):
                    raise Unavailable("the member ended the watch")
                yield [pair_of(event["kv"]) for event in answer.get("events", [])]
        except rpc.grpc.RpcError as failure:
            raise of_rpc(failure) from None
        except (queue.Empty, EOFError):
            raise Unavailable("the watch has ended, or nothing came in time") from None
        finally:
            channel.close()


def of_rpc(failure):
    """Returns the exception for a failure of gRPC: the same as for one of the gateway."""
    text, code = failure.details() or "", failure.code()
    if "has been compacted" in text:
        return Compacted(text)
    refused = rpc.grpc.StatusCode.INVALID_ARGUMENT, rpc.grpc.StatusCode.NOT_FOUND, rpc.grpc.StatusCode.OUT_OF_RANGE
    return Refused(text) if code in refused else Unavailable(text or code.name)
