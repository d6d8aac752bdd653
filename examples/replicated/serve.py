"""Answers over HTTP, for a replica, the coordinator and the model: reads at closed timestamps, in JSON.

    GET /                                      a page that draws the state, and goes on to do so
    GET /state                                 how far it is, and what holds the floor back
    GET /metrics                               the same as numbers, in the text format of Prometheus
    GET /read?stamp=S&key=K&key=..             the values of keys
    GET /range?stamp=S&from=K&to=K             the pairs of a range of keys
    GET /digest?stamp=S&from=K&to=K            the SHA-256 of such a range, and how many keys it has
    GET /certificate?stamp=S&range=ID          vacuums a range to a stamp, and returns the certificate as text
    GET /checkpoint?range=ID                   the newest checkpoint of a range, as bytes

Without a stamp a read is at the floor, of all ranges that are here. Where there is one, it need not be named. Keys are
percent-encoded, and bytes are in hexadecimal digits in an answer. The status is 425 for a stamp above the floor, 410
for one below the horizon, 404 for what is not there, 400 for a request that makes no sense, and 503 for one that may be
answered later. With it comes a text, as `refused`.

The coordinator has no reads, and the model no page and no metrics.
"""

import http.client
import http.server
import json
import pathlib
import re
import socketserver
import threading
import time
import urllib.parse
from typing import NamedTuple

import life
import logs

STAMPS = 1 << 64
ANY = "127.0.0.1:0"  # a port of the loopback that is free
PAGE = pathlib.Path(__file__).resolve().with_name("page.html")


class Refused(Exception):
    """A request that has no answer, with a status of HTTP and a text."""


class Content(NamedTuple):
    """What a browser, or Prometheus, is given."""

    kind: str
    body: bytes


class Answerer:
    """Whoever answers. `others` has calls of a stamp, and of a range where one is given, for further paths, and `pages`
    those without parameters."""

    def __init__(self):
        self.others, self.pages = {}, {}

    def state(self):
        raise NotImplementedError

    def snapshot(self, stamp):
        """Returns what is used in a `with`, and reads at the stamp."""
        raise Refused(404, "there is no such path")

    def note(self, status):
        """Counts an answer."""


def page():
    return Content("text/html; charset=utf-8", PAGE.read_bytes())


def metrics(text):
    return Content("text/plain; version=0.0.4; charset=utf-8", text.encode())


def start(answerer, listen=ANY):
    """Serves from threads of its own, and returns the server."""
    try:
        server = Server(answerer, listen)
    except OSError as failure:
        raise OSError(f"cannot listen at {listen}: {failure.strerror}") from None
    threading.Thread(target=server.serve_forever, daemon=True).start()
    return server


class Server(http.server.ThreadingHTTPServer):
    daemon_threads = True

    def __init__(self, answerer, listen):
        self.answerer = answerer
        self.answering, self.lock = 0, threading.Lock()
        host, port = listen.rsplit(":", 1)
        super().__init__((host, int(port)), Request)
        self.address = f"{host}:{self.server_address[1]}"

    def server_bind(self):
        """Binds without a look at the names of the network, which may take long."""
        socketserver.TCPServer.server_bind(self)

    def count(self, more):
        with self.lock:
            self.answering += more

    def finish(self, seconds):
        """Takes no further connection, and waits as long for the answers that are under way."""
        self.shutdown()
        end = time.monotonic() + seconds
        while self.answering and time.monotonic() < end:
            time.sleep(0.01)


def value_text(value):
    return None if value is None else value.hex()


def answer(answerer, path, words):
    """Returns the answer to a request: bytes, or what becomes JSON."""
    if path == "/state":
        refuse_unknown(words)
        return answerer.state()
    if path in answerer.pages:
        refuse_unknown(words)
        return answerer.pages[path]()
    if path in answerer.others:
        refuse_unknown(words, "stamp", "range")
        return answerer.others[path](stamp_of(words), *range_of(words))
    if path not in READS:
        raise Refused(404, "there is no such path")
    read, *names = READS[path]
    refuse_unknown(words, "stamp", *names)
    with answerer.snapshot(stamp_of(words)) as snapshot:
        return {"stamp": snapshot.stamp} | read(snapshot, words)


def read_keys(snapshot, words):
    keys = [key.encode("latin-1") for key in words.get("key", [])]
    if not keys:
        raise Refused(400, "a key is missing")
    return {"values": [value_text(value) for value in snapshot.read_all(keys)]}


def read_range(snapshot, words):
    return {"pairs": [[key.hex(), value.hex()] for key, value in snapshot.items(*ends(words))]}


def read_digest(snapshot, words):
    return {"digest": snapshot.digest(*ends(words)).hex(), "keys": snapshot.count(*ends(words))}


READS = {"/read": (read_keys, "key"), "/range": (read_range, "from", "to"), "/digest": (read_digest, "from", "to")}


# ---- Parameters ----


def refuse_unknown(words, *names):
    """Refuses parameters that the path does not have."""
    for name in words:
        if name not in names:
            raise Refused(400, f"unknown parameter: {name}")


def only(words, name):
    """Returns a parameter that may be given once, or None."""
    if len(words.get(name, [])) > 1:
        raise Refused(400, f"{name} is given more than once")
    return words[name][0] if name in words else None


def stamp_of(words):
    text = only(words, "stamp")
    if text is None:
        return None
    if not re.fullmatch("[0-9]{1,20}", text) or int(text) >= STAMPS:
        raise Refused(400, f"stamp: expected a decimal number below 2^64, got {text!r}")
    return int(text)


def range_of(words):
    """Returns the number of a range, or nothing."""
    text = only(words, "range")
    if text is None:
        return []
    if not re.fullmatch("[0-9]{1,10}", text):
        raise Refused(400, f"range: expected a number, got {text!r}")
    return [int(text)]


def ends(words):
    """Returns the ends of a range of keys. One that is not given is empty."""
    return [(only(words, name) or "").encode("latin-1") for name in ("from", "to")]


class Request(http.server.BaseHTTPRequestHandler):
    protocol_version = "HTTP/1.1"
    disable_nagle_algorithm = True

    def do_GET(self):
        self.server.count(1)
        try:
            status, content = self.status_and_content()
            self.server.answerer.note(status)
            self.send(status, content)
        except OSError:
            self.close_connection = True  # whoever asked is gone
        finally:
            self.server.count(-1)

    def status_and_content(self):
        path, _, query = self.path.partition("?")
        words = urllib.parse.parse_qs(query, keep_blank_values=True, encoding="latin-1")
        try:
            return 200, answer(self.server.answerer, path, words)
        except Refused as refused:
            status, text = refused.args
            return status, {"refused": text}
        except Exception as failure:  # whoever asks gets an answer in any case
            logs.error(f"an answer failed: {failure!r}", at=life.place_of(failure))
            return 500, {"refused": f"the answer failed: {failure!r}"}

    def send(self, status, content):
        if isinstance(content, bytes):
            content = Content("application/octet-stream", content)
        elif not isinstance(content, Content):
            content = Content("application/json", json.dumps(content).encode())
        self.send_response(status)
        self.send_header("Content-Type", content.kind)
        self.send_header("Content-Length", str(len(content.body)))
        self.end_headers()
        self.wfile.write(content.body)

    def log_message(self, *words):
        """Requests are not logged."""


def fetch(address, path):
    """Returns the bytes that another process answers."""
    connection = http.client.HTTPConnection(address, timeout=60)
    try:
        connection.request("GET", path)
        answer = connection.getresponse()
        if answer.status != 200:
            raise http.client.HTTPException(answer.read().decode())
        return answer.read()
    finally:
        connection.close()
