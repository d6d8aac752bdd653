"""The answers over HTTP: each request gets one, also where it makes no sense."""

import contextlib
import http.client
import io
import json
import socket
import unittest

from support import MemoryCase

import hlcstore
import log
import serve
from model import Model

VALUE = b"0.0."  # names its node and number, as the model expects
WRITTEN, REPORTED, FURTHER = (hlcstore.stamp(reading) for reading in (5, 6, 7))
NO_STAMPS = ["-1", str(1 << 64), "1" + "0" * 30, "", "+1", "1_0", "%201", "1.5", "0x10", "1e3", "%FF", "%B2", "%00"]


class Answers:
    """`answerer()` returns a replica or a model with one key, which was written at 5 ms, and a floor of 6 ms."""

    def setUp(self):
        super().setUp()
        self.answerer = self.new_answerer()
        self.address = serve.start(self.answerer).address

    def fill(self, applies):
        node = hlcstore.Node(0)
        items = bytes(node.write(5, b"key", VALUE)) + bytes(node.report(6))
        applies.apply(log.Entry(1, items))
        return applies

    def ask(self, path):
        """Returns the status and the content of an answer."""
        connection = http.client.HTTPConnection(self.address, timeout=60)
        with contextlib.closing(connection):
            connection.request("GET", path)
            answer = connection.getresponse()
            body = answer.read()
            is_json = answer.getheader("Content-Type") == "application/json"
            return answer.status, json.loads(body) if is_json else body

    def refused(self, path, status):
        """Returns the text of a refusal."""
        found, content = self.ask(path)
        self.assertEqual(found, status, path)
        return content["refused"]

    def test_reads(self):
        value, key = VALUE.hex(), b"key".hex()
        self.assertEqual(self.ask("/read?key=key&key=none"), (200, {"stamp": REPORTED, "values": [value, None]}))
        self.assertEqual(self.ask(f"/read?key=key&stamp={WRITTEN - 1:d}")[1]["values"], [None])
        self.assertEqual(self.ask(f"/read?key=&key=%FF&stamp={WRITTEN:d}")[1]["values"], [None, None])
        self.assertEqual(self.ask("/range?from=a&to=z"), (200, {"stamp": REPORTED, "pairs": [[key, value]]}))
        self.assertEqual(self.ask("/range?from=z&to=a")[1]["pairs"], [])
        self.assertEqual(self.ask("/range?from=" + "k" * 300)[1]["pairs"], [])
        self.assertEqual(self.ask("/digest?from=key")[1]["keys"], 1)
        self.assertEqual(self.ask("/state")[1]["floor"], REPORTED)

    def test_stamps_that_are_none(self):
        for path in "/read?key=key", "/range?from=a", "/digest?to=z":
            for text in NO_STAMPS:
                said = self.refused(f"{path}&stamp={text}", 400)
                self.assertRegex(said, "stamp: expected a decimal number below 2.64, got ")

    def test_stamps_that_cannot_be_read(self):
        self.refused(f"/read?key=key&stamp={FURTHER:d}", 425)
        self.refused(f"/digest?stamp={(1 << 64) - 1}", 425)

    def test_parameters_that_are_none(self):
        self.assertEqual(self.refused("/read", 400), "a key is missing")
        self.assertEqual(self.refused("/read?stamp=1", 400), "a key is missing")
        self.assertEqual(self.refused("/read?kee=key", 400), "unknown parameter: kee")
        self.assertEqual(self.refused("/range?key=key", 400), "unknown parameter: key")
        self.assertEqual(self.refused("/state?stamp=1", 400), "unknown parameter: stamp")
        self.assertEqual(self.refused("/digest?stamp=1&stamp=2", 400), "stamp is given more than once")
        self.assertEqual(self.refused("/range?from=a&from=b", 400), "from is given more than once")

    def test_paths_that_are_none(self):
        for path in "/page.html", "/stat", "/state/", "/read/?key=key", "/nothing?stamp=-1":
            self.assertEqual(self.refused(path, 404), "there is no such path")

    def test_lines_that_are_no_requests(self):
        host, port = self.address.split(":")
        for line, status in (b"GET", b"400"), (b"GET /state HTTP/x", b"400"), (b"PUT /state HTTP/1.0", b"501"):
            with socket.create_connection((host, int(port)), timeout=60) as connection:
                connection.sendall(line + b"\r\n\r\n")
                self.assertIn(status, connection.recv(1 << 16))

    def test_a_failure_is_answered(self):
        self.answerer.state = lambda: 1 // 0
        with contextlib.redirect_stderr(io.StringIO()) as errors:
            self.assertIn("ZeroDivisionError", self.refused("/state", 500))
        self.assertIn("ZeroDivisionError", errors.getvalue())


class OfAReplica(Answers, MemoryCase):
    def new_answerer(self):
        return self.fill(self.new_replica()).replica

    def test_certificates(self):
        self.assertEqual(self.refused("/certificate", 400), "a stamp is missing")
        for text in "-1", str(1 << 64), "", "x":
            self.assertIn("decimal number", self.refused(f"/certificate?stamp={text}", 400))
        self.refused(f"/certificate?stamp={FURTHER:d}", 425)
        self.assertEqual(self.ask(f"/certificate?stamp={REPORTED:d}")[0], 200)
        self.refused(f"/certificate?stamp={WRITTEN:d}", 410)
        self.refused(f"/read?key=key&stamp={WRITTEN:d}", 410)

    def test_checkpoints(self):
        self.assertEqual(self.refused("/checkpoint", 404), "there is no checkpoint yet")
        self.answerer.parts[0].save()
        status, saved = self.ask("/checkpoint")
        self.assertEqual((status, hlcstore.Store.restore(saved).tag), (200, 1))
        self.assertIn("unknown parameter", self.refused("/checkpoint?from=a", 400))

    def test_too_many_snapshots_are_open(self):
        snapshots = [self.answerer.parts[0].store.snapshot() for _ in range(1024)]
        self.refused("/read?key=key", 503)
        snapshots.pop().close()
        self.assertEqual(self.ask("/read?key=key")[0], 200)


class OfTheModel(Answers, MemoryCase):
    def new_answerer(self):
        return self.fill(Model())

    def test_it_has_no_certificates(self):
        self.assertEqual(self.refused("/certificate?stamp=1", 404), "there is no such path")


if __name__ == "__main__":
    unittest.main()
