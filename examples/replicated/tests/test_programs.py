"""The programs as an operator starts them, by hand or by a unit: how they start, what they say, and how they end.

They use a member of etcd, and standard input is closed.
"""

import contextlib
import http.client
import json
import signal
import subprocess
import sys
import time
import unittest

from support import MemberCase, started_member
from test_logs import LINE
from test_page import BROWSER, ask_browser

import exposition
import hlcstore
from checkpoints import Checkpoints
from cluster import free_ports

from programs import HERE

PATIENCE = 60  # seconds
CLOSED = "127.0.0.1:1"  # nothing answers there


class Started:
    """A program. Its lines of log go to a file."""

    def __init__(self, case, *words):
        self.case, self.words = case, words
        self.log = case.folder / f"{len(list(case.folder.iterdir()))}.log"
        with open(self.log, "wb") as output:
            self.process = subprocess.Popen(
                [sys.executable, "-B", HERE / words[0], *map(str, words[1:])],
                stdin=subprocess.DEVNULL, stdout=subprocess.PIPE, stderr=output, text=True,
            )  # fmt: skip
        case.addCleanup(self.kill)

    def kill(self):
        self.process.kill()
        self.process.wait()
        self.process.stdout.close()

    def end(self, number=signal.SIGTERM):
        self.process.send_signal(number)
        return self.status()

    def status(self):
        """Returns the status with which it ends. It has logged lines alone, and printed nothing."""
        status = self.process.wait(PATIENCE)
        for line in self.lines():
            self.case.assertRegex(line + "\n", LINE)
        self.case.assertEqual(self.process.stdout.read(), "")
        return status

    def lines(self):
        return self.log.read_text().splitlines()

    def says(self, text):
        return any(text in line for line in self.lines())


def ask(address, path):
    """Returns what a program answers, or None while it does not."""
    connection = http.client.HTTPConnection(address, timeout=PATIENCE)
    with contextlib.closing(connection):
        try:
            connection.request("GET", path)
            answer = connection.getresponse()
            body = answer.read()
        except OSError:
            return None
    return json.loads(body) if answer.getheader("Content-Type") == "application/json" else body.decode()


class Programs(MemberCase):
    patience = 4 * PATIENCE

    def setUp(self):
        super().setUp()
        self.members = ["--members", *started_member()]

    def start(self, *words):
        return Started(self, *words, *self.members)

    def wait_until(self, condition, text):
        end = time.monotonic() + PATIENCE
        while not (found := condition()):
            if time.monotonic() > end:
                raise AssertionError(f"not within {PATIENCE} s: {text}")
            time.sleep(0.02)
        return found

    def start_replica(self, *words):
        """Returns a replica, and the address at which it answers."""
        address = f"127.0.0.1:{free_ports(1)[0]}"
        known = ["--name", "r1", "--folder", self.folder / "r1", "--listen", address]
        replica = self.start("replica.py", *known, *words)
        self.wait_until(lambda: ask(address, "/state"), "the replica answers")
        return replica, address

    # ---- Starts that fail ----

    def test_an_address_that_is_taken(self):
        _, address = self.start_replica()
        second = self.start("replica.py", "--name", "r2", "--folder", self.folder / "r2", "--listen", address)
        self.assertEqual(second.status(), 1)
        self.assertTrue(second.says(f"failed: cannot listen at {address}: Address already in use"))

    def test_a_folder_that_is_none(self):
        (self.folder / "file").write_text("")
        replica = self.start("replica.py", "--name", "r1", "--folder", self.folder / "file")
        self.assertEqual(replica.status(), 1)
        self.assertTrue(replica.says("File exists"))

    def test_piped_with_a_closed_input(self):
        """The end of the input is the end of the program, and no success."""
        replica = Started(self, "replica.py", "--piped", "--name", "r1", "--folder", self.folder / "r1", *self.members)
        self.assertEqual(replica.process.wait(PATIENCE), 4)
        self.assertTrue(replica.says('ends status=4 why="its standard input ended"'))

    # ---- Ends ----

    def test_a_replica_ends_with_a_checkpoint(self):
        coordinator = self.start("coordinator.py")
        replica, address = self.start_replica()
        self.wait_until(lambda: ask(address, "/state")["floor"], "the floor rises")
        self.assertEqual(replica.end(), 0)
        saved = Checkpoints(self.folder / "r1").paths()[0].read_bytes()
        self.assertGreater(hlcstore.Store.restore(saved).floor, 0)
        self.assertTrue(replica.says("info replica/r1: saved a checkpoint revision="))
        self.assertTrue(replica.says("info replica/r1: ends status=0 why=SIGTERM"))
        replica, address = self.start_replica()
        self.assertTrue(replica.says("begins from disk"))
        self.assertEqual((replica.end(signal.SIGINT), coordinator.end(signal.SIGINT)), (0, 0))

    def test_the_coordinator_and_a_writer_end_without_a_retirement(self):
        coordinator, writer = self.start("coordinator.py"), self.start("writer.py", "--name", "w1")
        self.wait_until(lambda: writer.says("has its node"), "the writer joins")
        self.assertEqual((writer.end(), coordinator.end()), (0, 0))
        self.assertTrue(writer.says("the floor waits until this writer comes again, or is lost node=1"))
        heads = [json.loads(self.value(b"link/%04x" % node)) for node in (0, 1)]
        self.assertFalse(any(head.get("retired") for head in heads))
        self.assertEqual(self.value(b"node/w1"), b"1")

    def test_ends_while_etcd_does_not_answer(self):
        """It does not wait for etcd's two minutes."""
        started = [
            Started(self, "writer.py", "--name", "w1", "--members", CLOSED),
            Started(self, "coordinator.py", "--members", CLOSED),
            Started(self, "replica.py", "--name", "r1", "--folder", self.folder / "r1", "--members", CLOSED),
        ]
        for program in started:
            self.wait_until(lambda program=program: program.says("a member of etcd does not answer"), "it says so")
            self.assertEqual(program.end(), 0)

    def test_a_second_coordinator_takes_over(self):
        first = self.start("coordinator.py")
        self.wait_until(lambda: self.value(b"link/0000"), "the first one appends")
        second = self.start("coordinator.py")
        self.assertEqual(first.status(), 3)
        self.assertTrue(first.says("warning coordinator: another process took over: link/0000 belongs to"))
        self.assertEqual(second.end(), 0)

    def test_a_coordinator_that_retired(self):
        self.put(b"link/0000", b'{"next": 1, "last": 1, "retired": true}')
        self.assertEqual(self.start("coordinator.py").status(), 5)

    # ---- Who holds the floor back ----

    def start_all(self):
        """Starts a coordinator, two writers and a replica, and returns them, with the addresses at which two answer."""
        listen = f"127.0.0.1:{free_ports(1)[0]}"
        coordinator = self.start("coordinator.py", "--listen", listen)
        writers = [self.start("writer.py", "--name", name) for name in ("w1", "w2")]
        replica, address = self.start_replica()
        for writer in writers:
            self.wait_until(lambda writer=writer: writer.says("has its node"), "it joins")
        self.wait_until(lambda: len(ask(address, "/state")["nodes"]) == 3, "the replica has three nodes")
        return coordinator, writers, replica, [address, listen]

    def assert_held_back(self, addresses):
        """Each of two programs names the writer w1, and what cures it; so does the page. Where much else runs, each may
        name another one that was slow, before."""
        for asked in addresses:
            state = self.wait_until(lambda: self.state_held_by(asked, "node", "w1"), "it says that w1 holds it back")
            self.assertIn("etcdctl put ask/lost/w1 ''", state["held_back"]["cure"])
            exposition.read(ask(asked, "/metrics"))
        if BROWSER:
            page = ask_browser(f"http://{addresses[0]}/", "--dump-dom")
            self.assertIn("Held back: w1 (node ", page)
            return page
        return ""

    def test_a_writer_stands_still(self):
        """The replica, the coordinator and the page name it; and the cure that they name helps."""
        coordinator, writers, replica, addresses = self.start_all()
        writers[0].process.send_signal(signal.SIGSTOP)
        self.assert_held_back(addresses)
        self.put(b"ask/lost/w1")
        self.wait_until(lambda: self.state_held_by(addresses[0], "nothing"), "the floor goes on")
        writers[0].process.send_signal(signal.SIGCONT)
        self.assertEqual(writers[0].status(), 3)
        self.assertEqual([program.end() for program in (writers[1], replica, coordinator)], [0, 0, 0])

    def test_a_writer_stands_still_in_several_ranges(self):
        """A range is split before, and another one while it stands still, so that it never was in what comes of it."""
        coordinator, writers, replica, addresses = self.start_all()
        for many, key in (2, b"key0000100"), (3, b"key0005000"):
            self.put(b"ask/split/" + key.hex().encode())
            self.wait_until(lambda: self.live_ranges(addresses[0]) == many, "a range is split")
            writers[0].process.send_signal(signal.SIGSTOP)
        page = self.assert_held_back(addresses)
        self.assertTrue(not BROWSER or "floor of range" in page)
        self.put(b"ask/lost/w1")
        self.wait_until(lambda: self.state_held_by(addresses[0], "nothing"), "the floor goes on")
        writers[0].process.send_signal(signal.SIGCONT)
        self.assertEqual(writers[0].status(), 3)
        self.assertEqual([program.end() for program in (writers[1], replica, coordinator)], [0, 0, 0])

    def live_ranges(self, address):
        return sum(each["live"] for each in ask(address, "/state")["ranges"])

    def state_held_by(self, address, by, name=None):
        state = ask(address, "/state")
        held = state["held_back"]
        return state if held["by"] == by and name in (None, held["name"]) else None


if __name__ == "__main__":
    unittest.main()
