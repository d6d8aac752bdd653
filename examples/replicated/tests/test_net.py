"""Networks of their own: what is parted does not meet, what is joined does, and nothing is left behind."""

import os
import shutil
import socket
import subprocess
import sys
import unittest

import support  # noqa: F401  finds the example

from net import Net

PORT = 4000
SERVER = f"""
import socket
server = socket.create_server(("0.0.0.0", {PORT}))
print("ready", flush=True)
while True:
    connection, _ = server.accept()
    connection.sendall(b"met")
    connection.close()
"""
CLIENT = """
import socket, sys
with socket.create_connection((sys.argv[1], {port}), 1) as connection:
    sys.exit(connection.recv(3) != b"met")
""".format(port=PORT)


@unittest.skipUnless(os.geteuid() == 0 and shutil.which("ip") and shutil.which("tc"), "no root, or no iproute2")
class Networks(unittest.TestCase):
    def setUp(self):
        try:
            self.net = Net()
        except SystemExit as failure:
            self.skipTest(str(failure))
        self.addCleanup(self.net.stop)
        self.start("a"), self.start("b")

    def start(self, name):
        """Starts a server in the network of a name."""
        _, words = self.net.place(name)
        server = subprocess.Popen([*words, sys.executable, "-c", SERVER], stdout=subprocess.PIPE)
        self.addCleanup(server.stdout.close)
        self.addCleanup(server.wait)
        self.addCleanup(server.kill)
        self.assertEqual(server.stdout.readline(), b"ready\n")

    def meets(self, one, other):
        host, (_, words) = self.net.hosts[other], self.net.place(one)
        return subprocess.run([*words, sys.executable, "-c", CLIENT, host], stderr=subprocess.DEVNULL).returncode == 0

    def test_partitions(self):
        self.assertTrue(self.meets("a", "b") and self.meets("b", "a"))
        self.net.part("a", "b")
        self.assertFalse(self.meets("a", "b"))
        self.assertFalse(self.meets("b", "a"))  # its answers are lost
        with socket.create_connection((self.net.hosts["b"], PORT), 1):
            pass  # from outside
        self.net.join("a", "b")
        self.assertTrue(self.meets("a", "b") and self.meets("b", "a"))

    def test_all_is_healed(self):
        self.net.part("a", "b")
        self.net.part("b", "a")
        self.net.slow("a")
        self.net.heal()
        self.assertTrue(self.meets("a", "b"))
        self.assertEqual((self.net.parted, self.net.slowed), (set(), set()))

    def test_nothing_is_left(self):
        self.net.stop()
        listed = subprocess.run(["ip", "link"], capture_output=True, text=True).stdout
        self.assertNotIn(self.net.tag, listed)


if __name__ == "__main__":
    unittest.main()
