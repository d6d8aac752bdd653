"""Programs that each have a network of their own, on one machine: any two can be parted, and any one slowed down.

Each program is in a namespace, with an address on one bridge. What it sends to another one is lost while its table of
neighbours has a wrong entry for that one: connections stay open, and nothing comes. A slow program sends through a
narrow queue, which delays what it sends, and drops what does not fit. All this needs root, and iproute2.
"""

import itertools
import os
import shutil
import subprocess

NOWHERE = "02:00:00:00:00:01"  # the address of no machine
SLOW = ["rate", "400kbit", "burst", "8k", "latency", "300ms"]


def ip(*words, check=True):
    done = subprocess.run(["ip", *map(str, words)], capture_output=True, text=True)
    if check and done.returncode != 0:
        raise SystemExit(f"ip {' '.join(map(str, words))}: {done.stderr.strip()}")


class Net:
    def __init__(self):
        if os.geteuid() != 0 or not shutil.which("ip"):
            raise SystemExit("networks for each program need root, and ip of iproute2")
        self.tag = f"hlc{os.getpid() % 100_000}"
        self.subnet = f"10.{100 + os.getpid() % 150}"
        self.hosts, self.ends, self.numbers = {}, [], itertools.count(1)
        self.parted, self.slowed = set(), set()
        ip("link", "add", self.tag, "type", "bridge")
        ip("addr", "add", f"{self.subnet}.255.1/16", "dev", self.tag)
        ip("link", "set", self.tag, "up")

    def space(self, name):
        return f"{self.tag}-{name}"

    def place(self, name):
        """Returns the address of a program, and the words with which it is started. Its network stays when it ends."""
        if name not in self.hosts:
            self.add(name, next(self.numbers))
        return self.hosts[name], ["ip", "netns", "exec", self.space(name)]

    def add(self, name, number):
        space, end = self.space(name), f"{self.tag}v{number}"
        self.ends.append(end)
        self.hosts[name] = f"{self.subnet}.{number // 250}.{number % 250 + 1}"
        ip("netns", "add", space)
        ip("link", "add", end, "type", "veth", "peer", "name", "eth0", "netns", space)
        ip("link", "set", end, "master", self.tag, "up")
        ip("-n", space, "addr", "add", f"{self.hosts[name]}/16", "dev", "eth0")
        for device in "eth0", "lo":
            ip("-n", space, "link", "set", device, "up")

    def part(self, one, other):
        """Loses what one program sends to another one."""
        self.parted.add((one, other))
        entry = [self.hosts[other], "lladdr", NOWHERE, "dev", "eth0", "nud", "permanent"]
        ip("-n", self.space(one), "neigh", "replace", *entry)

    def join(self, one, other):
        self.parted.discard((one, other))
        ip("-n", self.space(one), "neigh", "del", self.hosts[other], "dev", "eth0", check=False)

    def slow(self, name):
        self.slowed.add(name)
        words = ["tc", "-n", self.space(name), "qdisc", "replace", "dev", "eth0", "root", "tbf", *SLOW]
        subprocess.run(words, check=True)

    def hasten(self, name):
        self.slowed.discard(name)
        subprocess.run(["tc", "-n", self.space(name), "qdisc", "del", "dev", "eth0", "root"], check=False)

    def heal(self):
        """Joins all that are parted, and hastens all that are slow."""
        for pair in list(self.parted):
            self.join(*pair)
        for name in list(self.slowed):
            self.hasten(name)

    def stop(self):
        """Removes all networks."""
        for name in self.hosts:
            ip("netns", "del", self.space(name), check=False)
        for end in self.ends:
            ip("link", "del", end, check=False)
        ip("link", "del", self.tag, check=False)
