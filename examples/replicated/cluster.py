"""A cluster of etcd on the loopback, on ports that are free now. Its members are started, killed and started again."""

import http.client
import pathlib
import random
import shutil
import socket
import subprocess
import time

from etcd import Etcd, Unavailable

MEMBERS = 3
QUOTA = 4 << 30  # bytes of a member's database, above which etcd takes no more changes
# An election after 2 s suits a machine on which much else runs. A member keeps the changes since its last snapshot in
# memory: without this word, 100,000 transactions.
OPTIONS = ["--heartbeat-interval", "200", "--election-timeout", "2000", "--snapshot-count", "5000"]
OPTIONS += ["--logger", "zap", "--log-level", "error"]
# Where there is this program, a member ends at once when the process ends that started it.
ENDS_WITH_THIS = ["setpriv", "--pdeathsig", "KILL"] if shutil.which("setpriv") else []


def free_ports(many):
    """Returns ports of the loopback that are free, below those from which the kernel takes one for a connection.

    So a member that is started again finds its ports free.
    """
    ports = []
    for port in random.sample(range(10_000, 32_000), 1000):
        try:
            socket.create_server(("127.0.0.1", port)).close()
        except OSError:
            continue
        ports.append(port)
        if len(ports) == many:
            return ports
    raise SystemExit("no port is free")


class Cluster:
    """`place`, where it is given, returns the address of a machine for a name, and the words that start a program
    there. A member's name is that of the folder, with its number."""

    def __init__(self, folder, quota=QUOTA, members=MEMBERS, place=None):
        self.folder, self.quota = pathlib.Path(folder), quota
        self.folder.mkdir(parents=True, exist_ok=True)
        ports = free_ports(2 * members)
        self.names = [f"{self.folder.name}-m{number}" for number in range(members)]
        places = [place(name) if place else ("127.0.0.1", []) for name in self.names]
        self.addresses, self.peers = (
            [f"{host}:{port}" for (host, _), port in zip(places, some, strict=True)]
            for some in (ports[:members], ports[members:])
        )
        self.inside = [words for _, words in places]
        self.running = {}

    def start(self, member, state="new"):
        client, peer = f"http://{self.addresses[member]}", f"http://{self.peers[member]}"
        everyone = ",".join(f"m{number}=http://{address}" for number, address in enumerate(self.peers))
        words = [*self.inside[member], *ENDS_WITH_THIS, "etcd", "--name", f"m{member}"]
        words += ["--data-dir", self.folder / f"m{member}"]
        words += ["--listen-client-urls", client, "--advertise-client-urls", client]
        words += ["--listen-peer-urls", peer, "--initial-advertise-peer-urls", peer]
        words += ["--initial-cluster", everyone, "--initial-cluster-state", state]
        words += ["--initial-cluster-token", self.folder.name, "--quota-backend-bytes", str(self.quota), *OPTIONS]
        with open(self.folder / f"m{member}.log", "ab") as output:
            self.running[member] = subprocess.Popen(words, stdin=subprocess.DEVNULL, stdout=output, stderr=output)

    def start_all(self, state="new"):
        for member in range(len(self.addresses)):
            self.start(member, state)
        self.wait()

    def kill(self, member):
        process = self.running.pop(member)
        process.kill()
        process.wait()

    def end(self, member):
        """Lets a member end by itself."""
        process = self.running.pop(member)
        process.terminate()
        process.wait()

    def status(self, member):
        """Returns what a member says of itself, or None."""
        try:
            return Etcd([self.addresses[member]]).ask("maintenance/status", {})
        except (OSError, http.client.HTTPException, Unavailable):
            return None

    def leader(self):
        """Returns the member that leads, or None."""
        for member in list(self.running):
            status = self.status(member)
            if status and status.get("leader") == status["header"]["member_id"]:
                return member
        return None

    def wait(self, seconds=120):
        """Waits until each running member has a leader."""
        end = time.monotonic() + seconds
        while not all((self.status(member) or {}).get("leader") for member in list(self.running)):
            if time.monotonic() > end:
                raise SystemExit(f"the members did not start: see {self.folder}")
            time.sleep(0.1)

    def size(self):
        """Returns how many bytes the members have on disk."""
        return sum(path.stat().st_size for path in self.folder.rglob("*") if path.is_file())

    def stop(self):
        for process in self.running.values():
            process.terminate()
        for process in self.running.values():
            try:
                process.wait(5)
            except subprocess.TimeoutExpired:
                process.kill()
                process.wait()
        self.running.clear()
