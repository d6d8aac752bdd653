"""The programs of the example as processes: started, asked, killed and watched, for `run` and `figures`."""

import http.client
import json
import pathlib
import subprocess
import sys
import threading
import time
import urllib.parse

import power
from cluster import Cluster

HERE = pathlib.Path(__file__).resolve().parent
PATIENCE = 120  # seconds after which what has to come does not: time is not what is tested, and much may run beside it


class Difference(Exception):
    """What must not be: two answers that differ, an item that is lost, a program that ended."""


class Program:
    """A running program. Its standard error goes to a file, and what it says is kept.

    `command` are the words of the program, and `inside` those before them, which say where it runs.
    """

    def __init__(self, folder, name, command, *words, inside=()):
        self.name = name
        self.started = time.monotonic()
        with open(folder / f"{name}.err", "ab") as errors:
            self.process = subprocess.Popen(
                [*inside, *command, "--piped", *map(str, words)],
                stdin=subprocess.PIPE, stdout=subprocess.PIPE, stderr=errors, text=True,
            )  # fmt: skip
        self.numbers = {}  # of each word that began a line: the number behind it, in the last such line
        self.address, self.seconds_to_address = None, 0.0
        self.begins = []  # what a replica said about where it began
        self.reader = threading.Thread(target=self.read, daemon=True)
        self.reader.start()

    def read(self):
        for line in self.process.stdout:
            if line.startswith("{"):
                self.note(json.loads(line))
            elif line.startswith(("node ", "next ")):
                word, number = line.split()
                self.numbers[word] = int(number)

    def note(self, words):
        if "begins" in words:
            self.begins.append(words)
        if "address" in words:
            self.seconds_to_address = time.monotonic() - self.started
            self.address = words["address"]

    def wait_for_address(self, seconds=PATIENCE):
        end = time.monotonic() + seconds
        while not self.address:
            if time.monotonic() > end or self.process.poll() is not None:
                status = self.process.poll()
                raise SystemExit(f"{self.name} did not start: {'it runs' if status is None else f'status {status}'}")
            time.sleep(0.005)
        return self.address

    def say(self, line):
        self.process.stdin.write(line + "\n")
        self.process.stdin.flush()

    def status(self):
        """Returns the status with which it ended, or None."""
        return self.process.poll()

    def wait(self, seconds=PATIENCE):
        """Returns its status once it has ended and its last line was read."""
        status = self.process.wait(seconds)
        self.reader.join()
        return status

    def kill(self):
        """Ends it at once, without a chance to do anything more."""
        self.process.kill()
        self.wait()
        self.process.stdin.close()


def ask(address, path, **words):
    """Returns the status and the content of an answer. A word may be a number, bytes, or a list of bytes."""
    connection = http.client.HTTPConnection(address, timeout=PATIENCE)
    try:
        connection.request("GET", path + "?" + urllib.parse.urlencode(words, doseq=True))
        answer = connection.getresponse()
        body = answer.read()
        is_json = answer.getheader("Content-Type") == "application/json"
        return answer.status, json.loads(body) if is_json else body
    finally:
        connection.close()


class Programs:
    """All that runs: the clusters, the coordinator, the model, replicas and writers."""

    def __init__(self, folder, retention, checkpoint, writing, replicas=3, clusters=1, net=None, power_library=None,
                 go=None):  # fmt: skip
        self.net, self.power, self.go = net, power_library, go
        self.folder, self.retention, self.checkpoint = folder, retention, checkpoint
        batch, rate, keys = writing
        self.writing = ["--batch", batch, "--rate", rate, "--keys", keys]
        place = net and net.place
        self.cluster = Cluster(folder / "etcd", place=place)
        more = [Cluster(folder / f"etcd{number}", members=1, place=place) for number in range(2, clusters + 1)]
        self.clusters = [self.cluster, *more]
        self.replica_names = [f"r{number}" for number in range(1, replicas + 1)]
        self.histories = folder / "histories"
        self.histories.mkdir(parents=True, exist_ok=True)
        self.model = self.coordinator = None
        self.replicas, self.writers = {}, {}  # those that should run, by name
        self.ending = []  # programs that should end, with the expected status, and until when
        self.acknowledged = {}  # of each node: the number that was next after its last append
        self.killed = []  # replicas

    def program(self, name, file, *words):
        host, inside = self.net.place(name) if self.net else ("127.0.0.1", [])
        if self.power and file == "replica.py":
            inside = [*inside, *power.words_of(self.power, self.folder / name, self.shadow(name))]
        listen = [] if file == "writer.py" else ["--listen", f"{host}:0"]
        if self.go and self.is_go(name):
            command, members = [self.go], [",".join(self.cluster.addresses)]
        else:
            command, members = [sys.executable, "-B", HERE / file], self.cluster.addresses
        return Program(self.folder, name, command, *words, *listen, "--members", *members, inside=inside)

    def is_go(self, name):
        """Returns whether the program of this name is the replica in Go, where there is one."""
        return name == self.replica_names[-1]

    def members(self):
        """Returns the names of the members of all clusters that run."""
        return [cluster.names[number] for cluster in self.clusters for number in cluster.running]

    def start(self):
        """Starts all: the members, the replicas and three writers."""
        for cluster in self.clusters:
            cluster.start_all()
        self.coordinator = self.start_coordinator()
        self.model = self.program("model", "model.py")
        for name in self.replica_names:
            self.start_replica(name)
        for number in (1, 2, 3):
            self.start_writer(f"w{number}")
        self.model.wait_for_address()

    def stop(self):
        """Ends every process, by its id."""
        for program in [*self.running(), *(program for program, _, _ in self.ending)]:
            if program.status() is None:
                program.kill()
        for cluster in self.clusters:
            cluster.stop()
        if self.net:
            self.net.stop()

    def running(self):
        programs = [self.coordinator, self.model, *self.replicas.values(), *self.writers.values()]
        return [program for program in programs if program]

    def watch(self):
        """Sees to it that those run that should run, and that those end that should end."""
        for program in self.running():
            if program.status() is not None:
                raise Difference(f"{program.name} ended with status {program.status()}")
        for member, process in ((member, each.running[member]) for each in self.clusters for member in each.running):
            if process.poll() is not None:
                raise Difference(f"member {member} ended with status {process.poll()}")
        for program, status, end in list(self.ending):
            if program.status() is not None:
                if program.wait() != status:
                    raise Difference(f"{program.name} ended with status {program.status()}, and not {status}")
                self.note_appends(program)
                self.ending.remove((program, status, end))
            elif time.monotonic() > end:
                raise Difference(f"{program.name} does not end within {PATIENCE} s: status {status} was expected")

    def expect_end(self, program, status):
        self.ending.append((program, status, time.monotonic() + PATIENCE))

    def start_coordinator(self):
        return self.program("coordinator", "coordinator.py", "--retention-ms", self.retention)

    def start_replica(self, name):
        words = ["--name", name, "--folder", self.folder / name, "--checkpoint-seconds", self.checkpoint]
        self.replicas[name] = self.program(name, "replica.py", *words)

    def kill_replica(self, name):
        replica = self.replicas.pop(name)
        replica.kill()
        self.killed.append(replica)

    def shadow(self, name):
        """Returns the folder that has what a replica has synchronised."""
        return self.folder / "shadows" / name

    def fail_power(self, name):
        """Leaves of the folder of a replica that was killed what is there when the power has failed."""
        return power.fail(self.folder / name, self.shadow(name))

    def start_writer(self, name):
        history = ["--history", self.histories / name] if self.histories else []
        words = ["--name", name, *self.writing, *history]
        self.writers[name] = self.program(name, "writer.py", *words)

    def kill_writer(self, name):
        writer = self.writers.pop(name)
        writer.kill()
        self.note_appends(writer)

    def retire_writer(self, name):
        writer = self.writers.pop(name)
        writer.say("retire")
        self.expect_end(writer, 0)

    def note_appends(self, writer):
        """Notes what a writer has appended, as it says itself."""
        if "next" in writer.numbers:
            node, number = writer.numbers["node"], writer.numbers["next"]
            self.acknowledged[node] = max(number, self.acknowledged.get(node, 0))

    def answering(self):
        """Returns the addresses of the replicas that answer, by name."""
        return {name: replica.address for name, replica in self.replicas.items() if replica.address}

    def addresses(self):
        return self.answering() | {"model": self.model.address}
