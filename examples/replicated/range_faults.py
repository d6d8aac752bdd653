"""What can happen to ranges, for `run`: they are split, merged and placed anew, beside all other faults."""

import json

import part
from etcd import Etcd, delete, put
from faults import Faults
from questions import KEYS
from ranges import read_map

LEAST_RANGES, MOST_RANGES, OF_EACH = 2, 7, 3
WISHES = [b"ask/split/", b"ask/merge/", b"ask/move/", b"ask/place/"]


def is_waiting(etcd):
    """Returns whether a request about ranges waits. One that was refused as no member answered is taken back."""
    requests = [pair for wish in WISHES for pair in etcd.list(wish)]
    silent = [pair.key for pair in requests if b"no etcd answers at" in pair.value]
    if silent:
        etcd.transact([], map(delete, silent))
    return len(silent) < len(requests)


class RangeFaults(Faults):
    def __init__(self, programs, chance):
        super().__init__(programs, chance)
        self.faults += [self.split_range] * 3 + [self.merge_ranges] * 3 + [self.place_range] * 2
        if len(programs.clusters) > 1:
            self.faults += [self.move_log] * 2

    def etcd(self):
        return Etcd(self.programs.cluster.addresses)

    def ask(self, request, words=b""):
        self.etcd().transact([], [put(b"ask/" + request, words)])

    def known(self):
        """Returns the map, unless a request about ranges waits."""
        etcd = self.etcd()
        return None if is_waiting(etcd) else read_map(etcd)

    def members(self):
        return json.dumps({"members": self.chance.choice(self.programs.clusters).addresses}).encode()

    def split_range(self):
        known = self.known()
        if not known or len(known.live) >= MOST_RANGES:
            return None
        key = b"key%07d" % int(KEYS * self.chance.random() ** 4)
        if known.at(key).start == key:
            return None
        self.ask(b"split/" + key.hex().encode(), self.members())
        return f"range {known.at(key).id} is split at {key.decode()}"

    def merge_ranges(self):
        known = self.known()
        if not known or len(known.live) <= LEAST_RANGES:
            return None
        place = self.chance.randrange(1, len(known.live))
        self.ask(b"merge/" + known.all_live()[place].start.hex().encode())
        return f"ranges {known.live[place - 1]} and {known.live[place]} are merged"

    def place_range(self):
        """A range moves to other replicas."""
        known = self.known()
        if not known:
            return None
        found, names = self.chance.choice(known.all_live()), sorted(self.programs.replica_names)
        chosen = names[:1] + self.chance.sample(names[1:], min(OF_EACH, len(names)) - 1)  # the first one has all ranges
        self.ask(b"place/%d" % found.id, json.dumps(chosen).encode())
        return f"range {found.id} moves to {', '.join(chosen)}"

    def move_log(self):
        """The log of a range goes on in another cluster."""
        known = self.known()
        if not known:
            return None
        found = self.chance.choice(known.all_live())
        self.ask(b"move/" + found.start.hex().encode(), self.members())
        return f"the log of range {found.id} moves"

    def is_kept_elsewhere(self, name):
        """Returns whether other replicas that run have checkpoints of all ranges that one has."""
        known, etcd = read_map(self.etcd()), self.etcd()
        for found in known.all_live():
            others = [words["name"] for words in part.published(etcd, found.id) if words["checkpoint"]]
            if not (set(others) & set(self.programs.replicas)) - {name}:
                return False
        return True

    def empty_replica(self):
        if not all(self.is_kept_elsewhere(name) for name in self.programs.replica_names):
            return None
        return super().empty_replica()

    def damage_replica(self):
        if not all(self.is_kept_elsewhere(name) for name in self.programs.replica_names):
            return None
        return super().damage_replica()
