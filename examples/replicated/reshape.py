"""What the coordinator does to ranges: it splits, merges and moves them, and cuts the logs that have ended.

    ask/split/KEY     to divide the range of a key there; in JSON, `members` of a cluster for the log of the right part
    ask/merge/KEY     to join the range that begins at a key with the one before it
    ask/move/KEY      to let the log of the range of a key go on at the `members` of another cluster
    ask/place/ID      to let a range be at the replicas of a list; those of an empty one are all

Keys are in hexadecimal digits. What makes no sense is replaced by a text that says so, as `refused`; and so is what
names members that do not answer, as a seal cannot be taken back.

A range ends with a seal in its log, which says what comes in its place. The map comes afterwards: whoever starts
between finds the seal, and does the rest. So a seal is a promise, and no reader of the map sees a range whose parents
go on.
"""

import json

import log
import logs
import ranges
import settings
from etcd import TIMEOUT, delete, put, range_of, revision_of, trouble_text, unchanged
from keys import SENSELESS
from machine import RETIRES
from members import FAILURES

ASK = b"ask/"


class NotNow(Exception):
    """The request can be done later."""


def answer(coordinator, pair):
    """Does what a request asks for, refuses it, or leaves it for the next round."""
    kind, _, name = pair.key.removeprefix(ASK).partition(b"/")
    if kind not in DOERS:
        return
    request = pair.key.decode(errors="replace")
    try:
        words = json.loads(pair.value or b"{}")
        if isinstance(words, dict) and "refused" in words:
            return
        DOERS[kind](coordinator, int(name) if kind == b"place" else bytes.fromhex(name.decode()), words)
    except NotNow as reason:
        logs.debug("a request waits", request=request, text=reason)
        return
    except (ValueError, RecursionError) as failure:
        logs.warning("refuses a request", request=request, text=failure)
        coordinator.decide([put(pair.key, log.to_json({"refused": str(failure)}))])
        return
    coordinator.decide([delete(pair.key)])


def addresses(coordinator, words):
    """Returns the members that a request names, or None."""
    if not isinstance(words, dict):
        raise ValueError("expected an object of JSON, or nothing")
    members = words.get("members")
    if members in (None, []):
        return members
    try:
        settings.members(members)
    except ValueError:
        raise ValueError(f"members: expected {settings.members.expected}, got {members!r}") from None
    refuse_silent(coordinator, members)
    return members


def refuse_silent(coordinator, members):
    """Refuses members of which none answers, or not as etcd does. Each of them has the time for one answer."""
    etcd = coordinator.connect(members)
    etcd.patience = TIMEOUT * (len(members) - 1)
    try:
        revision_of(etcd.call("kv/range", range_of(log.SEAL)))
    except (*FAILURES, *SENSELESS) as failure:
        said = f"no etcd answers at {', '.join(members)}: {trouble_text(failure)}"
        raise ValueError(f"{said}. The range stays as it is; ask again when it does") from None
    finally:
        etcd.close()


def split(coordinator, key, words):
    replace(coordinator, ranges.split_words(coordinator.machine.map, key, addresses(coordinator, words)))


def merge(coordinator, key, _):
    words = ranges.merge_words(coordinator.machine.map, key)
    refuse_unlike(coordinator, words["parents"])
    replace(coordinator, words)


def move(coordinator, key, words):
    replace(coordinator, ranges.move_words(coordinator.machine.map, key, addresses(coordinator, words) or []))


def place(coordinator, number, names):
    known = coordinator.machine.map
    if number not in known.live or not isinstance(names, list) or not all(isinstance(name, str) for name in names):
        raise ValueError("expected a range that there is, and a list of names")
    append_to_map(coordinator, {"range": number, "replicas": names})


DOERS = {b"split": split, b"merge": merge, b"move": move, b"place": place}


# ---- Seals, and the map ----


def refuse_unlike(coordinator, numbers):
    """Lets a merge wait while a node joins or retires: it must have done so in both ranges, or in none."""
    parts = [coordinator.machine.parts[number] for number in numbers]
    counts = {part.state["nodes"] for part in parts}
    if len(counts) > 1:
        raise NotNow("a node is joining")
    if coordinator.etcd.list(RETIRES):
        raise NotNow("a node is retiring")
    connect, known = coordinator.machine.connect, coordinator.machine.map
    for node in range(counts.pop()):
        states = [ranges.state_of(connect, known, part.range, node) for part in parts]
        if len({bool(state.get("retired")) for state in states}) > 1:
            raise NotNow("a node is retiring")


def replace(coordinator, words):
    """Seals the logs of ranges, and lets those of others go on."""
    for number in words["parents"]:
        coordinator.machine.parts[number].link.end_log(words)
    append_to_map(coordinator, words)
    logs.info("ranges go on in others", ranges=words["parents"], into=[part["id"] for part in words["into"]])
    coordinator.take_over()


def append_to_map(coordinator, words):
    """Appends an entry, unless the next one is there already: it then has these words, or is for the next round."""
    known = coordinator.machine.map
    conditions = [coordinator.lock.is_mine(), unchanged(known.next_key(), 0)]
    done = coordinator.etcd.transact(conditions, [put(known.next_key(), log.to_json(words))]).get("succeeded")
    known.read(coordinator.etcd)
    if not done and coordinator.etcd.get(coordinator.lock.key).revision != coordinator.lock.revision:
        raise log.Fenced("another coordinator has the map")


def finish(coordinator):
    """Goes on with the seals that another coordinator has left."""
    machine = coordinator.machine
    for found in machine.map.all_live():
        seal = machine.connect(found.members).get(found.prefix + log.SEAL)
        if seal:
            words = json.loads(seal.value)
            for number in words["parents"]:
                if number in machine.parts:
                    machine.parts[number].link.end_log(words)
            append_to_map(coordinator, words)
            return


def make_links(coordinator):
    """Makes the links of all nodes in ranges that came from others, where no writer has taken them over.

    So whoever looks at a range sees all its heads.
    """
    machine = coordinator.machine
    for part in machine.parts.values():
        etcd, links = machine.connect(part.range.members), part.range.prefix + b"link/"
        if not part.range.parents:
            continue
        there = {pair.key for pair in etcd.list(links)}
        for node in range(part.state["nodes"]):
            key = log.link_key(node, part.range.prefix)
            if key not in there:
                state = ranges.state_of(machine.connect, machine.map, part.range, node)
                etcd.transact([unchanged(key, 0), part.link.is_mine()], [put(key, log.to_json(state))])


# ---- Cutting ----


class Ended(log.Link):
    """The end of a sealed log: whoever cuts it needs no link, as nothing is appended any more."""

    def __init__(self, etcd, prefix, revision):
        super().__init__(etcd, log.COORDINATOR, prefix)
        self.key, self.revision = self.seal, revision


def published(replicas, number):
    """Returns the checkpoints of a range that replicas publish."""
    found = []
    for words in replicas:
        parts = words.get("ranges", {"0": words})
        if str(number) in parts:
            found.append(parts[str(number)]["checkpoint"])
    return found


def cut(coordinator, number, replicas):
    """Cuts the log of a range up to what all its replicas have; one that ended as a whole, when nobody needs it."""
    machine = coordinator.machine
    found, checkpoints = machine.map.ranges[number], published(replicas, number)
    etcd = machine.connect(found.members)
    if number in machine.parts:
        if checkpoints and min(checkpoints):
            coordinator.cut = log.cut(etcd, machine.parts[number].link, min(checkpoints))
        return
    seal = etcd.get(found.prefix + log.SEAL)
    if not seal or number in coordinator.done:
        return
    end = Ended(etcd, found.prefix, seal.revision)
    if checkpoints and min(checkpoints):
        log.cut(etcd, end, min(checkpoints))
    elif not checkpoints and all(max(published(replicas, each.id), default=0) for each in machine.map.children(number)):
        log.cut(etcd, end, seal.revision)
        coordinator.done.add(number)
