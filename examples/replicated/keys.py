"""What `node/NAME` and `replica/NAME` say in etcd: the number of a node, and what a replica publishes.

A key there that makes no sense, as a slip of an operator leaves one, is left out as if it were not there, with a line
of log: it must not end the programs that list all of them.
"""

import json

import logs

NUMBERS = 1024  # of nodes
NOTHING = {"name": "", "address": "", "floor": 0, "checkpoint": 0}  # what a replica may leave out
SENSELESS = ValueError, KeyError, TypeError, AttributeError, RecursionError
left_out = {}  # keys with the revisions of which a line of log was written


def sensible(pairs, read):
    """Yields the name of each key with what `read` makes of its JSON."""
    for pair in pairs:
        try:
            words = read(json.loads(pair.value))
        except SENSELESS as failure:
            if left_out.get(pair.key) != pair.revision:
                left_out[pair.key] = pair.revision
                logs.warning("leaves out a key that makes no sense", key=repr(pair.key)[2:-1], text=repr(failure))
            continue
        yield pair.key.partition(b"/")[2], words


def whole(number):
    if type(number) is not int or not 0 <= number < 1 << 64:
        raise ValueError(f"expected a number of 64 bits, got {number!r}")
    return number


def node_of(number):
    if whole(number) >= NUMBERS:
        raise ValueError(f"expected the number of a node, got {number}")
    return number


def replica_of(words):
    words = NOTHING | words
    for each in words, *words.get("ranges", {}).values():
        whole(each["floor"]), whole(each["checkpoint"])
    if not isinstance(words["name"], str) or not isinstance(words["address"], str):
        raise ValueError("expected texts as name and address")
    return words


def names(pairs):
    """Returns the names of nodes, by their numbers."""
    return {number: name for name, number in sensible(pairs, node_of)}


def replicas(pairs):
    """Returns what replicas publish."""
    return [words for _, words in sensible(pairs, replica_of)]


def number_in(pair):
    """Returns the number of the node that has the name of this key, or None where that makes no sense."""
    return next(iter(names([pair])), None)
