"""The physical clock of a node, for the writers and the coordinator."""

import time

from hlcstore import split

FULL = 65_000  # of the 65,536 stamps that one reading has


def reading(node, offset=0):
    """Returns the reading of the clock; or a later one if the clock stays behind and its stamps are used up.

    A node whose clock is set back goes on with the counter of its last stamp, which has 65,536 places. `offset` sets
    the clock off by so many milliseconds.
    """
    now = max(time.time_ns() // 1_000_000 + offset, 0)
    physical, counter = split(node.last)
    return physical + 1 if now <= physical and counter >= FULL else now
