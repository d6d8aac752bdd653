"""The history of what a client wrote and read, for checker.py: lines of JSON in a file, which is added to.

    {"sends": [[stamp, [[key, value], ..]], ..], "node": number}    items of a node, before they are appended; a value
                                           of null is a deletion
    {"done": true}                         they are in the log, or with false: they were refused, and are in none
    {"saw": stamp}                         the stamp of a read of which the client knows before it writes on
    {"read": stamp, "values": [[key, value], ..], "began": time}    what a read at a stamp answered

Each line has `by`, the process, as another one of the same name may add to the file while the first stands still. Keys
and values are in hexadecimal digits. Items without a word on what came of them may be in the log or not.
"""

import json
import os


def ends_a_line(path):
    """Returns whether a file has no line that was cut short, as by a kill in the middle of it."""
    with open(path, "rb") as file:
        if file.seek(0, os.SEEK_END) == 0:
            return True
        file.seek(-1, os.SEEK_END)
        return file.read(1) == b"\n"


class History:
    """Where no path is given, nothing is kept."""

    def __init__(self, path=None):
        self.file = open(path, "a", buffering=1) if path else None
        self.batch = []
        if path and not ends_a_line(path):
            self.file.write("\n")

    def say(self, **words):
        if self.file:
            self.file.write(json.dumps(words | {"by": os.getpid()}) + "\n")

    def issue(self, stamp, writes):
        if self.file:
            hexadecimal = [[key.hex(), None if value is None else value.hex()] for key, value in writes]
            self.batch.append([int(stamp), hexadecimal])

    def sends(self, node):
        self.say(sends=self.batch, node=node)
        self.batch = []

    def done(self, taken):
        self.say(done=taken)

    def saw(self, stamp):
        self.say(saw=stamp)

    def read(self, stamp, values, began):
        self.say(read=stamp, values=values, began=began)
