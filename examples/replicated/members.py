"""What each member of etcd says of itself: whether it answers, how large its database is, and whether that is full."""

import http.client
import time

from etcd import Etcd, Refused, Unavailable

EACH = 5.0  # seconds from one look to the next
FAILURES = (OSError, http.client.HTTPException, Unavailable, Refused, ValueError)


def words_of(address, status):
    """Returns what a status says, or that the member does not answer."""
    status = status or {}
    no_space = any("NOSPACE" in text for text in status.get("errors", []))
    return {"address": address, "answers": bool(status), "bytes": int(status.get("dbSize", 0)), "no_space": no_space}


def status_of(address):
    """Returns the status of a member, or None where it does not answer."""
    client = Etcd([address])
    try:
        return client.ask("maintenance/status", {})
    except FAILURES:
        return None
    finally:
        client.connection.close()


class Members:
    def __init__(self, addresses):
        self.addresses = addresses
        self.words = []

    def look(self):
        self.words = [words_of(address, status_of(address)) for address in self.addresses]

    def go_on(self):
        while True:
            self.look()
            time.sleep(EACH)
