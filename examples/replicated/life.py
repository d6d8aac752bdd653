"""How a program ends: with one of these statuses, and never without a line of log that says why.

    0   it was asked to by SIGTERM or SIGINT, or its node retired
    1   a failure
    2   its words or its settings make no sense
    3   another process took its node over
    4   its standard input ended, where it was started with --piped
    5   it can never do its work: its node retired, no node is left for its name, or a checkpoint is of another version

The first signal ends it as soon as what it does now is whole; the second one at once.
"""

import http.client
import os
import signal
import sys
import threading
import time
import traceback

import log
import logs
from etcd import Refused, Stopped, Unavailable

DONE, FAILED, FENCED, INPUT_ENDED, FOR_GOOD = 0, 1, 3, 4, 5
STEP = 0.05  # seconds from one look to the next whether the program was asked to end
# What can happen without a mistake in these programs: a text says enough. A program may add to them.
EXPECTED = [OSError, http.client.HTTPException, Unavailable, Refused, log.Cut, log.Retired]


class Never(Exception):
    """The program can never do its work, and says why."""


class Life:
    """Whether a program was asked to end, and with which status it then ends."""

    def __init__(self):
        self.asked = threading.Event()
        self.status, self.why = DONE, ""

    def ask(self, status, why):
        if not self.asked.is_set():
            self.status, self.why = status, why
            self.asked.set()

    def wait(self):
        """Waits until the program is asked to end. It takes no lock, for which the handler of a signal would wait."""
        while not self.asked.is_set():
            time.sleep(STEP)

    def end_with_signals(self):
        for number in signal.SIGTERM, signal.SIGINT:
            signal.signal(number, self.on_signal)

    def on_signal(self, number, _):
        """Logs nothing: the thread that it interrupts may be writing a line."""
        signal.signal(number, signal.SIG_DFL)
        self.ask(DONE, signal.Signals(number).name)

    def obey(self, command, stays=lambda: False):
        """Gives `command` each line of standard input, of which it returns whether it knows it.

        The end of the input ends the program, unless it `stays` for what is left to do.
        """
        for line in sys.stdin:
            if not command(line.split()):
                logs.warning("an unknown command", line=line.strip())
        if not stays():
            self.ask(INPUT_ENDED, "its standard input ended")

    def start_to_obey(self, *words):
        threading.Thread(target=self.obey, args=words, daemon=True).start()


def place_of(failure):
    """Returns where a failure comes from, the innermost call first."""
    frames = reversed(traceback.extract_tb(failure.__traceback__))
    return " < ".join(f"{os.path.basename(frame.filename)}:{frame.lineno} {frame.name}" for frame in frames)


def tell(failure):
    """Logs why a program ends, and returns its status."""
    if isinstance(failure, log.Fenced):
        logs.warning(f"another process took over: {failure}")
        return FENCED
    if isinstance(failure, Never):
        logs.error(str(failure))
        return FOR_GOOD
    if isinstance(failure, tuple(EXPECTED)):
        logs.error(f"failed: {str(failure) or '-'}", kind=type(failure).__name__)
    else:
        logs.error(f"failed: {failure!r}", at=place_of(failure))
    return FAILED


def run(work):
    """Makes `work(life)`, and ends the process: with the status that it was asked to, or that its failure has."""
    life = Life()
    life.end_with_signals()
    try:
        work(life)
        status = life.status
    except Stopped:
        status = life.status
    except BaseException as failure:
        status = tell(failure)
    logs.info("ends", status=status, why=life.why or "-")
    end(status)


def end(status):
    """Ends the process at once: its threads may be in a call of the store, and what must be on disk is there."""
    try:
        sys.stdout.flush()
    except (OSError, ValueError):
        pass
    os._exit(status)


def essential(call, *words):
    """Makes a call in a thread of its own. The process ends where the call does, unless it was asked to end anyway."""

    def work():
        try:
            call(*words)
            logs.error(f"failed: {call.__name__} returned")
            end(FAILED)
        except Stopped:
            pass
        except BaseException as failure:
            end(tell(failure))

    threading.Thread(target=work, daemon=True, name=call.__name__).start()
