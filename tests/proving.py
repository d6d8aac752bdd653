#!/usr/bin/env python3
"""Shows on standard error how far a command of rt is that proves crates, until it ends; and ends it where a proof
failed.

    tests/proving.py LOG CRATE MINUTES PID [RUNS]

LOG is the file that the command writes to, CRATE the crate that it proves with all below it, PID its process group, and
MINUTES how long it takes where nothing is proved yet. RUNS is how many runs of rt it makes beside each other: these
wait for each other, so another build is proving a crate only where all of them wait for it. The line is written over
itself on a terminal, and otherwise every two minutes. The status is 1 where a proof failed: the line then names the
crate, the function and the log.

How much time is left follows from the longest chain of crates, each weighed by its lines, since crates that do not
depend on each other are proved side by side: the count of crates says little of it.
"""

import collections
import functools
import os
import pathlib
import re
import signal
import sys
import time

TOP = pathlib.Path(__file__).resolve().parent.parent
# What each crate costs beside its lines, in lines.
FIXED = 800
SECONDS_ON_A_TERMINAL = 5
SECONDS = 120
DONE = re.compile(r"^rt: (\w+) (?:proved|is kept)", re.M)
EDITS = re.compile(r"^rt: (\w+): trying its must-fail edits", re.M)
# Of `rt check`, which names a crate where it begins with it.
BEGUN = re.compile(r"^rt: chose --jobs \d+ for (\w+)", re.M)
FAILED = re.compile(r"^rt: (\w+)(?:: its tests are)? NOT PROVED|^(logic=not-proved)", re.M)
# The function that is not proved, but for those that only call it; or where the sources are no program.
FUNCTION = re.compile(r"^fn (\S+): (?:not proved|no proof: (?!it calls))|^(src/\S+:\d+:\d+: error.*)", re.M)
WAITING = re.compile(r"^rt: (\w+).*(?:another run on this machine|another copy of the repository)", re.M)


def crates_below(name):
    """The crate and all crates below it, each with those of the repository that its line of crates.txt names."""
    lines = (TOP / "crates.txt").read_text().splitlines()
    lines = [line for line in lines if line and not line.startswith("#")]
    uses = {line.split(":")[0].split()[0]: line.split(":")[1].split() for line in lines}
    found, waiting = {}, [name] if name else list(uses)
    while waiting:
        crate = waiting.pop()
        if crate in uses and crate not in found:
            found[crate] = [low for low in uses[crate] if low in uses]
            waiting += found[crate]
    return found


@functools.cache
def weight(crate):
    """What a crate costs, in lines of Rattle."""
    folder = TOP / "crates" / crate
    lines = {ending: sum(len(path.read_text().splitlines()) for path in folder.rglob(f"*{ending}")
                         if "out" not in path.relative_to(folder).parts) for ending in (".rt", ".antt")}
    return lines[".rt"] + lines[".antt"] / 5 + FIXED


def longest_chain(crates, done):
    """The weight of the longest chain of crates that are not done."""

    @functools.cache
    def above(crate):
        own = 0 if crate in done else weight(crate)
        return own + max((above(low) for low in crates[crate]), default=0)

    return max(map(above, crates), default=0)


def minutes_left(crates, done, minutes, guess):
    """The estimate: by the rate so far, and by the guess as far as the chain is not done yet."""
    whole = longest_chain(crates, frozenset())
    left = longest_chain(crates, frozenset(done)) / whole if whole else 0
    return left * (minutes + left * guess)


def under_way(crates, done):
    """The crates that can be proved now: all below them are done."""
    ready = [crate for crate, low in crates.items() if crate not in done and done.issuperset(low)]
    return sorted(ready, key=weight, reverse=True)[: os.cpu_count() or 1]


def line_of(log, crates, minutes, guess, runs=1):
    """How far the command is that wrote this log, by so many runs beside each other."""
    begun = [name for name in BEGUN.findall(log) if name in crates]
    done = {name for name in DONE.findall(log) + begun[:-1] if name in crates}
    now = begun[-1:] if begun else under_way(crates, done)
    edits = set(EDITS.findall(log))
    begun_edits = f", edits of {len(edits)} crates begun" if edits else ""
    if len(done) == len(crates):
        return f"all {len(done)} crates are proved{begun_edits}, {minutes:.0f} min so far"
    waits = [name for name, times in collections.Counter(WAITING.findall(log)).items()
             if times >= runs and name not in done]
    said = f"{len(done)} of {len(crates)} crates{begun_edits}, {minutes:.0f} min so far, about "
    said += f"{max(1, minutes_left(crates, done, minutes, guess)):.0f} left; now {', '.join(now)}"
    return said + (f"; another build is proving {waits[-1]}, and this one waits for it" if waits else "")


def failure_of(log):
    """The crate and the function, or the place, of what failed, or none."""
    failed = FAILED.search(log)
    if not failed:
        return None
    functions = ["".join(found) for found in FUNCTION.findall(log[: failed.end()])]
    begun = BEGUN.findall(log[: failed.end()])
    crate = failed.group(1) or (begun[-1] if begun else "a crate")
    return f"{crate} is not proved" + (f": {functions[-1]}" if functions else "")


class Shown:
    """A line that is written over itself on a terminal, and otherwise seldom."""

    def __init__(self, name):
        self.name, self.next = name, time.monotonic()
        self.is_terminal = sys.stderr.isatty()

    def show(self, text):
        now = time.monotonic()
        if now < self.next:
            return
        self.next = now + (SECONDS_ON_A_TERMINAL if self.is_terminal else SECONDS)
        before, after = ("\r\x1b[K", "") if self.is_terminal else ("", "\n")
        print(f"{before}{self.name}: proving, {text}", end=after, file=sys.stderr, flush=True)

    def end(self, text=None):
        print("\r\x1b[K" if self.is_terminal else "", end="", file=sys.stderr)
        if text:
            print(f"{self.name}: {text}", file=sys.stderr, flush=True)


def is_running(group):
    """Whether the first process of a group still runs. One that has ended may wait to be asked for its status."""
    try:
        return pathlib.Path(f"/proc/{group}/stat").read_text().rsplit(")", 1)[1].split()[0] != "Z"
    except (FileNotFoundError, ProcessLookupError):
        return False


def watch(log, crate, guess, group, runs):
    """Shows how far the command is until it ends, and returns the status."""
    crates, shown, began, runs_on = crates_below(crate), Shown(crate), time.monotonic(), True
    while runs_on:
        runs_on = is_running(group)
        text = log.read_text(errors="replace") if log.exists() else ""
        failure = failure_of(text)
        if failure:
            if runs_on:
                os.killpg(group, signal.SIGTERM)
            shown.end(f"{failure}: see {log}")
            return 1
        shown.show(line_of(text, crates, (time.monotonic() - began) / 60, guess, runs))
        time.sleep(1 if runs_on else 0)
    shown.end()
    return 0


def main():
    log, crate, guess, group = pathlib.Path(sys.argv[1]), sys.argv[2], float(sys.argv[3]), int(sys.argv[4])
    runs = int(sys.argv[5]) if len(sys.argv) > 5 else 1
    signal.signal(signal.SIGTERM, signal.default_int_handler)
    try:
        return watch(log, crate, guess, group, runs)
    except KeyboardInterrupt:
        # The group is not that of the terminal, so nothing else ends it.
        os.killpg(group, signal.SIGTERM)
        return 130


if __name__ == "__main__":
    sys.exit(main())
