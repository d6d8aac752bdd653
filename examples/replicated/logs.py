"""Logs of one line each, on standard error:

    2026-11-29T12:30:00.123Z info replica/r1: saved a checkpoint revision=12 bytes=345 seconds=0.01

A line has the time, a level, who says it, a text, and fields. The levels are `debug`, `info`, `warning` and `error`;
lines below the level that was chosen are left out.
"""

import datetime
import json
import re
import sys
import threading

LEVELS = ["debug", "info", "warning", "error"]
PLAIN = re.compile(r"[\w.:/+-]+")  # a field that needs no quotes


class Chosen:
    """What the settings of the program say of its lines."""

    level, program = "warning", ""
    lock = threading.Lock()  # so that the lines of two threads do not mix


def choose(level, program):
    Chosen.level, Chosen.program = level, program


def field_text(value):
    text = f"{value:.3f}".rstrip("0").rstrip(".") if isinstance(value, float) else str(value)
    return text if PLAIN.fullmatch(text) else json.dumps(text)


def line_of(now, level, program, text, fields):
    time = now.astimezone(datetime.UTC).strftime("%Y-%m-%dT%H:%M:%S.%f")[:-3]
    plain = text.replace("\\", "\\\\").replace("\n", "\\n").replace("\r", "\\r")
    return " ".join([f"{time}Z {level} {program}: {plain}", *(f"{name}={field_text(fields[name])}" for name in fields)])


def say(level, text, /, **fields):
    if LEVELS.index(level) < LEVELS.index(Chosen.level):
        return
    line = line_of(datetime.datetime.now(datetime.UTC), level, Chosen.program, text, fields)
    with Chosen.lock:
        try:
            sys.stderr.write(line + "\n")
            sys.stderr.flush()
        except (OSError, ValueError):
            pass  # nobody reads it, or its file system is full: no reason to end


def debug(text, /, **fields):
    say("debug", text, **fields)


def info(text, /, **fields):
    say("info", text, **fields)


def warning(text, /, **fields):
    say("warning", text, **fields)


def error(text, /, **fields):
    say("error", text, **fields)
