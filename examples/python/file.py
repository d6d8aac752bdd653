"""Prices in a file: each day is a batch, a past day is read as it was, and days that are too old go away.

The readings are days in place of milliseconds, so that the program prints the same whenever it runs."""

import tempfile
from pathlib import Path

from hlcstore import BelowHorizon
from hlcstore.file import File

DAYS = {
    1: {b"bread": b"1.10", b"milk": b"0.90"},
    2: {b"bread": b"1.20"},
    3: {b"milk": None, b"salt": b"0.40"},
}


def expect(found, expected):
    if found != expected:
        raise ValueError(f"{found}, not {expected}")


def write_days(path):
    """Writes the days, and returns the stamp at the end of each."""
    with File(path) as file:
        return {day: file.append(prices, reading=day) for day, prices in DAYS.items()}


def read_days(path, ends):
    """Reads each day in the file, which is opened again."""
    with File(path, must_exist=True) as file:
        expect(dict(file.snapshot(ends[1]).items()), {b"bread": b"1.10", b"milk": b"0.90"})
        expect(dict(file.snapshot(ends[2]).items()), {b"bread": b"1.20", b"milk": b"0.90"})
        expect(dict(file.snapshot().items()), {b"bread": b"1.20", b"salt": b"0.40"})


def forget_first_day(path, ends):
    """Vacuums to the second day: only the first price of bread was for the first day alone."""
    with File(path) as file:
        expect(file.vacuum(ends[2]).dropped, 1)
        expect(file.snapshot(ends[2])[b"bread"], b"1.20")
        try:
            file.snapshot(ends[1])
        except BelowHorizon:
            print("all right")


with tempfile.TemporaryDirectory() as folder:
    path = Path(folder, "prices.hlc")
    ends = write_days(path)
    read_days(path, ends)
    forget_first_day(path, ends)
