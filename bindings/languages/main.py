"""The program of main.c in Python."""

import sys

from hlcstore import AboveFloor, split, stamp
from hlcstore.file import File

STEPS, LAST_COUNTER, LONG_STEP = 5, 3, 10000
LONG_KEY = b"\0\xff"


def write_step(file, step, name, old):
    with file.batch(reading=10 * int(step)) as batch:
        batch.write(b"who", name.encode())
        batch.write(name.encode(), step.encode())
        batch.delete(old.encode())
        batch.write(LONG_KEY, b"v" * (LONG_STEP * int(step)))


def print_step(file, step):
    with file.snapshot(stamp(10 * step, LAST_COUNTER)) as snapshot:
        pairs = [f"{key.decode()}={value.decode()}" for key, value in snapshot.items(b"a")]
        print(f"{10 * step}.{LAST_COUNTER}:", *pairs, f"long={len(snapshot[LONG_KEY])}")


def print_steps(file):
    for step in range(1, STEPS + 1):
        print_step(file, step)
    try:
        file.snapshot(stamp(10 * (STEPS + 1)))
    except AboveFloor as refused:
        print("refused above %d.%d" % split(refused.word))


with File(sys.argv[2]) as file:
    if sys.argv[1] == "write":
        write_step(file, *sys.argv[3:])
    else:
        print_steps(file)
