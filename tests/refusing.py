"""Runs the program `player`, with refuse.c loaded before the C library where requests for memory are to be refused."""
import os
import pathlib
import shutil
import subprocess

TESTS = pathlib.Path(__file__).resolve().parent
# As `rt ci` builds it, or `rt run` in its folder.
PROGRAM = TESTS.parent / "crates" / "player" / "out" / "player"


def can_refuse():
    """Returns whether there is a C compiler, without which no request is refused."""
    return shutil.which("cc") is not None


def built_library(folder):
    """Builds refuse.c in this folder, and returns the library."""
    library = pathlib.Path(folder) / "refuse.so"
    subprocess.run(["cc", "-O2", "-shared", "-fPIC", "-o", library, TESTS / "refuse.c", "-ldl"], check=True)
    return library


def play(text, library=None):
    """Returns the lines that the program prints for an input, and its status where that is not 0."""
    settings = {"LD_PRELOAD": str(library)} if library else {}
    done = subprocess.run([PROGRAM], input=text.encode(), stdout=subprocess.PIPE, env=os.environ | settings,
                          timeout=600)
    return done.stdout.decode().splitlines() + [f"status {done.returncode}"] * (done.returncode != 0)
