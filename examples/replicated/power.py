"""Power that fails, for `run`: a program's folder becomes what it had synchronised, as power/power.c has noted it."""

import pathlib
import shutil
import subprocess

SOURCE = pathlib.Path(__file__).resolve().parent / "power" / "power.c"


def build(folder):
    """Returns the library that is loaded before others; or None where there is no C compiler."""
    compiler = shutil.which("cc")
    if not compiler:
        return None
    pathlib.Path(folder).mkdir(parents=True, exist_ok=True)
    library = pathlib.Path(folder) / "power.so"
    subprocess.run([compiler, "-shared", "-fPIC", "-O2", "-o", library, SOURCE, "-ldl"], check=True)
    return library


def words_of(library, folder, shadow):
    """Returns the words that start a program whose folder has a shadow."""
    pathlib.Path(shadow).mkdir(parents=True, exist_ok=True)
    return ["env", f"LD_PRELOAD={library}", f"POWER_FOLDER={folder}", f"POWER_SHADOW={shadow}"]


def fail(folder, shadow):
    """Makes a folder what is left of it, when the program has ended. Returns how many files are other than they were.

    A name that is there has the bytes that were synchronised, and none where they never were. What was not synchronised
    may be there all the same on a real disk: then less is lost.
    """
    folder = pathlib.Path(folder)
    before = contents(folder)
    shutil.rmtree(folder, ignore_errors=True)
    restore(folder, pathlib.Path(shadow), "folder-")
    after = contents(folder)
    return sum(before.get(path) != after.get(path) for path in before.keys() | after.keys())


def restore(here, shadow, listed):
    """Makes a folder what was synchronised of it, with the folders in it."""
    here.mkdir(parents=True, exist_ok=True)
    if not (shadow / listed).exists():
        return
    for line in (shadow / listed).read_text().splitlines():
        known, name = line.split(" ", 1)
        if known == "folder":
            restore(here / name, shadow, f"{listed}+{name}" if listed != "folder-" else listed + name)
        else:
            kept = shadow / known
            (here / name).write_bytes(kept.read_bytes() if kept.exists() else b"")


def contents(folder):
    return {path: path.read_bytes() for path in folder.rglob("*") if path.is_file()}
