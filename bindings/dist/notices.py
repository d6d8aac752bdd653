#!/usr/bin/env python3
"""Prints what others made and what is linked into what is built from crates: names, versions and licences, as the
toolchain's folders say.

    notices.py KIT CRATE..      KIT is the folder of the toolchain
"""

import itertools
import pathlib
import re
import subprocess
import sys

TOP = pathlib.Path(__file__).resolve().parent.parent.parent
sys.dont_write_bytecode = True
sys.path.insert(0, str(TOP / "tests"))
import proving  # noqa: E402

HEAD = """\
What others made, and what is linked in here as far as it is called.

The toolchain, Rattle, has ports of crates for Rust: their licences are below. Its own parts are linked in too: its
functions in C for memory, and its crates {own}.
The toolchain has no file of a licence for these, so none is known.
"""
# A port names what it is a port of, as "the Rust crate `sha2` 0.11.1".
PORT = re.compile(r"Rust crate `?([\w-]+)`? (\d+(?:\.\d+)*)")


def named(crates):
    """The crates of the toolchain that these crates, and all below them, name."""
    below = {name for crate in crates for name in proving.crates_below(crate)}
    found = set()
    for line in (TOP / "crates.txt").read_text().splitlines():
        head, _, uses = line.partition(":")
        if head.split() and head.split()[0] in below:
            found |= set(uses.split()) - below
    return found


def with_below(kit, crates):
    """These crates of the toolchain, and those that they are built of."""
    found = set(crates)
    for crate in crates:
        folder = kit / f"rlibs/{crate}.rlib/below"
        found |= {path.name for path in folder.iterdir()} if folder.is_dir() else set()
    return found


def port_of(folder):
    """The crate for Rust that a crate of the toolchain is a port of, with its version, or none."""
    readme = folder / "README.md"
    port = PORT.search(readme.read_text()) if readme.is_file() else None
    return f"{port[1]} {port[2]}" if port else None


def indented(text):
    return "".join(f"    {line}".rstrip() + "\n" for line in text.strip("\n").splitlines())


def notice_of(folder):
    """The notice of a part of the toolchain: what it is a port of, and the licence that is passed on with it. None
    where it names neither."""
    port = port_of(folder)
    files = sorted(path.name for path in folder.glob("LICENSE*"))
    title = f"{folder.name}, a port of {port}" if port else folder.name
    if not files:
        return f"{title}: the toolchain has no file of its licence.\n" if port else None
    text = "LICENSE-MIT" if "LICENSE-MIT" in files else files[0]
    either = " (or LICENSE-APACHE: the Apache License 2.0)" if "LICENSE-APACHE" in files else ""
    return f"{title}, by its {text}{either}:\n\n{indented((folder / text).read_text())}"


def text(kit, crates):
    """The notices of all that the toolchain links into what is built from these crates."""
    notices = {name: notice_of(kit / "rattle" / name) for name in sorted(with_below(kit, named(crates)))}
    own = [name for name, notice in notices.items() if not notice]
    return "\n".join([HEAD.format(own=", ".join(own)), *filter(None, notices.values())])


def of_library(compiler, name, header, version):
    """The version of a C library of the machine, by a macro of its header, and the notice at the head of that."""
    source = f"#include <{header}>\n{version}\n"
    ran = subprocess.run([*compiler, "-E", "-x", "c", "-"], input=source, capture_output=True, text=True, check=True)
    number = ran.stdout.split()[-1].strip('"')
    path = re.search(rf'^# 1 "([^"]*{re.escape(header)})"', ran.stdout, re.M)[1]
    comment = re.match(r"\s*/\*(.*?)\*/", pathlib.Path(path).read_text(errors="replace"), re.S)[1]
    lines = [line.strip().removeprefix("**").strip() for line in comment.splitlines()]
    # What follows a row of asterisks is about the calls.
    notice = "\n".join(itertools.takewhile(lambda line: not line.startswith("*****"), lines))
    return f"{name} {number}, by the head of its {header}:\n\n{indented(notice)}"


def main():
    print(end=text(pathlib.Path(sys.argv[1]), sys.argv[2:]))


if __name__ == "__main__":
    main()
