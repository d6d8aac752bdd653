"""What a shared library needs of the machine on which it runs."""

import os
import re
import subprocess

# The parts of glibc, which each Linux has that PEP 600 speaks of.
GLIBC = {"libc.so.6", "libm.so.6", "libpthread.so.0", "libdl.so.2", "ld-linux-x86-64.so.2"}


def dynamic(path):
    """What objdump prints of the dynamic part of a file."""
    command = ["objdump", "-p", path]
    return subprocess.run(
        command, capture_output=True, text=True, check=True, env=os.environ | {"LC_ALL": "C"}
    ).stdout


def libraries(path):
    """The libraries that it names."""
    return re.findall(r"^ *NEEDED +(\S+)$", dynamic(path), re.M)


def glibc_versions(path):
    """The versions of symbols that it takes from glibc, such as GLIBC_2.34."""
    found = []
    for part in dynamic(path).partition("Version References:")[2].split("required from ")[1:]:
        if part.partition(":")[0] in GLIBC:
            found += re.findall(r"^ *0x\w+ 0x\w+ \d+ (\S+)$", part, re.M)
    return found


def glibc(path):
    """The oldest glibc that has all symbols which it takes, as its numbers. A version of another kind is refused."""
    found = [(2,)]
    for version in glibc_versions(path):
        numbers = re.fullmatch(r"GLIBC_(\d+(?:\.\d+)*)", version)
        if not numbers:
            raise ValueError(f"{path} needs {version}, which is no version of glibc")
        found.append(tuple(map(int, numbers[1].split("."))))
    return max(found)
