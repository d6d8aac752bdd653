"""Builds the package (PEP 517) with the standard library alone, so that `pip install .` needs no network.

It compiles the extension on the stable ABI, with the whole of libhlcstore.a inside, and writes the wheel. Where
libhlcstore-file.a lies beside that, and SQLite and zlib can be linked with, it compiles the extension for files too.
"""

import base64
import hashlib
import os
import pathlib
import re
import shlex
import stat
import subprocess
import sysconfig
import tarfile
import tempfile
import time
import tomllib
import zipfile
from typing import NamedTuple

HERE = pathlib.Path(__file__).resolve().parent.parent
PROJECT = tomllib.loads((HERE / "pyproject.toml").read_text())["project"]
NAME = PROJECT["name"]
NATIVE = HERE / "src/native"
# The oldest version of Python that has what the extension uses, as a tag and as the number of its headers.
PYTHON_TAG, LIMITED_API = "cp311", "0x030b0000"
# The first time that a file in an archive of zip can have: the start of 1980, in seconds from that of 1970.
FIRST_TIME = 315532800
# What libhlcstore-file.a needs of the system.
FILE_NEEDS = ("-lsqlite3", "-lz")
MISSING = """\
hlcstore: libhlcstore.a and hlcstore.h were not found. Do one of these:
  set HLCSTORE_DIR to the folder that has them, or to the one whose lib/ and include/ have them;
  set PKG_CONFIG_PATH to the folder of hlcstore.pc;
  build the library in this repository, into bindings/build: see bindings/python/README.md."""


class Library(NamedTuple):
    """The files of the C library."""

    archive: pathlib.Path
    header: pathlib.Path

    @property
    def file_archive(self):
        """The library for files, if it is there."""
        return self.archive.with_name("libhlcstore-file.a")

    def has_files(self):
        """Whether the library for files is there, and what it needs."""
        is_there = self.file_archive.is_file() and self.header.with_name("hlcstore_file.h").is_file()
        return is_there and links_with_needs()


def in_folder(folder):
    """Returns the library in a folder, or in its lib/ and include/, or None."""
    archives = [path for path in (folder / "lib/libhlcstore.a", folder / "libhlcstore.a") if path.is_file()]
    headers = [path for path in (folder / "include/hlcstore.h", folder / "hlcstore.h") if path.is_file()]
    return Library(archives[0], headers[0]) if archives and headers else None


def pkg_config(variable):
    """Returns a folder that pkg-config names, or None."""
    try:
        answer = subprocess.run(["pkg-config", f"--variable={variable}", NAME], capture_output=True, text=True)
    except FileNotFoundError:
        return None
    return pathlib.Path(answer.stdout.strip()) if answer.returncode == 0 and answer.stdout.strip() else None


def installed():
    """Returns the library that pkg-config names, or None."""
    libraries, headers = pkg_config("libdir"), pkg_config("includedir")
    if not libraries or not headers:
        return None
    library = Library(libraries / "libhlcstore.a", headers / "hlcstore.h")
    return library if library.archive.is_file() and library.header.is_file() else None


def find_library():
    """Returns the library in HLCSTORE_DIR, or else the installed one, or else that of this repository."""
    if named := os.environ.get("HLCSTORE_DIR"):
        library = in_folder(pathlib.Path(named))
    else:
        library = installed() or in_folder(HERE.parent / "build")
    if not library:
        raise SystemExit(MISSING)
    return library


def version():
    """Returns the version of the library."""
    return re.search(r'^#define HLC_VERSION "(.*)"$', find_library().header.read_text(), re.M)[1]


def compiler():
    """Returns the words that call the C compiler. CC is that of the environment."""
    return shlex.split(os.environ.get("CC", "cc"))


def links_with_needs():
    """Whether a shared library can be linked with what the library for files needs."""
    words = [*compiler(), "-shared", "-x", "c", os.devnull, *FILE_NEEDS, "-o", os.devnull]
    return subprocess.run(words, capture_output=True).returncode == 0


def compile_extension(to, sources, archives):
    """Compiles an extension into a file. CFLAGS and LDFLAGS are those of the environment."""
    flags = ["-shared", "-fPIC", "-fvisibility=hidden", "-pthread", "-std=gnu11", "-O2"]
    flags += [f"-DPy_LIMITED_API={LIMITED_API}", f"-I{sysconfig.get_path('include')}", f"-I{NATIVE}"]
    flags += [f"-I{find_library().header.parent}", *shlex.split(os.environ.get("CFLAGS", ""))]
    # The symbols of the library stay inside, so that two extensions with a library of their own don't meet.
    link = ["-Wl,--exclude-libs,ALL", "-Wl,-z,relro,-z,now", *shlex.split(os.environ.get("LDFLAGS", ""))]
    subprocess.run([*compiler(), *flags, *sources, *archives, *link, "-o", to], check=True)


def compile_native(to):
    """Compiles the extension of the store."""
    compile_extension(to, sorted(NATIVE.glob("*.c")), [find_library().archive])


def compile_file(to):
    """Compiles the extension for files, which shares a part of the sources of the other one."""
    shared = [NATIVE / f"{name}.c" for name in ("arguments", "objects", "refusals", "writer")]
    library = find_library()
    sources = [*sorted((HERE / "src/file").glob("*.c")), *shared]
    compile_extension(to, sources, [library.file_archive, library.archive, *FILE_NEEDS])


def metadata():
    """Returns the content of METADATA."""
    lines = ["Metadata-Version: 2.1", f"Name: {NAME}", f"Version: {version()}", f"Summary: {PROJECT['description']}"]
    lines += [f"License: {PROJECT['license']['text']}", f"Requires-Python: {PROJECT['requires-python']}"]
    lines += [f"Classifier: {classifier}" for classifier in PROJECT["classifiers"]]
    lines += ["Description-Content-Type: text/markdown", "", (HERE / PROJECT["readme"]).read_text()]
    return "\n".join(lines)


def info_folder():
    return f"{NAME}-{version()}.dist-info"


def this_platform():
    """Returns the tag of the platform that the build is for: this machine, and what is installed on it."""
    return re.sub(r"[-.]", "_", sysconfig.get_platform())


def tag(platform):
    return f"{PYTHON_TAG}-abi3-{platform}"


def info_files(platform):
    """Returns the files of the folder .dist-info but RECORD."""
    wheel = f"Wheel-Version: 1.0\nGenerator: hlcstore_backend\nRoot-Is-Purelib: false\nTag: {tag(platform)}\n"
    return {f"{info_folder()}/METADATA": metadata().encode(), f"{info_folder()}/WHEEL": wheel.encode()}


def package_files():
    """Returns the files of the package, by their names in the wheel."""
    files = {}
    for path in sorted((HERE / "src/hlcstore").iterdir()):
        if path.suffix in (".py", ".pyi") or path.name == "py.typed":
            files[f"{NAME}/{path.name}"] = path.read_bytes()
    files |= extension_file("_native", compile_native)
    if find_library().has_files():
        files |= extension_file("_file", compile_file)
    else:
        print("hlcstore: hlcstore.file is left out: libhlcstore-file.a, hlcstore_file.h, SQLite or zlib is not there")
    return files


def extension_file(name, compile_it):
    """Returns an extension, by its name in the wheel."""
    with tempfile.TemporaryDirectory() as folder:
        extension = pathlib.Path(folder, f"{name}.abi3.so")
        compile_it(extension)
        return {f"{NAME}/{extension.name}": extension.read_bytes()}


def record(files):
    """Returns the content of RECORD: each file with its digest and its length."""
    lines = []
    for name, content in files.items():
        digest = base64.urlsafe_b64encode(hashlib.sha256(content).digest()).rstrip(b"=").decode()
        lines.append(f"{name},sha256={digest},{len(content)}\n")
    return "".join(lines) + f"{info_folder()}/RECORD,,\n"


def entry(name):
    """Returns the head of a file in the wheel. Its time is SOURCE_DATE_EPOCH, or the first one that an archive can
    have, so that the same files make the same wheel."""
    seconds = max(int(os.environ.get("SOURCE_DATE_EPOCH", FIRST_TIME)), FIRST_TIME)
    head = zipfile.ZipInfo(name, time.gmtime(seconds)[:6])
    head.compress_type = zipfile.ZIP_DEFLATED
    head.external_attr = (stat.S_IFREG | 0o644) << 16
    return head


def write_wheel(folder, files, platform):
    """Writes the wheel of these files of the package, with this tag of the platform, and returns its name."""
    files = files | info_files(platform)
    files[f"{info_folder()}/RECORD"] = record(files).encode()
    name = f"{NAME}-{version()}-{tag(platform)}.whl"
    with zipfile.ZipFile(pathlib.Path(folder, name), "w") as wheel:
        for path, content in files.items():
            wheel.writestr(entry(path), content)
    return name


# ---- What pip calls ----


def prepare_metadata_for_build_wheel(metadata_directory, config_settings=None):
    for name, content in info_files(this_platform()).items():
        path = pathlib.Path(metadata_directory, name)
        path.parent.mkdir(exist_ok=True)
        path.write_bytes(content)
    return info_folder()


def build_wheel(wheel_directory, config_settings=None, metadata_directory=None):
    return write_wheel(wheel_directory, package_files(), this_platform())


def build_sdist(sdist_directory, config_settings=None):
    """Packs the sources. The library is not among them: who builds them has it."""
    top = f"{NAME}-{version()}"
    name = f"{top}.tar.gz"
    with tempfile.TemporaryDirectory() as folder:
        info = pathlib.Path(folder, "PKG-INFO")
        info.write_text(metadata())
        with tarfile.open(pathlib.Path(sdist_directory, name), "w:gz", format=tarfile.PAX_FORMAT) as sources:
            sources.add(info, f"{top}/PKG-INFO")
            for path in ("pyproject.toml", "README.md", "backend", "src", "tests"):
                sources.add(HERE / path, f"{top}/{path}", filter=without_caches)
    return name


def without_caches(member):
    return None if "__pycache__" in member.name else member
