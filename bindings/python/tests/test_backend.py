"""Where the backend looks for the library, and what it packs. HLCSTORE_DIR names a folder with the library."""

import importlib.util
import os
import pathlib
import shutil
import tarfile
import tempfile
import unittest
import zipfile
from unittest import mock

PACKAGE = pathlib.Path(__file__).resolve().parent.parent
LIBRARY = pathlib.Path(os.environ["HLCSTORE_DIR"])
FILES = {"libhlcstore.a": LIBRARY / "libhlcstore.a", "hlcstore.h": LIBRARY / "include/hlcstore.h"}


def load_backend(package):
    """Loads the backend of a copy of the package."""
    path = package / "backend/hlcstore_backend.py"
    spec = importlib.util.spec_from_file_location("hlcstore_backend", path)
    backend = importlib.util.module_from_spec(spec)
    spec.loader.exec_module(backend)
    return backend


class Backend(unittest.TestCase):
    def setUp(self):
        folder = tempfile.TemporaryDirectory()
        self.addCleanup(folder.cleanup)
        self.top = pathlib.Path(folder.name)
        shutil.copytree(PACKAGE, self.top / "bindings/python")
        self.backend = load_backend(self.top / "bindings/python")

    def place(self, archives, headers):
        """Copies the library into two folders."""
        for folder, name in (archives, "libhlcstore.a"), (headers, "hlcstore.h"):
            (self.top / folder).mkdir(parents=True, exist_ok=True)
            shutil.copy(FILES[name], self.top / folder / name)
        return self.top / archives / "libhlcstore.a", self.top / headers / "hlcstore.h"

    def found(self, **variables):
        """What is found where only these variables are set."""
        nothing = {"HLCSTORE_DIR": "", "PKG_CONFIG_PATH": "", "PKG_CONFIG_LIBDIR": ""}
        variables = {name: str(value) for name, value in variables.items()}
        with mock.patch.dict(os.environ, nothing | variables):
            return self.backend.find_library()

    def test_a_named_folder(self):
        flat, installed = self.place("flat", "flat"), self.place("usr/lib", "usr/include")
        self.assertEqual(self.found(HLCSTORE_DIR=self.top / "flat"), flat)
        self.assertEqual(self.found(HLCSTORE_DIR=self.top / "usr"), installed)

    def test_pkg_config(self):
        if not shutil.which("pkg-config"):
            self.skipTest("no pkg-config")
        files = self.place("usr/lib/x86_64-linux-gnu", "usr/include")
        text = f"libdir={files[0].parent}\nincludedir={files[1].parent}\nName: hlcstore\nDescription: -\nVersion: 0\n"
        (self.top / "hlcstore.pc").write_text(text)
        self.place("bindings/build", "bindings/build/include")
        self.assertEqual(self.found(PKG_CONFIG_PATH=self.top), files)

    def test_the_repository(self):
        files = self.place("bindings/build", "bindings/build/include")
        self.assertEqual(self.found(), files)

    def test_the_library_for_files(self):
        archive, header = self.place("usr/lib", "usr/include")
        archive.with_name("libhlcstore-file.a").touch()
        self.assertFalse(self.found(HLCSTORE_DIR=self.top / "usr").has_files())
        header.with_name("hlcstore_file.h").touch()
        for can_link in True, False:
            with mock.patch.object(self.backend, "links_with_needs", return_value=can_link):
                self.assertEqual(self.found(HLCSTORE_DIR=self.top / "usr").has_files(), can_link)

    def test_nowhere(self):
        self.place("bindings/build", "bindings/build/include")
        for folder in "nowhere", "bindings/python":
            with self.assertRaisesRegex(SystemExit, "(?s)HLCSTORE_DIR.*PKG_CONFIG_PATH.*bindings/build"):
                self.found(HLCSTORE_DIR=self.top / folder)

    def test_the_sources_make_the_same_wheel(self):
        name = self.backend.build_sdist(self.top)
        with tarfile.open(self.top / name) as sources:
            self.assertNotIn("__pycache__", " ".join(sources.getnames()))
            sources.extractall(self.top)
        unpacked = load_backend(self.top / name.removesuffix(".tar.gz"))
        self.assertEqual(unpacked.metadata(), self.backend.metadata())

        def make_empty(to, *sources_and_archives):
            to.touch()

        with mock.patch.object(unpacked, "compile_extension", make_empty):
            with mock.patch.object(self.backend, "compile_extension", make_empty):
                self.assertEqual(unpacked.package_files(), self.backend.package_files())
        self.assertEqual((self.top / name.removesuffix(".tar.gz") / "PKG-INFO").read_text(), unpacked.metadata())

    def test_a_wheel_has_the_time_of_its_sources(self):
        for said, year in ("1700000000", 2023), ("0", 1980):
            with mock.patch.dict(os.environ, {"SOURCE_DATE_EPOCH": said}):
                name = self.backend.write_wheel(self.top, {"hlcstore/file": b"bytes"}, "linux_x86_64")
            with zipfile.ZipFile(self.top / name) as wheel:
                self.assertEqual({head.date_time[0] for head in wheel.infolist()}, {year})
                self.assertEqual({head.external_attr >> 16 for head in wheel.infolist()}, {0o100644})

    def test_a_wheel_is_for_the_platform_that_is_named(self):
        name = self.backend.write_wheel(self.top, {}, "manylinux_2_34_x86_64")
        self.assertTrue(name.endswith("-cp311-abi3-manylinux_2_34_x86_64.whl"), name)
        with zipfile.ZipFile(self.top / name) as wheel:
            info = wheel.read(f"{self.backend.info_folder()}/WHEEL").decode()
        self.assertIn("Tag: cp311-abi3-manylinux_2_34_x86_64\n", info)


if __name__ == "__main__":
    unittest.main()
