"""What the scripts of this folder decide: which glibc a wheel is for, and what it may need; which archive was proved,
and of which sources; which program is left out; what others made; and from which cargo on crates are packed."""

import importlib.machinery
import importlib.util
import os
import pathlib
import shutil
import subprocess
import sys
import tempfile
import unittest
from unittest import mock

HERE = pathlib.Path(__file__).resolve().parent
TOP = HERE.parent.parent
sys.dont_write_bytecode = True
sys.path.insert(0, str(HERE))
import needs  # noqa: E402
import notices  # noqa: E402

loader = importlib.machinery.SourceFileLoader("wheel", str(HERE / "wheel"))
wheel = importlib.util.module_from_spec(importlib.util.spec_from_loader("wheel", loader))
loader.exec_module(wheel)

# What objdump prints of a library, as far as it is read.
DYNAMIC = """
Dynamic Section:
  NEEDED               libz.so.1
  NEEDED               libc.so.6
  SONAME               libhlcstore-file.so.0.2

Version definitions:
1 0x01 0x0acd1bf0 libhlcstore-file.so.0.2
2 0x00 0x0c8a5ac0 GLIBC_9.9

Version References:
  required from libz.so.1:
    0x0827e5c9 0x00 05 ZLIB_1.2.9
  required from libc.so.6:
    0x09691a75 0x00 04 GLIBC_2.2.5
    0x06969194 0x00 03 GLIBC_2.14
"""


def prints(text):
    """Lets objdump print this text."""
    return mock.patch.object(needs, "dynamic", return_value=text)


class Needs(unittest.TestCase):
    def test_the_libraries_that_are_named(self):
        with prints(DYNAMIC):
            self.assertEqual(needs.libraries("file"), ["libz.so.1", "libc.so.6"])

    def test_the_newest_version_is_the_oldest_glibc(self):
        with prints(DYNAMIC):
            self.assertEqual(needs.glibc("file"), (2, 14))
        with prints(DYNAMIC.replace("GLIBC_2.14", "GLIBC_2.2.6")):
            self.assertEqual(needs.glibc("file"), (2, 2, 6))

    def test_no_version_is_no_number(self):
        with prints(DYNAMIC.replace("GLIBC_2.14", "GLIBC_ABI_DT_RELR")):
            with self.assertRaisesRegex(ValueError, "file needs GLIBC_ABI_DT_RELR, which is no version of glibc"):
                needs.glibc("file")


class Platforms(unittest.TestCase):
    def platform(self, *texts):
        """The platform of a wheel whose extensions need what these texts say."""
        files = {f"hlcstore/_{number}.so": b"" for number in range(len(texts))} | {"hlcstore/__init__.py": b""}
        with mock.patch.object(needs, "dynamic", side_effect=[text for text in texts for _ in range(2)]):
            return wheel.platform(files)

    def test_the_platform_has_what_each_extension_needs(self):
        old = DYNAMIC.replace("  NEEDED               libz.so.1\n", "")
        new = old.replace("GLIBC_2.2.5", "GLIBC_2.34")
        self.assertEqual(self.platform(old, new), "manylinux_2_34_x86_64")
        self.assertEqual(self.platform(new, old), "manylinux_2_34_x86_64")
        self.assertEqual(self.platform(old), "manylinux_2_14_x86_64")

    def test_the_oldest_platform(self):
        text = DYNAMIC.replace("  NEEDED               libz.so.1\n", "").replace("GLIBC_2.14", "GLIBC_2.4")
        self.assertEqual(self.platform(text), "manylinux_2_5_x86_64")

    def test_another_library_is_refused(self):
        with self.assertRaisesRegex(SystemExit, "hlcstore/_0.so needs libz.so.1, which not each Linux has"):
            self.platform(DYNAMIC)


class Sources(unittest.TestCase):
    """The sources of a checkout with two crates, and an archive that was proved of them."""

    def setUp(self):
        folder = tempfile.TemporaryDirectory()
        self.addCleanup(folder.cleanup)
        self.top = pathlib.Path(folder.name)
        (self.top / "crates.txt").write_text("low:\nhigh staticlib: low\nbeside:\n")
        for crate in "low", "high", "beside":
            for part in "src/lib.rt", "specs/Lib.antt", "proofs/Lib.antt":
                (self.top / "crates" / crate / part).parent.mkdir(parents=True)
                (self.top / "crates" / crate / part).write_text("a line\n")
        for name in "bindings/dist/sources", "tests/proving.py":
            (self.top / name).parent.mkdir(parents=True)
            shutil.copy(TOP / name, self.top / name)
        self.archive, self.verdict = self.top / "lib.a", self.top / "lib.verdict"
        self.archive.write_text("an archive")
        self.verdict.write_text(f"{self.run_sources('high').stdout}logic=proved\n{self.sum_of(self.archive)}\n")

    def run_sources(self, *words):
        command = [self.top / "bindings/dist/sources", *words]
        return subprocess.run(command, capture_output=True, text=True, timeout=60, check=False)

    def sum_of(self, path):
        return subprocess.run(["sha256sum", path], capture_output=True, text=True, check=True).stdout.strip()

    def same(self):
        """What is said of the archive, and whether its status is 0."""
        ran = self.run_sources("--same", "high", self.archive, self.verdict)
        self.assertEqual(ran.returncode, 1 if ran.stderr else 0)
        return ran.stderr

    def test_the_sources_are_those_of_the_crate_and_of_the_crates_below(self):
        ran = self.run_sources("high")
        names = [line.split("  ")[1] for line in ran.stdout.splitlines()]
        self.assertEqual(names, [
            "crates.txt", "crates/high/proofs/Lib.antt", "crates/high/specs/Lib.antt", "crates/high/src/lib.rt",
            "crates/low/proofs/Lib.antt", "crates/low/specs/Lib.antt", "crates/low/src/lib.rt",
        ])

    def test_the_archive_and_the_sources_of_a_verdict(self):
        self.assertEqual(self.same(), "")
        self.assertEqual(self.run_sources("--of", self.archive, self.verdict).returncode, 0)

    def test_no_time_counts(self):
        os.utime(self.archive, (0, 0))
        self.assertEqual(self.same(), "")

    def test_an_edited_source_is_refused(self):
        (self.top / "crates/low/proofs/Lib.antt").write_text("another line\n")
        os.utime(self.top / "crates/low/proofs/Lib.antt", (0, 0))
        self.assertEqual(self.same(), f"sources: crates/low/proofs/Lib.antt is not as it was when {self.archive} was "
                                      "proved, which is to be built again\n")

    def test_a_source_that_is_gone_or_new_is_refused(self):
        (self.top / "crates/low/specs/Lib.antt").rename(self.top / "crates/low/specs/Other.antt")
        self.assertIn("crates/low/specs/Lib.antt is not as it was", self.same())
        (self.top / "crates/low/specs/Lib.antt").write_text("a line\n")
        self.assertIn("crates/low/specs/Other.antt is not as it was", self.same())

    def test_a_crate_beside_may_be_edited(self):
        (self.top / "crates/beside/src/lib.rt").write_text("another line\n")
        self.assertEqual(self.same(), "")

    def test_another_archive_is_refused(self):
        self.archive.write_text("another archive")
        said = f"sources: {self.verdict} is the verdict of another archive than {self.archive}\n"
        self.assertEqual(self.same(), said)
        self.assertEqual(self.run_sources("--of", self.archive, self.verdict).returncode, 1)

    def test_a_verdict_without_a_list_is_refused(self):
        self.verdict.write_text("logic=proved\n")
        self.assertIn("does not list the sources that were proved", self.same())

    def test_no_verdict_is_that_of_no_archive(self):
        for path in self.verdict, self.archive:
            path.unlink()
            self.assertEqual(self.run_sources("--of", self.archive, self.verdict).returncode, 1)

    def test_a_program_that_is_older_than_a_source_is_refused(self):
        self.assertEqual(self.run_sources("--older", "high", self.archive).returncode, 0)
        os.utime(self.archive, (0, 0))
        ran = self.run_sources("--older", "high", self.archive)
        self.assertEqual(ran.returncode, 1)
        self.assertIn(f"crates.txt is newer than {self.archive}, which is to be built again", ran.stderr)

    def test_a_crate_that_is_not_there_is_refused(self):
        ran = self.run_sources("no_crate")
        self.assertEqual((ran.returncode, ran.stderr), (1, "sources: crates.txt has no no_crate\n"))


class Scripts(unittest.TestCase):
    """What the scripts in bash do."""

    def setUp(self):
        folder = tempfile.TemporaryDirectory()
        self.addCleanup(folder.cleanup)
        self.folder = pathlib.Path(folder.name)

    def run_bash(self, script, **variables):
        """What a script prints, in which $0 is the folder of the scripts."""
        environment = os.environ | {"VERSION": "1.2.3", "SOURCE_DATE_EPOCH": "86400"} | variables
        ran = subprocess.run(
            ["bash", "-c", script, HERE], capture_output=True, text=True, timeout=60, check=False, env=environment
        )
        return ran.stdout

    def test_a_maintainer_may_have_any_character(self):
        said = self.run_bash('source "$0/steps.bash"; filled changelog.in', MAINTAINER=r"O'Hara \1 & Sons | <a@b.c>")
        self.assertIn("\n -- O'Hara \\1 & Sons | <a@b.c>  Fri, 02 Jan 1970 00:00:00 +0000\n", said)

    def can_pack(self, version):
        """Whether crates are packed by a cargo of this version."""
        (self.folder / "cargo").write_text(f"#!/bin/sh\necho 'cargo {version} (of a day)'\n")
        (self.folder / "cargo").chmod(0o755)
        paths = f"{self.folder}:{os.environ['PATH']}"
        return self.run_bash('source "$0/machine.bash"; can_pack_crates && echo yes', PATH=paths)

    def test_crates_are_packed_by_cargo_from_1_90_on(self):
        for version in "1.90.0", "1.95.0", "1.100.0", "2.0.0", "1.90.0-nightly":
            self.assertEqual(self.can_pack(version), "yes\n", version)
        for version in "1.89.9", "1.85.0", "1.9.0", "0.99.0":
            self.assertEqual(self.can_pack(version), "left out: no cargo from 1.90 on, so no crates\n", version)

    def test_an_old_program_and_none_are_left_out(self):
        program, to = self.folder / "program", self.folder / "to"
        words = f'"$0/program" {program} {to}/one {to}/two'
        self.assertEqual(self.run_bash(words), f"left out: no program {program}\n")
        program.write_text("a program")
        os.utime(program, (0, 0))
        self.assertEqual(self.run_bash(words), "left out: the program, which is older than a source\n")
        self.assertFalse(to.exists())
        # The year 2100.
        os.utime(program, (4102444800, 4102444800))
        self.assertEqual(self.run_bash(words), "")
        for name in "one", "two":
            self.assertEqual((to / name / "bin/hlcstore").read_text(), "a program")


class Notices(unittest.TestCase):
    def setUp(self):
        folder = tempfile.TemporaryDirectory()
        self.addCleanup(folder.cleanup)
        self.kit = pathlib.Path(folder.name)
        self.add("sha2", "SHA-2 after the Rust crate `sha2` 0.11.1, in scalar code.", ["LICENSE-APACHE", "LICENSE-MIT"])
        self.add("below", "As the Rust crate below-all 1.2.", ["LICENSE"])
        self.add("bare", "A port of the Rust crate `bare` 3.0.0.", [])
        self.add("std", "No port.", [])
        for name in "below", "bare", "std":
            (self.kit / "rlibs/sha2.rlib/below" / name).mkdir(parents=True)

    def add(self, name, readme, licences):
        folder = self.kit / "rattle" / name
        folder.mkdir(parents=True)
        (folder / "README.md").write_text(f"# {name}\n\n{readme}\n")
        for licence in licences:
            (folder / licence).write_text(f"Copyright of {name}\n\nPermission, by {licence}\n")

    def text(self):
        with mock.patch.object(notices, "named", return_value={"sha2"}):
            return notices.text(self.kit, ["hlc_ffi"])

    def test_a_port_has_its_name_its_version_and_its_licence(self):
        said = "sha2, a port of sha2 0.11.1, by its LICENSE-MIT (or LICENSE-APACHE: the Apache License 2.0):\n\n"
        self.assertIn(said + "    Copyright of sha2\n\n    Permission, by LICENSE-MIT\n", self.text())

    def test_what_a_port_is_built_of_is_there_too(self):
        said = "below, a port of below-all 1.2, by its LICENSE:\n\n    Copyright of below\n\n    Permission, by "
        self.assertIn(said + "LICENSE\n", self.text())

    def test_no_licence_is_said(self):
        self.assertIn("bare, a port of bare 3.0.0: the toolchain has no file of its licence.\n", self.text())
        self.assertIn("and its crates std.\nThe toolchain has no file of a licence for these", self.text())

    def test_what_crates_name_is_named_by_them_and_by_those_below(self):
        named = notices.named(["hlc_frame"])
        self.assertEqual(named, {"sha2", "arrayvec"})

    def test_a_library_in_c_has_its_version_and_the_head_of_its_header(self):
        (self.kit / "some.h").write_text(
            '/* some.h\n** Do as you like.\n**\n*************\n** More. */\n#define SOME_VERSION "4.5.6"\n'
        )
        said = notices.of_library(["cc", f"-I{self.kit}"], "Some", "some.h", "SOME_VERSION")
        self.assertEqual(said, "Some 4.5.6, by the head of its some.h:\n\n    some.h\n    Do as you like.\n")


if __name__ == "__main__":
    unittest.main()
