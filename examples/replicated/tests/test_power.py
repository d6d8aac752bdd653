"""What is left when the power fails: what was synchronised, and no more."""

import os
import pathlib
import shutil
import subprocess
import sys
import tempfile
import unittest

import support  # noqa: F401  finds the example

import power
from checkpoints import write_durably

PROGRAM = """
import os, pathlib, sys
sys.path.insert(0, {here!r})
from checkpoints import write_durably
folder = pathlib.Path({folder!r})
def sync(path):
    fd = os.open(path, os.O_RDONLY); os.fsync(fd); os.close(fd)
{lines}
"""


@unittest.skipUnless(shutil.which("cc"), "no C compiler")
class Power(unittest.TestCase):
    def setUp(self):
        self.scratch = pathlib.Path(self.enterContext(tempfile.TemporaryDirectory()))
        self.folder, self.shadow = self.scratch / "folder", self.scratch / "shadow"
        self.folder.mkdir()
        self.library = power.build(self.scratch)

    def left(self, *lines):
        """Returns what is left of what these lines wrote, by name."""
        here = str(pathlib.Path(write_durably.__code__.co_filename).parent)
        text = PROGRAM.format(here=here, folder=str(self.folder), lines="\n".join(lines))
        words = power.words_of(self.library, self.folder, self.shadow)
        subprocess.run([*words, sys.executable, "-B", "-c", text], check=True, env=os.environ)
        power.fail(self.folder, self.shadow)
        return {str(path.relative_to(self.folder)): path.read_bytes() for path in power.contents(self.folder)}

    def test_what_is_written_durably_is_there(self):
        line = 'write_durably(folder / "a", b"1" * 100_000)'
        self.assertEqual(self.left(line), {"a": b"1" * 100_000})

    def test_what_is_not_synchronised_is_lost(self):
        self.assertEqual(self.left('(folder / "a").write_bytes(b"1")'), {})

    def test_a_name_without_its_bytes(self):
        lines = '(folder / "a").write_bytes(b"1")', "sync(folder)"
        self.assertEqual(self.left(*lines), {"a": b""})

    def test_bytes_without_their_name(self):
        lines = '(folder / "a").write_bytes(b"1")', 'sync(folder / "a")'
        self.assertEqual(self.left(*lines), {})

    def test_bytes_that_come_later(self):
        lines = 'write_durably(folder / "a", b"1")', 'open(folder / "a", "ab").write(b"2")'
        self.assertEqual(self.left(*lines), {"a": b"1"})

    def test_names_that_change_later(self):
        """What was renamed or removed comes back, with the bytes that it had."""
        lines = ['write_durably(folder / "a", b"1")', 'write_durably(folder / "b", b"2")', '(folder / "a").unlink()']
        lines += ['(folder / "c").write_bytes(b"3")', 'sync(folder / "c")', '(folder / "b").rename(folder / "d")']
        self.assertEqual(self.left(*lines), {"a": b"1", "b": b"2"})

    def test_folders_in_the_folder(self):
        lines = '(folder / "x").mkdir()', 'write_durably(folder / "x" / "a", b"1")', 'write_durably(folder / "a", b"2")'
        self.assertEqual(self.left(*lines), {"x/a": b"1", "a": b"2"})

    def test_a_folder_whose_own_name_is_lost(self):
        lines = '(folder / "x").mkdir()', 'write_durably(folder / "x" / "a", b"1")'
        self.assertEqual(self.left(*lines), {})

    def test_the_folder_of_a_range_is_there(self):
        line = 'from checkpoints import Checkpoints; Checkpoints(folder / "x").save(1, b"1")'
        self.assertEqual(self.left(line), {f"x/{1:016x}.checkpoint": b"1"})


if __name__ == "__main__":
    unittest.main()
