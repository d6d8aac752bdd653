"""The checkpoints on disk: what is there after a crash, and up to where the log may be cut."""

import os
import pathlib
import stat
import tempfile
import unittest
from unittest import mock

import support  # noqa: F401  finds the example
from checkpoints import Checkpoints


class OnDisk(unittest.TestCase):
    def setUp(self):
        self.folder = pathlib.Path(self.enterContext(tempfile.TemporaryDirectory()), "r1")
        self.checkpoints = Checkpoints(self.folder)

    def revisions(self):
        return [int(path.stem, 16) for path in self.checkpoints.paths()]

    def test_the_two_newest_are_there(self):
        for revision, content in (5, b"five"), (17, b"seventeen"), (300, b"three hundred"):
            self.checkpoints.save(revision, content)
        self.assertEqual(self.revisions(), [300, 17])
        self.assertEqual([path.read_bytes() for path in self.checkpoints.paths()], [b"three hundred", b"seventeen"])

    def test_the_log_is_needed_from_the_oldest_on(self):
        self.assertEqual(self.checkpoints.oldest(), 0)
        self.checkpoints.save(5, b"five")
        self.assertEqual(self.checkpoints.oldest(), 0)
        self.checkpoints.save(17, b"seventeen")
        self.assertEqual(self.checkpoints.oldest(), 5)
        (self.folder / f"{300:016x}.checkpoint").write_bytes(b"killed before the oldest was removed")
        self.assertEqual(self.checkpoints.oldest(), 5)
        self.checkpoints.save(301, b"three hundred and one")
        self.assertEqual(self.checkpoints.oldest(), 300)

    def test_the_old_ones_stay_where_the_new_one_is_read_back_wrong(self):
        for revision in 5, 17:
            self.checkpoints.save(revision, b"whole")
        with mock.patch.object(pathlib.Path, "read_bytes", lambda _: b"wrong"):
            self.checkpoints.save(300, b"whole")
        self.assertEqual(self.revisions(), [300, 17, 5])

    def test_a_file_without_its_name_does_not_count(self):
        """A process was killed before it renamed the file."""
        self.checkpoints.save(5, b"five")
        with mock.patch("os.rename", side_effect=OSError), self.assertRaises(OSError):
            self.checkpoints.save(17, b"seventeen")
        self.assertEqual(self.revisions(), [5])
        self.assertEqual(self.checkpoints.oldest(), 0)

    def test_the_file_is_on_disk_before_it_has_its_name(self):
        """And its name before it counts."""
        seen, fsync, rename = [], os.fsync, os.rename

        def note_fsync(file):
            status = os.fstat(file)
            seen.append("folder" if stat.S_ISDIR(status.st_mode) else f"file of {status.st_size} bytes")
            fsync(file)

        def note_rename(old, new):
            seen.append(f"name of {os.stat(old).st_size} bytes")
            rename(old, new)

        with mock.patch("os.fsync", note_fsync), mock.patch("os.rename", note_rename):
            self.checkpoints.save(5, b"seven b")
        self.assertEqual(seen, ["file of 7 bytes", "name of 7 bytes", "folder"])


if __name__ == "__main__":
    unittest.main()
