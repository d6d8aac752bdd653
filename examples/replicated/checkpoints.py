"""A replica's checkpoints on disk: the two newest, each in a file whose name is the revision of the log."""

import os
import pathlib

KEEP = 2  # should the newest one be damaged, the one before is there, and the log behind it


class Checkpoints:
    def __init__(self, folder):
        self.folder = pathlib.Path(folder)
        if not self.folder.is_dir():
            self.folder.mkdir(parents=True, exist_ok=True)
            synchronise(self.folder.parent)

    def paths(self):
        """Returns the files, the newest first."""
        return sorted(self.folder.glob("*.checkpoint"), reverse=True)

    def save(self, revision, content):
        """Writes a checkpoint, reads it back, and only then removes the oldest one."""
        path = self.folder / f"{revision:016x}.checkpoint"
        write_durably(path, content)
        if path.read_bytes() == content:
            for old in self.paths()[KEEP:]:
                old.unlink()

    def newest(self):
        """Returns the status of the newest file, or None."""
        for path in self.paths():
            try:
                return path.stat()
            except FileNotFoundError:
                pass  # it was removed just now
        return None

    def oldest(self):
        """Returns the revision behind which the log is still needed, which is 0 until there are enough checkpoints."""
        paths = self.paths()
        return int(paths[-1].stem, 16) if len(paths) >= KEEP else 0


def write_durably(path, content):
    """Writes a file that is there whole after a crash, or not at all."""
    part = path.with_name("new")
    try:
        with open(part, "wb") as file:
            file.write(content)
            file.flush()
            os.fsync(file.fileno())
    except OSError:
        part.unlink(missing_ok=True)  # the file system is full: what was written would only fill it
        raise
    part.rename(path)
    synchronise(path.parent)


def synchronise(folder):
    """Writes the names in a folder through to the disk."""
    opened = os.open(folder, os.O_RDONLY)
    os.fsync(opened)
    os.close(opened)
