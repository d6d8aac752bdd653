"""The settings of the programs: from words, from a file, or a default. Those that make no sense end with the usage."""

import contextlib
import io
import pathlib
import re
import shutil
import subprocess
import sys
import tempfile
import unittest

import support  # noqa: F401  finds the example
import coordinator
import replica
import settings
import writer

HERE = pathlib.Path(__file__).resolve().parent.parent
MEMBERS = ["--members", "127.0.0.1:1"]
PROGRAMS = {
    "coordinator.py": ["--retention-ms", "-6000", *MEMBERS],
    "model.py": ["--members"],
    "replica.py": ["--name", "r1", "--folder", "folder", "--checkpoint-seconds", "often", *MEMBERS],
    "writer.py": ["--name", "w1", "--batch", "0", *MEMBERS],
}
UNITS = sorted((HERE / "systemd").glob("*.service"))


class Words(unittest.TestCase):
    def end_all(self, words):
        """Starts all programs at once, and returns how each ended: its name, and its process."""
        pipes = {"stdin": subprocess.DEVNULL, "stdout": subprocess.PIPE, "stderr": subprocess.PIPE, "text": True}
        started = {name: subprocess.Popen([sys.executable, HERE / name, *words(name)], **pipes) for name in PROGRAMS}
        for name, process in started.items():
            with process:
                output, errors = process.communicate(timeout=120)
            yield name, process.returncode, output, errors

    def test_no_words(self):
        for name, status, output, errors in self.end_all(lambda _: []):
            self.assertEqual((status, output), (2, ""), errors)
            self.assertRegex(errors, f"^usage: {name} ")
            self.assertRegex(errors, f"{name}: error: --[a-z]+ is missing")
            self.assertNotIn("Traceback", errors)

    def test_words_that_make_no_sense(self):
        for name, status, output, errors in self.end_all(PROGRAMS.get):
            self.assertEqual((status, output), (2, ""), errors)
            self.assertRegex(errors, f"{name}: error: .*expected")

    def test_help(self):
        for name, status, output, errors in self.end_all(lambda _: ["--help"]):
            self.assertEqual((status, errors), (0, ""))
            self.assertIn(f"usage: {name} ", output)
            self.assertIn("--config FILE", output)


class Settings(unittest.TestCase):
    def setUp(self):
        self.folder = pathlib.Path(self.enterContext(tempfile.TemporaryDirectory()))

    def read(self, program, *words):
        return settings.read("", program.SETTINGS, list(words))

    def file(self, text):
        path = self.folder / "a.toml"
        path.write_text(text)
        return "--config", str(path)

    def refused(self, program, *words):
        """Returns the last line that is printed before the end with status 2."""
        with contextlib.redirect_stderr(io.StringIO()) as errors, self.assertRaises(SystemExit) as ended:
            self.read(program, *words)
        self.assertEqual(ended.exception.code, 2)
        return errors.getvalue().splitlines()[-1]

    def test_words(self):
        words = ["--name", "r1", "--folder", "f", "--checkpoint-seconds", "0.5", "--listen", "host:8101", "--piped"]
        read = self.read(replica, *words, "--members", "a:1", "b:2")
        self.assertEqual((read.name, read.folder, read.checkpoint_seconds), ("r1", "f", 0.5))
        self.assertEqual((read.listen, read.members, read.log_level), ("host:8101", ["a:1", "b:2"], "info"))
        self.assertTrue(read.piped)

    def test_a_file(self):
        file = self.file('members = ["a:1"]\nname = "w1"\nrate = 0\nlog_level = "debug"\n')
        read = self.read(writer, *file)
        self.assertEqual((read.name, read.rate, read.batch, read.keys), ("w1", 0, 512, 20_000))
        self.assertEqual((read.members, read.log_level, read.piped), (["a:1"], "debug", False))

    def test_words_go_before_the_file(self):
        file = self.file('members = ["a:1"]\nretention_ms = 5\nlisten = "127.0.0.1:1"\n')
        read = self.read(coordinator, "--retention-ms", "7", *file)
        self.assertEqual((read.retention_ms, read.listen, read.members), (7, "127.0.0.1:1", ["a:1"]))

    def test_files_that_make_no_sense(self):
        name, members = 'name = "w1"\n', 'members = ["a:1"]\n'
        for text, said in {
            "name": "a.toml: no TOML: ",
            name + members + "rete = 1": "a.toml: there is no setting rete",
            members: "--name is missing, and name in a file of --config",
            name: "--members is missing",
            members + "name = 7": "a.toml: name: expected a name of letters, .*, got 7",
            members + 'name = "a/b"': "a.toml: name: expected a name of .*, got 'a/b'",
            name + "members = []": r"a.toml: members: expected addresses .*, got \[\]",
            name + 'members = "a:1"': "a.toml: members: expected addresses .*, got 'a:1'",
            name + 'members = ["a:65536"]': "a.toml: members: expected addresses ",
            name + 'members = ["a"]': "a.toml: members: expected addresses ",
            name + members + "rate = -1": "a.toml: rate: expected a whole number from 0, got -1",
            name + members + "rate = 1.5": "a.toml: rate: expected a whole number from 0, got 1.5",
            name + members + "rate = true": "a.toml: rate: expected a whole number from 0, got True",
            name + members + "batch = 0": "a.toml: batch: expected a whole number from 1, got 0",
            name + members + 'log_level = "loud"': "a.toml: log_level: expected one of debug, .*, got 'loud'",
            name + members + "log_level = 1": "a.toml: log_level: expected one of debug, .*, got 1",
        }.items():
            with self.subTest(text=text):
                self.assertRegex(self.refused(writer, *self.file(text)), said)

    def test_words_that_make_no_sense(self):
        known = ["--name", "r1", "--folder", "f", *MEMBERS]
        for words, said in {
            ("--checkpoint-seconds", "0"): "--checkpoint-seconds: expected a number above 0, got '0'",
            ("--checkpoint-seconds", "nan"): "--checkpoint-seconds: expected a number above 0, got 'nan'",
            ("--checkpoint-seconds", "inf"): "--checkpoint-seconds: expected a number above 0, got 'inf'",
            ("--listen", "8101"): "--listen: expected an address HOST:PORT, .*, got '8101'",
            ("--listen", ":8101"): "--listen: expected an address HOST:PORT",
            ("--listen", "a:70000"): "--listen: expected an address HOST:PORT",
            ("--folder", ""): "--folder: expected a path, got ''",
            ("--config", "nowhere.toml"): "nowhere.toml: No such file or directory",
            ("--config", str(self.folder)): "Is a directory",
            ("--check", "1"): "unrecognized arguments",
            ("--log-level", "info", "word"): "unrecognized arguments: word",
        }.items():
            with self.subTest(words=words):
                self.assertRegex(self.refused(replica, *known, *words), said)

    def test_a_file_that_is_no_text(self):
        path = self.folder / "b.toml"
        path.write_bytes(b"\xff\xfe")
        self.assertRegex(self.refused(writer, "--config", str(path)), "b.toml: no TOML: ")


class Examples(unittest.TestCase):
    """The files of settings and the units in systemd/."""

    def test_each_file_is_read(self):
        for program in coordinator, replica, writer:
            for path in (HERE / "systemd").glob(f"{program.__name__}*.toml"):
                read = settings.read("", program.SETTINGS, ["--config", str(path)])
                self.assertEqual(len(read.members), 3)
        self.assertEqual(len(list((HERE / "systemd").glob("*.toml"))), 3)

    def test_each_unit_starts_a_program_that_is_there(self):
        self.assertEqual(len(UNITS), 3)
        for path in UNITS:
            found = re.search(r"^ExecStart=.*/(\w+)\.py --config /etc/hlcstore/(\w+)", path.read_text(), re.M)
            self.assertTrue((HERE / f"{found[1]}.py").exists(), path)
            self.assertEqual(found[1], found[2])

    @unittest.skipUnless(shutil.which("systemd-analyze"), "no systemd-analyze")
    def test_systemd_takes_the_units(self):
        found = subprocess.run(["systemd-analyze", "verify", *UNITS], capture_output=True, text=True, timeout=60)
        self.assertEqual((found.returncode, found.stderr), (0, ""))


if __name__ == "__main__":
    unittest.main()
