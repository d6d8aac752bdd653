"""The lines of log, and the statuses with which programs end."""

import contextlib
import datetime
import io
import re
import unittest
from unittest import mock

import support  # noqa: F401  finds the example
import etcd
import hlcstore
import life
import log
import logs

LINE = re.compile(r"\d{4}-\d\d-\d\dT\d\d:\d\d:\d\d\.\d{3}Z (debug|info|warning|error) \S+: [^\n]+\n")
NOON = datetime.datetime(2026, 11, 29, 12, 0, 0, 7000, datetime.UTC)


class Lines(unittest.TestCase):
    def said(self, level, call):
        """Returns what is logged where lines from a level on are."""
        with mock.patch.multiple(logs.Chosen, level=level, program="replica/r1"):
            with contextlib.redirect_stderr(io.StringIO()) as errors:
                call()
        return errors.getvalue()

    def test_a_line(self):
        fields = {"revision": 12, "seconds": 0.01234, "all": 2.0, "file": "a b", "text": 'a "b"', "none": ""}
        line = logs.line_of(NOON, "info", "replica/r1", "saved", fields)
        start, _, rest = line.partition(": ")
        self.assertEqual(start, "2026-11-29T12:00:00.007Z info replica/r1")
        self.assertEqual(rest, r'saved revision=12 seconds=0.012 all=2 file="a b" text="a \"b\"" none=""')

    def test_a_text_of_two_lines_is_one(self):
        line = logs.line_of(NOON, "error", "w", "a\nb\\n\r", {"text": "c\nd"})
        self.assertEqual(line.partition(": ")[2], r'a\nb\\n\r text="c\nd"')

    def test_levels(self):
        def say_all():
            for level in logs.LEVELS:
                getattr(logs, level)(level)

        for at, level in enumerate(logs.LEVELS):
            lines = self.said(level, say_all).splitlines(keepends=True)
            self.assertEqual([LINE.fullmatch(line)[1] for line in lines], logs.LEVELS[at:])

    def test_nobody_reads_the_lines(self):
        broken = io.StringIO()
        broken.write = mock.Mock(side_effect=BrokenPipeError)
        with mock.patch("sys.stderr", broken):
            logs.error("a line")
        broken.write.assert_called_once()

    # ---- Ends ----

    def told(self, failure):
        """Returns the status of a failure, and the text that is logged."""
        statuses = []
        said = self.said("info", lambda: statuses.append(life.tell(failure)))
        self.assertEqual(LINE.fullmatch(said)[1], "warning" if isinstance(failure, log.Fenced) else "error")
        return statuses[0], said.partition(": ")[2]

    def test_what_a_failure_says(self):
        with mock.patch("life.EXPECTED", [*life.EXPECTED, hlcstore.Error]):
            self.assertEqual(self.told(OSError(28, "No space left"))[0], 1)
            self.assertIn("database space exceeded", self.told(etcd.Unavailable("database space exceeded"))[1])
            self.assertIn("kind=NotNext", self.told(hlcstore.NotNext(3))[1])
            self.assertEqual(self.told(TimeoutError()), (1, "failed: - kind=TimeoutError\n"))
        self.assertEqual(self.told(log.Fenced("link/0001 belongs to me"))[0], 3)
        self.assertEqual(self.told(life.Never("no node for w1: why"))[0], 5)

    def test_a_mistake_says_where(self):
        try:
            self.fail_inside()
        except ZeroDivisionError as failure:
            status, said = self.told(failure)
        self.assertEqual(status, 1)
        self.assertRegex(said, r'^failed: ZeroDivisionError\(.* at="test_logs.py:\d+ fail_inside < test_logs.py:\d+ ')

    def fail_inside(self):
        return 1 // 0

    def test_the_first_wish_to_end_counts(self):
        asked = life.Life()
        asked.ask(4, "its standard input ended")
        asked.ask(0, "SIGTERM")
        self.assertEqual((asked.status, asked.why), (4, "its standard input ended"))

    def test_the_end_of_the_input(self):
        for stays in True, False:
            asked = life.Life()
            with mock.patch("sys.stdin", io.StringIO("")):
                asked.obey(lambda _: True, lambda: stays)
            self.assertEqual((asked.asked.is_set(), asked.status), (not stays, 0 if stays else 4))

    # ---- Calls of etcd ----

    def setUp(self):
        self.enterContext(mock.patch.object(logs.Chosen, "level", "error"))

    def test_a_call_ends_where_the_program_is_asked_to(self):
        asked = life.Life()
        client = etcd.Etcd(["127.0.0.1:1"], asked.asked)
        with mock.patch("etcd.time.sleep", lambda _: asked.ask(0, "SIGTERM")):
            self.assertRaises(etcd.Stopped, client.get, b"key")
        self.assertIn("refused", client.trouble)

    def attempts(self, seconds):
        """Returns how many attempts a call makes which each take so many seconds, and fail."""
        client, now, made = etcd.Etcd(["a:1", "b:1"]), [0.0], []

        def ask(*_):
            now[0] += seconds(len(made))
            made.append(client.at)
            raise etcd.Unavailable

        clock = mock.Mock(monotonic=lambda: now[0], sleep=lambda _: None)
        with mock.patch("etcd.time", clock), mock.patch.object(client, "ask", ask):
            self.assertRaises(etcd.Unavailable, client.get, b"key")
        return len(made)

    def test_the_patience_of_a_call(self):
        """It does not end with the time for which the process stood still."""
        many = int(etcd.PATIENCE / etcd.TIMEOUT) + 1
        self.assertEqual(self.attempts(lambda _: etcd.TIMEOUT), many)
        self.assertEqual(self.attempts(lambda place: etcd.TIMEOUT if place else 10 * etcd.PATIENCE), many)
        self.assertEqual(self.attempts(lambda _: etcd.TIMEOUT / 2), 2 * many - 1)

    def test_a_call_that_failed_leaves_no_connection(self):
        """The next one would find it in the middle of a request."""
        for by_rpc in {False, etcd.BY_RPC}:
            client = etcd.Etcd(["127.0.0.1:1"])
            client.by_rpc, client.patience = by_rpc, -1
            with self.assertRaises((OSError, etcd.Unavailable)):
                client.get(b"key")
            self.assertIsNone(client.connection or client.channel)

    def test_troubles(self):
        client = etcd.Etcd(["a:1"])

        def note_all():
            for trouble in "one", "two", "", "", "three":
                client.note(trouble)

        said = [line.partition(": ")[2] for line in self.said("info", note_all).splitlines()]
        silent, again = "a member of etcd does not answer member=a:1", "etcd answers again member=a:1"
        self.assertEqual(said, [f"{silent} text=one", again, f"{silent} text=three"])

    def test_the_text_of_a_trouble(self):
        self.assertEqual(etcd.trouble_text(etcd.Unavailable('{"error":"no space","code":8}')), "no space")
        self.assertEqual(etcd.trouble_text(OSError("refused")), "refused")
        self.assertEqual(etcd.trouble_text(TimeoutError()), "TimeoutError")
        self.assertEqual(etcd.trouble_text(etcd.Unavailable("[1]")), "[1]")


if __name__ == "__main__":
    unittest.main()
