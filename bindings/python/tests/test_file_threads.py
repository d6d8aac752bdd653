"""Files that several threads use, and what ends a call, a thread or a process in the middle."""

import contextlib
import os
import subprocess
import sys
import tempfile
import textwrap
import threading
import time
import unittest

from hlcstore import Closed
from hlcstore.file import File, Promise
from test_batches import needs_compiler, refusing_library
from test_file import InFolder
from test_ranges import Interrupt, interrupted


class Threads(InFolder):
    def run_all(self, *works):
        """Runs each function in a thread of its own, and raises what one of them raised."""
        failed = []

        def run(work):
            try:
                work()
            except BaseException as error:
                failed.append(error)

        threads = [threading.Thread(target=run, args=(work,)) for work in works]
        for thread in threads:
            thread.start()
        for thread in threads:
            thread.join()
        if failed:
            raise failed[0]

    def test_readers_beside_a_writer(self):
        is_done = threading.Event()

        def write():
            try:
                for number in range(300):
                    file.append({key: b"%d" % number for key in (b"a", b"b", b"c")}, promise=Promise.WRITTEN)
                    if number % 100 == 0:
                        file.checkpoint()
                        file.vacuum()
            finally:
                is_done.set()

        def read():
            while not is_done.is_set():
                with file.snapshot() as snapshot:
                    values = list(snapshot.items())
                    self.assertIn(len({value for _, value in values}), (0, 1), values)
                    self.assertEqual(values, list(snapshot.items(reverse=True))[::-1])
                    self.assertEqual(snapshot.get(b"b"), dict(values).get(b"b"))

        with File(self.path) as file:
            self.run_all(write, read, read, read)
            self.assertEqual(dict(file.snapshot().items()), {b"a": b"299", b"b": b"299", b"c": b"299"})

    def test_writers_share_a_sync(self):
        def write(number):
            for turn in range(50):
                file.write(b"key %d" % number, b"%d" % turn)

        with File(self.path, promise=Promise.GROUP) as file:
            self.run_all(*(lambda number=number: write(number) for number in range(4)))
        with File(self.path) as file:
            self.assertEqual(dict(file.snapshot().items()), {b"key %d" % number: b"49" for number in range(4)})

    def test_a_call_that_waits_lets_others_run(self):
        """A write that waits half a second for others keeps the interpreter from nobody."""
        file = File(self.path, promise=Promise.GROUP, group_microseconds=500_000)
        file.write(b"a", b"1")
        turns, is_done = 0, threading.Event()
        writer = threading.Thread(target=lambda: (file.write(b"a", b"2"), is_done.set()))
        writer.start()
        while not is_done.is_set():
            turns += 1
            time.sleep(0.01)
        writer.join()
        self.assertGreater(turns, 10)
        file.close()

    def test_closing_waits_for_calls(self):
        for turn in range(20):
            file = File(self.path, promise=Promise.WRITTEN)
            begun = threading.Barrier(4)

            def use():
                begun.wait()
                with contextlib.suppress(Closed):
                    while True:
                        file.write(b"a", b"1")
                        file.snapshot().get(b"a")

            def close():
                begun.wait()
                time.sleep(turn / 10_000)
                file.close()

            self.run_all(use, use, use, close)

    def test_a_call_behind_one_that_closes_lets_others_run(self):
        """A write takes half a second, and closing waits for it. A call that comes then keeps nobody from running."""
        file = File(self.path, promise=Promise.GROUP, group_microseconds=500_000)
        file.write(b"a", b"1")
        calls = lambda: file.write(b"a", b"2"), file.close, lambda: self.assertRaises(Closed, file.send)
        threads = [threading.Thread(target=call) for call in calls]
        for thread in threads:
            thread.start()
            time.sleep(0.05)
        turns = 0
        while threads[0].is_alive():
            turns += 1
            time.sleep(0.01)
        for thread in threads:
            thread.join()
        self.assertGreater(turns, 10)

    def test_a_second_call_of_close_waits(self):
        """What is not synced yet makes closing long."""
        file = File(self.path, promise=Promise.WRITTEN, checkpoint_bytes=2**64 - 1)
        for turn in range(20):
            file.write_batch([(b"%d %d" % (turn, i), bytes(30_000)) for i in range(50)])
        closing = threading.Thread(target=file.close)
        closing.start()
        with contextlib.suppress(Closed):
            while True:
                file.floor
        file.close()
        File(self.path).close()
        closing.join()


class Endings(InFolder):
    def run_program(self, program, **environment):
        words = [sys.executable, "-W", "ignore", "-c", textwrap.dedent(program), self.path]
        done = subprocess.run(words, capture_output=True, text=True, timeout=100, env={**os.environ, **environment})
        self.assertEqual((done.stdout, done.stderr), ("all right\n", ""))

    def test_an_interrupt_loses_no_snapshot(self):
        with File(self.path) as file:
            file.write(b"a", b"1")
            with self.assertRaises(Interrupt), interrupted("c_return", "_open_snapshot"):
                file.snapshot()
            file.write(b"a", b"2")
            self.assertEqual(file.vacuum().kept, 1)

    @needs_compiler
    def test_refused_memory_loses_no_snapshot(self):
        """Each request for memory is refused in turn."""
        with tempfile.TemporaryDirectory() as folder:
            self.run_program(
                """
                import ctypes
                import sys
                from hlcstore.file import File

                refusing, refused = ctypes.CDLL(None), 0
                with File(sys.argv[1]) as file:
                    file.write(b"a", b"1")
                    for number in range(1000):
                        try:
                            refusing.refuse_at(number)
                            file.snapshot()
                            if refusing.is_left():
                                break
                        except MemoryError:
                            refused += 1
                    file.write(b"a", b"2")
                    assert 3 < refused < 100 and file.vacuum().kept == 1, refused
                print("all right")
                """,
                LD_PRELOAD=refusing_library(folder),
                PYTHONMALLOC="malloc",
            )

    def test_a_child_of_a_fork_that_ends(self):
        """The child makes no call, but it drops what it has: first where no other thread is in a call, and then where
        one is, for which closing waits."""
        self.run_program("""
            import os
            import signal
            import sys
            import threading
            import time
            from hlcstore.file import File, Promise

            def fork():
                child = os.fork()
                if child == 0:
                    signal.alarm(30)
                    sys.exit()
                assert os.waitpid(child, 0)[1] == 0

            path = sys.argv[1]
            with File(path) as file:
                file.write(b"a", b"1")
                snapshot = file.snapshot()
                fork()
                assert snapshot[b"a"] == b"1"
                file.write(b"b", b"2")
            file = File(path, must_exist=True, promise=Promise.GROUP, group_microseconds=500_000)
            snapshot = file.snapshot()
            for call, *args in (file.write, b"c", b"3"), (file.write, b"d", b"4"), (file.close,):
                threading.Thread(target=call, args=args).start()
                time.sleep(0.05)
            fork()
            file.close()
            with File(path, must_exist=True) as file:
                assert dict(file.snapshot()) == {b"a": b"1", b"b": b"2", b"c": b"3", b"d": b"4"}
            print("all right")
        """)


if __name__ == "__main__":
    unittest.main()
