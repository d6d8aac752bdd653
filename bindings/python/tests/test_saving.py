"""Checkpoints that are written to a file in pieces: any file, and what it and other threads do meanwhile."""

import errno
import faulthandler
import gc
import io
import os
import pathlib
import subprocess
import sys
import tempfile
import textwrap
import threading
import time
import unittest

import hlcstore
from hlcstore import Item, Node, Store, stamp

PIECE = 2**18


def setUpModule():
    """Threads that wait for each other for good end the tests."""
    faulthandler.dump_traceback_later(240, exit=True)


def tearDownModule():
    faulthandler.cancel_dump_traceback_later()


def filled():
    """Returns a store of four pieces, and its node."""
    store, node = Store(1), Node(0)
    store.accept_all([node.write(1, b"%d" % i, b"%d" % i * 18_000) for i in range(30)])
    assert 3 * PIECE < len(store.checkpoint()) < 4 * PIECE
    return store, node


class File:
    """A file whose write is a function of how many calls were made before, and of the bytes."""

    def __init__(self, answer):
        self.answer = answer
        self.calls = 0
        self.written = b""

    def write(self, data):
        assert type(data) is bytes
        self.calls += 1
        many = self.answer(self.calls - 1, data)
        self.written += data[:many] if isinstance(many, int) and many > 0 else b""
        return many


class Pieces(unittest.TestCase):
    def test_they_are_the_checkpoint(self):
        for store, rows in ((Store(3), 0), (filled()[0], 30)):
            lengths = []
            file = File(lambda _, data: lengths.append(len(data)) or len(data))
            snapshot = store.snapshot()
            self.assertEqual(store.checkpoint_to(file, tag=7), len(file.written))
            self.assertEqual(file.written, store.checkpoint(7))
            self.assertEqual(lengths[:-1], [PIECE] * (len(lengths) - 1))
            with Store.restore([file.written[:100], file.written[100:]]) as copy:
                self.assertEqual((copy.tag, copy.rows, copy.floor), (7, rows, store.floor))
                self.assertEqual(copy.snapshots()[0].id, snapshot.id)

    def test_the_tag_is_0_unless_it_is_given(self):
        store, file = Store(1), io.BytesIO()
        store.checkpoint_to(file=file)
        self.assertEqual(file.getvalue(), store.checkpoint())

    def test_files_on_disk(self):
        store, _ = filled()
        with tempfile.TemporaryDirectory() as folder:
            path = pathlib.Path(folder, "saved")
            for buffering in (0, -1):
                with open(path, "wb", buffering=buffering) as file:
                    many = store.checkpoint_to(file, 7)
                self.assertEqual((path.stat().st_size, path.read_bytes()), (many, store.checkpoint(7)))

    def test_short_writes_go_on(self):
        store, _ = filled()
        for most in (1000, PIECE - 1):
            file = File(lambda _, data: min(len(data), most))
            self.assertEqual(store.checkpoint_to(file, 7), len(file.written))
            self.assertEqual(file.written, store.checkpoint(7))

    def test_memory_is_that_of_a_piece(self):
        """Where there is none for the bytes of a checkpoint, it can be written in pieces."""
        program = """
            import io
            import resource
            import hlcstore

            store, value = hlcstore.Store(1), bytes(65535)
            store.accept_all([hlcstore.Item.write(0, i, hlcstore.stamp(i + 1), b"%d" % i, value) for i in range(1200)])
            pages = int(open("/proc/self/statm").read().split()[0])
            limit = pages * resource.getpagesize() + 2**25
            resource.setrlimit(resource.RLIMIT_AS, (limit, resource.RLIM_INFINITY))
            try:
                store.checkpoint()
            except MemoryError:
                with open("/dev/null", "wb", buffering=0) as file:
                    print(store.checkpoint_to(file) > 1200 * 65535)
        """
        words = [sys.executable, "-c", textwrap.dedent(program)]
        done = subprocess.run(words, capture_output=True, text=True, timeout=60)
        self.assertEqual((done.stdout, done.stderr), ("True\n", ""))


class Faults(unittest.TestCase):
    def test_each_piece_may_fail(self):
        store, node = filled()
        for at in range(4):
            saved = store.checkpoint(7)
            file = File(lambda call, data: len(data) if call < at else 1 // 0)
            with self.assertRaises(ZeroDivisionError):
                store.checkpoint_to(file, 7)
            self.assertEqual((file.calls, file.written), (at + 1, saved[: at * PIECE]))
            store.accept(node.report(2))
        file = io.BytesIO()
        store.checkpoint_to(file, 7)
        self.assertEqual(file.getvalue(), store.checkpoint(7))

    def test_a_file_that_would_block(self):
        store, _ = filled()
        file = File(lambda call, data: PIECE if call == 0 else None)
        with self.assertRaisesRegex(BlockingIOError, "took no bytes") as met:
            store.checkpoint_to(file)
        self.assertEqual((met.exception.errno, len(file.written)), (errno.EAGAIN, PIECE))

    def test_a_pipe_that_is_full(self):
        """What it took before is the start of the checkpoint."""
        store, _ = filled()
        reader, writer = os.pipe()
        os.set_blocking(writer, False)
        with open(reader, "rb") as taken, open(writer, "wb", buffering=0) as file:
            with self.assertRaises(BlockingIOError):
                store.checkpoint_to(file)
            file.close()
            start = taken.read()
        self.assertTrue(start and store.checkpoint().startswith(start))

    def test_answers_that_no_file_gives(self):
        store, _ = filled()
        answers = {0: OSError, -1: OSError, PIECE + 1: OSError, 2**80: OSError}
        answers |= {"1": TypeError, 1.5: TypeError, True: TypeError}
        for answer, kind in answers.items():
            file = File(lambda _, data: answer)
            with self.subTest(answer), self.assertRaises(kind):
                store.checkpoint_to(file)
            self.assertEqual(file.calls, 1)

    def test_what_is_no_file(self):
        store = Store(1)
        for file, kind in ((io.StringIO(), TypeError), (b"path", AttributeError), (None, AttributeError)):
            with self.assertRaises(kind):
                store.checkpoint_to(file)
        with self.assertRaises(ValueError), open(os.devnull, "wb") as file:
            file.close()
            store.checkpoint_to(file)

    def test_an_interrupt(self):
        store, node = filled()

        def interrupt(call, data):
            raise KeyboardInterrupt

        with self.assertRaises(KeyboardInterrupt):
            store.checkpoint_to(File(interrupt))
        store.accept(node.report(2))


class Calls(unittest.TestCase):
    """Calls of the store that the file makes."""

    def test_reads(self):
        store, _ = filled()
        snapshot = store.snapshot()

        def read(call, data):
            self.assertEqual((snapshot[b"1"], store.rows, len(list(snapshot.items()))), (b"1" * 18_000, 30, 30))
            return len(data)

        file = File(read)
        store.checkpoint_to(file, 7)
        self.assertEqual(file.written, store.checkpoint(7))

    def test_a_second_saving(self):
        store, _ = filled()
        saved = store.checkpoint(8)

        def save(call, data):
            inner = io.BytesIO()
            store.checkpoint_to(inner, 8)
            self.assertEqual(inner.getvalue(), saved)
            return len(data)

        file = File(save)
        store.checkpoint_to(file, 7)
        self.assertEqual(file.written, store.checkpoint(7))

    def test_changes_are_found(self):
        changes = {
            "accept": lambda store: store.accept_report(0, 30, stamp(2)),
            "join": lambda store: store.join(),
            "snapshot": lambda store: store.snapshot(),
            "vacuum": lambda store: store.vacuum(),
            "vacuum_to": lambda store: store.vacuum_to(stamp(1)),
            "close_all": lambda store: store.close_all(),
        }
        for name, change in changes.items():
            store, _ = filled()
            kept = store.snapshot()
            file = File(lambda call, data: (call == 1 and change(store), len(data))[1])
            with self.subTest(name), self.assertRaises(hlcstore.Changed):
                store.checkpoint_to(file)
            self.assertEqual(file.calls, 2)
            store.join(), kept.close()

    def test_a_change_of_a_closed_snapshot_is_none(self):
        store, _ = filled()
        file = File(lambda call, data: (store.close_all(), len(data))[1])
        store.checkpoint_to(file)
        self.assertEqual(file.written, store.checkpoint())

    def test_closing(self):
        store, _ = filled()
        with self.assertRaises(hlcstore.Closed):
            store.checkpoint_to(File(lambda call, data: (store.close(), len(data))[1]))

    def test_a_change_after_the_last_piece(self):
        store = Store(1)
        saved, file = store.checkpoint(), File(lambda call, data: (store.join(), len(data))[1])
        self.assertEqual(store.checkpoint_to(file), len(saved))
        self.assertEqual((file.written, store.nodes), (saved, 2))

    def test_dropped_snapshots_are_closed_at_the_end(self):
        """Also where garbage is collected."""
        store, _ = filled()
        saved_with, kept = [store.snapshot() for _ in range(3)], store.snapshot()
        ring = [saved_with.pop()]
        ring.append(ring)
        del ring
        saved = store.checkpoint()

        def drop(call, data):
            saved_with.clear()
            gc.collect()
            self.assertEqual(len(store.snapshots()), 4)
            return len(data)

        file = File(drop)
        store.checkpoint_to(file)
        self.assertEqual(file.written, saved)
        self.assertEqual([snapshot.id for snapshot in store.snapshots()], [kept.id])

    def test_more_dropped_snapshots_than_may_be_open(self):
        """The file closes those that are open by their ids, and opens others, so the saving is refused."""
        store, _ = filled()

        def drop(call, data):
            for _ in range(2):
                opened = [store.snapshot() for _ in range(1024)]
                store.close_all()
                opened.clear()
            return len(data)

        with self.assertRaises(hlcstore.Changed):
            store.checkpoint_to(File(drop))
        self.assertEqual(store.snapshots(), [])


class Threads(unittest.TestCase):
    """Calls of other threads."""

    def test_changes_wait_and_reads_do_not(self):
        store, node = filled()
        kept, item = store.snapshot(), node.write(2, b"1", b"later")
        saved = store.checkpoint(7)
        changes = [lambda: store.accept(item), store.vacuum, store.join, store.snapshot]
        done, done_before_the_end = [], []

        def change(call):
            call()
            done.append(call)

        threads = [threading.Thread(target=change, args=(call,)) for call in changes]

        def write(call, data):
            if call == 0:
                for thread in threads:
                    thread.start()
            time.sleep(0.05)
            reader = threading.Thread(target=lambda: done.append(kept[b"1"]))
            reader.start()
            reader.join()
            done_before_the_end[:] = done
            return len(data)

        file = File(write)
        store.checkpoint_to(file, 7)
        self.assertEqual(done_before_the_end, [b"1" * 18_000] * 4)
        for thread in threads:
            thread.join()
        self.assertEqual((len(done), file.written), (8, saved))
        self.assertEqual((store.link(0).next, store.nodes), (31, 2))

    def test_a_second_saving_while_a_change_waits(self):
        """The file saves the store again, which does not wait for the change that waits for the first saving."""
        store, _ = filled()
        saved, inner = store.checkpoint(7), io.BytesIO()
        changing = threading.Thread(target=store.join)

        def save(call, data):
            if call == 0:
                changing.start()
                time.sleep(0.1)
                store.checkpoint_to(inner, 7)
            return len(data)

        file = File(save)
        store.checkpoint_to(file, 7)
        changing.join()
        self.assertEqual((file.written, inner.getvalue(), store.nodes), (saved, saved, 2))

    def test_threads_save_at_once(self):
        """Each writes a piece when all have one to write."""
        store, _ = filled()
        together = threading.Barrier(4)
        files = [File(lambda call, data: (together.wait(timeout=60), len(data))[1]) for _ in range(4)]
        threads = [threading.Thread(target=store.checkpoint_to, args=(file, 7)) for file in files]
        for thread in threads:
            thread.start()
        for thread in threads:
            thread.join()
        self.assertEqual([file.written for file in files], [store.checkpoint(7)] * 4)

    def test_snapshots_that_another_thread_drops(self):
        """The file may wait for that thread, which does not wait for the saving."""
        store, _ = filled()
        opened = [store.snapshot() for _ in range(5)]
        saved = store.checkpoint()

        def write(call, data):
            dropping = threading.Thread(target=opened.clear)
            dropping.start()
            dropping.join()
            return len(data)

        file = File(write)
        store.checkpoint_to(file)
        self.assertEqual((file.written, store.snapshots()), (saved, []))

    def test_snapshots_that_two_savings_leave(self):
        """The saving that ends first leaves them to the other one, and does not wait for it."""
        store, _ = filled()
        opened, has_ended = [store.snapshot()], []

        def drop(call, data):
            opened.clear()
            return len(data)

        def save(call, data):
            if call == 0:
                other = threading.Thread(target=store.checkpoint_to, args=(File(drop),), daemon=True)
                other.start()
                other.join(timeout=20)
                has_ended.append(not other.is_alive())
            return len(data)

        file = File(save)
        many = store.checkpoint_to(file)
        self.assertEqual((has_ended, many, store.snapshots()), ([True], len(file.written), []))

    def test_writers_and_savings(self):
        """Each saving has all items up to one of them, whatever other threads accept."""
        store, tag = Store(4), 0

        def feed(number):
            node = Node(number)
            for reading in range(1, 2001):
                store.accept(node.write(reading, b"%d %d" % (number, reading % 100), b"%d" % reading * 50))

        writers = [threading.Thread(target=feed, args=(number,)) for number in range(4)]
        for writer in writers:
            writer.start()
        while tag < 5 or (tag < 50 and any(writer.is_alive() for writer in writers)):
            tag += 1
            file = File(lambda call, data: (time.sleep(0.001), len(data))[1])
            many = store.checkpoint_to(file, tag)
            with Store.restore(file.written) as copy:
                self.assertEqual((copy.tag, many), (tag, len(file.written)))
                self.assertEqual(copy.rows, sum(copy.link(number).next for number in range(4)))
        for writer in writers:
            writer.join()
        self.assertEqual(store.rows, 8000)


class Ends(unittest.TestCase):
    """The interpreter ends while another thread saves a store, in a call that lasts so many seconds."""

    PROGRAM = """
        import io
        import os
        import sys
        import threading
        import time
        import hlcstore

        class File:
            def write(self, piece):
                begun.set()
                time.sleep(float(sys.argv[1]))
                return len(piece)

        ITEM = hlcstore.Item.report(0, 0, hlcstore.stamp(1))

        class Last:
            def __init__(self):
                self.store = hlcstore.Store(1)
                self.snapshot = self.store.snapshot()
                self.joining = self.join_at_the_end()
                next(self.joining)

            def join_at_the_end(self):
                try:
                    yield
                finally:
                    self.store.join()

            def __del__(self, sleep=time.sleep, item=ITEM, file=io.BytesIO(), write=os.write):
                sleep(0.5)
                del self.snapshot
                self.joining.close()
                self.store.accept(item)
                self.store.checkpoint_to(file)
                nodes = self.store.nodes
                self.store.close()
                write(1, b"%d nodes" % nodes)

        begun = threading.Event()
        hlcstore.last = Last()  # a module drops what it has at the end, also where a thread knows the module
        threading.Thread(target=hlcstore.last.store.checkpoint_to, args=(File(),), daemon=True).start()
        begun.wait()
    """

    def test_changes_do_not_wait(self):
        """Also where the thread has ended, since its call returned to an interpreter that ends."""
        for seconds in "3600", "0.2":
            words = [sys.executable, "-c", textwrap.dedent(self.PROGRAM), seconds]
            done = subprocess.run(words, capture_output=True, text=True, timeout=60)
            with self.subTest(seconds):
                self.assertEqual((done.stdout, done.stderr, done.returncode), ("2 nodes", "", 0))


if __name__ == "__main__":
    unittest.main()
