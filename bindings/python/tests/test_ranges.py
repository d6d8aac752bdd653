"""Several stores that share the keys: each decision, and then threads beside a model."""

import contextlib
import copy
import doctest
import faulthandler
import inspect
import pickle
import queue
import random
import sys
import threading
import time
import unittest
from unittest import mock

import hlcstore
from hlcstore import AboveFloor, BadKey, BadNodeCount, BelowHorizon, Closed, CounterFull, Error, Item, Link, NoNode
from hlcstore import NoSnapshot, NotNext, Retired, Stamp, Store, TooManyNodes, TooManySnapshots, Vacuum, ranges
from hlcstore.ranges import BadDivision, Division, Machine, NotOneCut, Ranges, RangesSnapshot, WrongStore

LETTERS = Division.by_keys([b"g", b"n", b"t"])
ALPHABET = [bytes([letter]) for letter in b"abcdefghijklmnopqrstuvwxyz"]


def setUpModule():
    """Threads that wait for each other for good end the tests."""
    faulthandler.dump_traceback_later(120, exit=True)


def tearDownModule():
    faulthandler.cancel_dump_traceback_later()


def written(division):
    """Returns stores with a value for each letter, written in turn by two machines, and these."""
    stores, machines = Ranges(division, 2), [Machine(division, 0), Machine(division, 1)]
    for i, letter in enumerate(ALPHABET):
        stores.write(machines[i % 2], 10 + i, letter, letter.upper())
    for machine in machines:
        stores.report_all(machine, 50)
    return stores, machines


def after(stamp, counter):
    return Stamp.from_number(stamp + counter)


class Beside:
    """One of the stores, which lets another thread act just before a call of this name, as often as is said."""

    def __init__(self, stores, number, name, act, times=1):
        self.store, self.name, self.act, self.left = stores._stores[number], name, act, times
        stores._stores[number] = self

    def __getattr__(self, name):
        if name == self.name and self.left:
            self.left -= 1
            acting = threading.Thread(target=self.act)
            acting.start()
            acting.join()
        return getattr(self.store, name)


class Interrupt(Exception):
    """What the handler of a signal raises."""


@contextlib.contextmanager
def interrupted(event, name):
    """Raises it before or after the first call of a function of this name: at its event c_call or c_return."""

    def interrupt(frame, at, function):
        if at == event and function.__name__ == name:
            sys.setprofile(None)
            raise Interrupt

    sys.setprofile(interrupt)
    try:
        yield
    finally:
        sys.setprofile(None)


class Divisions(unittest.TestCase):
    def test_keys_between_boundaries(self):
        places = {b"": 0, b"a": 0, b"f\xff": 0, b"g": 1, b"g\0": 1, b"mz": 1, b"n": 2, b"s": 2, b"t": 3, b"\xff": 3}
        self.assertEqual(LETTERS.stores, 4)
        for key, store in places.items():
            self.assertEqual(LETTERS.store_of(bytearray(key)), store, key)
        self.assertEqual((Division.by_keys().stores, Division.by_keys([]).store_of(b"a")), (1, 0))

    def test_boundaries_ascend(self):
        many = [b"%04d" % i for i in range(1024)]
        self.assertEqual(Division.by_keys(many[:1023]).stores, 1024)
        for bad in ([b"b", b"b"], [b"b", b"a"], [b"a", b"c", b"b"], [b""], many):
            with self.assertRaises(BadDivision):
                Division.by_keys(bad)
        for bad in (-1, 0, 1025):
            with self.assertRaises(BadDivision):
                Division.by_hash(bad)
        with self.assertRaises(TypeError):
            Division()

    def test_the_hash_is_fnv_1a(self):
        """The hashes are the published ones of the function."""
        hashes = {b"": 0xCBF29CE484222325, b"a": 0xAF63DC4C8601EC8C, b"b": 0xAF63DF4C8601F1A5}
        hashes |= {b"foobar": 0x85944171F73967E8, b"\xff\0\0\1": 0x6961196491CC682D}
        for key, found in hashes.items():
            for stores in (1, 2, 7, 64, 1000, 1024):
                self.assertEqual(Division.by_hash(stores).store_of(key), found % stores)

    def test_divisions_are_values(self):
        self.assertEqual(len({LETTERS, Division.by_keys([b"g", b"n", b"t"]), Division.by_hash(4)}), 2)
        self.assertNotEqual(LETTERS, 4)
        for division in LETTERS, Division.by_hash(4):
            self.assertEqual(pickle.loads(pickle.dumps(division)), division)
            self.assertEqual(copy.copy(division), eval(repr(division)))


class Machines(unittest.TestCase):
    def test_one_clock_and_numbers_in_each_store(self):
        machine = Machine(LETTERS, 3)
        self.assertEqual(machine.write(5, b"a", b"x"), (0, Item.write(3, 0, Stamp(5), b"a", b"x")))
        self.assertEqual(machine.delete(4, b"z"), (3, Item.delete(3, 0, Stamp(5, 1), b"z")))
        self.assertEqual(machine.write(5, b"b", b""), (0, Item.write(3, 1, Stamp(5, 2), b"b", b"")))
        self.assertEqual(machine.send(6), Stamp(6))
        self.assertEqual(machine.receive(Stamp(9), 6), Stamp(9, 1))
        self.assertEqual(machine.observe(seen=Stamp(9), reading=20), Stamp(20))
        self.assertEqual((machine.id, machine.last, repr(machine)), (3, Stamp(20), "<Machine 3 at 20.0>"))
        reports = [Item.report(3, number, Stamp(20, 1 + i)) for i, number in enumerate((2, 0, 0, 1))]
        self.assertEqual(machine.report_all(20), list(enumerate(reports)))
        with self.assertRaises(TypeError):
            machine.receive(6, Stamp(9))
        self.assertEqual([item.kind for _, item in machine.retire_all(30)], ["retire"] * 4)
        for call in (lambda: machine.write(31, b"a", b""), lambda: machine.send(31), lambda: machine.report_all(31)):
            with self.assertRaises(Retired):
                call()
        self.assertEqual((machine.last, machine.retired), (Stamp(30, 3), True))

    def test_a_refused_machine_is_as_it_was(self):
        """The counters of three stores fit, that of the fourth does not."""
        stores = Ranges(LETTERS, 1)
        machine = stores.machine(0, Stamp(5, 65532))
        for issue in machine.report_all, machine.retire_all:
            with self.assertRaises(CounterFull) as refused:
                issue(5)
            self.assertEqual((refused.exception.word, machine.last), (Stamp(5, 65535), Stamp(5, 65532)))
        with self.assertRaises(BadKey):
            machine.write(6, b"", b"")
        self.assertEqual((machine.last, machine.retired), (Stamp(5, 65532), False))
        reports = [Item.report(0, 0, Stamp(6, store)) for store in range(4)]
        self.assertEqual(machine.report_all(6), list(enumerate(reports)))

    def test_as_it_was_after_a_refused_acceptance(self):
        """Of a machine whose item got lost, each later item in the same store is refused."""
        stores, machine = Ranges(LETTERS, 1), Machine(LETTERS, 0)
        store, lost = machine.write(5, b"h", b"")
        with self.assertRaises(NotNext):
            stores.write(machine, 6, b"i", b"")
        with self.assertRaises(NotNext):
            stores.delete(machine, 6, b"i")
        self.assertEqual(machine.last, Stamp(5))
        with self.assertRaises(NotNext):
            stores.report_all(machine, 7)
        self.assertEqual((machine.last, stores.floor(0), stores.floor(2)), (Stamp(7), Stamp(7), Stamp(0)))
        stores.accept(store, lost)
        self.assertEqual(stores.write(machine, 8, b"i", b""), Stamp(8))
        self.assertEqual(stores.link(1, 0), Link(2, Stamp(8), False))
        stores.retire_all(machine, 9)
        for call in stores.retire_all, lambda machine, reading: stores.write(machine, reading, b"i", b""):
            with self.assertRaises(Retired):
                call(machine, 10)
            self.assertTrue(machine.retired)
        with self.assertRaises(WrongStore):
            stores.write(Machine(Division.by_hash(1), 0), 9, b"a", b"")

    def test_interrupts(self):
        """A machine goes on with what the store accepted, whether it had accepted the item already or not."""
        calls = {
            "write": lambda: stores.write(machine, 5, b"a", b""),
            "delete": lambda: stores.delete(machine, 5, b"a"),
            "write_batch": lambda: stores.write_batch(machine, 5, [(b"a", b""), (b"b", b"")]),
            "report_all": lambda: stores.report_all(machine, 5),
            "retire_all": lambda: stores.retire_all(machine, 5),
        }
        for name, call in calls.items():
            for event, accepted in ("c_call", 0), ("c_return", 1):
                stores, machine = Ranges(LETTERS, 1), Machine(LETTERS, 0)
                with self.subTest(name, event=event):
                    with self.assertRaises(Interrupt), interrupted(event, "accept"):
                        call()
                    self.assertEqual((stores.link(0, 0).next, machine.last), (accepted, Stamp(5 * accepted)))
                    (stores.retire_all if name == "retire_all" else stores.report_all)(machine, 6)
                    self.assertEqual(stores.link(3, 0).next, 1)

    def test_an_interrupt_before_the_item_is_whole(self):
        for name in "raise_to", "write":
            stores, machine = Ranges(LETTERS, 1), Machine(LETTERS, 0)
            with self.assertRaises(Interrupt), interrupted("c_return", name):
                stores.write(machine, 5, b"a", b"")
            self.assertEqual((stores.rows, machine.last, stores.write(machine, 6, b"a", b"")), (0, Stamp(0), Stamp(6)))

    def test_no_copies(self):
        """A copy would be a second owner: of a clock, or of what it closes."""
        stores, (machine, _) = written(LETTERS)
        for owner in stores, machine, stores.snapshot():
            for make in copy.copy, copy.deepcopy, pickle.dumps:
                with self.assertRaisesRegex(TypeError, "cannot copy or pickle"):
                    make(owner)

    def test_restored_machines_go_on(self):
        stores, (first, other) = written(LETTERS)
        _, lost = first.write(60, b"a", b"")
        restored = stores.machine(0)
        self.assertEqual((restored.last, stores.machine(0, Stamp(61)).last), (Stamp(50, 3), Stamp(61)))
        store, again = restored.write(40, b"a", b"new")
        self.assertEqual((again.number, again.stamp), (lost.number, Stamp(50, 4)))
        # Only two of the last items reach their stores: the others are issued again after the restart.
        for store_of_last, last in other.retire_all(70)[:2]:
            stores.accept(store_of_last, last)
        half = stores.machine(1, Stamp(75))
        with self.assertRaises(Retired):
            half.write(76, b"a", b"")
        self.assertEqual(half.send(76), Stamp(76))
        stores.retire_all(half, 80)
        with self.assertRaises(Retired):
            half.send(81)
        for machine, refusal in ((1, Retired), (2, NoNode)):
            with self.assertRaises(refusal):
                stores.machine(machine)
        stores.accept(store, again)
        stores.report_all(restored, 90)
        self.assertEqual(stores.cut, Stamp(90))


class Stores(unittest.TestCase):
    def assert_none_is_open(self, stores):
        self.assertEqual([store.snapshots() for store in stores._stores], [[]] * stores.stores)

    def test_an_item_of_another_store(self):
        stores, machine = Ranges(LETTERS, 1), Machine(LETTERS, 0)
        store, item = machine.write(5, b"g", b"")
        self.assertEqual(store, 1)
        for wrong in (-1, 0, 2, 3, 4):
            with self.assertRaises(WrongStore) as refused:
                stores.accept(wrong, item)
        self.assertEqual(str(refused.exception), "the key is of another store, or no store has this number")
        self.assertIsInstance(refused.exception, Error)
        with self.assertRaises(WrongStore):
            stores.accept(0, Item.delete(0, 0, Stamp(5), b"g"))
        report = Item.report(0, 0, Stamp(5))
        for call in (lambda: stores.accept(4, report), lambda: stores.floor(4), lambda: stores.link(-1, 0)):
            with self.assertRaises(WrongStore):
                call()
        self.assertEqual([stores.link(number, 0) for number in range(4)], [Link(0, Stamp(0), False)] * 4)
        stores.accept(1, item)
        self.assertEqual((stores.rows, stores.floor(1)), (1, Stamp(5)))

    def test_the_cut_is_the_least_floor(self):
        stores, first, other = Ranges(LETTERS, 2), Machine(LETTERS, 0), Machine(LETTERS, 1)
        stores.report_all(first, 20)
        stores.report_all(other, 30)
        self.assertEqual([stores.floor(store) for store in range(4)], [Stamp(20, store) for store in range(4)])
        self.assertEqual(stores.cut, Stamp(20))
        stores.write(first, 40, b"a", b"x")
        self.assertEqual(stores.cut, Stamp(20, 1))
        with self.assertRaises(AboveFloor) as refused:
            stores.snapshot(Stamp(20, 2))
        self.assertEqual(refused.exception.word, Stamp(20, 1))
        with stores.snapshot(Stamp(20, 1)) as snapshot:
            self.assertEqual((snapshot.stamp, len(snapshot)), (Stamp(20, 1), 0))
        self.assert_none_is_open(stores)

    def test_scans_are_in_key_order(self):
        bounds = [(b"", b""), (b"f", b"h"), (b"g", b"n"), (b"g", b""), (b"", b"n"), (b"n", b"g"), (b"z", b"zz")]
        for division in (LETTERS, Division.by_keys(), *map(Division.by_hash, (1, 5, 64))):
            stores, _ = written(division)
            with stores.snapshot() as snapshot:
                for start, end in bounds:
                    keys = [key for key in ALPHABET if start <= key and (not end or key < end)]
                    pairs = [(key, key.upper()) for key in keys]
                    self.assertEqual(list(snapshot.items(start, end)), pairs)
                    self.assertEqual(list(snapshot.items(start, end, reverse=True)), pairs[::-1])
                    self.assertEqual(list(snapshot.keys(start, end)), keys)
                    self.assertEqual(list(snapshot.values(start, end, reverse=True)), [v for _, v in pairs[::-1]])
                    self.assertEqual(snapshot.count(start, end), len(keys))
                self.assertEqual((list(snapshot), list(reversed(snapshot))), (ALPHABET, ALPHABET[::-1]))
                self.assertEqual((len(snapshot), snapshot[b"q"], snapshot.get(b"t")), (26, b"Q", b"T"))
                self.assertEqual((b"g" in snapshot, b"gg" in snapshot, snapshot.get(b"gg", 7)), (True, False, 7))
                self.assertEqual(repr(snapshot), "<RangesSnapshot at 50.0>")
                with self.assertRaises(KeyError):
                    snapshot[b"gg"]

    def test_closed_ones(self):
        stores, _ = written(Division.by_hash(4))
        snapshot = stores.snapshot()
        snapshot.close()
        snapshot.close()
        for call in (lambda: snapshot[b"a"], lambda: list(snapshot), lambda: len(snapshot)):
            with self.assertRaises(NoSnapshot):
                call()
        with stores:
            pass
        calls = (stores.snapshot, stores.join, stores.checkpoint, lambda: stores.cut, lambda: stores.vacuum_to(0))
        for call in calls:
            with self.assertRaises(Closed):
                call()

    def test_nothing_stays_open_where_one_store_refuses(self):
        stores, _ = written(LETTERS)
        stores._stores[3].vacuum_to(Stamp(40))
        with self.assertRaises(BelowHorizon):
            stores.snapshot(Stamp(39))
        self.assert_none_is_open(stores)
        others = [stores._stores[2].snapshot() for _ in range(1024)]
        with self.assertRaises(TooManySnapshots):
            stores.snapshot()
        del others
        self.assert_none_is_open(stores)

    def test_a_snapshot_that_a_vacuum_overtakes(self):
        stores, _ = written(LETTERS)
        stores.vacuum_to(Stamp(50))  # by another thread, after this one asked for the cut
        cuts = mock.Mock(side_effect=[Stamp(49), Stamp(50)])
        with stores._snapshot_at_one_of(cuts) as snapshot:
            self.assertEqual((snapshot.stamp, len(snapshot)), (Stamp(50), 26))
        cuts = mock.Mock(return_value=Stamp(49))
        with self.assertRaises(BelowHorizon):
            stores._snapshot_at_one_of(cuts)
        self.assertEqual(cuts.call_count, 8)
        self.assert_none_is_open(stores)

    def test_vacuums_are_to_one_stamp(self):
        """A row costs its key of one byte, its value of one or of three, and 10."""
        stores, machines = written(LETTERS)
        for i, letter in enumerate(ALPHABET):
            stores.write(machines[i % 2], 60, letter, b"new")
        for machine in machines:
            stores.report_all(machine, 70)
        with stores.snapshot(Stamp(50)) as snapshot, mock.patch.object(ranges, "_KEYS_OF_PART", 3):
            self.assertEqual(stores.vacuum_to(Stamp(1000)), Vacuum(Stamp(70), 52, 26 * (12 + 14), 0))
            self.assertEqual(snapshot[b"c"], b"C")
        self.assertEqual(stores.vacuum_to(Stamp(70)), Vacuum(Stamp(70), 26, 26 * 14, 26))
        self.assertEqual([store.horizon for store in stores._stores], [Stamp(70)] * 4)

    def test_a_refused_vacuum_changes_nothing(self):
        stores, _ = written(LETTERS)
        stores._stores[3].vacuum_to(Stamp(40))
        with self.assertRaises(BelowHorizon):
            stores.vacuum_to(Stamp(39))
        self.assertEqual(stores._stores[0].horizon, Stamp(0))

    def test_a_join_has_one_number_everywhere(self):
        stores, machines = written(LETTERS)
        for i, machine in enumerate(machines):
            stores.report_all(machine, 80 + 10 * i)
        joined = stores.join()
        self.assertEqual((joined.id, joined.last, stores.nodes), (2, Stamp(80, 3), 3))
        self.assertEqual([stores.link(i, 2) for i in range(4)], [Link(0, Stamp(80, 3), False)] * 4)
        self.assertEqual(stores.write(joined, 1, b"zoo", b"new"), Stamp(80, 4))
        stores.report_all(joined, 100)
        self.assertEqual(stores.cut, Stamp(80))

    def test_a_join_goes_on(self):
        """A join that ended in the middle, for want of memory, left the node in the first two stores."""
        stores, machines = written(LETTERS)
        for store in stores._stores[:2]:
            store.join_at(Stamp(60))
        for machine in machines:
            stores.report_all(machine, 70)
        self.assertEqual(stores.cut, Stamp(60))
        joined = stores.join()
        self.assertEqual((joined.id, joined.last), (2, Stamp(70, 3)))
        stores.report_all(joined, 80)
        self.assertEqual((stores.cut, stores.join().id), (Stamp(70), 3))

    def test_no_call_comes_into_the_middle_of_a_join(self):
        for call in (
            lambda stores, machine: stores.write(machine, 90, b"a", b""),
            lambda stores, machine: len(stores.checkpoint()),
        ):
            (stores, machines), answers, waits = written(LETTERS), [], []
            calling = threading.Thread(target=lambda: answers.append(call(stores, machines[0])))

            def begin():
                calling.start()
                calling.join(timeout=0.2)
                waits.append(calling.is_alive())

            Beside(stores, 2, "join_at", begin)
            joined = stores.join()
            calling.join()
            self.assertEqual((waits, joined.last), ([True], Stamp(50, 3)))
            self.assertIn(answers, ([Stamp(90)], [4]))

    def test_no_store_joins_where_none_is_left(self):
        stores = Ranges(LETTERS, 64)
        for _ in range(64, 1024):
            stores.join()
        with self.assertRaises(TooManyNodes):
            stores.join()
        self.assertEqual(stores.nodes, 1024)
        with self.assertRaises(BadNodeCount):
            Ranges(LETTERS, 65)

    def test_restored_stores_answer_alike(self):
        for division in LETTERS, Division.by_hash(5):
            stores, machines = written(division)
            with stores.snapshot() as snapshot:
                expected = list(snapshot.items())
                stores.write(machines[0], 60, b"a", b"above the cut")
                saved = stores.checkpoint()
            restored = Ranges.restore(division, saved)
            self.assert_none_is_open(restored)
            self.assertEqual((restored.cut, restored.rows, restored.division), (stores.cut, 27, division))
            with restored.snapshot(Stamp(50)) as again:
                self.assertEqual(list(again.items()), expected)
            machine = restored.machine(0)
            self.assertEqual(machine.last, machines[0].last)
            restored.write(machine, 70, b"b", b"new")

    def test_a_checkpoint_beside_a_join(self):
        """The machine is in each store, or in none."""
        stores, _ = written(LETTERS)
        Beside(stores, 2, "checkpoint", stores.join)
        restored = Ranges.restore(LETTERS, stores.checkpoint())
        self.assertEqual([store.nodes for store in restored._stores], [3] * 4)
        self.assertEqual(restored.join().id, 3)

    def test_a_checkpoint_after_half_a_join(self):
        """There is none before a join has ended, since there would be no machine for the node."""
        stores, _ = written(LETTERS)
        for store in stores._stores[:2]:
            store.join_at(Stamp(60))
        with self.assertRaises(NoNode):
            stores.checkpoint()
        joined = stores.join()
        self.assertEqual(Ranges.restore(LETTERS, stores.checkpoint()).nodes, joined.id + 1)

    def test_a_checkpoint_beside_vacuums(self):
        """What is restored has a cut that can be read, or there is no checkpoint."""
        stores, machines = written(LETTERS)
        readings = iter(range(60, 100))

        def vacuum():
            reading = next(readings)
            for machine in machines:
                stores.report_all(machine, reading)
            stores.vacuum_to(stores.cut)

        Beside(stores, 2, "checkpoint", vacuum)
        restored = Ranges.restore(LETTERS, stores.checkpoint())
        with restored.snapshot() as snapshot:
            self.assertEqual((snapshot.stamp, list(snapshot)), (Stamp(60), ALPHABET))
        Beside(stores, 2, "checkpoint", vacuum, times=8)
        with self.assertRaises(BelowHorizon) as refused:
            stores.checkpoint()
        self.assertEqual((refused.exception.word, stores.cut), (Stamp(68), Stamp(68)))
        Ranges.restore(LETTERS, stores.checkpoint()).snapshot(Stamp(68))

    def test_checkpoints_that_are_not_of_one_cut(self):
        stores, machines = written(LETTERS)
        saved = stores.checkpoint()
        stores.join()
        joined = stores._stores[3].checkpoint(Stamp(50))
        for machine in machines:
            stores.report_all(machine, 100)
        bad = [(NotOneCut, LETTERS, saved[:3]), (NotOneCut, LETTERS, []), (NotOneCut, LETTERS, [*saved[:3], joined])]
        bad += [(NotOneCut, LETTERS, [*saved[:3], Store.restore(saved[3]).checkpoint(1)])]
        bad += [(WrongStore, LETTERS, [saved[1], saved[0], *saved[2:]]), (WrongStore, Division.by_hash(4), saved)]
        bad += [(WrongStore, Division.by_keys([b"h", b"n", b"t"]), saved), (hlcstore.BadBytes, LETTERS, [b""] * 4)]
        for refusal, division, checkpoints in bad:
            with self.assertRaises(refusal):
                Ranges.restore(division, checkpoints)

    def test_all_calls_are_documented(self):
        for kind in Division, Machine, Ranges, RangesSnapshot:
            for name, part in vars(kind).items():
                if not name.startswith("_"):
                    self.assertTrue(inspect.getdoc(part), (kind, name))
        self.assertEqual(doctest.testmod(ranges).failed, 0)


class Threads(unittest.TestCase):
    """Each machine says that its turn began before it writes anything else, and tells another machine, which writes
    that down. A snapshot has the newest of all writes issued at or below its stamp, and keeps them."""

    def setUp(self):
        self.lock, self.writes, self.wrong = threading.Lock(), {}, []
        self.began, self.over = time.monotonic_ns(), time.monotonic() + 0.7

    def accept(self, stores, store, item):
        """Adds a write to the model before the store has it."""
        with self.lock:
            for key, value in item.writes:
                self.writes.setdefault(key, []).append((item.stamp, item.node, value))
        stores.accept(store, item)

    def expected(self, cut):
        with self.lock:
            newest = {key: max((w for w in all if w[0] <= cut), default=None) for key, all in self.writes.items()}
        return sorted((key, write[2]) for key, write in newest.items() if write and write[2] is not None)

    def work(self, stores, machine, boxes, turn, chance):
        clock = (time.monotonic_ns() - self.began) // 1000 + chance.randrange(50)
        self.accept(stores, *machine.write(clock, b"began%d" % machine.id, b"%d" % turn))
        key = b"key%d" % chance.randrange(20)
        issued = machine.delete(clock, key) if turn % 4 == 0 else machine.write(clock, key, b"%d" % turn)
        self.accept(stores, *issued)
        others = {b"key%d" % chance.randrange(20) for _ in range(9)}
        others = [other for other in others if stores.store_of(other) == stores.store_of(key)]
        batch = [(other, chance.choice((None, b"%d of a batch" % turn))) for other in others] or [(key, b"alone")]
        self.accept(stores, *machine.write_batch(clock, batch))
        chance.choice(boxes).put((machine.id, turn, machine.send(clock)))
        try:
            sender, told, sent = boxes[machine.id].get_nowait()
        except queue.Empty:
            pass
        else:
            machine.receive(sent, clock)
            self.accept(stores, *machine.write(clock, b"told%d,%d" % (sender, machine.id), b"%d" % told))
        for report in machine.report_all(clock):
            self.accept(stores, *report)
        time.sleep(0.001)

    def look(self, stores, older):
        snapshot = stores.snapshot()
        found = list(snapshot.items())
        self.check(found == self.expected(snapshot.stamp), ("not the newest", snapshot, found))
        for key, told in found:
            if key.startswith(b"told"):
                sender = key[4:].split(b",")[0]
                self.check(int(told) <= int(snapshot[b"began" + sender]), ("before its cause", snapshot, key))
        older.append((snapshot, found))
        if len(older) > 10:
            for once, was in older:
                self.check(list(once.items()) == was, ("changed", once))
                once.close()
            older.clear()

    def check(self, is_right, what):
        if not is_right:
            self.wrong.append(what)

    def forever(self, call):
        def run():
            turn = 0
            try:
                while time.monotonic() < self.over and not self.wrong:
                    turn += 1
                    call(turn)
            except BaseException as error:
                self.wrong.append(error)
                raise

        return threading.Thread(target=run)

    def play(self, division):
        with Ranges(division, 2) as stores:
            boxes = [queue.Queue() for _ in range(3)]
            machines = [Machine(division, 0), Machine(division, 1), stores.join()]
            threads = []
            for machine in machines:
                chance = random.Random(machine.id)
                threads.append(
                    self.forever(lambda turn, m=machine, c=chance: self.work(stores, m, boxes, turn, c))
                )
            for _ in range(2):
                threads.append(self.forever(lambda _, older=[]: self.look(stores, older)))
            threads.append(self.forever(lambda _: stores.vacuum_to(stores.cut)))
            for thread in threads:
                thread.start()
            for thread in threads:
                thread.join()
            self.assertEqual(self.wrong, [])

    def test_by_keys(self):
        self.play(Division.by_keys([b"key", b"key15", b"key7", b"told"]))

    def test_by_hash(self):
        self.play(Division.by_hash(7))


if __name__ == "__main__":
    unittest.main()
