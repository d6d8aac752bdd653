"""Stamps: what they are as numbers and as texts, and which calls return them."""

import copy
import json
import pickle
import struct
import sys
import unittest
from datetime import datetime, timedelta, timezone

import hlcstore
from hlcstore import Item, Node, Stamp, Store, split, stamp
from hlcstore.ranges import Division, Machine, Ranges


def at_depth(depth, call):
    """Makes a call within so many others."""
    return at_depth(depth - 1, call) if depth else call()


class Stamps(unittest.TestCase):
    def test_texts(self):
        for text, of in (("0.0", Stamp(0)), ("5.0", Stamp(5)), ("281474976710655.65535", Stamp(2**48 - 1, 65535))):
            self.assertEqual((str(of), f"{of}", Stamp.parse(text)), (text, text, of))
        self.assertEqual((repr(Stamp(5)), f"{Stamp(5):d}"), ("Stamp(5, 0)", "327680"))
        self.assertEqual(eval(repr(Stamp(5, 1))), Stamp(5, 1))

    def test_formats(self):
        """A format that is not empty is that of the number."""
        of = Stamp(5)
        self.assertEqual(f"{of} {of:d} {of:>8} {of!s:>8}", "5.0 327680   327680      5.0")

    def test_other_texts(self):
        texts = ["", ".", "5", "5.", ".0", "5.0.0", " 5.0", "5.0\n", "+5.0", "5.-0", "05.0", "5.00", "5_0.0", "5.65536"]
        for text in [*texts, "\uff15.0", "281474976710656.0", "1" * 5000 + ".0"]:
            with self.subTest(text[:30]), self.assertRaisesRegex(ValueError, "^a stamp is two decimal numbers"):
                Stamp.parse(text)

    def test_numbers(self):
        of = Stamp(2, 3)
        self.assertEqual((of, int(of), of.physical, of.counter, Stamp.from_number(131075)), (131075, 131075, 2, 3, of))
        self.assertTrue(Stamp(1, 65535) < Stamp(2) <= 131072 < of)
        self.assertEqual(({of: 1}[131075], json.dumps(of), struct.pack("<I", of)), (1, "131075", b"\3\0\2\0"))
        self.assertEqual((type(of * 2), type(of.physical), type(of.counter)), (int, int, int))
        for number in -1, 2**64:
            with self.assertRaises(OverflowError):
                Stamp.from_number(number)
        with self.assertRaises(AttributeError):
            of.physical = 5

    def test_sums_and_differences(self):
        """With a number it is a stamp, and with a stamp a number."""
        of = Stamp(2, 3)
        for each, text in (of + 1, "2.4"), (1 + of, "2.4"), (of - 4, "1.65535"), (of - (2 << 16), "0.3"):
            self.assertEqual((type(each), str(each)), (Stamp, text))
        self.assertEqual((type(of - Stamp(1)), of - Stamp(1), Stamp(1) - of), (int, 65539, -65539))
        self.assertEqual((type(of + Stamp(1)), type(2**32 - of), of + 0.5, of - 0.5), (int, int, 131075.5, 131074.5))
        for call in (lambda: of - 131076, lambda: Stamp(2**48 - 1) + 65536):
            with self.assertRaises(OverflowError):
                call()
        with self.assertRaises(TypeError):
            of + "1"

    def test_times(self):
        """A time is cut off to the millisecond, in whatever zone it is."""
        start = datetime(1970, 1, 1, tzinfo=timezone.utc)
        zone = timezone(timedelta(hours=1))
        self.assertEqual(Stamp.at(start + timedelta(seconds=2, microseconds=3_999)), Stamp(2003))
        self.assertEqual(Stamp.at(datetime(1970, 1, 1, 1, 0, 2, tzinfo=zone)), Stamp(2000))
        self.assertEqual((Stamp.at(start), Stamp(2003, 7).time), (Stamp(0), start + timedelta(milliseconds=2003)))
        # 2524 days and 8:00 make 218,102,400,000 ms.
        past = datetime(1976, 11, 29, 8, tzinfo=timezone.utc)
        self.assertEqual((Stamp.at(past), Stamp(218_102_400_000).time), (Stamp(218_102_400_000), past))
        last = datetime(9999, 12, 31, 23, 59, 59, 999_000, tzinfo=timezone.utc)
        self.assertEqual((Stamp.at(last).time, Stamp(0).time.tzinfo), (last, timezone.utc))
        for call in (
            lambda: Stamp.at(start - timedelta(microseconds=1)),
            lambda: Stamp(Stamp.at(last).physical + 1).time,
            lambda: Stamp(2**48 - 1).time,
        ):
            with self.assertRaises(OverflowError):
                call()
        for other in datetime(2000, 1, 1), start.date(), 5, None:
            with self.assertRaisesRegex(TypeError, "^a datetime with a time zone is required"):
                Stamp.at(other)

    def test_bytes(self):
        of = Stamp(2, 3)
        for order in "big", "little":
            same = Stamp.from_bytes(of.to_bytes(8, order), order)
            self.assertEqual((type(same), same), (Stamp, of))
        self.assertEqual(Stamp.from_bytes([2, 0, 3]), of)
        self.assertEqual(Stamp.from_bytes(bytes=b"\3\0\2", byteorder="little", signed=True), of)
        for data, signed in ((bytes([1] + [0] * 8), False), (b"\xff", True)):
            with self.assertRaises(OverflowError):
                Stamp.from_bytes(data, signed=signed)

    def test_a_stamp_is_no_physical_part(self):
        for make in Stamp, stamp, type("Other", (Stamp,), {}):
            with self.assertRaisesRegex(TypeError, "^the physical part must not be a stamp"):
                make(Stamp(5))
        self.assertEqual(Stamp(Stamp(5).physical, Stamp(5).counter), Stamp(5))

    def test_copies(self):
        of = Stamp(2, 3)
        same = [pickle.loads(pickle.dumps(of, protocol)) for protocol in range(pickle.HIGHEST_PROTOCOL + 1)]
        for each in [*same, copy.copy(of), copy.deepcopy(of)]:
            self.assertEqual((type(each), each), (Stamp, of))

    def test_calls_return_them(self):
        store, node = Store(1), Node(0)
        store.accept_all([node.write(1, b"a", b"x"), node.write(2, b"a", b"y")])
        item, version, link = node.report(3), store.versions(b"a")[0], store.link(0)
        vacuum, part = store.vacuum_to(Stamp(0, 1)), store.vacuum_part(Stamp(2))
        applied = store.apply_records(bytes(item))
        snapshot = store.snapshot(Stamp(2))
        stamps = [store.floor, store.horizon, node.last, item.stamp, node.send(4), node.receive(Stamp(0), 5)]
        stamps += [snapshot.stamp, version.stamp, link.head, vacuum.stamp, part.stamp, applied.threshold, stamp(7)]
        stamps.append(store.close_snapshot(snapshot.id))
        texts = "3.0 2.0 3.0 3.0 4.0 5.0 2.0 2.0 2.0 0.1 2.0 0.0 7.0 2.0".split()
        self.assertEqual([f"{type(each).__name__} {each}" for each in stamps], [f"Stamp {text}" for text in texts])
        with self.assertRaises(hlcstore.AboveFloor) as met:
            store.snapshot(Stamp(9))
        self.assertEqual((type(met.exception.word), str(met.exception.word)), (Stamp, "3.0"))
        self.assertEqual([type(number) for number in (store.rows, store.nodes, node.next, store.tag)], [int] * 4)

    def test_calls_at_the_greatest_depth(self):
        """A call that returns a stamp does nothing where Python refuses it since calls are too deep."""
        node, sent, most = Node(0), [], sys.getrecursionlimit()
        for depth in range(most - 200, most):
            try:
                sent.append(at_depth(depth, lambda: node.send(depth)))
            except RecursionError:
                pass
        self.assertEqual((0 < len(sent) < 200, node.last), (True, sent[-1]))

    def test_calls_take_no_other_number(self):
        """A number of milliseconds would be a stamp of long ago, so that a snapshot there would have nothing."""
        store, node, machine = Store(1), Node(0), Machine(Division.by_keys(), 0)
        stores, parts = Ranges(machine._division, 1), (0, 0, 5)
        calls = [
            (store.snapshot, 5), (store.vacuum_to, 5), (store.vacuum_part, 5), (store.check_vacuum, 5),
            (store.certificate, 5), (store.increment, 5), (store.versions, b"a", 5), (store.versions, b"a", None, 5),
            (store.join_at, 5), (Node, 0, 5), (Node.restore, 0, 5, 0), (node.receive, 5, 5), (node.raise_to, 5),
            (hlcstore.join_record, 0, 5), (hlcstore.threshold_record, 5), (split, 5),
            (machine.receive, 5, 5), (machine.observe, 5, 5), (stores.machine, 0, 5),
            (stores.snapshot, 5), (stores.snapshot, 2**63), (stores.vacuum_to, 5), (stores.vacuum_to, 2**63),
            *[(call, *parts, b"a", b"") for call in (Item.write, store.accept_write, store.check_write)],
            *[(call, *parts, b"a") for call in (Item.delete, store.accept_delete, store.check_delete)],
            *[(call, *parts, [(b"a", b"")]) for call in (Item.batch, store.accept_batch, store.check_batch)],
            *[(call, *parts) for call in (Item.report, store.accept_report, store.check_report)],
            *[(call, *parts) for call in (Item.retire, store.accept_retire)],
        ]  # fmt: skip
        for call, *args in calls:
            for number in 5, True, -1, 5.0:
                with self.subTest(call=call), self.assertRaisesRegex(TypeError, "^a Stamp is required, not <class '"):
                    call(*(number if each == 5 else each for each in args))
        self.assertEqual((store.link(0), node.last, machine.last), ((0, 0, False), 0, 0))

    def test_no_stamp_is_the_least_or_the_greatest(self):
        store = Store(1)
        store.accept(Item.write(0, 0, Stamp(5), b"a", b"x"))
        self.assertEqual(Node(0, None).last, Node(0).last)
        self.assertEqual(store.versions(b"a", None, None), store.versions(b"a", Stamp(0), Stamp(2**48 - 1, 65535)))
        self.assertEqual((len(store.versions(b"a")), store.snapshot(None).stamp), (1, Stamp(5)))

    def test_parts(self):
        self.assertEqual((stamp(1), stamp(2, 3)), (65536, 131075))
        self.assertEqual(split(stamp(2, 3)), (2, 3))
        self.assertEqual((stamp(0), stamp(2**48 - 1, counter=65535)), (0, 2**64 - 1))
        self.assertEqual(split(Stamp.from_number(2**64 - 1)), (2**48 - 1, 65535))


if __name__ == "__main__":
    unittest.main()
