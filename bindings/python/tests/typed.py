"""What a type checker must accept, and infer."""

import io
from collections.abc import Iterator
from datetime import timedelta
from typing import assert_type

import hlcstore
from hlcstore import AboveFloor, Applied, Batch, Certified, Checked, Item, Link, Node, NotNext, Sizes, Snapshot, Store
from hlcstore import Stamp, Vacuum, VacuumPart, Version, check, split, stamp
from hlcstore import file as files
from hlcstore.ranges import Division, Machine, Ranges, RangesSnapshot, WrongStore

node = Node(0)
item = assert_type(node.write(1, b"a", bytearray(b"x")), Item)
with Store(1) as store:
    store.accept(item)
    assert_type(Item.decode(bytes(item)), tuple[Item, int])
    assert_type(store.accept_all([item, node.report(2)]), int)
    with node.batch(3) as batch_of_node:
        batch_of_node[bytearray(b"a")] = memoryview(b"x")
        del batch_of_node[b"b"]
    assert_type(batch_of_node, Batch)
    assert_type(batch_of_node.item, Item | None)
    assert_type(node.write_batch(4, Batch({b"a": b"x"}.items())).writes, tuple[tuple[bytes, bytes | None], ...])
    assert_type(node.write_batch(5, [(b"a", b"x"), (b"b", None)]), Item)
    store.accept_batch(0, 5, stamp(6), Batch())
    assert_type(store.accept_items(memoryview(bytes(item))), int)
    assert_type(store.apply_records(bytes(item)), Applied)
    assert_type(hlcstore.threshold_record(stamp(2)), bytes)
    assert_type(store.join_at(stamp(5)), Node)
    assert_type(store.link(0), Link)
    assert_type(store.sizes, Sizes)
    assert_type(store.snapshots(), list[Snapshot])
    assert_type((store.floor, stamp(5), Stamp.parse("5.0")), tuple[Stamp, Stamp, Stamp])
    try:
        with store.snapshot() as snapshot:
            assert_type(snapshot[b"a"], bytes)
            assert_type(snapshot.get(b"b"), bytes | None)
            assert_type(snapshot.get(b"b", 7), bytes | int)
            assert_type(snapshot.items(start=b"a"), Iterator[tuple[bytes, bytes]])
            assert_type(snapshot.keys(reverse=True), Iterator[bytes])
            assert_type(snapshot.values(b"a"), Iterator[bytes])
            assert_type(snapshot.last_below(b"b"), tuple[bytes, bytes] | None)
            assert_type(snapshot.changes(snapshot, end=b"z"), Iterator[tuple[bytes, bytes | None]])
            assert_type(list(snapshot), list[bytes])
            assert_type(list(reversed(snapshot)), list[bytes])
            assert_type(snapshot.read_all([b"a"]), list[bytes | None])
            assert_type(b"a" in snapshot, bool)
            assert_type(split(snapshot.stamp), tuple[int, int])
            assert_type(store.snapshot_by_id(snapshot.id), Snapshot)
    except AboveFloor as refused:
        assert_type(refused.word, int)
    except NotNext as refused_item:
        assert_type(refused_item.accepted, int)
    vacuum = assert_type(store.vacuum(), Vacuum)
    certified = assert_type(store.certificate(vacuum.stamp), Certified)
    assert_type(store.versions(b"a", to=vacuum.stamp), list[Version])
    assert_type(store.vacuum_part(stamp(0), bytearray(b"a"), limit=2), VacuumPart)
    assert_type(check(certified.certificate), Checked)
    assert_type(Store.restore(store.checkpoint(tag=3)), Store)
    assert_type(store.checkpoint_to(io.BytesIO(), tag=3), int)
    assert_type(store.checkpoint_to(open("saved", "wb", buffering=0)), int)
    assert_type(hlcstore.apply_increment(store.checkpoint(), bytearray(store.increment(stamp(0), tag=3))), bytes)
    parts = assert_type(hlcstore.split_checkpoint(bytearray(store.checkpoint()), b"m"), tuple[bytes, bytes])
    assert_type(hlcstore.merge_checkpoints(parts[0], right=bytearray(parts[1])), bytes)
assert_type(hlcstore.__version__, str)

division = assert_type(Division.by_keys([b"m", bytearray(b"n")]), Division)
machine = Machine(Division.by_hash(3), 0)
with Ranges(division, machines=1) as ranges:
    assert_type(machine.write(1, b"a", memoryview(b"x")), tuple[int, Item])
    assert_type(machine.report_all(2), list[tuple[int, Item]])
    assert_type((machine.send(3), machine.receive(stamp(5), 4), machine.last), tuple[Stamp, Stamp, Stamp])
    assert_type((ranges.join(), ranges.machine(0)), tuple[Machine, Machine])
    assert_type(ranges.write(machine, 5, b"a", bytearray(b"x")), Stamp)
    assert_type(ranges.write_batch(machine, 6, [(b"a", None)]), Stamp)
    assert_type(machine.write_batch(7, Batch()), tuple[int, Item])
    try:
        ranges.accept(0, item)
    except WrongStore as wrong:
        assert_type(wrong.code, int)
    with ranges.snapshot(ranges.cut) as all_stores:
        assert_type(all_stores, RangesSnapshot)
        assert_type(all_stores.get(b"b", 7), bytes | int)
        assert_type(all_stores.items(b"a", reverse=True), Iterator[tuple[bytes, bytes]])
        assert_type(list(all_stores), list[bytes])
    assert_type((ranges.link(0, 0), ranges.vacuum_to(ranges.cut)), tuple[Link, Vacuum])
    assert_type(Ranges.restore(division, ranges.checkpoint()), Ranges)

with files.File("store", nodes=2, promise=files.Promise.GROUP) as file:
    assert_type(file.write(b"a", bytearray(b"x"), node=1, reading=5), Stamp)
    assert_type(file.append({b"a": b"x", b"b": None}), Stamp)
    assert_type(file.append([(b"a", b"x"), (b"b", None)], promise=files.Promise.WRITTEN), Stamp)
    with file.batch() as batch:
        batch.write(b"a", memoryview(b"x"))
    assert_type(batch.stamp, Stamp | None)
    assert_type(file.join(), tuple[int, Stamp])
    assert_type(file.vacuum(older_than=timedelta(days=1)), Vacuum)
    assert_type(file.status.created, bool)
    with file.snapshot(at=stamp(5)) as past:
        assert_type(past[b"a"], bytes)
        assert_type(past.get(b"b"), bytes | None)
        assert_type(past.get(b"b", 7), bytes | int)
        assert_type(past.items(start=b"a", reverse=True), Iterator[tuple[bytes, bytes]])
        assert_type(list(past), list[bytes])
        assert_type(past.last_below(), tuple[bytes, bytes] | None)
        assert_type(past.changes(past, end=b"z"), Iterator[tuple[bytes, bytes | None]])
        assert_type(past.digest(b"a"), bytes)
    assert_type(file.versions(b"a", to=file.floor), list[Version])
    assert_type(file.checkpoint_to(io.BytesIO(), tag=3), int)
    assert_type((file.link(0), file.sizes), tuple[Link, Sizes])
try:
    files.File("store")
except files.CannotOpen as cannot:
    assert_type(cannot.sqlite, int)
