"""Divides the keys among four stores, to which two machines write, and reads all of them at one cut."""

from hlcstore.ranges import Division, Machine, Ranges, WrongStore


def show(ranges, stamp):
    """Prints all pairs at a stamp, in key order."""
    with ranges.snapshot(stamp) as snapshot:
        for key, value in snapshot.items():
            print(f"{key.decode()}={value.decode()}")


division = Division.by_keys([b"g", b"n", b"t"])
first, other = Machine(division, 0), Machine(division, 1)
with Ranges(division, 2) as ranges:
    # A message orders what its sender wrote before it, and what its receiver writes after it, in whatever stores.
    ranges.write(first, 10, b"apple", b"red")
    message = first.send(11)
    other.receive(message, 12)
    pear = ranges.write(other, 13, b"pear", b"green")
    ranges.write(other, 13, b"plum", b"blue")
    ranges.write(other, 13, b"quince", b"yellow")
    ranges.write(other, 13, b"zucchini", b"green")
    ranges.delete(first, 14, b"apple")

    # Each machine reports to all stores, so that their floors rise.
    ranges.report_all(first, 20)
    ranges.report_all(other, 20)
    cut = ranges.cut
    print("cut", cut)
    show(ranges, pear)
    show(ranges, cut)

    ranges.vacuum_to(cut)
    print("rows", ranges.rows)

    # An item goes to the store of its key alone.
    store, item = first.write(30, b"apple", b"green")
    try:
        ranges.accept(store + 1, item)
    except WrongStore:
        print("refused")
