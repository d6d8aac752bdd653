//! One key space over four stores: two machines write, a message goes from one to the other, and all stores are read at
//! one stamp.

use hlcstore::{Division, Item, Ranges, RangesError, RangesSnapshot, Stamp};

fn print_pairs(snapshot: &RangesSnapshot) -> Result<(), RangesError> {
    for pair in snapshot {
        let (key, value) = pair?;
        println!("{}={}", key.escape_ascii(), value.escape_ascii());
    }
    Ok(())
}

fn main() -> Result<(), RangesError> {
    let ranges = Ranges::open(&Division::by_keys(&["g", "n", "t"])?, 2)?;
    let (mut lyon, mut rome) = (ranges.machine(0, Stamp::ZERO)?, ranges.machine(1, Stamp::ZERO)?);

    ranges.write(&mut lyon, 10, "apple", "red")?;
    let message = lyon.send(11)?;
    rome.receive(message, 12)?; // so what Rome writes is above what Lyon wrote, in whatever store
    let pear = ranges.write(&mut rome, 13, "pear", "green")?;
    for (key, value) in [("plum", "blue"), ("quince", "yellow"), ("zucchini", "green")] {
        ranges.write(&mut rome, 13, key, value)?;
    }
    ranges.delete(&mut lyon, 14, "apple")?;
    for machine in [&mut lyon, &mut rome] {
        for (store, report) in machine.report_all(20)? {
            ranges.accept(store, report)?;
        }
    }

    println!("cut {}", ranges.cut()?);
    let (before, now) = (ranges.snapshot_at(pear)?, ranges.snapshot()?);
    print_pairs(&before)?;
    print_pairs(&now)?;
    drop((before, now));

    ranges.vacuum_to(ranges.cut()?)?;
    println!("rows {}", ranges.rows()?);

    let other = Item::write(0, 3, Stamp::new(21, 0), "zucchini", "yellow");
    match ranges.accept(ranges.store_of("apple"), other) {
        Err(RangesError::WrongStore(_)) => println!("refused"),
        answer => panic!("{answer:?}"),
    }
    Ok(())
}
