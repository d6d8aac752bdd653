//! Prices in a file: each day is a batch at one stamp, a past day is read as it was, and days that are too old go away.
//!
//! The readings are days in place of milliseconds, so that the program prints the same whenever it runs.

use hlcstore::Stamp;
use hlcstore_file::{Batch, ErrorKind, File, Options, Promise, Result};
use std::path::Path;
use std::{env, fs, process};

/// The prices that change on each day, none where a thing is sold no more.
const DAYS: [&[(&str, Option<&str>)]; 3] = [
    &[("bread", Some("1.10")), ("milk", Some("0.90"))],
    &[("bread", Some("1.20"))],
    &[("milk", None), ("salt", Some("0.40"))],
];

/// Writes the days, and returns the stamp at the end of each.
fn write_days(path: &Path) -> Result<Vec<Stamp>> {
    let file = File::open(path)?;
    let mut batch = Batch::new()?;
    let mut ends = Vec::new();
    for (day, prices) in (1..).zip(DAYS) {
        for (thing, price) in prices {
            match price {
                Some(price) => batch.write(thing.as_bytes(), price.as_bytes())?,
                None => batch.delete(thing.as_bytes())?,
            }
        }
        ends.push(file.node(0).at(day).write_batch(&mut batch, Promise::Default)?);
    }
    file.close()?;
    Ok(ends)
}

/// The prices at the end of a day, as one text.
fn prices_at(file: &File, end: Stamp) -> Result<String> {
    let snapshot = file.snapshot_at(end)?;
    let mut text = String::new();
    for pair in &snapshot {
        let (thing, price) = pair?;
        text += &format!("{} {} ", thing.escape_ascii(), price.escape_ascii());
    }
    Ok(text)
}

/// Reads each day in the file, which is opened again.
fn read_days(path: &Path, ends: &[Stamp]) -> Result<()> {
    let file = Options::new().must_exist().open(path)?;
    assert_eq!(prices_at(&file, ends[0])?, "bread 1.10 milk 0.90 ");
    assert_eq!(prices_at(&file, ends[1])?, "bread 1.20 milk 0.90 ");
    assert_eq!(prices_at(&file, ends[2])?, "bread 1.20 salt 0.40 ");
    Ok(())
}

/// Vacuums to the second day: only the first price of bread was for the first day alone.
fn forget_first_day(path: &Path, ends: &[Stamp]) -> Result<()> {
    let file = File::open(path)?;
    assert_eq!(file.vacuum_to(ends[1])?.dropped, 1);
    assert_eq!(prices_at(&file, ends[1])?, "bread 1.20 milk 0.90 ");
    let refused = file.snapshot_at(ends[0]).unwrap_err();
    assert_eq!(refused.kind(), ErrorKind::Store(hlcstore::ErrorKind::BelowHorizon));
    Ok(())
}

fn main() -> std::result::Result<(), Box<dyn std::error::Error>> {
    let folder = env::temp_dir().join(format!("hlcstore-prices-{}", process::id()));
    fs::create_dir(&folder)?;
    let path = folder.join("prices.hlc");
    let ends = write_days(&path)?;
    read_days(&path, &ends)?;
    forget_first_day(&path, &ends)?;
    fs::remove_dir_all(&folder)?;
    println!("all right");
    Ok(())
}
