//! The program of main.c in Rust.

use hlcstore::Stamp;
use hlcstore_file::{Batch, File, Promise, Result};

const STEPS: u64 = 5;
const LAST_COUNTER: u16 = 3;
const LONG_STEP: usize = 10_000;
const LONG_KEY: &[u8] = &[0, 255];

fn write_step(file: &File, step: &str, name: &str, old: &str) -> Result<()> {
    let number: u16 = step.parse().expect("a step is a number");
    let mut batch = Batch::new()?;
    batch.write(b"who", name.as_bytes())?;
    batch.write(name.as_bytes(), step.as_bytes())?;
    batch.delete(old.as_bytes())?;
    batch.write(LONG_KEY, vec![b'v'; LONG_STEP * usize::from(number)])?;
    file.node(0).at(10 * u64::from(number)).append(&mut batch, Promise::Default)?;
    Ok(())
}

fn print_step(file: &File, step: u64) -> Result<()> {
    let snapshot = file.snapshot_at(Stamp::new(10 * step, LAST_COUNTER))?;
    print!("{}: ", snapshot.stamp());
    for pair in snapshot.range("a"..) {
        let (key, value) = pair?;
        print!("{}={} ", key.escape_ascii(), value.escape_ascii());
    }
    println!("long={}", snapshot.get(LONG_KEY)?.map_or(0, |value| value.len()));
    Ok(())
}

fn print_steps(file: &File) -> Result<()> {
    (1..=STEPS).try_for_each(|step| print_step(file, step))?;
    if let Some(floor) = file.snapshot_at(Stamp::new(10 * (STEPS + 1), 0)).err().and_then(|refused| refused.stamp()) {
        println!("refused above {floor}");
    }
    Ok(())
}

fn main() -> Result<()> {
    let words: Vec<_> = std::env::args().collect();
    let file = File::open(&words[2])?;
    match &words[3..] {
        [step, name, old] => write_step(&file, step, name, old)?,
        _ => print_steps(&file)?,
    }
    file.close()
}
