//! Does the same as `hlcstore run`, in plain Rust with the maps of std: a script on standard input, its replies on
//! standard output. It has no proofs, and running out of memory ends the process. The program is measured against it,
//! so it is as careful with bytes: no list of words for each line, and plain bytes copied whole.
mod columns;

use columns::{answer, points, Column, Columns, Stamp, Vacuumed, Value, Witness};
use std::collections::BTreeMap;
use std::io::{self, BufWriter, Read, Write};

const LIMIT: u64 = 1 << 48;

/// The maximum number of bytes of an input.
const LONGEST: u64 = 16_777_216;

enum Body {
    Write(Vec<u8>, Value),
    Report,
}

struct Item {
    stamp: Stamp,
    body: Body,
}

#[derive(Default)]
struct Node {
    last: Stamp,
    issued: Vec<Item>,
    accepted: u64,
    head: Stamp,
}

enum Refusal {
    Number(u8),
    CounterFull(Stamp),
    NotNext(u64),
    AboveFloor(Stamp),
    BelowHorizon(Stamp),
}

#[derive(Default)]
struct Store {
    columns: Columns,
    rows: u128,
    snapshots: BTreeMap<u64, Stamp>,
    opened: u64,
    horizon: Stamp,
}

struct World {
    nodes: Vec<Node>,
    messages: Vec<Stamp>,
    store: Store,
}

/// Returns the least stamp above the earlier ones and not below the reading.
fn next_stamp(last: Stamp, seen: Stamp, reading: u64) -> Result<Stamp, Refusal> {
    if reading >= LIMIT {
        return Err(Refusal::Number(2));
    }
    let earlier = last.max(seen);
    if reading > earlier >> 16 {
        return Ok(reading << 16);
    }
    if earlier & 0xffff == 0xffff {
        return Err(Refusal::CounterFull(earlier));
    }
    Ok(earlier + 1)
}

impl World {
    fn floor(&self) -> Stamp {
        self.nodes.iter().map(|node| node.head).min().unwrap_or(0)
    }

    fn node(&mut self, node: u16) -> Result<&mut Node, Refusal> {
        self.nodes.get_mut(node as usize).ok_or(Refusal::Number(1))
    }

    fn write(&mut self, node: u16, reading: u64, key: Vec<u8>, value: Value) -> Result<(Stamp, u64), Refusal> {
        let node = self.node(node)?;
        if key.is_empty() || key.len() > 255 {
            return Err(Refusal::Number(12));
        }
        if value.as_ref().is_some_and(|value| value.len() > 65_535) {
            return Err(Refusal::Number(13));
        }
        issue(node, reading, Body::Write(key, value))
    }

    fn deliver(&mut self, node: u16, number: u64) -> Result<Stamp, Refusal> {
        let from = node;
        let node = self.nodes.get_mut(node as usize).ok_or(Refusal::Number(1))?;
        let item = node.issued.get(number as usize).ok_or(Refusal::Number(5))?;
        if number != node.accepted {
            return Err(Refusal::NotNext(node.accepted));
        }
        if let Body::Write(key, value) = &item.body {
            let row = ((item.stamp, from), value.clone());
            match self.store.columns.get_mut(key) {
                Some(column) => {
                    column.insert(row.0, row.1);
                }
                None => {
                    self.store.columns.insert(key.clone(), Column::from([row]));
                }
            }
            self.store.rows += 1;
        }
        node.accepted += 1;
        node.head = item.stamp;
        Ok(item.stamp)
    }
}

fn issue(node: &mut Node, reading: u64, body: Body) -> Result<(Stamp, u64), Refusal> {
    let stamp = next_stamp(node.last, node.last, reading)?;
    node.last = stamp;
    node.issued.push(Item { stamp, body });
    Ok((stamp, node.issued.len() as u64 - 1))
}

struct Report {
    floor: Stamp,
    done: Vacuumed,
}

impl Store {
    fn open(&mut self, stamp: Stamp) -> Result<u64, Refusal> {
        if self.snapshots.len() >= 1024 {
            return Err(Refusal::Number(11));
        }
        self.opened += 1;
        self.snapshots.insert(self.opened, stamp);
        Ok(self.opened)
    }

    fn stamp_of(&self, id: u64) -> Result<Stamp, Refusal> {
        self.snapshots.get(&id).copied().ok_or(Refusal::Number(10))
    }

    fn read(&self, stamp: Stamp, key: &[u8]) -> Option<&[u8]> {
        self.columns.get(key).and_then(|column| answer(column, stamp))
    }

    fn vacuum(&mut self, floor: Stamp) -> Report {
        let done = columns::vacuum(&mut self.columns, &points(&self.snapshots, floor), floor);
        self.rows -= done.dropped;
        self.horizon = floor;
        Report { floor, done }
    }
}

struct Out<W: Write>(BufWriter<W>);

impl<W: Write> Out<W> {
    fn stamp(&mut self, stamp: Stamp) -> io::Result<()> {
        write!(self.0, "{}.{}", stamp >> 16, stamp & 0xffff)
    }

    fn named(&mut self, name: &str, stamp: Stamp) -> io::Result<()> {
        self.0.write_all(name.as_bytes())?;
        self.stamp(stamp)
    }

    fn bytes(&mut self, bytes: &[u8]) -> io::Result<()> {
        if bytes.is_empty() {
            return self.0.write_all(b"%");
        }
        if bytes.iter().all(stands_as_itself) {
            return self.0.write_all(bytes);
        }
        for byte in bytes {
            if stands_as_itself(byte) {
                self.0.write_all(&[*byte])?;
            } else {
                write!(self.0, "%{byte:02X}")?;
            }
        }
        Ok(())
    }

    fn refusal(&mut self, refusal: Refusal) -> io::Result<()> {
        match refusal {
            Refusal::Number(number) => write!(self.0, "refused {number}"),
            Refusal::CounterFull(at) => self.named("refused 3 at ", at),
            Refusal::NotNext(next) => write!(self.0, "refused 6 next {next}"),
            Refusal::AboveFloor(floor) => self.named("refused 8 floor ", floor),
            Refusal::BelowHorizon(horizon) => self.named("refused 9 horizon ", horizon),
        }
    }
}

fn number(word: &[u8]) -> Option<u64> {
    if word.is_empty() || (word[0] == b'0' && word.len() > 1) || !word.iter().all(u8::is_ascii_digit) {
        return None;
    }
    std::str::from_utf8(word).ok()?.parse().ok()
}

fn node(word: &[u8]) -> Option<u16> {
    number(word).and_then(|number| u16::try_from(number).ok())
}

fn stamp(word: &[u8]) -> Option<Stamp> {
    let dot = word.iter().position(|byte| *byte == b'.')?;
    let (l, c) = (number(&word[..dot])?, number(&word[dot + 1..])?);
    (l < LIMIT && c < 65_536).then_some(l << 16 | c)
}

fn digit(byte: u8) -> Option<u8> {
    match byte {
        b'0'..=b'9' => Some(byte - b'0'),
        b'A'..=b'F' => Some(byte - b'A' + 10),
        _ => None,
    }
}

fn stands_as_itself(byte: &u8) -> bool {
    (0x21..=0x7e).contains(byte) && *byte != b'%'
}

fn bytes(word: &[u8]) -> Option<Vec<u8>> {
    if word == b"%" {
        return Some(Vec::new());
    }
    if !word.is_empty() && word.iter().all(stands_as_itself) {
        return Some(word.to_vec());
    }
    let mut bytes = Vec::with_capacity(word.len());
    let mut rest = word;
    while let Some((first, others)) = rest.split_first() {
        if *first != b'%' {
            if !stands_as_itself(first) {
                return None;
            }
            bytes.push(*first);
            rest = others;
            continue;
        }
        let byte = digit(*others.first()?)? << 4 | digit(*others.get(1)?)?;
        if stands_as_itself(&byte) {
            return None;
        }
        bytes.push(byte);
        rest = &others[2..];
    }
    (!word.is_empty()).then_some(bytes)
}

/// Answers a line, or returns false where it is no line of a script.
fn line<W: Write>(world: &mut World, line: &[u8], out: &mut Out<W>) -> io::Result<bool> {
    // No event has more than five words.
    let mut found: [&[u8]; 6] = [b""; 6];
    let mut count = 0;
    for (place, word) in line.split(|byte| *byte == b' ').take(6).enumerate() {
        found[place] = word;
        count = place + 1;
    }
    let done = match &found[..count] {
        [b"write", at, reading, key, value] => match (node(at), number(reading), bytes(key), bytes(value)) {
            (Some(at), Some(reading), Some(key), Some(value)) => {
                stamped(world.write(at, reading, key, Some(value)), out)
            }
            _ => return Ok(false),
        },
        [b"delete", at, reading, key] => match (node(at), number(reading), bytes(key)) {
            (Some(at), Some(reading), Some(key)) => stamped(world.write(at, reading, key, None), out),
            _ => return Ok(false),
        },
        [b"report", at, reading] => match (node(at), number(reading)) {
            (Some(at), Some(reading)) => {
                let made = world.node(at).and_then(|node| issue(node, reading, Body::Report));
                stamped(made, out)
            }
            _ => return Ok(false),
        },
        [b"send", at, reading] => match (node(at), number(reading)) {
            (Some(at), Some(reading)) => {
                let sent = world.node(at).and_then(|node| {
                    let stamp = next_stamp(node.last, node.last, reading)?;
                    node.last = stamp;
                    Ok(stamp)
                });
                match sent {
                    Ok(stamp) => {
                        world.messages.push(stamp);
                        out.named("stamp ", stamp)?;
                        write!(out.0, " message {}", world.messages.len() - 1)
                    }
                    Err(refusal) => out.refusal(refusal),
                }
            }
            _ => return Ok(false),
        },
        [b"receive", at, reading, message] => match (node(at), number(reading), number(message)) {
            (Some(at), Some(reading), Some(message)) => {
                let seen = world.messages.get(message as usize).copied();
                seen_by(world, at, reading, seen.ok_or(Refusal::Number(4)), out)
            }
            _ => return Ok(false),
        },
        [b"observe", at, reading, id] => match (node(at), number(reading), number(id)) {
            (Some(at), Some(reading), Some(id)) => {
                let seen = world.store.stamp_of(id);
                seen_by(world, at, reading, seen, out)
            }
            _ => return Ok(false),
        },
        [b"deliver", at, item] => match (node(at), number(item)) {
            (Some(at), Some(item)) => match world.deliver(at, item) {
                Ok(stamp) => out.named("accepted ", stamp),
                Err(refusal) => out.refusal(refusal),
            },
            _ => return Ok(false),
        },
        [b"open", b"floor"] => {
            let floor = world.floor();
            opened(world.store.open(floor), floor, out)
        }
        [b"open", at] => match stamp(at) {
            Some(at) => {
                let floor = world.floor();
                let made = if at > floor {
                    Err(Refusal::AboveFloor(floor))
                } else if at < world.store.horizon {
                    Err(Refusal::BelowHorizon(world.store.horizon))
                } else {
                    world.store.open(at)
                };
                opened(made, at, out)
            }
            None => return Ok(false),
        },
        [b"read", id, key] => match (number(id), bytes(key)) {
            (Some(id), Some(key)) => match world.store.stamp_of(id) {
                Ok(stamp) => match world.store.read(stamp, &key) {
                    Some(value) => {
                        out.0.write_all(b"value ")?;
                        out.bytes(value)
                    }
                    None => out.0.write_all(b"none"),
                },
                Err(refusal) => out.refusal(refusal),
            },
            _ => return Ok(false),
        },
        [b"list", id] => match number(id) {
            Some(id) => match world.store.stamp_of(id) {
                Ok(stamp) => listing(&world.store, stamp, out),
                Err(refusal) => out.refusal(refusal),
            },
            None => return Ok(false),
        },
        [b"close", id] => match number(id) {
            Some(id) => match world.store.snapshots.remove(&id) {
                Some(stamp) => out.named("closed ", stamp),
                None => out.refusal(Refusal::Number(10)),
            },
            None => return Ok(false),
        },
        [b"floor"] => out.named("floor ", world.floor()),
        [b"vacuum"] => {
            let floor = world.floor();
            let report = world.store.vacuum(floor);
            vacuumed(&report, out)
        }
        [b"rows"] => write!(out.0, "rows {}", world.store.rows),
        _ => return Ok(false),
    };
    done?;
    out.0.write_all(b"\n")?;
    Ok(true)
}

fn stamped<W: Write>(made: Result<(Stamp, u64), Refusal>, out: &mut Out<W>) -> io::Result<()> {
    match made {
        Ok((stamp, number)) => {
            out.named("stamp ", stamp)?;
            write!(out.0, " item {number}")
        }
        Err(refusal) => out.refusal(refusal),
    }
}

fn seen_by<W: Write>(
    world: &mut World,
    at: u16,
    reading: u64,
    seen: Result<Stamp, Refusal>,
    out: &mut Out<W>,
) -> io::Result<()> {
    let made = world.node(at).and_then(|node| {
        let stamp = next_stamp(node.last, seen?, reading)?;
        node.last = stamp;
        Ok(stamp)
    });
    match made {
        Ok(stamp) => out.named("stamp ", stamp),
        Err(refusal) => out.refusal(refusal),
    }
}

fn opened<W: Write>(made: Result<u64, Refusal>, at: Stamp, out: &mut Out<W>) -> io::Result<()> {
    match made {
        Ok(id) => {
            write!(out.0, "snapshot {id}")?;
            out.named(" at ", at)
        }
        Err(refusal) => out.refusal(refusal),
    }
}

fn listing<W: Write>(store: &Store, stamp: Stamp, out: &mut Out<W>) -> io::Result<()> {
    let pairs: Vec<(&[u8], &[u8])> = store
        .columns
        .iter()
        .filter_map(|(key, column)| answer(column, stamp).map(|value| (key.as_slice(), value)))
        .collect();
    write!(out.0, "listing {}", pairs.len())?;
    for (key, value) in pairs {
        out.0.write_all(b"\nrow ")?;
        out.bytes(key)?;
        out.0.write_all(b" ")?;
        out.bytes(value)?;
    }
    Ok(())
}

fn vacuumed<W: Write>(report: &Report, out: &mut Out<W>) -> io::Result<()> {
    out.named("vacuum ", report.floor)?;
    let Vacuumed { witnesses, bytes, dropped } = &report.done;
    write!(out.0, " kept {} dropped {dropped} bytes {bytes}", witnesses.len())?;
    for Witness { key, before, at } in witnesses {
        out.0.write_all(b"\nwitness ")?;
        out.bytes(key)?;
        match before {
            None => out.0.write_all(b" none")?,
            Some(before) => out.named(" ", *before)?,
        }
        out.named(" ", *at)?;
    }
    Ok(())
}

fn main() -> io::Result<()> {
    let mut input = Vec::new();
    io::stdin().lock().take(LONGEST + 1).read_to_end(&mut input)?;
    let mut out = Out(BufWriter::with_capacity(8192, io::stdout().lock()));
    if input.len() as u64 > LONGEST {
        out.0.write_all(b"refused 20\n")?;
        out.0.flush()?;
        std::process::exit(2);
    }
    let text = input.strip_suffix(b"\n").unwrap_or(&input);
    let mut lines = text.split(|byte| *byte == b'\n');
    let header = lines.next().and_then(|line| number(line.strip_prefix(b"nodes ")?));
    let Some(count @ 1..=64) = header else {
        out.0.write_all(b"refused 17\n")?;
        out.0.flush()?;
        std::process::exit(2);
    };
    writeln!(out.0, "nodes {count}")?;
    let mut world = World {
        nodes: (0..count).map(|_| Node::default()).collect(),
        messages: Vec::new(),
        store: Store::default(),
    };
    for (place, text) in lines.enumerate() {
        if !line(&mut world, text, &mut out)? {
            writeln!(out.0, "refused 16 line {}", place + 2)?;
            out.0.flush()?;
            std::process::exit(2);
        }
    }
    out.0.flush()
}
