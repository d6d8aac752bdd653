//! Does the same as `hlcstore storm`, in plain Rust with the maps of std: as many threads, links by `sync_channel(8)`,
//! one mutex around the core and the trail, a board of atomic words, receipts compared with the trail at the end, and
//! the same printed lines. It has no proofs, and running out of memory ends the process. The program's storm is
//! measured against it.
mod columns;

use columns::{answer, points, Column, Columns, Stamp, Vacuumed, Value};
use std::collections::BTreeMap;
use std::io::{self, BufWriter, Write};
use std::process::exit;
use std::sync::atomic::{AtomicU64, Ordering};
use std::sync::mpsc::{sync_channel, Receiver, SyncSender};
use std::sync::Mutex;
use std::thread;

const LIMIT: u64 = 1 << 48;
const ROUNDS: usize = 16;
const MOST_SNAPSHOTS: usize = 1024;

type Bytes = Vec<u8>;

#[derive(Clone, PartialEq)]
enum Body {
    Write { key: Bytes, value: Value },
    Report,
}

#[derive(Clone, PartialEq)]
struct Item {
    node: u16,
    number: u64,
    stamp: Stamp,
    body: Body,
}

enum Parcel {
    Item(Item),
    End,
}

#[derive(Clone, PartialEq)]
enum Event {
    Accept(Item),
    OpenAt(Stamp),
    OpenFloor,
    Read { id: u64, key: Bytes },
    Close(u64),
    Vacuum,
}

#[derive(Clone, PartialEq)]
struct Report {
    floor: Stamp,
    points: Vec<Stamp>,
    kept: u64,
    done: Vacuumed,
}

#[derive(Clone, Copy, PartialEq)]
enum Fault {
    NoNode,
    NotNext(u64),
    NumbersSpent,
    StampNotRising(Stamp),
    BadKey,
    ValueTooLong,
    AboveFloor(Stamp),
    BelowHorizon(Stamp),
    TooManySnapshots,
    NoSnapshot,
}

#[derive(Clone, PartialEq)]
enum Reply {
    Accepted { node: u16, stamp: Stamp },
    Opened { id: u64, stamp: Stamp },
    Answer(Value),
    Closed(Stamp),
    Vacuumed(Report),
    Refused(Fault),
}

/// The next number of a node's link, and the stamp that was accepted last.
#[derive(Clone, Copy, Default)]
struct Intake {
    next: u64,
    head: Stamp,
}

struct Core {
    nodes: Vec<Intake>,
    columns: Columns,
    snapshots: BTreeMap<u64, Stamp>,
    opened: u64,
    horizon: Stamp,
}

impl Core {
    fn floor(&self) -> Stamp {
        self.nodes.iter().map(|node| node.head).min().unwrap_or(0)
    }

    fn step(&mut self, event: &Event) -> Reply {
        let reply = match event {
            Event::Accept(item) => self.accept(item),
            Event::OpenAt(stamp) => self.open_at(*stamp),
            Event::OpenFloor => self.open(self.floor()),
            Event::Read { id, key } => self.read(*id, key),
            Event::Close(id) => self.snapshots.remove(id).map(Reply::Closed).ok_or(Fault::NoSnapshot),
            Event::Vacuum => Ok(Reply::Vacuumed(self.vacuum())),
        };
        reply.unwrap_or_else(Reply::Refused)
    }

    fn accept(&mut self, item: &Item) -> Result<Reply, Fault> {
        let node = self.nodes.get_mut(item.node as usize).ok_or(Fault::NoNode)?;
        if item.number != node.next {
            return Err(Fault::NotNext(node.next));
        }
        if item.number == u64::MAX {
            return Err(Fault::NumbersSpent);
        }
        if item.stamp <= node.head {
            return Err(Fault::StampNotRising(node.head));
        }
        if let Body::Write { key, value } = &item.body {
            if key.is_empty() || key.len() > 255 {
                return Err(Fault::BadKey);
            }
            if value.as_ref().is_some_and(|value| value.len() > 65_535) {
                return Err(Fault::ValueTooLong);
            }
            let place = (item.stamp, item.node);
            match self.columns.get_mut(key) {
                Some(column) => {
                    column.insert(place, value.clone());
                }
                None => {
                    self.columns.insert(key.clone(), Column::from([(place, value.clone())]));
                }
            }
        }
        node.next += 1;
        node.head = item.stamp;
        Ok(Reply::Accepted { node: item.node, stamp: item.stamp })
    }

    fn open_at(&mut self, stamp: Stamp) -> Result<Reply, Fault> {
        let floor = self.floor();
        if stamp > floor {
            return Err(Fault::AboveFloor(floor));
        }
        if stamp < self.horizon {
            return Err(Fault::BelowHorizon(self.horizon));
        }
        self.open(stamp)
    }

    fn open(&mut self, stamp: Stamp) -> Result<Reply, Fault> {
        if self.snapshots.len() >= MOST_SNAPSHOTS {
            return Err(Fault::TooManySnapshots);
        }
        self.opened += 1;
        self.snapshots.insert(self.opened, stamp);
        Ok(Reply::Opened { id: self.opened, stamp })
    }

    fn read(&self, id: u64, key: &[u8]) -> Result<Reply, Fault> {
        let stamp = *self.snapshots.get(&id).ok_or(Fault::NoSnapshot)?;
        Ok(Reply::Answer(self.columns.get(key).and_then(|column| answer(column, stamp)).map(<[u8]>::to_vec)))
    }

    fn vacuum(&mut self) -> Report {
        let floor = self.floor();
        let points = points(&self.snapshots, floor);
        let done = columns::vacuum(&mut self.columns, &points, floor);
        self.horizon = floor;
        Report { floor, points, kept: done.witnesses.len() as u64, done }
    }
}

struct Entry {
    caller: u16,
    event: Event,
    reply: Reply,
}

struct Receipt {
    caller: u16,
    number: u64,
    event: Event,
    reply: Reply,
}

/// What the lock protects.
struct Guarded {
    core: Core,
    trail: Vec<Entry>,
}

/// A store that threads share.
struct Shared(Mutex<Guarded>);

impl Shared {
    fn call(&self, caller: u16, event: Event) -> Receipt {
        let mut guarded = self.0.lock().unwrap();
        let reply = guarded.core.step(&event);
        let number = guarded.trail.len() as u64;
        guarded.trail.push(Entry { caller, event: event.clone(), reply: reply.clone() });
        drop(guarded);
        Receipt { caller, number, event, reply }
    }

    /// Returns the core, if the receipts are those of the trail, each once; otherwise the place of the first bad one.
    fn settle(self, lists: &[(u16, Vec<Receipt>)]) -> Result<Core, u64> {
        let Guarded { core, trail } = self.0.into_inner().unwrap();
        let (mut last, mut count) = (None, 0);
        for (by, receipts) in lists {
            for receipt in receipts {
                let is_in_trail = trail.get(receipt.number as usize).is_some_and(|entry| {
                    entry.caller == receipt.caller && entry.event == receipt.event && entry.reply == receipt.reply
                });
                let key = Some((receipt.caller, receipt.number));
                if !is_in_trail || receipt.caller != *by || key <= last {
                    return Err(count);
                }
                last = key;
                count += 1;
            }
        }
        if count == trail.len() as u64 { Ok(core) } else { Err(count) }
    }
}

/// One word for each node: the stamp of an item that was accepted.
struct Board(Vec<AtomicU64>);

impl Board {
    fn floor(&self) -> Stamp {
        self.0.iter().map(|word| word.load(Ordering::Acquire)).min().unwrap_or(0)
    }
}

/// Returns the stamp after this one at a reading, or none where there is none.
fn next_stamp(last: Stamp, reading: u64) -> Option<Stamp> {
    if reading >= LIMIT {
        return None;
    }
    if reading > last >> 16 {
        return Some(reading << 16);
    }
    (last & 0xffff != 0xffff).then_some(last + 1)
}

fn key_of(number: u64) -> Bytes {
    format!("k{number}").into_bytes()
}

/// Issues the writes of a node and puts each on its link, then a report, and then the end.
fn write_all(link: &SyncSender<Parcel>, node: u16, plan: Plan) -> Option<()> {
    let mut stamp = 0;
    for number in 0..plan.writes {
        stamp = next_stamp(stamp, number + 1)?;
        let value = format!("{node}.{number}").into_bytes();
        let body = Body::Write { key: key_of(number % plan.keys), value: Some(value) };
        link.send(Parcel::Item(Item { node, number, stamp, body })).ok()?;
    }
    stamp = next_stamp(stamp, plan.writes + 1)?;
    link.send(Parcel::Item(Item { node, number: plan.writes, stamp, body: Body::Report })).ok()?;
    link.send(Parcel::End).ok()
}

/// Passes what comes over a link to the store, and raises the board with what was accepted.
fn feed(store: &Shared, caller: u16, link: &Receiver<Parcel>, board: &Board, node: u16) -> Option<Vec<Receipt>> {
    let mut receipts = Vec::new();
    let mut raised = 0;
    while let Parcel::Item(item) = link.recv().ok()? {
        let receipt = store.call(caller, Event::Accept(item));
        if let Reply::Accepted { node: of, stamp } = receipt.reply {
            if of == node && raised < stamp {
                board.0[node as usize].store(stamp, Ordering::Release);
                raised = stamp;
            }
        }
        receipts.push(receipt);
    }
    Some(receipts)
}

/// Makes the rounds of a reader.
fn read_all(store: &Shared, caller: u16, board: &Board, keys: &[Bytes]) -> Vec<Receipt> {
    let mut receipts = Vec::new();
    for _ in 0..ROUNDS {
        let mut opening = store.call(caller, Event::OpenAt(board.floor()));
        if let Reply::Refused(Fault::BelowHorizon(_)) = opening.reply {
            receipts.push(opening);
            opening = store.call(caller, Event::OpenFloor);
        }
        let opened = if let Reply::Opened { id, .. } = opening.reply { Some(id) } else { None };
        receipts.push(opening);
        let Some(id) = opened else {
            continue;
        };
        for key in keys {
            receipts.push(store.call(caller, Event::Read { id, key: key.clone() }));
        }
        receipts.push(store.call(caller, Event::Close(id)));
    }
    receipts
}

#[derive(Clone, Copy)]
struct Plan {
    nodes: u16,
    writes: u64,
    keys: u64,
    readers: u16,
}

/// Runs all threads, and returns the receipts by caller: feeders by node, readers, the vacuum; or none where a worker
/// did not do all its work.
fn run_all(store: &Shared, plan: Plan) -> Option<Vec<(u16, Vec<Receipt>)>> {
    let board = Board((0..plan.nodes).map(|_| AtomicU64::new(0)).collect());
    let keys: Vec<Bytes> = (0..plan.keys).map(key_of).collect();
    let (board, keys) = (&board, &keys[..]);
    thread::scope(|scope| {
        let last = plan.nodes + plan.readers;
        let vacuum =
            scope.spawn(move || (0..ROUNDS).map(|_| store.call(last, Event::Vacuum)).collect::<Vec<Receipt>>());
        let readers: Vec<_> = (plan.nodes..last)
            .map(|caller| (caller, scope.spawn(move || read_all(store, caller, board, keys))))
            .collect();
        let mut writers = Vec::new();
        let mut feeders = Vec::new();
        for node in 0..plan.nodes {
            let (sender, receiver) = sync_channel(8);
            writers.push(scope.spawn(move || write_all(&sender, node, plan)));
            feeders.push((node, scope.spawn(move || feed(store, node, &receiver, board, node))));
        }
        for writer in writers {
            writer.join().unwrap()?;
        }
        let mut lists = Vec::new();
        for (node, feeder) in feeders {
            lists.push((node, feeder.join().unwrap()?));
        }
        for (caller, reader) in readers {
            lists.push((caller, reader.join().unwrap()));
        }
        lists.push((last, vacuum.join().unwrap()));
        Some(lists)
    })
}

fn stand_as_themselves(bytes: &[u8]) -> bool {
    !bytes.is_empty() && bytes.iter().all(|byte| (0x21..=0x7e).contains(byte) && *byte != b'%')
}

fn put_bytes(out: &mut impl Write, bytes: &[u8]) -> io::Result<()> {
    if bytes.is_empty() {
        return out.write_all(b"%");
    }
    if stand_as_themselves(bytes) {
        return out.write_all(bytes);
    }
    for byte in bytes {
        if stand_as_themselves(&[*byte]) {
            out.write_all(&[*byte])?;
        } else {
            write!(out, "%{byte:02X}")?;
        }
    }
    Ok(())
}

/// Prints the report of the settled core: the counts, the floor (closed timestamp), the pairs at the floor, and how
/// many rows a last vacuum keeps.
fn put_report(out: &mut impl Write, mut core: Core) -> io::Result<()> {
    for (node, intake) in core.nodes.iter().enumerate() {
        writeln!(out, "accepted {node} {}", intake.next)?;
    }
    let floor = core.floor();
    writeln!(out, "floor {}.{}", floor >> 16, floor & 0xffff)?;
    for (key, column) in &core.columns {
        if let Some(value) = answer(column, floor) {
            put_bytes(out, key)?;
            out.write_all(b" ")?;
            put_bytes(out, value)?;
            out.write_all(b"\n")?;
        }
    }
    writeln!(out, "kept {}\nhistory legal", core.vacuum().kept)
}

/// Returns a number in its only spelling, in a range.
fn number(word: &str, least: u64, most: u64) -> Option<u64> {
    let digits = !word.is_empty() && word.bytes().all(|byte| byte.is_ascii_digit());
    let one_spelling = word == "0" || !word.starts_with('0');
    let number = if digits && one_spelling { word.parse().ok()? } else { return None };
    (least..=most).contains(&number).then_some(number)
}

fn plan_of(words: &[&str]) -> Option<Plan> {
    let ["storm", "--nodes", nodes, "--writes", writes, "--keys", keys, "--readers", readers] = words else {
        return None;
    };
    Some(Plan {
        nodes: number(nodes, 1, 64)? as u16,
        writes: number(writes, 0, 1000)?,
        keys: number(keys, 1, 1000)?,
        readers: number(readers, 0, 64)? as u16,
    })
}

fn main() -> io::Result<()> {
    let words: Vec<String> = std::env::args().skip(1).collect();
    let words: Vec<&str> = words.iter().map(String::as_str).collect();
    let mut out = BufWriter::new(io::stdout().lock());
    let Some(plan) = plan_of(&words) else {
        writeln!(out, "refused 25")?;
        out.flush()?;
        exit(1);
    };
    let core = Core {
        nodes: vec![Intake::default(); plan.nodes as usize],
        columns: BTreeMap::new(),
        snapshots: BTreeMap::new(),
        opened: 0,
        horizon: 0,
    };
    let store = Shared(Mutex::new(Guarded { core, trail: Vec::new() }));
    let Some(lists) = run_all(&store, plan) else {
        writeln!(out, "refused 23")?;
        out.flush()?;
        exit(2);
    };
    match store.settle(&lists) {
        Ok(core) => {
            drop(lists);
            put_report(&mut out, core)?;
            out.flush()
        }
        Err(index) => {
            writeln!(out, "refused 21 index {index}")?;
            out.flush()?;
            exit(2);
        }
    }
}
