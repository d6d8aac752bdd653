//! The versions of each key in plain Rust with the maps of std, how one is read, and a vacuum of them.
use std::collections::BTreeMap;

/// A stamp as its word: the physical part times 65,536 and the counter.
pub type Stamp = u64;

pub type Value = Option<Vec<u8>>;

/// The versions of one key, by stamp and node.
pub type Column = BTreeMap<(Stamp, u16), Value>;

pub type Columns = BTreeMap<Vec<u8>, Column>;

/// A key whose answer at a point differs from that at the point before it, if there is one.
#[derive(Clone, PartialEq)]
pub struct Witness {
    pub key: Vec<u8>,
    pub before: Option<Stamp>,
    pub at: Stamp,
}

pub fn answer(column: &Column, bound: Stamp) -> Option<&[u8]> {
    column.range(..=(bound, u16::MAX)).next_back().and_then(|(_, value)| value.as_deref())
}

/// Returns the stamps of the open snapshots and the floor (closed timestamp), in order, each once.
pub fn points(snapshots: &BTreeMap<u64, Stamp>, floor: Stamp) -> Vec<Stamp> {
    let mut points: Vec<Stamp> = snapshots.values().copied().collect();
    points.push(floor);
    points.sort_unstable();
    points.dedup();
    points
}

/// What a vacuum did: the changes, the bytes of the versions that answer there, and how many versions were dropped.
#[derive(Clone, Default, PartialEq)]
pub struct Vacuumed {
    pub witnesses: Vec<Witness>,
    pub bytes: u128,
    pub dropped: u128,
}

/// Keeps the newest version at each change, and all above the floor.
pub fn vacuum(columns: &mut Columns, points: &[Stamp], floor: Stamp) -> Vacuumed {
    let mut done = Vacuumed::default();
    columns.retain(|key, column| {
        let mut keep = Vec::new();
        let mut last: Option<&[u8]> = None;
        let mut before = None;
        for &point in points {
            let newest = column.range(..=(point, u16::MAX)).next_back();
            let now = newest.and_then(|(_, value)| value.as_deref());
            if now != last {
                done.witnesses.push(Witness { key: key.clone(), before, at: point });
                done.bytes += (key.len() + now.map_or(0, <[u8]>::len) + 10) as u128;
                if let Some((place, _)) = newest {
                    keep.push(*place);
                }
                last = now;
            }
            before = Some(point);
        }
        let had = column.len();
        column.retain(|place, _| place.0 > floor || keep.binary_search(place).is_ok());
        done.dropped += (had - column.len()) as u128;
        !column.is_empty()
    });
    done
}
