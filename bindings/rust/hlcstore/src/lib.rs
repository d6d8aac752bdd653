//! A proved in-memory multi-version store that several nodes feed, and the nodes' clocks.
//!
//! Nodes issue [`Item`]s: writes, deletions, batches of both and reports, each with a [`Stamp`] of a hybrid logical
//! clock. A store accepts them in any order of the nodes. Its floor (closed timestamp) is the stamp up to which all
//! items are there. A [`Snapshot`] reads the store as it was at a stamp, and returns the same answers whatever is
//! accepted later; of a [`Batch`] it shows all writes or none. A vacuum drops the rows that no snapshot needs, and a
//! certificate shows that those which are left are the fewest and cheapest.
//!
//! ```
//! use hlcstore::{Node, Stamp, Store};
//!
//! let store = Store::open(2)?;
//! let (mut lyon, mut rome) = (Node::new(0, Stamp::ZERO), Node::new(1, Stamp::ZERO));
//! store.accept(lyon.write(10, b"river", b"Rhone")?)?;
//! store.accept(rome.report(12)?)?;
//! assert_eq!(store.floor()?, Stamp::new(10, 0));
//!
//! let snapshot = store.snapshot()?;
//! store.accept(rome.write(15, b"river", b"Tiber")?)?;
//! store.accept(lyon.report(20)?)?;
//! assert_eq!(snapshot.get(b"river")?.as_deref(), Some(&b"Rhone"[..]));
//! assert_eq!(store.snapshot()?.get(b"river")?.as_deref(), Some(&b"Tiber"[..]));
//! # Ok::<(), hlcstore::Error>(())
//! ```
//!
//! # Threads
//!
//! A [`Store`] is for one thread at a time: it is `Send`, and not `Sync`. A [`SharedStore`] is `Send` and `Sync`, and
//! its clones are the same store: a call that changes it runs alone, and calls that only ask run beside each other.
//!
//! [`Ranges`] divides one key space among several shared stores, so that threads wait less for each other, and reads
//! all of them at one stamp. Each [`Machine`] feeds them with one clock.
//!
//! # Memory
//!
//! Keys and values are copied into the store. A call for which there is no memory returns an [`Error`] of the kind
//! `NoMemory`, and the store is as it was before.
//!
//! # The library
//!
//! The crate links with the C library; `hlcstore-sys` says how it is found. `docs/` of its repository describes what is
//! proved, and the formats of items, checkpoints, increments and certificates.

mod batch;
mod buffer;
mod division;
mod error;
mod handle;
mod item;
mod listing;
mod machine;
mod node;
mod output;
mod range;
mod ranges;
mod ranges_error;
mod ranges_snapshot;
mod record;
mod restoring;
mod saving;
mod shared;
mod slots;
mod snapshot;
mod stamp;
mod store;
mod vacuum;
mod version;

pub use batch::{Batch, Writes, WritesIter};
pub use division::Division;
pub use error::{Error, ErrorKind, Result, Stopped, error_name, error_text};
pub use item::{Content, Item, OwnedContent, OwnedItem};
pub use listing::{ChangePage, Changes, KeyPage, Keys, Page, Pairs, PairsBack};
pub use machine::Machine;
pub use node::Node;
pub use output::{apply_increment, merge_checkpoints, split_checkpoint};
pub use range::{KeyRange, Prefix};
pub use ranges::Ranges;
pub use ranges_error::RangesError;
pub use ranges_snapshot::{RangesPairs, RangesSnapshot};
pub use record::{Applied, Record};
pub use restoring::Restoring;
pub use saving::SaveError;
pub use shared::SharedStore;
pub use snapshot::{Access, OpenSnapshot, Snapshot};
pub use stamp::{ParseStampError, Stamp, StampTimeError};
pub use store::{Link, Sizes, Store};
pub use vacuum::{Certified, Checked, VacuumPart, Vacuumed, check_certificate};
pub use version::Version;

/// Returns the version of the C library: 10,000 times its first number, 100 times the second, and the third.
pub fn version() -> u32 {
    hlcstore_sys::hlc_version()
}
