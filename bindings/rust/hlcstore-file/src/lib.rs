//! A durable store in one file, which is read as it was at a past stamp.
//!
//! A [`File`] keeps a log and the newest checkpoints of a store in a file of SQLite. A write is on disk before it is
//! visible. A [`Snapshot`] reads the store as it was at a [`Stamp`](hlcstore::Stamp), and a vacuum drops what is too
//! old.
//!
//! ```
//! use hlcstore_file::File;
//!
//! # let folder = std::env::temp_dir().join(format!("hlcstore-{}", std::process::id()));
//! # std::fs::create_dir_all(&folder).unwrap();
//! # std::env::set_current_dir(&folder).unwrap();
//! let file = File::open("towns.hlc")?;
//! let before = file.write(b"capital", b"Lyon")?;
//! file.write(b"capital", b"Paris")?;
//! assert_eq!(file.snapshot_at(before)?.get(b"capital")?.as_deref(), Some(&b"Lyon"[..]));
//! # drop(file);
//! # std::fs::remove_dir_all(&folder).unwrap();
//! # Ok::<(), hlcstore_file::Error>(())
//! ```
//!
//! # Threads
//!
//! A [`File`] is `Send` and `Sync`: share it by a reference or by an `Arc`. Writes wait for each other and for the
//! disk. Reads wait only while a batch is accepted, a snapshot opened or closed, or a part of a vacuum made. After a
//! fork the file is the parent's: in the child it and its snapshots may be dropped, and no other call is made.
//!
//! # The library
//!
//! The crate links with libhlcstore-file and SQLite; `hlcstore-file-sys` says how the library is found.

mod batch;
mod error;
mod file;
mod handle;
mod listing;
mod options;
mod snapshot;
mod status;

pub use batch::Batch;
pub use error::{Error, ErrorKind, Result, Stopped};
pub use file::{File, Writer};
pub use listing::{Changes, Keys, Pairs, PairsBack};
pub use options::{Options, Promise};
pub use snapshot::Snapshot;
pub use status::Status;
