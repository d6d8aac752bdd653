//! The C library of stores in a file as its header, `bindings/file/hlcstore_file.h`, has it. The header describes each
//! call, and what the caller must ensure. The crate `hlcstore-file` has safe types for the same calls.
//!
//! `build.rs` says where the library is looked for.
#![no_std]
#![allow(non_camel_case_types)]

mod header;

pub use header::*;
