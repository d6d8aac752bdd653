//! The C library of hlcstore as its header, `include/hlcstore.h`, has it. The header describes each call, and what the
//! caller must ensure. The crate `hlcstore` has safe types for the same calls.
//!
//! `build.rs` says where the library is looked for.
#![no_std]
#![allow(non_camel_case_types)]

mod header;

pub use header::*;

/// A store before it is opened.
pub const HLC_CLOSED_STORE: hlc_store = hlc_store { at: core::ptr::null_mut(), live: false };

/// An output that has no bytes.
pub const HLC_NO_OUTPUT: hlc_output = hlc_output { at: core::ptr::null_mut(), live: false };

/// A restore before it is started.
pub const HLC_NO_RESTORING: hlc_restoring = hlc_restoring { at: core::ptr::null_mut(), live: false };

/// A saving before it is started.
pub const HLC_NO_SAVING: hlc_saving = hlc_saving { at: core::ptr::null_mut(), live: false };
