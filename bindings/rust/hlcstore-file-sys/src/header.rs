// Made from bindings/file/hlcstore_file.h by bindings/rust/declare. Change the header, and run that again.

use core::ffi::c_char;
use hlcstore_sys::{hlc_output, hlc_store};

pub const HLC_FILE_VERSION: &str = "0.2.0";
pub const HLC_FILE_BATCH_BYTES: usize = 64 << 20;
pub const HLC_FILE_NOW: u64 = u64::MAX;

pub const HLC_FILE_IN_USE: u32 = 200;
pub const HLC_FILE_CANNOT_OPEN: u32 = 201;
pub const HLC_FILE_NOT_OURS: u32 = 202;
pub const HLC_FILE_NEWER: u32 = 203;
pub const HLC_FILE_BAD_OPTION: u32 = 204;
pub const HLC_FILE_FULL: u32 = 205;
pub const HLC_FILE_IO: u32 = 206;
pub const HLC_FILE_CORRUPT: u32 = 207;
pub const HLC_FILE_DAMAGED_LOG: u32 = 208;
pub const HLC_FILE_NO_CHECKPOINT: u32 = 209;
pub const HLC_FILE_UNKNOWN: u32 = 210;
pub const HLC_FILE_SEALED: u32 = 211;
pub const HLC_FILE_LATER: u32 = 212;
pub const HLC_FILE_TOO_LONG: u32 = 213;
pub const HLC_FILE_NO_STAMP: u32 = 214;
pub const HLC_FILE_DEFAULT: u32 = 0;
pub const HLC_FILE_SYNCED: u32 = 1;
pub const HLC_FILE_GROUP: u32 = 2;
pub const HLC_FILE_WRITTEN: u32 = 3;
pub const HLC_FILE_MUST_EXIST: u32 = 1;
pub const HLC_FILE_KEEP_BEFORE_DAMAGE: u32 = 2;

#[repr(C)]
#[derive(Debug)]
pub struct hlc_file {
    opaque: [u8; 0],
}

#[repr(C)]
#[derive(Debug)]
pub struct hlc_file_batch {
    opaque: [u8; 0],
}

#[repr(C)]
#[derive(Clone, Copy, Debug, Default, PartialEq, Eq)]
pub struct hlc_file_options {
    pub size: usize,
    pub flags: u32,
    pub nodes: u32,
    pub promise: u32,
    pub group_microseconds: u32,
    pub checkpoint_bytes: u64,
}

#[repr(C)]
#[derive(Clone, Copy, Debug, Default, PartialEq, Eq)]
pub struct hlc_file_state {
    pub size: usize,
    pub failure: u32,
    pub sqlite: i32,
    pub word: u64,
    pub writes: u32,
    pub created: u32,
    pub damaged: u64,
    pub applied: u64,
    pub aside: u64,
    pub place: u64,
    pub checkpoint_place: u64,
    pub log_bytes: u64,
    pub clock: u64,
    pub waiting: u64,
    pub background: u32,
    pub spare: u32,
}

unsafe extern "C" {
    pub fn hlc_file_open(
        path: *const c_char,
        options: *const hlc_file_options,
        file: *mut *mut hlc_file,
        state: *mut hlc_file_state,
    ) -> u32;
    pub fn hlc_file_close(file: *mut hlc_file) -> u32;
    pub fn hlc_file_status(file: *mut hlc_file, state: *mut hlc_file_state) -> u32;
    pub fn hlc_file_error_name(answer: u32, out: *mut u8, out_len: usize, len: *mut usize);
    pub fn hlc_file_error_text(answer: u32, out: *mut u8, out_len: usize, len: *mut usize);
    pub fn hlc_file_batch_new(batch: *mut *mut hlc_file_batch) -> u32;
    pub fn hlc_file_batch_put(
        batch: *mut hlc_file_batch,
        key: *const u8,
        key_len: usize,
        value: *const u8,
        value_len: usize,
    ) -> u32;
    pub fn hlc_file_batch_delete(batch: *mut hlc_file_batch, key: *const u8, key_len: usize) -> u32;
    pub fn hlc_file_batch_many(batch: *const hlc_file_batch) -> usize;
    pub fn hlc_file_batch_clear(batch: *mut hlc_file_batch);
    pub fn hlc_file_batch_drop(batch: *mut hlc_file_batch);
    pub fn hlc_file_append(
        file: *mut hlc_file,
        node: u16,
        reading: u64,
        batch: *mut hlc_file_batch,
        promise: u32,
        word: *mut u64,
    ) -> u32;
    pub fn hlc_file_write_batch(
        file: *mut hlc_file,
        node: u16,
        reading: u64,
        batch: *mut hlc_file_batch,
        promise: u32,
        word: *mut u64,
    ) -> u32;
    pub fn hlc_file_write(
        file: *mut hlc_file,
        node: u16,
        reading: u64,
        key: *const u8,
        key_len: usize,
        value: *const u8,
        value_len: usize,
        word: *mut u64,
    ) -> u32;
    pub fn hlc_file_delete(
        file: *mut hlc_file,
        node: u16,
        reading: u64,
        key: *const u8,
        key_len: usize,
        word: *mut u64,
    ) -> u32;
    pub fn hlc_file_report(file: *mut hlc_file, node: u16, reading: u64, word: *mut u64) -> u32;
    pub fn hlc_file_retire(file: *mut hlc_file, node: u16, reading: u64, word: *mut u64) -> u32;
    pub fn hlc_file_join(file: *mut hlc_file, node: *mut u16, start: *mut u64) -> u32;
    pub fn hlc_file_append_records(
        file: *mut hlc_file,
        bytes: *const u8,
        bytes_len: usize,
        promise: u32,
        many: *mut usize,
        word: *mut u64,
    ) -> u32;
    pub fn hlc_file_send(file: *mut hlc_file, node: u16, reading: u64, word: *mut u64) -> u32;
    pub fn hlc_file_receive(file: *mut hlc_file, node: u16, seen: u64, reading: u64, word: *mut u64) -> u32;
    pub fn hlc_file_checkpoint(file: *mut hlc_file, place: *mut u64) -> u32;
    pub fn hlc_file_copy(file: *mut hlc_file, tag: u64, output: *mut hlc_output, len: *mut usize) -> u32;
    pub fn hlc_file_vacuum_to(
        file: *mut hlc_file,
        stamp: u64,
        word: *mut u64,
        kept: *mut u64,
        bytes: *mut u64,
        dropped: *mut u64,
    ) -> u32;
    pub fn hlc_file_vacuum_older(
        file: *mut hlc_file,
        milliseconds: u64,
        word: *mut u64,
        kept: *mut u64,
        bytes: *mut u64,
        dropped: *mut u64,
    ) -> u32;
    pub fn hlc_file_read_begin(file: *mut hlc_file, mine: *mut hlc_store) -> u32;
    pub fn hlc_file_read_end(file: *mut hlc_file);
    pub fn hlc_file_open_snapshot(file: *mut hlc_file, stamp: u64, id: *mut u64) -> u32;
    pub fn hlc_file_open_snapshot_at_floor(file: *mut hlc_file, id: *mut u64, stamp: *mut u64) -> u32;
    pub fn hlc_file_close_snapshot(file: *mut hlc_file, id: u64, stamp: *mut u64) -> u32;
    pub fn hlc_file_read(
        file: *mut hlc_file,
        id: u64,
        key: *const u8,
        key_len: usize,
        out: *mut u8,
        out_len: usize,
        len: *mut usize,
    ) -> u32;
    pub fn hlc_file_scan(
        file: *mut hlc_file,
        id: u64,
        from: *const u8,
        from_len: usize,
        to: *const u8,
        to_len: usize,
        out: *mut u8,
        out_len: usize,
        len: *mut usize,
        many: *mut usize,
    ) -> u32;
    pub fn hlc_file_scan_back(
        file: *mut hlc_file,
        id: u64,
        from: *const u8,
        from_len: usize,
        to: *const u8,
        to_len: usize,
        out: *mut u8,
        out_len: usize,
        len: *mut usize,
        many: *mut usize,
    ) -> u32;
    pub fn hlc_file_count(
        file: *mut hlc_file,
        id: u64,
        from: *const u8,
        from_len: usize,
        to: *const u8,
        to_len: usize,
        many: *mut u64,
    ) -> u32;
    pub fn hlc_file_floor(file: *mut hlc_file, stamp: *mut u64) -> u32;
    pub fn hlc_file_horizon(file: *mut hlc_file, stamp: *mut u64) -> u32;
}
