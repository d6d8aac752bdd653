// Made from include/hlcstore.h by bindings/rust/declare. Change the header, and run that again.

use core::ffi::c_void;

pub const HLC_MAX_KEY: u32 = 255;
pub const HLC_MAX_VALUE: u32 = 65535;
pub const HLC_MAX_BATCH: u32 = 256;
pub const HLC_MAX_INITIAL_NODES: u32 = 64;
pub const HLC_MAX_NODES: u32 = 1024;
pub const HLC_MAX_OPEN_SNAPSHOTS: u32 = 1024;
pub const HLC_MAX_PHYSICAL: u64 = 281_474_976_710_655;
pub const HLC_MAX_COUNTER: u32 = 65535;
pub const HLC_MAX_STAMP: u64 = 18_446_744_073_709_551_615;
pub const HLC_MAX_NUMBER: u64 = 18_446_744_073_709_551_614;
pub const HLC_MAX_PAIR: u32 = 65806;
pub const HLC_MAX_LISTED_KEY: u32 = 263;
pub const HLC_MAX_CHANGE: u32 = 65807;
pub const HLC_MAX_READ_ANSWER: u32 = 65544;
pub const HLC_MAX_ROW: u32 = 65554;
pub const HLC_MAX_ITEM: u32 = 65814;
pub const HLC_MAX_BATCH_ITEM: u32 = 16843285;
pub const HLC_MAX_WRITE: u32 = 65794;
pub const HLC_JOIN_LEN: u32 = 11;
pub const HLC_THRESHOLD_LEN: u32 = 9;
pub const HLC_DIGEST_LEN: u32 = 32;
pub const HLC_ROW_COST: u32 = 10;
pub const HLC_VERSION: &str = "0.2.0";
pub const HLC_VERSION_NUMBER: u32 = 200;

pub const HLC_OK: u32 = 0;
pub const HLC_NO_NODE: u32 = 1;
pub const HLC_READING_TOO_LARGE: u32 = 2;
pub const HLC_COUNTER_FULL: u32 = 3;
pub const HLC_NOT_NEXT: u32 = 6;
pub const HLC_STAMP_NOT_RISING: u32 = 7;
pub const HLC_ABOVE_FLOOR: u32 = 8;
pub const HLC_BELOW_HORIZON: u32 = 9;
pub const HLC_NO_SNAPSHOT: u32 = 10;
pub const HLC_TOO_MANY_SNAPSHOTS: u32 = 11;
pub const HLC_BAD_KEY: u32 = 12;
pub const HLC_VALUE_TOO_LONG: u32 = 13;
pub const HLC_NUMBERS_SPENT: u32 = 14;
pub const HLC_NO_MEMORY: u32 = 15;
pub const HLC_BAD_LINE: u32 = 16;
pub const HLC_NOT_SHOWN: u32 = 22;
pub const HLC_TOO_MANY_NODES: u32 = 26;
pub const HLC_RETIRED: u32 = 27;
pub const HLC_NO_WRITES: u32 = 28;
pub const HLC_TOO_MANY_WRITES: u32 = 29;
pub const HLC_KEY_TWICE: u32 = 30;
pub const HLC_CLOSED: u32 = 100;
pub const HLC_IS_OPEN: u32 = 101;
pub const HLC_NO_VALUE: u32 = 102;
pub const HLC_OUTSIDE: u32 = 103;
pub const HLC_MORE: u32 = 104;
pub const HLC_NO_SUCH_NODE: u32 = 105;
pub const HLC_BAD_BYTES: u32 = 106;
pub const HLC_NO_CHECKPOINT: u32 = 107;
pub const HLC_HAS_BYTES: u32 = 108;
pub const HLC_NOT_FEWEST: u32 = 109;
pub const HLC_NO_INCREMENT: u32 = 110;
pub const HLC_NOT_LATER: u32 = 111;
pub const HLC_CHANGED: u32 = 112;
pub const HLC_NOT_PARTS: u32 = 113;
pub const HLC_BAD_NODE_COUNT: u32 = 114;
pub const HLC_ALL_RETIRED: u32 = 115;
pub const HLC_BELOW_FLOOR: u32 = 116;
pub const HLC_AFTER_LAST: u32 = 117;
pub const HLC_NOT_UNDER_WAY: u32 = 118;
pub const HLC_IS_UNDER_WAY: u32 = 119;

#[repr(C)]
#[derive(Clone, Copy, Debug, PartialEq, Eq)]
pub struct hlc_store {
    pub at: *mut c_void,
    pub live: bool,
}

#[repr(C)]
#[derive(Clone, Copy, Debug, PartialEq, Eq)]
pub struct hlc_output {
    pub at: *mut c_void,
    pub live: bool,
}

#[repr(C)]
#[derive(Clone, Copy, Debug, Default, PartialEq, Eq)]
pub struct hlc_node {
    pub id: u16,
    pub last: u64,
    pub next: u64,
    pub retired: bool,
}

#[repr(C)]
#[derive(Clone, Copy, Debug, Default, PartialEq, Eq)]
pub struct hlc_entry {
    pub node: u16,
    pub deletes: bool,
    pub number: u64,
    pub stamp: u64,
    pub key_at: usize,
    pub key_len: usize,
    pub value_at: usize,
    pub value_len: usize,
}

#[repr(C)]
#[derive(Clone, Copy, Debug, Default, PartialEq, Eq)]
pub struct hlc_place {
    pub at: usize,
    pub len: usize,
}

#[repr(C)]
#[derive(Clone, Copy, Debug, PartialEq, Eq)]
pub struct hlc_saving {
    pub at: *mut c_void,
    pub live: bool,
}

#[repr(C)]
#[derive(Clone, Copy, Debug, PartialEq, Eq)]
pub struct hlc_restoring {
    pub at: *mut c_void,
    pub live: bool,
}

unsafe extern "C" {
    pub safe fn hlc_version() -> u32;
    pub fn hlc_error_name(answer: u32, out: *mut u8, out_len: usize, len: *mut usize);
    pub fn hlc_error_text(answer: u32, out: *mut u8, out_len: usize, len: *mut usize);
    pub fn hlc_store_open(store: *mut hlc_store, nodes: u16) -> u32;
    pub fn hlc_store_close(store: *mut hlc_store);
    pub fn hlc_store_accept_write(
        store: *mut hlc_store,
        node: u16,
        number: u64,
        stamp: u64,
        key: *const u8,
        key_len: usize,
        value: *const u8,
        value_len: usize,
        word: *mut u64,
    ) -> u32;
    pub fn hlc_store_accept_delete(
        store: *mut hlc_store,
        node: u16,
        number: u64,
        stamp: u64,
        key: *const u8,
        key_len: usize,
        word: *mut u64,
    ) -> u32;
    pub fn hlc_store_accept_report(store: *mut hlc_store, node: u16, number: u64, stamp: u64, word: *mut u64) -> u32;
    pub fn hlc_store_accept_retire(store: *mut hlc_store, node: u16, number: u64, stamp: u64, word: *mut u64) -> u32;
    pub fn hlc_store_accept_batch(
        store: *mut hlc_store,
        node: u16,
        number: u64,
        stamp: u64,
        count: usize,
        writes: *const u8,
        writes_len: usize,
        word: *mut u64,
    ) -> u32;
    pub fn hlc_store_accept_all(
        store: *mut hlc_store,
        entries: *const hlc_entry,
        entries_len: usize,
        bytes: *const u8,
        bytes_len: usize,
        count: *mut usize,
        word: *mut u64,
    ) -> u32;
    pub fn hlc_store_check_write(
        store: *mut hlc_store,
        node: u16,
        number: u64,
        stamp: u64,
        key: *const u8,
        key_len: usize,
        value: *const u8,
        value_len: usize,
        word: *mut u64,
    ) -> u32;
    pub fn hlc_store_check_delete(
        store: *mut hlc_store,
        node: u16,
        number: u64,
        stamp: u64,
        key: *const u8,
        key_len: usize,
        word: *mut u64,
    ) -> u32;
    pub fn hlc_store_check_report(store: *mut hlc_store, node: u16, number: u64, stamp: u64, word: *mut u64) -> u32;
    pub fn hlc_store_join(store: *mut hlc_store, node: *mut u16, start: *mut u64) -> u32;
    pub fn hlc_store_join_at(store: *mut hlc_store, start: u64, node: *mut u16, word: *mut u64) -> u32;
    pub fn hlc_snapshot_open(store: *mut hlc_store, stamp: u64, id: *mut u64) -> u32;
    pub fn hlc_snapshot_open_at_floor(store: *mut hlc_store, id: *mut u64, stamp: *mut u64) -> u32;
    pub fn hlc_snapshot_close(store: *mut hlc_store, id: u64, stamp: *mut u64) -> u32;
    pub fn hlc_snapshot_close_all(store: *mut hlc_store) -> u32;
    pub fn hlc_snapshot_read(
        store: *mut hlc_store,
        id: u64,
        key: *const u8,
        key_len: usize,
        out: *mut u8,
        out_len: usize,
        len: *mut usize,
    ) -> u32;
    pub fn hlc_snapshot_view(
        store: *mut hlc_store,
        id: u64,
        key: *const u8,
        key_len: usize,
        value: *mut *const u8,
        len: *mut usize,
    ) -> u32;
    pub fn hlc_snapshot_read_all(
        store: *mut hlc_store,
        id: u64,
        places: *const hlc_place,
        places_len: usize,
        bytes: *const u8,
        bytes_len: usize,
        out: *mut u8,
        out_len: usize,
        len: *mut usize,
        count: *mut usize,
    ) -> u32;
    pub fn hlc_snapshot_list(store: *mut hlc_store, id: u64, out: *mut u8, out_len: usize, len: *mut usize) -> u32;
    pub fn hlc_snapshot_scan(
        store: *mut hlc_store,
        id: u64,
        from: *const u8,
        from_len: usize,
        to: *const u8,
        to_len: usize,
        out: *mut u8,
        out_len: usize,
        len: *mut usize,
        count: *mut usize,
    ) -> u32;
    pub fn hlc_snapshot_scan_keys(
        store: *mut hlc_store,
        id: u64,
        from: *const u8,
        from_len: usize,
        to: *const u8,
        to_len: usize,
        out: *mut u8,
        out_len: usize,
        len: *mut usize,
        count: *mut usize,
    ) -> u32;
    pub fn hlc_snapshot_scan_back(
        store: *mut hlc_store,
        id: u64,
        from: *const u8,
        from_len: usize,
        to: *const u8,
        to_len: usize,
        out: *mut u8,
        out_len: usize,
        len: *mut usize,
        count: *mut usize,
    ) -> u32;
    pub fn hlc_snapshot_changes(
        store: *mut hlc_store,
        before: u64,
        after: u64,
        from: *const u8,
        from_len: usize,
        to: *const u8,
        to_len: usize,
        out: *mut u8,
        out_len: usize,
        len: *mut usize,
        count: *mut usize,
    ) -> u32;
    pub fn hlc_snapshot_count(
        store: *mut hlc_store,
        id: u64,
        from: *const u8,
        from_len: usize,
        to: *const u8,
        to_len: usize,
        count: *mut u64,
    ) -> u32;
    pub fn hlc_snapshot_digest(
        store: *mut hlc_store,
        id: u64,
        from: *const u8,
        from_len: usize,
        to: *const u8,
        to_len: usize,
        out: *mut u8,
        out_len: usize,
        len: *mut usize,
    ) -> u32;
    pub fn hlc_store_floor(store: *mut hlc_store, stamp: *mut u64) -> u32;
    pub fn hlc_store_rows(store: *mut hlc_store, rows: *mut u64) -> u32;
    pub fn hlc_store_size(
        store: *mut hlc_store,
        rows: *mut u64,
        keys: *mut u64,
        key_bytes: *mut u64,
        value_bytes: *mut u64,
    ) -> u32;
    pub fn hlc_store_versions(
        store: *mut hlc_store,
        key: *const u8,
        key_len: usize,
        above: u64,
        to: u64,
        out: *mut u8,
        out_len: usize,
        len: *mut usize,
        count: *mut usize,
    ) -> u32;
    pub fn hlc_store_vacuum(
        store: *mut hlc_store,
        floor: *mut u64,
        kept: *mut u64,
        bytes: *mut u64,
        dropped: *mut u64,
    ) -> u32;
    pub fn hlc_store_vacuum_to(
        store: *mut hlc_store,
        stamp: u64,
        word: *mut u64,
        kept: *mut u64,
        bytes: *mut u64,
        dropped: *mut u64,
    ) -> u32;
    pub fn hlc_store_vacuum_part(
        store: *mut hlc_store,
        stamp: u64,
        after: *const u8,
        after_len: usize,
        limit: usize,
        word: *mut u64,
        kept: *mut u64,
        bytes: *mut u64,
        dropped: *mut u64,
        out: *mut u8,
        out_len: usize,
        len: *mut usize,
        more: *mut bool,
    ) -> u32;
    pub fn hlc_store_check_vacuum(store: *mut hlc_store, stamp: u64, word: *mut u64) -> u32;
    pub fn hlc_certificate_make(
        store: *mut hlc_store,
        stamp: u64,
        word: *mut u64,
        kept: *mut u64,
        bytes: *mut u64,
        output: *mut hlc_output,
        len: *mut usize,
    ) -> u32;
    pub fn hlc_certificate_check(
        text: *const u8,
        text_len: usize,
        rows: *mut u64,
        bytes: *mut u64,
        word: *mut u64,
    ) -> u32;
    pub fn hlc_item_encode_write(
        node: u16,
        number: u64,
        stamp: u64,
        key: *const u8,
        key_len: usize,
        value: *const u8,
        value_len: usize,
        out: *mut u8,
        out_len: usize,
        len: *mut usize,
    ) -> u32;
    pub fn hlc_item_encode_delete(
        node: u16,
        number: u64,
        stamp: u64,
        key: *const u8,
        key_len: usize,
        out: *mut u8,
        out_len: usize,
        len: *mut usize,
    ) -> u32;
    pub fn hlc_item_encode_batch(
        node: u16,
        number: u64,
        stamp: u64,
        count: usize,
        writes: *const u8,
        writes_len: usize,
        out: *mut u8,
        out_len: usize,
        len: *mut usize,
    ) -> u32;
    pub fn hlc_item_encode_report(
        node: u16,
        number: u64,
        stamp: u64,
        out: *mut u8,
        out_len: usize,
        len: *mut usize,
    ) -> u32;
    pub fn hlc_item_encode_retire(
        node: u16,
        number: u64,
        stamp: u64,
        out: *mut u8,
        out_len: usize,
        len: *mut usize,
    ) -> u32;
    pub fn hlc_store_accept_items(
        store: *mut hlc_store,
        bytes: *const u8,
        bytes_len: usize,
        used: *mut usize,
        count: *mut usize,
        word: *mut u64,
    ) -> u32;
    pub fn hlc_record_encode_join(node: u16, start: u64, out: *mut u8, out_len: usize, len: *mut usize) -> u32;
    pub fn hlc_record_encode_threshold(stamp: u64, out: *mut u8, out_len: usize, len: *mut usize) -> u32;
    pub fn hlc_store_apply_records(
        store: *mut hlc_store,
        bytes: *const u8,
        bytes_len: usize,
        used: *mut usize,
        count: *mut usize,
        threshold: *mut u64,
        word: *mut u64,
    ) -> u32;
    pub fn hlc_checkpoint_make(store: *mut hlc_store, tag: u64, output: *mut hlc_output, len: *mut usize) -> u32;
    pub fn hlc_saving_start(saving: *mut hlc_saving, store: *mut hlc_store, tag: u64, len: *mut u64) -> u32;
    pub fn hlc_saving_read(
        saving: *mut hlc_saving,
        store: *mut hlc_store,
        out: *mut u8,
        out_len: usize,
        len: *mut usize,
    ) -> u32;
    pub fn hlc_saving_drop(saving: *mut hlc_saving);
    pub fn hlc_increment_make(
        store: *mut hlc_store,
        since: u64,
        tag: u64,
        output: *mut hlc_output,
        len: *mut usize,
        horizon: *mut u64,
    ) -> u32;
    pub fn hlc_increment_apply(
        older: *const u8,
        older_len: usize,
        increment: *const u8,
        increment_len: usize,
        output: *mut hlc_output,
        len: *mut usize,
        word: *mut u64,
    ) -> u32;
    pub fn hlc_checkpoint_split(
        bytes: *const u8,
        bytes_len: usize,
        key: *const u8,
        key_len: usize,
        left: *mut hlc_output,
        right: *mut hlc_output,
        left_len: *mut usize,
        right_len: *mut usize,
        word: *mut u64,
    ) -> u32;
    pub fn hlc_checkpoint_merge(
        left: *const u8,
        left_len: usize,
        right: *const u8,
        right_len: usize,
        output: *mut hlc_output,
        len: *mut usize,
        word: *mut u64,
    ) -> u32;
    pub fn hlc_store_restore(store: *mut hlc_store, bytes: *const u8, bytes_len: usize, word: *mut u64) -> u32;
    pub fn hlc_restoring_start(restoring: *mut hlc_restoring) -> u32;
    pub fn hlc_restoring_feed(restoring: *mut hlc_restoring, bytes: *const u8, bytes_len: usize) -> u32;
    pub fn hlc_restoring_finish(restoring: *mut hlc_restoring, store: *mut hlc_store, word: *mut u64) -> u32;
    pub fn hlc_restoring_drop(restoring: *mut hlc_restoring);
    pub fn hlc_output_read(output: *mut hlc_output, from: usize, out: *mut u8, out_len: usize, len: *mut usize) -> u32;
    pub fn hlc_output_drop(output: *mut hlc_output);
    pub fn hlc_store_horizon(store: *mut hlc_store, stamp: *mut u64) -> u32;
    pub fn hlc_store_nodes(store: *mut hlc_store, count: *mut u64) -> u32;
    pub fn hlc_store_link(store: *mut hlc_store, node: u16, next: *mut u64, head: *mut u64, retired: *mut bool) -> u32;
    pub fn hlc_store_floor_node(store: *mut hlc_store, node: *mut u64) -> u32;
    pub fn hlc_snapshot_at_place(store: *mut hlc_store, place: u64, id: *mut u64, stamp: *mut u64) -> u32;
    pub safe fn hlc_node_open(id: u16, start: u64) -> hlc_node;
    pub fn hlc_node_restore(id: u16, last: u64, next: u64, node: *mut hlc_node) -> u32;
    pub fn hlc_node_raise(node: *mut hlc_node, stamp: u64);
    pub fn hlc_node_write(
        node: *mut hlc_node,
        reading: u64,
        key: *const u8,
        key_len: usize,
        value: *const u8,
        value_len: usize,
        number: *mut u64,
        word: *mut u64,
    ) -> u32;
    pub fn hlc_node_delete(
        node: *mut hlc_node,
        reading: u64,
        key: *const u8,
        key_len: usize,
        number: *mut u64,
        word: *mut u64,
    ) -> u32;
    pub fn hlc_node_write_batch(
        node: *mut hlc_node,
        reading: u64,
        count: usize,
        writes: *const u8,
        writes_len: usize,
        number: *mut u64,
        word: *mut u64,
    ) -> u32;
    pub fn hlc_node_report(node: *mut hlc_node, reading: u64, number: *mut u64, word: *mut u64) -> u32;
    pub fn hlc_node_retire(node: *mut hlc_node, reading: u64, number: *mut u64, word: *mut u64) -> u32;
    pub fn hlc_node_send(node: *mut hlc_node, reading: u64, word: *mut u64) -> u32;
    pub fn hlc_node_receive(node: *mut hlc_node, seen: u64, reading: u64, word: *mut u64) -> u32;
}
