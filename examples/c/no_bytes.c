/* (NULL, 0) represents no bytes: for a key, a value, a buffer, entries and their bytes. */
#include "expect.h"

static void issue(hlc_node *node)
{
    uint64_t number, word;
    uint32_t code = hlc_node_write(node, 1, NONE, NONE, &number, &word);
    expect("node write, no key", code, word, HLC_BAD_KEY, 0);
    code = hlc_node_delete(node, 1, NONE, &number, &word);
    expect("node delete, no key", code, word, HLC_BAD_KEY, 0);
    code = hlc_node_write(node, 1, BYTES("a"), NONE, &number, &word);
    expect("node write, no value", code, word, HLC_OK, AT(1));
    code = hlc_node_write_batch(node, 1, 0, NONE, &number, &word);
    expect("node batch, no writes", code, number + word, HLC_NO_WRITES, 0);
    code = hlc_node_write_batch(node, 1, 1, NONE, &number, &word);
    expect("node batch, no bytes", code, word, HLC_BAD_BYTES, 1);
}

static void feed(hlc_store *store)
{
    hlc_entry entry = { .number = 1, .stamp = AT(2) };
    uint64_t word;
    size_t many;
    uint32_t code = hlc_store_check_write(store, 0, 0, AT(1), NONE, NONE, &word);
    expect("check write, no key", code, word, HLC_BAD_KEY, 0);
    code = hlc_store_check_write(store, 0, 0, AT(1), BYTES("a"), NONE, &word);
    expect("check write, no value", code, word, HLC_OK, 0);
    code = hlc_store_check_delete(store, 0, 0, AT(1), NONE, &word);
    expect("check delete, no key", code, word, HLC_BAD_KEY, 0);
    code = hlc_store_accept_write(store, 0, 0, AT(1), NONE, NONE, &word);
    expect("accept write, no key", code, word, HLC_BAD_KEY, 0);
    code = hlc_store_accept_delete(store, 0, 0, AT(1), NONE, &word);
    expect("accept delete, no key", code, word, HLC_BAD_KEY, 0);
    code = hlc_store_accept_write(store, 0, 0, AT(1), BYTES("a"), NONE, &word);
    expect("accept write, no value", code, word, HLC_OK, AT(1));
    code = hlc_store_accept_batch(store, 0, 1, AT(2), 0, NONE, &word);
    expect("accept batch, no writes", code, word, HLC_NO_WRITES, 0);
    code = hlc_store_accept_batch(store, 0, 1, AT(2), 1, NONE, &word);
    expect("accept batch, no bytes", code, word, HLC_BAD_BYTES, 1);
    code = hlc_item_encode_batch(0, 1, AT(2), 0, NONE, NONE, &many);
    expect("batch as bytes, no writes", code, many, HLC_NO_WRITES, 0);
    code = hlc_item_encode_batch(0, 1, AT(2), 1, BYTES("\1a\0"), NONE, &many);
    expect("batch as bytes, no room", code, many, HLC_OK, 24);
    code = hlc_store_accept_all(store, NONE, NONE, &many, &word);
    expect("all, no entries", code, many + word, HLC_OK, 0);
    code = hlc_store_accept_all(store, &entry, 1, NONE, &many, &word);
    expect("all, no key", code, many + word, HLC_BAD_KEY, 0);
    entry.key_len = 1;
    code = hlc_store_accept_all(store, &entry, 1, NONE, &many, &word);
    expect("all, no bytes", code, many + word, HLC_OUTSIDE, 0);
}

/* A restore from no pieces, from one without bytes, and what is refused where none is under way. */
static void restore_no_pieces(hlc_store *copy)
{
    hlc_restoring restoring = HLC_NO_RESTORING;
    uint64_t word;
    uint32_t code = hlc_restoring_feed(&restoring, NONE);
    expect("no restore", code, 0, HLC_NOT_UNDER_WAY, 0);
    code = hlc_restoring_finish(&restoring, copy, &word);
    expect("no restore", code, word, HLC_NOT_UNDER_WAY, 0);
    code = hlc_restoring_start(&restoring);
    expect("start", code, 0, HLC_OK, 0);
    code = hlc_restoring_start(&restoring);
    expect("start twice", code, 0, HLC_IS_UNDER_WAY, 0);
    code = hlc_restoring_feed(&restoring, NONE);
    expect("feed, no bytes", code, 0, HLC_OK, 0);
    code = hlc_restoring_finish(&restoring, copy, &word);
    expect("finish, no bytes", code, word, HLC_BAD_BYTES, 1);
    hlc_restoring_drop(&restoring);
}

/* Reads an output of so many bytes with no room: bytes are left before their end, and none at it. */
static void read_no_piece(hlc_output *output, size_t bytes_len)
{
    size_t len;
    uint32_t code = hlc_output_read(output, 0, NONE, &len);
    expect("output, no room", code, len, bytes_len > 0 ? HLC_MORE : HLC_OK, 0);
    code = hlc_output_read(output, bytes_len, NONE, &len);
    expect("output, at its end", code, len, HLC_OK, 0);
}

/* Makes a certificate: "point 1.0", "row a 1.0 0 value %" and "witness a none 1.0". That of no text shows nothing. */
static void certify(hlc_store *store)
{
    hlc_output output = HLC_NO_OUTPUT;
    uint64_t word, kept, cost;
    size_t len;
    read_no_piece(&output, 0);
    uint32_t code = hlc_certificate_make(store, AT(1), &word, &kept, &cost, &output, &len);
    expect("certificate", code, len + word + kept + cost, HLC_OK, 61);
    read_no_piece(&output, 49);
    hlc_output_drop(&output);
    code = hlc_certificate_check(NONE, &kept, &cost, &word);
    expect("check, no bytes", code, word + kept + cost, HLC_NOT_SHOWN, 1);
}

static void save(hlc_store *store)
{
    hlc_output output = HLC_NO_OUTPUT, other = HLC_NO_OUTPUT;
    uint64_t word;
    size_t len, other_len;
    uint32_t code = hlc_checkpoint_make(store, 0, &output, &len);
    expect("checkpoint", code, len, HLC_OK, 164);
    read_no_piece(&output, len);
    hlc_output_drop(&output);
    code = hlc_checkpoint_split(NONE, NONE, &output, &other, &len, &other_len, &word);
    expect("split, no bytes", code, len + other_len + word, HLC_BAD_BYTES, 1);
    code = hlc_checkpoint_merge(NONE, NONE, &output, &len, &word);
    expect("merge, no bytes", code, len + word, HLC_BAD_BYTES, 1);
    code = hlc_increment_apply(NONE, NONE, &output, &len, &word);
    expect("increment, no bytes", code, len + word, HLC_BAD_BYTES, 1);
    read_no_piece(&output, 0);
}

/* Key a has a value of no bytes at 1.0, and key b one of three bytes at 2.0. A pair of a listing is two lengths of
 * eight bytes each, the key and the value. */
static void read_back(hlc_store *store)
{
    hlc_store copy = HLC_CLOSED_STORE;
    uint64_t id, word, kept, cost, dropped, threshold;
    size_t len, many;
    bool more = false;
    uint32_t code = hlc_snapshot_open_at_floor(store, &id, &word);
    expect("snapshot", code, word, HLC_OK, AT(1));
    code = hlc_snapshot_read(store, 1, BYTES("a"), NONE, &len);
    expect("read, no value", code, len, HLC_OK, 0);
    code = hlc_snapshot_read(store, 1, NONE, NONE, &len);
    expect("read, no key", code, len, HLC_NO_VALUE, 0);
    code = hlc_snapshot_list(store, 1, NONE, &len);
    expect("list", code, len, HLC_OK, 17);
    certify(store);
    code = hlc_store_vacuum_part(store, AT(1), NONE, 1, &word, &kept, &cost, &dropped, NONE, &len, &more);
    expect("part, no room", code, len + kept + cost + dropped + more, HLC_OK, 14);
    code = hlc_store_vacuum_part(store, AT(1), NONE, 0, &word, &kept, &cost, &dropped, NONE, &len, &more);
    expect("part of no keys", code, len + kept + cost + dropped + more, HLC_OK, 1);
    code = hlc_store_accept_write(store, 0, 1, AT(2), BYTES("b"), BYTES("red"), &word);
    expect("accept", code, word, HLC_OK, AT(2));
    code = hlc_snapshot_open_at_floor(store, &id, &word);
    expect("snapshot", code, word, HLC_OK, AT(2));
    code = hlc_snapshot_read(store, 2, BYTES("b"), NONE, &len);
    expect("read, no room", code, len, HLC_OK, 3);
    code = hlc_snapshot_list(store, 2, NONE, &len);
    expect("list, no room", code, len, HLC_OK, 37);
    code = hlc_snapshot_scan(store, 2, NONE, NONE, NONE, &len, &many);
    expect("scan, no room", code, len + many, HLC_MORE, 0);
    code = hlc_snapshot_scan_keys(store, 2, NONE, NONE, NONE, &len, &many);
    expect("keys, no room", code, len + many, HLC_MORE, 0);
    code = hlc_snapshot_scan_back(store, 2, NONE, NONE, NONE, &len, &many);
    expect("back, no room", code, len + many, HLC_MORE, 0);
    code = hlc_snapshot_changes(store, 1, 2, NONE, NONE, NONE, &len, &many);
    expect("changes, no room", code, len + many, HLC_MORE, 0);
    code = hlc_snapshot_changes(store, 2, 2, NONE, NONE, NONE, &len, &many);
    expect("no changes", code, len + many, HLC_OK, 0);
    code = hlc_store_versions(store, BYTES("b"), 0, UINT64_MAX, NONE, &len, &many);
    expect("versions, no room", code, len + many, HLC_OK, 23);
    code = hlc_store_versions(store, NONE, 0, UINT64_MAX, NONE, &len, &many);
    expect("versions, no key", code, len + many, HLC_OK, 0);
    code = hlc_snapshot_read_all(store, 2, NONE, NONE, NONE, &len, &many);
    expect("read all, no keys", code, len + many, HLC_OK, 0);
    code = hlc_store_accept_items(store, NONE, &len, &many, &word);
    expect("items, no bytes", code, len + many + word, HLC_OK, 0);
    code = hlc_store_apply_records(store, NONE, &len, &many, &threshold, &word);
    expect("records, no bytes", code, len + many + threshold + word, HLC_OK, 0);
    code = hlc_snapshot_count(store, 2, NONE, NONE, &word);
    expect("count", code, word, HLC_OK, 2);
    save(store);
    code = hlc_store_restore(&copy, NONE, &word);
    expect("restore, no bytes", code, word, HLC_BAD_BYTES, 1);
    restore_no_pieces(&copy);
}

int main(void)
{
    hlc_store store = HLC_CLOSED_STORE;
    hlc_node node = hlc_node_open(0, 0);
    expect("open", hlc_store_open(&store, 1), 0, HLC_OK, 0);
    issue(&node);
    feed(&store);
    read_back(&store);
    hlc_store_close(&store);
    return ended();
}
