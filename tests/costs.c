/* Makes calls of the C library on small stores and on large ones, and marks where each begins and ends, so that a
   counter of instructions (callgrind) tells what each cost: tests/costs compares. Without callgrind it counts nothing.
   It also prints how many bytes of memory stores take, and how often calls let their memory grow. */
#include "hlcstore.h"
#include <inttypes.h>
#include <malloc.h>
#include <stdio.h>
#include <stdlib.h>
#include <string.h>
#include <valgrind/callgrind.h>

#define STAMP(reading) ((uint64_t)(reading) << 16)
#define TIMES 1000
#define MANY_KEYS 65536
#define FEW_KEYS 1024

static uint64_t live;  /* the bytes that the program has from malloc */
static uint64_t grown; /* how often a block of 16 KiB or more became larger */

void *__real_malloc(size_t size);
void *__real_realloc(void *at, size_t size);
void __real_free(void *at);

void *__wrap_malloc(size_t size)
{
    void *at = __real_malloc(size);
    live += malloc_usable_size(at);
    return at;
}

void *__wrap_realloc(void *at, size_t size)
{
    live -= malloc_usable_size(at);
    grown += malloc_usable_size(at) >= 16384;
    at = __real_realloc(at, size);
    live += malloc_usable_size(at);
    return at;
}

void __wrap_free(void *at)
{
    live -= malloc_usable_size(at);
    __real_free(at);
}

/* Ends the program where a call was refused. */
static void must(uint32_t answer)
{
    if (answer == HLC_OK || answer == HLC_MORE) return;
    fprintf(stderr, "answer %" PRIu32 "\n", answer);
    exit(1);
}

static void begin(void)
{
    CALLGRIND_START_INSTRUMENTATION;
    CALLGRIND_ZERO_STATS;
    grown = 0;
}

/* Ends what is measured: a name without spaces, the size of the store, and how many calls it was. */
static void end(const char *name, uint64_t size, uint64_t calls)
{
    char label[100];
    snprintf(label, sizeof label, "%s %" PRIu64 " %" PRIu64, name, size, calls);
    CALLGRIND_DUMP_STATS_AT(label);
    CALLGRIND_STOP_INSTRUMENTATION;
}

/* Writes a key of twelve bytes, which rises with its number, by few instructions. */
static size_t key_of(uint64_t number, uint8_t *key)
{
    memcpy(key, "key:", 4);
    for (int at = 11; at >= 4; at--, number /= 16) key[at] = (uint8_t)('a' + number % 16);
    return 12;
}

/* The place of a number in a scattered order; `size` is a power of 2. */
static uint64_t scattered(uint64_t number, uint64_t size)
{
    return number * 40503 % size;
}

/* Accepts the next write of node 0: its stamp is one reading above that of its last item. */
static void put_value(hlc_store *store, uint64_t number, uint64_t key_number, const char *value)
{
    uint8_t key[16];
    size_t key_len = key_of(key_number, key);
    uint64_t word;
    must(hlc_store_accept_write(store, 0, number, STAMP(number + 1), key, key_len, (const uint8_t *)value,
                                strlen(value), &word));
}

static void put(hlc_store *store, uint64_t number, uint64_t key_number)
{
    put_value(store, number, key_number, "value");
}

/* Opens a store with so many keys of one version, a power of 2, that came in a scattered order or in their own. */
static void fill(hlc_store *store, uint64_t keys, bool scatter)
{
    must(hlc_store_open(store, 1));
    for (uint64_t i = 0; i < keys; i++) put(store, i, scatter ? scattered(i, keys) : i);
}

/* Opens a store with so many versions of one key. */
static void fill_key(hlc_store *store, uint64_t versions)
{
    must(hlc_store_open(store, 1));
    for (uint64_t i = 0; i < versions; i++) put(store, i, 0);
}

static uint64_t open_at_floor(hlc_store *store)
{
    uint64_t id, stamp;
    must(hlc_snapshot_open_at_floor(store, &id, &stamp));
    return id;
}

static void read_key(hlc_store *store, uint64_t id, uint64_t key_number)
{
    uint8_t key[16], value[8];
    size_t len;
    must(hlc_snapshot_read(store, id, key, key_of(key_number, key), value, sizeof value, &len));
}

/* What a store has is known without a look at its rows. */
static void measure_questions(hlc_store *store, uint64_t keys)
{
    uint64_t a, b, c, d;
    bool retired = false;
    begin();
    for (int i = 0; i < TIMES; i++) must(hlc_store_rows(store, &a));
    end("rows", keys, TIMES);
    begin();
    for (int i = 0; i < TIMES; i++) must(hlc_store_size(store, &a, &b, &c, &d));
    end("sizes", keys, TIMES);
    begin();
    for (int i = 0; i < TIMES; i++) must(hlc_store_floor(store, &a));
    end("floor", keys, TIMES);
    begin();
    for (int i = 0; i < TIMES; i++) must(hlc_store_horizon(store, &a));
    end("horizon", keys, TIMES);
    begin();
    for (int i = 0; i < TIMES; i++) must(hlc_store_link(store, 0, &a, &b, &retired));
    end("link", keys, TIMES);
}

/* A listing of all pairs goes through the keys once where there is room for all that the store has, as a page does. */
static void measure_listing(hlc_store *store, uint64_t keys, uint64_t id)
{
    static uint8_t out[MANY_KEYS * 33];
    size_t len, page_len, pairs;
    begin();
    must(hlc_snapshot_list(store, id, out, sizeof out, &len));
    end("list", keys, keys);
    begin();
    must(hlc_snapshot_scan(store, id, NULL, 0, NULL, 0, out, sizeof out, &page_len, &pairs));
    end("whole-page", keys, keys);
    if (len != keys * 33 || page_len != len || pairs != keys) exit(1);
}

/* A page of a hundred pairs, from the front or from the end, and their count and digest, cost what they return. */
static void measure_pages(hlc_store *store, uint64_t keys, uint64_t id)
{
    static uint8_t out[100 * 33];
    uint8_t from[16], to[16], digest[32];
    size_t from_len = key_of(keys / 2, from), to_len = key_of(keys / 2 + 100, to), len, pairs;
    uint64_t many;
    begin();
    must(hlc_snapshot_scan(store, id, from, from_len, NULL, 0, out, sizeof out, &len, &pairs));
    end("scan", keys, 1);
    if (pairs != 100) exit(1);
    begin();
    must(hlc_snapshot_scan_back(store, id, NULL, 0, to, to_len, out, sizeof out, &len, &pairs));
    end("scan-back", keys, 1);
    if (pairs != 100) exit(1);
    begin();
    must(hlc_snapshot_count(store, id, from, from_len, to, to_len, &many));
    end("count", keys, 1);
    if (many != 100) exit(1);
    begin();
    must(hlc_snapshot_digest(store, id, from, from_len, to, to_len, digest, sizeof digest, &len));
    end("digest", keys, 1);
}

/* A part of a vacuum costs what its keys cost, of which each has one version here. */
static void measure_part(hlc_store *store, uint64_t keys)
{
    uint8_t after[16], out[255];
    size_t after_len = key_of(keys / 2, after), len;
    uint64_t floor, word, kept, bytes, dropped;
    bool more = false;
    must(hlc_store_floor(store, &floor));
    begin();
    must(hlc_store_vacuum_part(store, floor, after, after_len, 100, &word, &kept, &bytes, &dropped, out, sizeof out,
                               &len, &more));
    end("part", keys, 1);
    if (kept != 100 || dropped != 0) exit(1);
}

/* Keys that rise fill leaves of 128, so these are the first of their leaves. */
static void measure_first_keys(uint64_t keys)
{
    hlc_store store = HLC_CLOSED_STORE;
    fill(&store, keys, false);
    uint64_t id = open_at_floor(&store);
    begin();
    for (uint64_t i = 0; i < TIMES; i++) read_key(&store, id, i * 128 % keys);
    end("first-key", keys, TIMES);
    hlc_store_close(&store);
}

static void measure_keys(uint64_t keys)
{
    hlc_store store = HLC_CLOSED_STORE;
    fill(&store, keys, true);
    measure_questions(&store, keys);
    uint64_t id = open_at_floor(&store);
    begin();
    for (int i = 0; i < TIMES; i++) read_key(&store, id, scattered((uint64_t)i * 7 + 1, keys));
    end("read", keys, TIMES);
    measure_pages(&store, keys, id);
    measure_listing(&store, keys, id);
    measure_part(&store, keys);
    begin();
    for (uint64_t i = 0; i < TIMES; i++) put(&store, keys + i, keys + scattered(i, 1024));
    end("new-key", keys, TIMES);
    hlc_store_close(&store);
}

/* What changes in a range of a hundred keys, of which ten get another value, costs a look at these keys. All keys
 * outside of the range change too. */
static void measure_changes(uint64_t keys)
{
    static uint8_t out[100 * 34];
    hlc_store store = HLC_CLOSED_STORE;
    uint8_t from[16], to[16];
    size_t from_len = key_of(keys / 2, from), to_len = key_of(keys / 2 + 100, to), len, many;
    fill(&store, keys, true);
    uint64_t before = open_at_floor(&store), number = keys;
    for (uint64_t i = 0; i < keys; i++) {
        if (i < keys / 2 || i >= keys / 2 + 100 || i % 10 == 0) put_value(&store, number++, i, "other");
    }
    uint64_t after = open_at_floor(&store);
    begin();
    must(hlc_snapshot_changes(&store, before, after, from, from_len, to, to_len, out, sizeof out, &len, &many));
    end("changes", keys, 1);
    if (many != 10) exit(1);
    hlc_store_close(&store);
}

/* Reads at stamps among the versions of one key, and further versions. */
static void measure_versions(uint64_t versions)
{
    hlc_store store = HLC_CLOSED_STORE;
    uint64_t ids[100];
    fill_key(&store, versions);
    for (uint64_t i = 0; i < 100; i++) must(hlc_snapshot_open(&store, STAMP(versions / 100 * i + 1), &ids[i]));
    begin();
    for (int i = 0; i < TIMES; i++) read_key(&store, ids[i % 100], 0);
    end("version", versions, TIMES);
    begin();
    for (uint64_t i = 0; i < 10 * TIMES; i++) put(&store, versions + i, 0);
    end("push", versions, 10 * TIMES);
    hlc_store_close(&store);
}

/* The same versions from 64 nodes, one node after the other, so that they come in another order than their stamps. */
static void measure_nodes(uint64_t versions)
{
    hlc_store store = HLC_CLOSED_STORE;
    uint64_t word, each = versions / 64;
    must(hlc_store_open(&store, 64));
    begin();
    for (uint16_t node = 0; node < 64; node++) {
        for (uint64_t i = 0; i < each; i++) {
            must(hlc_store_accept_write(&store, node, i, STAMP(i + 1), (const uint8_t *)"k", 1, (const uint8_t *)"v", 1,
                                        &word));
        }
    }
    end("push-by-nodes", versions, versions);
    hlc_store_close(&store);
}

/* Writes 2,048 keys from this one on, in their own order or in a scattered one, in batches of so many writes. */
static void put_batches(hlc_store *store, const char *name, uint64_t *number, uint64_t first, bool scatter,
                        size_t writes)
{
    begin();
    for (uint64_t i = 0; i < 2048; i += writes) {
        uint8_t bytes[256 * 21], *at = bytes;
        uint64_t word;
        for (uint64_t j = i; j < i + writes; j++) {
            *at++ = 12;
            at += key_of(scatter ? scattered(first + j, MANY_KEYS) : first + j, at);
            memcpy(at, "\1\0\5value", 8);
            at += 8;
        }
        must(hlc_store_accept_batch(store, 0, *number, STAMP(*number + 1), writes, bytes, (size_t)(at - bytes),
                                    &word));
        ++*number;
    }
    end(name, writes, 2048);
}

/* Batches of 16 and of 256 writes: of keys that follow each other, of scattered ones, and of new ones. */
static void measure_batches(void)
{
    hlc_store store = HLC_CLOSED_STORE;
    uint64_t number = MANY_KEYS;
    fill(&store, MANY_KEYS, false);
    for (size_t writes = 16; writes <= 256; writes *= 16) {
        put_batches(&store, "batch-in-order", &number, 100 * writes, false, writes);
        put_batches(&store, "batch-scattered", &number, 16 * writes, true, writes);
        put_batches(&store, "batch-new", &number, MANY_KEYS + 100 * writes, false, writes);
    }
    hlc_store_close(&store);
}

/* Many nodes take turns, so that each item is of the node that holds the floor back. */
static void measure_many_nodes(uint64_t nodes)
{
    hlc_store store = HLC_CLOSED_STORE;
    uint64_t word;
    uint16_t node;
    must(hlc_store_open(&store, 1));
    for (uint64_t i = 1; i < nodes; i++) must(hlc_store_join(&store, &node, &word));
    begin();
    for (uint64_t i = 0; i < 2048; i++) {
        must(hlc_store_accept_report(&store, (uint16_t)(i % nodes), i / nodes, STAMP(i + 1), &word));
    }
    end("turns", nodes, 2048);
    begin();
    for (uint64_t i = 0; i < TIMES; i++) {
        must(hlc_store_accept_report(&store, 0, 2048 / nodes + i, STAMP(i + 2049), &word));
    }
    end("reports", nodes, TIMES);
    begin();
    for (int i = 0; i < TIMES; i++) must(hlc_store_floor(&store, &word));
    end("node-floor", nodes, TIMES);
    hlc_store_close(&store);
}

/* The newest of so many open snapshots is found at once. */
static void measure_snapshots(uint64_t snapshots)
{
    hlc_store store = HLC_CLOSED_STORE;
    uint64_t id = 0;
    fill(&store, FEW_KEYS, true);
    for (uint64_t i = 0; i < snapshots; i++) id = open_at_floor(&store);
    begin();
    for (int i = 0; i < TIMES; i++) read_key(&store, id, 7);
    end("snapshot", snapshots, TIMES);
    hlc_store_close(&store);
}

/* A value that is read in place is not passed over. */
static void measure_views(size_t value_len)
{
    static uint8_t value[65535];
    hlc_store store = HLC_CLOSED_STORE;
    const uint8_t *at;
    uint64_t word;
    size_t len;
    must(hlc_store_open(&store, 1));
    must(hlc_store_accept_write(&store, 0, 0, STAMP(1), (const uint8_t *)"k", 1, value, value_len, &word));
    uint64_t id = open_at_floor(&store);
    begin();
    for (int i = 0; i < TIMES; i++) must(hlc_snapshot_view(&store, id, (const uint8_t *)"k", 1, &at, &len));
    end("view", value_len, TIMES);
    hlc_store_close(&store);
}

/* A restore in small pieces costs what its bytes cost. */
static void measure_pieces(uint64_t keys)
{
    hlc_store store = HLC_CLOSED_STORE;
    hlc_output output = HLC_NO_OUTPUT;
    hlc_restoring restoring = HLC_NO_RESTORING;
    size_t len, at = 0, read;
    uint64_t tag;
    fill(&store, keys, false);
    must(hlc_checkpoint_make(&store, 0, &output, &len));
    hlc_store_close(&store);
    must(hlc_restoring_start(&restoring));
    begin();
    while (at < len) {
        uint8_t piece[512];
        must(hlc_output_read(&output, at, piece, sizeof piece, &read));
        must(hlc_restoring_feed(&restoring, piece, read));
        at += read;
    }
    must(hlc_restoring_finish(&restoring, &store, &tag));
    end("pieces", keys, keys);
    hlc_output_drop(&output);
    hlc_store_close(&store);
}

/* The bytes of an output, which is dropped. */
static uint8_t *taken(hlc_output *output, size_t len)
{
    uint8_t *bytes = malloc(len);
    size_t read;
    if (!bytes) exit(1);
    must(hlc_output_read(output, 0, bytes, len, &read));
    hlc_output_drop(output);
    return bytes;
}

/* Ends what is measured, and prints how often its memory grew. */
static void end_growth(const char *name, uint64_t size)
{
    end(name, size, size);
    printf("%s %" PRIu64 "\n", name, grown);
}

/* An increment in which each of the keys has a further row, and the checkpoint that it and the older one make; then the
 * two parts of that, and what these make. */
static void measure_checkpoints(uint64_t keys)
{
    hlc_store store = HLC_CLOSED_STORE;
    hlc_output output = HLC_NO_OUTPUT, other = HLC_NO_OUTPUT;
    size_t older_len, increment_len, len, left_len, right_len;
    uint8_t key[16];
    uint64_t word;
    fill(&store, keys, true);
    must(hlc_checkpoint_make(&store, 0, &output, &older_len));
    uint8_t *older = taken(&output, older_len);
    for (uint64_t i = 0; i < keys; i++) put(&store, keys + i, scattered(i, keys));
    begin();
    must(hlc_increment_make(&store, STAMP(keys), 0, &output, &increment_len, &word));
    end("increment", keys, keys);
    hlc_store_close(&store);
    uint8_t *increment = taken(&output, increment_len);
    begin();
    must(hlc_increment_apply(older, older_len, increment, increment_len, &output, &len, &word));
    end_growth("apply", keys);
    free(older);
    free(increment);
    uint8_t *whole = taken(&output, len);
    begin();
    must(hlc_checkpoint_split(whole, len, key, key_of(keys / 2, key), &output, &other, &left_len, &right_len, &word));
    end_growth("split", keys);
    free(whole);
    uint8_t *left = taken(&output, left_len), *right = taken(&other, right_len);
    begin();
    must(hlc_checkpoint_merge(left, left_len, right, right_len, &output, &len, &word));
    end_growth("merge", keys);
    hlc_output_drop(&output);
    free(left);
    free(right);
}

/* Makes a certificate, which has two lines for each key, and checks it. */
static void measure_certificate(uint64_t keys)
{
    hlc_store store = HLC_CLOSED_STORE;
    hlc_output output = HLC_NO_OUTPUT;
    uint64_t word, kept, cost;
    size_t len;
    fill(&store, keys, true);
    begin();
    must(hlc_certificate_make(&store, STAMP(keys), &word, &kept, &cost, &output, &len));
    end("certificate", keys, keys);
    hlc_store_close(&store);
    uint8_t *text = taken(&output, len);
    begin();
    must(hlc_certificate_check(text, len, &kept, &cost, &word));
    end("check", keys, keys);
    if (kept != keys) exit(1);
    free(text);
}

/* Prints what a store of so many keys takes. */
static void print_memory(const char *name, uint64_t keys, bool scatter)
{
    hlc_store store = HLC_CLOSED_STORE;
    uint64_t before = live;
    fill(&store, keys, scatter);
    printf("%s %" PRIu64 "\n", name, live - before);
    hlc_store_close(&store);
    if (live != before) exit(1);
}

int main(void)
{
    CALLGRIND_STOP_INSTRUMENTATION;
    measure_keys(FEW_KEYS);
    measure_keys(MANY_KEYS);
    measure_changes(FEW_KEYS);
    measure_changes(MANY_KEYS);
    measure_first_keys(FEW_KEYS);
    measure_first_keys(MANY_KEYS);
    measure_versions(1024);
    measure_versions(65536);
    measure_nodes(6400);
    measure_nodes(64000);
    measure_batches();
    measure_many_nodes(1);
    measure_many_nodes(1024);
    measure_snapshots(1);
    measure_snapshots(1024);
    measure_views(64);
    measure_views(65535);
    measure_pieces(1024);
    measure_pieces(16384);
    measure_checkpoints(1024);
    measure_checkpoints(16384);
    measure_certificate(1024);
    measure_certificate(16384);
    print_memory("rising", MANY_KEYS, false);
    print_memory("scattered", MANY_KEYS, true);
    return 0;
}
