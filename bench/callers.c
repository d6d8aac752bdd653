/* What a call of the C library costs from C, in ns: the least of nine runs. */
#include "hlcstore_inline.h"
#include <stdio.h>
#include <stdlib.h>
#include <string.h>
#include <time.h>

#define WRITES 100000
#define KEYS 1000
#define BATCH 1000
#define ITEM 64

#define MANY_KEYS 1000000

#define KINDS 22
#define LONG 4096

static double least[KINDS];
static hlc_store store = HLC_CLOSED_STORE;

static double now(void)
{
    struct timespec t;
    clock_gettime(CLOCK_MONOTONIC, &t);
    return t.tv_sec * 1e9 + t.tv_nsec;
}

static void take(int kind, double started, int calls)
{
    double each = (now() - started) / calls;
    if (least[kind] == 0 || each < least[kind]) least[kind] = each;
}

static void key_of(uint8_t *key, int n)
{
    memcpy(key, "key00000", 8);
    for (int i = 7; n > 0; i--, n /= 10) key[i] = '0' + n % 10;
}

static void must(uint32_t code)
{
    if (code != HLC_OK) exit(1);
}

static void fill(void)
{
    uint8_t key[8], value[8] = "value000";
    uint64_t word;
    for (int i = 0; i < WRITES; i++) {
        key_of(key, i % KEYS);
        must(hlc_store_accept_write(&store, 0, i, (uint64_t)(i + 1) << 16, key, 8, value, 8, &word));
    }
}

static void fill_in_batches(void)
{
    static hlc_entry entries[BATCH];
    static uint8_t bytes[BATCH * 16];
    uint64_t word;
    size_t many;
    for (int start = 0; start < WRITES; start += BATCH) {
        for (int i = 0; i < BATCH; i++) {
            key_of(bytes + 16 * i, (start + i) % KEYS);
            memcpy(bytes + 16 * i + 8, "value000", 8);
            entries[i] = (hlc_entry){ 0, false, start + i, (uint64_t)(start + i + 1) << 16, 16 * i, 8, 16 * i + 8, 8 };
        }
        must(hlc_store_accept_all(&store, entries, BATCH, bytes, sizeof bytes, &many, &word));
    }
}

static void fill_from_logs(uint8_t logs[WRITES / BATCH][BATCH * ITEM], const size_t *lens)
{
    size_t used, many;
    uint64_t word;
    for (int i = 0; i < WRITES / BATCH; i++) must(hlc_store_accept_items(&store, logs[i], lens[i], &used, &many,
                                                                         &word));
}

/* Measures the same writes as the items of logs. */
static void take_logs(int kind)
{
    static uint8_t logs[WRITES / BATCH][BATCH * ITEM];
    size_t lens[WRITES / BATCH] = { 0 }, len;
    uint8_t key[8];
    for (int i = 0; i < WRITES; i++) {
        size_t *end = &lens[i / BATCH];
        key_of(key, i % KEYS);
        must(hlc_item_encode_write(0, i, (uint64_t)(i + 1) << 16, key, 8, (const uint8_t *)"value000", 8,
                                   logs[i / BATCH] + *end, sizeof *logs - *end, &len));
        *end += len;
    }
    must(hlc_store_open(&store, 1));
    double t = now();
    fill_from_logs(logs, lens);
    take(kind, t, WRITES);
    hlc_store_close(&store);
}

/* Measures writes that a node issues and the store accepts: one by one, or a batch of `size` at once. There are `keys`
   keys, of which each is `step` after the one before it. A store of many keys has one version of each before. */
static void take_issued(int kind, int size, long step, long keys)
{
    static uint8_t room[HLC_MAX_BATCH * 32];
    hlc_node node = hlc_node_open(0, 0);
    uint64_t number, stamp, word, reading = 0;
    uint8_t key[8];
    must(hlc_store_open(&store, 1));
    for (; keys > KEYS && reading < (uint64_t)keys; reading++) {
        key_of(key, (int)reading);
        must(hlc_node_write(&node, reading, key, 8, (const uint8_t *)"value000", 8, &number, &stamp));
        must(hlc_store_accept_write(&store, 0, number, stamp, key, 8, (const uint8_t *)"value000", 8, &word));
    }
    double t = now();
    for (int start = 0; start < WRITES; start += size > 0 ? size : 1, reading++) {
        if (size == 0) {
            key_of(key, start * step % keys);
            must(hlc_node_write(&node, reading, key, 8, (const uint8_t *)"value000", 8, &number, &stamp));
            must(hlc_store_accept_write(&store, 0, number, stamp, key, 8, (const uint8_t *)"value000", 8, &word));
            continue;
        }
        hlc_batch batch = hlc_batch_in(room, sizeof room);
        for (int i = 0; i < size; i++) {
            key_of(key, (start + i) * step % keys);
            must(hlc_batch_write(&batch, key, 8, (const uint8_t *)"value000", 8));
        }
        must(hlc_node_write_batch(&node, reading, batch.count, batch.at, batch.len, &number, &stamp));
        must(hlc_store_accept_batch(&store, 0, number, stamp, batch.count, batch.at, batch.len, &word));
    }
    take(kind, t, WRITES);
    hlc_store_close(&store);
}

/* Measures many reads in one call, and a scan per key. */
static void take_many(uint64_t id, int read, int scan)
{
    static uint8_t bytes[KEYS * 8], out[1 << 17];
    static hlc_place places[KEYS];
    size_t len, many;
    for (int i = 0; i < KEYS; i++) {
        key_of(bytes + 8 * i, i * 7 % KEYS);
        places[i] = (hlc_place){ 8 * i, 8 };
    }
    double t = now();
    must(hlc_snapshot_read_all(&store, id, places, KEYS, bytes, sizeof bytes, out, sizeof out, &len, &many));
    take(read, t, KEYS);
    t = now();
    must(hlc_snapshot_scan(&store, id, NULL, 0, NULL, 0, out, sizeof out, &len, &many));
    take(scan, t, KEYS);
}

/* Measures reads of a key of one version, copied and in place, with a sum of the first and last bytes of each. */
static void take_reads(int copied, int in_place, size_t value_len)
{
    static uint8_t value[LONG], out[LONG];
    const uint8_t *at;
    uint64_t id, word, sum = 0, again = 0;
    uint8_t key[8];
    size_t len;
    must(hlc_store_open(&store, 1));
    for (int i = 0; i < KEYS; i++) {
        key_of(key, i);
        value[0] = (uint8_t)i;
        must(hlc_store_accept_write(&store, 0, i, (uint64_t)(i + 1) << 16, key, 8, value, value_len, &word));
    }
    must(hlc_snapshot_open_at_floor(&store, &id, &word));
    double t = now();
    for (int i = 0; i < WRITES; i++) {
        key_of(key, i * 7 % KEYS);
        must(hlc_snapshot_read(&store, id, key, 8, out, sizeof out, &len));
        sum += out[0] + out[len - 1];
    }
    take(copied, t, WRITES);
    t = now();
    for (int i = 0; i < WRITES; i++) {
        key_of(key, i * 7 % KEYS);
        must(hlc_snapshot_view(&store, id, key, 8, &at, &len));
        again += at[0] + at[len - 1];
    }
    take(in_place, t, WRITES);
    if (sum != again) exit(1);
    hlc_store_close(&store);
}

int main(void)
{
    static const char *names[] = { "accept of a write", "the same, by 1000", "rows", "floor", "a refused write",
                                   "read, 100 versions", "node's write", "accept from a log, by 1000",
                                   "read, by 1000", "scan, a key", "a write, issued and accepted",
                                   "a batch of 1", "a batch of 10, a key", "a batch of 100, a key",
                                   "read, 8 bytes", "the same in place", "read, 4096 bytes", "the same in place",
                                   "a write, keys in no order", "a batch of 100 of them, a key",
                                   "a write, a million keys", "a batch of 100 of them, a key" };
    uint64_t word, id, at, number;
    uint8_t key[8], out[64];
    size_t len;
    for (int run = 0; run < 9; run++) {
        hlc_node node = hlc_node_open(0, 0);
        take_issued(10, 0, 1, KEYS);
        take_issued(11, 1, 1, KEYS);
        take_issued(12, 10, 1, KEYS);
        take_issued(13, 100, 1, KEYS);
        take_issued(18, 0, 389, KEYS);
        take_issued(19, 100, 389, KEYS);
        take_issued(20, 0, 389171, MANY_KEYS);
        take_issued(21, 100, 389171, MANY_KEYS);
        take_reads(14, 15, 8);
        take_reads(16, 17, LONG);
        take_logs(7);
        must(hlc_store_open(&store, 1));
        double t = now();
        fill_in_batches();
        take(1, t, WRITES);
        hlc_store_close(&store);
        must(hlc_store_open(&store, 1));
        t = now();
        fill();
        take(0, t, WRITES);
        t = now();
        for (int i = 0; i < WRITES; i++) must(hlc_store_rows(&store, &word));
        take(2, t, WRITES);
        t = now();
        for (int i = 0; i < WRITES; i++) must(hlc_store_floor(&store, &at));
        take(3, t, WRITES);
        key_of(key, 5);
        t = now();
        for (int i = 0; i < WRITES; i++) {
            if (hlc_store_accept_write(&store, 0, 1, 1, key, 8, key, 8, &word) == HLC_OK) exit(1);
        }
        take(4, t, WRITES);
        must(hlc_snapshot_open_at_floor(&store, &id, &at));
        t = now();
        for (int i = 0; i < WRITES; i++) {
            key_of(key, i * 7 % KEYS);
            must(hlc_snapshot_read(&store, id, key, 8, out, sizeof out, &len));
        }
        take(5, t, WRITES);
        take_many(id, 8, 9);
        hlc_store_close(&store);
        t = now();
        for (int i = 0; i < WRITES; i++) must(hlc_node_write(&node, i, key, 8, key, 8, &number, &word));
        take(6, t, WRITES);
    }
    for (int kind = 0; kind < KINDS; kind++) printf("C: %s %.1f\n", names[kind], least[kind]);
}
