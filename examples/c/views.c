/* What hlc_snapshot_view finds: the answers of hlc_snapshot_read, without a copy, at a place that stays. Values lie in
 * a row up to 30 bytes, and beside it from 31 on. It is compiled as C and as C++. */
#include "expect.h"

#define LENGTHS 7

static const size_t lengths[LENGTHS] = { 0, 1, 29, 30, 31, 4096, HLC_MAX_VALUE };
static uint8_t bytes[HLC_MAX_VALUE], out[HLC_MAX_VALUE];
static uint64_t number, reading;

/* The bytes of the value of a write. */
static const uint8_t *value_of(uint64_t write, size_t len)
{
    for (size_t i = 0; i < len; i++) bytes[i] = (uint8_t)(write * 31 + i * 7);
    return bytes;
}

static void accept_value(hlc_store *store, uint8_t key, size_t len)
{
    uint64_t word;
    EXPECT(hlc_store_accept_write(store, 0, number, AT(++reading), &key, 1, value_of(number, len), len, &word), HLC_OK);
    number++;
}

static void accept_deletion(hlc_store *store, uint8_t key)
{
    uint64_t word;
    EXPECT(hlc_store_accept_delete(store, 0, number++, AT(++reading), &key, 1, &word), HLC_OK);
}

/* Compares the two reads of a key, and returns where the value lies. */
static const uint8_t *view_as_read(hlc_store *store, uint64_t id, const uint8_t *key, size_t key_len)
{
    const uint8_t *value = bytes;
    size_t len = 1, read_len;
    hlc_answer read = hlc_snapshot_read(store, id, key, key_len, out, sizeof out, &read_len);
    EXPECT(hlc_snapshot_view(store, id, key, key_len, &value, &len), read);
    EXPECT(len, read_len);
    EXPECT(value != NULL, read == HLC_OK);
    EXPECT(value == NULL || memcmp(value, out, len) == 0, true);
    return value;
}

/* Values of each length, and what is read where there is none. All places stay while there is no call that changes the
 * store, however many calls read it. */
static void view_lengths(void)
{
    hlc_store store = HLC_CLOSED_STORE, moved;
    const uint8_t *places[LENGTHS];
    uint64_t id, stamp;
    number = reading = 0;
    EXPECT(view_as_read(&store, 1, (const uint8_t *)"a", 1) == NULL, true);
    EXPECT(hlc_store_open(&store, 1), HLC_OK);
    for (uint8_t key = 0; key < LENGTHS; key++) accept_value(&store, key, lengths[key]);
    accept_value(&store, LENGTHS, 1);
    accept_deletion(&store, LENGTHS);
    EXPECT(hlc_snapshot_open_at_floor(&store, &id, &stamp), HLC_OK);
    for (uint8_t key = 0; key < LENGTHS; key++) places[key] = view_as_read(&store, id, &key, 1);
    for (uint8_t key = LENGTHS; key < LENGTHS + 2; key++) EXPECT(view_as_read(&store, id, &key, 1) == NULL, true);
    EXPECT(view_as_read(&store, id, NONE) == NULL, true);
    EXPECT(view_as_read(&store, id + 1, (const uint8_t *)"", 1) == NULL, true);
    moved = store;
    for (uint8_t key = 0; key < LENGTHS; key++) {
        EXPECT(view_as_read(HLC_COPY(&moved), id, &key, 1) == places[key], true);
        EXPECT(memcmp(places[key], value_of(key, lengths[key]), lengths[key]), 0);
    }
    EXPECT(hlc_snapshot_close(&moved, id, &stamp), HLC_OK);
    EXPECT(view_as_read(&moved, id, (const uint8_t *)"", 1) == NULL, true);
    hlc_store_close(&moved);
    EXPECT(view_as_read(&moved, id, (const uint8_t *)"", 1) == NULL, true);
}

/* Calls that may run beside reads leave the bytes where they are. */
static void view_beside(void)
{
    hlc_store store = HLC_CLOSED_STORE;
    hlc_saving saving = HLC_NO_SAVING;
    hlc_output output = HLC_NO_OUTPUT;
    const uint8_t key = 1, other = 2;
    uint64_t id, word, len;
    size_t made;
    number = reading = 0;
    EXPECT(hlc_store_open(&store, 1), HLC_OK);
    accept_value(&store, key, 20);
    accept_value(&store, other, 300);
    EXPECT(hlc_snapshot_open_at_floor(&store, &id, &word), HLC_OK);
    const uint8_t *few = view_as_read(&store, id, &key, 1), *many = view_as_read(&store, id, &other, 1);
    EXPECT(hlc_store_check_write(&store, 0, number, AT(9), &key, 1, value_of(9, 9), 9, &word), HLC_OK);
    EXPECT(hlc_store_check_vacuum(&store, AT(1), &word), HLC_OK);
    EXPECT(hlc_checkpoint_make(&store, 7, &output, &made), HLC_OK);
    EXPECT(hlc_saving_start(&saving, &store, 7, &len), HLC_OK);
    EXPECT(len, made);
    EXPECT(hlc_snapshot_list(&store, id, out, sizeof out, &made), HLC_OK);
    EXPECT(memcmp(few, value_of(0, 20), 20), 0);
    EXPECT(memcmp(many, value_of(1, 300), 300), 0);
    hlc_saving_drop(&saving);
    hlc_output_drop(&output);
    hlc_store_close(&store);
}

/* Numbers by a rule, the same in each run. */
static uint32_t by_lot(uint32_t below)
{
    static uint32_t state = 1;
    state = state * 1664525 + 1013904223;
    return (state >> 8) % below;
}

/* Random writes and deletions of some keys, with snapshots between them, and vacuums: each snapshot's views are what it
 * reads, of closed snapshots and absent keys too. */
static void view_by_lot(void)
{
    hlc_store store = HLC_CLOSED_STORE;
    uint64_t id, word, kept, cost, dropped;
    number = reading = 0;
    EXPECT(hlc_store_open(&store, 1), HLC_OK);
    for (int round = 0; round < 40; round++) {
        for (int i = 0; i < 25; i++) {
            uint8_t key = (uint8_t)by_lot(12);
            if (by_lot(4) == 0) accept_deletion(&store, key);
            else accept_value(&store, key, by_lot(64));
        }
        EXPECT(hlc_snapshot_open_at_floor(&store, &id, &word), HLC_OK);
        if (by_lot(3) == 0) {
            hlc_answer closed = hlc_snapshot_close(&store, 1 + by_lot((uint32_t)id), &word);
            EXPECT(closed == HLC_OK || closed == HLC_NO_SNAPSHOT, true);
        }
        if (by_lot(3) == 0) EXPECT(hlc_store_vacuum(&store, &word, &kept, &cost, &dropped), HLC_OK);
        for (uint64_t at = 0; at <= id + 1; at++) {
            for (uint8_t key = 0; key < 14; key++) view_as_read(&store, at, &key, 1);
        }
    }
    hlc_store_close(&store);
}

int main(void)
{
    view_lengths();
    view_beside();
    view_by_lot();
    return ended();
}
