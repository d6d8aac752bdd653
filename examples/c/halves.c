/* A checkpoint of a store is divided at a key while its nodes go on writing. The store and both halves take the rest of
 * the log: each half takes a write of a key of the other as a report. A half answers as the store does at each of its
 * keys, and no key of the other half is in it. Joined again, the halves are byte for byte the checkpoint of the store.
 * The items are random, of a fixed seed. */
#include "expect.h"
#include <stdlib.h>

#define NODES 3
#define KEYS 26
#define ROUNDS 200
#define BOUND 'k'

static uint32_t seed = 1;

static uint32_t pick(uint32_t below)
{
    seed = seed * 1664525 + 1013904223;
    return (seed >> 8) % below;
}

/* Bytes that a call made. */
struct bytes {
    uint8_t *at;
    size_t len;
};

/* Moves the bytes of an output out of it. */
static struct bytes taken(hlc_output *output, size_t len)
{
    struct bytes bytes = { malloc(len ? len : 1), len };
    size_t all;
    uint32_t code = hlc_output_read(output, 0, bytes.at, len, &all);
    expect("output", code, all, HLC_OK, len);
    hlc_output_drop(output);
    return bytes;
}

static struct bytes checkpoint_of(hlc_store *store)
{
    hlc_output output = HLC_NO_OUTPUT;
    size_t len;
    uint32_t code = hlc_checkpoint_make(store, 7, &output, &len);
    expect("checkpoint", code, 0, HLC_OK, 0);
    return taken(&output, len);
}

/* Gives an item to the store and to both halves: a write of a key to the half of other keys as a report. */
static void give(hlc_store *stores, int many, uint16_t node, uint64_t number, uint64_t stamp, uint8_t key)
{
    uint8_t value[2] = { (uint8_t)number, (uint8_t)node };
    uint64_t word;
    for (int i = 0; i < many; i++) {
        int is_here = i == 0 || (i == 1) == (key < BOUND);
        uint32_t code = !is_here          ? hlc_store_accept_report(&stores[i], node, number, stamp, &word)
                        : number % 5 == 4 ? hlc_store_accept_delete(&stores[i], node, number, stamp, &key, 1, &word)
                                          : hlc_store_accept_write(&stores[i], node, number, stamp, &key, 1, value, 2,
                                                                   &word);
        expect("accept", code, word, HLC_OK, stamp);
    }
}

/* Gives the next items of the log. */
static void write_on(hlc_store *stores, int many, uint64_t *numbers, uint64_t *time, int items)
{
    for (int i = 0; i < items; i++) {
        uint16_t node = (uint16_t)pick(NODES);
        give(stores, many, node, numbers[node]++, AT(++*time), (uint8_t)('a' + pick(KEYS)));
    }
}

/* Compares the answers of the halves with those of the store at the floor, and vacuums all three to it. */
static void compare(hlc_store *stores)
{
    uint64_t ids[3], stamps[3], word, kept[3], bytes, dropped;
    for (int i = 0; i < 3; i++) {
        uint32_t code = hlc_snapshot_open_at_floor(&stores[i], &ids[i], &stamps[i]);
        expect("snapshot", code, stamps[i], HLC_OK, stamps[0]);
        expect("id", code, ids[i], HLC_OK, ids[0]);
    }
    for (uint8_t key = 'a'; key < 'a' + KEYS; key++) {
        uint8_t value[3][8];
        size_t len[3];
        int half = key < BOUND ? 1 : 2;
        uint32_t whole = hlc_snapshot_read(&stores[0], ids[0], &key, 1, value[0], 8, &len[0]);
        uint32_t code = hlc_snapshot_read(&stores[half], ids[half], &key, 1, value[half], 8, &len[half]);
        expect("read", code, len[half], whole, len[0]);
        if (memcmp(value[half], value[0], len[0]) != 0) expect("value", code, key, HLC_OK, 0);
        code = hlc_snapshot_read(&stores[3 - half], ids[3 - half], &key, 1, value[1], 8, &len[1]);
        expect("read in the other half", code, len[1], HLC_NO_VALUE, 0);
    }
    for (int i = 0; i < 3; i++) {
        uint32_t code = hlc_snapshot_close(&stores[i], ids[i], &word);
        expect("close", code, word, HLC_OK, stamps[0]);
        code = hlc_store_vacuum_to(&stores[i], stamps[0], &word, &kept[i], &bytes, &dropped);
        expect("vacuum", code, word, HLC_OK, stamps[0]);
    }
    expect("kept", HLC_OK, kept[1] + kept[2], HLC_OK, kept[0]);
}

/* Checks that both halves are not joined, and what of them differs first. */
static void refuse(hlc_store *left, hlc_store *right, uint64_t reason)
{
    hlc_output output = HLC_NO_OUTPUT;
    struct bytes lower = checkpoint_of(left), upper = checkpoint_of(right);
    uint64_t word;
    size_t len;
    uint32_t code = hlc_checkpoint_merge(lower.at, lower.len, upper.at, upper.len, &output, &len, &word);
    expect("merge", code, word, HLC_NOT_PARTS, reason);
    code = hlc_checkpoint_merge(lower.at, lower.len, upper.at, upper.len - 1, &output, &len, &word);
    expect("merge of cut bytes", code, len + word, HLC_BAD_BYTES, 1);
    free(lower.at);
    free(upper.at);
}

/* Joins the halves again: these are the bytes of the store. They are not joined in the wrong order, nor after one of
 * them was vacuumed alone, opened a snapshot alone, or took an item alone. */
static void join(hlc_store *stores, const uint64_t *numbers, uint64_t time)
{
    hlc_output output = HLC_NO_OUTPUT;
    uint64_t word, kept, cost, dropped, id;
    size_t len;
    struct bytes whole = checkpoint_of(&stores[0]), left = checkpoint_of(&stores[1]), right = checkpoint_of(&stores[2]);
    uint32_t code = hlc_checkpoint_merge(left.at, left.len, right.at, right.len, &output, &len, &word);
    expect("merge", code, word, HLC_OK, 0);
    struct bytes both = taken(&output, len);
    if (both.len != whole.len || memcmp(both.at, whole.at, whole.len) != 0) expect("joined", code, 0, HLC_OK, 1);
    refuse(&stores[2], &stores[1], 4);
    for (uint16_t node = 0; node < NODES; node++) give(stores, 3, node, numbers[node], AT(++time), BOUND);
    code = hlc_store_vacuum(&stores[2], &word, &kept, &cost, &dropped);
    expect("vacuum of a half", code, 0, HLC_OK, 0);
    refuse(&stores[1], &stores[2], 3);
    code = hlc_snapshot_open(&stores[2], AT(time), &id);
    expect("snapshot above the floor", code, id, HLC_ABOVE_FLOOR, AT(time - NODES + 1));
    code = hlc_snapshot_open_at_floor(&stores[2], &id, &word);
    expect("snapshot of a half", code, 0, HLC_OK, 0);
    refuse(&stores[1], &stores[2], 2);
    code = hlc_store_accept_report(&stores[1], 0, numbers[0] + 1, AT(++time), &word);
    expect("report", code, word, HLC_OK, AT(time));
    refuse(&stores[1], &stores[2], 1);
    free(whole.at);
    free(left.at);
    free(right.at);
    free(both.at);
}

/* One store, which is divided between two items. */
static void divide(void)
{
    hlc_store stores[3] = { HLC_CLOSED_STORE, HLC_CLOSED_STORE, HLC_CLOSED_STORE };
    hlc_output outputs[2] = { HLC_NO_OUTPUT, HLC_NO_OUTPUT };
    uint64_t numbers[NODES] = { 0 }, time = 0, word;
    size_t len[2], none[2];
    const uint8_t bound = BOUND;
    expect("open", hlc_store_open(&stores[0], NODES), 0, HLC_OK, 0);
    write_on(stores, 1, numbers, &time, 40 + (int)pick(200));
    struct bytes whole = checkpoint_of(&stores[0]);
    uint32_t code = hlc_checkpoint_split(whole.at, whole.len, &bound, 1, &outputs[0], &outputs[1], &len[0], &len[1],
                                         &word);
    expect("split", code, word, HLC_OK, 0);
    code = hlc_checkpoint_split(whole.at, whole.len, &bound, 1, &outputs[0], &outputs[1], &none[0], &none[1], &word);
    expect("split into full outputs", code, none[0] + none[1] + word, HLC_HAS_BYTES, 0);
    for (int i = 0; i < 2; i++) {
        struct bytes half = taken(&outputs[i], len[i]);
        code = hlc_store_restore(&stores[i + 1], half.at, half.len, &word);
        expect("restore", code, word, HLC_OK, 7);
        free(half.at);
    }
    free(whole.at);
    write_on(stores, 3, numbers, &time, 40 + (int)pick(200));
    compare(stores);
    join(stores, numbers, time);
    for (int i = 0; i < 3; i++) hlc_store_close(&stores[i]);
}

int main(void)
{
    for (int i = 0; i < ROUNDS; i++) divide();
    return ended();
}
