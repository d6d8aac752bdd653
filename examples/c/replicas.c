/* Two stores accept the same items in different orders. In each a node joins at the same start and a vacuum drops rows
 * up to the same stamp, while their floors (closed timestamps) differ: both assign the same number to the node, keep
 * the same rows, and return the same answers. */
#include "expect.h"

#define START AT(25)
#define THRESHOLD AT(20)

struct item {
    uint16_t node;
    uint64_t number, stamp;
    const char *key, *value;
};

static const struct item items[] = {
    { 0, 0, AT(10), "city", "Lyon" },  { 1, 0, AT(11), "river", "Rhone" }, { 0, 1, AT(20), "city", "Paris" },
    { 1, 1, AT(21), "river", "Seine" }, { 0, 2, AT(30), "city", "Nice" },  { 2, 0, AT(26), "town", "Arles" },
};

/* The items that each store accepts before the join, and those after it. */
static const int before[2][5] = { { 0, 1, 2, 3, -1 }, { 1, 3, 0, 2, 4 } };
static const int behind[2][2] = { { 4, 5 }, { 5, -1 } };
static const uint64_t floors[2] = { AT(20), AT(21) };

static void accept(hlc_store *store, const int *indices, int many)
{
    uint64_t word;
    for (int i = 0; i < many && indices[i] >= 0; i++) {
        const struct item *item = &items[indices[i]];
        uint32_t code = hlc_store_accept_write(store, item->node, item->number, item->stamp, (const uint8_t *)item->key,
                                               strlen(item->key), (const uint8_t *)item->value, strlen(item->value),
                                               &word);
        expect("accept", code, word, HLC_OK, item->stamp);
    }
}

/* Makes the join and the vacuum, each of which is refused at another stamp first. */
static void join_and_vacuum(hlc_store *store, uint64_t floor)
{
    uint64_t word, kept, bytes, dropped;
    uint16_t node;
    uint32_t code = hlc_store_floor(store, &word);
    expect("floor", code, word, HLC_OK, floor);
    code = hlc_store_join_at(store, floor - 1, &node, &word);
    expect("join below the floor", code, word, HLC_BELOW_FLOOR, floor);
    code = hlc_store_join_at(store, START, &node, &word);
    expect("join", code, word, HLC_OK, START);
    expect("node", code, node, HLC_OK, 2);
    code = hlc_store_check_vacuum(store, floor + 1, &word);
    expect("check above the floor", code, word, HLC_ABOVE_FLOOR, floor);
    code = hlc_store_vacuum_to(store, floor + 1, &word, &kept, &bytes, &dropped);
    expect("vacuum above the floor", code, word, HLC_ABOVE_FLOOR, floor);
    code = hlc_store_vacuum_to(store, THRESHOLD, &word, &kept, &bytes, &dropped);
    expect("vacuum", code, word, HLC_OK, THRESHOLD);
    expect("kept", code, kept, HLC_OK, 2);
    expect("bytes", code, bytes, HLC_OK, 39);
    expect("dropped", code, dropped, HLC_OK, 1);
    code = hlc_store_check_vacuum(store, THRESHOLD - 1, &word);
    expect("check below the horizon", code, word, HLC_BELOW_HORIZON, THRESHOLD);
}

/* Writes the certificate of what the vacuum to the threshold left, then a listing at the threshold and one at 21.0, and
 * returns their length. */
static size_t answers(hlc_store *store, uint8_t *out, size_t room)
{
    hlc_output output = HLC_NO_OUTPUT;
    uint64_t id, word, kept, cost;
    size_t len, all;
    uint32_t code = hlc_certificate_make(store, THRESHOLD, &word, &kept, &cost, &output, &len);
    expect("certificate", code, kept, HLC_OK, 2);
    code = hlc_output_read(&output, 0, out, room, &all);
    expect("its bytes", code, all, HLC_OK, len);
    hlc_output_drop(&output);
    for (uint64_t at = 20; at < 22; at++) {
        code = hlc_snapshot_open(store, AT(at), &id);
        expect("snapshot", code, id, HLC_OK, at - 19);
        code = hlc_snapshot_list(store, id, out + all, room - all, &len);
        expect("list", code, len, HLC_OK, 51);
        all += len;
    }
    code = hlc_snapshot_open(store, THRESHOLD - 1, &word);
    expect("snapshot below the horizon", code, word, HLC_BELOW_HORIZON, THRESHOLD);
    return all;
}

int main(void)
{
    static uint8_t out[2][512];
    size_t len[2];
    for (int i = 0; i < 2; i++) {
        hlc_store store = HLC_CLOSED_STORE;
        expect("open", hlc_store_open(&store, 2), 0, HLC_OK, 0);
        accept(&store, before[i], 5);
        join_and_vacuum(&store, floors[i]);
        accept(&store, behind[i], 2);
        len[i] = answers(&store, out[i], sizeof out[i]);
        hlc_store_close(&store);
    }
    if (len[0] != len[1] || memcmp(out[0], out[1], len[0]) != 0) wrong++;
    return ended();
}
