/* Each limit of hlcstore.h: the library takes as much, and refuses one more; and the greatest lengths of what it
 * writes, of which a buffer of so many bytes gets one. It is compiled as C and as C++. */
#include "expect.h"

#define KEY key, HLC_MAX_KEY
#define VALUE value, HLC_MAX_VALUE

static uint8_t key[HLC_MAX_KEY + 1], value[HLC_MAX_VALUE + 1];
/* Room for one of each, and a byte more. */
static uint8_t out[HLC_MAX_ITEM + 1];

/* A stamp at a millisecond has its counter at 0. */
static void limit_stamps(void)
{
    hlc_node node = hlc_node_open(0, 0);
    uint64_t number, word;
    EXPECT(HLC_STAMP(HLC_MAX_PHYSICAL, HLC_MAX_COUNTER), HLC_MAX_STAMP);
    EXPECT(hlc_node_report(&node, HLC_MAX_PHYSICAL + 1, &number, &word), HLC_READING_TOO_LARGE);
    EXPECT(hlc_node_report(&node, HLC_MAX_PHYSICAL, &number, &word), HLC_OK);
    EXPECT(word, HLC_STAMP(HLC_MAX_PHYSICAL, 0));
    node = hlc_node_open(0, HLC_STAMP(5, HLC_MAX_COUNTER - 1));
    EXPECT(hlc_node_report(&node, 5, &number, &word), HLC_OK);
    EXPECT(word, HLC_STAMP(5, HLC_MAX_COUNTER));
    EXPECT(hlc_node_report(&node, 5, &number, &word), HLC_COUNTER_FULL);
    EXPECT(word, HLC_STAMP(5, HLC_MAX_COUNTER));
    EXPECT(hlc_node_restore(0, HLC_MAX_STAMP - 1, HLC_MAX_NUMBER, &node), HLC_OK);
    EXPECT(hlc_node_report(&node, 0, &number, &word), HLC_OK);
    EXPECT(number, HLC_MAX_NUMBER);
    EXPECT(word, HLC_MAX_STAMP);
    EXPECT(hlc_node_report(&node, 0, &number, &word), HLC_NUMBERS_SPENT);
}

static void limit_items(void)
{
    hlc_node node = hlc_node_open(0, 0);
    uint64_t number, word;
    size_t len;
    EXPECT(hlc_node_write(&node, 1, NONE, VALUE, &number, &word), HLC_BAD_KEY);
    EXPECT(hlc_node_write(&node, 1, key, HLC_MAX_KEY + 1, VALUE, &number, &word), HLC_BAD_KEY);
    EXPECT(hlc_node_write(&node, 1, KEY, value, HLC_MAX_VALUE + 1, &number, &word), HLC_VALUE_TOO_LONG);
    EXPECT(hlc_node_write(&node, 1, KEY, VALUE, &number, &word), HLC_OK);
    EXPECT(hlc_item_encode_write(0, number, word, KEY, VALUE, out, HLC_MAX_ITEM, &len), HLC_OK);
    EXPECT(len, HLC_MAX_ITEM);
    EXPECT(hlc_record_encode_join(1, word, out, sizeof out, &len), HLC_OK);
    EXPECT(len, HLC_JOIN_LEN);
    EXPECT(hlc_record_encode_threshold(word, out, sizeof out, &len), HLC_OK);
    EXPECT(len, HLC_THRESHOLD_LEN);
}

static void limit_nodes(void)
{
    hlc_store store = HLC_CLOSED_STORE;
    uint64_t word, many;
    uint16_t node;
    EXPECT(hlc_store_open(&store, 0), HLC_BAD_NODE_COUNT);
    EXPECT(hlc_store_open(&store, HLC_MAX_INITIAL_NODES + 1), HLC_BAD_NODE_COUNT);
    EXPECT(hlc_store_open(&store, HLC_MAX_INITIAL_NODES), HLC_OK);
    for (int i = HLC_MAX_INITIAL_NODES; i < HLC_MAX_NODES; i++) EXPECT(hlc_store_join(&store, &node, &word), HLC_OK);
    EXPECT(hlc_store_join(&store, &node, &word), HLC_TOO_MANY_NODES);
    EXPECT(hlc_store_nodes(&store, &many), HLC_OK);
    EXPECT(many, HLC_MAX_NODES);
    hlc_store_close(&store);
}

static void limit_snapshots(void)
{
    hlc_store store = HLC_CLOSED_STORE;
    uint64_t id;
    EXPECT(hlc_store_open(&store, 1), HLC_OK);
    for (int i = 0; i < HLC_MAX_OPEN_SNAPSHOTS; i++) EXPECT(hlc_snapshot_open(&store, 0, &id), HLC_OK);
    EXPECT(hlc_snapshot_open(&store, 0, &id), HLC_TOO_MANY_SNAPSHOTS);
    hlc_store_close(&store);
}

/* Reads the largest pair in each way. The first snapshot is before it, the second one after. */
static void read_largest(hlc_store *store)
{
    const hlc_place place = { 0, HLC_MAX_KEY };
    const size_t pair = HLC_MAX_PAIR, listed = HLC_MAX_LISTED_KEY, change = HLC_MAX_CHANGE;
    size_t len, many;
    EXPECT(hlc_snapshot_list(store, 2, out, 0, &len), HLC_OK);
    EXPECT(len, HLC_MAX_PAIR);
    EXPECT(hlc_snapshot_scan(store, 2, NONE, NONE, out, pair - 1, &len, &many), HLC_MORE);
    EXPECT(hlc_snapshot_scan(store, 2, NONE, NONE, out, pair, &len, &many), HLC_OK);
    EXPECT(len, HLC_MAX_PAIR);
    EXPECT(hlc_snapshot_scan_back(store, 2, NONE, NONE, out, pair - 1, &len, &many), HLC_MORE);
    EXPECT(hlc_snapshot_scan_back(store, 2, NONE, NONE, out, pair, &len, &many), HLC_OK);
    EXPECT(hlc_snapshot_scan_keys(store, 2, NONE, NONE, out, listed - 1, &len, &many), HLC_MORE);
    EXPECT(hlc_snapshot_scan_keys(store, 2, NONE, NONE, out, listed, &len, &many), HLC_OK);
    EXPECT(hlc_snapshot_changes(store, 1, 2, NONE, NONE, out, change - 1, &len, &many), HLC_MORE);
    EXPECT(hlc_snapshot_changes(store, 1, 2, NONE, NONE, out, change, &len, &many), HLC_OK);
    EXPECT(hlc_snapshot_read_all(store, 2, &place, 1, KEY, out, HLC_MAX_READ_ANSWER - 1, &len, &many), HLC_MORE);
    EXPECT(hlc_snapshot_read_all(store, 2, &place, 1, KEY, out, HLC_MAX_READ_ANSWER, &len, &many), HLC_OK);
    EXPECT(len, HLC_MAX_READ_ANSWER);
    EXPECT(hlc_store_versions(store, KEY, 0, HLC_MAX_STAMP, out, 0, &len, &many), HLC_OK);
    EXPECT(len, HLC_MAX_ROW);
    EXPECT(hlc_snapshot_digest(store, 2, NONE, NONE, out, sizeof out, &len), HLC_OK);
    EXPECT(len, HLC_DIGEST_LEN);
}

static void limit_outputs(void)
{
    hlc_store store = HLC_CLOSED_STORE;
    uint64_t id, word, kept, cost, dropped;
    EXPECT(hlc_store_open(&store, 1), HLC_OK);
    EXPECT(hlc_snapshot_open(&store, 0, &id), HLC_OK);
    EXPECT(hlc_store_accept_write(&store, 0, 0, HLC_STAMP(1, 0), KEY, VALUE, &word), HLC_OK);
    EXPECT(hlc_snapshot_open(&store, HLC_STAMP(1, 0), &id), HLC_OK);
    EXPECT(id, 2);
    read_largest(&store);
    EXPECT(hlc_store_vacuum(&store, &word, &kept, &cost, &dropped), HLC_OK);
    EXPECT(cost, HLC_MAX_KEY + HLC_MAX_VALUE + HLC_ROW_COST);
    hlc_store_close(&store);
}

int main(void)
{
    limit_stamps();
    limit_items();
    limit_nodes();
    limit_snapshots();
    limit_outputs();
    return ended();
}
