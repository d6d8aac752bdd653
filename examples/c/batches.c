/* Several writes as one item: a snapshot shows all of them or none. The builder and the reader of hlcstore_inline.h,
 * each refusal of the calls for a batch, which leaves nothing, and the bytes of a batch, written out by hand. It is
 * compiled as C and as C++. */
#include "expect.h"

/* Whether a key has this value at a stamp, or none where the text is NULL. */
static bool has(hlc_store *store, uint64_t stamp, const char *key, const char *text)
{
    uint8_t out[64];
    uint64_t id, closed;
    hlc_bytes value = { out, 0 };
    hlc_answer answer;
    EXPECT(hlc_snapshot_open(store, stamp, &id), HLC_OK);
    answer = hlc_snapshot_read(store, id, (const uint8_t *)key, strlen(key), out, sizeof out, &value.len);
    EXPECT(hlc_snapshot_close(store, id, &closed), HLC_OK);
    return text ? answer == HLC_OK && is(value, text) : answer == HLC_NO_VALUE;
}

/* A batch that gives two keys a value and deletes a third one. */
static hlc_batch three_writes(uint8_t *room, size_t len)
{
    hlc_batch batch = hlc_batch_in(room, len);
    EXPECT(hlc_batch_write(&batch, BYTES("apple"), BYTES("red")), HLC_OK);
    EXPECT(hlc_batch_delete(&batch, BYTES("pear")), HLC_OK);
    EXPECT(hlc_batch_write(&batch, BYTES("plum"), NONE), HLC_OK);
    EXPECT(batch.count, 3);
    return batch;
}

/* The writes of that batch, and an item with them. */
static const char writes[] = "\5apple\1\0\3red\4pear\0\4plum\1\0\0";
static const char item_bytes[] = "\1\0\0\0\0\0\0\0\0\0\1\0\0\0\0\0\2\0\0\3\2\5apple\1\0\3red\4pear\0\4plum\1\0\0";

/* ---- A batch is shown whole ---- */

static void one_batch(void)
{
    uint8_t room[64];
    hlc_store store = HLC_CLOSED_STORE;
    hlc_node node = hlc_node_open(0, 0);
    hlc_store_sizes sizes;
    hlc_link_state link;
    uint64_t number, stamp, word;
    const hlc_batch batch = three_writes(room, sizeof room);
    EXPECT(batch.len == sizeof writes - 1 && memcmp(batch.at, writes, batch.len) == 0, true);
    EXPECT(hlc_store_open(&store, 1), HLC_OK);
    EXPECT(hlc_node_write(&node, 1, BYTES("pear"), BYTES("green"), &number, &stamp), HLC_OK);
    EXPECT(hlc_store_accept_write(&store, 0, number, stamp, BYTES("pear"), BYTES("green"), &word), HLC_OK);
    EXPECT(hlc_node_write_batch(&node, 2, batch.count, batch.at, batch.len, &number, &stamp), HLC_OK);
    EXPECT(number, 1);
    EXPECT(stamp, AT(2));
    EXPECT(node.next, 2);
    EXPECT(hlc_store_accept_batch(&store, 0, number, stamp, batch.count, batch.at, batch.len, &word), HLC_OK);
    EXPECT(word, AT(2));
    EXPECT(has(&store, AT(2), "apple", "red") && has(&store, AT(2), "pear", NULL) && has(&store, AT(2), "plum", ""),
           true);
    EXPECT(has(&store, AT(2) - 1, "apple", NULL) && has(&store, AT(2) - 1, "pear", "green"), true);
    EXPECT(has(&store, AT(2) - 1, "plum", NULL), true);
    EXPECT(hlc_store_get_sizes(&store, &sizes), HLC_OK);
    EXPECT(sizes.rows, 4);
    EXPECT(sizes.keys, 3);
    EXPECT(sizes.value_bytes, 5 + 3);
    EXPECT(hlc_store_get_link(&store, 0, &link), HLC_OK);
    EXPECT(link.next, 2);
    EXPECT(link.head, AT(2));
    hlc_store_close(&store);
    EXPECT(hlc_store_accept_batch(&store, 0, number, stamp, batch.count, batch.at, batch.len, &word), HLC_CLOSED);
    EXPECT(word, 0);
}

/* Writes of one stamp by two nodes: that of the greater node is read, of each key by itself. */
static void two_nodes(void)
{
    static const char first[] = "\1a\1\0\1x\1b\1\0\1x", second[] = "\1b\1\0\1y\1c\1\0\1y";
    hlc_store store = HLC_CLOSED_STORE;
    uint64_t word;
    EXPECT(hlc_store_open(&store, 2), HLC_OK);
    EXPECT(hlc_store_accept_batch(&store, 1, 0, AT(3), 2, BYTES(second), &word), HLC_OK);
    EXPECT(hlc_store_accept_batch(&store, 0, 0, AT(3), 2, BYTES(first), &word), HLC_OK);
    EXPECT(has(&store, AT(3), "a", "x") && has(&store, AT(3), "b", "y") && has(&store, AT(3), "c", "y"), true);
    EXPECT(has(&store, AT(3) - 1, "a", NULL) && has(&store, AT(3) - 1, "c", NULL), true);
    hlc_store_close(&store);
}

/* ---- Refusals ---- */

/* Bytes of 256 writes of different keys, and of one more. */
static uint8_t many_writes[HLC_MAX_BATCH * 4 + 4];

static void fill_many(void)
{
    for (size_t i = 0; i <= HLC_MAX_BATCH; i++) {
        uint8_t *one = many_writes + 4 * i;
        one[0] = 2;
        one[1] = (uint8_t)(i / 256);
        one[2] = (uint8_t)(i % 256);
        one[3] = 0;
    }
}

/* Writes that are refused, each by all three calls with this answer and this word. */
static const struct {
    size_t count;
    const char *bytes;
    size_t len;
    uint32_t answer;
    uint64_t word;
} refused[] = {
    { 0, "", 0, HLC_NO_WRITES, 0 },
    { 1, "", 0, HLC_BAD_BYTES, 1 },
    { 1, "\1", 1, HLC_BAD_BYTES, 1 },
    { 1, "\1a", 2, HLC_BAD_BYTES, 1 },
    { 1, "\1a\1", 3, HLC_BAD_BYTES, 1 },
    { 1, "\1a\1\0", 4, HLC_BAD_BYTES, 1 },
    { 1, "\1a\1\0\2x", 6, HLC_BAD_BYTES, 1 },
    { 2, "\1a\1\0\1x", 6, HLC_BAD_BYTES, 1 },
    { 2, "\1a\1\0\1x\1b", 8, HLC_BAD_BYTES, 1 },
    { 1, "\0\1\0\1x", 5, HLC_BAD_BYTES, 4 },
    { 1, "\1a\2", 3, HLC_BAD_BYTES, 5 },
    { 1, "\1a\2\0\1x", 6, HLC_BAD_BYTES, 5 },
    { 0, "\1", 1, HLC_BAD_BYTES, 6 },
    { 1, "\1a\0\1", 4, HLC_BAD_BYTES, 6 },
    { 1, "\1a\0\1b\0", 6, HLC_BAD_BYTES, 6 },
    { 2, "\1a\0\1a\0", 6, HLC_KEY_TWICE, 0 },
    { 3, "\1a\1\0\1x\1b\0\1a\0", 12, HLC_KEY_TWICE, 0 },
};

/* Whether a store and a node are as they were. */
static bool is_unchanged(const hlc_store *store, const hlc_node *node, const hlc_node *before)
{
    hlc_store_sizes sizes;
    hlc_link_state link;
    EXPECT(hlc_store_get_sizes(store, &sizes), HLC_OK);
    EXPECT(hlc_store_get_link(store, 0, &link), HLC_OK);
    return sizes.rows == 1 && sizes.keys == 1 && link.next == 1 && link.head == AT(1) && node->next == before->next &&
           node->last == before->last;
}

/* Offers some writes to all three calls, which refuse them. */
static void refuse(hlc_store *store, size_t count, const uint8_t *bytes, size_t len, uint32_t answer, uint64_t refusal)
{
    hlc_node node = hlc_node_open(0, AT(1));
    const hlc_node before = node;
    uint8_t out[64];
    uint64_t number = 1, word = 1;
    size_t out_len = 1;
    EXPECT(hlc_node_write_batch(&node, 5, count, bytes, len, &number, &word), answer);
    EXPECT(number, 0);
    EXPECT(word, refusal);
    word = 1;
    EXPECT(hlc_store_accept_batch(store, 0, 1, AT(5), count, bytes, len, &word), answer);
    EXPECT(word, refusal);
    EXPECT(hlc_item_encode_batch(0, 1, AT(5), count, bytes, len, out, sizeof out, &out_len), answer);
    EXPECT(out_len, 0);
    EXPECT(is_unchanged(store, &node, &before), true);
}

static void refuse_writes(hlc_store *store)
{
    for (size_t i = 0; i < sizeof refused / sizeof refused[0]; i++) {
        refuse(store, refused[i].count, (const uint8_t *)refused[i].bytes, refused[i].len, refused[i].answer,
               refused[i].word);
    }
    refuse(store, 0, NONE, HLC_NO_WRITES, 0);
    /* How many they are is refused before the bytes are looked at. */
    refuse(store, HLC_MAX_BATCH + 1, many_writes, sizeof many_writes, HLC_TOO_MANY_WRITES, 0);
    refuse(store, HLC_MAX_BATCH + 1, NONE, HLC_TOO_MANY_WRITES, 0);
    refuse(store, SIZE_MAX, NONE, HLC_TOO_MANY_WRITES, 0);
    many_writes[sizeof many_writes - 6] = 254;
    refuse(store, HLC_MAX_BATCH, many_writes, sizeof many_writes - 4, HLC_KEY_TWICE, 0);
    many_writes[sizeof many_writes - 6] = 255;
}

/* What the node and the store refuse of an item, whatever its writes are; faults of the bytes come before. */
static void refuse_items(hlc_store *store)
{
    hlc_node node = hlc_node_open(0, AT(1));
    uint64_t number, word;
    EXPECT(hlc_store_accept_batch(store, 1, 1, AT(5), 3, BYTES(writes), &word), HLC_NO_NODE);
    EXPECT(hlc_store_accept_batch(store, 0, 2, AT(5), 3, BYTES(writes), &word), HLC_NOT_NEXT);
    EXPECT(word, 1);
    EXPECT(hlc_store_accept_batch(store, 0, 0, AT(1), 3, BYTES(writes), &word), HLC_NOT_NEXT);
    EXPECT(hlc_store_accept_batch(store, 0, 1, AT(1), 3, BYTES(writes), &word), HLC_STAMP_NOT_RISING);
    EXPECT(word, AT(1));
    /* These come before an empty batch and a key that is there twice. */
    EXPECT(hlc_store_accept_batch(store, 0, 1, AT(1), 0, NONE, &word), HLC_STAMP_NOT_RISING);
    EXPECT(hlc_store_accept_batch(store, 0, 2, AT(5), 2, BYTES("\1a\0\1a\0"), &word), HLC_NOT_NEXT);
    EXPECT(hlc_store_accept_batch(store, 1, 0, 0, 1, BYTES("\1a\2"), &word), HLC_BAD_BYTES);
    EXPECT(word, 5);
    EXPECT(hlc_node_write_batch(&node, HLC_MAX_PHYSICAL + 1, 3, BYTES(writes), &number, &word), HLC_READING_TOO_LARGE);
    node.last = HLC_STAMP(7, HLC_MAX_COUNTER);
    EXPECT(hlc_node_write_batch(&node, 7, 3, BYTES(writes), &number, &word), HLC_COUNTER_FULL);
    EXPECT(word, HLC_STAMP(7, HLC_MAX_COUNTER));
    EXPECT(hlc_node_write_batch(&node, 7, 2, BYTES("\1a\0\1a\0"), &number, &word), HLC_KEY_TWICE);
    EXPECT(hlc_node_restore(0, HLC_MAX_STAMP, HLC_MAX_STAMP, &node), HLC_OK);
    EXPECT(hlc_node_write_batch(&node, 7, 3, BYTES(writes), &number, &word), HLC_NUMBERS_SPENT);
    EXPECT(hlc_node_write_batch(&node, 7, 0, NONE, &number, &word), HLC_NO_WRITES);
    node = hlc_node_open(0, 0);
    EXPECT(hlc_node_retire(&node, 9, &number, &word), HLC_OK);
    EXPECT(hlc_node_write_batch(&node, 10, 0, NONE, &number, &word), HLC_RETIRED);
    EXPECT(hlc_node_write_batch(&node, 10, 1, BYTES("\1"), &number, &word), HLC_BAD_BYTES);
}

/* Each refused batch leaves nothing: the next one of the link is accepted as if none had come. */
static void refusals(void)
{
    hlc_store store = HLC_CLOSED_STORE;
    uint64_t word;
    EXPECT(hlc_store_open(&store, 1), HLC_OK);
    EXPECT(hlc_store_accept_write(&store, 0, 0, AT(1), BYTES("b"), BYTES("old"), &word), HLC_OK);
    refuse_writes(&store);
    refuse_items(&store);
    EXPECT(has(&store, AT(1), "a", NULL) && has(&store, AT(1), "b", "old") && has(&store, AT(1), "apple", NULL), true);
    EXPECT(hlc_store_accept_batch(&store, 0, 1, AT(5), 3, BYTES(writes), &word), HLC_OK);
    EXPECT(has(&store, AT(5), "apple", "red") && has(&store, AT(5), "b", "old"), true);
    EXPECT(hlc_store_accept_batch(&store, 0, 2, AT(6), HLC_MAX_BATCH, many_writes, sizeof many_writes - 4, &word),
           HLC_OK);
    EXPECT(hlc_store_accept_retire(&store, 0, 3, AT(7), &word), HLC_OK);
    EXPECT(hlc_store_accept_batch(&store, 0, 4, AT(8), 3, BYTES(writes), &word), HLC_RETIRED);
    hlc_store_close(&store);
}

/* ---- The builder and the reader ---- */

static void build(void)
{
    static uint8_t long_value[HLC_MAX_VALUE + 1], room[HLC_MAX_BATCH * 4];
    uint8_t small[8], key[2];
    hlc_batch batch = hlc_batch_in(small, sizeof small);
    EXPECT(hlc_batch_write(&batch, NONE, BYTES("x")), HLC_BAD_KEY);
    EXPECT(hlc_batch_write(&batch, long_value, HLC_MAX_KEY + 1, BYTES("x")), HLC_BAD_KEY);
    EXPECT(hlc_batch_delete(&batch, NONE), HLC_BAD_KEY);
    EXPECT(hlc_batch_write(&batch, BYTES("a"), long_value, HLC_MAX_VALUE + 1), HLC_VALUE_TOO_LONG);
    EXPECT(hlc_batch_write(&batch, BYTES("abcd"), BYTES("x")), HLC_MORE);
    EXPECT(batch.len + batch.count, 0);
    EXPECT(hlc_batch_write(&batch, BYTES("abc"), BYTES("x")), HLC_OK);
    EXPECT(batch.len, sizeof small);
    EXPECT(hlc_batch_delete(&batch, BYTES("b")), HLC_MORE);
    EXPECT(batch.count, 1);
    EXPECT(memcmp(small, "\3abc\1\0\1x", sizeof small), 0);
    batch = hlc_batch_in(NULL, 0);
    EXPECT(hlc_batch_delete(&batch, BYTES("b")), HLC_MORE);
    batch = hlc_batch_in(room, sizeof room);
    for (size_t i = 0; i <= HLC_MAX_BATCH; i++) {
        key[0] = (uint8_t)(i / 256);
        key[1] = (uint8_t)(i % 256);
        EXPECT(hlc_batch_delete(&batch, key, sizeof key), i < HLC_MAX_BATCH ? HLC_OK : HLC_TOO_MANY_WRITES);
    }
    EXPECT(batch.count, HLC_MAX_BATCH);
    EXPECT(batch.len == sizeof room && memcmp(room, many_writes, sizeof room) == 0, true);
}

/* The longest batch: its room is what HLC_MAX_WRITE says, and its item has HLC_MAX_BATCH_ITEM bytes. */
static void build_longest(void)
{
    static uint8_t room[HLC_MAX_BATCH * (size_t)HLC_MAX_WRITE], key[HLC_MAX_KEY], value[HLC_MAX_VALUE];
    hlc_batch batch = hlc_batch_in(room, sizeof room);
    hlc_store store = HLC_CLOSED_STORE;
    hlc_bytes rest = { room, sizeof room };
    hlc_write write;
    size_t len, many = 0;
    uint64_t word;
    for (size_t i = 0; i < HLC_MAX_BATCH; i++) {
        key[0] = (uint8_t)i;
        EXPECT(hlc_batch_write(&batch, key, sizeof key, value, sizeof value), HLC_OK);
    }
    EXPECT(batch.len, sizeof room);
    EXPECT(hlc_item_encode_batch(0, 0, 1, batch.count, batch.at, batch.len, NONE, &len), HLC_OK);
    EXPECT(len, HLC_MAX_BATCH_ITEM);
    EXPECT(hlc_store_open(&store, 1), HLC_OK);
    EXPECT(hlc_store_accept_batch(&store, 0, 0, 1, batch.count, batch.at, batch.len, &word), HLC_OK);
    EXPECT(hlc_store_rows(&store, &word), HLC_OK);
    EXPECT(word, HLC_MAX_BATCH);
    while (hlc_write_next(&rest, &write)) many += write.key.len == sizeof key && write.value.bytes.len == sizeof value;
    EXPECT(many == HLC_MAX_BATCH && rest.len == 0, true);
    hlc_store_close(&store);
}

static void read_writes(hlc_bytes rest)
{
    hlc_write write;
    EXPECT(hlc_write_next(&rest, &write) && is(write.key, "apple") && is(write.value.bytes, "red"), true);
    EXPECT(write.value.exists, true);
    EXPECT(hlc_write_next(&rest, &write) && is(write.key, "pear") && is_none(write.value.bytes), true);
    EXPECT(write.value.exists, false);
    EXPECT(hlc_write_next(&rest, &write) && is(write.key, "plum") && is(write.value.bytes, ""), true);
    EXPECT(write.value.exists, true);
    EXPECT(hlc_write_next(&rest, &write) || rest.len > 0 || !is_none(write.key) || write.value.exists, false);
}

/* The item that is written out by hand is what the library writes, accepts and reads; cut anywhere, it is neither. */
static void read_item(void)
{
    uint8_t made[64];
    hlc_store store = HLC_CLOSED_STORE;
    hlc_bytes rest = { BYTES(item_bytes) };
    hlc_item item;
    size_t len, used, count;
    uint64_t word;
    EXPECT(hlc_item_encode_batch(0, 1, AT(2), 3, BYTES(writes), made, sizeof made, &len), HLC_OK);
    EXPECT(len == sizeof item_bytes - 1 && memcmp(made, item_bytes, len) == 0, true);
    memset(made, '#', sizeof made);
    EXPECT(hlc_item_encode_batch(0, 1, AT(2), 3, BYTES(writes), made, len - 1, &len), HLC_OK);
    EXPECT(len == sizeof item_bytes - 1 && made[0] == '#' && made[len - 1] == '#', true);
    EXPECT(hlc_item_next(&rest, &item) && rest.len == 0, true);
    EXPECT(item.kind, HLC_ITEM_BATCH);
    EXPECT(item.node, 0);
    EXPECT(item.number, 1);
    EXPECT(item.stamp, AT(2));
    EXPECT(item.count, 3);
    EXPECT(item.writes.len, sizeof writes - 1);
    EXPECT(is_none(item.key) && is_none(item.value), true);
    read_writes(item.writes);
    EXPECT(hlc_store_open(&store, 1), HLC_OK);
    EXPECT(hlc_store_accept_report(&store, 0, 0, AT(1), &word), HLC_OK);
    for (size_t cut = 1; cut < sizeof item_bytes - 1; cut++) {
        rest.at = (const uint8_t *)item_bytes;
        rest.len = cut;
        EXPECT(hlc_item_next(&rest, &item) || rest.len != cut || item.count > 0 || !is_none(item.writes), false);
        EXPECT(hlc_store_accept_items(&store, (const uint8_t *)item_bytes, cut, &used, &count, &word), HLC_BAD_BYTES);
        EXPECT(word, 1);
        EXPECT(used + count, 0);
    }
    EXPECT(has(&store, AT(1), "apple", NULL), true);
    for (int again = 0; again < 2; again++) {
        EXPECT(hlc_store_accept_items(&store, BYTES(item_bytes), &used, &count, &word), HLC_OK);
        EXPECT(used, sizeof item_bytes - 1);
        EXPECT(count, 1);
    }
    EXPECT(has(&store, AT(2), "apple", "red") && has(&store, AT(2), "plum", "") && has(&store, AT(1), "plum", NULL),
           true);
    hlc_store_close(&store);
}

/* Bytes in which a key is there twice are an item for the reader, and refused by the store, with what comes after. */
static void refuse_item(void)
{
    static const char twice[] = "\1\0\0\0\0\0\0\0\0\0\0\0\0\0\0\0\1\0\0\3\1\1a\0\1a\0";
    hlc_store store = HLC_CLOSED_STORE;
    hlc_bytes rest = { BYTES(twice) };
    hlc_item item;
    size_t used, count;
    uint64_t threshold, word;
    EXPECT(hlc_item_next(&rest, &item) && item.count == 2, true);
    EXPECT(hlc_store_open(&store, 1), HLC_OK);
    EXPECT(hlc_store_accept_items(&store, BYTES(twice), &used, &count, &word), HLC_KEY_TWICE);
    EXPECT(used + count + word, 0);
    EXPECT(hlc_store_apply_records(&store, BYTES(twice), &used, &count, &threshold, &word), HLC_KEY_TWICE);
    EXPECT(used + count + word + threshold, 0);
    EXPECT(hlc_store_rows(&store, &word), HLC_OK);
    EXPECT(word, 0);
    hlc_store_close(&store);
}

int main(void)
{
    fill_many();
    one_batch();
    two_nodes();
    refusals();
    build();
    build_longest();
    read_item();
    refuse_item();
    return ended();
}
