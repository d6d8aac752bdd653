/* What the links answer to records is what hlc_store_apply_records answers, for random records, good and bad: records
 * [TIMES]. The links are those of the library's own source. */
#include "../record.c"
#include "test.h"

enum { LEN = 400 };

static unsigned seed = 1;

static unsigned chance(unsigned below)
{
    return (unsigned)rand_r(&seed) % below;
}

/* Puts the writes of a batch, now and then one of a key that is there. Returns how many they are. */
static size_t put_writes(uint8_t *bytes, size_t room, size_t *len)
{
    static const uint8_t value[9];
    hlc_batch batch = hlc_batch_in(bytes, room);
    size_t many = 1 + chance(4);
    for (size_t i = 0; i < many; i++) {
        uint8_t key[2] = { 'k', (uint8_t)('0' + (i > 0 && chance(8) == 0 ? i - 1 : i)) };
        uint32_t answer = chance(3) == 0 ? hlc_batch_delete(&batch, key, sizeof key)
                                         : hlc_batch_write(&batch, key, sizeof key, value, chance(sizeof value));
        EXPECT(answer, HLC_OK);
    }
    *len = batch.len;
    return many;
}

/* Writes a batch, which hlc_item_encode_batch would refuse where a key is there twice. */
static size_t put_batch(uint16_t node, uint64_t number, uint64_t stamp, uint8_t *bytes, size_t room)
{
    size_t len;
    size_t many = put_writes(bytes + ITEM_HEAD + 1, room - ITEM_HEAD - 1, &len);
    record_put_batch(bytes, many);
    record_stamp(bytes, node, number, stamp);
    return ITEM_HEAD + 1 + len;
}

/* Writes a record that is the next of its node, or a few numbers or stamps off. */
static size_t put_record(const struct links *links, uint8_t *bytes)
{
    uint8_t value[40] = { 0 };
    uint16_t node = (uint16_t)chance(links->many + 1);
    const struct link *link = &links->at[node < links->many ? node : 0];
    uint64_t number = link->next + chance(12) / 10 - (link->next > 0 && chance(6) == 0);
    uint64_t stamp = link->head + 1 + chance(40) - (link->head > 20 && chance(10) == 0 ? 20 : 0);
    size_t len = 0;
    uint32_t answer = HLC_OK;
    if (chance(200) == 0) number = UINT64_MAX;
    switch (chance(15)) {
    case 0: answer = hlc_item_encode_report(node, number, stamp, bytes, 100, &len); break;
    case 1: answer = hlc_record_encode_threshold(stamp, bytes, 100, &len); break;
    case 2: answer = hlc_record_encode_join((uint16_t)(links->many - (chance(4) == 0) + (chance(9) == 0)),
                                            links_floor(links) + 2 - chance(3), bytes, 100, &len); break;
    case 3: if (chance(4) == 0) answer = hlc_item_encode_retire(node, number, stamp, bytes, 100, &len); break;
    case 4: answer = hlc_item_encode_delete(node, number, stamp, BYTES("key"), bytes, 100, &len); break;
    case 12: case 13: case 14: len = put_batch(node, number, stamp, bytes, 100); break;
    default: answer = hlc_item_encode_write(node, number, stamp, BYTES("key"), value, chance(sizeof value), bytes, 100,
                                            &len);
    }
    EXPECT(answer, HLC_OK);
    return len;
}

/* Compares some records, the last of which may be damaged, and moves both on. */
static void compare(hlc_store *store, struct links *links)
{
    uint8_t bytes[LEN + 100];
    struct links made = { 0 };
    struct record record;
    size_t len = 0, used, many, taken = 0, at = 0;
    uint64_t threshold, word, our_word = 0;
    bool came_before;
    links_copy(&made, links);
    for (int i = 0; i < 3; i++) len += put_record(links, bytes + len);
    if (len > 0 && chance(5) == 0) bytes[chance((unsigned)len)] ^= (uint8_t)(1 << chance(8));
    if (len > 0 && chance(5) == 0) len -= chance((unsigned)len);
    uint32_t answer = hlc_store_apply_records(store, bytes, len, &used, &many, &threshold, &word), ours = HLC_OK;
    for (; ours == HLC_OK && at < len; at += ours == HLC_OK ? record.len : 0) {
        ours = record_read(bytes + at, len - at, &record, &our_word);
        if (ours == HLC_OK) ours = links_take(links, &record, &came_before, &our_word);
        taken += ours == HLC_OK;
    }
    EXPECT(ours, answer);
    EXPECT(taken, many);
    EXPECT(at, used);
    if (answer != HLC_OK) EXPECT(our_word, word);
    links_of_store(&made, store);
    EXPECT(links->many, made.many);
    for (uint32_t i = 0; i < made.many; i++) {
        EXPECT(links->at[i].next, made.at[i].next);
        EXPECT(links->at[i].head, made.at[i].head);
        EXPECT(links->at[i].retired, made.at[i].retired);
    }
    EXPECT(hlc_store_floor(store, &word), HLC_OK);
    EXPECT(links_floor(links), word);
}

int main(int argc, char **argv)
{
    unsigned times = argc > 1 ? (unsigned)atoi(argv[1]) : 300;
    static struct links links;
    test_name = "records";
    for (unsigned i = 0; i < times && wrong == 0; i++) {
        hlc_store store = HLC_CLOSED_STORE;
        EXPECT(hlc_store_open(&store, (uint16_t)(1 + chance(4))), HLC_OK);
        links_of_store(&links, &store);
        for (int j = 0; j < 200 && wrong == 0; j++) compare(&store, &links);
        hlc_store_close(&store);
    }
    return ended();
}
