/* Refuses one request for memory after another of a story, and of a batch, and checks that the store is unchanged and
 * works on. Counts the requests of a key and a value, short and long. */
#include "expect.h"
#include <stdlib.h>

#define STEPS 23
#define PIECE 50

static long left = -1;

/* How many requests there were. */
static long requests;

/* The checkpoint that the restores read. */
static uint8_t saved[1024];
static size_t saved_len;

/* An increment of the same store, in which nothing was accepted since. */
static uint8_t increment[1024];
static size_t increment_len;

/* Both parts of the checkpoint at a key. */
static uint8_t parts[2][1024];
static size_t parts_len[2];

void *__real_malloc(size_t size);
void *__real_realloc(void *at, size_t size);

/* Returns whether this request is the one to refuse. */
static bool refuse(void)
{
    requests++;
    if (left < 0) return false;
    return left-- == 0;
}

void *__wrap_malloc(size_t size)
{
    return refuse() ? NULL : __real_malloc(size);
}

void *__wrap_realloc(void *at, size_t size)
{
    return refuse() ? NULL : __real_realloc(at, size);
}

/* Makes another store of the bytes, and closes it. */
static uint32_t restore(const uint8_t *bytes, size_t len)
{
    hlc_store copy = HLC_CLOSED_STORE;
    uint64_t word;
    uint32_t code = hlc_store_restore(&copy, bytes, len, &word);
    if (code == HLC_OK && word != 7) wrong++;
    hlc_store_close(&copy);
    return code;
}

/* The same from pieces. */
static uint32_t restore_in_pieces(const uint8_t *bytes, size_t len)
{
    hlc_restoring restoring = HLC_NO_RESTORING;
    hlc_store copy = HLC_CLOSED_STORE;
    uint64_t word;
    uint32_t code = hlc_restoring_start(&restoring);
    for (size_t at = 0; code == HLC_OK && at < len; at += PIECE) {
        code = hlc_restoring_feed(&restoring, bytes + at, len - at < PIECE ? len - at : PIECE);
    }
    if (code == HLC_OK) code = hlc_restoring_finish(&restoring, &copy, &word);
    if (code == HLC_OK && word != 7) wrong++;
    hlc_restoring_drop(&restoring);
    hlc_store_close(&copy);
    return code;
}

/* Reads all bytes that a call with this answer made, and drops the output. After a refusal it has none. */
static size_t take(hlc_output *output, uint32_t code, size_t made, uint8_t *out, size_t room)
{
    size_t len;
    if (hlc_output_read(output, 0, out, room, &len) != HLC_OK || len != made) wrong++;
    if ((len > 0) != (code == HLC_OK)) wrong++;
    hlc_output_drop(output);
    return len;
}

/* Makes the certificate of the rows at or below a stamp. */
static uint32_t certify(hlc_store *store, uint64_t stamp)
{
    hlc_output output = HLC_NO_OUTPUT;
    uint64_t v, w, x;
    uint8_t out[1024];
    size_t len;
    uint32_t code = hlc_certificate_make(store, stamp, &v, &w, &x, &output, &len);
    take(&output, code, len, out, sizeof out);
    return code;
}

static uint32_t save(hlc_store *store)
{
    hlc_output output = HLC_NO_OUTPUT;
    size_t len;
    uint32_t code = hlc_checkpoint_make(store, 7, &output, &len);
    saved_len = take(&output, code, len, saved, sizeof saved);
    return code;
}

static uint32_t save_increment(hlc_store *store)
{
    hlc_output output = HLC_NO_OUTPUT;
    uint64_t horizon;
    size_t len;
    uint32_t code = hlc_increment_make(store, AT(20), 7, &output, &len, &horizon);
    increment_len = take(&output, code, len, increment, sizeof increment);
    if (horizon != 0) wrong++;
    return code;
}

/* Makes of the checkpoint and the increment the checkpoint again. */
static uint32_t apply(void)
{
    hlc_output output = HLC_NO_OUTPUT;
    uint8_t made[1024];
    uint64_t word;
    size_t len;
    uint32_t code = hlc_increment_apply(saved, saved_len, increment, increment_len, &output, &len, &word);
    len = take(&output, code, len, made, sizeof made);
    if (word != 0 || (code == HLC_OK && (len != saved_len || memcmp(made, saved, len) != 0))) wrong++;
    return code;
}

/* Divides the checkpoint at a key. */
static uint32_t divide(void)
{
    hlc_output outputs[2] = { HLC_NO_OUTPUT, HLC_NO_OUTPUT };
    uint64_t word;
    size_t len[2];
    uint32_t code = hlc_checkpoint_split(saved, saved_len, BYTES("b"), &outputs[0], &outputs[1], &len[0], &len[1],
                                         &word);
    if (word != 0) wrong++;
    for (int i = 0; i < 2; i++) parts_len[i] = take(&outputs[i], code, len[i], parts[i], sizeof parts[i]);
    return code;
}

/* Joins both parts into the checkpoint again. */
static uint32_t join_parts(void)
{
    hlc_output output = HLC_NO_OUTPUT;
    uint8_t made[1024];
    uint64_t word;
    size_t len;
    uint32_t code = hlc_checkpoint_merge(parts[0], parts_len[0], parts[1], parts_len[1], &output, &len, &word);
    len = take(&output, code, len, made, sizeof made);
    if (word != 0 || (code == HLC_OK && (len != saved_len || memcmp(made, saved, len) != 0))) wrong++;
    return code;
}

static uint32_t call(int step, hlc_store *store)
{
    uint8_t out[1024];
    uint64_t v, w, x, y;
    uint16_t node;
    bool more = false;
    size_t len;
    switch (step) {
    case 0: return hlc_store_open(store, 2);
    case 1: return hlc_store_accept_write(store, 0, 0, AT(10), BYTES("apple"), BYTES("a red that is too long in place"),
                                          &w);
    case 2: return hlc_store_accept_report(store, 1, 0, AT(12), &w);
    case 3: return hlc_snapshot_open_at_floor(store, &v, &w);
    case 4: return hlc_store_accept_write(store, 0, 1, AT(20), BYTES("apple"), BYTES("green"), &w);
    case 5: return hlc_store_accept_delete(store, 1, 1, AT(21), BYTES("a pear whose key is long, and so takes memory"),
                                           &w);
    case 6: return hlc_snapshot_open(store, AT(20), &v);
    case 7: return hlc_snapshot_list(store, 1, out, sizeof out, &len);
    case 8: return hlc_snapshot_close(store, 1, &w);
    case 9: return hlc_store_join(store, &node, &w);
    case 10: return hlc_store_join_at(store, AT(30), &node, &w);
    case 11:
        return hlc_store_vacuum_part(store, AT(12), BYTES(""), 1, &v, &w, &x, &y, out, sizeof out, &len, &more);
    case 12: return hlc_store_vacuum_to(store, AT(12), &v, &w, &x, &y);
    case 13: return certify(store, AT(12));
    case 14: return hlc_store_vacuum(store, &v, &w, &x, &y);
    case 15: return certify(store, AT(20));
    case 16: return save(store);
    case 17: return save_increment(store);
    case 18: return apply();
    case 19: return divide();
    case 20: return join_parts();
    case 21: return restore(saved, saved_len);
    default: return restore_in_pieces(saved, saved_len);
    }
}

static uint64_t rows(hlc_store *store)
{
    uint64_t rows;
    if (hlc_store_rows(store, &rows) == HLC_CLOSED && rows != 0) wrong++;
    return rows;
}

/* Plays the story with this request refused. Returns whether there was such a request. */
static bool story(long request)
{
    hlc_store store = HLC_CLOSED_STORE;
    uint8_t out[8];
    int refusals = 0;
    bool met;
    size_t len;
    left = request;
    for (int step = 0; step < STEPS; step++) {
        uint64_t before = rows(&store);
        uint32_t code = call(step, &store);
        if (code != HLC_OK) {
            refusals++;
            if (code != HLC_NO_MEMORY || rows(&store) != before || call(step, &store) != HLC_OK) wrong++;
        }
    }
    met = left < 0;
    left = -1;
    if (hlc_snapshot_read(&store, 2, BYTES("apple"), out, sizeof out, &len) != HLC_OK) wrong++;
    if (len != 5 || memcmp(out, "green", 5) != 0 || refusals > 1) wrong++;
    hlc_store_close(&store);
    return met;
}

/* ---- A batch of five keys, two of which are new, and whose values are short and long ---- */

#define LONG_KEY "a lemon whose key is long, and so takes memory"
#define OTHER_KEY "a lime whose key is long, and so takes memory too"
#define LONG_VALUE "a value that is too long in place, and so takes memory"

/* Three keys with one row, with two and with four: more rows need a larger block. */
static void fill(hlc_store *store)
{
    static const char *const keys[] = { "apple", "pear", "pear", "plum", "plum", "plum", "plum" };
    uint64_t word;
    if (hlc_store_open(store, 1) != HLC_OK) wrong++;
    for (uint64_t i = 0; i < sizeof keys / sizeof keys[0]; i++) {
        if (hlc_store_accept_write(store, 0, i, AT(i + 1), (const uint8_t *)keys[i], strlen(keys[i]), BYTES("old"),
                                   &word) != HLC_OK) wrong++;
    }
}

static hlc_batch five_writes(uint8_t *room, size_t len)
{
    hlc_batch batch = hlc_batch_in(room, len);
    if (hlc_batch_write(&batch, BYTES("apple"), BYTES("new")) != HLC_OK) wrong++;
    if (hlc_batch_write(&batch, BYTES(LONG_KEY), BYTES("new")) != HLC_OK) wrong++;
    if (hlc_batch_write(&batch, BYTES("pear"), BYTES(LONG_VALUE)) != HLC_OK) wrong++;
    if (hlc_batch_delete(&batch, BYTES("plum")) != HLC_OK) wrong++;
    if (hlc_batch_write(&batch, BYTES(OTHER_KEY), BYTES(LONG_VALUE)) != HLC_OK) wrong++;
    return batch;
}

/* Lets the store accept the batch: by its own call, or by the bytes of an item in a log, as an item or a record. */
static uint32_t accept_batch(hlc_store *store, int way)
{
    uint8_t room[512], bytes[512];
    const hlc_batch batch = five_writes(room, sizeof room);
    size_t len, used, count;
    uint64_t threshold, word;
    uint32_t code;
    if (way == 0) {
        code = hlc_store_accept_batch(store, 0, 7, AT(8), batch.count, batch.at, batch.len, &word);
        if (word != (code == HLC_OK ? AT(8) : 0)) wrong++;
        return code;
    }
    if (hlc_item_encode_batch(0, 7, AT(8), batch.count, batch.at, batch.len, bytes, sizeof bytes, &len) != HLC_OK)
        wrong++;
    code = way == 1 ? hlc_store_accept_items(store, bytes, len, &used, &count, &word)
                    : hlc_store_apply_records(store, bytes, len, &used, &count, &threshold, &word);
    if (word != 0 || count != (code == HLC_OK) || used != (code == HLC_OK ? len : 0)) wrong++;
    return code;
}

/* Whether a key has a value at a stamp, or none where the text is NULL. */
static bool has(hlc_store *store, uint64_t id, const char *key, const char *text)
{
    uint8_t out[64];
    size_t len;
    uint32_t code = hlc_snapshot_read(store, id, (const uint8_t *)key, strlen(key), out, sizeof out, &len);
    if (!text) return code == HLC_NO_VALUE;
    return code == HLC_OK && len == strlen(text) && memcmp(out, text, len) == 0;
}

/* Whether the store has all of the batch, or nothing of it, at the floor. */
static bool shows(hlc_store *store, bool batch)
{
    uint64_t id, stamp, closed;
    hlc_store_sizes sizes;
    if (hlc_snapshot_open_at_floor(store, &id, &stamp) != HLC_OK || stamp != AT(batch ? 8 : 7)) return false;
    bool good = has(store, id, "apple", batch ? "new" : "old") && has(store, id, LONG_KEY, batch ? "new" : NULL) &&
                has(store, id, "pear", batch ? LONG_VALUE : "old") && has(store, id, "plum", batch ? NULL : "old") &&
                has(store, id, OTHER_KEY, batch ? LONG_VALUE : NULL);
    if (hlc_snapshot_close(store, id, &closed) != HLC_OK || hlc_store_get_sizes(store, &sizes) != HLC_OK) return false;
    return good && sizes.rows == (batch ? 12 : 7) && sizes.keys == (batch ? 5 : 3);
}

/* The bytes of a checkpoint, which are of the whole state. */
static size_t state_of(hlc_store *store, uint8_t *out, size_t room)
{
    hlc_output output = HLC_NO_OUTPUT;
    size_t len;
    uint32_t code = hlc_checkpoint_make(store, 7, &output, &len);
    if (code != HLC_OK) wrong++;
    return take(&output, code, len, out, room);
}

/* Accepts the batch with this request refused: the store is as it was, and then accepts it. Returns whether there was
 * such a request. */
static bool refuse_batch(long request, int way)
{
    static uint8_t before[2048], after[2048];
    hlc_store store = HLC_CLOSED_STORE;
    fill(&store);
    size_t len = state_of(&store, before, sizeof before);
    left = request;
    uint32_t code = accept_batch(&store, way);
    bool met = left < 0;
    left = -1;
    if (code != (met ? HLC_NO_MEMORY : HLC_OK)) wrong++;
    if (met) {
        if (state_of(&store, after, sizeof after) != len || memcmp(before, after, len) != 0) wrong++;
        if (!shows(&store, false)) wrong++;
        if (accept_batch(&store, way) != HLC_OK) wrong++;
    }
    if (!shows(&store, true)) wrong++;
    hlc_store_close(&store);
    return met;
}

/* ---- What lies in place ---- */

/* The requests of a new store's first write, of a key and a value of so many bytes. */
static long requests_of(size_t key_len, size_t value_len)
{
    static const uint8_t bytes[2 * IN_PLACE];
    hlc_store store = HLC_CLOSED_STORE;
    uint64_t word;
    if (hlc_store_open(&store, 1) != HLC_OK) wrong++;
    const long before = requests;
    if (hlc_store_accept_write(&store, 0, 0, AT(1), bytes, key_len, bytes, value_len, &word) != HLC_OK) wrong++;
    const long made = requests - before;
    hlc_store_close(&store);
    return made;
}

static void count_requests(void)
{
    const long least = requests_of(1, 0);
    EXPECT(requests_of(IN_PLACE, IN_PLACE), least);
    EXPECT(requests_of(IN_PLACE + 1, IN_PLACE), least + 1);
    EXPECT(requests_of(IN_PLACE, IN_PLACE + 1), least + 1);
    EXPECT(requests_of(IN_PLACE + 1, IN_PLACE + 1), least + 2);
}

int main(void)
{
    long request = 0;
    count_requests();
    while (request < 1000 && story(request)) request++;
    if (request < 10 || request == 1000) wrong++;
    for (int way = 0; way < 3; way++) {
        request = 0;
        while (request < 1000 && refuse_batch(request, way)) request++;
        if (request < 5 || request == 1000) wrong++;
    }
    return ended();
}
