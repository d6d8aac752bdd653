/* A checkpoint becomes a newer one by increments, one after another, and never an older one: an increment of an earlier
 * state is refused, also one that comes again after a later one. One that comes twice at once changes nothing. */
#include "expect.h"

enum { ROOM = 512 };

struct bytes {
    uint8_t at[ROOM];
    size_t len;
};

/* Moves the bytes that a call made out of an output. */
static struct bytes taken(uint32_t code, hlc_output *output, size_t len)
{
    struct bytes bytes = { .len = 0 };
    expect("made", code, 0, HLC_OK, 0);
    code = hlc_output_read(output, 0, bytes.at, ROOM, &bytes.len);
    expect("read", code, bytes.len, HLC_OK, len);
    hlc_output_drop(output);
    return bytes;
}

static struct bytes checkpoint_of(hlc_store *store)
{
    hlc_output output = HLC_NO_OUTPUT;
    size_t len;
    uint32_t code = hlc_checkpoint_make(store, 7, &output, &len);
    return taken(code, &output, len);
}

static struct bytes increment_of(hlc_store *store, uint64_t since)
{
    hlc_output output = HLC_NO_OUTPUT;
    size_t len;
    uint64_t word;
    uint32_t code = hlc_increment_make(store, since, 7, &output, &len, &word);
    return taken(code, &output, len);
}

/* Checks that the older checkpoint becomes this newer one by the increment. */
static void expect_newer(const char *call, struct bytes older, struct bytes increment, struct bytes newer)
{
    hlc_output output = HLC_NO_OUTPUT;
    size_t len;
    uint64_t word;
    uint32_t code = hlc_increment_apply(older.at, older.len, increment.at, increment.len, &output, &len, &word);
    struct bytes made = taken(code, &output, len);
    expect(call, code, made.len, HLC_OK, newer.len);
    if (made.len == newer.len) EXPECT(memcmp(made.at, newer.at, newer.len), 0);
}

/* Checks that the increment is not of this state later on, and that no bytes are made. */
static void expect_earlier(const char *call, struct bytes older, struct bytes increment)
{
    hlc_output output = HLC_NO_OUTPUT;
    size_t len;
    uint64_t word;
    uint32_t code = hlc_increment_apply(older.at, older.len, increment.at, increment.len, &output, &len, &word);
    expect(call, code, len + word, HLC_NOT_LATER, 0);
    hlc_output_drop(&output);
}

static void put(hlc_store *store, uint16_t node, uint64_t number, uint64_t stamp, uint8_t key)
{
    uint64_t word;
    uint32_t code = hlc_store_accept_write(store, node, number, stamp, &key, 1, BYTES("v"), &word);
    expect("accept", code, word, HLC_OK, stamp);
}

static hlc_store opened(void)
{
    hlc_store store = HLC_CLOSED_STORE;
    uint32_t code = hlc_store_open(&store, 2);
    expect("open", code, 0, HLC_OK, 0);
    return store;
}

/* Increments of one store, in order and out of it. */
static void chain(void)
{
    hlc_store store = opened();
    uint64_t id, at;
    put(&store, 0, 0, AT(1), 'a');
    put(&store, 1, 0, AT(2), 'b');
    struct bytes base = checkpoint_of(&store), base_since = increment_of(&store, AT(1));
    put(&store, 0, 1, AT(3), 'a');
    put(&store, 1, 1, AT(4), 'b');
    struct bytes first = checkpoint_of(&store), first_since = increment_of(&store, AT(1));
    put(&store, 0, 2, AT(5), 'c');
    put(&store, 1, 2, AT(6), 'd');
    struct bytes second = checkpoint_of(&store), second_since = increment_of(&store, AT(3));
    expect_newer("nothing since", base, base_since, base);
    expect_newer("first", base, first_since, first);
    expect_newer("second", first, second_since, second);
    expect_newer("second, twice", second, second_since, second);
    expect_earlier("first, again", second, first_since);
    expect_earlier("before the first", first, base_since);

    /* A snapshot's id is not given twice, and no closed snapshot is open again. */
    uint32_t code = hlc_snapshot_open_at_floor(&store, &id, &at);
    expect("snapshot", code, id + at, HLC_OK, 1 + AT(5));
    struct bytes with = checkpoint_of(&store), with_since = increment_of(&store, AT(5));
    code = hlc_snapshot_close(&store, id, &at);
    expect("close", code, at, HLC_OK, AT(5));
    struct bytes without = checkpoint_of(&store), without_since = increment_of(&store, AT(5));
    expect_newer("a snapshot", second, with_since, with);
    expect_newer("closed", with, without_since, without);
    expect_earlier("before the snapshot", with, second_since);
    expect_earlier("before it was closed", without, with_since);
    hlc_store_close(&store);
}

/* Two stores that differ in one thing alone: in the numbers, in the heads, or in whether a node has retired. */
static void compare(void)
{
    hlc_store most = opened(), fewer = opened(), lower = opened(), last = opened();
    uint64_t word;
    put(&most, 0, 0, AT(4), 'a');
    put(&most, 0, 1, AT(5), 'a');
    put(&fewer, 0, 0, AT(5), 'a');
    put(&lower, 0, 0, AT(3), 'a');
    put(&lower, 0, 1, AT(4), 'a');
    put(&last, 0, 0, AT(4), 'a');
    uint32_t code = hlc_store_accept_retire(&last, 0, 1, AT(5), &word);
    expect("retire", code, word, HLC_OK, AT(5));
    expect_earlier("a lower number", checkpoint_of(&most), increment_of(&fewer, 0));
    expect_earlier("a lower head", checkpoint_of(&most), increment_of(&lower, 0));
    expect_earlier("a node that is back", checkpoint_of(&last), increment_of(&most, 0));
    hlc_store_close(&most);
    hlc_store_close(&fewer);
    hlc_store_close(&lower);
    hlc_store_close(&last);
}

int main(void)
{
    chain();
    compare();
    return ended();
}
