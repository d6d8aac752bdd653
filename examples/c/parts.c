/* A vacuum in parts, in which keys lose all their rows, and one that ends at the longest key; savings in pieces of
 * which some are given up or refused, and restores from pieces likewise; a vacuum of a key that has many rows, and one
 * after which nothing is left. No key and no value lies in place, so valgrind finds each that is not freed. */
#include "expect.h"

enum { VALUE = IN_PLACE + 1, SHORTEST = IN_PLACE + 1, SHORT = IN_PLACE + 2, LONGEST = 255, ROOM = 4096 };

/* A key is one letter, again and again. */
static const struct { char letter; size_t len; } KEYS[] = {
    { 'a', SHORTEST }, { 'b', LONGEST }, { 'c', LONGEST }, { 'd', SHORT },
};
enum { A, B, C, D };

/* What a part of a vacuum is expected to write. `last` is the place of its last key, where a key is left. */
struct part {
    uint64_t kept, bytes, dropped;
    bool more;
    int last;
};

static hlc_store store = HLC_CLOSED_STORE;
static uint64_t number;

static void fill(uint8_t *key, int place)
{
    memset(key, KEYS[place].letter, KEYS[place].len);
}

/* Accepts the node's next item. Its stamp is its number and 1. */
static void write_key(int place)
{
    uint8_t key[LONGEST], value[VALUE];
    uint64_t word, stamp = AT(number + 1);
    fill(key, place);
    memset(value, 'v', sizeof value);
    uint32_t code = hlc_store_accept_write(&store, 0, number++, stamp, key, KEYS[place].len, value, sizeof value,
                                           &word);
    expect("write", code, word, HLC_OK, stamp);
}

static void delete_key(int place)
{
    uint8_t key[LONGEST];
    uint64_t word, stamp = AT(number + 1);
    fill(key, place);
    uint32_t code = hlc_store_accept_delete(&store, 0, number++, stamp, key, KEYS[place].len, &word);
    expect("delete", code, word, HLC_OK, stamp);
}

static void expect_sizes(uint64_t rows, uint64_t keys, uint64_t key_bytes, uint64_t value_bytes)
{
    uint64_t found[4];
    uint32_t code = hlc_store_size(&store, &found[0], &found[1], &found[2], &found[3]);
    expect("rows", code, found[0], HLC_OK, rows);
    expect("keys", code, found[1], HLC_OK, keys);
    expect("bytes of keys", code, found[2], HLC_OK, key_bytes);
    expect("bytes of values", code, found[3], HLC_OK, value_bytes);
}

/* Vacuums so many keys after a key, or the first ones where `after` has no bytes. Puts the last key of the part there,
 * if a key is left, and returns its length. */
static size_t vacuum_part(uint64_t stamp, uint8_t *after, size_t after_len, size_t limit, struct part expected)
{
    uint8_t out[LONGEST] = { 0 }, key[LONGEST];
    uint64_t found[4];
    size_t len, expected_len = expected.more ? KEYS[expected.last].len : 0;
    bool more = false;
    uint32_t code = hlc_store_vacuum_part(&store, stamp, after, after_len, limit, &found[0], &found[1], &found[2],
                                          &found[3], out, sizeof out, &len, &more);
    expect("part", code, found[0], HLC_OK, stamp);
    expect("kept", code, found[1], HLC_OK, expected.kept);
    expect("their cost", code, found[2], HLC_OK, expected.bytes);
    expect("dropped", code, found[3], HLC_OK, expected.dropped);
    expect("more", code, more, HLC_OK, expected.more);
    expect("length of the last key", code, len, HLC_OK, expected_len);
    fill(key, expected.last);
    if (memcmp(out, key, expected_len) != 0) wrong++;
    memcpy(after, out, expected_len);
    return expected_len;
}

/* At 7.0 a and c are deleted, b has its second value, and d has its first. */
static void vacuum_in_parts(void)
{
    uint8_t after[LONGEST];
    expect_sizes(8, 4, SHORTEST + 255 + 255 + SHORT, 5 * VALUE);
    size_t len = vacuum_part(AT(7), after, 0, 2, (struct part){ 1, 255 + VALUE + 10, 3, true, B });
    expect_sizes(5, 3, 255 + 255 + SHORT, 3 * VALUE);
    len = vacuum_part(AT(7), after, len, 1, (struct part){ 0, 0, 2, true, C });
    expect_sizes(3, 2, 255 + SHORT, 2 * VALUE);
    vacuum_part(AT(7), after, len, 9, (struct part){ 1, SHORT + VALUE + 10, 0, false, D });
    expect_sizes(3, 2, 255 + SHORT, 2 * VALUE);
    /* At 8.0 d is deleted too. */
    vacuum_part(AT(8), after, 0, 9, (struct part){ 1, 255 + VALUE + 10, 2, false, D });
    expect_sizes(1, 1, 255, VALUE);
}

/* A key that lost all its rows is written again. */
static void write_again(void)
{
    write_key(C);
    expect_sizes(2, 2, 255 + 255, 2 * VALUE);
}

/* Saves the store with the tag 7, so many bytes in a call, which are those of a checkpoint with this tag. Each call
 * gets a copy of the store, as a reader does. */
static void save_in_pieces(const uint8_t *saved, size_t saved_len, size_t piece)
{
    hlc_saving saving = HLC_NO_SAVING;
    uint8_t bytes[ROOM];
    uint64_t all;
    size_t at = 0, len;
    uint32_t code = hlc_saving_start(&saving, &store, 7, &all);
    expect("saving", code, all, HLC_OK, saved_len);
    for (code = HLC_MORE; code == HLC_MORE && at < saved_len; at += len) {
        hlc_store copy = store;
        size_t room = saved_len - at < piece ? saved_len - at : piece;
        code = hlc_saving_read(&saving, &copy, bytes + at, room, &len);
        if (len != room) wrong++;
    }
    expect("saved", code, at, HLC_OK, saved_len);
    if (memcmp(bytes, saved, saved_len) != 0) wrong++;
    code = hlc_saving_read(&saving, &store, bytes, 1, &len);
    expect("the saving has ended", code, len, HLC_NOT_UNDER_WAY, 0);
}

/* A saving is refused once the store has changed, and goes on until it is dropped. */
static void save_in_vain(void)
{
    hlc_saving saving = HLC_NO_SAVING;
    hlc_store closed = HLC_CLOSED_STORE;
    uint8_t bytes[ROOM];
    uint64_t word;
    size_t len;
    uint32_t code = hlc_saving_read(&saving, &store, bytes, sizeof bytes, &len);
    expect("no saving", code, len, HLC_NOT_UNDER_WAY, 0);
    code = hlc_saving_start(&saving, &closed, 7, &word);
    expect("of a closed store", code, word, HLC_CLOSED, 0);
    expect("saving", hlc_saving_start(&saving, &store, 7, &word), 0, HLC_OK, 0);
    code = hlc_saving_start(&saving, &store, 8, &word);
    expect("a second start", code, word, HLC_IS_UNDER_WAY, 0);
    code = hlc_saving_read(&saving, &store, bytes, 0, &len);
    expect("no room", code, len, HLC_MORE, 0);
    code = hlc_saving_read(&saving, &store, bytes, 9, &len);
    expect("nine bytes", code, len, HLC_MORE, 9);
    write_key(A);
    for (int turn = 0; turn < 2; turn++) {
        code = hlc_saving_read(&saving, &store, bytes, sizeof bytes, &len);
        expect("a changed store", code, len, HLC_CHANGED, 0);
    }
    hlc_saving_drop(&saving);
    code = hlc_saving_read(&saving, &store, bytes, sizeof bytes, &len);
    expect("dropped", code, len, HLC_NOT_UNDER_WAY, 0);
}

static void feed(hlc_restoring *restoring, const uint8_t *bytes, size_t len)
{
    expect("start", hlc_restoring_start(restoring), 0, HLC_OK, 0);
    for (size_t at = 0; at < len; at += 100) {
        size_t piece = len - at < 100 ? len - at : 100;
        expect("feed", hlc_restoring_feed(restoring, bytes + at, piece), 0, HLC_OK, 0);
    }
}

/* Gives a restore up at its start, in the middle and at the end. Then one is refused since a byte is missing, and one
 * since the store is open. */
static void restore_in_vain(void)
{
    hlc_restoring restoring = HLC_NO_RESTORING;
    hlc_store copy = HLC_CLOSED_STORE;
    hlc_output output = HLC_NO_OUTPUT;
    uint8_t saved[ROOM];
    uint64_t word;
    size_t saved_len, len;
    uint32_t code = hlc_checkpoint_make(&store, 7, &output, &saved_len);
    if (code == HLC_OK) code = hlc_output_read(&output, 0, saved, sizeof saved, &len);
    hlc_output_drop(&output);
    expect("checkpoint", code, len, HLC_OK, saved_len);
    for (size_t piece = 1; piece < 2 * saved_len; piece *= 5) save_in_pieces(saved, saved_len, piece);
    for (int part = 0; part < 3; part++) {
        feed(&restoring, saved, saved_len * part / 2);
        hlc_restoring_drop(&restoring);
        expect("dropped", hlc_restoring_feed(&restoring, saved, 1), 0, HLC_NOT_UNDER_WAY, 0);
    }
    feed(&restoring, saved, saved_len - 1);
    code = hlc_restoring_finish(&restoring, &copy, &word);
    expect("refused", code, word, HLC_BAD_BYTES, 1);
    expect("ended", hlc_restoring_feed(&restoring, saved, 1), 0, HLC_NOT_UNDER_WAY, 0);
    feed(&restoring, saved, saved_len);
    code = hlc_restoring_finish(&restoring, &store, &word);
    expect("open", code, word, HLC_IS_OPEN, 0);
    hlc_restoring_drop(&restoring);
    code = hlc_store_rows(&copy, &word);
    expect("the copy", code, word, HLC_CLOSED, 0);
}

/* A whole vacuum drops all six rows of d, and keeps one row of each other key. Then all keys are deleted, and one part
 * drops the rest. */
static void empty(void)
{
    uint8_t after[LONGEST];
    uint64_t found[4], stamp;
    for (int i = 0; i < 5; i++) write_key(D);
    delete_key(D);
    stamp = AT(number);
    expect_sizes(9, 4, SHORTEST + 255 + 255 + SHORT, 8 * VALUE);
    uint32_t code = hlc_store_vacuum(&store, &found[0], &found[1], &found[2], &found[3]);
    expect("vacuum", code, found[0], HLC_OK, stamp);
    expect("kept", code, found[1], HLC_OK, 3);
    expect("their cost", code, found[2], HLC_OK, SHORTEST + 255 + 255 + 3 * (VALUE + 10));
    expect("dropped", code, found[3], HLC_OK, 6);
    expect_sizes(3, 3, SHORTEST + 255 + 255, 3 * VALUE);
    for (int place = A; place <= C; place++) delete_key(place);
    vacuum_part(AT(number), after, 0, SIZE_MAX, (struct part){ 0, 0, 6, false, D });
    expect_sizes(0, 0, 0, 0);
}

int main(void)
{
    expect("open", hlc_store_open(&store, 1), 0, HLC_OK, 0);
    for (int place = A; place <= D; place++) write_key(place);
    delete_key(A);
    write_key(B);
    delete_key(C);
    delete_key(D);
    vacuum_in_parts();
    write_again();
    restore_in_vain();
    save_in_vain();
    empty();
    hlc_store_close(&store);
    return ended();
}
