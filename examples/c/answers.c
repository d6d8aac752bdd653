/* Which answer comes first where more than one reason applies, what the answers say, buffers that are too short, and
 * handles that were moved. */
#include "expect.h"

static void expect_text(uint32_t answer, const char *text)
{
    uint8_t out[100];
    size_t len;
    hlc_error_text(answer, out, sizeof out, &len);
    expect("text", answer, len, answer, strlen(text));
    if (len == strlen(text) && memcmp(out, text, len) != 0) wrong++;
}

/* An open store is refused before the number of nodes, or the bytes, are looked at. */
static void open_first(hlc_store *open)
{
    uint64_t word;
    expect("open", hlc_store_open(open, 0), 0, HLC_IS_OPEN, 0);
    uint32_t code = hlc_store_restore(open, BYTES("no checkpoint"), &word);
    expect("restore", code, word, HLC_IS_OPEN, 0);
}

/* A closed store, or a restore that is not under way, is refused before all else. */
static void closed_first(hlc_output *with_bytes)
{
    hlc_store closed = HLC_CLOSED_STORE;
    hlc_restoring none = HLC_NO_RESTORING;
    uint64_t word;
    size_t len;
    uint32_t code = hlc_checkpoint_make(&closed, 0, with_bytes, &len);
    expect("checkpoint", code, len, HLC_CLOSED, 0);
    code = hlc_increment_make(&closed, 0, 0, with_bytes, &len, &word);
    expect("increment", code, len + word, HLC_CLOSED, 0);
    code = hlc_snapshot_open(&closed, UINT64_MAX, &word);
    expect("open snapshot", code, word, HLC_CLOSED, 0);
    code = hlc_store_accept_batch(&closed, 7, 7, 0, 0, NULL, 0, &word);
    expect("accept batch", code, word, HLC_CLOSED, 0);
    code = hlc_restoring_finish(&none, &closed, &word);
    expect("finish", code, word, HLC_NOT_UNDER_WAY, 0);
    expect("feed", hlc_restoring_feed(&none, BYTES("bytes")), 0, HLC_NOT_UNDER_WAY, 0);
}

/* A restore into an open store is refused, and goes on. A second start is refused too. */
static void restore_into_open(hlc_store *open)
{
    hlc_restoring restoring = HLC_NO_RESTORING;
    uint64_t word;
    expect("start", hlc_restoring_start(&restoring), 0, HLC_OK, 0);
    expect("start again", hlc_restoring_start(&restoring), 0, HLC_IS_UNDER_WAY, 0);
    uint32_t code = hlc_restoring_finish(&restoring, open, &word);
    expect("finish", code, word, HLC_IS_OPEN, 0);
    expect("feed", hlc_restoring_feed(&restoring, BYTES("x")), 0, HLC_OK, 0);
    hlc_restoring_drop(&restoring);
}

/* A store, and an output, go on at the place that they were moved to. */
static void move(hlc_store *store, hlc_output *output)
{
    hlc_store moved = *store;
    hlc_output moved_output = *output;
    uint64_t rows;
    uint8_t byte;
    size_t len;
    *store = (hlc_store)HLC_CLOSED_STORE;
    *output = (hlc_output)HLC_NO_OUTPUT;
    uint32_t code = hlc_store_rows(&moved, &rows);
    expect("rows", code, rows, HLC_OK, 1);
    code = hlc_output_read(&moved_output, 0, &byte, 1, &len);
    expect("read", code, len, HLC_MORE, 1);
    hlc_output_drop(&moved_output);
    hlc_store_close(&moved);
}

/* The rows of a key, here one of 20 bytes, are written where they all fit. Otherwise the buffer keeps its bytes. */
static void short_of_room(hlc_store *store)
{
    uint8_t out[20], filled[20];
    size_t len, many;
    memset(filled, '#', sizeof filled);
    memset(out, '#', sizeof out);
    uint32_t code = hlc_store_versions(store, BYTES("k"), 0, AT(1), out, sizeof out - 1, &len, &many);
    expect("versions, short of room", code, len, HLC_OK, sizeof out);
    expect("versions, short of room", code, many, HLC_OK, 1);
    if (memcmp(out, filled, sizeof out) != 0) wrong++;
    code = hlc_store_versions(store, BYTES("k"), 0, AT(1), out, sizeof out, &len, &many);
    expect("versions", code, len, HLC_OK, sizeof out);
    if (memcmp(out, "\0\0\1\0\0\0\0\0\0\0\1\1\0\0\0\0\0\0\0v", sizeof out) != 0) wrong++;
    code = hlc_store_versions(store, BYTES("k"), AT(1), UINT64_MAX, out, sizeof out, &len, &many);
    expect("versions above", code, len + many, HLC_OK, 0);
}

/* A part of no keys ends where it begins, however long that is. */
static void empty_part(hlc_store *store)
{
    uint8_t after[300] = { 0 }, out[300];
    uint64_t word, kept, bytes, dropped;
    size_t len;
    bool more = false;
    uint32_t code = hlc_store_vacuum_part(store, AT(1), after, sizeof after, 0, &word, &kept, &bytes, &dropped, out,
                                          sizeof out, &len, &more);
    expect("part", code, len, HLC_OK, sizeof after);
    if (!more || memcmp(out, after, sizeof after) != 0) wrong++;
}

int main(void)
{
    hlc_store store = HLC_CLOSED_STORE;
    hlc_output output = HLC_NO_OUTPUT;
    uint64_t word;
    size_t len;
    expect_text(HLC_CLOSED, "the store is closed");
    expect_text(HLC_IS_OPEN, "the store is open already");
    expect_text(HLC_NOT_UNDER_WAY, "no restore or saving is under way");
    expect_text(HLC_IS_UNDER_WAY, "a restore or saving is under way already");
    expect_text(HLC_NO_INCREMENT, "the bytes are no increment");
    expect_text(HLC_NOT_LATER, "the increment is not of a later state of the store");
    expect_text(HLC_NOT_PARTS, "the checkpoints are no two parts of one store");
    expect_text(HLC_CHANGED, "the store changed since the saving began");
    expect_text(HLC_NO_WRITES, "the batch has no writes");
    expect_text(HLC_TOO_MANY_WRITES, "the batch has more than 256 writes");
    expect_text(HLC_KEY_TWICE, "the batch writes a key twice");
    expect("open", hlc_store_open(&store, 1), 0, HLC_OK, 0);
    uint32_t code = hlc_store_accept_write(&store, 0, 0, AT(1), BYTES("k"), BYTES("v"), &word);
    expect("accept", code, word, HLC_OK, AT(1));
    code = hlc_checkpoint_make(&store, 0, &output, &len);
    expect("checkpoint", code, len > 0, HLC_OK, 1);
    open_first(&store);
    closed_first(&output);
    restore_into_open(&store);
    short_of_room(&store);
    empty_part(&store);
    move(&store, &output);
    return ended();
}
