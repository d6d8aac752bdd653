/* A certificate, a checkpoint and an increment are read from an output, in pieces of any size and from any place. An
 * output that has bytes keeps them, and a call that gets it does nothing. */
#include "expect.h"

enum { ROOM = 256 };

/* The certificate where the row of 2.0 is left. */
static const char TEXT[] = "point 2.0\nrow city 2.0 0 value Lyon\nwitness city none 2.0\n";
static const size_t TEXT_LEN = sizeof TEXT - 1;

static hlc_store store = HLC_CLOSED_STORE;

static void accept(uint64_t number, uint64_t stamp, const uint8_t *value, size_t value_len)
{
    uint64_t word;
    uint32_t code = hlc_store_accept_write(&store, 0, number, stamp, BYTES("city"), value, value_len, &word);
    expect("accept", code, word, HLC_OK, stamp);
}

/* Checks the piece from a place on for which there is so much room, and that the buffer keeps what lies behind it. */
static void expect_piece(hlc_output *output, size_t from, size_t room, const uint8_t *bytes, size_t bytes_len)
{
    uint8_t out[ROOM], expected[ROOM];
    size_t left = from < bytes_len ? bytes_len - from : 0, piece = left < room ? left : room, len;
    memset(out, '#', sizeof out);
    memset(expected, '#', sizeof expected);
    if (piece > 0) memcpy(expected, bytes + from, piece);
    uint32_t code = hlc_output_read(output, from, out, room, &len);
    expect("piece", code, len, piece < left ? HLC_MORE : HLC_OK, piece);
    if (memcmp(out, expected, sizeof out) != 0) wrong++;
}

/* Checks that an output has these bytes, with each room from each place on, and from places behind the last byte. */
static void expect_bytes(hlc_output *output, const uint8_t *bytes, size_t bytes_len)
{
    for (size_t room = 0; room <= bytes_len + 1; room++) {
        for (size_t from = 0; from <= bytes_len + 1; from++) expect_piece(output, from, room, bytes, bytes_len);
        expect_piece(output, SIZE_MAX, room, bytes, bytes_len);
    }
}

/* An output has no bytes at first, nor after a call that was refused, nor after it was dropped, once or twice. */
static void make_none(void)
{
    hlc_output output = HLC_NO_OUTPUT;
    hlc_store closed = HLC_CLOSED_STORE;
    uint64_t word, kept, cost;
    size_t len;
    expect_piece(&output, 0, ROOM, NULL, 0);
    expect_piece(&output, 1, 0, NULL, 0);
    uint32_t code = hlc_certificate_make(&store, AT(9), &word, &kept, &cost, &output, &len);
    expect("above the floor", code, len + kept + cost + word, HLC_ABOVE_FLOOR, AT(2));
    code = hlc_certificate_make(&store, AT(2), &word, &kept, &cost, &output, &len);
    expect("a row too many", code, len + kept + cost + word, HLC_NOT_FEWEST, 0);
    code = hlc_checkpoint_make(&closed, 7, &output, &len);
    expect("closed", code, len, HLC_CLOSED, 0);
    code = hlc_increment_make(&closed, AT(2), 7, &output, &len, &word);
    expect("closed, increment", code, len + word, HLC_CLOSED, 0);
    code = hlc_increment_apply(BYTES("older"), BYTES("increment"), &output, &len, &word);
    expect("no encoding", code, len + word, HLC_BAD_BYTES, 2);
    expect_piece(&output, 0, ROOM, NULL, 0);
    hlc_output_drop(&output);
    hlc_output_drop(&output);
    expect_piece(&output, 0, ROOM, NULL, 0);
}

/* Vacuums, and reads the certificate in two pieces. */
static void certify(hlc_output *output)
{
    uint64_t floor, word, kept, cost, dropped;
    uint8_t text[ROOM];
    size_t len;
    uint32_t code = hlc_store_vacuum(&store, &floor, &kept, &cost, &dropped);
    expect("vacuum", code, floor + dropped, HLC_OK, AT(2) + 1);
    code = hlc_certificate_make(&store, floor, &word, &kept, &cost, output, &len);
    expect("certificate", code, len, HLC_OK, TEXT_LEN);
    expect("its word", code, word, HLC_OK, 0);
    expect("kept", code, kept, HLC_OK, 1);
    expect("their cost", code, cost, HLC_OK, 18);
    code = hlc_output_read(output, 0, text, 10, &len);
    expect("first piece", code, len, HLC_MORE, 10);
    code = hlc_output_read(output, 10, text + 10, sizeof text - 10, &len);
    expect("last piece", code, len, HLC_OK, TEXT_LEN - 10);
    if (memcmp(text, TEXT, TEXT_LEN) != 0) wrong++;
    expect_bytes(output, (const uint8_t *)TEXT, TEXT_LEN);
}

/* Makes each call with an output that has the certificate. A closed store is refused before it; and after it stamps
 * above the floor and below the horizon, and the floor, to which a vacuum would drop a row. */
static void refuse_full(hlc_output *output)
{
    static const uint64_t stamps[] = { AT(1), AT(2), AT(3), AT(9) };
    hlc_store closed = HLC_CLOSED_STORE;
    uint64_t word, kept, cost;
    size_t len;
    uint32_t code;
    accept(2, AT(3), BYTES("Nice"));
    for (size_t i = 0; i < sizeof stamps / sizeof *stamps; i++) {
        code = hlc_certificate_make(&store, stamps[i], &word, &kept, &cost, output, &len);
        expect("full", code, len + word + kept + cost, HLC_HAS_BYTES, 0);
    }
    code = hlc_checkpoint_make(&store, 7, output, &len);
    expect("full, checkpoint", code, len, HLC_HAS_BYTES, 0);
    code = hlc_increment_make(&store, AT(1), 7, output, &len, &word);
    expect("full, increment", code, len + word, HLC_HAS_BYTES, 0);
    code = hlc_increment_apply(BYTES("older"), BYTES("increment"), output, &len, &word);
    expect("full, apply", code, len + word, HLC_HAS_BYTES, 0);
    code = hlc_certificate_make(&closed, AT(3), &word, &kept, &cost, output, &len);
    expect("full, closed", code, len + word + kept + cost, HLC_CLOSED, 0);
    code = hlc_checkpoint_make(&closed, 7, output, &len);
    expect("full, closed, checkpoint", code, len, HLC_CLOSED, 0);
    code = hlc_increment_make(&closed, AT(1), 7, output, &len, &word);
    expect("full, closed, increment", code, len + word, HLC_CLOSED, 0);
    code = hlc_store_rows(&store, &word);
    expect("rows", code, word, HLC_OK, 2);
    code = hlc_store_horizon(&store, &word);
    expect("horizon", code, word, HLC_OK, AT(2));
    expect_bytes(output, (const uint8_t *)TEXT, TEXT_LEN);
}

/* What was accepted since the checkpoint of before makes it a newer one, which is that of the store, byte by byte. An
 * increment since a stamp below the horizon is refused with it, and one since a stamp above the older floor too. */
static void advance(hlc_output *output)
{
    hlc_output increment = HLC_NO_OUTPUT, newer = HLC_NO_OUTPUT;
    uint8_t older[ROOM], since[ROOM], saved[ROOM];
    uint64_t word;
    size_t older_len, since_len, len;
    hlc_output_drop(output);
    uint32_t code = hlc_checkpoint_make(&store, 7, output, &len);
    if (code == HLC_OK) code = hlc_output_read(output, 0, older, sizeof older, &older_len);
    expect("older", code, len, HLC_OK, older_len);
    hlc_output_drop(output);
    accept(3, AT(4), BYTES("Pau"));
    code = hlc_increment_make(&store, AT(1), 8, &increment, &len, &word);
    expect("below the horizon", code, len + word, HLC_BELOW_HORIZON, AT(2));
    code = hlc_increment_make(&store, AT(3), 8, &increment, &len, &word);
    if (code == HLC_OK) code = hlc_output_read(&increment, 0, since, sizeof since, &since_len);
    expect("increment", code, len + word, HLC_OK, since_len);
    code = hlc_increment_apply(older, older_len, since, since_len, &newer, &len, &word);
    expect("newer", code, word, HLC_OK, 0);
    code = hlc_checkpoint_make(&store, 8, output, &len);
    if (code == HLC_OK) code = hlc_output_read(output, 0, saved, sizeof saved, &len);
    expect("whole", code, len > older_len, HLC_OK, 1);
    expect_bytes(&newer, saved, len);
    hlc_output_drop(&increment);
    code = hlc_increment_make(&store, AT(4), 8, &increment, &len, &word);
    if (code == HLC_OK) code = hlc_output_read(&increment, 0, since, sizeof since, &since_len);
    expect("later increment", code, len + word, HLC_OK, since_len);
    hlc_output_drop(&newer);
    code = hlc_increment_apply(older, older_len, since, since_len, &newer, &len, &word);
    expect("above the older floor", code, len + word, HLC_ABOVE_FLOOR, AT(3));
    code = hlc_increment_apply(older, older_len, since, since_len - 1, &newer, &len, &word);
    expect("cut", code, len + word, HLC_NO_INCREMENT, 1);
    expect_piece(&newer, 0, ROOM, NULL, 0);
    hlc_output_drop(&increment);
}

/* Uses an output again for a checkpoint, which outlives its store, and restores another store from pieces of it. */
static void save(hlc_output *output)
{
    hlc_restoring restoring = HLC_NO_RESTORING;
    hlc_store copy = HLC_CLOSED_STORE;
    uint8_t saved[ROOM], piece[7];
    uint64_t word;
    size_t saved_len, len, at = 0;
    hlc_output_drop(output);
    uint32_t code = hlc_checkpoint_make(&store, 7, output, &saved_len);
    hlc_store_close(&store);
    if (code == HLC_OK) code = hlc_output_read(output, 0, saved, sizeof saved, &len);
    expect("checkpoint", code, len, HLC_OK, saved_len);
    expect_bytes(output, saved, saved_len);
    expect("start", hlc_restoring_start(&restoring), 0, HLC_OK, 0);
    do {
        code = hlc_output_read(output, at, piece, sizeof piece, &len);
        expect("feed", hlc_restoring_feed(&restoring, piece, len), 0, HLC_OK, 0);
        at += len;
    } while (code == HLC_MORE);
    code = hlc_restoring_finish(&restoring, &copy, &word);
    expect("finish", code, word, HLC_OK, 7);
    code = hlc_store_rows(&copy, &word);
    expect("rows", code, word, HLC_OK, 3);
    hlc_store_close(&copy);
}

int main(void)
{
    hlc_output output = HLC_NO_OUTPUT;
    expect("open", hlc_store_open(&store, 1), 0, HLC_OK, 0);
    accept(0, AT(1), BYTES("Rome"));
    accept(1, AT(2), BYTES("Lyon"));
    make_none();
    certify(&output);
    refuse_full(&output);
    advance(&output);
    save(&output);
    hlc_output_drop(&output);
    return ended();
}
