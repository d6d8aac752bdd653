/* The memory of rows, in blocks of malloc: where each key has 1, 2, 4, 5 or 10 rows, and after a vacuum that leaves
 * one. Keys and values have 8 bytes; each round writes every key once, in a random order of its own. After a vacuum
 * that leaves two rows of each key, nothing of the others stays, whose values have an allocation each. Then the peaks
 * of the blocks in use: a checkpoint takes little more than its bytes, a saving in pieces little beside the store, and a
 * restore in pieces little more than the store that it makes; an increment that is applied, and the parts of a
 * checkpoint, take a few times the bytes. It is linked with --wrap for malloc, realloc and free, which count the blocks,
 * so that no peak depends on the pages of the machine. Prints `all right`. */
#include "hlcstore.h"
#include <malloc.h>
#include <stdio.h>
#include <stdlib.h>
#include <string.h>

enum { KEYS = 100000, FEW_KEYS = 20000, LEN = 8, LONG = 100 };

/* The most bytes of a key with so many rows, before a vacuum. One row left takes no more than one that was written. */
static const struct { unsigned rounds; double most; } CASES[] = { { 1, 145 }, { 2, 240 }, { 4, 340 }, { 5, 660 },
                                                                  { 10, 1000 } };
static const double MOST_OF_ONE = 145;
/* The most of a key that has two rows left of so many, each with a value of 100 bytes, which takes a block of 112: two
 * such blocks, and the block of four rows that was there, or shorter lists. */
static const struct { unsigned rounds; double most; } LEFT[] = { { 4, 600 }, { 10, 680 } };
/* The most of a peak: how many times the bytes of a checkpoint, or of a restored store. */
static const double MOST_OF_PEAK = 1.2;
/* The most of the peak of a saving in pieces: what part of the store. */
static const double MOST_OF_SAVING = 0.05;
/* The most of the peaks of an increment that is applied, of a checkpoint that is divided, and of parts that are joined:
 * how many times the bytes of the checkpoint. */
static const double MOST_OF_INCREMENT = 3.8, MOST_OF_SPLIT = 4.1, MOST_OF_MERGE = 3.8;

static int wrong;

static uint64_t random_word(void)
{
    static uint64_t word = 88172645463325252;
    word ^= word << 13;
    word ^= word >> 7;
    word ^= word << 17;
    return word;
}

static double in_blocks(void)
{
    struct mallinfo2 info = mallinfo2();
    return (double)(info.uordblks + info.hblkhd);
}

static void expect(const char *what, unsigned rounds, double bytes, double most)
{
    if (bytes <= most) return;
    printf("%s, %u rows a key: %.1f bytes, more than %.0f\n", what, rounds, bytes, most);
    wrong++;
}

static void check(uint32_t code)
{
    if (code == HLC_OK) return;
    printf("code %u\n", code);
    wrong++;
}

/* Writes each of so many keys once, in a random order, with values of so many bytes. */
static void write_keys(hlc_store *store, uint64_t *number, uint32_t keys, size_t value_len)
{
    static uint32_t order[KEYS];
    for (uint32_t i = 0; i < keys; i++) order[i] = i;
    for (uint32_t i = keys - 1; i > 0; i--) {
        uint32_t other = (uint32_t)(random_word() % (i + 1)), key = order[i];
        order[i] = order[other];
        order[other] = key;
    }
    for (uint32_t i = 0; i < keys; i++) {
        char key[LEN + 1], value[LONG] = { 0 };
        uint64_t word;
        snprintf(key, sizeof key, "k%07u", order[i]);
        snprintf(value, sizeof value, "v%07u", (unsigned)*number);
        check(hlc_store_accept_write(store, 0, *number, (*number + 1) << 16, (const uint8_t *)key, LEN,
                                     (const uint8_t *)value, value_len, &word));
        (*number)++;
    }
}

static void write_all(hlc_store *store, uint64_t *number) { write_keys(store, number, KEYS, LEN); }

static void measure(unsigned rounds, double most)
{
    double before = in_blocks();
    hlc_store store = HLC_CLOSED_STORE;
    uint64_t number = 0, id, floor, kept, bytes, dropped;
    check(hlc_store_open(&store, 1));
    for (unsigned round = 0; round < rounds; round++) write_all(&store, &number);
    expect("written", rounds, (in_blocks() - before) / KEYS, most);
    check(hlc_snapshot_open(&store, number << 16, &id));
    check(hlc_store_vacuum(&store, &floor, &kept, &bytes, &dropped));
    if (kept != KEYS || dropped != (uint64_t)(rounds - 1) * KEYS) {
        puts("the vacuum leaves other rows");
        wrong++;
    }
    expect("after a vacuum", rounds, (in_blocks() - before) / KEYS, MOST_OF_ONE);
    hlc_store_close(&store);
    expect("closed", rounds, (in_blocks() - before) / KEYS, 1);
}

/* Of so many rows a key a vacuum leaves the first one, which a snapshot has, and the last one. */
static void measure_two_left(unsigned rounds, double most)
{
    double before = in_blocks();
    hlc_store store = HLC_CLOSED_STORE;
    uint64_t number = 0, id, floor, kept, bytes, dropped;
    check(hlc_store_open(&store, 1));
    for (unsigned round = 0; round < rounds; round++) {
        write_keys(&store, &number, FEW_KEYS, LONG);
        if (round == 0) check(hlc_snapshot_open_at_floor(&store, &id, &floor));
    }
    check(hlc_store_vacuum(&store, &floor, &kept, &bytes, &dropped));
    if (kept != 2 * FEW_KEYS || dropped != (uint64_t)(rounds - 2) * FEW_KEYS) {
        puts("the vacuum leaves other rows than two");
        wrong++;
    }
    expect("two rows left", rounds, (in_blocks() - before) / FEW_KEYS, most);
    hlc_store_close(&store);
}

/* The bytes of the blocks in use, and the most since a peak began. */
static size_t in_use, most_in_use;

static void *counted(void *block)
{
    in_use += malloc_usable_size(block);
    if (in_use > most_in_use) most_in_use = in_use;
    return block;
}

void *__real_malloc(size_t size);
void *__real_realloc(void *block, size_t size);
void __real_free(void *block);

void *__wrap_malloc(size_t size) { return counted(__real_malloc(size)); }

/* A block that moves is there twice for a moment. */
void *__wrap_realloc(void *block, size_t size)
{
    size_t before = malloc_usable_size(block);
    void *moved = __real_realloc(block, size);
    if (moved == NULL) return NULL;
    counted(moved);
    in_use -= before;
    return moved;
}

void __wrap_free(void *block)
{
    in_use -= malloc_usable_size(block);
    __real_free(block);
}

/* Lets the peak begin at what is in use now, and returns that. */
static double begin_peak(void)
{
    most_in_use = in_use;
    return (double)in_use;
}

static void expect_peak(const char *what, double before, double most)
{
    double peak = (double)most_in_use - before;
    if (peak <= most) return;
    printf("%s: a peak of %.0f bytes, more than %.0f\n", what, peak, most);
    wrong++;
}

static void measure_saving(hlc_store *store, double store_bytes)
{
    static uint8_t piece[65536];
    hlc_saving saving = HLC_NO_SAVING;
    uint64_t all, read = 0;
    size_t len;
    uint32_t code = HLC_MORE;
    double before = begin_peak();
    check(hlc_saving_start(&saving, store, 7, &all));
    for (; code == HLC_MORE; read += len) code = hlc_saving_read(&saving, store, piece, sizeof piece, &len);
    check(code);
    expect_peak("a saving in pieces", before, MOST_OF_SAVING * store_bytes);
    if (read != all) {
        puts("a saving has another length");
        wrong++;
    }
    hlc_saving_drop(&saving);
}

typedef struct {
    uint8_t *at;
    size_t len;
} Bytes;

/* The bytes of an output, which is dropped. */
static Bytes taken(hlc_output *output, size_t len)
{
    Bytes made = { malloc(len), len };
    size_t got = 0;
    if (made.at != NULL) check(hlc_output_read(output, 0, made.at, len, &got));
    if (got != len) {
        puts("an output has another length");
        exit(1);
    }
    hlc_output_drop(output);
    return made;
}

static Bytes saved(hlc_store *store)
{
    hlc_output output = HLC_NO_OUTPUT;
    size_t len;
    check(hlc_checkpoint_make(store, 7, &output, &len));
    return taken(&output, len);
}

/* Drops bytes that are expected to be those of a checkpoint. */
static void expect_same(const char *what, Bytes made, Bytes whole)
{
    if (made.len != whole.len || memcmp(made.at, whole.at, whole.len) != 0) {
        printf("%s: other bytes\n", what);
        wrong++;
    }
    free(made.at);
}

/* The peaks of what is made of checkpoints, of rows whose values have an allocation each: an increment of half of the
 * rows, applied to a checkpoint of the others; and the two parts of a checkpoint, divided in the middle of the keys and
 * joined. */
static void measure_parts(void)
{
    hlc_store store = HLC_CLOSED_STORE;
    hlc_output output = HLC_NO_OUTPUT, other = HLC_NO_OUTPUT;
    uint64_t number = 0, floor, word;
    size_t len, other_len;
    check(hlc_store_open(&store, 1));
    for (unsigned round = 0; round < 2; round++) write_keys(&store, &number, FEW_KEYS, LONG);
    check(hlc_store_floor(&store, &floor));
    Bytes older = saved(&store);
    for (unsigned round = 0; round < 2; round++) write_keys(&store, &number, FEW_KEYS, LONG);
    check(hlc_increment_make(&store, floor, 7, &output, &len, &word));
    Bytes increment = taken(&output, len), whole = saved(&store);
    hlc_store_close(&store);

    double before = begin_peak();
    check(hlc_increment_apply(older.at, older.len, increment.at, increment.len, &output, &len, &word));
    expect_peak("an increment that is applied", before, MOST_OF_INCREMENT * (double)whole.len);
    expect_same("an increment that is applied", taken(&output, len), whole);
    free(older.at);
    free(increment.at);

    before = begin_peak();
    check(hlc_checkpoint_split(whole.at, whole.len, (const uint8_t *)"k0010000", LEN, &output, &other, &len,
                               &other_len, &word));
    expect_peak("a checkpoint that is divided", before, MOST_OF_SPLIT * (double)whole.len);
    Bytes left = taken(&output, len), right = taken(&other, other_len);

    before = begin_peak();
    check(hlc_checkpoint_merge(left.at, left.len, right.at, right.len, &output, &len, &word));
    expect_peak("parts that are joined", before, MOST_OF_MERGE * (double)whole.len);
    expect_same("parts that are joined", taken(&output, len), whole);
    free(left.at);
    free(right.at);
    free(whole.at);
}

static void measure_checkpoint(void)
{
    static uint8_t piece[65536];
    hlc_store store = HLC_CLOSED_STORE, copy = HLC_CLOSED_STORE;
    hlc_output output = HLC_NO_OUTPUT;
    hlc_restoring restoring = HLC_NO_RESTORING;
    uint64_t number = 0, tag;
    size_t len, from = 0, got;
    double empty = in_blocks();
    check(hlc_store_open(&store, 1));
    for (unsigned round = 0; round < 4; round++) write_all(&store, &number);
    measure_saving(&store, in_blocks() - empty);
    double before = begin_peak();
    check(hlc_checkpoint_make(&store, 7, &output, &len));
    expect_peak("a checkpoint", before, MOST_OF_PEAK * (double)len);
    double blocks = in_blocks();
    before = begin_peak();
    check(hlc_restoring_start(&restoring));
    for (uint32_t code = HLC_MORE; code == HLC_MORE; from += got) {
        code = hlc_output_read(&output, from, piece, sizeof piece, &got);
        check(hlc_restoring_feed(&restoring, piece, got));
    }
    check(hlc_restoring_finish(&restoring, &copy, &tag));
    expect_peak("a restore in pieces", before, MOST_OF_PEAK * (in_blocks() - blocks));
    if (tag != 7) {
        puts("the tag of the checkpoint is another");
        wrong++;
    }
    hlc_output_drop(&output);
    hlc_store_close(&store);
    hlc_store_close(&copy);
}

int main(void)
{
    measure_checkpoint();
    measure_parts();
    for (size_t i = 0; i < sizeof CASES / sizeof *CASES; i++) measure(CASES[i].rounds, CASES[i].most);
    for (size_t i = 0; i < sizeof LEFT / sizeof *LEFT; i++) measure_two_left(LEFT[i].rounds, LEFT[i].most);
    if (wrong == 0) puts("all right");
    return wrong > 0;
}
