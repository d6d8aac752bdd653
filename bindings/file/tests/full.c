/* A store on a disk that becomes full: full FOLDER. The folder is a small disk, which tests/small_disk makes. A filler
 * beside the store leaves some pages of the disk, and batches are appended until one is refused. */
#include "test.h"
#include <fcntl.h>
#include <sys/statvfs.h>

enum { PAGE = 4096, MOST_VALUE = 60000, MOST_BATCHES = 500 };
/* The pages that are left on the disk. With those that the write-ahead log has room for, some 300 at most, they are
 * fewer than a checkpoint of the first batch takes, and each end within a batch. */
enum { FEWEST_LEFT = 20, MOST_LEFT = 30, MORE_LEFT = 3 };

static const char PATH[] = "full.hlc";
static const char FILLER[] = "filler";

/* How many writes a batch has, and the bytes of their values. */
struct shape {
    unsigned writes;
    size_t length;
};

static const struct shape FIRST = { 32, 50000 };
/* The last one is longer than SQLite's cache, which writes then before the transaction ends. */
static const struct shape SHAPES[] = { { 1, 100 }, { 2, 3000 }, { 2, 30000 }, { 40, MOST_VALUE } };
static uint8_t value[MOST_VALUE], found[MOST_VALUE];

/* ---- The disk ---- */

static uint64_t pages_left(void)
{
    struct statvfs disk;
    HOLDS(statvfs(".", &disk) == 0);
    return disk.f_bavail * disk.f_frsize / PAGE;
}

static void leave(uint64_t pages)
{
    int filler = open(FILLER, O_CREAT | O_WRONLY, 0600);
    HOLDS(posix_fallocate(filler, 0, (off_t)((pages_left() - pages) * PAGE)) == 0);
    close(filler);
    EXPECT(pages_left(), pages);
}

static void make_room(void)
{
    HOLDS(unlink(FILLER) == 0);
}

/* ---- Batches ---- */

/* The batches of a run are numbered from 1. Each has keys and a value of its own. */
struct run {
    hlc_file *file;
    uint32_t promise;
    struct shape shape; /* of the batches behind the first one */
    unsigned refused;   /* the batch that the full disk refused */
    uint32_t answer;    /* to it */
};

static const char *key_of(unsigned batch, unsigned write)
{
    static char key[32];
    snprintf(key, sizeof key, "%u.%u", batch, write);
    return key;
}

/* Returns the shape of a batch, and sets `value`. */
static struct shape shape_of(const struct run *run, unsigned batch)
{
    memset(value, (int)batch, sizeof value);
    return batch == 1 ? FIRST : run->shape;
}

static uint32_t append(const struct run *run, unsigned number, uint64_t *stamp)
{
    hlc_file_batch *batch;
    struct shape shape = shape_of(run, number);
    EXPECT(hlc_file_batch_new(&batch), HLC_OK);
    for (unsigned write = 0; write < shape.writes; write++) {
        EXPECT(hlc_file_batch_put(batch, BYTES(key_of(number, write)), value, shape.length), HLC_OK);
    }
    uint32_t answer = hlc_file_append(run->file, 0, HLC_FILE_NOW, batch, run->promise, stamp);
    hlc_file_batch_drop(batch);
    return answer;
}

/* Returns how many writes of a batch are visible, each with its value. */
static unsigned visible(const struct run *run, unsigned batch)
{
    unsigned many = 0;
    uint64_t id, stamp;
    size_t len;
    struct shape shape = shape_of(run, batch);
    EXPECT(hlc_file_open_snapshot_at_floor(run->file, &id, &stamp), HLC_OK);
    for (unsigned write = 0; write < shape.writes; write++) {
        uint32_t answer = hlc_file_read(run->file, id, BYTES(key_of(batch, write)), found, sizeof found, &len);
        if (answer == HLC_NO_VALUE) continue;
        EXPECT(answer, HLC_OK);
        EXPECT(len, shape.length);
        many += memcmp(found, value, shape.length) == 0;
    }
    EXPECT(hlc_file_close_snapshot(run->file, id, &stamp), HLC_OK);
    return many;
}

static void expect_all_before(const struct run *run)
{
    for (unsigned batch = 1; batch < run->refused; batch++) EXPECT(visible(run, batch), shape_of(run, batch).writes);
}

static bool is_full(uint32_t answer)
{
    return answer == HLC_FILE_FULL || answer == HLC_FILE_UNKNOWN;
}

/* Opens a new file, appends a batch, fills the disk but for some pages, and appends until a batch is refused. */
static struct run filled(uint32_t promise, struct shape shape, uint64_t left)
{
    struct run run = { .file = opened(fresh(PATH)), .promise = promise, .shape = shape, .refused = 1 };
    uint64_t stamp;
    EXPECT(append(&run, 1, &stamp), HLC_OK);
    leave(left);
    do run.answer = append(&run, ++run.refused, &stamp);
    while (run.answer == HLC_OK && run.refused < MOST_BATCHES);
    HOLDS(is_full(run.answer));
    EXPECT(stamp, 0);
    return run;
}

/* ---- Tests ---- */

static void a_refused_batch_is_nowhere(struct run run)
{
    uint64_t stamp;
    hlc_file_state state = state_of(run.file);
    EXPECT(state.failure, run.answer);
    EXPECT(state.sqlite & 0xff, SQLITE_FULL);
    EXPECT(state.writes, run.answer == HLC_FILE_FULL ? HLC_OK : HLC_FILE_UNKNOWN);
    EXPECT(state.place, run.refused - 1);
    expect_all_before(&run);
    EXPECT(visible(&run, run.refused), 0);
    make_room();
    EXPECT(append(&run, run.refused + 1, &stamp), HLC_OK);
    EXPECT(hlc_file_close(run.file), HLC_OK);
    run.file = opened(PATH);
    EXPECT(state_of(run.file).applied, FIRST.writes + (run.refused - 1) * run.shape.writes);
    expect_all_before(&run);
    EXPECT(visible(&run, run.refused), 0);
    EXPECT(visible(&run, run.refused + 1), run.shape.writes);
    EXPECT(append(&run, run.refused, &stamp), HLC_OK);
    EXPECT(visible(&run, run.refused), run.shape.writes);
    EXPECT(hlc_file_close(run.file), HLC_OK);
}

static void a_refused_checkpoint_changes_nothing(struct run run)
{
    uint64_t place = 7, stamp;
    uint32_t answer = hlc_file_checkpoint(run.file, &place);
    HOLDS(is_full(answer) || answer == HLC_FILE_SEALED);
    EXPECT(place, 0);
    EXPECT(state_of(run.file).checkpoint_place, 0);
    EXPECT(state_of(run.file).place, run.refused - 1);
    expect_all_before(&run);
    EXPECT(visible(&run, run.refused), 0);
    make_room();
    EXPECT(append(&run, run.refused, &stamp), HLC_OK);
    EXPECT(hlc_file_checkpoint(run.file, &place), HLC_OK);
    EXPECT(place, run.refused);
    EXPECT(hlc_file_close(run.file), HLC_OK);
    run.file = opened(PATH);
    EXPECT(state_of(run.file).applied, 0);
    expect_all_before(&run);
    EXPECT(visible(&run, run.refused), run.shape.writes);
    EXPECT(hlc_file_close(run.file), HLC_OK);
}

/* A closing that cannot sync what was written says so. An opening may need room. */
static void the_next_opening_has_all_before(struct run run)
{
    uint32_t answer = hlc_file_close(run.file);
    HOLDS(answer == HLC_OK || is_full(answer) || answer == HLC_FILE_SEALED);
    answer = hlc_file_open(PATH, NULL, &run.file, NULL);
    HOLDS(answer == HLC_OK || answer == HLC_FILE_FULL);
    if (answer == HLC_OK) {
        expect_all_before(&run);
        hlc_file_close(run.file);
    }
    make_room();
    run.file = opened(PATH);
    expect_all_before(&run);
    unsigned writes = visible(&run, run.refused);
    HOLDS(writes == 0 || (writes == run.shape.writes && run.answer == HLC_FILE_UNKNOWN));
    EXPECT(hlc_file_close(run.file), HLC_OK);
}

/* Where a file cannot be made for want of room, what is left of it is no hindrance later. */
static void a_file_is_made_later(void)
{
    struct run run = { .promise = HLC_FILE_SYNCED };
    uint64_t left = 0, stamp;
    uint32_t answer;
    do {
        fresh(PATH);
        leave(left++);
        answer = hlc_file_open(PATH, NULL, &run.file, NULL);
        HOLDS(answer == HLC_OK || answer == HLC_FILE_FULL);
        if (answer == HLC_OK) hlc_file_close(run.file);
        make_room();
        run.file = opened(PATH);
        EXPECT(append(&run, 1, &stamp), HLC_OK);
        EXPECT(visible(&run, 1), FIRST.writes);
        EXPECT(hlc_file_close(run.file), HLC_OK);
    } while (answer != HLC_OK && left < MOST_LEFT);
    HOLDS(left > 1);
    EXPECT(answer, HLC_OK);
}

/* ---- All of them ---- */

#define TEST(name) { #name, name }

static const struct {
    const char *name;
    void (*run)(struct run run);
} TESTS[] = {
    TEST(a_refused_batch_is_nowhere),
    TEST(a_refused_checkpoint_changes_nothing),
    TEST(the_next_opening_has_all_before),
};

static void test_all(uint32_t promise, struct shape shape, uint64_t left)
{
    for (size_t i = 0; i < sizeof TESTS / sizeof *TESTS; i++) {
        test_name = TESTS[i].name;
        TESTS[i].run(filled(promise, shape, left));
    }
}

static void test_pages(uint32_t promise, struct shape shape)
{
    for (uint64_t left = FEWEST_LEFT; left < MOST_LEFT; left += MORE_LEFT) test_all(promise, shape, left);
}

static void test_shapes(uint32_t promise)
{
    for (size_t i = 0; i < sizeof SHAPES / sizeof *SHAPES; i++) test_pages(promise, SHAPES[i]);
}

int main(int many, char **words)
{
    if (many != 2 || chdir(words[1]) != 0) return 2;
    for (uint32_t promise = HLC_FILE_SYNCED; promise <= HLC_FILE_WRITTEN; promise++) test_shapes(promise);
    test_name = "a_file_is_made_later";
    a_file_is_made_later();
    return ended();
}
