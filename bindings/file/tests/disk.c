/* A test of each decision that shows by a disk which fails at one place, on files in the current folder. */
#include "test.h"
#include "shim.h"
#include <dlfcn.h>
#include <errno.h>
#include <fcntl.h>
#include <pthread.h>
#include <sys/stat.h>
#include <sys/wait.h>

/* Bytes of a page in the write-ahead log, and by how many that is lengthened. */
enum { PAGE = 4120, ROOM = 248 << 12 };

static const char PATH[] = "disk.hlc", WAL[] = "disk.hlc-wal", LEFT[] = "left.hlc";

static uint32_t open_as_is(hlc_file **file, hlc_file_state *state)
{
    hlc_file_options options = { .checkpoint_bytes = UINT64_MAX };
    *state = (hlc_file_state){ 0 };
    return hlc_file_open(PATH, &options, file, state);
}

/* Leaves the file of a process that ended early: twenty synced rows are in its write-ahead log alone. */
static void leave(void)
{
    fresh(LEFT);
    pid_t child = fork();
    if (child == 0) {
        hlc_file *file = opened(LEFT);
        static char value[3000];
        memset(value, 'v', sizeof value - 1);
        for (uint64_t l = 1; l <= 20; l++) put(file, l, "a", value);
        _exit(wrong);
    }
    int status;
    waitpid(child, &status, 0);
    EXPECT(status, 0);
}

/* What an opening moves into the file is missed where the disk forgets a part of it. */
static void synced_rows_are_never_lost_silently(void)
{
    hlc_file *file;
    hlc_file_state state;
    bool met = true;
    leave();
    for (long at = 1; met; at++) {
        fresh(PATH);
        HOLDS(system("cp left.hlc disk.hlc && cp left.hlc-wal disk.hlc-wal") == 0);
        shim_set(IS_FORGOTTEN, false, at, 0);
        if (open_as_is(&file, &state) == HLC_OK) EXPECT(state.place, 20);
        met = shim.met;
        shim_set(NO_FAULT, false, 0, 0);
        hlc_file_close(file);
        if (open_as_is(&file, &state) == HLC_OK) EXPECT(state.place, 20);
        hlc_file_close(file);
    }
}

/* Fills the write-ahead log until it is moved into the file, where the disk forgets the root of `log`, and writes on,
 * over what was moved. The process ends early. */
static void move_without_root(void)
{
    enum { ROOT = 2 * 4096 }; /* behind the first page, and that of `state` */
    static uint8_t value[60000];
    hlc_file_batch *batch;
    uint64_t stamp, l = 0;
    hlc_file *file = opened(PATH);
    while (l < 100) put(file, ++l, "a", "a write, of which a page has some forty");
    EXPECT(hlc_file_batch_new(&batch), HLC_OK);
    for (int i = 0; i < 300; i++) EXPECT(hlc_file_batch_put(batch, BYTES("b"), value, sizeof value), HLC_OK);
    shim.forgotten = ROOT;
    EXPECT(hlc_file_append(file, 0, ++l, batch, 0, &stamp), HLC_OK);
    shim.forgotten = 0;
    put(file, ++l, "a", "last");
    _exit(wrong);
}

/* The row of `state` names the last log row before a long write-ahead log is moved, so that what is forgotten there is
 * missed. */
static void a_long_log_is_moved_behind_its_state(void)
{
    hlc_file *file;
    hlc_file_state state;
    int status;
    shim_set(NO_FAULT, false, 0, 0);
    EXPECT(hlc_file_close(opened(fresh(PATH))), HLC_OK);
    pid_t child = fork();
    if (child == 0) move_without_root();
    waitpid(child, &status, 0);
    EXPECT(status, 0);
    HOLDS(open_as_is(&file, &state) != HLC_OK);
    HOLDS(state.failure == HLC_FILE_NO_CHECKPOINT || state.failure == HLC_FILE_CORRUPT);
    hlc_file_close(file);
}

/* Power is lost, with all that is not synced. */
static void lose_power(hlc_file *file)
{
    shim.fault = LOSES_POWER;
    shim.lasts = true;
    shim.at = shim.done + 1;
    hlc_file_close(file);
    for (int i = 0; i < MOST_FILES; i++) {
        if (kept_files[i].path[0]) drop_all(&kept_files[i]);
    }
    power_up(1);
    shim_set(NO_FAULT, false, 0, 0);
}

/* A vacuum syncs its stamp, also where that is the horizon by a threshold which was only written. */
static void a_vacuum_outlives_a_loss_of_power(void)
{
    uint8_t bytes[9];
    size_t len, many;
    uint64_t word, kept, cost, dropped;
    shim_set(NO_FAULT, false, 0, 0);
    hlc_file *file = opened(fresh(PATH));
    for (uint64_t l = 1; l <= 5; l++) put(file, l, "a", "x");
    EXPECT(hlc_record_encode_threshold(AT(4), bytes, sizeof bytes, &len), HLC_OK);
    EXPECT(hlc_file_append_records(file, bytes, len, HLC_FILE_WRITTEN, &many, &word), HLC_OK);
    EXPECT(hlc_file_vacuum_to(file, AT(4), &word, &kept, &cost, &dropped), HLC_OK);
    lose_power(file);
    file = opened(PATH);
    EXPECT_VALUE(file, AT(3), "a", "refused 9");
    EXPECT_VALUE(file, AT(4), "a", "x");
    hlc_file_close(file);
}

/* The stamp of a vacuum that the disk refused is nowhere: no later batch brings it to disk. */
static void a_refused_vacuum_leaves_no_threshold(void)
{
    uint64_t word, kept, bytes, dropped, stamp;
    uint32_t refused = 0;
    bool met = true;
    for (long at = 1; met; at++) {
        shim_set(NO_FAULT, false, 0, 0);
        hlc_file *file = opened(fresh(PATH));
        for (uint64_t l = 1; l <= 5; l++) put(file, l, "a", l == 3 ? "three" : "x");
        shim_set(FAILS, false, at, 0);
        uint32_t answer = hlc_file_vacuum_to(file, AT(4), &word, &kept, &bytes, &dropped);
        met = shim.met;
        shim_set(NO_FAULT, false, 0, 0);
        bool goes_on = put_at(file, 6, "a", "six", &stamp) == HLC_OK;
        refused += answer != HLC_OK && goes_on;
        for (int i = 0; i < 2 && goes_on; i++) {
            EXPECT_VALUE(file, AT(3), "a", answer == HLC_OK ? "refused 9" : "three");
            EXPECT_VALUE(file, 0, "a", "six");
            hlc_file_close(file);
            file = opened(PATH);
        }
        hlc_file_close(file);
    }
    HOLDS(refused > 0);
}

/* A checkpoint that is refused has no place, also where only what it makes needless could not be cut. */
static void a_refused_checkpoint_has_no_place(void)
{
    uint64_t place;
    uint32_t after = 0;
    bool met = true;
    for (long at = 1; met; at++) {
        shim_set(NO_FAULT, false, 0, 0);
        hlc_file *file = opened(fresh(PATH));
        for (uint64_t l = 1; l <= 3; l++) {
            put(file, l, "a", "x");
            if (l < 3) EXPECT(hlc_file_checkpoint(file, &place), HLC_OK);
        }
        shim_set(FAILS, false, at, 0);
        uint32_t answer = hlc_file_checkpoint(file, &place);
        met = shim.met;
        shim_set(NO_FAULT, false, 0, 0);
        EXPECT(place, answer == HLC_OK ? 3 : 0);
        after += answer != HLC_OK && state_of(file).checkpoint_place == 3;
        hlc_file_close(file);
    }
    HOLDS(after > 0);
}

static int64_t log_len(const char *path)
{
    struct stat found;
    return stat(path, &found) == 0 ? found.st_size : -1;
}

/* Synced commits find a write-ahead log that has room for them. */
static void a_log_is_lengthened_before_it_is_full(void)
{
    shim_set(NO_FAULT, false, 0, 0);
    hlc_file *file = opened(fresh(PATH));
    put(file, 1, "a", "x");
    int64_t first = log_len(WAL), next = first;
    HOLDS(first >= ROOM && first < ROOM + 10 * PAGE);
    for (uint64_t l = 2; l <= 1000; l++) {
        int64_t before = log_len(WAL);
        put(file, l, "a", "x");
        HOLDS(log_len(WAL) == before || log_len(WAL) == before + ROOM);
        next = log_len(WAL);
    }
    /* SQLite fills the last sector of a commit with one more page here. */
    HOLDS(next > 2000 * PAGE && next < 2200 * PAGE + ROOM);
    EXPECT_VALUE(file, 0, "a", "x");
    hlc_file_close(file);
}

/* Where there is no room for that, the commit is as it would be without, and the log is left alone from then on. */
static void a_log_that_cannot_be_lengthened_grows(void)
{
    static const enum fault faults[] = { IS_FULL, FAILS, FAILS_LATE, FAILS_SHORT };
    uint64_t stamp;
    for (size_t i = 0; i < sizeof faults / sizeof *faults; i++) {
        uint32_t left = 0;
        bool met = true;
        for (long at = 1; met; at++) {
            shim_set(NO_FAULT, false, 0, 0);
            hlc_file *file = opened(fresh(PATH));
            shim_set(faults[i], false, at, 0);
            uint32_t answer = put_at(file, 1, "a", "x", &stamp);
            met = shim.met;
            shim_set(NO_FAULT, false, 0, 0);
            bool is_left = answer == HLC_OK && met;
            if (is_left) HOLDS(log_len(WAL) < 10 * PAGE);
            if (is_left) EXPECT(state_of(file).failure, HLC_OK);
            for (uint64_t l = 2; is_left && l <= 9; l++) put(file, l, "a", "x");
            if (is_left) HOLDS(log_len(WAL) < 20 * PAGE);
            left += is_left;
            hlc_file_close(file);
        }
        /* The log is lengthened by eight writes. */
        EXPECT(left, 8);
    }
}

/* A checkpoint in the background for which there is no room is not tried again at once, but after some more log. */
static void a_refused_checkpoint_waits_for_more_log(void)
{
    enum { BYTES_DUE = 2 << 20 };
    static char value[60000];
    uint64_t l = 0;
    shim_set(NO_FAULT, false, 0, 0);
    memset(value, 'v', sizeof value - 1);
    hlc_file *file = opened_with(fresh(PATH), (hlc_file_options){ .checkpoint_bytes = BYTES_DUE });
    while (state_of(file).log_bytes + sizeof value < BYTES_DUE) put(file, ++l, "a", value);
    /* The write-ahead log has room for one more write, and for none of the last pieces. */
    limit_files((rlim_t)log_len(WAL));
    put(file, ++l, "a", value);
    for (int i = 0; i < 1000 && state_of(file).background == HLC_OK; i++) usleep(10000);
    HOLDS(state_of(file).background == HLC_FILE_FULL || state_of(file).background == HLC_FILE_IO);
    long done = shim.done;
    for (int i = 0; i < 100 && shim.done == done; i++) usleep(10000);
    EXPECT(shim.done, done);
    EXPECT(state_of(file).writes, HLC_OK);
    limit_files(0);
    uint64_t enough = l + BYTES_DUE / 4 / sizeof value + 2;
    while (l < enough) put(file, ++l, "a", value);
    for (int i = 0; i < 1000 && state_of(file).checkpoint_place == 0; i++) usleep(10000);
    HOLDS(state_of(file).checkpoint_place > 0);
    EXPECT(hlc_file_close(file), HLC_OK);
}

/* Opens a copy of the file that was left, whose log is cut at a length, or has a byte of rubbish there. Returns how
 * many rows it has. */
static uint64_t rows_of_copy(int64_t len, bool cuts)
{
    hlc_file *file;
    hlc_file_state state;
    fresh(PATH);
    HOLDS(system("cp left.hlc disk.hlc && cp left.hlc-wal disk.hlc-wal") == 0);
    int wal = open(WAL, O_WRONLY);
    HOLDS(wal >= 0 && (cuts ? ftruncate(wal, len) : (int)pwrite(wal, "#", 1, len) - 1) == 0);
    close(wal);
    EXPECT(open_as_is(&file, &state), HLC_OK);
    EXPECT(state.failure, HLC_OK);
    for (uint64_t l = 1; l <= state.place; l++) HOLDS(value_at(file, AT(l), "a")[0] == 'v');
    HOLDS(hlc_file_close(file) == HLC_OK);
    return state.place;
}

/* What lies behind the last commit is no part of the log: it may be cut, or be rubbish. A commit that was cut itself is
 * gone, with those behind it alone. */
static void a_log_ends_where_its_last_commit_does(void)
{
    shim_set(NO_FAULT, false, 0, 0);
    leave();
    int64_t whole = log_len("left.hlc-wal"), end = whole;
    HOLDS(whole >= ROOM);
    while (rows_of_copy(end - PAGE, true) == 20) end -= PAGE;
    HOLDS(end > 20 * PAGE && end < whole - ROOM / 2);
    EXPECT(rows_of_copy(whole - 1, true), 20);
    for (int64_t at = end; at < whole; at += ROOM / 8) EXPECT(rows_of_copy(at, false), 20);
    uint64_t last = 20;
    for (int64_t at = end - PAGE; at > PAGE; at -= PAGE / 2) {
        uint64_t rows = rows_of_copy(at, true);
        HOLDS(rows <= last && rows + 1 >= last);
        last = rows;
        HOLDS(rows_of_copy(at, false) <= rows + 1);
    }
    EXPECT(rows_of_copy(PAGE, true), 0);
}

static bool folder_fails;

/* In place of that of the system: the files themselves are synced by the shim. */
int fsync(int file)
{
    (void)file;
    if (!folder_fails) return 0;
    errno = EIO;
    return -1;
}

/* The name of a new file is on disk before it is shown. */
static void a_folder_is_synced(void)
{
    hlc_file *file;
    hlc_file_state state;
    shim_set(NO_FAULT, false, 0, 0);
    fresh(PATH);
    folder_fails = true;
    EXPECT(open_as_is(&file, &state), HLC_FILE_IO);
    HOLDS(file == NULL && state.failure == HLC_FILE_IO);
    folder_fails = false;
    hlc_file_close(opened(PATH));
}

static bool no_threads;

/* In place of that of the system. */
int pthread_create(pthread_t *thread, const pthread_attr_t *attributes, void *(*run)(void *), void *argument)
{
    int (*next)(pthread_t *, const pthread_attr_t *, void *(*)(void *), void *) =
        (int (*)(pthread_t *, const pthread_attr_t *, void *(*)(void *), void *))dlsym(RTLD_NEXT, "pthread_create");
    return no_threads ? EAGAIN : next(thread, attributes, run, argument);
}

/* Where no thread can be made, the one that opens a file reads a long log, too. */
static void a_long_log_is_read_without_a_thread(void)
{
    enum { WRITES = 1200 };
    static char value[3000];
    hlc_file_options options = { .promise = HLC_FILE_WRITTEN };
    shim_set(NO_FAULT, false, 0, 0);
    memset(value, 'v', sizeof value - 1);
    hlc_file *file = opened_with(fresh(PATH), options);
    for (uint64_t l = 1; l <= WRITES; l++) put(file, l, "a", value);
    HOLDS(state_of(file).log_bytes > 3 << 20);
    EXPECT(hlc_file_close(file), HLC_OK);
    no_threads = true;
    file = opened(PATH);
    no_threads = false;
    EXPECT(state_of(file).applied, WRITES);
    EXPECT_VALUE(file, AT(1), "a", value);
    EXPECT_VALUE(file, 0, "a", value);
    EXPECT(hlc_file_close(file), HLC_OK);
}

static const struct test TESTS[] = {
    TEST(synced_rows_are_never_lost_silently),
    TEST(a_long_log_is_moved_behind_its_state),
    TEST(a_vacuum_outlives_a_loss_of_power),
    TEST(a_refused_vacuum_leaves_no_threshold),
    TEST(a_refused_checkpoint_has_no_place),
    TEST(a_folder_is_synced),
    TEST(a_log_is_lengthened_before_it_is_full),
    TEST(a_log_that_cannot_be_lengthened_grows),
    TEST(a_refused_checkpoint_waits_for_more_log),
    TEST(a_log_ends_where_its_last_commit_does),
    TEST(a_long_log_is_read_without_a_thread),
};

int main(void)
{
    shim_register();
    return run_tests(TESTS, sizeof TESTS / sizeof *TESTS);
}
