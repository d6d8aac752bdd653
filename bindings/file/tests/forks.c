/* The child of a fork has the file of its parent in its memory, and ends normally, as a destructor of any language lets
 * it: it closes the file, and exits. The file is its parent's alone, whatever the parent's threads did at the fork. */
#include "test.h"
#include <pthread.h>
#include <stdatomic.h>
#include <stdbool.h>
#include <sys/wait.h>

enum { WRITES = 100, FORKS = 20, MOST_SECONDS = 30 };

static const char PATH[] = "forks.hlc";
static hlc_file *file;
static uint64_t snapshot;

static const char *key_of(int write)
{
    static _Thread_local char key[16];
    snprintf(key, sizeof key, "k%d", write);
    return key;
}

static void put_all(const char *value)
{
    for (int i = 0; i < WRITES; i++) put(file, HLC_FILE_NOW, key_of(i), value);
}

static void expect_all(const char *value)
{
    for (int i = 0; i < WRITES; i++) EXPECT_VALUE(file, 0, key_of(i), value);
}

/* Runs a child, which must end in time with status 0. */
static void run_child(int (*run)(void))
{
    int status;
    fflush(stdout);
    pid_t child = fork();
    if (child == 0) {
        alarm(MOST_SECONDS);
        exit(run());
    }
    HOLDS(waitpid(child, &status, 0) == child);
    EXPECT(status, 0);
}

static int close_it(void)
{
    return hlc_file_close(file) != HLC_OK;
}

static int close_both(void)
{
    uint64_t stamp;
    return hlc_file_close_snapshot(file, snapshot, &stamp) != HLC_OK || close_it();
}

/* A write there, though there should be none, is refused before it is on disk, and the closing changes nothing then. */
static int write_and_close(void)
{
    uint64_t stamp, place, word, kept, bytes, dropped;
    uint16_t node;
    EXPECT(put_at(file, HLC_FILE_NOW, "child", "x", &stamp), HLC_FILE_SEALED);
    EXPECT(hlc_file_join(file, &node, &stamp), HLC_FILE_SEALED);
    EXPECT(hlc_file_checkpoint(file, &place), HLC_FILE_SEALED);
    EXPECT(hlc_file_vacuum_older(file, 0, &word, &kept, &bytes, &dropped), HLC_FILE_SEALED);
    EXPECT(state_of(file).writes, HLC_FILE_SEALED);
    return wrong != 0 || close_it();
}

/* The lock stays the parent's, each later write is on disk, and all is there after an opening. */
static void go_on(void)
{
    hlc_file *second;
    hlc_file_state state = { 0 };
    EXPECT(hlc_file_open(PATH, NULL, &second, NULL), HLC_FILE_IN_USE);
    put_all("after");
    EXPECT(state_of(file).writes, HLC_OK);
    EXPECT(hlc_file_close(file), HLC_OK);
    EXPECT(hlc_file_open(PATH, NULL, &file, &state), HLC_OK);
    EXPECT(state.sqlite, 0);
    if (!file) exit(1);
    EXPECT(state.place, 2 * WRITES);
    expect_all("after");
    EXPECT_VALUE(file, 0, "child", "");
    EXPECT(hlc_file_close(file), HLC_OK);
    EXPECT(number_of(PATH, "SELECT count(*) FROM pragma_integrity_check WHERE integrity_check = 'ok'"), 1);
}

/* Opens a file whose thread for checkpoints, which the child lacks, waits for more to do. */
static void open_with_thread(void)
{
    hlc_file_options options = { .checkpoint_bytes = 1000 };
    EXPECT(hlc_file_open(fresh(PATH), &options, &file, NULL), HLC_OK);
    put_all("before");
    while (state_of(file).checkpoint_place == 0) usleep(1000);
    usleep(50000);
}

static void a_child_that_closes_changes_nothing(void)
{
    open_with_thread();
    run_child(close_it);
    go_on();
}

static void so_it_does_without_a_thread(void)
{
    file = opened(fresh(PATH));
    put_all("before");
    run_child(close_it);
    go_on();
}

static void a_child_that_writes_is_refused(void)
{
    open_with_thread();
    run_child(write_and_close);
    go_on();
}

static atomic_bool has_ended;

static void *write_on(void *argument)
{
    uint64_t stamp;
    (void)argument;
    while (!atomic_load(&has_ended)) EXPECT(put_at(file, HLC_FILE_NOW, "busy", "x", &stamp), HLC_OK);
    return NULL;
}

static void *read_on(void *argument)
{
    hlc_store mine;
    (void)argument;
    while (!atomic_load(&has_ended)) {
        EXPECT(hlc_file_read_begin(file, &mine), HLC_OK);
        hlc_file_read_end(file);
    }
    return NULL;
}

/* Threads have each lock in turn, and the child has them as they were. */
static void a_child_ends_whatever_threads_did(void)
{
    pthread_t writer, reader;
    uint64_t stamp;
    hlc_file_options options = { .checkpoint_bytes = 2000 };
    EXPECT(hlc_file_open(fresh(PATH), &options, &file, NULL), HLC_OK);
    put_all("before");
    EXPECT(hlc_file_open_snapshot_at_floor(file, &snapshot, &stamp), HLC_OK);
    atomic_store(&has_ended, false);
    pthread_create(&writer, NULL, write_on, NULL);
    pthread_create(&reader, NULL, read_on, NULL);
    for (int i = 0; i < FORKS && wrong == 0; i++) run_child(close_both);
    atomic_store(&has_ended, true);
    pthread_join(writer, NULL);
    pthread_join(reader, NULL);
    EXPECT(state_of(file).failure, HLC_OK);
    EXPECT(hlc_file_close_snapshot(file, snapshot, &stamp), HLC_OK);
    EXPECT(hlc_file_close(file), HLC_OK);
    file = opened(PATH);
    expect_all("before");
    EXPECT_VALUE(file, 0, "busy", "x");
    EXPECT(hlc_file_close(file), HLC_OK);
}

static const struct test TESTS[] = {
    TEST(a_child_that_closes_changes_nothing),
    TEST(so_it_does_without_a_thread),
    TEST(a_child_that_writes_is_refused),
    TEST(a_child_ends_whatever_threads_did),
};

int main(void)
{
    return run_tests(TESTS, sizeof TESTS / sizeof *TESTS);
}
