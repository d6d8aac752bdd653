/* Threads write under all promises, read, make checkpoints and vacuum beside each other: threads [ROUNDS]. Each batch
 * gives two keys one value, so every snapshot has both or neither, and the values of a writer rise. */
#include "test.h"
#include <pthread.h>
#include <stdatomic.h>
#include <stdbool.h>

enum { WRITERS = 4, READERS = 2 };

static const char PATH[] = "threads.hlc";
static hlc_file *file;
static atomic_bool ended_writing;
static atomic_int wrongs;
static unsigned rounds = 300;

#define MUST(what)                                                       \
    do {                                                                 \
        if (!(what)) {                                                   \
            printf("threads, line %d: %s does not hold\n", __LINE__, #what); \
            atomic_fetch_add(&wrongs, 1);                                \
        }                                                                \
    } while (0)

static void *write_on(void *argument)
{
    unsigned writer = (unsigned)(uintptr_t)argument;
    hlc_file_batch *batch;
    uint64_t stamp, last = 0, sent;
    char key[2][16], value[16];
    snprintf(key[0], sizeof key[0], "a%u", writer);
    snprintf(key[1], sizeof key[1], "b%u", writer);
    MUST(hlc_file_batch_new(&batch) == HLC_OK);
    for (unsigned i = 1; i <= rounds; i++) {
        snprintf(value, sizeof value, "%08u", i);
        for (int k = 0; k < 2; k++) MUST(hlc_file_batch_put(batch, BYTES(key[k]), BYTES(value)) == HLC_OK);
        MUST(hlc_file_append(file, 0, HLC_FILE_NOW, batch, 1 + (writer + i) % 3, &stamp) == HLC_OK);
        MUST(stamp > last);
        MUST(hlc_file_send(file, 0, HLC_FILE_NOW, &sent) == HLC_OK && sent > stamp);
        last = sent;
    }
    hlc_file_batch_drop(batch);
    return NULL;
}

static size_t read_key(hlc_store *mine, uint64_t id, char kind, unsigned writer, uint8_t *value)
{
    char key[16];
    size_t len;
    snprintf(key, sizeof key, "%c%u", kind, writer);
    return hlc_snapshot_read(mine, id, BYTES(key), value, 8, &len) == HLC_OK ? len : 0;
}

static void *read_on(void *argument)
{
    uint8_t before[WRITERS][8] = { { 0 } }, one[8], other[8];
    uint64_t id, stamp, many;
    hlc_store mine;
    (void)argument;
    while (!atomic_load(&ended_writing)) {
        MUST(hlc_file_open_snapshot_at_floor(file, &id, &stamp) == HLC_OK);
        MUST(hlc_file_read_begin(file, &mine) == HLC_OK);
        for (unsigned writer = 0; writer < WRITERS; writer++) {
            size_t len = read_key(&mine, id, 'a', writer, one);
            MUST(len == read_key(&mine, id, 'b', writer, other) && memcmp(one, other, len) == 0);
            MUST(len == 0 || memcmp(before[writer], one, 8) <= 0);
            if (len > 0) memcpy(before[writer], one, 8);
        }
        hlc_file_read_end(file);
        MUST(hlc_file_count(file, id, NULL, 0, NULL, 0, &many) == HLC_OK && many % 2 == 0);
        MUST(hlc_file_close_snapshot(file, id, &stamp) == HLC_OK);
    }
    return NULL;
}

static void *tidy(void *argument)
{
    uint64_t place, word, kept, bytes, dropped;
    hlc_file_state state;
    (void)argument;
    while (!atomic_load(&ended_writing)) {
        MUST(hlc_file_checkpoint(file, &place) == HLC_OK);
        MUST(hlc_file_vacuum_older(file, 5, &word, &kept, &bytes, &dropped) == HLC_OK);
        state.size = sizeof state;
        MUST(hlc_file_status(file, &state) == HLC_OK && state.failure == 0);
        usleep(1000);
    }
    return NULL;
}

static void all_beside_each_other(void)
{
    pthread_t writers[WRITERS], readers[READERS], tidier;
    hlc_file_options options = { .group_microseconds = 100, .checkpoint_bytes = 20000 };
    char value[16];
    atomic_store(&ended_writing, false);
    file = opened_with(fresh(PATH), options);
    for (uintptr_t i = 0; i < WRITERS; i++) pthread_create(&writers[i], NULL, write_on, (void *)i);
    for (uintptr_t i = 0; i < READERS; i++) pthread_create(&readers[i], NULL, read_on, NULL);
    pthread_create(&tidier, NULL, tidy, NULL);
    for (int i = 0; i < WRITERS; i++) pthread_join(writers[i], NULL);
    atomic_store(&ended_writing, true);
    for (int i = 0; i < READERS; i++) pthread_join(readers[i], NULL);
    pthread_join(tidier, NULL);
    EXPECT(hlc_file_close(file), HLC_OK);
    file = opened(PATH);
    snprintf(value, sizeof value, "%08u", rounds);
    static const char *const keys[WRITERS] = { "a0", "b1", "a2", "b3" };
    for (int i = 0; i < WRITERS; i++) EXPECT_VALUE(file, 0, keys[i], value);
    EXPECT(hlc_file_close(file), HLC_OK);
}

/* ---- Changes that wait for readers ---- */

enum { BUSY_READERS = 8, READS = 10000 };

static atomic_int reading;

/* Of these threads some have the store at any time, until each had it so often. */
static void *read_busily(void *argument)
{
    hlc_store mine;
    (void)argument;
    for (int i = 0; i < READS && !atomic_load(&ended_writing); i++) {
        MUST(hlc_file_read_begin(file, &mine) == HLC_OK);
        if (i == 0) atomic_fetch_add(&reading, 1);
        usleep(500);
        hlc_file_read_end(file);
    }
    atomic_fetch_sub(&reading, 1);
    return NULL;
}

/* A waiting write comes before later reads: it does not wait until the readers end. */
static void writes_come_before_later_reads(void)
{
    pthread_t readers[BUSY_READERS];
    uint64_t stamp;
    atomic_store(&ended_writing, false);
    file = opened_with(fresh(PATH), (hlc_file_options){ .promise = HLC_FILE_WRITTEN });
    for (int i = 0; i < BUSY_READERS; i++) pthread_create(&readers[i], NULL, read_busily, NULL);
    while (atomic_load(&reading) < BUSY_READERS) usleep(100);
    for (int i = 0; i < 10; i++) MUST(put_at(file, HLC_FILE_NOW, "a", "x", &stamp) == HLC_OK);
    EXPECT(atomic_load(&reading), BUSY_READERS);
    atomic_store(&ended_writing, true);
    for (int i = 0; i < BUSY_READERS; i++) pthread_join(readers[i], NULL);
    EXPECT(hlc_file_close(file), HLC_OK);
}

/* ---- Vacuums ---- */

enum { VACUUMS = 20, KEYS = 20000 };

/* Vacuums to a stamp that is its own. Where the horizon is higher by then, it is refused, and nothing is done. */
static void *vacuum_on(void *argument)
{
    uint64_t stamp, word, kept, bytes, dropped;
    (void)argument;
    for (int i = 0; i < VACUUMS; i++) {
        MUST(put_at(file, HLC_FILE_NOW, "k0", "x", &stamp) == HLC_OK);
        uint32_t answer = hlc_file_vacuum_to(file, stamp, &word, &kept, &bytes, &dropped);
        MUST(answer == HLC_OK || answer == HLC_BELOW_HORIZON);
        MUST(word >= stamp && kept == (answer == HLC_OK ? KEYS : 0));
    }
    atomic_store(&ended_writing, true);
    return NULL;
}

/* Raises the horizon by thresholds, as other machines send them. */
static void *raise_on(void *argument)
{
    uint8_t bytes[9];
    size_t len, many;
    uint64_t stamp, word;
    (void)argument;
    while (!atomic_load(&ended_writing)) {
        MUST(put_at(file, HLC_FILE_NOW, "k0", "x", &stamp) == HLC_OK);
        MUST(hlc_record_encode_threshold(stamp, bytes, sizeof bytes, &len) == HLC_OK);
        MUST(hlc_file_append_records(file, bytes, len, 0, &many, &word) == HLC_OK);
    }
    return NULL;
}

/* A vacuum has some twenty parts. None of them is refused since another vacuum, or a threshold, raised the horizon. */
static void a_vacuum_ends_as_it_began(void *(*beside)(void *))
{
    pthread_t vacuuming, other;
    hlc_file_batch *batch;
    uint64_t stamp;
    char key[16];
    atomic_store(&ended_writing, false);
    file = opened_with(fresh(PATH), (hlc_file_options){ .promise = HLC_FILE_WRITTEN });
    EXPECT(hlc_file_batch_new(&batch), HLC_OK);
    for (int i = 0; i < KEYS; i++) {
        snprintf(key, sizeof key, "k%d", i);
        EXPECT(hlc_file_batch_put(batch, BYTES(key), BYTES("x")), HLC_OK);
    }
    EXPECT(hlc_file_append(file, 0, HLC_FILE_NOW, batch, 0, &stamp), HLC_OK);
    hlc_file_batch_drop(batch);
    pthread_create(&vacuuming, NULL, vacuum_on, NULL);
    pthread_create(&other, NULL, beside, NULL);
    pthread_join(vacuuming, NULL);
    pthread_join(other, NULL);
    EXPECT(hlc_file_close(file), HLC_OK);
}

int main(int argc, char **argv)
{
    test_name = "threads";
    if (argc > 1) rounds = (unsigned)atoi(argv[1]);
    writes_come_before_later_reads();
    a_vacuum_ends_as_it_began(vacuum_on);
    a_vacuum_ends_as_it_began(raise_on);
    all_beside_each_other();
    wrong += atomic_load(&wrongs);
    return ended();
}
