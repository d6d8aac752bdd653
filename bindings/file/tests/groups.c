/* Threads append beside each other while one operation of the disk fails: groups [RUNS]. What was answered with HLC_OK
 * is there, now and after an opening; what was refused is not, unless it is unknown; and writes go on, or the file says
 * that it is sealed. */
#include "test.h"
#include "shim.h"
#include <pthread.h>

enum { WRITERS = 4, APPENDS = 25, FIRST_OPERATION = 25, MOST_OPERATION = 260 };

static const char PATH[] = "groups.hlc";
static hlc_file *file;
static uint32_t answers[WRITERS][APPENDS];
static uint64_t stamps[WRITERS][APPENDS];
static unsigned seed = 1;

static const char *key_of(unsigned writer, unsigned append)
{
    static _Thread_local char key[16];
    snprintf(key, sizeof key, "%u.%02u", writer, append);
    return key;
}

static void *write_on(void *argument)
{
    unsigned writer = (unsigned)(uintptr_t)argument;
    hlc_file_batch *batch;
    hlc_file_batch_new(&batch);
    for (unsigned i = 0; i < APPENDS; i++) {
        hlc_file_batch_clear(batch);
        hlc_file_batch_put(batch, BYTES(key_of(writer, i)), BYTES("value"));
        uint32_t promise = 1 + (writer + i / 5) % 3;
        answers[writer][i] =
            i % 2 == 0 ? hlc_file_append(file, 0, HLC_FILE_NOW, batch, promise, &stamps[writer][i])
                       : hlc_file_write_batch(file, 0, HLC_FILE_NOW, batch, promise, &stamps[writer][i]);
    }
    hlc_file_batch_drop(batch);
    return NULL;
}

/* Counts what was refused, and compares all with what is there. */
static unsigned compare(bool after_opening)
{
    unsigned refused = 0;
    for (unsigned writer = 0; writer < WRITERS; writer++) {
        for (unsigned i = 0; i < APPENDS; i++) {
            uint32_t answer = answers[writer][i];
            refused += answer != HLC_OK;
            if (answer == HLC_FILE_UNKNOWN && after_opening) continue;
            EXPECT_VALUE(file, answer == HLC_OK ? stamps[writer][i] : 0, key_of(writer, i),
                         answer == HLC_OK ? "value" : "");
            HOLDS(answer == HLC_OK || answer == HLC_FILE_IO || answer == HLC_FILE_UNKNOWN ||
                  answer == HLC_FILE_SEALED);
        }
    }
    return refused;
}

static void run(enum fault fault, long at)
{
    static char name[64];
    pthread_t threads[WRITERS];
    uint64_t stamp;
    snprintf(name, sizeof name, "groups, fault %d at operation %ld", (int)fault, at);
    test_name = name;
    fresh(PATH);
    shim_set(fault, false, at, 0);
    file = opened_with(PATH, (hlc_file_options){ .group_microseconds = 50 });
    for (uintptr_t i = 0; i < WRITERS; i++) pthread_create(&threads[i], NULL, write_on, (void *)i);
    for (int i = 0; i < WRITERS; i++) pthread_join(threads[i], NULL);
    HOLDS((compare(false) > 0) == (shim.met && !shim.is_room));
    if (state_of(file).writes == HLC_OK) EXPECT(put_at(file, 1, "more", "x", &stamp), HLC_OK);
    else EXPECT(put_at(file, 1, "more", "x", &stamp), HLC_FILE_SEALED);
    HOLDS(shim.is_sync || state_of(file).writes == HLC_OK);
    hlc_file_close(file);
    shim_set(NO_FAULT, false, 0, 0);
    file = opened(PATH);
    compare(true);
    EXPECT(hlc_file_close(file), HLC_OK);
}

int main(int argc, char **argv)
{
    unsigned runs = argc > 1 ? (unsigned)atoi(argv[1]) : 100;
    shim_register();
    for (unsigned i = 0; i < runs && wrong == 0; i++) {
        long at = FIRST_OPERATION + rand_r(&seed) % (MOST_OPERATION - FIRST_OPERATION);
        run(i % 3 == 0 ? FAILS_LATE : i % 3 == 1 ? FAILS : FAILS_SHORT, at);
    }
    return ended();
}
