/* A process under load is killed at random moments, again and again, on one file: kills TIMES FILE [SEED].
 *
 * The load: three threads append batches, as several items or as one, under all promises, and send messages; a fourth
 * one reports, joins and retires nodes, vacuums and makes checkpoints. What was promised goes to the parent through a
 * pipe, after the call returned. The parent kills the process, opens the file itself, and compares:
 *   - each batch that was promised is there, at its stamp, and after the last one of a thread at most the one that was
 *     under way, whole;
 *   - at a stamp at or above the horizon each thread's batches are there up to the last one at or below the stamp, and
 *     a snapshot that was digested before has the same digest;
 *   - the horizon is not below a vacuum that was promised, and nodes that joined or retired have done so;
 *   - the next stamp is above all that were returned. */
#include "test.h"
#include <poll.h>
#include <pthread.h>
#include <signal.h>
#include <stdbool.h>
#include <sys/wait.h>
#include <time.h>

enum { WRITERS = 3, KEYS = 8, SAMPLES = 40, DIGESTS = 64, MOST_NODES = 900, MOST_LOAD = 150000 };

enum kind { APPENDED, SENT, VACUUMED, JOINED, RETIRED, FAILED };

struct told {
    enum kind kind;
    uint32_t thread;
    uint64_t number;
    uint64_t stamp;
};

/* What was promised of each thread's batches: the stamp of each, from number 1 on. */
static struct {
    uint64_t *stamps;
    uint64_t many, room;
} promised[WRITERS];
static uint64_t greatest, horizon, nodes = 1;
static bool retired[MOST_NODES + 64];
static struct {
    uint64_t stamp;
    uint8_t digest[32];
} digests[DIGESTS];
static unsigned digests_many, seed = 1;
static const char *path;
static hlc_file *file;
static int told_to;

static unsigned chance(unsigned *state, unsigned below)
{
    return (unsigned)rand_r(state) % below;
}

/* ---- The process that is killed ---- */

static void tell(enum kind kind, uint32_t thread, uint64_t number, uint64_t stamp)
{
    struct told told = { kind, thread, number, stamp };
    if (write(told_to, &told, sizeof told) != sizeof told) _exit(3);
}

static void fill(hlc_file_batch *batch, uint32_t thread, uint64_t number, unsigned *state)
{
    static const uint8_t filler[2000];
    char key[32], value[32];
    snprintf(value, sizeof value, "%" PRIu64, number);
    snprintf(key, sizeof key, "%u.%u", thread, (unsigned)(number % KEYS));
    hlc_file_batch_put(batch, BYTES(key), BYTES(value));
    snprintf(key, sizeof key, "%u.fill", thread);
    hlc_file_batch_put(batch, BYTES(key), filler, chance(state, sizeof filler));
    snprintf(key, sizeof key, "%u.last", thread);
    hlc_file_batch_put(batch, BYTES(key), BYTES(value));
}

static void *write_on(void *argument)
{
    uint32_t thread = (uint32_t)(uintptr_t)argument;
    unsigned state = seed * 31 + thread;
    uint64_t number = promised[thread].many + 1, stamp;
    hlc_file_batch *batch;
    hlc_file_batch_new(&batch);
    for (;;) {
        hlc_file_batch_clear(batch);
        fill(batch, thread, number, &state);
        uint32_t promise = 1 + chance(&state, 3);
        uint32_t answer = chance(&state, 2) == 0
                              ? hlc_file_append(file, 0, HLC_FILE_NOW, batch, promise, &stamp)
                              : hlc_file_write_batch(file, 0, HLC_FILE_NOW, batch, promise, &stamp);
        if (answer != HLC_OK) tell(FAILED, thread, answer, 0);
        else tell(APPENDED, thread, number++, stamp);
        if (chance(&state, 4) == 0 && hlc_file_send(file, 0, HLC_FILE_NOW, &stamp) == HLC_OK) tell(SENT, 0, 0, stamp);
        if (chance(&state, 3) == 0) usleep(chance(&state, 2000));
    }
    return NULL;
}

static void change_nodes(unsigned *state)
{
    uint16_t node;
    uint64_t start, stamp;
    if (nodes < MOST_NODES && chance(state, 8) == 0 && hlc_file_join(file, &node, &start) == HLC_OK) {
        tell(JOINED, 0, node, start);
        nodes = (uint64_t)node + 1;
    }
    for (uint64_t i = 1; i < nodes; i++) {
        if (retired[i]) continue;
        bool retires = chance(state, 3) == 0;
        uint32_t answer = retires ? hlc_file_retire(file, (uint16_t)i, HLC_FILE_NOW, &stamp)
                                  : hlc_file_report(file, (uint16_t)i, HLC_FILE_NOW, &stamp);
        if (answer != HLC_OK) tell(FAILED, 9, answer, i);
        retired[i] = retires;
        if (retires) tell(RETIRED, 0, i, stamp);
    }
}

static void vacuum(unsigned *state)
{
    uint64_t word, kept, bytes, dropped;
    uint32_t answer = hlc_file_vacuum_older(file, 20 + chance(state, 200), &word, &kept, &bytes, &dropped);
    if (answer == HLC_OK) tell(VACUUMED, 0, 0, word);
    else tell(FAILED, 9, answer, 0);
}

static void load(void)
{
    hlc_file_options options = { .promise = HLC_FILE_GROUP, .group_microseconds = 200, .checkpoint_bytes = 100000 };
    unsigned state = seed;
    uint64_t place;
    pthread_t thread;
    uint32_t answer = hlc_file_open(path, &options, &file, NULL);
    if (answer != HLC_OK) tell(FAILED, 9, answer, 0);
    for (uintptr_t i = 0; i < WRITERS; i++) pthread_create(&thread, NULL, write_on, (void *)i);
    for (;;) {
        change_nodes(&state);
        if (chance(&state, 4) == 0) vacuum(&state);
        if (chance(&state, 4) == 0 && hlc_file_checkpoint(file, &place) != HLC_OK) tell(FAILED, 9, 1, place);
        usleep(chance(&state, 5000));
    }
}

/* ---- The parent ---- */

static void note_stamp(uint64_t stamp)
{
    if (stamp > greatest) greatest = stamp;
}

static void note_append(uint32_t thread, uint64_t number, uint64_t stamp)
{
    HOLDS(number == promised[thread].many + 1);
    if (promised[thread].many == promised[thread].room) {
        promised[thread].room = 2 * promised[thread].room + 1024;
        promised[thread].stamps = realloc(promised[thread].stamps, promised[thread].room * sizeof(uint64_t));
    }
    promised[thread].stamps[promised[thread].many++] = stamp;
    note_stamp(stamp);
}

static void hear(const struct told *told)
{
    switch (told->kind) {
    case APPENDED: note_append(told->thread, told->number, told->stamp); break;
    case SENT: note_stamp(told->stamp); break;
    case VACUUMED: if (told->stamp > horizon) horizon = told->stamp; break;
    case JOINED: nodes = told->number + 1; break;
    case RETIRED: retired[told->number] = true; note_stamp(told->stamp); break;
    case FAILED:
        printf("%s: thread %u answers %" PRIu64 "\n", test_name, told->thread, told->number);
        wrong++;
        break;
    }
}

/* Hears all that a process tells, kills it when its time is over, and hears the rest. */
static void hear_until_killed(pid_t child, int from, unsigned microseconds)
{
    struct timespec begin, now;
    struct told told;
    bool killed = false;
    clock_gettime(CLOCK_MONOTONIC, &begin);
    for (;;) {
        struct pollfd ready = { from, POLLIN, 0 };
        clock_gettime(CLOCK_MONOTONIC, &now);
        int64_t left = microseconds - ((now.tv_sec - begin.tv_sec) * 1000000LL + (now.tv_nsec - begin.tv_nsec) / 1000);
        if (left <= 0 && !killed) {
            kill(child, SIGKILL);
            killed = true;
        }
        if (poll(&ready, 1, killed ? -1 : (int)(left / 1000)) <= 0) continue;
        if (read(from, &told, sizeof told) != sizeof told) break;
        hear(&told);
    }
    waitpid(child, NULL, 0);
    close(from);
}

static uint64_t number_at_snapshot(hlc_store *mine, uint64_t id, const char *key)
{
    char value[32] = "";
    size_t len;
    if (hlc_snapshot_read(mine, id, BYTES(key), (uint8_t *)value, sizeof value - 1, &len) != HLC_OK) return 0;
    return strtoull(value, NULL, 10);
}

/* How many batches of a thread are at or below a stamp. */
static uint64_t many_at(uint32_t thread, uint64_t stamp)
{
    uint64_t low = 0, high = promised[thread].many;
    while (low < high) {
        uint64_t middle = (low + high) / 2;
        if (promised[thread].stamps[middle] <= stamp) low = middle + 1;
        else high = middle;
    }
    return low;
}

/* Checks that a snapshot has just the batches up to its stamp. */
static void compare_at(uint64_t stamp)
{
    char key[32];
    uint64_t id, at;
    hlc_store mine;
    uint32_t answer = hlc_file_open_snapshot(file, stamp, &id);
    EXPECT(answer, HLC_OK);
    if (answer != HLC_OK) return;
    hlc_file_read_begin(file, &mine);
    for (uint32_t thread = 0; thread < WRITERS; thread++) {
        uint64_t many = many_at(thread, stamp);
        snprintf(key, sizeof key, "%u.last", thread);
        EXPECT(number_at_snapshot(&mine, id, key), many);
        for (uint64_t i = 0; i < KEYS && i < many; i++) {
            snprintf(key, sizeof key, "%u.%u", thread, (unsigned)((many - i) % KEYS));
            EXPECT(number_at_snapshot(&mine, id, key), many - i);
        }
    }
    hlc_file_read_end(file);
    hlc_file_close_snapshot(file, id, &at);
}

/* The batch that was under way may be there: then it counts from now on. */
static void find_under_way(uint32_t thread)
{
    char key[32];
    uint8_t out[4096];
    size_t len, many;
    hlc_store mine;
    uint64_t id, stamp;
    EXPECT(hlc_file_open_snapshot_at_floor(file, &id, &stamp), HLC_OK);
    snprintf(key, sizeof key, "%u.last", thread);
    hlc_file_read_begin(file, &mine);
    uint64_t number = number_at_snapshot(&mine, id, key);
    HOLDS(number == promised[thread].many || number == promised[thread].many + 1);
    if (number == promised[thread].many + 1) {
        uint64_t above = promised[thread].many ? promised[thread].stamps[promised[thread].many - 1] : 0;
        EXPECT(hlc_store_versions(&mine, BYTES(key), above, stamp, out, sizeof out, &len, &many), HLC_OK);
        EXPECT(many, 1);
        memcpy(&stamp, out, sizeof stamp);
        note_append(thread, number, stamp);
    }
    hlc_file_read_end(file);
    hlc_file_close_snapshot(file, id, &stamp);
}

static void compare_nodes(void)
{
    hlc_store mine;
    uint64_t many, next, head, stamp;
    hlc_file_read_begin(file, &mine);
    EXPECT(hlc_store_nodes(&mine, &many), HLC_OK);
    HOLDS(many == nodes || many == nodes + 1);
    nodes = many;
    for (uint64_t i = 0; i < nodes; i++) {
        bool has = false;
        EXPECT(hlc_store_link(&mine, (uint16_t)i, &next, &head, &has), HLC_OK);
        HOLDS(has || !retired[i]);
        retired[i] = has;
    }
    hlc_file_read_end(file);
    for (uint64_t i = 0; i < nodes; i++) {
        if (retired[i]) continue;
        EXPECT(hlc_file_report(file, (uint16_t)i, HLC_FILE_NOW, &stamp), HLC_OK);
        HOLDS(stamp > greatest);
        note_stamp(stamp);
    }
}

static void digest(uint64_t stamp, uint8_t *out)
{
    uint64_t id, at;
    size_t len;
    hlc_store mine;
    EXPECT(hlc_file_open_snapshot(file, stamp, &id), HLC_OK);
    hlc_file_read_begin(file, &mine);
    EXPECT(hlc_snapshot_digest(&mine, id, NULL, 0, NULL, 0, out, 32, &len), HLC_OK);
    hlc_file_read_end(file);
    hlc_file_close_snapshot(file, id, &at);
}

/* Digests the floor for later, and compares those that were digested before. */
static void compare_digests(uint64_t floor)
{
    uint8_t now[32];
    for (unsigned i = 0; i < DIGESTS; i++) {
        if (digests[i].stamp == 0 || digests[i].stamp < horizon) continue;
        digest(digests[i].stamp, now);
        HOLDS(memcmp(now, digests[i].digest, sizeof now) == 0);
    }
    unsigned next = digests_many++ % DIGESTS;
    digests[next].stamp = floor;
    digest(floor, digests[next].digest);
}

static bool is_nothing_promised(void)
{
    uint64_t batches = 0;
    for (uint32_t thread = 0; thread < WRITERS; thread++) batches += promised[thread].many;
    return batches == 0;
}

/* A process that was killed before it had made the file promised nothing: the file is not there, or has no tables. */
static void compare(unsigned *state)
{
    hlc_file_options options = { .checkpoint_bytes = UINT64_MAX, .flags = HLC_FILE_MUST_EXIST };
    hlc_file_state opening = { 0 };
    uint64_t at, floor, before = greatest;
    uint32_t answer = hlc_file_open(path, &options, &file, &opening);
    if (answer == HLC_FILE_CANNOT_OPEN && is_nothing_promised()) return;
    EXPECT(answer, HLC_OK);
    if (answer != HLC_OK) exit(1);
    EXPECT(opening.damaged, 0);
    compare_nodes();
    hlc_file_horizon(file, &at);
    HOLDS(at >= horizon);
    horizon = at;
    for (uint32_t thread = 0; thread < WRITERS; thread++) find_under_way(thread);
    hlc_file_floor(file, &floor);
    HOLDS(floor >= before);
    compare_at(floor);
    for (int i = 0; i < SAMPLES; i++) {
        uint32_t thread = chance(state, WRITERS);
        uint64_t many = promised[thread].many, from = many_at(thread, horizon);
        if (many > from) compare_at(promised[thread].stamps[from + (uint64_t)chance(state, 1 << 30) % (many - from)]);
    }
    compare_digests(floor);
    EXPECT(hlc_file_close(file), HLC_OK);
}

/* A process that only opens the file is killed too, most often while it recovers. */
static void kill_recovery(unsigned microseconds)
{
    pid_t child = fork();
    if (child == 0) {
        hlc_file_open(path, NULL, &file, NULL);
        pause();
    }
    usleep(microseconds);
    kill(child, SIGKILL);
    waitpid(child, NULL, 0);
}

int main(int argc, char **argv)
{
    unsigned times = argc > 1 ? (unsigned)atoi(argv[1]) : 20;
    path = argc > 2 ? argv[2] : "kills.hlc";
    unsigned state = argc > 3 ? (unsigned)atoi(argv[3]) : (unsigned)time(NULL);
    char name[64];
    test_name = name;
    printf("seed %u\n", state);
    fflush(stdout);
    fresh(path);
    for (unsigned i = 1; i <= times && wrong == 0; i++) {
        int ends[2];
        snprintf(name, sizeof name, "kill %u", i);
        seed = chance(&state, 1 << 30);
        if (pipe(ends) != 0) return 1;
        pid_t child = fork();
        if (child == 0) {
            close(ends[0]);
            told_to = ends[1];
            load();
        }
        close(ends[1]);
        hear_until_killed(child, ends[0], chance(&state, MOST_LOAD));
        while (chance(&state, 2) == 0) kill_recovery(chance(&state, 20000));
        compare(&state);
    }
    uint64_t batches = 0;
    for (uint32_t thread = 0; thread < WRITERS; thread++) batches += promised[thread].many;
    printf("%u kills, %" PRIu64 " batches\n", times, batches);
    return ended();
}
