/* Four threads read one store while a fifth one writes and vacuums, under a pthread_rwlock_t. Each reader makes its
 * calls with a copy of the handle, under the reading side of the lock, and checks every answer. The word, if there is
 * one, is the number of rounds of the writer.
 *
 * In round r the writer writes each key k for which k + r is divisible by 4, with the value "k.r", and deletes each for
 * which k + r - 2 is. So what a snapshot has, which is opened at the end of a round, follows from the round's number.
 * The last four snapshots are open; the vacuum after each third round keeps what they need. */
#define _GNU_SOURCE
#include "hlcstore_inline.h"
#include <inttypes.h>
#include <pthread.h>
#include <stdbool.h>
#include <stdio.h>
#include <stdlib.h>
#include <string.h>

enum { READERS = 4, KEYS = 60, OPEN = 4, KEY_ROOM = 8, VALUE_ROOM = 24 };

struct snapshot {
    uint64_t id, stamp;
    unsigned round;
};

/* What the threads share; the lock guards all of it. */
static pthread_rwlock_t lock;
static hlc_store store = HLC_CLOSED_STORE;
static struct snapshot snapshots[OPEN];
static unsigned rounds = 2000;
static bool ended;

struct reader {
    pthread_t thread;
    unsigned seed, looks, wrong;
};

static void stop(const char *call, uint32_t code)
{
    fprintf(stderr, "%s: %" PRIu32 "\n", call, code);
    exit(1);
}

/* Writes the key of a number, and returns its length. Keys ascend with their numbers. */
static size_t key_of(unsigned k, char *key)
{
    return (size_t)snprintf(key, KEY_ROOM, "k%03u", k);
}

/* Writes the value that a key has at the end of a round, and returns its length, or returns -1 where it has none. */
static int value_of(unsigned k, unsigned round, char *value)
{
    unsigned last = (k + round) % 2 == 0 ? round : round - 1;
    if (round == 0 || last == 0 || (k + last) % 4 != 0) return -1;
    return snprintf(value, VALUE_ROOM, "%u.%u", k, last);
}

static unsigned count_of(unsigned from, unsigned to, unsigned round)
{
    char value[VALUE_ROOM];
    unsigned many = 0;
    for (unsigned k = from; k < to; k++) many += value_of(k, round, value) >= 0;
    return many;
}

/* ---- The readers. Each of these calls has the reading side of the lock, and a copy of the handle. ---- */

static bool reads_key(hlc_store *mine, const struct snapshot *at, unsigned k)
{
    char key[KEY_ROOM], value[VALUE_ROOM];
    uint8_t out[VALUE_ROOM];
    size_t key_len = key_of(k, key), len;
    int expected = value_of(k, at->round, value);
    uint32_t code = hlc_snapshot_read(mine, at->id, (uint8_t *)key, key_len, out, sizeof out, &len);
    if (expected < 0) return code == HLC_NO_VALUE;
    return code == HLC_OK && len == (size_t)expected && memcmp(out, value, len) == 0;
}

/* Takes a length and so many bytes from a listing, and returns whether they are these. */
static bool takes(const uint8_t **at, const char *bytes, size_t bytes_len)
{
    uint64_t len = 0;
    for (int i = 7; i >= 0; i--) len = len << 8 | (*at)[i];
    if (len != bytes_len || memcmp(*at + 8, bytes, len) != 0) return false;
    *at += 8 + len;
    return true;
}

/* Takes the next pair of the snapshot from a listing, and returns whether it is that of key k, or of a later key. */
static bool takes_pair(const uint8_t **at, unsigned *k, unsigned round)
{
    char key[KEY_ROOM], value[VALUE_ROOM];
    int len = -1;
    for (; *k < KEYS && len < 0; ++*k) len = value_of(*k, round, value);
    return len >= 0 && takes(at, key, key_of(*k - 1, key)) && takes(at, value, (size_t)len);
}

/* Scans the whole snapshot in pieces of a few pairs. */
static bool scans(hlc_store *mine, const struct snapshot *at)
{
    char from[KEY_ROOM];
    uint8_t out[160];
    size_t from_len = 0, len, many;
    uint32_t code = HLC_MORE;
    unsigned k = 0;
    while (code == HLC_MORE) {
        const uint8_t *rest = out;
        code = hlc_snapshot_scan(mine, at->id, (uint8_t *)from, from_len, NULL, 0, out, sizeof out, &len, &many);
        for (size_t i = 0; i < many; i++) {
            if (!takes_pair(&rest, &k, at->round)) return false;
        }
        if (rest != out + len || (code == HLC_MORE && many == 0)) return false;
        /* The next piece begins behind the last key, with a byte 0 after it. */
        if (code == HLC_MORE) from_len = key_of(k - 1, from) + 1;
    }
    return code == HLC_OK && count_of(k, KEYS, at->round) == 0;
}

/* Scans the whole snapshot from its end, in pieces of a few pairs. */
static bool scans_back(hlc_store *mine, const struct snapshot *at)
{
    char key[KEY_ROOM] = "", value[VALUE_ROOM];
    uint8_t out[100];
    size_t key_len = 0, len, many;
    uint32_t code = HLC_MORE;
    unsigned k = KEYS;
    while (code == HLC_MORE) {
        const uint8_t *rest = out;
        code = hlc_snapshot_scan_back(mine, at->id, NULL, 0, (uint8_t *)key, key_len, out, sizeof out, &len, &many);
        for (size_t i = 0; i < many; i++) {
            int value_len = -1;
            while (k > 0 && value_len < 0) value_len = value_of(--k, at->round, value);
            /* The next piece ends before the last key. */
            key_len = key_of(k, key);
            if (value_len < 0 || !takes(&rest, key, key_len) || !takes(&rest, value, (size_t)value_len)) return false;
        }
        if (rest != out + len || (code == HLC_MORE && many == 0)) return false;
    }
    return code == HLC_OK && count_of(0, k, at->round) == 0;
}

/* Lists what changes from a snapshot to another: the keys whose values differ, with those that they have there. */
static bool changes(hlc_store *mine, const struct snapshot *before, const struct snapshot *after)
{
    char key[KEY_ROOM], old[VALUE_ROOM], new[VALUE_ROOM];
    uint8_t out[KEYS * (KEY_ROOM + VALUE_ROOM + 17)] = { 0 };
    const uint8_t *rest = out;
    size_t len, many;
    uint32_t code = hlc_snapshot_changes(mine, before->id, after->id, NULL, 0, NULL, 0, out, sizeof out, &len, &many);
    for (unsigned k = 0; k < KEYS; k++) {
        int old_len = value_of(k, before->round, old), new_len = value_of(k, after->round, new);
        if (old_len == new_len && (new_len < 0 || memcmp(old, new, (size_t)new_len) == 0)) continue;
        if (!takes(&rest, key, key_of(k, key)) || *rest++ != (new_len >= 0)) return false;
        if (new_len >= 0 && !takes(&rest, new, (size_t)new_len)) return false;
    }
    return code == HLC_OK && rest == out + len;
}

static bool counts(hlc_store *mine, const struct snapshot *at, unsigned k)
{
    char from[KEY_ROOM], to[KEY_ROOM];
    unsigned end = k + (KEYS - k) / 2 + 1;
    uint64_t many;
    uint32_t code = hlc_snapshot_count(mine, at->id, (uint8_t *)from, key_of(k, from), (uint8_t *)to, key_of(end, to),
                                       &many);
    return code == HLC_OK && many == count_of(k, end, at->round);
}

/* Two digests of one snapshot are equal. */
static bool digests(hlc_store *mine, const struct snapshot *at)
{
    uint8_t out[2][32];
    size_t len;
    for (int i = 0; i < 2; i++) {
        if (hlc_snapshot_digest(mine, at->id, NULL, 0, NULL, 0, out[i], 32, &len) != HLC_OK) return false;
    }
    return memcmp(out[0], out[1], 32) == 0;
}

/* Makes a checkpoint, and an increment since the horizon, in an output of this call's own. */
static bool saves(hlc_store *mine, uint64_t horizon)
{
    hlc_output output = HLC_NO_OUTPUT;
    size_t len, increment_len;
    uint64_t word;
    uint32_t code = hlc_checkpoint_make(mine, 0, &output, &len);
    hlc_output_drop(&output);
    if (code == HLC_OK) code = hlc_increment_make(mine, horizon, 0, &output, &increment_len, &word);
    hlc_output_drop(&output);
    return code == HLC_OK && len > 0 && increment_len > 0;
}

/* The floor is not below the snapshot, nor the horizon above the floor; its rows are there, and it can be saved. */
static bool asks(hlc_store *mine, const struct snapshot *at)
{
    uint64_t floor, horizon, rows, id, stamp;
    if (hlc_store_floor(mine, &floor) != HLC_OK || floor < at->stamp) return false;
    if (hlc_store_horizon(mine, &horizon) != HLC_OK || horizon > floor) return false;
    if (hlc_store_rows(mine, &rows) != HLC_OK || rows < count_of(0, KEYS, at->round)) return false;
    if (hlc_snapshot_at_place(mine, 0, &id, &stamp) != HLC_OK || stamp > at->stamp) return false;
    return saves(mine, horizon);
}

static bool look(hlc_store *mine, const struct snapshot *at, unsigned kind, unsigned k)
{
    switch (kind) {
    case 0: return scans(mine, at);
    case 1: return counts(mine, at, k);
    case 2: return digests(mine, at);
    case 3: return asks(mine, at);
    case 4: return scans_back(mine, at);
    case 5: return changes(mine, at, &snapshots[k % OPEN]);
    default: return reads_key(mine, at, k);
    }
}

static void *read_on(void *shared)
{
    struct reader *reader = shared;
    bool goes_on = true;
    while (goes_on) {
        pthread_rwlock_rdlock(&lock);
        struct snapshot at = snapshots[rand_r(&reader->seed) % OPEN];
        if (!look(HLC_COPY(&store), &at, (unsigned)rand_r(&reader->seed) % 10, (unsigned)rand_r(&reader->seed) % KEYS))
            reader->wrong++;
        goes_on = !ended;
        pthread_rwlock_unlock(&lock);
        reader->looks++;
    }
    return NULL;
}

/* ---- The writer ---- */

/* Lets the node issue a write or a deletion, and the store accept it. */
static void change(hlc_node *node, unsigned k, unsigned round)
{
    char key[KEY_ROOM], value[VALUE_ROOM];
    uint64_t number, stamp, word;
    size_t key_len = key_of(k, key);
    int len = value_of(k, round, value);
    uint32_t code = len < 0
        ? hlc_node_delete(node, round, (uint8_t *)key, key_len, &number, &stamp)
        : hlc_node_write(node, round, (uint8_t *)key, key_len, (uint8_t *)value, (size_t)len, &number, &stamp);
    if (code != HLC_OK) stop("issue", code);
    pthread_rwlock_wrlock(&lock);
    code = len < 0
        ? hlc_store_accept_delete(&store, node->id, number, stamp, (uint8_t *)key, key_len, &word)
        : hlc_store_accept_write(&store, node->id, number, stamp, (uint8_t *)key, key_len, (uint8_t *)value,
                                 (size_t)len, &word);
    pthread_rwlock_unlock(&lock);
    if (code != HLC_OK) stop("accept", code);
}

/* Opens a snapshot at the end of a round in place of the oldest one, and sometimes vacuums. */
static void end_round(unsigned round)
{
    struct snapshot *at = &snapshots[round % OPEN];
    uint64_t stamp, floor, kept, bytes, dropped;
    pthread_rwlock_wrlock(&lock);
    uint32_t code = hlc_snapshot_close(&store, at->id, &stamp);
    if (code == HLC_OK) code = hlc_snapshot_open_at_floor(&store, &at->id, &at->stamp);
    at->round = round;
    if (code == HLC_OK && round % 3 == 0) code = hlc_store_vacuum(&store, &floor, &kept, &bytes, &dropped);
    ended = round == rounds;
    pthread_rwlock_unlock(&lock);
    if (code != HLC_OK) stop("end of a round", code);
}

static void write_rounds(hlc_node *node)
{
    for (unsigned round = 1; round <= rounds; round++) {
        for (unsigned k = 0; k < KEYS; k++) {
            if ((k + round) % 2 == 0) change(node, k, round);
        }
        end_round(round);
    }
}

/* glibc lets readers pass a waiting writer, unless the lock's kind says otherwise: with many readers it might never get
 * the lock. */
static void make_lock(void)
{
    pthread_rwlockattr_t kind;
    pthread_rwlockattr_init(&kind);
#ifdef __GLIBC__
    pthread_rwlockattr_setkind_np(&kind, PTHREAD_RWLOCK_PREFER_WRITER_NONRECURSIVE_NP);
#endif
    pthread_rwlock_init(&lock, &kind);
    pthread_rwlockattr_destroy(&kind);
}

static void open_store(void)
{
    uint32_t code = hlc_store_open(&store, 1);
    if (code != HLC_OK) stop("open", code);
    for (unsigned i = 0; i < OPEN; i++) {
        code = hlc_snapshot_open_at_floor(&store, &snapshots[i].id, &snapshots[i].stamp);
        if (code != HLC_OK) stop("snapshot", code);
    }
}

int main(int count, char **words)
{
    static struct reader readers[READERS];
    hlc_node node = hlc_node_open(0, 0);
    unsigned looks = 0, wrong = 0;
    if (count > 1) rounds = (unsigned)atoi(words[1]);
    make_lock();
    open_store();
    for (unsigned i = 0; i < READERS; i++) {
        readers[i].seed = i;
        if (pthread_create(&readers[i].thread, NULL, read_on, &readers[i]) != 0) stop("thread", i);
    }
    write_rounds(&node);
    for (unsigned i = 0; i < READERS; i++) {
        pthread_join(readers[i].thread, NULL);
        looks += readers[i].looks;
        wrong += readers[i].wrong;
    }
    fprintf(stderr, "%u of %u answers are wrong\n", wrong, looks);
    hlc_store_close(&store);
    pthread_rwlock_destroy(&lock);
    printf("%s\n", wrong ? "wrong" : "all right");
    return wrong != 0;
}
