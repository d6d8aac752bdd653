/* Measures reads of one store from several threads, each read with a copy of the handle: under the reading side of a
 * read-write lock, under a mutex, under one of 16 slots by the thread, of which a writer would lock all, and without a
 * lock, which only reads allow. With LMDB defined, the same rows of LMDB too, which needs no lock: each thread has a
 * transaction that reads, and a cursor. Prints million reads a second, best and median of 9 runs, which take turns. */
#include "hlcstore.h"
#include <pthread.h>
#include <stdio.h>
#include <stdlib.h>
#include <string.h>
#include <time.h>
#ifdef LMDB
#include <lmdb.h>
#include <unistd.h>
#endif

enum { KEYS = 1000, VERSIONS = 20, READS = 400000, RUNS = 9, MOST = 4, SLOTS = 16 };
#ifdef LMDB
enum kind { SHARED, SINGLE, BY_SLOT, NONE, PAGES, KINDS };
#else
enum kind { SHARED, SINGLE, BY_SLOT, NONE, KINDS };
#endif

/* Slots share no cache line. */
struct slot {
    _Alignas(128) pthread_rwlock_t lock;
};

static const char *const names[] = { "read-write lock", "mutex", "slots", "no lock", "LMDB" };
static pthread_rwlock_t shared = PTHREAD_RWLOCK_INITIALIZER;
static pthread_mutex_t single = PTHREAD_MUTEX_INITIALIZER;
static struct slot slots[SLOTS];
static hlc_store store = HLC_CLOSED_STORE;
static uint64_t snapshot;

struct reader {
    pthread_t thread;
    enum kind kind;
    unsigned slot, first, reads;
};

static void must(uint32_t code)
{
    if (code != HLC_OK) exit(1);
}

static void key_of(unsigned k, char *key)
{
    snprintf(key, 9, "key%05u", k % KEYS);
}

/* Reads a key with a copy of the handle. */
static void read_key(unsigned k)
{
    hlc_store mine = store;
    char key[9];
    uint8_t out[8];
    size_t len;
    key_of(k, key);
    must(hlc_snapshot_read(&mine, snapshot, (uint8_t *)key, 8, out, sizeof out, &len));
    if (len != 8 || memcmp(out, key, 8) != 0) exit(1);
}

#ifdef LMDB
static MDB_env *env;
static MDB_dbi rows;

static void done(int code)
{
    if (code != 0) exit(1);
}

/* A row's key: the key, a zero, and the inverted stamp, the high byte first, so that the newest version comes first. */
static void row_of(unsigned k, uint64_t stamp, unsigned char *row)
{
    key_of(k, (char *)row);
    for (int i = 0; i < 8; i++) row[9 + i] = (unsigned char)(~stamp >> (56 - 8 * i));
}

static void fill_pages(void)
{
    char path[] = "/dev/shm/hlcstore-readers-XXXXXX", remove[80];
    unsigned char row[17];
    MDB_txn *txn;
    if (!mkdtemp(path)) exit(1);
    done(mdb_env_create(&env));
    done(mdb_env_set_mapsize(env, (size_t)1 << 30));
    done(mdb_env_open(env, path, MDB_NOSYNC | MDB_WRITEMAP | MDB_NOTLS, 0600));
    snprintf(remove, sizeof remove, "rm -r %s", path);
    if (system(remove) != 0) exit(1);
    done(mdb_txn_begin(env, NULL, 0, &txn));
    done(mdb_dbi_open(txn, NULL, 0, &rows));
    for (unsigned i = 0; i < KEYS * VERSIONS; i++) {
        row_of(i, (uint64_t)(i + 1) << 16, row);
        MDB_val key = { sizeof row, row }, value = { 8, row };
        done(mdb_put(txn, rows, &key, &value, 0));
    }
    done(mdb_txn_commit(txn));
}

static void read_pages(const struct reader *reader)
{
    MDB_txn *txn;
    MDB_cursor *cursor;
    unsigned char row[17];
    char key[9];
    done(mdb_txn_begin(env, NULL, MDB_RDONLY, &txn));
    done(mdb_cursor_open(txn, rows, &cursor));
    for (unsigned i = 0; i < reader->reads; i++) {
        unsigned k = reader->first + 379 * i;
        row_of(k, (uint64_t)(KEYS * VERSIONS) << 16, row);
        key_of(k, key);
        MDB_val found = { sizeof row, row }, value;
        done(mdb_cursor_get(cursor, &found, &value, MDB_SET_RANGE));
        if (memcmp(found.mv_data, key, 9) != 0 || value.mv_size != 8 || memcmp(value.mv_data, key, 8) != 0) exit(1);
    }
    mdb_cursor_close(cursor);
    mdb_txn_abort(txn);
}
#endif

static void *read_all(void *at)
{
    const struct reader *reader = at;
#ifdef LMDB
    if (reader->kind == PAGES) {
        read_pages(reader);
        return NULL;
    }
#endif
    for (unsigned i = 0; i < reader->reads; i++) {
        if (reader->kind == SHARED) pthread_rwlock_rdlock(&shared);
        if (reader->kind == SINGLE) pthread_mutex_lock(&single);
        if (reader->kind == BY_SLOT) pthread_rwlock_rdlock(&slots[reader->slot].lock);
        read_key(reader->first + 379 * i);
        if (reader->kind == SHARED) pthread_rwlock_unlock(&shared);
        if (reader->kind == SINGLE) pthread_mutex_unlock(&single);
        if (reader->kind == BY_SLOT) pthread_rwlock_unlock(&slots[reader->slot].lock);
    }
    return NULL;
}

/* Writes each key so many times, and opens a snapshot at the floor. */
static void fill(void)
{
    hlc_node node = hlc_node_open(0, 0);
    uint64_t number, stamp, word;
    char key[9];
    must(hlc_store_open(&store, 1));
    for (unsigned i = 0; i < KEYS * VERSIONS; i++) {
        key_of(i, key);
        must(hlc_node_write(&node, i + 1, (uint8_t *)key, 8, (uint8_t *)key, 8, &number, &stamp));
        must(hlc_store_accept_write(&store, 0, number, stamp, (uint8_t *)key, 8, (uint8_t *)key, 8, &word));
    }
    must(hlc_snapshot_open_at_floor(&store, &snapshot, &stamp));
}

/* Returns how many million reads a second so many threads make. */
static double rate(unsigned threads, enum kind kind)
{
    struct reader readers[MOST];
    struct timespec start, end;
    clock_gettime(CLOCK_MONOTONIC, &start);
    for (unsigned i = 0; i < threads; i++) {
        readers[i] = (struct reader){.kind = kind, .slot = i, .first = 77 * i, .reads = READS / threads};
        if (pthread_create(&readers[i].thread, NULL, read_all, &readers[i]) != 0) exit(1);
    }
    for (unsigned i = 0; i < threads; i++) pthread_join(readers[i].thread, NULL);
    clock_gettime(CLOCK_MONOTONIC, &end);
    return READS / ((double)(end.tv_sec - start.tv_sec) * 1e6 + (double)(end.tv_nsec - start.tv_nsec) / 1e3);
}

static int by_rate(const void *one, const void *other)
{
    double difference = *(const double *)other - *(const double *)one;
    return (difference > 0) - (difference < 0);
}

int main(void)
{
    double rates[KINDS][RUNS];
    fill();
#ifdef LMDB
    fill_pages();
#endif
    for (unsigned i = 0; i < SLOTS; i++) pthread_rwlock_init(&slots[i].lock, NULL);
    for (unsigned threads = 1; threads <= MOST; threads *= 2) {
        for (int run = 0; run < RUNS; run++) {
            for (int kind = 0; kind < KINDS; kind++) rates[kind][run] = rate(threads, (enum kind)kind);
        }
        printf("threads %u:", threads);
        for (int kind = 0; kind < KINDS; kind++) {
            qsort(rates[kind], RUNS, sizeof rates[kind][0], by_rate);
            printf(" %s %.2f, %.2f%s", names[kind], rates[kind][0], rates[kind][RUNS / 2],
                   kind + 1 < KINDS ? ";" : "\n");
        }
    }
    hlc_store_close(&store);
    return 0;
}
