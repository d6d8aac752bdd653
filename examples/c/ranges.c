/* One key space over four stores, each under a lock of its own, and two machines, each a thread. It prints ranges.out.
 *
 * A machine has a node of one number in each store, and one word for its clock. Two words' work for each event keeps
 * the clock, however many stores there are: the node that acts is raised to the machine's clock, which is the stamp of
 * the event afterwards. So a stamp at or below the floor of every store is a cut: each store has all items up to it
 * that were issued for it, with all that happened before them, in whichever store. */
#include "hlcstore.h"
#include <inttypes.h>
#include <pthread.h>
#include <stdbool.h>
#include <stdio.h>
#include <stdlib.h>
#include <string.h>

enum { STORES = 4, MACHINES = 2, KEY_ROOM = 256, VALUE_ROOM = 16 };

/* Each place is on cache lines of its own, so that threads at different stores do not wait for each other. */
struct place {
    _Alignas(128) pthread_mutex_t lock;
    hlc_store store;
};

struct machine {
    hlc_node nodes[STORES];
    uint64_t clock;
};

/* One message, and whether it was sent. */
struct mail {
    pthread_mutex_t lock;
    pthread_cond_t came;
    bool is_sent;
    uint64_t stamp;
};

static struct place places[STORES];
static struct machine machines[MACHINES];
static struct mail mail = { .lock = PTHREAD_MUTEX_INITIALIZER, .came = PTHREAD_COND_INITIALIZER };
static uint64_t stamp_of_pear;

static void must(const char *call, uint32_t answer)
{
    if (answer == HLC_OK) return;
    fprintf(stderr, "%s: %" PRIu32 "\n", call, answer);
    exit(1);
}

/* The store of a key: those below "g", from "g" on, from "n" on, and from "t" on. */
static unsigned store_of(const char *key)
{
    return (strcmp(key, "g") >= 0) + (strcmp(key, "n") >= 0) + (strcmp(key, "t") >= 0);
}

/* ---- A machine ---- */

/* Raises the node of a store to the machine's clock, before an event. */
static hlc_node *acting(struct machine *machine, unsigned store)
{
    hlc_node_raise(&machine->nodes[store], machine->clock);
    return &machine->nodes[store];
}

/* Writes a key, or deletes it where there is no value: the item is issued, and the store of the key accepts it. */
static uint64_t write_key(struct machine *machine, uint64_t reading, const char *key, const char *value)
{
    unsigned store = store_of(key);
    hlc_node *node = acting(machine, store);
    const uint8_t *bytes = (const uint8_t *)key, *rest = (const uint8_t *)value;
    size_t len = strlen(key), rest_len = value ? strlen(value) : 0;
    uint64_t number, stamp, word;
    must("issue", value ? hlc_node_write(node, reading, bytes, len, rest, rest_len, &number, &stamp)
                        : hlc_node_delete(node, reading, bytes, len, &number, &stamp));
    machine->clock = stamp;
    pthread_mutex_lock(&places[store].lock);
    must("accept", value ? hlc_store_accept_write(&places[store].store, node->id, number, stamp, bytes, len, rest,
                                                  rest_len, &word) : hlc_store_accept_delete(&places[store].store,
                                                                                             node->id, number, stamp,
                                                                                             bytes, len, &word));
    pthread_mutex_unlock(&places[store].lock);
    return stamp;
}

/* Reports to each store, so that the floor of each may rise to this reading. */
static void report_all(struct machine *machine, uint64_t reading)
{
    for (unsigned store = 0; store < STORES; store++) {
        hlc_node *node = acting(machine, store);
        uint64_t number, stamp, word;
        must("report", hlc_node_report(node, reading, &number, &stamp));
        machine->clock = stamp;
        pthread_mutex_lock(&places[store].lock);
        must("accept", hlc_store_accept_report(&places[store].store, node->id, number, stamp, &word));
        pthread_mutex_unlock(&places[store].lock);
    }
}

/* A message is an event of any of the machine's nodes. */
static uint64_t send(struct machine *machine, uint64_t reading)
{
    must("send", hlc_node_send(acting(machine, 0), reading, &machine->clock));
    return machine->clock;
}

static void receive(struct machine *machine, uint64_t reading, uint64_t seen)
{
    must("receive", hlc_node_receive(acting(machine, 0), seen, reading, &machine->clock));
}

/* ---- All stores ---- */

/* The greatest cut: the least floor. The floors are read one after another, since a cut stays a cut. */
static uint64_t cut(void)
{
    uint64_t least = UINT64_MAX, floor;
    for (unsigned store = 0; store < STORES; store++) {
        pthread_mutex_lock(&places[store].lock);
        must("floor", hlc_store_floor(&places[store].store, &floor));
        pthread_mutex_unlock(&places[store].lock);
        if (floor < least) least = floor;
    }
    return least;
}

/* Opens a snapshot of all stores at a cut. A vacuum to a later stamp may come between: then those that are open are
 * closed again, and false is returned. */
static bool open_all(uint64_t stamp, uint64_t *ids)
{
    uint32_t answer = HLC_OK;
    unsigned store = 0;
    uint64_t closed;
    for (; store < STORES && answer == HLC_OK; store++) {
        pthread_mutex_lock(&places[store].lock);
        answer = hlc_snapshot_open(&places[store].store, stamp, &ids[store]);
        pthread_mutex_unlock(&places[store].lock);
    }
    if (answer == HLC_OK) return true;
    if (answer != HLC_BELOW_HORIZON) must("open", answer);
    for (store--; store-- > 0;) {
        pthread_mutex_lock(&places[store].lock);
        must("close", hlc_snapshot_close(&places[store].store, ids[store], &closed));
        pthread_mutex_unlock(&places[store].lock);
    }
    return false;
}

static void close_all(const uint64_t *ids)
{
    uint64_t stamp;
    for (unsigned store = 0; store < STORES; store++) {
        pthread_mutex_lock(&places[store].lock);
        must("close", hlc_snapshot_close(&places[store].store, ids[store], &stamp));
        pthread_mutex_unlock(&places[store].lock);
    }
}

/* Whether a snapshot of all stores has a key. */
static bool has(const uint64_t *ids, const char *key)
{
    struct place *place = &places[store_of(key)];
    uint8_t value[VALUE_ROOM];
    size_t len;
    pthread_mutex_lock(&place->lock);
    uint32_t answer = hlc_snapshot_read(&place->store, ids[store_of(key)], (const uint8_t *)key, strlen(key), value,
                                        sizeof value, &len);
    pthread_mutex_unlock(&place->lock);
    if (answer != HLC_NO_VALUE) must("read", answer);
    return answer == HLC_OK;
}

/* Takes a length and so many bytes from a scan. */
static const uint8_t *take(const uint8_t **at, int *len)
{
    const uint8_t *text = *at + 8;
    *len = (*at)[0] | (*at)[1] << 8;
    *at = text + *len;
    return text;
}

/* Prints each pair at a stamp, in key order: the stores' keys ascend, so one comes after another. */
static void show(uint64_t stamp)
{
    uint8_t out[512];
    uint64_t ids[STORES];
    size_t len, many;
    if (!open_all(stamp, ids)) must("open", HLC_BELOW_HORIZON);
    for (unsigned store = 0; store < STORES; store++) {
        pthread_mutex_lock(&places[store].lock);
        must("scan", hlc_snapshot_scan(&places[store].store, ids[store], NULL, 0, NULL, 0, out, sizeof out, &len,
                                       &many));
        pthread_mutex_unlock(&places[store].lock);
        for (const uint8_t *at = out; many > 0; many--) {
            int key_len, value_len;
            const uint8_t *key = take(&at, &key_len), *value = take(&at, &value_len);
            printf("%.*s=%.*s\n", key_len, (const char *)key, value_len, (const char *)value);
        }
    }
    close_all(ids);
}

/* ---- The threads ---- */

static void *run_first(void *at)
{
    struct machine *machine = at;
    write_key(machine, 10, "apple", "red");
    uint64_t stamp = send(machine, 11);
    pthread_mutex_lock(&mail.lock);
    mail.stamp = stamp;
    mail.is_sent = true;
    pthread_cond_signal(&mail.came);
    pthread_mutex_unlock(&mail.lock);
    report_all(machine, 13);
    write_key(machine, 14, "apple", NULL);
    report_all(machine, 20);
    return NULL;
}

/* What it writes comes after the message, and so after the apple. */
static void *run_second(void *at)
{
    struct machine *machine = at;
    pthread_mutex_lock(&mail.lock);
    while (!mail.is_sent) pthread_cond_wait(&mail.came, &mail.lock);
    uint64_t seen = mail.stamp;
    pthread_mutex_unlock(&mail.lock);
    receive(machine, 12, seen);
    stamp_of_pear = write_key(machine, 13, "pear", "green");
    write_key(machine, 13, "plum", "blue");
    write_key(machine, 13, "quince", "yellow");
    write_key(machine, 13, "zucchini", "green");
    report_all(machine, 13);
    report_all(machine, 20);
    return NULL;
}

/* Reads at cuts until both machines have reported. The pear comes after the apple, which ends at 14, so a cut below 14
 * that has the pear has the apple; and from 14 on it has the zucchini too, which is in another store. */
static void *read_on(void *wrong)
{
    uint64_t ids[STORES], stamp = 0;
    while (stamp < (uint64_t)20 << 16) {
        stamp = cut();
        if (!open_all(stamp, ids)) continue;
        bool pear = has(ids, "pear"), apple = has(ids, "apple"), zucchini = has(ids, "zucchini");
        if (pear && !apple && stamp < (uint64_t)14 << 16) *(bool *)wrong = true;
        if (pear && !zucchini && stamp >= (uint64_t)14 << 16) *(bool *)wrong = true;
        close_all(ids);
    }
    return NULL;
}

static void run_threads(void)
{
    void *(*const runs[])(void *) = { run_first, run_second, read_on, read_on };
    bool wrong[2] = { false, false };
    void *const arguments[] = { &machines[0], &machines[1], &wrong[0], &wrong[1] };
    pthread_t threads[4];
    for (unsigned i = 0; i < 4; i++) {
        if (pthread_create(&threads[i], NULL, runs[i], arguments[i]) != 0) must("thread", i + 1);
    }
    for (unsigned i = 0; i < 4; i++) pthread_join(threads[i], NULL);
    if (wrong[0] || wrong[1]) must("a cut", 1);
}

/* ---- The story ---- */

static void open_stores(void)
{
    for (unsigned store = 0; store < STORES; store++) {
        pthread_mutex_init(&places[store].lock, NULL);
        places[store].store = (hlc_store)HLC_CLOSED_STORE;
        must("open", hlc_store_open(&places[store].store, MACHINES));
        for (uint16_t id = 0; id < MACHINES; id++) machines[id].nodes[store] = hlc_node_open(id, 0);
    }
}

/* Vacuums each store to one stamp, in parts of a few keys, so that no reader waits long; returns how many rows are
 * left. */
static uint64_t vacuum_all(uint64_t stamp)
{
    uint64_t word, kept, bytes, dropped, rows, all = 0;
    for (unsigned store = 0; store < STORES; store++) {
        uint8_t after[KEY_ROOM], next[KEY_ROOM];
        size_t after_len = 0, next_len;
        for (bool more = true; more; after_len = next_len) {
            pthread_mutex_lock(&places[store].lock);
            must("vacuum", hlc_store_vacuum_part(&places[store].store, stamp, after, after_len, 2, &word, &kept, &bytes,
                                                 &dropped, next, sizeof next, &next_len, &more));
            must("rows", hlc_store_rows(&places[store].store, &rows));
            pthread_mutex_unlock(&places[store].lock);
            memcpy(after, next, next_len);
        }
        all += rows;
    }
    return all;
}

int main(void)
{
    open_stores();
    run_threads();
    uint64_t stamp = cut();
    printf("cut %" PRIu64 ".%" PRIu64 "\n", stamp >> 16, stamp & 0xffff);
    show(stamp_of_pear);
    show(stamp);
    printf("rows %" PRIu64 "\n", vacuum_all(stamp));
    /* No store knows which keys are its own. So an item for store 1 that came from elsewhere is checked before. */
    printf("%s\n", store_of("fig") == 1 ? "accepted" : "refused");
    for (unsigned store = 0; store < STORES; store++) {
        hlc_store_close(&places[store].store);
        pthread_mutex_destroy(&places[store].lock);
    }
    return 0;
}
