/* A store under a system of its own, which keeps a log and checkpoints in a folder, and goes on after any stop.
 *
 *     embed FOLDER WRITES [saved]
 *
 * examples/README.md has what it writes and prints, and where it stops. */
#define _POSIX_C_SOURCE 200809L
#include "hlcstore.h"
#include <errno.h>
#include <fcntl.h>
#include <inttypes.h>
#include <stdio.h>
#include <stdlib.h>
#include <string.h>
#include <unistd.h>

#define STAMP "%" PRIu64 ".%" PRIu64
#define PARTS(stamp) (stamp) >> 16, (stamp) & 0xffff

enum { NODES = 2, KEYS = 4, KEY_LEN = 3, WRITES_PER_CHECKPOINT = 4, KEYS_PER_PART = 3, RETENTION = 30 };
enum { TICK = 10 }; /* The clock begins anew in each run; a program takes the milliseconds of the system's clock. */
enum { HEADER = 8, ROOM = 1 << 17, LONGEST_KEY = 255, NUMBER_ROOM = 24 };

static const char *const NAMES[KEYS] = { "ash", "elm", "fir", "oak" };
static hlc_store store = HLC_CLOSED_STORE;
static hlc_node nodes[NODES];
static FILE *log_file;
static int folder;
static uint8_t piece[ROOM];

/* Records as the log has them, in the byte order of the processor. The CRC-32 is of all after it. */
static struct {
    uint32_t crc, len;
    uint8_t records[ROOM];
} batch;

/* Ends the program where a call of the system failed, or one of the library was refused. */
static void need(bool done, const char *what)
{
    if (done) return;
    perror(what);
    exit(1);
}

static void check(uint32_t code, const char *what)
{
    uint8_t text[256];
    size_t len;
    if (code == HLC_OK) return;
    hlc_error_text(code, text, sizeof text, &len);
    fprintf(stderr, "%s: %.*s\n", what, (int)len, (const char *)text);
    exit(1);
}

static bool sync_file(FILE *file)
{
    return fflush(file) == 0 && fsync(fileno(file)) == 0;
}

static uint32_t batch_crc(void)
{
    const uint8_t *bytes = (const uint8_t *)&batch;
    uint32_t crc = UINT32_MAX;
    for (size_t at = sizeof batch.crc; at < HEADER + batch.len; at++) {
        crc ^= bytes[at];
        for (int bit = 0; bit < 8; bit++) crc = crc >> 1 ^ (crc & 1 ? 0xedb88320 : 0);
    }
    return ~crc;
}

/* Reads the next batch, or returns false where the log ends, maybe within a batch. */
static bool read_batch(void)
{
    if (fread(&batch, HEADER, 1, log_file) != 1) batch.len = 0;
    bool fits = batch.len > 0 && batch.len <= ROOM;
    if (fits && fread(batch.records, batch.len, 1, log_file) == 1 && batch.crc == batch_crc()) return true;
    if (batch.len > 0 && getc(log_file) != EOF) {
        fprintf(stderr, "the log is damaged before byte %ld, and goes on after that\n", ftell(log_file));
        exit(1);
    }
    need(!ferror(log_file), "log");
    return false;
}

/* Puts the records of the batch into the store, which passes over those it has, and returns how many they are. */
static size_t apply_batch(uint64_t *threshold)
{
    size_t used, many;
    uint64_t word;
    check(hlc_store_apply_records(&store, batch.records, batch.len, &used, &many, threshold, &word), "log");
    return many;
}

/* Puts a batch on disk, and only then into the store. Then it may be acknowledged. */
static void append_batch(void)
{
    uint64_t threshold;
    need(fwrite(&batch, HEADER + batch.len, 1, log_file) == 1 && sync_file(log_file), "log");
    apply_batch(&threshold);
}

/* Vacuums in calls that take a bounded time, between which other calls may come. */
static void vacuum(uint64_t stamp)
{
    uint8_t after[LONGEST_KEY] = { 0 }, last[LONGEST_KEY];
    uint64_t word, kept, bytes, dropped, parts = 0, all_dropped = 0;
    size_t len = 0;
    for (bool more = true; more; parts++, all_dropped += dropped) {
        check(hlc_store_vacuum_part(&store, stamp, after, len, KEYS_PER_PART, &word, &kept, &bytes, &dropped, last,
                                    sizeof last, &len, &more), "vacuum");
        memcpy(after, last, len);
    }
    printf("vacuum to " STAMP ": parts %" PRIu64 ", rows dropped %" PRIu64 "\n", PARTS(stamp), parts, all_dropped);
}

/* Lets no more snapshots open below a stamp, also after a stop, and drops what only these would read. */
static void retain(uint64_t stamp)
{
    size_t len;
    check(hlc_record_encode_threshold(stamp, batch.records, ROOM, &len), "threshold");
    batch.len = (uint32_t)len;
    batch.crc = batch_crc();
    append_batch();
    vacuum(stamp);
}

/* Opens a store from a checkpoint, in pieces. Returns whether the folder has one. */
static bool restore(hlc_store *opened, const char *name)
{
    hlc_restoring restoring = HLC_NO_RESTORING;
    uint64_t word;
    size_t len;
    FILE *file = fopen(name, "rb");
    if (file == NULL && errno == ENOENT) return false;
    need(file != NULL, name);
    check(hlc_restoring_start(&restoring), name);
    while ((len = fread(piece, 1, sizeof piece, file)) > 0) check(hlc_restoring_feed(&restoring, piece, len), name);
    check(hlc_restoring_finish(&restoring, opened, &word), name);
    fclose(file);
    return true;
}

/* Saves a checkpoint, in pieces. The old one stays until the new one is on disk, and was read back. */
static void save(void)
{
    hlc_saving saving = HLC_NO_SAVING;
    hlc_store copy = HLC_CLOSED_STORE;
    uint64_t all;
    uint32_t code = HLC_MORE;
    size_t len;
    FILE *file = fopen("new", "wb");
    need(file != NULL, "new");
    check(hlc_saving_start(&saving, &store, 0, &all), "new");
    while (code == HLC_MORE) {
        code = hlc_saving_read(&saving, &store, piece, sizeof piece, &len);
        if (code != HLC_MORE) check(code, "new");
        need(fwrite(piece, 1, len, file) == len, "new");
    }
    need(sync_file(file) && fclose(file) == 0 && restore(&copy, "new"), "new");
    hlc_store_close(&copy);
    need(rename("new", "checkpoint") == 0 && fsync(folder) == 0, "checkpoint");
}

static void cut_log(long end)
{
    need(ftruncate(fileno(log_file), end) == 0 && sync_file(log_file), "log");
}

/* Applies the log, and drops a batch that a stop cut short. */
static void replay(void)
{
    size_t records = 0;
    uint64_t horizon, threshold;
    long end = 0;
    check(hlc_store_horizon(&store, &horizon), "store");
    for (; read_batch(); end = ftell(log_file)) {
        records += apply_batch(&threshold);
        if (threshold > horizon) horizon = threshold;
    }
    need(fseek(log_file, 0, SEEK_END) == 0, "log");
    printf("log: records %zu, bytes dropped %ld\n", records, ftell(log_file) - end);
    cut_log(end);
    vacuum(horizon);
}

/* Makes the nodes of what the store has of them, so that their clocks never fall. Returns how many writes it has: each
 * node issues one item for each. */
static uint64_t restore_nodes(void)
{
    uint64_t next, head;
    bool retired = false;
    for (uint16_t id = 0; id < NODES; id++) {
        check(hlc_store_link(&store, id, &next, &head, &retired), "node");
        check(hlc_node_restore(id, head, next, &nodes[id]), "node");
    }
    return nodes[0].next;
}

/* Makes the store and its nodes again from the files of a folder. */
static uint64_t open_folder(const char *path)
{
    need(chdir(path) == 0 && (folder = open(".", O_RDONLY)) >= 0, path);
    if (!restore(&store, "checkpoint")) check(hlc_store_open(&store, NODES), "store");
    check(hlc_snapshot_close_all(&store), "store"); /* Those who read before the stop are gone. */
    printf("checkpoint: writes %" PRIu64 "\n", restore_nodes());
    log_file = fopen("log", "a+b");
    need(log_file != NULL && fsync(folder) == 0, "log"); /* The log's name is on disk. */
    replay();
    return restore_nodes();
}

/* Makes the batch of a write, and returns its stamp: the other node reports, so that the floor reaches the write. */
static uint64_t issue(uint64_t number, uint64_t reading)
{
    hlc_node *writer = &nodes[number % NODES], *other = &nodes[(number + 1) % NODES];
    const uint8_t *key = (const uint8_t *)NAMES[number % KEYS];
    uint8_t value[NUMBER_ROOM];
    uint64_t place, stamp, reported;
    size_t value_len = (size_t)snprintf((char *)value, sizeof value, "%" PRIu64, number), len, more;
    check(hlc_node_write(writer, reading, key, KEY_LEN, value, value_len, &place, &stamp), "write");
    check(hlc_item_encode_write(writer->id, place, stamp, key, KEY_LEN, value, value_len, batch.records, ROOM, &len),
          "write");
    check(hlc_node_report(other, reading, &place, &reported), "report");
    check(hlc_item_encode_report(other->id, place, reported, batch.records + len, ROOM - len, &more), "report");
    batch.len = (uint32_t)(len + more);
    batch.crc = batch_crc();
    return stamp;
}

/* Prints a key or a value of a listing, and returns the place after it. */
static const uint8_t *print_part(char before, const uint8_t *at)
{
    uint64_t len;
    memcpy(&len, at, sizeof len);
    printf("%c%.*s", before, (int)len, (const char *)at + sizeof len);
    return at + sizeof len + len;
}

/* Prints a value and a listing as they were at a snapshot, and closes it. */
static void show(const char *when, uint64_t id)
{
    uint8_t value[NUMBER_ROOM] = "none";
    const uint8_t *at = piece;
    uint64_t stamp;
    size_t value_len, len, many;
    uint32_t code = hlc_snapshot_read(&store, id, (const uint8_t *)"oak", KEY_LEN, value, sizeof value, &value_len);
    if (code == HLC_NO_VALUE) value_len = strlen("none");
    else check(code, "read");
    check(hlc_snapshot_scan(&store, id, NULL, 0, NULL, 0, piece, sizeof piece, &len, &many), "list");
    check(hlc_snapshot_close(&store, id, &stamp), "snapshot");
    printf("%s " STAMP ": oak %.*s, list", when, PARTS(stamp), (int)value_len, (char *)value);
    for (; many > 0; many--) at = print_part('=', print_part(' ', at));
    putchar('\n');
}

int main(int many, char **words)
{
    uint64_t first, last, stamp, floor, past, now;
    if (many < 3) return 2;
    first = open_folder(words[1]);
    last = first + strtoull(words[2], NULL, 10);
    check(hlc_snapshot_open_at_floor(&store, &past, &floor), "snapshot");
    printf("open: writes %" PRIu64 ", floor " STAMP "\n", first, PARTS(floor));
    for (uint64_t number = first; number < last; number++) {
        stamp = issue(number, TICK * (number - first + 1));
        append_batch();
        printf("write %" PRIu64 " at " STAMP "\n", number, PARTS(stamp));
        fflush(stdout);
        if ((number + 1) % WRITES_PER_CHECKPOINT > 0) continue;
        save();
        cut_log(0); /* The checkpoint has all of it. */
    }
    show("past", past);
    check(hlc_snapshot_open_at_floor(&store, &now, &floor), "snapshot");
    show("now", now);
    retain(floor >> 16 > RETENTION ? ((floor >> 16) - RETENTION) << 16 : 0);
    if (many > 3) {
        save();
        puts("stop between a checkpoint and the cut of the log");
    } else {
        issue(last, TICK);
        need(fwrite(&batch, (HEADER + batch.len) / 2, 1, log_file) == 1 && fflush(log_file) == 0, "log");
        puts("stop in the middle of a write");
    }
    fflush(stdout);
    _exit(0); /* Nothing is closed. */
}
