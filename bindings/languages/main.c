/* One of the programs of bindings/languages/check: `write PATH STEP NAME OLD` appends a batch at the reading 10 * STEP,
 * and `read PATH` prints what the file had after each of five such batches. */
#include <inttypes.h>
#include <stdio.h>
#include <stdlib.h>
#include <string.h>
#include "hlcstore_file.h"

enum { STEPS = 5, LAST_COUNTER = 3, LONG_STEP = 10000, ROOM = 65536 };

static const uint8_t LONG_KEY[] = { 0, 255 };
static uint8_t buffer[ROOM];

static void check(uint32_t code, const char *what)
{
    if (code == HLC_OK) return;
    printf("%s: %" PRIu32 "\n", what, code);
    exit(1);
}

static void put(hlc_file_batch *batch, const char *key, const char *value)
{
    check(hlc_file_batch_put(batch, (const uint8_t *)key, strlen(key), (const uint8_t *)value, strlen(value)), "put");
}

static void write_step(hlc_file *file, const char *step, const char *name, const char *old)
{
    hlc_file_batch *batch;
    uint64_t number = strtoull(step, NULL, 10), stamp;
    check(hlc_file_batch_new(&batch), "batch");
    put(batch, "who", name);
    put(batch, name, step);
    check(hlc_file_batch_delete(batch, (const uint8_t *)old, strlen(old)), "delete");
    memset(buffer, 'v', LONG_STEP * number);
    check(hlc_file_batch_put(batch, LONG_KEY, sizeof LONG_KEY, buffer, LONG_STEP * number), "put");
    check(hlc_file_append(file, 0, 10 * number, batch, HLC_FILE_SYNCED, &stamp), "append");
    hlc_file_batch_drop(batch);
}

static uint64_t number_at(const uint8_t *at)
{
    uint64_t number = 0;
    for (int byte = 7; byte >= 0; byte--) number = number << 8 | at[byte];
    return number;
}

/* Prints a key or a value, and returns the place after it. */
static const uint8_t *print_part(const uint8_t *at, const char *end)
{
    uint64_t len = number_at(at);
    printf("%.*s%s", (int)len, (const char *)at + 8, end);
    return at + 8 + len;
}

static void print_step(hlc_file *file, uint64_t step)
{
    uint64_t id, stamp = 10 * step << 16 | LAST_COUNTER;
    size_t len, many;
    check(hlc_file_open_snapshot(file, stamp, &id), "snapshot");
    printf("%" PRIu64 ".%d: ", 10 * step, LAST_COUNTER);
    check(hlc_file_scan(file, id, (const uint8_t *)"a", 1, NULL, 0, buffer, sizeof buffer, &len, &many), "scan");
    const uint8_t *at = buffer;
    for (size_t i = 0; i < many; i++) at = print_part(print_part(at, "="), " ");
    check(hlc_file_read(file, id, LONG_KEY, sizeof LONG_KEY, buffer, sizeof buffer, &len), "read");
    printf("long=%zu\n", len);
    check(hlc_file_close_snapshot(file, id, &stamp), "close");
}

static void print_steps(hlc_file *file)
{
    uint64_t id;
    for (uint64_t step = 1; step <= STEPS; step++) print_step(file, step);
    uint32_t code = hlc_file_open_snapshot(file, 10 * (STEPS + 1) << 16, &id);
    printf("%s above %" PRIu64 ".%" PRIu64 "\n", code == HLC_ABOVE_FLOOR ? "refused" : "opened", id >> 16, id & 0xffff);
}

int main(int many, char **words)
{
    hlc_file *file;
    check(hlc_file_open(words[2], NULL, &file, NULL), "open");
    if (many == 6) write_step(file, words[3], words[4], words[5]);
    else print_steps(file);
    check(hlc_file_close(file), "close");
    return 0;
}
