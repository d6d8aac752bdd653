/* The calls that write: what a node issues, and records of other machines. */
#include "file.h"
#include <stdlib.h>
#include <time.h>

enum { COUNTER_FULL = 0xffff };

uint64_t system_reading(void)
{
    struct timespec now;
    clock_gettime(CLOCK_REALTIME, &now);
    return now.tv_sec < 0 ? 0 : (uint64_t)now.tv_sec * 1000 + (uint64_t)now.tv_nsec / 1000000;
}

/* Returns the reading for an event after the last one, from the system's clock; or a millisecond more than the last
 * one, where its counter is full and the clock is not past it. */
static uint64_t next_reading(uint64_t now, uint64_t last)
{
    bool full = (last & COUNTER_FULL) == COUNTER_FULL && now <= last >> 16;
    return full ? (last >> 16) + 1 : now;
}

/* Makes a node whose next event comes after all that the file accepted or returned. The caller has `mutex`. */
static uint32_t node_of(hlc_file *file, uint16_t id, hlc_node *node)
{
    if (id >= file->links.many) return HLC_NO_NODE;
    const struct link *link = &file->links.at[id];
    if (link->retired) return HLC_RETIRED;
    return hlc_node_restore(id, file->clock, link->next, node);
}

/* Gives the items of an entry their node, numbers and stamps. All kinds of items get them in the same way. */
static uint32_t stamp_items(hlc_file *file, struct entry *entry, uint16_t id, uint64_t reading, uint64_t *word)
{
    struct record record = { 0 };
    hlc_node node;
    uint64_t number, now = reading == HLC_FILE_NOW ? system_reading() : reading;
    uint32_t answer = node_of(file, id, &node);
    for (size_t at = 0; at < entry->len && answer == HLC_OK; at += record.len) {
        record_read(entry->bytes + at, entry->len - at, &record, word);
        uint64_t next = reading == HLC_FILE_NOW ? next_reading(now, node.last) : reading;
        answer = hlc_node_report(&node, next, &number, word);
        if (answer == HLC_OK) record_stamp(entry->bytes + at, id, number, *word);
    }
    if (answer != HLC_OK) return answer;
    file->links.at[id] = (struct link){ node.next, node.last, record.kind == RECORD_RETIRE };
    entry->stamp = node.last;
    return HLC_OK;
}

static bool took_place(uint32_t answer)
{
    return answer == HLC_OK || answer == HLC_FILE_LATER;
}

/* Appends an entry of items of a node. It is the caller's again afterwards, or NULL where it stays behind. */
static uint32_t append_items(hlc_file *file, struct entry **entry, uint16_t node, uint64_t reading, uint32_t promise,
                             uint64_t *word)
{
    *word = 0;
    pthread_mutex_lock(&file->mutex);
    uint32_t answer = stamp_items(file, *entry, node, reading, word);
    if (answer == HLC_OK) {
        answer = entry_append(file, entry, promise);
        if (!took_place(answer)) *word = 0;
    }
    pthread_mutex_unlock(&file->mutex);
    return answer;
}

/* Appends the one item of an entry, and frees it. */
static uint32_t append_item(hlc_file *file, struct entry *entry, uint16_t node, uint64_t reading, uint64_t *word)
{
    uint32_t answer = append_items(file, &entry, node, reading, file->options.promise, word);
    free(entry);
    return answer;
}

static bool sets_promise(const hlc_file *file, uint32_t *promise)
{
    if (*promise == HLC_FILE_DEFAULT) *promise = file->options.promise;
    return *promise <= HLC_FILE_WRITTEN;
}

uint32_t hlc_file_append(hlc_file *file, uint16_t node, uint64_t reading, hlc_file_batch *batch, uint32_t promise,
                         uint64_t *word)
{
    struct entry **entry = batch_entry(batch);
    *word = 0;
    if (!sets_promise(file, &promise)) return HLC_FILE_BAD_OPTION;
    if (hlc_file_batch_many(batch) == 0) return HLC_OK;
    **entry = (struct entry){ .len = (*entry)->len };
    uint32_t answer = append_items(file, entry, node, reading, promise, word);
    if (took_place(answer)) hlc_file_batch_clear(batch);
    return answer;
}

uint32_t hlc_file_write_batch(hlc_file *file, uint16_t node, uint64_t reading, hlc_file_batch *batch, uint32_t promise,
                              uint64_t *word)
{
    struct entry *entry;
    *word = 0;
    if (!sets_promise(file, &promise)) return HLC_FILE_BAD_OPTION;
    uint32_t answer = batch_as_item(batch, &entry);
    if (answer != HLC_OK) return answer;
    answer = append_items(file, &entry, node, reading, promise, word);
    free(entry);
    if (took_place(answer)) hlc_file_batch_clear(batch);
    return answer;
}

uint32_t hlc_file_write(hlc_file *file, uint16_t node, uint64_t reading, const uint8_t *key, size_t key_len,
                        const uint8_t *value, size_t value_len, uint64_t *word)
{
    size_t len;
    *word = 0;
    uint32_t answer = hlc_item_encode_write(node, 0, 0, key, key_len, value, value_len, NULL, 0, &len);
    if (answer != HLC_OK) return answer;
    struct entry *entry = entry_new(len);
    if (!entry) return HLC_NO_MEMORY;
    hlc_answer_ignore(hlc_item_encode_write(node, 0, 0, key, key_len, value, value_len, entry->bytes, len, &len));
    return append_item(file, entry, node, reading, word);
}

uint32_t hlc_file_delete(hlc_file *file, uint16_t node, uint64_t reading, const uint8_t *key, size_t key_len,
                         uint64_t *word)
{
    size_t len;
    *word = 0;
    uint32_t answer = hlc_item_encode_delete(node, 0, 0, key, key_len, NULL, 0, &len);
    if (answer != HLC_OK) return answer;
    struct entry *entry = entry_new(len);
    if (!entry) return HLC_NO_MEMORY;
    hlc_answer_ignore(hlc_item_encode_delete(node, 0, 0, key, key_len, entry->bytes, len, &len));
    return append_item(file, entry, node, reading, word);
}

uint32_t hlc_file_report(hlc_file *file, uint16_t node, uint64_t reading, uint64_t *word)
{
    size_t len;
    *word = 0;
    struct entry *entry = entry_new(ITEM_HEAD);
    if (!entry) return HLC_NO_MEMORY;
    hlc_answer_ignore(hlc_item_encode_report(node, 0, 0, entry->bytes, entry->len, &len));
    return append_item(file, entry, node, reading, word);
}

uint32_t hlc_file_retire(hlc_file *file, uint16_t node, uint64_t reading, uint64_t *word)
{
    size_t len;
    *word = 0;
    struct entry *entry = entry_new(ITEM_HEAD);
    if (!entry) return HLC_NO_MEMORY;
    hlc_answer_ignore(hlc_item_encode_retire(node, 0, 0, entry->bytes, entry->len, &len));
    return append_item(file, entry, node, reading, word);
}

/* ---- Records ---- */

/* Checks and appends records that lie in an entry or elsewhere, and frees the entry. The caller has `mutex`. */
static uint32_t append_checked(hlc_file *file, struct entry *entry, const uint8_t *bytes, size_t len, uint32_t promise,
                               size_t *many, uint64_t *word)
{
    *many = 0;
    uint32_t answer = entry_check(file, entry, bytes, len, many, word);
    if (answer == HLC_OK) answer = entry_append(file, &entry, promise);
    free(entry);
    return answer;
}

uint32_t hlc_file_append_records(hlc_file *file, const uint8_t *bytes, size_t bytes_len, uint32_t promise, size_t *many,
                                 uint64_t *word)
{
    *many = 0;
    *word = 0;
    if (!sets_promise(file, &promise)) return HLC_FILE_BAD_OPTION;
    if (bytes_len > HLC_FILE_BATCH_BYTES) return HLC_FILE_TOO_LONG;
    if (bytes_len == 0) return HLC_OK;
    struct entry *entry = entry_new(bytes_len);
    if (!entry) return HLC_NO_MEMORY;
    pthread_mutex_lock(&file->mutex);
    uint32_t answer = append_checked(file, entry, bytes, bytes_len, promise, many, word);
    pthread_mutex_unlock(&file->mutex);
    return answer;
}

uint32_t hlc_file_join(hlc_file *file, uint16_t *node, uint64_t *start)
{
    size_t len, many;
    uint64_t word;
    *node = 0;
    *start = 0;
    struct entry *entry = entry_new(JOIN_LEN);
    if (!entry) return HLC_NO_MEMORY;
    pthread_mutex_lock(&file->mutex);
    uint16_t next = (uint16_t)file->links.many;
    uint64_t floor = links_floor(&file->links);
    hlc_answer_ignore(hlc_record_encode_join(next, floor, entry->bytes, JOIN_LEN, &len));
    uint32_t answer = append_checked(file, entry, entry->bytes, JOIN_LEN, file->options.promise, &many, &word);
    if (took_place(answer)) {
        *node = next;
        *start = floor;
    }
    pthread_mutex_unlock(&file->mutex);
    return answer;
}

/* Puts a retention threshold on disk, synced, and makes it the horizon. */
uint32_t append_threshold(hlc_file *file, uint64_t stamp)
{
    size_t len, many;
    uint64_t word;
    struct entry *entry = entry_new(THRESHOLD_LEN);
    if (!entry) return HLC_NO_MEMORY;
    hlc_answer_ignore(hlc_record_encode_threshold(stamp, entry->bytes, THRESHOLD_LEN, &len));
    pthread_mutex_lock(&file->mutex);
    uint32_t answer = append_checked(file, entry, entry->bytes, THRESHOLD_LEN, HLC_FILE_SYNCED, &many, &word);
    pthread_mutex_unlock(&file->mutex);
    return answer;
}

/* ---- Messages ---- */

/* Makes the stamp of an event without an item the file's clock, once a clock at or above it is on disk. */
static uint32_t cover_event(hlc_file *file, uint64_t stamp)
{
    if (stamp > file->ceiling) {
        struct entry *entry = entry_new(0);
        if (!entry) return HLC_NO_MEMORY;
        entry->stamp = stamp;
        entry->ahead = clock_ahead(stamp);
        uint32_t answer = entry_append(file, &entry, HLC_FILE_SYNCED);
        free(entry);
        return answer;
    }
    file->clock = stamp;
    return HLC_OK;
}

/* A message that was sent has the stamp of a receipt of nothing. */
static uint32_t event(hlc_file *file, uint16_t id, const uint64_t *seen, uint64_t reading, uint64_t *word)
{
    hlc_node node;
    *word = 0;
    pthread_mutex_lock(&file->mutex);
    uint32_t answer = node_of(file, id, &node);
    if (answer == HLC_OK) {
        uint64_t last = seen && *seen > node.last ? *seen : node.last;
        if (reading == HLC_FILE_NOW) reading = next_reading(system_reading(), last);
        answer = seen ? hlc_node_receive(&node, *seen, reading, word) : hlc_node_send(&node, reading, word);
    }
    if (answer == HLC_OK) {
        answer = cover_event(file, *word);
        if (!took_place(answer)) *word = 0;
    }
    pthread_mutex_unlock(&file->mutex);
    return answer;
}

uint32_t hlc_file_send(hlc_file *file, uint16_t node, uint64_t reading, uint64_t *word)
{
    return event(file, node, NULL, reading, word);
}

uint32_t hlc_file_receive(hlc_file *file, uint16_t node, uint64_t seen, uint64_t reading, uint64_t *word)
{
    return event(file, node, &seen, reading, word);
}
