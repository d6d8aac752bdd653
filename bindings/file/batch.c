/* Batches: an entry of items, whose node, number and stamp are written when they are appended. */
#include "file.h"
#include <stdlib.h>
#include <string.h>

struct hlc_file_batch {
    struct entry *entry; /* NULL before the first, and where the last one stays behind */
    size_t room;         /* for its bytes */
    size_t many;
};

uint32_t hlc_file_batch_new(hlc_file_batch **batch)
{
    *batch = malloc(sizeof **batch);
    if (*batch) **batch = (struct hlc_file_batch){ 0 };
    return *batch ? HLC_OK : HLC_NO_MEMORY;
}

/* Makes room for this many more bytes. */
static uint32_t make_room(hlc_file_batch *batch, size_t len)
{
    size_t before = batch->entry ? batch->entry->len : 0, room = batch->entry ? batch->room : 256;
    if (before + len > HLC_FILE_BATCH_BYTES) return HLC_FILE_TOO_LONG;
    while (room < before + len) room *= 2;
    struct entry *entry = realloc(batch->entry, sizeof *entry + room);
    if (!entry) return HLC_NO_MEMORY;
    entry->len = before;
    batch->entry = entry;
    batch->room = room;
    return HLC_OK;
}

/* A write, or a deletion where there is no value. */
struct change {
    const uint8_t *key;
    size_t key_len;
    const uint8_t *value;
    size_t value_len;
    bool deletes;
};

/* Writes the item of a change behind those of the batch, where it has room for that. len: how long the item is. */
static uint32_t write_item(hlc_file_batch *batch, const struct change *change, size_t *len)
{
    uint8_t *out = batch->entry ? batch->entry->bytes + batch->entry->len : NULL;
    size_t room = batch->entry ? batch->room - batch->entry->len : 0;
    if (change->deletes) return hlc_item_encode_delete(0, 0, 0, change->key, change->key_len, out, room, len);
    return hlc_item_encode_write(0, 0, 0, change->key, change->key_len, change->value, change->value_len, out, room,
                                 len);
}

static uint32_t add(hlc_file_batch *batch, const struct change *change)
{
    size_t len;
    uint32_t answer = write_item(batch, change, &len);
    bool fits = answer == HLC_OK && batch->entry && len <= batch->room - batch->entry->len;
    if (answer == HLC_OK && !fits) {
        answer = make_room(batch, len);
        if (answer == HLC_OK) hlc_answer_ignore(write_item(batch, change, &len));
    }
    if (answer != HLC_OK) return answer;
    batch->entry->len += len;
    batch->many++;
    return HLC_OK;
}

uint32_t hlc_file_batch_put(hlc_file_batch *batch, const uint8_t *key, size_t key_len, const uint8_t *value,
                            size_t value_len)
{
    return add(batch, &(struct change){ key, key_len, value, value_len, false });
}

uint32_t hlc_file_batch_delete(hlc_file_batch *batch, const uint8_t *key, size_t key_len)
{
    return add(batch, &(struct change){ key, key_len, NULL, 0, true });
}

size_t hlc_file_batch_many(const hlc_file_batch *batch)
{
    return batch->many;
}

struct entry **batch_entry(hlc_file_batch *batch)
{
    return &batch->entry;
}

/* Makes one item of a batch that has some writes: their bodies behind one head. */
static uint32_t make_item(const hlc_file_batch *batch, struct entry **made)
{
    const struct entry *items = batch->entry;
    struct entry *entry = entry_new(ITEM_HEAD + 1 + items->len - batch->many * ITEM_HEAD);
    struct record record;
    uint64_t fault;
    if (!entry) return HLC_NO_MEMORY;
    uint8_t *writes = entry->bytes + ITEM_HEAD + 1, *end = writes;
    for (size_t at = 0; at < items->len; at += record.len) {
        record_read(items->bytes + at, items->len - at, &record, &fault);
        memcpy(end, items->bytes + at + ITEM_HEAD, record.len - ITEM_HEAD);
        end += record.len - ITEM_HEAD;
    }
    record_put_batch(entry->bytes, batch->many);
    *made = entry;
    return HLC_OK;
}

/* Makes an entry of one item that has all writes of a batch, or answers why no item may have them. */
uint32_t batch_as_item(const hlc_file_batch *batch, struct entry **made)
{
    size_t len;
    if (batch->many == 0) return HLC_NO_WRITES;
    if (batch->many > HLC_MAX_BATCH) return HLC_TOO_MANY_WRITES;
    uint32_t answer = make_item(batch, made);
    if (answer != HLC_OK) return answer;
    const uint8_t *writes = (*made)->bytes + ITEM_HEAD + 1;
    answer = hlc_item_encode_batch(0, 0, 0, batch->many, writes, (*made)->len - ITEM_HEAD - 1, NULL, 0, &len);
    if (answer != HLC_OK) free(*made);
    return answer;
}

void hlc_file_batch_clear(hlc_file_batch *batch)
{
    if (batch->entry) batch->entry->len = 0;
    batch->many = 0;
}

void hlc_file_batch_drop(hlc_file_batch *batch)
{
    if (batch) free(batch->entry);
    free(batch);
}
