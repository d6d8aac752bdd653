/* Records as bytes (docs/formats.md), and the links that accept them: what hlc_store_apply_records would answer, before
 * anything is on disk or accepted. */
#include "file.h"
#include <string.h>

/* The faults of docs/formats.md that a record may have. */
enum { SHORT = 1, VERSION = 2, KIND = 3, EMPTY_KEY = 4, FLAG = 5 };
enum { ITEM = 1, JOIN = 2, THRESHOLD = 3, VALUE_MARK = 1 };

static uint64_t number_at(const uint8_t *bytes, size_t len)
{
    uint64_t number = 0;
    for (size_t i = 0; i < len; i++) number = number << 8 | bytes[i];
    return number;
}

static void put_number(uint8_t *bytes, uint64_t number, size_t len)
{
    for (size_t i = len; i-- > 0; number >>= 8) bytes[i] = (uint8_t)number;
}

/* Returns how long the body of a write is, from its key's length on, or 0 with the first fault. */
static size_t body_len(const uint8_t *body, size_t len, uint64_t *fault)
{
    *fault = SHORT;
    if (len < 1) return 0;
    size_t key_len = body[0], at = 1 + key_len;
    if (key_len == 0) *fault = EMPTY_KEY;
    if (key_len == 0 || len < at + 1) return 0;
    if (body[at] > VALUE_MARK) *fault = FLAG;
    if (body[at] > VALUE_MARK) return 0;
    if (body[at] == 0) return at + 1;
    if (len < at + 3) return 0;
    size_t whole = at + 3 + (size_t)number_at(body + at + 1, 2);
    return len < whole ? 0 : whole;
}

/* Reads how many writes a batch has, and the writes, from the front of some bytes. Returns how long that is, or 0 with
 * the first fault. */
static size_t batch_len(const uint8_t *bytes, size_t len, struct record *record, uint64_t *fault)
{
    size_t at = 1;
    *fault = SHORT;
    if (len < 1) return 0;
    record->count = (size_t)bytes[0] + 1;
    for (size_t i = 0; i < record->count; i++) {
        size_t body = body_len(bytes + at, len - at, fault);
        if (body == 0) return 0;
        at += body;
    }
    record->writes = (hlc_bytes){ bytes + 1, at - 1 };
    return at;
}

static uint32_t read_item(const uint8_t *bytes, size_t len, struct record *record, uint64_t *fault)
{
    *fault = SHORT;
    if (len < ITEM_HEAD) return HLC_BAD_BYTES;
    record->node = (uint16_t)number_at(bytes + 1, 2);
    record->number = number_at(bytes + 3, 8);
    record->stamp = number_at(bytes + 11, 8);
    record->kind = (enum record_kind)bytes[KIND_AT];
    record->len = ITEM_HEAD;
    *fault = KIND;
    if (record->kind > RECORD_BATCH) return HLC_BAD_BYTES;
    if (record->kind == RECORD_REPORT || record->kind == RECORD_RETIRE) return HLC_OK;
    size_t body = record->kind == RECORD_BATCH ? batch_len(bytes + ITEM_HEAD, len - ITEM_HEAD, record, fault)
                                               : body_len(bytes + ITEM_HEAD, len - ITEM_HEAD, fault);
    record->len += body;
    return body == 0 ? HLC_BAD_BYTES : HLC_OK;
}

/* Reads the record at the front of some bytes. fault: the first fault, with HLC_BAD_BYTES. */
uint32_t record_read(const uint8_t *bytes, size_t len, struct record *record, uint64_t *fault)
{
    memset(record, 0, sizeof *record);
    *fault = SHORT;
    if (len < 1) return HLC_BAD_BYTES;
    if (bytes[0] == ITEM) return read_item(bytes, len, record, fault);
    *fault = VERSION;
    if (bytes[0] != JOIN && bytes[0] != THRESHOLD) return HLC_BAD_BYTES;
    bool joins = bytes[0] == JOIN;
    record->kind = joins ? RECORD_JOIN : RECORD_THRESHOLD;
    record->len = joins ? JOIN_LEN : THRESHOLD_LEN;
    *fault = SHORT;
    if (len < record->len) return HLC_BAD_BYTES;
    record->node = joins ? (uint16_t)number_at(bytes + 1, 2) : 0;
    record->stamp = number_at(bytes + record->len - 8, 8);
    return HLC_OK;
}

/* Writes into an item which node issued it, and its number and stamp. */
void record_stamp(uint8_t *item, uint16_t node, uint64_t number, uint64_t stamp)
{
    put_number(item + 1, node, 2);
    put_number(item + 3, number, 8);
    put_number(item + 11, stamp, 8);
}

/* Writes the head of an item that is a batch of this many writes, whose bytes are behind it. */
void record_put_batch(uint8_t *item, size_t count)
{
    item[0] = ITEM;
    record_stamp(item, 0, 0, 0);
    item[KIND_AT] = RECORD_BATCH;
    item[ITEM_HEAD] = (uint8_t)(count - 1);
}

/* Answers whether two writes of a batch are of one key. */
static bool writes_a_key_twice(const struct record *record)
{
    size_t len;
    return record->kind == RECORD_BATCH &&
           hlc_item_encode_batch(0, 0, 0, record->count, record->writes.at, record->writes.len, NULL, 0, &len) ==
               HLC_KEY_TWICE;
}

/* Returns the least head of the nodes that have not retired; if all have, the greatest head. */
uint64_t links_floor(const struct links *links)
{
    uint64_t low = UINT64_MAX, top = 0;
    bool any = false;
    for (uint32_t i = 0; i < links->many; i++) {
        const struct link *link = &links->at[i];
        if (link->head > top) top = link->head;
        if (link->retired) continue;
        any = true;
        if (link->head < low) low = link->head;
    }
    return any ? low : top;
}

static uint32_t take_item(struct link *link, const struct record *record, bool *came_before, uint64_t *word)
{
    *came_before = record->number < link->next;
    if (*came_before) return HLC_OK;
    if (link->retired) return HLC_RETIRED;
    *word = link->next;
    if (record->number != link->next) return HLC_NOT_NEXT;
    *word = link->head;
    if (record->number != UINT64_MAX && record->stamp <= link->head) return HLC_STAMP_NOT_RISING;
    *word = 0;
    if (record->number == UINT64_MAX) return HLC_NUMBERS_SPENT;
    if (writes_a_key_twice(record)) return HLC_KEY_TWICE;
    link->next++;
    link->head = record->stamp;
    link->retired = record->kind == RECORD_RETIRE;
    return HLC_OK;
}

static uint32_t take_join(struct links *links, const struct record *record, bool *came_before, uint64_t *word)
{
    *came_before = record->node < links->many;
    if (*came_before) return HLC_OK;
    *word = links->many;
    if (record->node != links->many) return HLC_NOT_NEXT;
    *word = 0;
    if (links->many == MOST_NODES) return HLC_TOO_MANY_NODES;
    uint64_t floor = links_floor(links);
    if (record->stamp < floor) *word = floor;
    if (record->stamp < floor) return HLC_BELOW_FLOOR;
    links->at[links->many++] = (struct link){ 0, record->stamp, false };
    return HLC_OK;
}

/* Moves the links on by a record, or answers why hlc_store_apply_records refuses it. */
uint32_t links_take(struct links *links, const struct record *record, bool *came_before, uint64_t *word)
{
    *came_before = false;
    *word = 0;
    if (record->kind == RECORD_THRESHOLD) return HLC_OK;
    if (record->kind == RECORD_JOIN) return take_join(links, record, came_before, word);
    if (record->node >= links->many) return HLC_NO_NODE;
    return take_item(&links->at[record->node], record, came_before, word);
}

/* Returns a clock some time above a stamp, so that it needs to be written once in that time. */
uint64_t clock_ahead(uint64_t stamp)
{
    uint64_t ahead = (stamp >> 16 << 16) + PHYSICAL(CLOCK_AHEAD);
    return ahead < stamp ? stamp : ahead;
}

void links_copy(struct links *to, const struct links *from)
{
    to->many = from->many;
    memcpy(to->at, from->at, from->many * sizeof from->at[0]);
}

void links_of_store(struct links *links, hlc_store *mine)
{
    uint64_t many;
    hlc_answer_ignore(hlc_store_nodes(mine, &many));
    links->many = (uint32_t)many;
    for (uint32_t i = 0; i < links->many; i++) {
        struct link *link = &links->at[i];
        hlc_answer_ignore(hlc_store_link(mine, (uint16_t)i, &link->next, &link->head, &link->retired));
    }
}
