/* hlcstore for C, over hlcstore.h: results as structs, readers of what the calls write, reads of a const store, and the
 * texts of answers. All of it is inline, so that a program needs no more of the library, and is tested, not proved.
 * It is C99, and C++ from C++11 on. The rules of hlcstore.h hold: which pointers may be NULL, which calls may run
 * beside each other, and what an answer leaves unchanged. Names that begin with hlc_inline are this header's own.
 */
#ifndef HLCSTORE_INLINE_H
#define HLCSTORE_INLINE_H
#include "hlcstore.h"
#include <string.h>
#ifdef __cplusplus
extern "C" {
#endif

/* ---- Answers ---- */

/* Leaves an answer out of account: of a call that cannot be refused here, or whose refusal changes nothing. */
static inline void hlc_answer_ignore(hlc_answer answer)
{
    (void)answer;
}

/* Returns what an answer says, in English, as hlc_error_text writes it, but with a 0 after it; and of any other number
 * that it is no answer. The text is constant: it stays, and is not freed. */
static inline const char *hlc_strerror(uint32_t answer)
{
    const char *const other = "the number is no answer";
    /* In C++ an enum has no number beyond its greatest one. */
    if (answer > HLC_IS_UNDER_WAY) return other;
    switch ((hlc_answer)answer) {
    case HLC_OK: return "the call was made";
    case HLC_NO_NODE: return "no node has this number";
    case HLC_READING_TOO_LARGE: return "the clock reading is 2^48 or more";
    case HLC_COUNTER_FULL: return "the counter of the greatest earlier stamp is full";
    case HLC_NOT_NEXT: return "the number is not the next one of the node";
    case HLC_STAMP_NOT_RISING: return "the stamp is not above that of the last accepted item of the node";
    case HLC_ABOVE_FLOOR: return "the stamp is above the floor";
    case HLC_BELOW_HORIZON: return "the stamp is below the horizon";
    case HLC_NO_SNAPSHOT: return "no open snapshot has this id";
    case HLC_TOO_MANY_SNAPSHOTS: return "1,024 snapshots are open";
    case HLC_BAD_KEY: return "the key is empty or longer than 255 bytes";
    case HLC_VALUE_TOO_LONG: return "the value is longer than 65,535 bytes";
    case HLC_NUMBERS_SPENT: return "no number is left";
    case HLC_NO_MEMORY: return "out of memory";
    case HLC_BAD_LINE: return "a line of the certificate is bad";
    case HLC_NOT_SHOWN: return "the certificate does not show that the rows are the fewest";
    case HLC_TOO_MANY_NODES: return "1,024 node numbers are assigned";
    case HLC_RETIRED: return "the node retired";
    case HLC_NO_WRITES: return "the batch has no writes";
    case HLC_TOO_MANY_WRITES: return "the batch has more than 256 writes";
    case HLC_KEY_TWICE: return "the batch writes a key twice";
    case HLC_CLOSED: return "the store is closed";
    case HLC_IS_OPEN: return "the store is open already";
    case HLC_NO_VALUE: return "the key has no value in the snapshot";
    case HLC_OUTSIDE: return "the bytes of an entry or a key are not there";
    case HLC_MORE: return "the next part does not fit";
    case HLC_NO_SUCH_NODE: return "no node has issued so many items up to this stamp";
    case HLC_BAD_BYTES: return "the bytes are not an encoding";
    case HLC_NO_CHECKPOINT: return "the content of the bytes is no checkpoint";
    case HLC_HAS_BYTES: return "the output has bytes already";
    case HLC_NOT_FEWEST: return "a row at or below the stamp would be dropped";
    case HLC_NO_INCREMENT: return "the bytes are no increment";
    case HLC_NOT_LATER: return "the increment is not of a later state of the store";
    case HLC_CHANGED: return "the store changed since the saving began";
    case HLC_NOT_PARTS: return "the checkpoints are no two parts of one store";
    case HLC_BAD_NODE_COUNT: return "the number of nodes is not 1 to 64";
    case HLC_ALL_RETIRED: return "all nodes have retired";
    case HLC_BELOW_FLOOR: return "the start is below the floor";
    case HLC_AFTER_LAST: return "no open snapshot is at this place";
    case HLC_NOT_UNDER_WAY: return "no restore or saving is under way";
    case HLC_IS_UNDER_WAY: return "a restore or saving is under way already";
    }
    return other;
}

/* ---- Reads of a const store ----
 *
 * HLC_COPY(store) is a copy of a store for one of the calls that may run beside reads:
 *
 *     answer = hlc_snapshot_read(HLC_COPY(store), id, key, key_len, out, sizeof out, &len);
 *
 * The store is a pointer, to const or not, and is not changed. In C the copy lives until the block ends, in C++ until
 * the full expression does. */
HLC_NONNULL(1) static inline hlc_store hlc_store_copy(const hlc_store *store)
{
    return *store;
}
#ifndef __cplusplus
#define HLC_COPY(store) ((hlc_store[1]){ hlc_store_copy(store) })
#else
#define HLC_COPY(store) (hlc_copied{ hlc_store_copy(store) })
struct hlc_copied {
    hlc_store own;
    operator hlc_store *() { return &own; }
};
#endif

/* ---- Readers of what the calls write ----
 *
 * Each takes the first one from the front of some bytes, and leaves those after it:
 *
 *     hlc_bytes rest = { out, len };
 *     hlc_pair pair;
 *     while (hlc_pair_next(&rest, &pair)) ...
 *
 * It returns false where no whole one is there, whatever the bytes are: then it leaves them, and writes 0. So at the
 * end of the loop rest.len is 0 if all bytes were read. What is read points into the bytes, which stay the caller's. */

/* Some bytes: this many from `at` on. */
typedef struct {
    const uint8_t *at;
    size_t len;
} hlc_bytes;

/* A value, or none: then it has no bytes. */
typedef struct {
    bool exists;
    hlc_bytes bytes;
} hlc_value;

/* A key with its value. */
typedef struct {
    hlc_bytes key;
    hlc_bytes value;
} hlc_pair;

/* A key whose value changed, with its new value, or none. */
typedef struct {
    hlc_bytes key;
    hlc_value value;
} hlc_change;

/* A stored row of a key: the stamp of the write and its node, and the value, or none of a deletion. */
typedef struct {
    uint64_t stamp;
    uint16_t node;
    hlc_value value;
} hlc_key_version;

/* Takes a number of `size` bytes, at most eight, the low one first. */
HLC_CHECKED(1, 3) static inline bool hlc_inline_low_first(hlc_bytes *rest, size_t size, uint64_t *number)
{
    *number = 0;
    if (rest->len < size) return false;
    for (size_t at = size; at > 0; at--) *number = *number << 8 | rest->at[at - 1];
    rest->at += size;
    rest->len -= size;
    return true;
}

/* Takes a length of eight bytes, and that many bytes after it; where these are not there, perhaps the length alone. */
HLC_CHECKED(1, 2) static inline bool hlc_inline_sized(hlc_bytes *rest, hlc_bytes *bytes)
{
    uint64_t len;
    if (!hlc_inline_low_first(rest, 8, &len) || len > rest->len) return false;
    bytes->at = rest->at;
    bytes->len = (size_t)len;
    rest->at += bytes->len;
    rest->len -= bytes->len;
    return true;
}

/* Takes a byte 0 for none, or 1 and a value; where no whole one is there, perhaps a part of it. */
HLC_CHECKED(1, 2) static inline bool hlc_inline_value(hlc_bytes *rest, hlc_value *value)
{
    uint64_t exists;
    memset(value, 0, sizeof *value);
    if (!hlc_inline_low_first(rest, 1, &exists) || exists > 1) return false;
    value->exists = exists == 1;
    return !value->exists || hlc_inline_sized(rest, &value->bytes);
}

/* The next pair of hlc_snapshot_list, hlc_snapshot_scan and hlc_snapshot_scan_back. */
HLC_CHECKED(1, 2) static inline bool hlc_pair_next(hlc_bytes *rest, hlc_pair *pair)
{
    const hlc_bytes whole = *rest;
    memset(pair, 0, sizeof *pair);
    if (hlc_inline_sized(rest, &pair->key) && hlc_inline_sized(rest, &pair->value)) return true;
    memset(pair, 0, sizeof *pair);
    *rest = whole;
    return false;
}

/* The next key of hlc_snapshot_scan_keys. */
HLC_CHECKED(1, 2) static inline bool hlc_key_next(hlc_bytes *rest, hlc_bytes *key)
{
    const hlc_bytes whole = *rest;
    memset(key, 0, sizeof *key);
    if (hlc_inline_sized(rest, key)) return true;
    *rest = whole;
    return false;
}

/* The next answer of hlc_snapshot_read_all. */
HLC_CHECKED(1, 2) static inline bool hlc_value_next(hlc_bytes *rest, hlc_value *value)
{
    const hlc_bytes whole = *rest;
    if (hlc_inline_value(rest, value)) return true;
    memset(value, 0, sizeof *value);
    *rest = whole;
    return false;
}

/* The next key of hlc_snapshot_changes, with its value in the snapshot `after`. */
HLC_CHECKED(1, 2) static inline bool hlc_change_next(hlc_bytes *rest, hlc_change *change)
{
    const hlc_bytes whole = *rest;
    memset(change, 0, sizeof *change);
    if (hlc_inline_sized(rest, &change->key) && hlc_inline_value(rest, &change->value)) return true;
    memset(change, 0, sizeof *change);
    *rest = whole;
    return false;
}

/* The next row of hlc_store_versions. */
HLC_CHECKED(1, 2) static inline bool hlc_key_version_next(hlc_bytes *rest, hlc_key_version *version)
{
    const hlc_bytes whole = *rest;
    uint64_t node;
    memset(version, 0, sizeof *version);
    if (hlc_inline_low_first(rest, 8, &version->stamp) && hlc_inline_low_first(rest, 2, &node) &&
        hlc_inline_value(rest, &version->value)) {
        version->node = (uint16_t)node;
        return true;
    }
    memset(version, 0, sizeof *version);
    *rest = whole;
    return false;
}

/* ---- Items of a log ---- */

typedef enum hlc_item_kind {
    HLC_ITEM_WRITE,
    HLC_ITEM_DELETE,
    HLC_ITEM_REPORT,
    HLC_ITEM_RETIRE,
    HLC_ITEM_BATCH
} hlc_item_kind;

/* An item that a node issued. Only a write and a deletion have a key, and only a write has a value. Only a batch has
 * `writes`: `count` writes, which hlc_write_next reads one by one. */
typedef struct {
    hlc_item_kind kind;
    uint16_t node;
    uint64_t number;
    uint64_t stamp;
    hlc_bytes key;
    hlc_bytes value;
    size_t count;
    hlc_bytes writes;
} hlc_item;

/* A write of a batch: its key, and its value, or none of a deletion. */
typedef struct {
    hlc_bytes key;
    hlc_value value;
} hlc_write;

/* Takes a number of `size` bytes, at most eight, the high one first, as items have them. */
HLC_CHECKED(1, 3) static inline bool hlc_inline_high_first(hlc_bytes *rest, size_t size, uint64_t *number)
{
    *number = 0;
    if (rest->len < size) return false;
    for (size_t at = 0; at < size; at++) *number = *number << 8 | rest->at[at];
    rest->at += size;
    rest->len -= size;
    return true;
}

/* Takes a length of `size` bytes, and that many bytes after it; where these are not there, perhaps the length alone. */
HLC_CHECKED(1, 3) static inline bool hlc_inline_field(hlc_bytes *rest, size_t size, hlc_bytes *field)
{
    uint64_t len;
    if (!hlc_inline_high_first(rest, size, &len) || len > rest->len) return false;
    field->at = rest->at;
    field->len = (size_t)len;
    rest->at += field->len;
    rest->len -= field->len;
    return true;
}

/* Takes a key and a value of a write; where they are not whole, perhaps a part of them. */
HLC_CHECKED(1, 2) static inline bool hlc_inline_write(hlc_bytes *rest, hlc_write *write)
{
    uint64_t has_value;
    memset(write, 0, sizeof *write);
    if (!hlc_inline_field(rest, 1, &write->key) || write->key.len == 0) return false;
    if (!hlc_inline_high_first(rest, 1, &has_value) || has_value > 1) return false;
    write->value.exists = has_value == 1;
    return has_value == 0 || hlc_inline_field(rest, 2, &write->value.bytes);
}

/* The next write of a batch: of the `writes` of an item, or of what hlc_batch made. */
HLC_CHECKED(1, 2) static inline bool hlc_write_next(hlc_bytes *rest, hlc_write *write)
{
    const hlc_bytes whole = *rest;
    if (hlc_inline_write(rest, write)) return true;
    memset(write, 0, sizeof *write);
    *rest = whole;
    return false;
}

/* Takes one less than the number of writes, and the writes. */
HLC_CHECKED(1, 2) static inline bool hlc_inline_batch(hlc_bytes *rest, hlc_item *item)
{
    uint64_t less;
    hlc_write write;
    if (!hlc_inline_high_first(rest, 1, &less)) return false;
    item->kind = HLC_ITEM_BATCH;
    item->count = (size_t)less + 1;
    item->writes.at = rest->at;
    for (size_t taken = 0; taken < item->count; taken++) {
        if (!hlc_inline_write(rest, &write)) return false;
    }
    item->writes.len = (size_t)(rest->at - item->writes.at);
    return true;
}

/* The rest of an item after its stamp; where it is not whole, perhaps a part of it. */
HLC_CHECKED(1, 2) static inline bool hlc_inline_content(hlc_bytes *rest, hlc_item *item)
{
    uint64_t kind;
    hlc_write write;
    if (!hlc_inline_high_first(rest, 1, &kind) || kind > 3) return false;
    if (kind == 3) return hlc_inline_batch(rest, item);
    item->kind = kind == 1 ? HLC_ITEM_REPORT : HLC_ITEM_RETIRE;
    if (kind > 0) return true;
    if (!hlc_inline_write(rest, &write)) return false;
    item->kind = write.value.exists ? HLC_ITEM_WRITE : HLC_ITEM_DELETE;
    item->key = write.key;
    item->value = write.value.bytes;
    return true;
}

/* The next item of a log, as hlc_item_encode_write and its like wrote it, for whoever looks at a log before a store
 * accepts it. It returns false where hlc_store_accept_items would return 106, and at the end. */
HLC_CHECKED(1, 2) static inline bool hlc_item_next(hlc_bytes *rest, hlc_item *item)
{
    const hlc_bytes whole = *rest;
    uint64_t version, node;
    memset(item, 0, sizeof *item);
    if (hlc_inline_high_first(rest, 1, &version) && version == 1 && hlc_inline_high_first(rest, 2, &node) &&
        hlc_inline_high_first(rest, 8, &item->number) && hlc_inline_high_first(rest, 8, &item->stamp) &&
        hlc_inline_content(rest, item)) {
        item->node = (uint16_t)node;
        return true;
    }
    memset(item, 0, sizeof *item);
    *rest = whole;
    return false;
}

/* ---- Batches ----
 *
 *     uint8_t room[4096];
 *     hlc_batch batch = hlc_batch_in(room, sizeof room);
 *     answer = hlc_batch_write(&batch, key, key_len, value, value_len);
 *     ...
 *     answer = hlc_node_write_batch(&node, reading, batch.count, batch.at, batch.len, &number, &stamp);
 *     answer = hlc_store_accept_batch(&store, node.id, number, stamp, batch.count, batch.at, batch.len, &word);
 */

/* The writes of a batch, in a buffer of the caller: how many, and their bytes, as hlc_node_write_batch takes them. */
typedef struct {
    uint8_t *at;
    size_t room;
    size_t len;
    size_t count;
} hlc_batch;

/* No writes, in a buffer of `room` bytes: HLC_MAX_WRITE for each write always suffice. */
static inline hlc_batch hlc_batch_in(uint8_t *buffer, size_t room)
{
    hlc_batch batch = { buffer, room, 0, 0 };
    return batch;
}

/* Adds a write, or a deletion where there is no value. */
HLC_CHECKED(1) static inline hlc_answer hlc_inline_batch_put(hlc_batch *batch, const uint8_t *key, size_t key_len,
                                                             const hlc_bytes *value)
{
    const size_t len = 2 + key_len + (value ? 2 + value->len : 0);
    uint8_t *end;
    if (key_len == 0 || key_len > HLC_MAX_KEY) return HLC_BAD_KEY;
    if (value && value->len > HLC_MAX_VALUE) return HLC_VALUE_TOO_LONG;
    if (batch->count == HLC_MAX_BATCH) return HLC_TOO_MANY_WRITES;
    if (batch->room - batch->len < len) return HLC_MORE;
    end = batch->at + batch->len;
    *end++ = (uint8_t)key_len;
    memcpy(end, key, key_len);
    end += key_len;
    *end++ = value != NULL;
    if (value) {
        *end++ = (uint8_t)(value->len >> 8);
        *end++ = (uint8_t)(value->len & 255);
        if (value->len > 0) memcpy(end, value->at, value->len);
    }
    batch->len += len;
    batch->count++;
    return HLC_OK;
}

/* Adds a write, or a deletion. Refusals: 12, 13, 29, 104 where it does not fit; then nothing is added. That a key is
 * there twice is refused by hlc_node_write_batch. */
HLC_CHECKED(1) static inline hlc_answer hlc_batch_write(hlc_batch *batch, const uint8_t *key, size_t key_len,
                                                        const uint8_t *value, size_t value_len)
{
    hlc_bytes bytes;
    bytes.at = value;
    bytes.len = value_len;
    return hlc_inline_batch_put(batch, key, key_len, &bytes);
}
HLC_CHECKED(1) static inline hlc_answer hlc_batch_delete(hlc_batch *batch, const uint8_t *key, size_t key_len)
{
    return hlc_inline_batch_put(batch, key, key_len, NULL);
}

/* ---- Results as structs ----
 *
 * Each makes the call of hlcstore.h that is named, and answers as it does. Where a struct has a `word`, that is the
 * refusal's, or 0; all other fields are 0 at a refusal, if nothing else is said. A store that is const is copied for
 * the call, as by HLC_COPY. */

/* How much a store has: how many rows; how many keys that have rows, and the bytes of these, each counted once; and the
 * bytes of the values of all rows. A number is 2^64 - 1 where it would be greater. */
typedef struct {
    uint64_t rows;
    uint64_t keys;
    uint64_t key_bytes;
    uint64_t value_bytes;
} hlc_store_sizes;

/* By hlc_store_size. */
HLC_CHECKED(1, 2) static inline hlc_answer hlc_store_get_sizes(const hlc_store *store, hlc_store_sizes *sizes)
{
    hlc_store mine = *store;
    return hlc_store_size(&mine, &sizes->rows, &sizes->keys, &sizes->key_bytes, &sizes->value_bytes);
}

/* What was accepted from a node: the number of its next item, the stamp of its last accepted item or of its start, and
 * whether its retirement was accepted. */
typedef struct {
    uint64_t next;
    uint64_t head;
    bool retired;
} hlc_link_state;

/* By hlc_store_link. */
HLC_CHECKED(1, 3)
static inline hlc_answer hlc_store_get_link(const hlc_store *store, uint16_t node, hlc_link_state *link)
{
    hlc_store mine = *store;
    link->retired = false;
    return hlc_store_link(&mine, node, &link->next, &link->head, &link->retired);
}

/* An open snapshot. */
typedef struct {
    uint64_t id;
    uint64_t stamp;
} hlc_snapshot_info;

/* By hlc_snapshot_at_place. */
HLC_CHECKED(1, 3)
static inline hlc_answer hlc_snapshot_get(const hlc_store *store, uint64_t place, hlc_snapshot_info *snapshot)
{
    hlc_store mine = *store;
    return hlc_snapshot_at_place(&mine, place, &snapshot->id, &snapshot->stamp);
}

/* Returns the stamp of the open snapshot of an id. Refusal: 10. Makes at most eleven calls of hlc_snapshot_at_place,
 * whose ids rise. */
HLC_CHECKED(1, 3)
static inline hlc_answer hlc_snapshot_get_stamp(const hlc_store *store, uint64_t id, uint64_t *stamp)
{
    hlc_snapshot_info open;
    uint64_t low = 0, high = HLC_MAX_OPEN_SNAPSHOTS;
    *stamp = 0;
    while (low < high) {
        const uint64_t place = low + (high - low) / 2;
        const hlc_answer answer = hlc_snapshot_get(store, place, &open);
        if (answer != HLC_OK && answer != HLC_AFTER_LAST) return answer;
        if (answer == HLC_OK && open.id == id) {
            *stamp = open.stamp;
            return HLC_OK;
        }
        if (answer == HLC_OK && open.id < id) {
            low = place + 1;
        } else {
            high = place;
        }
    }
    return HLC_NO_SNAPSHOT;
}

/* What a vacuum did: the stamp to which it vacuumed; of the rows at or below it, how many were kept, what these cost in
 * bytes, and how many were dropped. */
typedef struct {
    uint64_t stamp;
    uint64_t kept;
    uint64_t bytes;
    uint64_t dropped;
    uint64_t word;
} hlc_vacuum_report;

/* By hlc_store_vacuum. */
HLC_CHECKED(1, 2) static inline hlc_answer hlc_store_run_vacuum(hlc_store *store, hlc_vacuum_report *report)
{
    report->word = 0;
    return hlc_store_vacuum(store, &report->stamp, &report->kept, &report->bytes, &report->dropped);
}

/* By hlc_store_vacuum_to. */
HLC_CHECKED(1, 3)
static inline hlc_answer hlc_store_run_vacuum_to(hlc_store *store, uint64_t stamp, hlc_vacuum_report *report)
{
    const hlc_answer answer =
        hlc_store_vacuum_to(store, stamp, &report->word, &report->kept, &report->bytes, &report->dropped);
    report->stamp = answer == HLC_OK ? report->word : 0;
    if (answer == HLC_OK) report->word = 0;
    return answer;
}

/* A part of a vacuum, with the numbers of its keys; whether a key may be left, and the key after which the next part
 * goes on. It is HLC_FIRST_PART before the first part. */
typedef struct {
    hlc_vacuum_report report;
    bool more;
    size_t after_len;
    uint8_t after[HLC_MAX_KEY];
} hlc_partial_vacuum;

#define HLC_FIRST_PART { { 0, 0, 0, 0, 0 }, true, 0, { 0 } }

/* Makes the next part by hlc_store_vacuum_part, of at most `limit` keys.
 *
 *     hlc_partial_vacuum part = HLC_FIRST_PART;
 *     while (answer == HLC_OK && part.more) answer = hlc_store_run_vacuum_part(&store, stamp, 1024, &part);
 *
 * After a refusal the part has the word, and is otherwise as it was: the call may be made again. */
HLC_CHECKED(1, 4)
static inline hlc_answer hlc_store_run_vacuum_part(hlc_store *store, uint64_t stamp, size_t limit,
                                                   hlc_partial_vacuum *part)
{
    hlc_partial_vacuum made = HLC_FIRST_PART;
    hlc_vacuum_report *report = &made.report;
    const hlc_answer answer =
        hlc_store_vacuum_part(store, stamp, part->after, part->after_len, limit, &report->word, &report->kept,
                              &report->bytes, &report->dropped, made.after, sizeof made.after, &made.after_len,
                              &made.more);
    if (answer != HLC_OK) {
        part->report.word = report->word;
        return answer;
    }
    report->stamp = report->word;
    report->word = 0;
    *part = made;
    return answer;
}

/* The certificate of the rows at or below a stamp: how many they are, what they cost in bytes, and how many bytes the
 * certificate has in its output. */
typedef struct {
    uint64_t kept;
    uint64_t bytes;
    size_t len;
    uint64_t word;
} hlc_certified;

/* By hlc_certificate_make. */
HLC_CHECKED(1, 3, 4)
static inline hlc_answer hlc_certificate_get(const hlc_store *store, uint64_t stamp, hlc_output *output,
                                             hlc_certified *certified)
{
    hlc_store mine = *store;
    return hlc_certificate_make(&mine, stamp, &certified->word, &certified->kept, &certified->bytes, output,
                                &certified->len);
}

/* What a certificate shows: that no row set with the same answers has fewer rows, or costs fewer bytes. */
typedef struct {
    uint64_t rows;
    uint64_t bytes;
    uint64_t word;
} hlc_shown;

/* By hlc_certificate_check. */
HLC_CHECKED(3)
static inline hlc_answer hlc_certificate_get_shown(const uint8_t *text, size_t text_len, hlc_shown *shown)
{
    return hlc_certificate_check(text, text_len, &shown->rows, &shown->bytes, &shown->word);
}

/* How far a store came in a log, also at a refusal: how many items or records it accepted or passed over, how many
 * bytes these have, and the greatest retention threshold among them, or 0. */
typedef struct {
    size_t count;
    size_t used;
    uint64_t threshold;
    uint64_t word;
} hlc_applied;

/* By hlc_store_accept_items; threshold is 0. */
HLC_CHECKED(1, 4)
static inline hlc_answer hlc_store_accept_log(hlc_store *store, const uint8_t *bytes, size_t bytes_len,
                                              hlc_applied *applied)
{
    applied->threshold = 0;
    return hlc_store_accept_items(store, bytes, bytes_len, &applied->used, &applied->count, &applied->word);
}

/* By hlc_store_apply_records. */
HLC_CHECKED(1, 4)
static inline hlc_answer hlc_store_apply_log(hlc_store *store, const uint8_t *bytes, size_t bytes_len,
                                             hlc_applied *applied)
{
    return hlc_store_apply_records(store, bytes, bytes_len, &applied->used, &applied->count, &applied->threshold,
                                   &applied->word);
}

#ifdef __cplusplus
}
#endif
#endif
