/* The calls of hlcstore.h in the form in which Go makes them cheaply. Results are returned by value: the address of a
 * variable that is passed to C would move the variable to Go's heap. A call that only asks makes a copy of the handle,
 * as hlcstore.h wants it of calls that run beside each other; Go would make it on its heap. */
#ifndef HLCGO_CALLS_H
#define HLCGO_CALLS_H
#include <hlcstore.h>

#define HLCGO_SHORT 112
#define HLCGO_LONGEST_KEY 255

typedef struct {
    uint32_t code;
    uint64_t word;
} hlcgo_answer;

typedef struct {
    uint32_t code;
    size_t len;
    size_t many;
} hlcgo_part;

static inline const uint8_t *hlcgo_bytes(_GoString_ text) { return (const uint8_t *)_GoStringPtr(text); }

/* ---- Errors ---- */

typedef struct {
    uint8_t bytes[256];
    size_t len;
} hlcgo_text;

static inline hlcgo_text hlcgo_error_name(uint32_t code)
{
    hlcgo_text text;
    hlc_error_name(code, text.bytes, sizeof text.bytes, &text.len);
    return text;
}

static inline hlcgo_text hlcgo_error_text(uint32_t code)
{
    hlcgo_text text;
    hlc_error_text(code, text.bytes, sizeof text.bytes, &text.len);
    return text;
}

/* ---- Nodes ---- */

typedef struct {
    uint32_t code;
    uint64_t number;
    uint64_t word;
    hlc_node node;
} hlcgo_issued;

static inline hlcgo_issued hlcgo_node_restore(uint16_t id, uint64_t last, uint64_t next)
{
    hlcgo_issued issued = { 0 };
    issued.code = hlc_node_restore(id, last, next, &issued.node);
    return issued;
}

static inline hlc_node hlcgo_node_raise(hlc_node node, uint64_t stamp)
{
    hlc_node_raise(&node, stamp);
    return node;
}

static inline hlcgo_issued hlcgo_node_write(hlc_node node, uint64_t reading, const uint8_t *key, size_t key_len,
                                            const uint8_t *value, size_t value_len)
{
    hlcgo_issued issued = { .node = node };
    issued.code = hlc_node_write(&issued.node, reading, key, key_len, value, value_len, &issued.number, &issued.word);
    return issued;
}

static inline hlcgo_issued hlcgo_node_delete(hlc_node node, uint64_t reading, const uint8_t *key, size_t key_len)
{
    hlcgo_issued issued = { .node = node };
    issued.code = hlc_node_delete(&issued.node, reading, key, key_len, &issued.number, &issued.word);
    return issued;
}

static inline hlcgo_issued hlcgo_node_write_batch(hlc_node node, uint64_t reading, size_t count, const uint8_t *writes,
                                                  size_t writes_len)
{
    hlcgo_issued issued = { .node = node };
    issued.code = hlc_node_write_batch(&issued.node, reading, count, writes, writes_len, &issued.number, &issued.word);
    return issued;
}

static inline hlcgo_issued hlcgo_node_report(hlc_node node, uint64_t reading)
{
    hlcgo_issued issued = { .node = node };
    issued.code = hlc_node_report(&issued.node, reading, &issued.number, &issued.word);
    return issued;
}

static inline hlcgo_issued hlcgo_node_retire(hlc_node node, uint64_t reading)
{
    hlcgo_issued issued = { .node = node };
    issued.code = hlc_node_retire(&issued.node, reading, &issued.number, &issued.word);
    return issued;
}

static inline hlcgo_issued hlcgo_node_send(hlc_node node, uint64_t reading)
{
    hlcgo_issued issued = { .node = node };
    issued.code = hlc_node_send(&issued.node, reading, &issued.word);
    return issued;
}

static inline hlcgo_issued hlcgo_node_receive(hlc_node node, uint64_t seen, uint64_t reading)
{
    hlcgo_issued issued = { .node = node };
    issued.code = hlc_node_receive(&issued.node, seen, reading, &issued.word);
    return issued;
}

/* ---- Items and records as bytes ---- */

static inline hlcgo_part hlcgo_item_write(uint16_t node, uint64_t number, uint64_t stamp, _GoString_ key,
                                          _GoString_ value, uint8_t *out, size_t out_len)
{
    hlcgo_part part = { 0 };
    part.code = hlc_item_encode_write(node, number, stamp, hlcgo_bytes(key), _GoStringLen(key), hlcgo_bytes(value),
                                      _GoStringLen(value), out, out_len, &part.len);
    return part;
}

static inline hlcgo_part hlcgo_item_delete(uint16_t node, uint64_t number, uint64_t stamp, _GoString_ key,
                                           uint8_t *out, size_t out_len)
{
    hlcgo_part part = { 0 };
    part.code = hlc_item_encode_delete(node, number, stamp, hlcgo_bytes(key), _GoStringLen(key), out, out_len,
                                       &part.len);
    return part;
}

static inline hlcgo_part hlcgo_item_report(uint16_t node, uint64_t number, uint64_t stamp, uint8_t *out,
                                           size_t out_len)
{
    hlcgo_part part = { 0 };
    part.code = hlc_item_encode_report(node, number, stamp, out, out_len, &part.len);
    return part;
}

static inline hlcgo_part hlcgo_item_retire(uint16_t node, uint64_t number, uint64_t stamp, uint8_t *out,
                                           size_t out_len)
{
    hlcgo_part part = { 0 };
    part.code = hlc_item_encode_retire(node, number, stamp, out, out_len, &part.len);
    return part;
}

static inline hlcgo_part hlcgo_item_batch(uint16_t node, uint64_t number, uint64_t stamp, size_t count,
                                          _GoString_ writes, uint8_t *out, size_t out_len)
{
    hlcgo_part part = { 0 };
    part.code = hlc_item_encode_batch(node, number, stamp, count, hlcgo_bytes(writes), _GoStringLen(writes), out,
                                      out_len, &part.len);
    return part;
}

typedef struct {
    uint8_t bytes[16];
    size_t len;
} hlcgo_record;

static inline hlcgo_record hlcgo_record_join(uint16_t node, uint64_t start)
{
    hlcgo_record record;
    const uint32_t code = hlc_record_encode_join(node, start, record.bytes, sizeof record.bytes, &record.len);
    (void)code;
    return record;
}

static inline hlcgo_record hlcgo_record_threshold(uint64_t stamp)
{
    hlcgo_record record;
    const uint32_t code = hlc_record_encode_threshold(stamp, record.bytes, sizeof record.bytes, &record.len);
    (void)code;
    return record;
}

/* ---- What a store accepts ---- */

static inline hlcgo_answer hlcgo_accept_write(hlc_store *store, uint16_t node, uint64_t number, uint64_t stamp,
                                              _GoString_ key, _GoString_ value)
{
    hlcgo_answer answer;
    answer.code = hlc_store_accept_write(store, node, number, stamp, hlcgo_bytes(key), _GoStringLen(key),
                                         hlcgo_bytes(value), _GoStringLen(value), &answer.word);
    return answer;
}

static inline hlcgo_answer hlcgo_accept_delete(hlc_store *store, uint16_t node, uint64_t number, uint64_t stamp,
                                               _GoString_ key)
{
    hlcgo_answer answer;
    answer.code = hlc_store_accept_delete(store, node, number, stamp, hlcgo_bytes(key), _GoStringLen(key),
                                          &answer.word);
    return answer;
}

static inline hlcgo_answer hlcgo_accept_report(hlc_store *store, uint16_t node, uint64_t number, uint64_t stamp)
{
    hlcgo_answer answer;
    answer.code = hlc_store_accept_report(store, node, number, stamp, &answer.word);
    return answer;
}

static inline hlcgo_answer hlcgo_accept_retire(hlc_store *store, uint16_t node, uint64_t number, uint64_t stamp)
{
    hlcgo_answer answer;
    answer.code = hlc_store_accept_retire(store, node, number, stamp, &answer.word);
    return answer;
}

static inline hlcgo_answer hlcgo_accept_batch(hlc_store *store, uint16_t node, uint64_t number, uint64_t stamp,
                                              size_t count, const uint8_t *writes, size_t writes_len)
{
    hlcgo_answer answer;
    answer.code = hlc_store_accept_batch(store, node, number, stamp, count, writes, writes_len, &answer.word);
    return answer;
}

static inline hlcgo_answer hlcgo_accept_item_batch(hlc_store *store, uint16_t node, uint64_t number, uint64_t stamp,
                                                   size_t count, _GoString_ writes)
{
    return hlcgo_accept_batch(store, node, number, stamp, count, hlcgo_bytes(writes), _GoStringLen(writes));
}

/* What hlc_store_accept_batch would return, except 15: a new node refuses the same writes, and those are refused before
 * the item where they are too many or no writes, and otherwise after it. */
static inline hlcgo_answer hlcgo_check_batch(const hlc_store *store, uint16_t node, uint64_t number, uint64_t stamp,
                                             size_t count, _GoString_ writes)
{
    hlc_store mine = *store;
    hlc_node issuing = hlc_node_open(0, 0);
    hlcgo_answer of_writes, of_item;
    uint64_t issued;
    of_writes.code = hlc_node_write_batch(&issuing, 0, count, hlcgo_bytes(writes), _GoStringLen(writes), &issued,
                                          &of_writes.word);
    if (of_writes.code == HLC_TOO_MANY_WRITES || of_writes.code == HLC_BAD_BYTES) return of_writes;
    of_item.code = hlc_store_check_report(&mine, node, number, stamp, &of_item.word);
    return of_item.code == HLC_OK ? of_writes : of_item;
}

static inline hlcgo_answer hlcgo_check_write(const hlc_store *store, uint16_t node, uint64_t number, uint64_t stamp,
                                             _GoString_ key, _GoString_ value)
{
    hlc_store mine = *store;
    hlcgo_answer answer;
    answer.code = hlc_store_check_write(&mine, node, number, stamp, hlcgo_bytes(key), _GoStringLen(key),
                                        hlcgo_bytes(value), _GoStringLen(value), &answer.word);
    return answer;
}

static inline hlcgo_answer hlcgo_check_delete(const hlc_store *store, uint16_t node, uint64_t number, uint64_t stamp,
                                              _GoString_ key)
{
    hlc_store mine = *store;
    hlcgo_answer answer;
    answer.code = hlc_store_check_delete(&mine, node, number, stamp, hlcgo_bytes(key), _GoStringLen(key), &answer.word);
    return answer;
}

static inline hlcgo_answer hlcgo_check_report(const hlc_store *store, uint16_t node, uint64_t number, uint64_t stamp)
{
    hlc_store mine = *store;
    hlcgo_answer answer;
    answer.code = hlc_store_check_report(&mine, node, number, stamp, &answer.word);
    return answer;
}

typedef struct {
    uint32_t code;
    size_t used;
    size_t many;
    uint64_t threshold;
    uint64_t word;
} hlcgo_applied;

static inline hlcgo_applied hlcgo_accept_all(hlc_store *store, const hlc_entry *entries, size_t entries_len,
                                             const uint8_t *bytes, size_t bytes_len)
{
    hlcgo_applied applied = { 0 };
    applied.code = hlc_store_accept_all(store, entries, entries_len, bytes, bytes_len, &applied.many, &applied.word);
    return applied;
}

static inline hlcgo_applied hlcgo_items_accept(hlc_store *store, const uint8_t *bytes, size_t bytes_len)
{
    hlcgo_applied applied = { 0 };
    applied.code = hlc_store_accept_items(store, bytes, bytes_len, &applied.used, &applied.many, &applied.word);
    return applied;
}

static inline hlcgo_applied hlcgo_records_apply(hlc_store *store, const uint8_t *bytes, size_t bytes_len)
{
    hlcgo_applied applied = { 0 };
    applied.code = hlc_store_apply_records(store, bytes, bytes_len, &applied.used, &applied.many, &applied.threshold,
                                           &applied.word);
    return applied;
}

typedef struct {
    uint32_t code;
    uint16_t node;
    uint64_t word;
} hlcgo_joined;

static inline hlcgo_joined hlcgo_join(hlc_store *store)
{
    hlcgo_joined joined;
    joined.code = hlc_store_join(store, &joined.node, &joined.word);
    return joined;
}

static inline hlcgo_joined hlcgo_join_at(hlc_store *store, uint64_t start)
{
    hlcgo_joined joined;
    joined.code = hlc_store_join_at(store, start, &joined.node, &joined.word);
    return joined;
}

/* ---- Snapshots ---- */

typedef struct {
    uint32_t code;
    uint64_t id;
    uint64_t stamp;
} hlcgo_snapshot;

static inline hlcgo_snapshot hlcgo_open_snapshot(hlc_store *store, uint64_t stamp)
{
    hlcgo_snapshot snapshot = { .stamp = stamp };
    snapshot.code = hlc_snapshot_open(store, stamp, &snapshot.id);
    return snapshot;
}

static inline hlcgo_snapshot hlcgo_open_snapshot_at_floor(hlc_store *store)
{
    hlcgo_snapshot snapshot;
    snapshot.code = hlc_snapshot_open_at_floor(store, &snapshot.id, &snapshot.stamp);
    return snapshot;
}

static inline hlcgo_answer hlcgo_close_snapshot(hlc_store *store, uint64_t id)
{
    hlcgo_answer answer;
    answer.code = hlc_snapshot_close(store, id, &answer.word);
    return answer;
}

static inline hlcgo_snapshot hlcgo_snapshot_at(const hlc_store *store, uint64_t place)
{
    hlc_store mine = *store;
    hlcgo_snapshot snapshot;
    snapshot.code = hlc_snapshot_at_place(&mine, place, &snapshot.id, &snapshot.stamp);
    return snapshot;
}

/* A value that is short enough comes in `bytes`, so that Go allocates just its length. */
typedef struct {
    uint32_t code;
    size_t len;
    uint8_t bytes[HLCGO_SHORT];
} hlcgo_value;

static inline hlcgo_value hlcgo_read_short(const hlc_store *store, uint64_t id, const uint8_t *key, size_t key_len)
{
    hlc_store mine = *store;
    hlcgo_value value;
    value.code = hlc_snapshot_read(&mine, id, key, key_len, value.bytes, sizeof value.bytes, &value.len);
    return value;
}

static inline hlcgo_part hlcgo_read(const hlc_store *store, uint64_t id, const uint8_t *key, size_t key_len,
                                    uint8_t *out, size_t out_len)
{
    hlc_store mine = *store;
    hlcgo_part part = { 0 };
    part.code = hlc_snapshot_read(&mine, id, key, key_len, out, out_len, &part.len);
    return part;
}

static inline hlcgo_part hlcgo_read_all(const hlc_store *store, uint64_t id, const hlc_place *places, size_t places_len,
                                        const uint8_t *bytes, size_t bytes_len, uint8_t *out, size_t out_len)
{
    hlc_store mine = *store;
    hlcgo_part part;
    part.code = hlc_snapshot_read_all(&mine, id, places, places_len, bytes, bytes_len, out, out_len, &part.len,
                                      &part.many);
    return part;
}

static inline hlcgo_part hlcgo_list(const hlc_store *store, uint64_t id, uint8_t *out, size_t out_len)
{
    hlc_store mine = *store;
    hlcgo_part part = { 0 };
    part.code = hlc_snapshot_list(&mine, id, out, out_len, &part.len);
    return part;
}

static inline hlcgo_part hlcgo_scan(const hlc_store *store, uint64_t id, const uint8_t *from, size_t from_len,
                                    const uint8_t *to, size_t to_len, uint8_t *out, size_t out_len)
{
    hlc_store mine = *store;
    hlcgo_part part;
    part.code = hlc_snapshot_scan(&mine, id, from, from_len, to, to_len, out, out_len, &part.len, &part.many);
    return part;
}

static inline hlcgo_part hlcgo_scan_back(const hlc_store *store, uint64_t id, const uint8_t *from, size_t from_len,
                                         const uint8_t *to, size_t to_len, uint8_t *out, size_t out_len)
{
    hlc_store mine = *store;
    hlcgo_part part;
    part.code = hlc_snapshot_scan_back(&mine, id, from, from_len, to, to_len, out, out_len, &part.len, &part.many);
    return part;
}

static inline hlcgo_part hlcgo_scan_keys(const hlc_store *store, uint64_t id, const uint8_t *from, size_t from_len,
                                         const uint8_t *to, size_t to_len, uint8_t *out, size_t out_len)
{
    hlc_store mine = *store;
    hlcgo_part part;
    part.code = hlc_snapshot_scan_keys(&mine, id, from, from_len, to, to_len, out, out_len, &part.len, &part.many);
    return part;
}

static inline hlcgo_part hlcgo_changes(const hlc_store *store, uint64_t before, uint64_t after, const uint8_t *from,
                                       size_t from_len, const uint8_t *to, size_t to_len, uint8_t *out,
                                       size_t out_len)
{
    hlc_store mine = *store;
    hlcgo_part part;
    part.code = hlc_snapshot_changes(&mine, before, after, from, from_len, to, to_len, out, out_len, &part.len,
                                     &part.many);
    return part;
}

static inline hlcgo_answer hlcgo_count(const hlc_store *store, uint64_t id, const uint8_t *from, size_t from_len,
                                       const uint8_t *to, size_t to_len)
{
    hlc_store mine = *store;
    hlcgo_answer answer;
    answer.code = hlc_snapshot_count(&mine, id, from, from_len, to, to_len, &answer.word);
    return answer;
}

typedef struct {
    uint32_t code;
    uint8_t bytes[32];
} hlcgo_digest_of;

static inline hlcgo_digest_of hlcgo_digest(const hlc_store *store, uint64_t id, const uint8_t *from, size_t from_len,
                                           const uint8_t *to, size_t to_len)
{
    hlc_store mine = *store;
    hlcgo_digest_of digest = { 0 };
    size_t len;
    digest.code = hlc_snapshot_digest(&mine, id, from, from_len, to, to_len, digest.bytes, sizeof digest.bytes, &len);
    return digest;
}

static inline hlcgo_part hlcgo_versions(const hlc_store *store, const uint8_t *key, size_t key_len, uint64_t above,
                                        uint64_t to, uint8_t *out, size_t out_len)
{
    hlc_store mine = *store;
    hlcgo_part part;
    part.code = hlc_store_versions(&mine, key, key_len, above, to, out, out_len, &part.len, &part.many);
    return part;
}

/* ---- What a store has ---- */

static inline hlcgo_answer hlcgo_floor(const hlc_store *store)
{
    hlc_store mine = *store;
    hlcgo_answer answer;
    answer.code = hlc_store_floor(&mine, &answer.word);
    return answer;
}

static inline hlcgo_answer hlcgo_floor_node(const hlc_store *store)
{
    hlc_store mine = *store;
    hlcgo_answer answer;
    answer.code = hlc_store_floor_node(&mine, &answer.word);
    return answer;
}

static inline hlcgo_answer hlcgo_horizon(const hlc_store *store)
{
    hlc_store mine = *store;
    hlcgo_answer answer;
    answer.code = hlc_store_horizon(&mine, &answer.word);
    return answer;
}

static inline hlcgo_answer hlcgo_nodes(const hlc_store *store)
{
    hlc_store mine = *store;
    hlcgo_answer answer;
    answer.code = hlc_store_nodes(&mine, &answer.word);
    return answer;
}

static inline hlcgo_answer hlcgo_rows(const hlc_store *store)
{
    hlc_store mine = *store;
    hlcgo_answer answer;
    answer.code = hlc_store_rows(&mine, &answer.word);
    return answer;
}

typedef struct {
    uint32_t code;
    uint64_t rows, keys, key_bytes, value_bytes;
} hlcgo_sizes_of;

static inline hlcgo_sizes_of hlcgo_sizes(const hlc_store *store)
{
    hlc_store mine = *store;
    hlcgo_sizes_of sizes;
    sizes.code = hlc_store_size(&mine, &sizes.rows, &sizes.keys, &sizes.key_bytes, &sizes.value_bytes);
    return sizes;
}

typedef struct {
    uint32_t code;
    uint64_t next, head;
    bool retired;
} hlcgo_link_of;

static inline hlcgo_link_of hlcgo_link(const hlc_store *store, uint16_t node)
{
    hlc_store mine = *store;
    hlcgo_link_of link = { 0 };
    link.code = hlc_store_link(&mine, node, &link.next, &link.head, &link.retired);
    return link;
}

/* ---- Vacuums ---- */

typedef struct {
    uint32_t code;
    uint64_t word, kept, bytes, dropped;
} hlcgo_vacuumed;

static inline hlcgo_vacuumed hlcgo_vacuum(hlc_store *store)
{
    hlcgo_vacuumed vacuumed;
    vacuumed.code = hlc_store_vacuum(store, &vacuumed.word, &vacuumed.kept, &vacuumed.bytes, &vacuumed.dropped);
    return vacuumed;
}

static inline hlcgo_vacuumed hlcgo_vacuum_to(hlc_store *store, uint64_t stamp)
{
    hlcgo_vacuumed vacuumed;
    vacuumed.code = hlc_store_vacuum_to(store, stamp, &vacuumed.word, &vacuumed.kept, &vacuumed.bytes,
                                        &vacuumed.dropped);
    return vacuumed;
}

typedef struct {
    hlcgo_vacuumed done;
    uint8_t last[HLCGO_LONGEST_KEY];
    size_t len;
    bool more;
} hlcgo_vacuum_part_of;

static inline hlcgo_vacuum_part_of hlcgo_vacuum_part(hlc_store *store, uint64_t stamp, const uint8_t *after,
                                                     size_t after_len, size_t limit)
{
    hlcgo_vacuum_part_of part = { 0 };
    part.done.code = hlc_store_vacuum_part(store, stamp, after, after_len, limit, &part.done.word, &part.done.kept,
                                           &part.done.bytes, &part.done.dropped, part.last, sizeof part.last, &part.len,
                                           &part.more);
    return part;
}

static inline hlcgo_answer hlcgo_check_vacuum(const hlc_store *store, uint64_t stamp)
{
    hlc_store mine = *store;
    hlcgo_answer answer;
    answer.code = hlc_store_check_vacuum(&mine, stamp, &answer.word);
    return answer;
}

static inline hlcgo_vacuumed hlcgo_check(const uint8_t *text, size_t text_len)
{
    hlcgo_vacuumed checked = { 0 };
    checked.code = hlc_certificate_check(text, text_len, &checked.kept, &checked.bytes, &checked.word);
    return checked;
}

/* ---- Outputs ---- */

typedef struct {
    uint32_t code;
    uint64_t word, kept, bytes;
    hlc_output output;
    size_t len;
} hlcgo_made;

static inline hlcgo_made hlcgo_certificate(const hlc_store *store, uint64_t stamp)
{
    hlc_store mine = *store;
    hlcgo_made made = { 0 };
    made.code = hlc_certificate_make(&mine, stamp, &made.word, &made.kept, &made.bytes, &made.output, &made.len);
    return made;
}

static inline hlcgo_made hlcgo_checkpoint(const hlc_store *store, uint64_t tag)
{
    hlc_store mine = *store;
    hlcgo_made made = { 0 };
    made.code = hlc_checkpoint_make(&mine, tag, &made.output, &made.len);
    return made;
}

static inline hlcgo_made hlcgo_increment(const hlc_store *store, uint64_t since, uint64_t tag)
{
    hlc_store mine = *store;
    hlcgo_made made = { 0 };
    made.code = hlc_increment_make(&mine, since, tag, &made.output, &made.len, &made.word);
    return made;
}

static inline hlcgo_made hlcgo_increment_apply(const uint8_t *older, size_t older_len, const uint8_t *increment,
                                               size_t increment_len)
{
    hlcgo_made made = { 0 };
    made.code = hlc_increment_apply(older, older_len, increment, increment_len, &made.output, &made.len, &made.word);
    return made;
}

typedef struct {
    hlcgo_made left, right;
} hlcgo_parts;

static inline hlcgo_parts hlcgo_split(const uint8_t *bytes, size_t bytes_len, const uint8_t *key, size_t key_len)
{
    hlcgo_parts made = { { 0 }, { 0 } };
    made.left.code = hlc_checkpoint_split(bytes, bytes_len, key, key_len, &made.left.output, &made.right.output,
                                          &made.left.len, &made.right.len, &made.left.word);
    made.right.code = made.left.code;
    made.right.word = made.left.word;
    return made;
}

static inline hlcgo_made hlcgo_merge(const uint8_t *left, size_t left_len, const uint8_t *right, size_t right_len)
{
    hlcgo_made made = { 0 };
    made.code = hlc_checkpoint_merge(left, left_len, right, right_len, &made.output, &made.len, &made.word);
    return made;
}

static inline hlcgo_part hlcgo_output_read(hlc_output *output, size_t from, uint8_t *out, size_t out_len)
{
    hlcgo_part part = { 0 };
    part.code = hlc_output_read(output, from, out, out_len, &part.len);
    return part;
}

static inline hlcgo_answer hlcgo_saving_start(hlc_saving *saving, const hlc_store *store, uint64_t tag)
{
    hlc_store mine = *store;
    hlcgo_answer answer;
    answer.code = hlc_saving_start(saving, &mine, tag, &answer.word);
    return answer;
}

static inline hlcgo_part hlcgo_saving_read(hlc_saving *saving, const hlc_store *store, uint8_t *out, size_t out_len)
{
    hlc_store mine = *store;
    hlcgo_part part = { 0 };
    part.code = hlc_saving_read(saving, &mine, out, out_len, &part.len);
    return part;
}

/* ---- Restores ---- */

static inline hlcgo_answer hlcgo_restore(hlc_store *store, const uint8_t *bytes, size_t bytes_len)
{
    hlcgo_answer answer;
    answer.code = hlc_store_restore(store, bytes, bytes_len, &answer.word);
    return answer;
}

static inline hlcgo_answer hlcgo_restore_finish(hlc_restoring *restoring, hlc_store *store)
{
    hlcgo_answer answer;
    answer.code = hlc_restoring_finish(restoring, store, &answer.word);
    return answer;
}

#endif
