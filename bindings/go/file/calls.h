/* The calls of hlcstore_file.h in the form in which Go makes them cheaply: results are returned by value, since the
 * address of a variable that is passed to C would move the variable to Go's heap. A call that needs the store itself
 * borrows and returns it here, since Go may move between threads. */
#ifndef HLCGO_FILE_CALLS_H
#define HLCGO_FILE_CALLS_H
#include <hlcstore_file.h>
#include <stdlib.h>

typedef struct {
    uint32_t code;
    uint64_t word;
} file_answer;

typedef struct {
    uint32_t code;
    size_t len;
    size_t many;
} file_part;

typedef struct {
    uint32_t code;
    uint64_t id;
    uint64_t stamp;
} file_snapshot;

typedef struct {
    uint32_t code;
    hlc_file *file;
    hlc_file_state state;
} file_opened;

typedef struct {
    uint32_t code;
    uint16_t node;
    uint64_t start;
} file_joined;

typedef struct {
    uint32_t code;
    uint64_t word, kept, bytes, dropped;
} file_vacuumed;

typedef struct {
    uint32_t code;
    uint8_t bytes[32];
} file_digest;

typedef struct {
    uint8_t bytes[256];
    size_t len;
} file_text;

static inline file_text file_error_name(uint32_t code)
{
    file_text text;
    hlc_file_error_name(code, text.bytes, sizeof text.bytes, &text.len);
    return text;
}

static inline file_text file_error_text(uint32_t code)
{
    file_text text;
    hlc_file_error_text(code, text.bytes, sizeof text.bytes, &text.len);
    return text;
}

/* ---- The file ---- */

static inline file_opened file_open(const char *path, hlc_file_options options)
{
    file_opened opened = { .state = { .size = sizeof(hlc_file_state) } };
    options.size = sizeof options;
    opened.code = hlc_file_open(path, &options, &opened.file, &opened.state);
    return opened;
}

static inline file_opened file_status(hlc_file *file)
{
    file_opened status = { .state = { .size = sizeof(hlc_file_state) } };
    status.code = hlc_file_status(file, &status.state);
    return status;
}

/* ---- Writes ---- */

static inline file_answer file_append(hlc_file *file, uint16_t node, uint64_t reading, hlc_file_batch *batch,
                                      uint32_t promise)
{
    file_answer answer;
    answer.code = hlc_file_append(file, node, reading, batch, promise, &answer.word);
    return answer;
}

static inline file_answer file_write_batch(hlc_file *file, uint16_t node, uint64_t reading, hlc_file_batch *batch,
                                           uint32_t promise)
{
    file_answer answer;
    answer.code = hlc_file_write_batch(file, node, reading, batch, promise, &answer.word);
    return answer;
}

static inline file_answer file_write(hlc_file *file, uint16_t node, uint64_t reading, const uint8_t *key,
                                     size_t key_len, const uint8_t *value, size_t value_len)
{
    file_answer answer;
    answer.code = hlc_file_write(file, node, reading, key, key_len, value, value_len, &answer.word);
    return answer;
}

static inline file_answer file_delete(hlc_file *file, uint16_t node, uint64_t reading, const uint8_t *key,
                                      size_t key_len)
{
    file_answer answer;
    answer.code = hlc_file_delete(file, node, reading, key, key_len, &answer.word);
    return answer;
}

static inline file_answer file_report(hlc_file *file, uint16_t node, uint64_t reading)
{
    file_answer answer;
    answer.code = hlc_file_report(file, node, reading, &answer.word);
    return answer;
}

static inline file_answer file_retire(hlc_file *file, uint16_t node, uint64_t reading)
{
    file_answer answer;
    answer.code = hlc_file_retire(file, node, reading, &answer.word);
    return answer;
}

static inline file_joined file_join(hlc_file *file)
{
    file_joined joined;
    joined.code = hlc_file_join(file, &joined.node, &joined.start);
    return joined;
}

typedef struct {
    uint32_t code;
    size_t many;
    uint64_t word;
} file_applied;

static inline file_applied file_append_records(hlc_file *file, const uint8_t *bytes, size_t bytes_len, uint32_t promise)
{
    file_applied applied;
    applied.code = hlc_file_append_records(file, bytes, bytes_len, promise, &applied.many, &applied.word);
    return applied;
}

static inline file_answer file_send(hlc_file *file, uint16_t node, uint64_t reading)
{
    file_answer answer;
    answer.code = hlc_file_send(file, node, reading, &answer.word);
    return answer;
}

static inline file_answer file_receive(hlc_file *file, uint16_t node, uint64_t seen, uint64_t reading)
{
    file_answer answer;
    answer.code = hlc_file_receive(file, node, seen, reading, &answer.word);
    return answer;
}

static inline file_answer file_checkpoint(hlc_file *file)
{
    file_answer answer;
    answer.code = hlc_file_checkpoint(file, &answer.word);
    return answer;
}

typedef struct {
    uint32_t code;
    hlc_output output;
    size_t len;
} file_copied;

static inline file_copied file_copy(hlc_file *file, uint64_t tag)
{
    file_copied copied = { .output = HLC_NO_OUTPUT };
    copied.code = hlc_file_copy(file, tag, &copied.output, &copied.len);
    return copied;
}

static inline file_part file_output_read(hlc_output *output, size_t from, uint8_t *out, size_t out_len)
{
    file_part part = { 0 };
    part.code = hlc_output_read(output, from, out, out_len, &part.len);
    return part;
}

static inline file_vacuumed file_vacuum_to(hlc_file *file, uint64_t stamp)
{
    file_vacuumed vacuumed;
    vacuumed.code =
        hlc_file_vacuum_to(file, stamp, &vacuumed.word, &vacuumed.kept, &vacuumed.bytes, &vacuumed.dropped);
    return vacuumed;
}

static inline file_vacuumed file_vacuum_older(hlc_file *file, uint64_t milliseconds)
{
    file_vacuumed vacuumed;
    vacuumed.code =
        hlc_file_vacuum_older(file, milliseconds, &vacuumed.word, &vacuumed.kept, &vacuumed.bytes, &vacuumed.dropped);
    return vacuumed;
}

/* ---- Reads ---- */

static inline file_snapshot file_open_snapshot(hlc_file *file, uint64_t stamp)
{
    file_snapshot snapshot = { .stamp = stamp };
    snapshot.code = hlc_file_open_snapshot(file, stamp, &snapshot.id);
    return snapshot;
}

static inline file_snapshot file_open_snapshot_at_floor(hlc_file *file)
{
    file_snapshot snapshot;
    snapshot.code = hlc_file_open_snapshot_at_floor(file, &snapshot.id, &snapshot.stamp);
    return snapshot;
}

static inline uint32_t file_close_snapshot(hlc_file *file, uint64_t id)
{
    uint64_t stamp;
    return hlc_file_close_snapshot(file, id, &stamp);
}

static inline file_part file_read(hlc_file *file, uint64_t id, const uint8_t *key, size_t key_len, uint8_t *out,
                                  size_t out_len)
{
    file_part part = { 0 };
    part.code = hlc_file_read(file, id, key, key_len, out, out_len, &part.len);
    return part;
}

static inline file_part file_scan(hlc_file *file, uint64_t id, const uint8_t *from, size_t from_len, const uint8_t *to,
                                  size_t to_len, uint8_t *out, size_t out_len)
{
    file_part part;
    part.code = hlc_file_scan(file, id, from, from_len, to, to_len, out, out_len, &part.len, &part.many);
    return part;
}

static inline file_part file_scan_back(hlc_file *file, uint64_t id, const uint8_t *from, size_t from_len,
                                       const uint8_t *to, size_t to_len, uint8_t *out, size_t out_len)
{
    file_part part;
    part.code = hlc_file_scan_back(file, id, from, from_len, to, to_len, out, out_len, &part.len, &part.many);
    return part;
}

static inline file_part file_changes(hlc_file *file, uint64_t before, uint64_t after, const uint8_t *from,
                                     size_t from_len, const uint8_t *to, size_t to_len, uint8_t *out, size_t out_len)
{
    hlc_store store;
    file_part part;
    hlc_file_read_begin(file, &store);
    part.code = hlc_snapshot_changes(&store, before, after, from, from_len, to, to_len, out, out_len, &part.len,
                                     &part.many);
    hlc_file_read_end(file);
    return part;
}

static inline file_answer file_count(hlc_file *file, uint64_t id, const uint8_t *from, size_t from_len,
                                     const uint8_t *to, size_t to_len)
{
    file_answer answer;
    answer.code = hlc_file_count(file, id, from, from_len, to, to_len, &answer.word);
    return answer;
}

static inline file_digest file_digest_of(hlc_file *file, uint64_t id, const uint8_t *from, size_t from_len,
                                         const uint8_t *to, size_t to_len)
{
    hlc_store store;
    file_digest digest = { 0 };
    size_t len;
    hlc_file_read_begin(file, &store);
    digest.code = hlc_snapshot_digest(&store, id, from, from_len, to, to_len, digest.bytes, sizeof digest.bytes, &len);
    hlc_file_read_end(file);
    return digest;
}

static inline file_answer file_floor(hlc_file *file)
{
    file_answer answer;
    answer.code = hlc_file_floor(file, &answer.word);
    return answer;
}

static inline file_answer file_horizon(hlc_file *file)
{
    file_answer answer;
    answer.code = hlc_file_horizon(file, &answer.word);
    return answer;
}

#endif
