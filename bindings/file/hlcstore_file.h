/* hlcstore in a file: a durable time-travel store over hlcstore.h and SQLite.
 *
 * Install it:     make -C bindings install install-file PREFIX=/usr/local
 * Link with it:   cc main.c $(pkg-config --cflags --libs hlcstore-file)
 *
 * A file keeps a log of records and the two newest checkpoints of a store. hlc_file_open restores the newest one and
 * applies the log behind it; a batch is on disk first, and then accepted by the store, whole or not at all.
 *
 * Answers. A call returns HLC_OK, a refusal of hlcstore.h with its word, or a number of hlc_file_answer. After any
 * answer but HLC_OK nothing of the call is visible or on disk, except where the answer's line says otherwise. Every
 * answer writes to every pointer, with 0 where there is nothing to return. A buffer that an answer does not fill keeps
 * its bytes. Each call that takes memory may return HLC_NO_MEMORY.
 *
 * Threads. Calls with one file may be made by several threads at once, except where a call says otherwise; calls with
 * different files are independent. Calls that say "writes" wait for each other in turn, and for the disk. Calls that
 * say "reads" wait only while a batch is accepted, a snapshot opened or closed, or a part of a vacuum made; none of
 * that waits for the disk. A waiting write comes before later reads. No call comes from a signal handler.
 *
 * Forks. The file stays its parent's. hlc_file_close and hlc_file_close_snapshot, which destructors may call in the
 * child, do nothing there and answer HLC_OK; the memory ends with the child. The child makes no other call with the
 * file, and does not open it: it could wait for a thread that it lacks. A write that comes as far as the disk is
 * refused with HLC_FILE_SEALED.
 *
 * Time. A reading is a number of milliseconds since 1970, below 2^48, from the caller's clock; or HLC_FILE_NOW: then
 * the file reads the system's clock. If that was set back, stamps rise on by their counters, and by a millisecond where
 * a counter is full, so that no write is refused for it. All nodes of a file share one clock, which is at or above
 * every stamp that the file accepted or returned, and never falls, also not by a crash.
 *
 * What the caller must ensure: a pointer is not NULL, unless its length is 0 or the call says so; buffers are as
 * hlcstore.h says. A node number is written by one file only: items of other machines' nodes come by
 * hlc_file_append_records. */
#ifndef HLCSTORE_FILE_H
#define HLCSTORE_FILE_H
#include "hlcstore.h"
#ifdef __cplusplus
extern "C" {
#endif

#define HLC_FILE_VERSION "0.2.0"

/* An open file. */
typedef struct hlc_file hlc_file;

/* Writes and deletions that wait to be appended. One thread at a time uses a batch. */
typedef struct hlc_file_batch hlc_file_batch;

/* What a file answers beside the refusals of hlcstore.h. docs: "What an operator does" in README.md. */
typedef enum {
    HLC_FILE_IN_USE = 200,        /* another process, or this one, has the file open */
    HLC_FILE_CANNOT_OPEN = 201,   /* the path, or the lock file beside it, cannot be opened or made; or the file has
                                     several hard links */
    HLC_FILE_NOT_OURS = 202,      /* another application's file, or none of SQLite; it is unchanged */
    HLC_FILE_NEWER = 203,         /* its schema is newer than this library; word: its version; it is unchanged */
    HLC_FILE_BAD_OPTION = 204,    /* an option, a promise or a size is out of range */
    HLC_FILE_FULL = 205,          /* the disk is full */
    HLC_FILE_IO = 206,            /* the disk failed */
    HLC_FILE_CORRUPT = 207,       /* SQLite finds its own structure damaged; or the file is missing or empty beside its
                                     write-ahead log, which stays as it is */
    HLC_FILE_DAMAGED_LOG = 208,   /* a log row is missing, swapped or altered; word: its place */
    HLC_FILE_NO_CHECKPOINT = 209, /* no checkpoint is whole, and the log does not begin at the first record; word: how
                                     many checkpoints are damaged */
    HLC_FILE_UNKNOWN = 210,       /* whether the batch is on disk cannot be known before the file is opened again; it is
                                     not visible. The file tries to find out before the next write; see
                                     hlc_file_status */
    HLC_FILE_SEALED = 211,        /* the file takes no writes until it is opened again, since a sync failed or a batch
                                     is still HLC_FILE_UNKNOWN; reads go on. Or this is the child of a fork */
    HLC_FILE_LATER = 212,         /* the batch is on disk, but the store had no memory for it: the next write, or
                                     opening of a snapshot, accepts it first. Do not append it again */
    HLC_FILE_TOO_LONG = 213,      /* a batch would have more than HLC_FILE_BATCH_BYTES */
    HLC_FILE_NO_STAMP = 214       /* of hlc_file_vacuum_older: no stamp is so old */
} hlc_file_answer;

/* How many bytes of records a batch may have. A write takes 24 bytes beside its key and its value. So the 256 writes of
 * hlc_file_write_batch always fit. */
#define HLC_FILE_BATCH_BYTES ((size_t)64 << 20)

/* A reading: the system's clock. */
#define HLC_FILE_NOW UINT64_MAX

/* When a writing call returns HLC_OK. */
enum {
    HLC_FILE_DEFAULT = 0, /* as the option `promise` says */
    HLC_FILE_SYNCED = 1,  /* the batch is synced, in a transaction of its own */
    HLC_FILE_GROUP = 2,   /* it is synced, in a transaction with batches of other threads */
    HLC_FILE_WRITTEN = 3  /* it is written, not synced: it outlives the process. A loss of power may lose it with all
                             batches behind it, never one before it */
};

/* Flags of hlc_file_open. */
enum {
    HLC_FILE_MUST_EXIST = 1,        /* refuses a path without a file with 201 */
    HLC_FILE_KEEP_BEFORE_DAMAGE = 2 /* where the log is damaged, opens what is before the damage, and moves the rest of
                                       the log into the table `aside`; a horizon that is above the floor then follows
                                       the floor until that reached it */
};

/* Options. A zeroed struct means the defaults. */
typedef struct {
    size_t size;                /* sizeof(hlc_file_options), or 0 for that of this version */
    uint32_t flags;             /* of HLC_FILE_MUST_EXIST and HLC_FILE_KEEP_BEFORE_DAMAGE */
    uint32_t nodes;             /* how many nodes a new file has at the start, 1 to 64; default 1 */
    uint32_t promise;           /* default HLC_FILE_SYNCED */
    uint32_t group_microseconds; /* how long HLC_FILE_GROUP waits for more batches; default 0: it takes those that came
                                    while the disk was busy. At most 1,000,000 */
    uint64_t checkpoint_bytes;  /* makes a checkpoint in the background after this many bytes of log, and not before the
                                   log has half as many bytes as the last one; default 64 MiB, UINT64_MAX: never */
} hlc_file_options;

/* How a file is. The caller sets the size, and a call writes the rest. */
typedef struct {
    size_t size;               /* sizeof(hlc_file_state), or 0 for that of this version */
    uint32_t failure;          /* the last answer from 200 on that was no mistake of the caller, or 0; also 208 where
                                  HLC_FILE_KEEP_BEFORE_DAMAGE left out the rest of a log */
    int32_t sqlite;            /* SQLite's extended result code of it, or 0 */
    uint64_t word;             /* its word, or 0 */
    uint32_t writes;           /* HLC_OK, HLC_FILE_UNKNOWN where the next write first finds out, or HLC_FILE_SEALED */
    uint32_t created;          /* of open: 1 where the file was made */
    uint64_t damaged;          /* of open: how many damaged checkpoints, the newest ones, it passed over */
    uint64_t applied;          /* of open: how many log records behind the checkpoint it applied */
    uint64_t aside;            /* of open: how many log rows it moved aside */
    uint64_t place;            /* the place of the last log row on disk, 0 before the first */
    uint64_t checkpoint_place; /* the place that the newest complete checkpoint has */
    uint64_t log_bytes;        /* bytes of records behind it */
    uint64_t clock;            /* no stamp above this one was accepted or returned */
    uint64_t waiting;          /* how many batches are on disk, but not accepted, after HLC_FILE_LATER */
    uint32_t background;       /* the answer of the last checkpoint in the background, or HLC_OK */
    uint32_t spare;
} hlc_file_state;

/* ---- The file ---- */

/* Makes or recovers a file. path: UTF-8 with a 0 at its end. It is locked before it is read, by `path-lock` beside it,
 * until it is closed or the process ends. options: may be NULL. file: the file, or NULL after a refusal. state: may be
 * NULL; else how the file is, also after a refusal: why, and SQLite's code. One of another size gets 204, and keeps its
 * bytes. A recovered store has no open snapshots. What is found is synced before it is shown, so that it stays.
 * Refusals: 200 to 209, 15. Costs a restore of the checkpoint, and the log behind it. Any thread. */
uint32_t hlc_file_open(const char *path, const hlc_file_options *options, hlc_file **file, hlc_file_state *state);

/* Waits for a checkpoint that is under way in the background, syncs the file, and frees it in any case. NULL is closed
 * with HLC_OK. Answers: HLC_OK; 205, 206, 210 or 211 where a batch of HLC_FILE_WRITTEN may not be synced; all others
 * kept their promise. The last call with a file: no other is under way, and none comes later. */
uint32_t hlc_file_close(hlc_file *file);

/* Writes how the file is. Answers: HLC_OK, 204. Any thread, beside any call. */
uint32_t hlc_file_status(hlc_file *file, hlc_file_state *state);

/* Writes the name of any answer, of hlcstore.h too, or a sentence in English, as hlc_error_name and _text do. Any
 * thread. */
void hlc_file_error_name(uint32_t answer, uint8_t *out, size_t out_len, size_t *len);
void hlc_file_error_text(uint32_t answer, uint8_t *out, size_t out_len, size_t *len);

/* ---- Batches ---- */

/* Makes an empty batch, which is used for any file. Refusal: 15. */
uint32_t hlc_file_batch_new(hlc_file_batch **batch);

/* Adds a write or a deletion. Refusals: 12, 13, 213, 15; the batch keeps what it had. */
uint32_t hlc_file_batch_put(hlc_file_batch *batch, const uint8_t *key, size_t key_len, const uint8_t *value,
                            size_t value_len);
uint32_t hlc_file_batch_delete(hlc_file_batch *batch, const uint8_t *key, size_t key_len);

/* How many writes and deletions the batch has. */
size_t hlc_file_batch_many(const hlc_file_batch *batch);

/* Takes all out, and keeps the memory for the next ones. */
void hlc_file_batch_clear(hlc_file_batch *batch);

/* Frees a batch. NULL is allowed. */
void hlc_file_batch_drop(hlc_file_batch *batch);

/* ---- Writes ----
 *
 * Refusals of each call in this section: 211, 15, and these of the disk: 205, 206, 207, 210, after which batches of
 * other threads that waited behind it are refused too, with the same answer. 212 says that the call did take place. */

/* Appends a batch as items of a node, in turn, each with a stamp of its own, and clears it after HLC_OK and 212. word:
 * the stamp of the last one, at which a snapshot has all of them, while one at an earlier stamp has a part of them;
 * after a refusal its word. promise: when it returns. A key may be there twice. An empty batch does nothing. Refusals:
 * 204, 1, 27, 14, 2, 3, and those of the section. Writes. */
uint32_t hlc_file_append(hlc_file *file, uint16_t node, uint64_t reading, hlc_file_batch *batch, uint32_t promise,
                         uint64_t *word);

/* Appends a batch as one item of a node, which gives all of its writes one stamp: a snapshot, at whatever stamp, shows
 * all of them or none, and so does a replica that gets the record. So it has 1 to 256 writes, each of another key. It
 * is cleared after HLC_OK and 212. word: the stamp, or the refusal's word. promise: when it returns. Refusals: 204, 28,
 * 29, 30, 1, 27, 14, 2, 3, and those of the section. Writes. */
uint32_t hlc_file_write_batch(hlc_file *file, uint16_t node, uint64_t reading, hlc_file_batch *batch, uint32_t promise,
                              uint64_t *word);

/* Appends one write, deletion or report of a node, or its last item, as the option `promise` says. word: its stamp or
 * the refusal's word. The floor is the stamp of the node that is furthest behind, so a node that has nothing to write
 * reports. Refusals: 1, 27, 14, 12, 13, 2, 3, and those of the section. Writes. */
uint32_t hlc_file_write(hlc_file *file, uint16_t node, uint64_t reading, const uint8_t *key, size_t key_len,
                        const uint8_t *value, size_t value_len, uint64_t *word);
uint32_t hlc_file_delete(hlc_file *file, uint16_t node, uint64_t reading, const uint8_t *key, size_t key_len,
                         uint64_t *word);
uint32_t hlc_file_report(hlc_file *file, uint16_t node, uint64_t reading, uint64_t *word);
uint32_t hlc_file_retire(hlc_file *file, uint16_t node, uint64_t reading, uint64_t *word);

/* Lets a node join at the floor. node: its number; start: its start. Refusals: 26, and those of the section. Writes. */
uint32_t hlc_file_join(hlc_file *file, uint16_t *node, uint64_t *start);

/* Appends records as bytes (docs/formats.md), as other machines made them: all, or none where one is refused. Records
 * that came before are passed over, and are not written again. A threshold becomes the horizon as soon as the floor
 * reached it; of several that wait for the floor, the greatest alone counts. many: how many records came before the
 * refused one, or how many there are; word: 0, or the refusal's word. Refusals: 204, 213, then of each record those of
 * hlc_store_apply_records, and those of the section. Writes. */
uint32_t hlc_file_append_records(hlc_file *file, const uint8_t *bytes, size_t bytes_len, uint32_t promise, size_t *many,
                                 uint64_t *word);

/* Sends a message from a node, or receives one with this stamp, or observes a snapshot at it: hlc_node_send and
 * hlc_node_receive. word: its stamp, above all that the file accepted or returned. The file keeps a stamp ahead of the
 * clock on disk, and writes only where the clock reaches that one: at most once a second where readings follow the
 * time. Refusals: 1, 27, 2, 3, and those of the section. Writes. */
uint32_t hlc_file_send(hlc_file *file, uint16_t node, uint64_t reading, uint64_t *word);
uint32_t hlc_file_receive(hlc_file *file, uint16_t node, uint64_t seen, uint64_t reading, uint64_t *word);

/* Saves a checkpoint, and cuts the log behind the older one of the two newest. place: the place of the last log row
 * that it has, or 0 after a refusal; where only the cut failed, hlc_file_status has it. Where one is under way, waits
 * for it and makes another. Writes go on meanwhile, except while the store is copied into memory. Refusals: those of
 * the section. Takes memory for the bytes. */
uint32_t hlc_file_checkpoint(hlc_file *file, uint64_t *place);

/* Copies the whole state into an output, as hlc_checkpoint_make does, with a tag of the caller's: hlc_output_read
 * returns the bytes, from which hlc_store_restore and hlc_restoring_feed open a store in memory. Writes wait while it
 * is copied, reads go on. It has all batches that were accepted. Refusals: 108, 15. Takes memory for the bytes. Any
 * thread. */
uint32_t hlc_file_copy(hlc_file *file, uint64_t tag, hlc_output *output, size_t *len);

/* Vacuums to a stamp, as hlc_store_vacuum_to does, in parts between which reads and writes go on. The stamp is on disk
 * first, as a retention threshold: no snapshot opens below it any more. word: the stamp, or the horizon where other
 * machines' thresholds raised it above the stamp meanwhile: then the parts that were left are vacuumed to that; or the
 * refusal's word. kept, bytes, dropped: sums over the parts. Refusals: 8, 9, and those of the section. After 15 and 212
 * the threshold stays on disk, if it was put there, and the next call goes on. Writes. */
uint32_t hlc_file_vacuum_to(hlc_file *file, uint64_t stamp, uint64_t *word, uint64_t *kept, uint64_t *bytes,
                            uint64_t *dropped);

/* Vacuums to the stamp that the system's clock had `milliseconds` ago, or to the floor where that is lower.
 * Where the horizon is higher, vacuums to the horizon. Refusals: 214 where the clock reads less, and as above. */
uint32_t hlc_file_vacuum_older(hlc_file *file, uint64_t milliseconds, uint64_t *word, uint64_t *kept, uint64_t *bytes,
                               uint64_t *dropped);

/* ---- Reads ---- All of them go on after a file is sealed. */

/* Lends the store to this thread for reading calls of hlcstore.h ("reads" in its table) until hlc_file_read_end, which
 * the same thread calls. mine: a copy of the handle, for this thread alone, which is of no use afterwards. No other
 * call with the file comes from this thread between the two: it could wait for itself. Keep the time short: writes
 * wait. Answer: HLC_OK. */
uint32_t hlc_file_read_begin(hlc_file *file, hlc_store *mine);
void hlc_file_read_end(hlc_file *file);

/* Opens a snapshot, which any thread may use until it is closed or the file is; and closes it. As hlc_snapshot_open,
 * hlc_snapshot_open_at_floor and hlc_snapshot_close. They are not kept in the file, and wait while a checkpoint copies
 * the store; other reads do not. While there is no memory for a batch after 212, opening one answers 15. */
uint32_t hlc_file_open_snapshot(hlc_file *file, uint64_t stamp, uint64_t *id);
uint32_t hlc_file_open_snapshot_at_floor(hlc_file *file, uint64_t *id, uint64_t *stamp);
uint32_t hlc_file_close_snapshot(hlc_file *file, uint64_t id, uint64_t *stamp);

/* The calls of hlcstore.h with these names, each under the lock for itself. Reads. */
uint32_t hlc_file_read(hlc_file *file, uint64_t id, const uint8_t *key, size_t key_len, uint8_t *out, size_t out_len,
                       size_t *len);
uint32_t hlc_file_scan(hlc_file *file, uint64_t id, const uint8_t *from, size_t from_len, const uint8_t *to,
                       size_t to_len, uint8_t *out, size_t out_len, size_t *len, size_t *many);
uint32_t hlc_file_scan_back(hlc_file *file, uint64_t id, const uint8_t *from, size_t from_len, const uint8_t *to,
                            size_t to_len, uint8_t *out, size_t out_len, size_t *len, size_t *many);
uint32_t hlc_file_count(hlc_file *file, uint64_t id, const uint8_t *from, size_t from_len, const uint8_t *to,
                        size_t to_len, uint64_t *many);
uint32_t hlc_file_floor(hlc_file *file, uint64_t *stamp);
uint32_t hlc_file_horizon(hlc_file *file, uint64_t *stamp);

#ifdef __cplusplus
}
#endif
#endif
