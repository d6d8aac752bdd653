/* hlcstore for C: a multi-version store that several nodes feed, and the nodes' clocks.
 *
 * Install it:     make -C bindings install PREFIX=/usr/local
 * Link with it:   cc main.c $(pkg-config --cflags --libs hlcstore)
 *
 * hlcstore.h declares what the library exports. hlcstore_inline.h, which includes it, has what is made of that: results
 * as structs, readers of what the calls write, reads of a const store, and hlc_strerror.
 *
 * A stamp is one word, l * 65536 + c, with a physical part l below 2^48 and a counter c below 2^16.
 *
 * Answers. A call returns HLC_OK, the number of the first expected refusal, or HLC_CLOSED for a closed store. Every
 * call is total: it checks lengths and numbers itself, and is proved to answer as described here, whatever is passed to
 * it by the rules below. That holds of a store from bytes too, whoever wrote them: it begins with the state that they
 * are of, whose rows are the writes of before. After any answer but HLC_OK the store, and the node, is unchanged;
 * hlc_store_accept_all, hlc_store_accept_items, hlc_store_apply_records and hlc_node_restore describe exceptions. Every
 * answer writes to every pointer, with 0 where there is nothing to return. A buffer that an answer does not fill keeps
 * its bytes.
 *
 * Ownership. A store owns its memory until hlc_store_close, an output until hlc_output_drop, and a restore or a saving
 * until it ends; a program that forgets one leaks its memory. A node is a plain value without memory: it may be copied,
 * and two copies are independent. Keys, values and buffers stay the caller's and are not used after the call. The bytes
 * that hlc_snapshot_view finds stay the store's.
 *
 * What the caller must ensure, and nothing checks:
 *   - a store is HLC_CLOSED_STORE at first, a restore HLC_NO_RESTORING, a saving HLC_NO_SAVING, an output
 *     HLC_NO_OUTPUT, and only these functions change them. Between calls each of them may be moved: assigned to another
 *     place, if only that one is used from then on. No other copy of a restore, a saving or an output is used;
 *   - one call at a time with a store: where several threads call, a lock orders their calls. Calls with different
 *     stores and nodes may run concurrently. No call comes from a signal handler, or from the child of a fork of a
 *     process with threads;
 *   - calls that only read a store (those that may run beside "reads" in the table) may run concurrently, as under the
 *     reading side of a read-write lock, if each gets a copy of the store of its own:
 *         hlc_store mine = *store;
 *         answer = hlc_snapshot_read(&mine, ...);
 *     A copy is made, and is used, only while no call is made with the store itself, not even one that reads: such a
 *     call changes the store's fields until it returns. A copy is of no use any more after the next call with the store
 *     that may not run beside "reads", even if that was refused. A copy is passed to no other calls, and is not closed;
 *   - a pointer is not NULL, unless its length is 0: (NULL, 0) represents no bytes, and no entries. It is aligned, and
 *     what it points to is live. What a call writes does not overlap what another argument points to: no variable takes
 *     two results, and `after` and `out` of hlc_store_vacuum_part are two buffers. A bool is false or true before the
 *     call, also where the call only writes it: a node's and a link's `retired`, an entry's `deletes`, and `more`;
 *     malloc, realloc and free belong together, align to 16, and may be called by several threads at once.
 *
 * Costs. Where a call says "no memory" it makes no allocation, and cannot return HLC_NO_MEMORY. docs/performance.md has
 * measurements.
 *
 * All calls. Each call on a store also returns HLC_CLOSED, before every other refusal, except hlc_store_open,
 * hlc_store_restore, hlc_restoring_finish and hlc_store_close; hlc_store_accept_batch returns it after 29 and 106.
 * The last column says what may run beside a call: calls with other stores; these and reads of the same store, with
 * copies; calls with other nodes; or all.
 *
 *   call                                        refusals, in this order               memory  beside
 *   hlc_store_open                              101 114 15                            yes     other stores
 *   hlc_store_close                                                                           other stores
 *   hlc_store_accept_write, _delete             1 27 6 14 7 12 13 15                  yes     other stores
 *   hlc_store_accept_report, _retire            1 27 6 14 7                                   other stores
 *   hlc_store_accept_batch                      29 106 1 27 6 14 7 28 30 15           yes     other stores
 *   hlc_store_accept_all                        103, those of hlc_store_accept_write  yes     other stores
 *   hlc_store_check_write, _delete, _report     those of hlc_store_accept but 15              reads
 *   hlc_store_join                              26 15                                 yes     other stores
 *   hlc_store_join_at                           26 116 15                             yes     other stores
 *   hlc_snapshot_open                           8 9 11 14 15                          yes     other stores
 *   hlc_snapshot_open_at_floor                  11 14 15                              yes     other stores
 *   hlc_snapshot_close, hlc_snapshot_close_all  10; none                                      other stores
 *   hlc_snapshot_read, hlc_snapshot_view        10 102                                        reads
 *   hlc_snapshot_read_all                       10 103 104                                    reads
 *   hlc_snapshot_list                           10                                            reads
 *   hlc_snapshot_scan                           10 104                                        reads
 *   hlc_snapshot_scan_keys                      10 104                                        reads
 *   hlc_snapshot_scan_back                      10 104                                        reads
 *   hlc_snapshot_changes                        10 104                                        reads
 *   hlc_snapshot_count, hlc_snapshot_digest     10                                            reads
 *   hlc_store_floor, _rows, _size, _horizon     none                                          reads
 *   hlc_store_nodes                             none                                          reads
 *   hlc_store_versions                          none                                          reads
 *   hlc_store_link                              1                                             reads
 *   hlc_store_floor_node                        115                                           reads
 *   hlc_snapshot_at_place                       117                                           reads
 *   hlc_store_vacuum                            15                                    yes     other stores
 *   hlc_store_vacuum_to                         8 9 15                                yes     other stores
 *   hlc_store_vacuum_part                       8 9 15                                yes     other stores
 *   hlc_store_check_vacuum                      8 9                                           reads
 *   hlc_certificate_make                        108 8 9 109 15                        yes     reads, with other outputs
 *   hlc_item_encode_write, _delete              12 13                                         all
 *   hlc_item_encode_batch                       29 106 28 30                                  all
 *   hlc_item_encode_report, _retire             none                                          all
 *   hlc_store_accept_items                      106 1 27 6 14 7 30 15                 yes     other stores
 *   hlc_record_encode_join, _threshold          none                                          all
 *   hlc_store_apply_records                     106 1 27 6 26 116 14 7 30 15            yes     other stores
 *   hlc_checkpoint_make                         108 15                                yes     reads, with other outputs
 *   hlc_saving_start                            119 15                                yes     reads, with other savings
 *   hlc_saving_read                             118 112 15                            yes     reads, with other savings
 *   hlc_saving_drop                                                                           other savings
 *   hlc_increment_make                          108 9 15                              yes     reads, with other outputs
 *   hlc_increment_apply                         108 106 110 107 111 8 110 15          yes     all, with other outputs
 *   hlc_checkpoint_split                        108 106 107 15                        yes     all, with other outputs
 *   hlc_checkpoint_merge                        108 106 113 107 15                    yes     all, with other outputs
 *   hlc_store_restore                           101 106 107 15                        yes     other stores
 *   hlc_restoring_start                         119 15                                yes     other restores
 *   hlc_restoring_feed                          118 15                                yes     other restores
 *   hlc_restoring_finish                        118 101 106 107 15                    yes     other stores and restores
 *   hlc_restoring_drop                                                                        other restores
 *   hlc_output_read                             104                                           other outputs
 *   hlc_output_drop                                                                           other outputs
 *   hlc_node_open, _raise                                                                     other nodes
 *   hlc_node_restore                            105                                           other nodes
 *   hlc_node_write, _delete                     27 12 13 14 2 3                               other nodes
 *   hlc_node_write_batch                        29 106 27 28 30 14 2 3                        other nodes
 *   hlc_node_report, _retire                    27 14 2 3                                     other nodes
 *   hlc_node_send, _receive                     27 2 3                                        other nodes
 *   hlc_certificate_check                       16 15 22                              yes     all
 *   hlc_version, hlc_error_name, _text                                                        all
 */
#ifndef HLCSTORE_H
#define HLCSTORE_H
#include <stdbool.h>
#include <stddef.h>
#include <stdint.h>
#ifdef __cplusplus
extern "C" {
#endif

/* A store. Its fields are the library's. */
typedef struct {
    void *at;
    bool live;
} hlc_store;

#define HLC_CLOSED_STORE { 0, false }

/* The bytes that a call made, a certificate, a checkpoint or an increment, so that they are made once, however many
 * they are. Its fields are the library's. */
typedef struct {
    void *at;
    bool live;
} hlc_output;

#define HLC_NO_OUTPUT { 0, false }

/* A node: its number, the stamp of its last event, the number of its next item, and whether it retired. A program may
 * read the fields, but only the calls may change them. A node that is saved to disk and loaded again continues where it
 * was. */
typedef struct {
    uint16_t id;
    uint64_t last;
    uint64_t next;
    bool retired;
} hlc_node;

/* The refusals' numbers are those of docs/refusals.md, and each means one thing. With each comes the word that is named
 * here, otherwise 0. */
typedef enum hlc_answer {
    HLC_OK = 0,
    HLC_NO_NODE = 1,            /* no node has this number */
    HLC_READING_TOO_LARGE = 2,  /* the reading is 2^48 or more */
    HLC_COUNTER_FULL = 3,       /* word: the greatest earlier stamp, whose counter is 65,535 */
    HLC_NOT_NEXT = 6,           /* word: the number that is next on the node's link; of a join of
                                   hlc_store_apply_records, the number that the next node is assigned */
    HLC_STAMP_NOT_RISING = 7,   /* word: the stamp of the node's last accepted item */
    HLC_ABOVE_FLOOR = 8,        /* word: the floor; of hlc_increment_apply: that of the older checkpoint */
    HLC_BELOW_HORIZON = 9,      /* word: the horizon */
    HLC_NO_SNAPSHOT = 10,       /* no open snapshot has this id */
    HLC_TOO_MANY_SNAPSHOTS = 11, /* 1,024 are open */
    HLC_BAD_KEY = 12,           /* the key has no bytes, or more than 255 */
    HLC_VALUE_TOO_LONG = 13,    /* the value has more than 65,535 bytes */
    HLC_NUMBERS_SPENT = 14,     /* no link number, or id of a snapshot, is left */
    HLC_NO_MEMORY = 15,         /* out of memory, and no other refusal is expected; of hlc_store_restore,
                                   hlc_restoring_finish, hlc_increment_apply, hlc_checkpoint_split and
                                   hlc_checkpoint_merge it may come in place of another refusal, but of a restore not of
                                   bytes that are damaged, cut or no frame at all; of hlc_certificate_make in place of
                                   109 */
    HLC_BAD_LINE = 16,          /* of hlc_certificate_check; word: the number of the first bad line */
    HLC_NOT_SHOWN = 22,         /* of hlc_certificate_check; word: the number of the first reason of docs/formats.md, 1
                                   to 8 */
    HLC_TOO_MANY_NODES = 26,    /* 1,024 node numbers are assigned */
    HLC_RETIRED = 27,           /* the node retired */
    HLC_NO_WRITES = 28,         /* the batch has no writes */
    HLC_TOO_MANY_WRITES = 29,   /* the batch has more than 256 writes */
    HLC_KEY_TWICE = 30,         /* two writes of the batch are of one key */
    HLC_CLOSED = 100,           /* the store is closed, or another thread makes a call with it, against the rules */
    HLC_IS_OPEN = 101,          /* of hlc_store_open, hlc_store_restore, hlc_restoring_finish: the store is open, and is
                                   unchanged */
    HLC_NO_VALUE = 102,         /* of hlc_snapshot_read, _view: the key has no value in the snapshot */
    HLC_OUTSIDE = 103,          /* of hlc_store_accept_all, hlc_snapshot_read_all: a key or a value lies outside the
                                   bytes */
    HLC_MORE = 104,             /* of hlc_snapshot_scan, _scan_keys, _scan_back, hlc_snapshot_changes,
                                   hlc_snapshot_read_all, hlc_output_read, hlc_saving_read: a part is left, which did
                                   not fit */
    HLC_NO_SUCH_NODE = 105,     /* of hlc_node_restore: no node has issued that many items up to this stamp */
    HLC_BAD_BYTES = 106,        /* of hlc_store_restore, hlc_store_accept_items, hlc_store_apply_records, and of the
                                   older checkpoint of hlc_increment_apply; of hlc_checkpoint_split and
                                   hlc_checkpoint_merge; of the calls for a batch; word: the number of the first fault,
                                   1 to 7 */
    HLC_NO_CHECKPOINT = 107,    /* of hlc_store_restore, hlc_checkpoint_split and hlc_checkpoint_merge, and of both
                                   parts of hlc_increment_apply; word: the number of the first reason of
                                   docs/formats.md, 1 to 9: 8 where a row is above the head of its node, of no node, or
                                   at 0.0 */
    HLC_HAS_BYTES = 108,        /* the output has bytes, and keeps them; nothing took place */
    HLC_NOT_FEWEST = 109,       /* of hlc_certificate_make: a vacuum to the stamp would drop a row */
    HLC_NO_INCREMENT = 110,     /* of hlc_increment_apply; word: the number of the first fault of the increment's bytes,
                                   1 to 7; or 0, where its stamp does not fit its rows and its horizon */
    HLC_NOT_LATER = 111,        /* of hlc_increment_apply: the increment is of an earlier state than the older
                                   checkpoint, or of another store */
    HLC_CHANGED = 112,          /* of hlc_saving_read: the store changed since the saving began */
    HLC_NOT_PARTS = 113,        /* of hlc_checkpoint_merge; word: the first that differs: 1 the nodes at the start, or
                                   the links; 2 the open snapshots, or the last ids that were given; 3 the horizons; or
                                   4: the keys of the left checkpoint are not all below those of the right one */
    HLC_BAD_NODE_COUNT = 114,   /* of hlc_store_open: the number of nodes is not 1 to 64 */
    HLC_ALL_RETIRED = 115,      /* of hlc_store_floor_node: no node holds the floor back */
    HLC_BELOW_FLOOR = 116,      /* of hlc_store_join_at, and of a join of hlc_store_apply_records: the start is below
                                   the floor; word: the floor */
    HLC_AFTER_LAST = 117,       /* of hlc_snapshot_at_place: no open snapshot is at this place */
    HLC_NOT_UNDER_WAY = 118,    /* of hlc_restoring_feed, _finish: no restore is under way; of hlc_saving_read: no
                                   saving is under way */
    HLC_IS_UNDER_WAY = 119      /* of hlc_restoring_start: a restore is under way, and goes on; of hlc_saving_start: a
                                   saving is under way, and goes on */
} hlc_answer;

/* The library returns 32 bits. */
typedef char hlc_answer_has_32_bits[sizeof(hlc_answer) == sizeof(uint32_t) ? 1 : -1];

/* After a declaration: its answer must be used, and the arguments at these places, from 1 on, are not NULL. Compilers
 * other than GCC and Clang check neither. hlc_answer_ignore of hlcstore_inline.h leaves an answer out of account. */
#if defined __GNUC__
#define HLC_CHECKED(...) __attribute__((warn_unused_result, nonnull(__VA_ARGS__)))
#define HLC_NONNULL(...) __attribute__((nonnull(__VA_ARGS__)))
#else
#define HLC_CHECKED(...)
#define HLC_NONNULL(...)
#endif

/* ---- Stamps and limits ---- */

/* The stamp of a physical part below 2^48 and a counter below 2^16, which is not checked; and the parts of a stamp. */
#define HLC_STAMP(physical, counter) ((uint64_t)(physical) << 16 | (uint64_t)(counter))
#define HLC_PHYSICAL(stamp) ((uint64_t)(stamp) >> 16)
#define HLC_COUNTER(stamp) ((uint16_t)((uint64_t)(stamp) & 65535))

/* The greatest of each. A key has at least one byte. */
#define HLC_MAX_KEY 255                               /* bytes of a key */
#define HLC_MAX_VALUE 65535                           /* bytes of a value */
#define HLC_MAX_BATCH 256                             /* writes of a batch; there is at least one */
#define HLC_MAX_INITIAL_NODES 64                      /* nodes of hlc_store_open; there is at least one */
#define HLC_MAX_NODES 1024                            /* node numbers of a store, with those that joined */
#define HLC_MAX_OPEN_SNAPSHOTS 1024                   /* snapshots that are open at once */
#define HLC_MAX_PHYSICAL UINT64_C(281474976710655)    /* the physical part of a stamp, and a reading */
#define HLC_MAX_COUNTER 65535                         /* the counter of a stamp */
#define HLC_MAX_STAMP UINT64_C(18446744073709551615)  /* a stamp */
#define HLC_MAX_NUMBER UINT64_C(18446744073709551614) /* the number of an item, and the id of a snapshot */

/* How many bytes there are at most. A buffer of this size always holds one. */
#define HLC_MAX_PAIR 65806        /* a pair of hlc_snapshot_list, hlc_snapshot_scan and hlc_snapshot_scan_back */
#define HLC_MAX_LISTED_KEY 263    /* a key of hlc_snapshot_scan_keys */
#define HLC_MAX_CHANGE 65807      /* a change of hlc_snapshot_changes */
#define HLC_MAX_READ_ANSWER 65544 /* an answer of hlc_snapshot_read_all */
#define HLC_MAX_ROW 65554         /* a row of hlc_store_versions */
#define HLC_MAX_ITEM 65814        /* an item that is no batch, and each other record of a log */
#define HLC_MAX_BATCH_ITEM 16843285 /* an item that is a batch */
#define HLC_MAX_WRITE 65794       /* a write of a batch */
/* How many bytes there are. */
#define HLC_JOIN_LEN 11           /* a join of hlc_record_encode_join */
#define HLC_THRESHOLD_LEN 9       /* a threshold of hlc_record_encode_threshold */
#define HLC_DIGEST_LEN 32         /* a digest of hlc_snapshot_digest */
/* What a row costs beside the bytes of its key and its value, as a vacuum counts. */
#define HLC_ROW_COST 10

/* ---- The library ---- */

#define HLC_VERSION "0.2.0"
#define HLC_VERSION_NUMBER 200

/* Returns the version of the library: 10,000 times its first number, 100 times the second, and the third. It is
 * HLC_VERSION_NUMBER if the library is that of this header. PREFIX/share/hlcstore/verdict.txt, which is installed with
 * the library, has what the toolchain proved of it. */
uint32_t hlc_version(void);

/* Writes the name of an answer, as above, or what it says, in English. len: how many bytes that has, without a 0 after
 * them, also where it is greater than out_len: then out keeps its bytes. It is 0 for a number that is no answer. No
 * memory. */
void hlc_error_name(uint32_t answer, uint8_t *out, size_t out_len, size_t *len) HLC_NONNULL(4);
void hlc_error_text(uint32_t answer, uint8_t *out, size_t out_len, size_t *len) HLC_NONNULL(4);

/* ---- The store ---- */

/* Opens a closed store with `nodes` nodes, numbered from 0, in which nothing took place. Refusals, in this order: 101,
 * 114, 15. */
hlc_answer hlc_store_open(hlc_store *store, uint16_t nodes) HLC_CHECKED(1);

/* Closes a store and frees what it contains. A closed one stays closed. */
void hlc_store_close(hlc_store *store) HLC_NONNULL(1);

/* Accepts the item that a node issued under this number with this stamp. word: the stamp, or the refusal's word.
 * Refusals, in this order: 1, 27, 6, 14, 7, 12, 13, 15. An expected refusal is returned before memory is taken. Costs a
 * copy of the value, and of a key that has no rows yet, each with an allocation where it is longer than 30 bytes; a
 * block for a key's second, third and fifth row, and a larger one now and then from there on; and a look at one key's
 * newest rows. A report and a retirement take no memory. */
hlc_answer hlc_store_accept_write(hlc_store *store, uint16_t node, uint64_t number, uint64_t stamp, const uint8_t *key,
                                  size_t key_len, const uint8_t *value, size_t value_len, uint64_t *word)
    HLC_CHECKED(1, 9);
hlc_answer hlc_store_accept_delete(hlc_store *store, uint16_t node, uint64_t number, uint64_t stamp, const uint8_t *key,
                                   size_t key_len, uint64_t *word) HLC_CHECKED(1, 7);
hlc_answer hlc_store_accept_report(hlc_store *store, uint16_t node, uint64_t number, uint64_t stamp, uint64_t *word)
    HLC_CHECKED(1, 5);
hlc_answer hlc_store_accept_retire(hlc_store *store, uint16_t node, uint64_t number, uint64_t stamp, uint64_t *word)
    HLC_CHECKED(1, 5);

/* Accepts the batch that a node issued under this number with this stamp: all of its writes, or none. writes: `count`
 * writes, as for hlc_node_write_batch. Refusals, in this order: 29, 106, 1, 27, 6, 14, 7, 28, 30, 15. Costs what
 * hlc_store_accept_write costs for each write. */
hlc_answer hlc_store_accept_batch(hlc_store *store, uint16_t node, uint64_t number, uint64_t stamp, size_t count,
                                  const uint8_t *writes, size_t writes_len, uint64_t *word) HLC_CHECKED(1, 8);

/* A write, or a deletion, that a node issued. Its key and its value are this many bytes from these places on; the value
 * fields of a deletion are ignored. */
typedef struct {
    uint16_t node;
    bool deletes;
    uint64_t number;
    uint64_t stamp;
    size_t key_at;
    size_t key_len;
    size_t value_at;
    size_t value_len;
} hlc_entry;

/* Accepts entries in turn, as hlc_store_accept_write and hlc_store_accept_delete do, until one is refused. count: how
 * many were accepted, also at a refusal: they stay accepted. word: 0, or the refusal's word. One call for many items,
 * for callers for which a call is expensive. */
hlc_answer hlc_store_accept_all(hlc_store *store, const hlc_entry *entries, size_t entries_len, const uint8_t *bytes,
                                size_t bytes_len, size_t *count, uint64_t *word) HLC_CHECKED(1, 6, 7);

/* Returns what the hlc_store_accept call of the same name would return, except 15. word: 0, or the refusal's word. No
 * memory. hlc_store_check_report answers for hlc_store_accept_retire too. */
hlc_answer hlc_store_check_write(hlc_store *store, uint16_t node, uint64_t number, uint64_t stamp, const uint8_t *key,
                                 size_t key_len, const uint8_t *value, size_t value_len, uint64_t *word)
    HLC_CHECKED(1, 9);
hlc_answer hlc_store_check_delete(hlc_store *store, uint16_t node, uint64_t number, uint64_t stamp, const uint8_t *key,
                                  size_t key_len, uint64_t *word) HLC_CHECKED(1, 7);
hlc_answer hlc_store_check_report(hlc_store *store, uint16_t node, uint64_t number, uint64_t stamp, uint64_t *word)
    HLC_CHECKED(1, 5);

/* Lets a node join. node: its number; start: the stamp at which its clock starts, for hlc_node_open. Refusals: 26,
 * 15. */
hlc_answer hlc_store_join(hlc_store *store, uint16_t *node, uint64_t *start) HLC_CHECKED(1, 2, 3);

/* Lets a node join that starts at this stamp, at or above the floor. Stores that accept the same items agree on a join
 * if each gets the same start, whatever their floors are then. node: its number; word: the start, for hlc_node_open, or
 * the refusal's word, which is the floor with 116. Refusals, in this order: 26, 116, 15. */
hlc_answer hlc_store_join_at(hlc_store *store, uint64_t start, uint16_t *node, uint64_t *word) HLC_CHECKED(1, 3, 4);

/* Opens a snapshot at a stamp. id: its id, or the refusal's word. Refusals: 8, 9, 11, 14, 15. */
hlc_answer hlc_snapshot_open(hlc_store *store, uint64_t stamp, uint64_t *id) HLC_CHECKED(1, 3);

/* Opens a snapshot at the floor (closed timestamp). Refusals: 11, 14, 15. */
hlc_answer hlc_snapshot_open_at_floor(hlc_store *store, uint64_t *id, uint64_t *stamp) HLC_CHECKED(1, 2, 3);

/* Closes a snapshot. stamp: the stamp at which it was opened. Refusal: 10. No memory. */
hlc_answer hlc_snapshot_close(hlc_store *store, uint64_t id, uint64_t *stamp) HLC_CHECKED(1, 3);

/* Closes all open snapshots. Their ids are not used again. No memory. */
hlc_answer hlc_snapshot_close_all(hlc_store *store) HLC_CHECKED(1);

/* Reads a key in a snapshot. len: the length of the value, also where it is greater than out_len: then out keeps its
 * bytes, and a call with a larger buffer reads the value. Refusals: 10, 102. No memory. Looks the key up and searches
 * its rows. */
hlc_answer hlc_snapshot_read(hlc_store *store, uint64_t id, const uint8_t *key, size_t key_len, uint8_t *out,
                             size_t out_len, size_t *len) HLC_CHECKED(1, 7);

/* Reads a key as hlc_snapshot_read does, with the same answers, but without a copy. value: where the value lies in the
 * store's memory, or NULL with another answer than HLC_OK; len: how many bytes it has. They stay there, and stay the
 * same, until the next call with the store beside which reads may not run, even if that is refused; the close of the
 * snapshot is one. So where threads share the store, they are read under the lock of a reader. They are never written.
 * Refusals: 10, 102. No memory. Looks the key up and searches its rows. */
hlc_answer hlc_snapshot_view(hlc_store *store, uint64_t id, const uint8_t *key, size_t key_len, const uint8_t **value,
                             size_t *len) HLC_CHECKED(1, 5, 6);

/* The place of a key: this many bytes from `at` on. */
typedef struct {
    size_t at;
    size_t len;
} hlc_place;

/* Reads keys in a snapshot in turn, each at a place among the bytes. An answer is a byte 0 where the key has no
 * value, or 1, the value's length in eight bytes, the low one first, and the value. len: how many bytes were
 * written; count: how many keys were answered. Returns HLC_OK where these are all; or HLC_MORE where the next answer
 * does not fit, or HLC_OUTSIDE where the bytes do not contain the next key: a call with the places from there on
 * continues. Refusal: 10. No memory. For callers for which a call is expensive. */
hlc_answer hlc_snapshot_read_all(hlc_store *store, uint64_t id, const hlc_place *places, size_t places_len,
                                 const uint8_t *bytes, size_t bytes_len, uint8_t *out, size_t out_len, size_t *len,
                                 size_t *count) HLC_CHECKED(1, 9, 10);

/* Lists all keys with a value in a snapshot, in byte order: for each the key's length, the key, the value's length, and
 * the value. A length has eight bytes, the low one first. len: how many bytes that takes, as in hlc_snapshot_read, or
 * 2^64 - 1 where it would be greater. Refusal: 10. No memory. Goes through the keys once where out has room for 16
 * bytes a key and for all bytes of keys and values that hlc_store_size counts, otherwise twice. */
hlc_answer hlc_snapshot_list(hlc_store *store, uint64_t id, uint8_t *out, size_t out_len, size_t *len)
    HLC_CHECKED(1, 5);

/* Lists a part of what hlc_snapshot_list lists: the keys from `from` on and below `to`, or all keys from `from` on if
 * `to` has no bytes; of these, as many whole pairs as out has room for. len: how many bytes were written; count: how
 * many pairs. Returns HLC_OK where these are all pairs of the range, or HLC_MORE where a pair is left. The next call
 * goes on from the last key with a byte 0 after it. A pair has at most 65,806 bytes, so a buffer of that size always
 * gets one. Refusal: 10. No memory. Looks up the first key, and each key that is returned costs a look at its rows. */
hlc_answer hlc_snapshot_scan(hlc_store *store, uint64_t id, const uint8_t *from, size_t from_len, const uint8_t *to,
                             size_t to_len, uint8_t *out, size_t out_len, size_t *len, size_t *count)
    HLC_CHECKED(1, 9, 10);

/* Lists such a range as hlc_snapshot_scan does, but the keys alone: for each its length, and the key. So a key has at
 * most 263 bytes. Refusal: 10. No memory. */
hlc_answer hlc_snapshot_scan_keys(hlc_store *store, uint64_t id, const uint8_t *from, size_t from_len,
                                  const uint8_t *to, size_t to_len, uint8_t *out, size_t out_len, size_t *len,
                                  size_t *count) HLC_CHECKED(1, 9, 10);

/* Lists such a range as hlc_snapshot_scan does, but from its end: the pair of the last key comes first, and of the
 * pairs as many whole ones as out has room for. Returns HLC_OK where these are all pairs of the range, or HLC_MORE
 * where a pair is left. The next call has the last key that was returned as its `to`. So the last pair below a key is
 * the first of this call with the key as `to`, and a buffer of 65,806 bytes always gets one. Refusal: 10. No memory.
 * Looks up the end of the range, and each key that is returned costs a look at its rows. */
hlc_answer hlc_snapshot_scan_back(hlc_store *store, uint64_t id, const uint8_t *from, size_t from_len,
                                  const uint8_t *to, size_t to_len, uint8_t *out, size_t out_len, size_t *len,
                                  size_t *count) HLC_CHECKED(1, 9, 10);

/* Lists what leads from one snapshot to another: the keys of such a range whose answers in the two differ, in byte
 * order. For each the key's length, in eight bytes as in hlc_snapshot_list, the key, and its answer in the snapshot
 * `after`, in the form of hlc_snapshot_read_all: a byte 0 where the key has no value there, or 1, the value's length
 * and the value. As many whole ones as out has room for. len: how many bytes were written; count: how many keys.
 * Returns HLC_OK where these are all of the range, or HLC_MORE where one is left. The next call goes on from the last
 * key with a byte 0 after it. One has at most 65,807 bytes. Either snapshot may be the older one. Refusal: 10, where
 * one of them is not open. No memory. Looks up the first key, and looks at the rows of each key of the range up to the
 * last that is returned. */
hlc_answer hlc_snapshot_changes(hlc_store *store, uint64_t before, uint64_t after, const uint8_t *from, size_t from_len,
                                const uint8_t *to, size_t to_len, uint8_t *out, size_t out_len, size_t *len,
                                size_t *count) HLC_CHECKED(1, 10, 11);

/* Counts the keys of such a range that have a value in a snapshot. count: how many, or 2^64 - 1 where there are more.
 * Refusal: 10. No memory. */
hlc_answer hlc_snapshot_count(hlc_store *store, uint64_t id, const uint8_t *from, size_t from_len, const uint8_t *to,
                              size_t to_len, uint64_t *count) HLC_CHECKED(1, 7);

/* Digests such a range of a snapshot, so that replicas compare without listing. len: 32; out: the SHA-256 of the bytes
 * that hlc_snapshot_list would write for these keys, where it has room. Refusal: 10. No memory. */
hlc_answer hlc_snapshot_digest(hlc_store *store, uint64_t id, const uint8_t *from, size_t from_len, const uint8_t *to,
                               size_t to_len, uint8_t *out, size_t out_len, size_t *len) HLC_CHECKED(1, 9);

/* Returns the floor: every item that is accepted later has a greater stamp. It is the least head of the nodes that have
 * not retired, or the greatest head where all have. No memory. */
hlc_answer hlc_store_floor(hlc_store *store, uint64_t *stamp) HLC_CHECKED(1, 2);

/* Returns how many rows are stored, or 2^64 - 1 where there are more. No memory. In constant time. */
hlc_answer hlc_store_rows(hlc_store *store, uint64_t *rows) HLC_CHECKED(1, 2);

/* Returns how much is stored. rows: how many rows; keys: how many keys have rows; key_bytes: the bytes of these keys,
 * each counted once; value_bytes: the bytes of the values of all rows, where a deletion has none. A number is 2^64 - 1
 * where it would be greater. The store takes more memory than these bytes. No memory. In constant time. */
hlc_answer hlc_store_size(hlc_store *store, uint64_t *rows, uint64_t *keys, uint64_t *key_bytes, uint64_t *value_bytes)
    HLC_CHECKED(1, 2, 3, 4, 5);

/* Lists the stored rows of a key above the stamp `above` and at or below the stamp `to`, the newest first: by stamp,
 * and at one stamp by node. For each the stamp in eight bytes and the node in two, the low one first, and the answer
 * that it gives, in the form of hlc_snapshot_read_all, where a byte 0 is a deletion. len: how many bytes that takes, as
 * in hlc_snapshot_read; count: how many rows. The bytes are written where they all fit, otherwise out keeps its bytes.
 * A row has at most 65,554 bytes. Above the horizon these are all accepted writes of the key; at and below it, those
 * that vacuums kept. No item has the stamp 0, so that with it as `above` none is left out. No memory. Looks at all rows
 * of the key for each that it returns, so that it costs the square of their number. */
hlc_answer hlc_store_versions(hlc_store *store, const uint8_t *key, size_t key_len, uint64_t above, uint64_t to,
                              uint8_t *out, size_t out_len, size_t *len, size_t *count) HLC_CHECKED(1, 8, 9);

/* Drops all rows at or below the floor except the fewest, and the cheapest, that give the same answers as all accepted
 * writes at each open snapshot and at the floor. kept, dropped: numbers of rows at or below the floor; bytes: the cost
 * of those that were kept, which is for each the length of its key and of its value, and 10. The last two are 2^64 - 1
 * where they would be greater. Refusal: 15. Reads each key once at each point. Until it returns it takes memory for a
 * plan (docs/performance.md). */
hlc_answer hlc_store_vacuum(hlc_store *store, uint64_t *floor, uint64_t *kept, uint64_t *bytes, uint64_t *dropped)
    HLC_CHECKED(1, 2, 3, 4, 5);

/* Drops all rows at or below a stamp except the fewest, and the cheapest, that give the same answers as all accepted
 * writes at each snapshot that is open at or below the stamp, and at the stamp. All rows above it stay. No snapshot
 * opens below the stamp from then on: it is the horizon (GC threshold). word: the stamp, or the refusal's word; kept,
 * dropped, bytes: as in hlc_store_vacuum, for the rows at or below the stamp. Refusals, in this order: 8 above the
 * floor, 9 below the horizon, 15. Reads each key once at each point. */
hlc_answer hlc_store_vacuum_to(hlc_store *store, uint64_t stamp, uint64_t *word, uint64_t *kept, uint64_t *bytes,
                               uint64_t *dropped) HLC_CHECKED(1, 3, 4, 5, 6);

/* Makes a part of hlc_store_vacuum_to, so that one call does a bounded amount of work under the caller's lock: it
 * vacuums the first keys above `after`, which without bytes is below every key, at most `limit` of them. word: the
 * stamp, or the refusal's word; kept, bytes, dropped: as in hlc_store_vacuum_to, for the rows of these keys. more:
 * whether the part had `limit` keys, so that a key may be left above them: then the next part is called with the last
 * of them as `after`; else none is left. len: how many bytes that key has, or 0 where more is false; out: the key, as
 * in hlc_snapshot_read. A key of the store has at most 255 bytes. Where `limit` is 0, that key is `after`, however long
 * it is. The first part makes the stamp the horizon. Every other call is allowed between parts, and nothing is kept for
 * the next one. Each part leaves the fewest rows of its keys, and the cheapest, as hlc_store_vacuum_to does of all, at
 * the snapshots that are open then. Parts from no bytes on to the last, with no other call between them, make an
 * hlc_store_vacuum_to together, whose numbers are their sums. Refusals, in this order: 8, 9, 15. Looks `after` up, and
 * reads these keys once at each point. */
hlc_answer hlc_store_vacuum_part(hlc_store *store, uint64_t stamp, const uint8_t *after, size_t after_len, size_t limit,
                                 uint64_t *word, uint64_t *kept, uint64_t *bytes, uint64_t *dropped, uint8_t *out,
                                 size_t out_len, size_t *len, bool *more) HLC_CHECKED(1, 6, 7, 8, 9, 12, 13);

/* Returns what hlc_store_vacuum_to, and hlc_store_vacuum_part, would return for this stamp, except 15. word: 0, or the
 * refusal's word. No memory. */
hlc_answer hlc_store_check_vacuum(hlc_store *store, uint64_t stamp, uint64_t *word) HLC_CHECKED(1, 3);

/* Puts the certificate of the rows at or below a stamp into an output that has no bytes. It shows that no row set that
 * gives the same answers at each snapshot that is open at or below the stamp, and at the stamp, has fewer rows, or
 * costs fewer bytes. It is made of what the store has, and changes nothing: so it comes after a vacuum to this stamp,
 * or after the last part of one. hlc_certificate_check reads it, and so does `hlcstore check` if it has at most
 * 16,777,216 bytes. word: 0, or the refusal's word; kept, bytes: as in hlc_store_vacuum_to; len: how many bytes the
 * certificate has. Refusals, in this order: 108; 8 above the floor; 9 below the horizon; 109 where a vacuum to the
 * stamp would drop a row; 15, which may come in place of 109. Reads each key once at each point. */
hlc_answer hlc_certificate_make(hlc_store *store, uint64_t stamp, uint64_t *word, uint64_t *kept, uint64_t *bytes,
                                hlc_output *output, size_t *len) HLC_CHECKED(1, 3, 4, 5, 6, 7);

/* Checks the text of a certificate, whoever made it: no row set that gives the same answers at its points has fewer
 * rows, or costs fewer bytes. rows, bytes: how many rows, and what they cost. word: 0, or the refusal's word.
 * Refusals: 16, 15, 22. */
hlc_answer hlc_certificate_check(const uint8_t *text, size_t text_len, uint64_t *rows, uint64_t *bytes, uint64_t *word)
    HLC_CHECKED(3, 4, 5);

/* ---- Restart and replicas ---- */

/* Writes an item that a node issued as bytes, for a log. len: how many bytes it has, as in hlc_snapshot_read; an item
 * has at most 65,814 bytes, and a batch 16,843,285. docs/formats.md describes them. Refusals: 12, 13; of a batch, whose
 * writes are given as for hlc_node_write_batch, 29, 106, 28, 30. No memory. */
hlc_answer hlc_item_encode_write(uint16_t node, uint64_t number, uint64_t stamp, const uint8_t *key, size_t key_len,
                                 const uint8_t *value, size_t value_len, uint8_t *out, size_t out_len, size_t *len)
    HLC_CHECKED(10);
hlc_answer hlc_item_encode_delete(uint16_t node, uint64_t number, uint64_t stamp, const uint8_t *key, size_t key_len,
                                  uint8_t *out, size_t out_len, size_t *len) HLC_CHECKED(8);
hlc_answer hlc_item_encode_batch(uint16_t node, uint64_t number, uint64_t stamp, size_t count, const uint8_t *writes,
                                 size_t writes_len, uint8_t *out, size_t out_len, size_t *len) HLC_CHECKED(9);
hlc_answer hlc_item_encode_report(uint16_t node, uint64_t number, uint64_t stamp, uint8_t *out, size_t out_len,
                                  size_t *len) HLC_CHECKED(6);
hlc_answer hlc_item_encode_retire(uint16_t node, uint64_t number, uint64_t stamp, uint8_t *out, size_t out_len,
                                  size_t *len) HLC_CHECKED(6);

/* Accepts the items of a log, one after another as such bytes, until one is refused. Items whose numbers were
 * accepted before are passed over, whatever else they are, so that a log can be read again from any place. count: how
 * many items were accepted or passed over, also at a refusal; used: how many bytes these have: the next call goes on
 * from there. Bytes that end within an item are refused with 106 and word 1. word: 0, or the refusal's word. Refusals,
 * of each item in this order: 106, 1, 27, 6, 14, 7, 30, 15. Takes memory as hlc_store_accept_write does: for the rows
 * of writes, deletions and batches, and nothing beside. */
hlc_answer hlc_store_accept_items(hlc_store *store, const uint8_t *bytes, size_t bytes_len, size_t *used, size_t *count,
                                  uint64_t *word) HLC_CHECKED(1, 4, 5, 6);

/* Writes a record of a log that is no item, as bytes: the join of a node, with the number that it is assigned and its
 * start; or a retention threshold, a stamp below which no more snapshot is opened. An item's own bytes are a record
 * too. len: how many bytes it has, as in hlc_snapshot_read: 11, or 9. Refusals: none. No memory. */
hlc_answer hlc_record_encode_join(uint16_t node, uint64_t start, uint8_t *out, size_t out_len, size_t *len)
    HLC_CHECKED(5);
hlc_answer hlc_record_encode_threshold(uint64_t stamp, uint8_t *out, size_t out_len, size_t *len) HLC_CHECKED(4);

/* Applies the records of a log that replicas share, one after another, until one is not applied: items are accepted,
 * and nodes join at their starts. Records that came before are passed over, so that a log can be read again from any
 * place: an item as in hlc_store_accept_items, and a join of a node number that is assigned, whatever its start. A
 * threshold changes nothing: threshold is the greatest stamp of one among these records, or 0, and the caller may
 * vacuum to it. count, used and word are as in hlc_store_accept_items. Refusals, of each item those of
 * hlc_store_accept_items; of each join in this order: 6 where its node is not the next one, word: the number that is
 * next; 26, 116, 15. */
hlc_answer hlc_store_apply_records(hlc_store *store, const uint8_t *bytes, size_t bytes_len, size_t *used,
                                   size_t *count, uint64_t *threshold, uint64_t *word) HLC_CHECKED(1, 4, 5, 6, 7);

/* Saves the whole state of a store, with a tag of the caller's: for example the place in a log up to which the store
 * applied it. The bytes go into an output that has none; len: how many they are. docs/formats.md describes them; they
 * end with a digest. Refusals, in this order: 108, 15. Takes memory for the bytes, and for a list of the rows of one
 * key at a time. */
hlc_answer hlc_checkpoint_make(hlc_store *store, uint64_t tag, hlc_output *output, size_t *len) HLC_CHECKED(1, 3, 4);

/* A saving in pieces of any size, so that the bytes of a checkpoint need not be in memory at once. Its fields are the
 * library's. */
typedef struct {
    void *at;
    bool live;
} hlc_saving;

#define HLC_NO_SAVING { 0, false }

/* Begins to save the whole state of a store, with a tag of the caller's, as hlc_checkpoint_make does. len: how many
 * bytes it will be in all. Refusals, in this order: 119 where a saving is under way, 15. Looks at each row, to add up
 * its length, and takes memory for a list of 16 bytes for each 64 to 128 keys, which is freed at once. */
hlc_answer hlc_saving_start(hlc_saving *saving, hlc_store *store, uint64_t tag, uint64_t *len) HLC_CHECKED(1, 2, 4);

/* Writes the next bytes of a saving, as many as out has room for. len: how many were written. Returns HLC_OK where they
 * are the last: all pieces, one after another, are the bytes of hlc_checkpoint_make, and the saving has ended. Returns
 * HLC_MORE where bytes are left; then len is less than out_len only if memory ran out after some bytes. Refusals, in
 * this order: 118 where no saving is under way; 112 where the store changed since hlc_saving_start: where an item was
 * accepted, a node joined, a snapshot opened or closed, or a vacuum moved the horizon or dropped a row; 15, before any
 * byte. After 112 and 15 the saving is as it was: after 15 the call may be repeated, and after 112 hlc_saving_drop ends
 * the saving. Each call gets the store of hlc_saving_start: another one is refused with 112 only if its number
 * of nodes, accepted items, opened or open snapshots, or rows differs, or its horizon; else the bytes may be a
 * checkpoint with rows of both. Between two calls a saving has the rows of at most 32 keys as bytes, and a call takes
 * memory for as many. It looks at each node, and looks a key up for each 32 keys. */
hlc_answer hlc_saving_read(hlc_saving *saving, hlc_store *store, uint8_t *out, size_t out_len, size_t *len)
    HLC_CHECKED(1, 2, 5);

/* Ends a saving before all its bytes were read, and frees what it has. A saving that is not ended leaks its memory.
 * Where none is under way it does nothing. */
void hlc_saving_drop(hlc_saving *saving) HLC_NONNULL(1);

/* Saves an increment: the whole state of a store, but of its rows only those above a stamp, with a tag of the
 * caller's. As the stamp choose the floor that the store had at an older checkpoint: what was accepted since is above
 * it, and hlc_increment_apply makes a newer checkpoint of both. The bytes are no checkpoint: hlc_store_restore refuses
 * them. They go into an output that has none; len: how many they are. horizon: 0, or with 9 the horizon. Refusals, in
 * this order: 108; 9 where the stamp is below the horizon: then make a whole checkpoint; 15. Goes through all rows,
 * copies those above the stamp, and takes memory for twice that. */
hlc_answer hlc_increment_make(hlc_store *store, uint64_t since, uint64_t tag, hlc_output *output, size_t *len,
                              uint64_t *horizon) HLC_CHECKED(1, 4, 5, 6);

/* Makes, of the bytes of an older checkpoint and of an increment of the same store, those of the newer checkpoint, with
 * the increment's tag. hlc_store_restore opens a store from them. It answers as the newer one did, but also has the
 * rows that vacuums dropped since the older checkpoint; its next vacuum drops them. The newer checkpoint may be the
 * older one of the next increment. An increment of the same state is taken, also one that comes twice: it changes
 * nothing. The bytes go into an output that has none; len: how many they are. word: 0, or the refusal's word. Refusals,
 * in this order: 108; 106 where the older bytes are no encoding, word: the number of their first fault; 110 where the
 * increment is none, word: the number of the first fault of its bytes; 107 where one of both is no checkpoint, word:
 * the number of the first reason; 111 where the increment is of an earlier state than the older checkpoint, or of
 * another store: it has other nodes at the start, fewer nodes, a lower next number or head of a node, a node that
 * retired and is back, a lower horizon, a lower last id of a snapshot, or an open snapshot that the older checkpoint
 * has closed; 8 where its stamp is above the floor of the older checkpoint, word: that floor; 110 with the word 0 where
 * its stamp does not fit its rows and its horizon; 15. But 15 may come in place of all others but 108, when memory runs
 * out before the fault is found. Copies each row of both, and takes memory for a few times that. */
hlc_answer hlc_increment_apply(const uint8_t *older, size_t older_len, const uint8_t *increment, size_t increment_len,
                               hlc_output *output, size_t *len, uint64_t *word) HLC_CHECKED(5, 6, 7);

/* Divides the bytes of a checkpoint at a key, of any bytes or none: left gets those of a checkpoint with the rows of
 * lower keys, right those with the others, and both have the links, the open snapshots, the horizon and the tag of the
 * whole. A store that is restored from a part answers at its keys as the whole store does, at each stamp, and goes on
 * from the same log: it takes each write of another key as a report of the same number and stamp
 * (hlc_store_accept_report), and of a batch the writes of its own keys as a batch of the same number and stamp, or such
 * a report where it has none of them. Two different outputs, without bytes, get the bytes; left_len, right_len: how
 * many they are. word: 0, or the refusal's word. Refusals, in this order: 108 where one of both outputs has bytes; 106,
 * word: the number of the first fault; 107 where a part is no checkpoint, word: the number of the first reason: each
 * part is looked at by itself, so that bytes are taken whose rows are out of order across the key alone; 15. But 15 may
 * come in place of 106 and 107. Takes memory for a few times the bytes. */
hlc_answer hlc_checkpoint_split(const uint8_t *bytes, size_t bytes_len, const uint8_t *key, size_t key_len,
                                hlc_output *left, hlc_output *right, size_t *left_len, size_t *right_len,
                                uint64_t *word) HLC_CHECKED(5, 6, 7, 8, 9);

/* Joins the bytes of two checkpoints, of which the left one has the lower keys, into those of one with the rows of
 * both, and with the tag of the left one. Whatever each of both took, the result answers each key as the one that it is
 * of, at each stamp: a key below the first of the right one is of the left one. If both are parts of one store that
 * took the same log, opened and closed the same snapshots and were vacuumed to the same stamp, the result answers as
 * that store does; it is that store's byte by byte if they were vacuumed when the store was. The bytes go into an
 * output that has none; len: how many they are. word: 0, or the refusal's word. Refusals, in this order: 108; 106 for
 * the left bytes, and then for the right ones, word: the number of the first fault; 113, word: what does not fit, which
 * may be 4 where the rows of one of both are out of order; 107 where what both make is no checkpoint, word: the number
 * of the first reason; 15. But 15 may come in place of all others but 108. Takes memory for a few times the bytes. */
hlc_answer hlc_checkpoint_merge(const uint8_t *left, size_t left_len, const uint8_t *right, size_t right_len,
                                hlc_output *output, size_t *len, uint64_t *word) HLC_CHECKED(5, 6, 7);

/* Opens a closed store from the bytes of hlc_checkpoint_make, whoever wrote them. It continues as the saved store would
 * have: the same next items, open snapshots, horizon and answers. word: the tag that was saved, or the refusal's word.
 * Refusals, in this order: 101, 106, 107, 15; but 15 may come in place of 106 and 107, when memory runs out before the
 * fault is found. Bytes that hlc_checkpoint_make returned are refused with 101 and 15 alone. Takes memory for the store
 * alone. */
hlc_answer hlc_store_restore(hlc_store *store, const uint8_t *bytes, size_t bytes_len, uint64_t *word)
    HLC_CHECKED(1, 4);

/* A restore from pieces of any size, so that the bytes of a checkpoint need not be in memory at once. Its fields are
 * the library's. */
typedef struct {
    void *at;
    bool live;
} hlc_restoring;

#define HLC_NO_RESTORING { 0, false }

/* Starts a restore. Refusals: 119 where one is under way, 15. */
hlc_answer hlc_restoring_start(hlc_restoring *restoring) HLC_CHECKED(1);

/* Adds the next bytes. Refusals: 118 where no restore is under way; 15, and nothing was added. No fault of the bytes is
 * found before hlc_restoring_finish. */
hlc_answer hlc_restoring_feed(hlc_restoring *restoring, const uint8_t *bytes, size_t bytes_len) HLC_CHECKED(1);

/* Opens a closed store from all bytes that were added, as hlc_store_restore does, and ends the restore. word: as in
 * hlc_store_restore. Refusals, in this order: 118 where no restore is under way; 101 where the store is open, and the
 * restore goes on; 106, 107 and 15, as of hlc_store_restore, after which the restore has ended. */
hlc_answer hlc_restoring_finish(hlc_restoring *restoring, hlc_store *store, uint64_t *word) HLC_CHECKED(1, 2, 3);

/* Ends a restore without a store, and frees what it has. A restore that is not ended leaks its memory. Where none is
 * under way it does nothing. */
void hlc_restoring_drop(hlc_restoring *restoring) HLC_NONNULL(1);

/* ---- Outputs ---- No memory in any call. */

/* Reads the bytes of an output from a place on, where the first byte is at 0: as many as out has room for. len: how
 * many were written. Returns HLC_OK where they are the last, or HLC_MORE where bytes are left: the next call goes on at
 * `from` + len. An output without bytes has nothing to read. */
hlc_answer hlc_output_read(hlc_output *output, size_t from, uint8_t *out, size_t out_len, size_t *len)
    HLC_CHECKED(1, 5);

/* Frees the bytes of an output, which has none then and can be used again. Where it has none this does nothing. */
void hlc_output_drop(hlc_output *output) HLC_NONNULL(1);

/* ---- What a store has ---- No memory in any call. */

/* Returns the horizon (GC threshold): the stamp of the last vacuum, or part of one, or 0 before the first. In constant
 * time. */
hlc_answer hlc_store_horizon(hlc_store *store, uint64_t *stamp) HLC_CHECKED(1, 2);

/* Returns how many node numbers are assigned, those of retired nodes too. In constant time. */
hlc_answer hlc_store_nodes(hlc_store *store, uint64_t *count) HLC_CHECKED(1, 2);

/* Returns what was accepted from a node. next: the number of its next item; head: the stamp of its last accepted
 * item, or of its start; retired: whether its retirement was accepted. Refusal: 1. In constant time. */
hlc_answer hlc_store_link(hlc_store *store, uint16_t node, uint64_t *next, uint64_t *head, bool *retired)
    HLC_CHECKED(1, 3, 4, 5);

/* Returns the first node that holds the floor back: it has not retired, and its head is the floor. Refusal: 115, where
 * all nodes have retired. Looks at each node up to that one. */
hlc_answer hlc_store_floor_node(hlc_store *store, uint64_t *node) HLC_CHECKED(1, 2);

/* Returns the open snapshot at a place, from 0 on, by rising ids. Refusal: 117 after the last. In constant time. */
hlc_answer hlc_snapshot_at_place(hlc_store *store, uint64_t place, uint64_t *id, uint64_t *stamp) HLC_CHECKED(1, 3, 4);

/* ---- A node ---- No memory in any call. */

/* Returns a node of this number whose clock starts at a stamp: 0 for a node that is there when the store is opened,
 * otherwise the start that hlc_store_join or hlc_store_join_at returned. */
hlc_node hlc_node_open(uint16_t id, uint64_t start);

/* Writes a node as it was before a restart, from its number, the stamp of its last event and the number of its next
 * item. Returns HLC_OK; or HLC_NO_SUCH_NODE where next is above last, which no node reaches, and writes what
 * hlc_node_open(id, last) returns. A node that retired has no further event, so it is not restored. */
hlc_answer hlc_node_restore(uint16_t id, uint64_t last, uint64_t next, hlc_node *node) HLC_CHECKED(4);

/* Raises the node's clock to a stamp, without an event: the node's next stamps are above it. So the nodes of one
 * machine can share one clock. A stamp at or below the node's last one changes nothing. */
void hlc_node_raise(hlc_node *node, uint64_t stamp) HLC_NONNULL(1);

/* Issues an item at this reading of a physical clock. number, word: the number and the stamp of the item, with which
 * the store accepts the same key and value; or 0 and the refusal's word. Refusals, in this order: 27, 12, 13, 14, 2, 3.
 * After hlc_node_retire the node issues nothing. */
hlc_answer hlc_node_write(hlc_node *node, uint64_t reading, const uint8_t *key, size_t key_len, const uint8_t *value,
                          size_t value_len, uint64_t *number, uint64_t *word) HLC_CHECKED(1, 7, 8);
hlc_answer hlc_node_delete(hlc_node *node, uint64_t reading, const uint8_t *key, size_t key_len, uint64_t *number,
                           uint64_t *word) HLC_CHECKED(1, 5, 6);

/* Issues one item of several writes, 1 to 256 of different keys, at one stamp: a snapshot shows all of them or none.
 * writes: `count` writes, one after another: for each a byte of length and the key; and 0 for a deletion, or 1, two
 * bytes of length, the high one first, and the value. hlc_batch of hlcstore_inline.h makes them. Refusals, in this
 * order: 29, 106, 27, 28, 30, 14, 2, 3. */
hlc_answer hlc_node_write_batch(hlc_node *node, uint64_t reading, size_t count, const uint8_t *writes,
                                size_t writes_len, uint64_t *number, uint64_t *word) HLC_CHECKED(1, 6, 7);

/* A report says how far the node has come, so that the floor rises; a retirement is its last item. As hlc_node_write,
 * but without the refusals of a key and a value. */
hlc_answer hlc_node_report(hlc_node *node, uint64_t reading, uint64_t *number, uint64_t *word) HLC_CHECKED(1, 3, 4);
hlc_answer hlc_node_retire(hlc_node *node, uint64_t reading, uint64_t *number, uint64_t *word) HLC_CHECKED(1, 3, 4);

/* Sends a message. word: its stamp, which goes to the receiver; or the refusal's word. Refusals: 27, 2, 3. */
hlc_answer hlc_node_send(hlc_node *node, uint64_t reading, uint64_t *word) HLC_CHECKED(1, 3);

/* Receives a message with this stamp, or observes a snapshot at it. word: the event's stamp, above that stamp and above
 * the node's last one. Refusals: 27, 2, 3. */
hlc_answer hlc_node_receive(hlc_node *node, uint64_t seen, uint64_t reading, uint64_t *word) HLC_CHECKED(1, 4);

#ifdef __cplusplus
}
#endif
#endif
