/* What the parts of libhlcstore-file share. Nothing here is exported.
 *
 * Locks, in the order in which a thread takes them: `checkpointing` or `vacuuming`; the turn; `mutex`; `changing`; the
 * read-write lock `lend`. The turn orders those that use SQLite, and `changing` those that change the store, both first
 * come first served. `mutex` guards the queue and the links. A thread that changes the store has `changing` and the
 * writing side of `lend`; one that copies the store into a checkpoint has `changing` and the reading side, so that no
 * writer waits in `lend`, where it would hold back readers. */
#ifndef HLC_FILE_H
#define HLC_FILE_H
#define _GNU_SOURCE
#include "hlcstore_file.h"
#include "hlcstore_inline.h"
#include <pthread.h>
#include <sqlite3.h>
#include <sys/types.h>

enum {
    MOST_NODES = 1024,
    ITEM_HEAD = 20, /* bytes of an item before the body of a write */
    KIND_AT = 19,   /* where an item has its kind */
    JOIN_LEN = 11,
    THRESHOLD_LEN = 9,
    CLOCK_AHEAD = 1000, /* milliseconds that the clock on disk is ahead of stamps that are not */
    PIECE = 1 << 19,    /* bytes of a piece of a checkpoint */
    WAL_PAGES = 4000,   /* the write-ahead log is moved into the file where it is longer */
    WAL_PAGE = 4120,    /* bytes of a page there, with its head */
    PAGES_AHEAD = 64,   /* the log is lengthened where it has room for fewer pages */
    LENGTHENING = 248 << 12 /* by this many bytes */
};

#define PHYSICAL(milliseconds) ((uint64_t)(milliseconds) << 16)

/* ---- record.c: records as bytes, and the links that accept them ---- */

enum record_kind { RECORD_WRITE, RECORD_REPORT, RECORD_RETIRE, RECORD_BATCH, RECORD_JOIN, RECORD_THRESHOLD };

/* A record. A threshold has no node, and only an item has a number; the stamp of a join is its start. Only a batch has
 * writes, whose bytes are among those that were read. */
struct record {
    enum record_kind kind;
    uint16_t node;
    uint64_t number;
    uint64_t stamp;
    size_t len;
    size_t count;
    hlc_bytes writes;
};

struct link {
    uint64_t next;
    uint64_t head;
    bool retired;
};

/* The links as they are once all that is under way has been accepted. */
struct links {
    struct link at[MOST_NODES];
    uint32_t many;
};

uint32_t record_read(const uint8_t *bytes, size_t len, struct record *record, uint64_t *fault);
void record_stamp(uint8_t *item, uint16_t node, uint64_t number, uint64_t stamp);
void record_put_batch(uint8_t *item, size_t count);
uint64_t links_floor(const struct links *links);
uint32_t links_take(struct links *links, const struct record *record, bool *came_before, uint64_t *word);
uint64_t clock_ahead(uint64_t stamp);
void links_copy(struct links *to, const struct links *from);
void links_of_store(struct links *links, hlc_store *mine);

/* ---- db.c: SQLite and the tables ---- */

enum statement {
    BEGIN, COMMIT, ROLLBACK, STATE_GET, STATE_SET, LOG_ADD, LOG_FROM, LOG_CUT, LOG_ASIDE, LOG_DROP,
    PIECE_ADD, PIECE_CUT, PIECES, CHECKPOINTS, CHECKPOINT_ADD, CHECKPOINT_CUT, CHECKPOINT_DAMAGED, STATEMENTS
};

/* How far the file is. A log row has the last four, as they are after it; the row of `state` is written now and then,
 * and whenever there is no log row to have them. */
struct state {
    uint64_t nodes;     /* how many the store had at its start */
    uint64_t place;     /* of the last log row */
    uint64_t sum;       /* of that row */
    uint64_t clock;     /* no stamp above it leaves the file before a higher one is on disk */
    uint64_t horizon;   /* the greatest threshold that the floor reached */
    uint64_t threshold; /* the greatest threshold in the log */
    uint64_t writes;    /* rises by each write of the row, so that its page is written */
};

/* Whether the file takes writes. */
enum doubt { NO_DOUBT, TAIL_IN_DOUBT, SEALED };

struct db {
    sqlite3 *sqlite;
    sqlite3_stmt *statements[STATEMENTS];
    pid_t process;      /* whose file it is: the child of a fork has a copy of all this */
    struct state state; /* as it is on disk */
    int code;           /* SQLite's extended code of the last failure */
    enum doubt doubt;
    int synced;         /* whether a COMMIT syncs now; -1: not known */
    int wal_pages;
    int wal_room;       /* how many pages that log has room for; INT_MAX: it is not to be lengthened */
};

/* What a statement is given: numbers, and bytes if there are some. */
struct values {
    int many;
    uint64_t numbers[8];
    const uint8_t *bytes;
    size_t len;
};

uint32_t db_open(struct db *db, const char *path, bool may_create, uint32_t nodes, bool *created, uint64_t *word);
uint32_t db_check(struct db *db, const char *text);
uint32_t db_opened(struct db *db);
void db_close(struct db *db);
bool db_is_ours(const struct db *db);
uint32_t db_failure(struct db *db, int code);
sqlite3_stmt *db_ask(struct db *db, enum statement which, const struct values *values);
uint32_t db_do(struct db *db, enum statement which, const struct values *values);
uint32_t db_begin(struct db *db, bool sync);
uint32_t db_end(struct db *db, uint32_t answer);
uint32_t db_settle(struct db *db);
uint32_t db_end_with(struct db *db, struct state state, bool row);
uint32_t db_add_log(struct db *db, struct state *state, const uint8_t *bytes, size_t len);
uint32_t db_move(struct db *db, int mode);
uint32_t db_shorten(struct db *db);
void db_lengthen(struct db *db);
uint64_t sum_bytes(uint64_t before, uint64_t number, const uint8_t *bytes, size_t len);
uint64_t sum_row(uint64_t before, const struct state *state, const uint8_t *records, size_t len);
uint64_t sum_numbers(const uint64_t *numbers, int many);

/* ---- The file ---- */

/* The records of a batch under way. */
struct entry {
    struct entry *next; /* among those behind */
    uint64_t stamp;     /* the greatest in it */
    uint64_t ahead;     /* a clock that is on disk before the caller returns, or 0 */
    uint64_t threshold; /* the greatest in it and before it */
    uint64_t horizon;   /* the horizon once it is accepted */
    uint64_t place;     /* of its log row, and the sum there; or of the row before, where it has no records */
    uint64_t sum;
    size_t len;
    size_t used; /* how many bytes the store accepted */
    uint8_t bytes[];
};

/* A caller that waits until its entry is written and accepted. It lies on the stack of its thread. */
struct call {
    struct call *next;
    struct entry *entry; /* NULL where it stays behind */
    uint32_t promise;
    uint32_t answer;
    bool done;
};

struct turns {
    pthread_mutex_t mutex;
    pthread_cond_t changed;
    uint64_t next;
    uint64_t serving;
};

/* A complete checkpoint; its id is 0 where there is none. */
struct saved {
    uint64_t id;
    uint64_t place;
};

struct hlc_file {
    struct db db; /* under the turn */
    int lock;
    hlc_file_options options;
    struct turns turns;
    pthread_mutex_t checkpointing;
    pthread_mutex_t vacuuming;

    pthread_mutex_t mutex; /* guards these: */
    pthread_cond_t changed;
    pthread_cond_t wake;
    struct call *queue;
    bool leading;
    bool closing;
    struct links links;
    struct links undo;
    uint64_t clock;
    uint64_t ceiling; /* the clock on disk */
    uint64_t threshold;
    uint64_t horizon;
    hlc_file_state report;
    uint64_t logged; /* bytes of records that were written since the opening, and those behind the checkpoint then */
    uint64_t checkpoint_logged; /* how much of it the newest checkpoint has */
    uint64_t due;    /* the next checkpoint in the background comes when `logged` is this */

    struct turns changing;
    pthread_rwlock_t lend; /* guards these: */
    hlc_store store;
    struct entry *behind; /* on disk, but not accepted yet */
    struct entry **behind_end;
    uint64_t waiting; /* how many these are */
    uint64_t applied; /* the place up to which the store has the log */
    uint64_t applied_sum;
    uint64_t accepted; /* how much of `logged` this is */

    struct saved newest; /* under `checkpointing`: the newest one that is good, and the greatest id */
    uint64_t newest_id;
    pthread_t background;
    bool has_background;
};

/* append.c */
struct entry *entry_new(size_t len);
uint32_t entry_append(hlc_file *file, struct entry **entry, uint32_t promise);
uint32_t entry_check(hlc_file *file, struct entry *entry, const uint8_t *bytes, size_t len, size_t *many,
                     uint64_t *word);
void turn_take(struct turns *turns);
void turn_give(struct turns *turns);
uint32_t note(hlc_file *file, uint32_t answer, uint64_t word);

/* accept.c */
void change_begin(hlc_file *file);
void change_end(hlc_file *file);
uint32_t accept_behind(hlc_file *file);
void accept_group(hlc_file *file, struct call *group);
uint32_t raise_horizon(hlc_file *file, uint64_t stamp);
void drop_behind(hlc_file *file);

/* write.c */
uint64_t system_reading(void);
uint32_t append_threshold(hlc_file *file, uint64_t stamp);

/* recover.c, checkpoint.c, batch.c */
uint32_t recover(hlc_file *file, uint64_t *word);
void finish_checkpoint(hlc_file *file, uint64_t place, uint64_t logged, uint64_t len);
uint32_t checkpoint_make(hlc_file *file, uint64_t *place);
bool thread_start(pthread_t *thread, void *(*run)(void *), void *argument);
uint32_t background_start(hlc_file *file);
void background_stop(hlc_file *file);
struct entry **batch_entry(hlc_file_batch *batch);
uint32_t batch_as_item(const hlc_file_batch *batch, struct entry **entry);
#endif
