/* SQLite: the tables, transactions, and what a failure of one means.
 *
 * A COMMIT that fails may leave all pages of its transaction in the write-ahead log, where a later opening would find
 * them. The next transaction is written over them. So after such a failure the row of `state` is written and synced: if
 * that succeeds, the failed transaction is not on disk, and else nothing is written until it does. After a failed sync
 * nobody knows which of the pages written before are on disk, so then the file takes no writes at all. */
#include "file.h"
#include <limits.h>
#include <string.h>
#include <unistd.h>
#include <zlib.h>

enum { APPLICATION = 0x686c6366, SCHEMA = 1, STATE_NUMBERS = 7 };

static const char *const TABLES =
    "BEGIN EXCLUSIVE;"
    "PRAGMA application_id = 0x686c6366;"
    "PRAGMA user_version = 1;"
    "CREATE TABLE state(one INTEGER PRIMARY KEY CHECK (one = 1), nodes INTEGER NOT NULL, place INTEGER NOT NULL,"
    " sum INTEGER NOT NULL, clock INTEGER NOT NULL, horizon INTEGER NOT NULL, threshold INTEGER NOT NULL,"
    " writes INTEGER NOT NULL, row_sum INTEGER NOT NULL) STRICT;"
    "CREATE TABLE log(place INTEGER PRIMARY KEY, sum INTEGER NOT NULL, clock INTEGER NOT NULL,"
    " horizon INTEGER NOT NULL, threshold INTEGER NOT NULL, records BLOB NOT NULL) STRICT;"
    "CREATE TABLE checkpoint(id INTEGER PRIMARY KEY, place INTEGER NOT NULL, sum INTEGER NOT NULL,"
    " pieces INTEGER NOT NULL, bytes INTEGER NOT NULL, last_sum INTEGER NOT NULL, row_sum INTEGER NOT NULL,"
    " damaged INTEGER NOT NULL DEFAULT 0) STRICT;"
    "CREATE TABLE piece(checkpoint INTEGER NOT NULL, number INTEGER NOT NULL, sum INTEGER NOT NULL,"
    " bytes BLOB NOT NULL, PRIMARY KEY (checkpoint, number)) STRICT;"
    "CREATE TABLE aside(id INTEGER PRIMARY KEY, place INTEGER NOT NULL, sum INTEGER NOT NULL, records BLOB NOT NULL,"
    " moved TEXT NOT NULL DEFAULT CURRENT_TIMESTAMP) STRICT;";

static const char *const STATEMENT_TEXTS[STATEMENTS] = {
    [BEGIN] = "BEGIN IMMEDIATE",
    [COMMIT] = "COMMIT",
    [ROLLBACK] = "ROLLBACK",
    [STATE_GET] = "SELECT nodes, place, sum, clock, horizon, threshold, writes, row_sum FROM state WHERE one = 1",
    [STATE_SET] = "INSERT OR REPLACE INTO state VALUES (1, ?1, ?2, ?3, ?4, ?5, ?6, ?7, ?8)",
    [LOG_ADD] = "INSERT INTO log VALUES (?1, ?2, ?3, ?4, ?5, ?6)",
    [LOG_FROM] = "SELECT place, sum, clock, horizon, threshold, records FROM log WHERE place > ?1 ORDER BY place",
    [LOG_CUT] = "DELETE FROM log WHERE place <= min(?1, (SELECT min(place) FROM log) + 255)",
    [LOG_ASIDE] = "INSERT INTO aside(place, sum, records) SELECT place, sum, records FROM log WHERE place > ?1",
    [LOG_DROP] = "DELETE FROM log WHERE place > ?1",
    [PIECE_ADD] = "INSERT INTO piece VALUES (?1, ?2, ?3, ?4)",
    [PIECE_CUT] = "DELETE FROM piece WHERE rowid IN (SELECT rowid FROM piece"
                  " WHERE checkpoint NOT IN (SELECT id FROM checkpoint) LIMIT 16)",
    [PIECES] = "SELECT number, sum, bytes FROM piece WHERE checkpoint = ?1 ORDER BY number",
    [CHECKPOINTS] = "SELECT id, place, sum, pieces, bytes, last_sum, row_sum, damaged FROM checkpoint"
                    " ORDER BY id DESC",
    [CHECKPOINT_ADD] = "INSERT INTO checkpoint VALUES (?1, ?2, ?3, ?4, ?5, ?6, ?7, 0)",
    [CHECKPOINT_CUT] = "DELETE FROM checkpoint WHERE id < ?1",
    [CHECKPOINT_DAMAGED] = "UPDATE checkpoint SET damaged = 1, row_sum = ?2 WHERE id = ?1",
};

/* ---- Sums ---- */

/* The CRC-32 of a number and some bytes, chained to the one before. */
uint64_t sum_bytes(uint64_t before, uint64_t number, const uint8_t *bytes, size_t len)
{
    uint8_t word[8];
    for (int i = 0; i < 8; i++) word[i] = (uint8_t)(number >> (56 - 8 * i));
    uLong sum = crc32_z((uLong)before, word, sizeof word);
    /* zlib begins a new sum where there are no bytes. */
    return len > 0 ? crc32_z(sum, bytes, len) : sum;
}

uint64_t sum_numbers(const uint64_t *numbers, int many)
{
    uint64_t sum = 0;
    for (int i = 0; i < many; i++) sum = sum_bytes(sum, numbers[i], NULL, 0);
    return sum;
}

/* The sum of a log row with these records, which has the place, the clock and the thresholds of a state, behind the row
 * with the sum before. */
uint64_t sum_row(uint64_t before, const struct state *state, const uint8_t *records, size_t len)
{
    uint64_t sum = sum_bytes(before, state->place, NULL, 0);
    sum = sum_bytes(sum, state->clock, NULL, 0);
    sum = sum_bytes(sum, state->horizon, NULL, 0);
    return sum_bytes(sum, state->threshold, records, len);
}

/* ---- Failures ---- */

/* Keeps SQLite's code of a failure, and returns the answer for it. */
uint32_t db_failure(struct db *db, int code)
{
    db->code = db->sqlite && sqlite3_errcode(db->sqlite) == (code & 0xff) ? sqlite3_extended_errcode(db->sqlite) : code;
    if (db->code == SQLITE_IOERR_FSYNC || db->code == SQLITE_IOERR_DIR_FSYNC) db->doubt = SEALED;
    switch (code & 0xff) {
    case SQLITE_NOMEM: return HLC_NO_MEMORY;
    case SQLITE_FULL: return HLC_FILE_FULL;
    case SQLITE_CORRUPT: return HLC_FILE_CORRUPT;
    case SQLITE_NOTADB: return HLC_FILE_NOT_OURS;
    case SQLITE_BUSY: return HLC_FILE_IN_USE;
    case SQLITE_CANTOPEN:
    case SQLITE_READONLY: return HLC_FILE_CANNOT_OPEN;
    }
    return db->code == SQLITE_IOERR_NOMEM ? HLC_NO_MEMORY : HLC_FILE_IO;
}

/* ---- Statements ---- */

/* Binds numbers to a statement, and bytes behind them. */
sqlite3_stmt *db_ask(struct db *db, enum statement which, const struct values *values)
{
    sqlite3_stmt *statement = db->statements[which];
    for (int i = 0; i < values->many; i++) sqlite3_bind_int64(statement, i + 1, (sqlite3_int64)values->numbers[i]);
    if (values->bytes) sqlite3_bind_blob64(statement, values->many + 1, values->bytes, values->len, SQLITE_STATIC);
    return statement;
}

/* Runs a statement without rows, to its end. */
static int run(struct db *db, enum statement which)
{
    int code = sqlite3_step(db->statements[which]);
    int extended = sqlite3_reset(db->statements[which]);
    sqlite3_clear_bindings(db->statements[which]);
    return code == SQLITE_DONE ? SQLITE_OK : extended != SQLITE_OK ? extended : code;
}

uint32_t db_do(struct db *db, enum statement which, const struct values *values)
{
    db_ask(db, which, values);
    int code = run(db, which);
    return code == SQLITE_OK ? HLC_OK : db_failure(db, code);
}

/* ---- Transactions ---- */

static int set_sync(struct db *db, bool sync)
{
    if (db->synced == sync) return SQLITE_OK;
    int code = sqlite3_exec(db->sqlite, sync ? "PRAGMA synchronous = FULL" : "PRAGMA synchronous = NORMAL", NULL, NULL,
                            NULL);
    db->synced = code == SQLITE_OK ? sync : -1;
    return code;
}

static int begin(struct db *db, bool sync)
{
    int code = set_sync(db, sync);
    return code == SQLITE_OK ? run(db, BEGIN) : code;
}

/* A transaction that cannot be undone would end up in the next one. */
static void undo(struct db *db)
{
    if (!sqlite3_get_autocommit(db->sqlite)) run(db, ROLLBACK);
    if (!sqlite3_get_autocommit(db->sqlite)) db->doubt = SEALED;
}

/* Begins a transaction, whose end is synced or not. Refuses while it is in doubt what the last one left. */
uint32_t db_begin(struct db *db, bool sync)
{
    uint32_t answer = db_settle(db);
    if (answer != HLC_OK) return answer;
    int code = begin(db, sync);
    if (code == SQLITE_OK) return HLC_OK;
    answer = db_failure(db, code);
    undo(db);
    return answer;
}

/* Commits a transaction that was begun, or undoes it where the answer so far is a refusal. */
uint32_t db_end(struct db *db, uint32_t answer)
{
    if (answer != HLC_OK) {
        undo(db);
        return answer;
    }
    int code = run(db, COMMIT);
    if (code == SQLITE_OK) return HLC_OK;
    answer = db_failure(db, code);
    undo(db);
    if (db->doubt == NO_DOUBT) db->doubt = TAIL_IN_DOUBT;
    int first = db->code;
    bool settled = db_settle(db) == HLC_OK;
    db->code = first;
    return settled ? answer : HLC_FILE_UNKNOWN;
}

static int write_state(struct db *db, struct state *state)
{
    state->writes = db->state.writes + 1;
    struct values values = { STATE_NUMBERS + 1, { state->nodes, state->place, state->sum, state->clock,
                                                  state->horizon, state->threshold, state->writes }, NULL, 0 };
    values.numbers[STATE_NUMBERS] = sum_numbers(values.numbers, STATE_NUMBERS);
    db_ask(db, STATE_SET, &values);
    return run(db, STATE_SET);
}

/* Answers whether this process opened the file, and not one of which it is the child by a fork. */
bool db_is_ours(const struct db *db)
{
    return db->process == getpid();
}

/* Overwrites what a failed COMMIT may have left. A child of a fork writes nothing into its parent's file. */
uint32_t db_settle(struct db *db)
{
    if (!db_is_ours(db)) db->doubt = SEALED;
    if (db->doubt == NO_DOUBT) return HLC_OK;
    if (db->doubt == SEALED) return HLC_FILE_SEALED;
    struct state state = db->state;
    int code = begin(db, true);
    if (code == SQLITE_OK) code = write_state(db, &state);
    if (code == SQLITE_OK) code = run(db, COMMIT);
    if (code != SQLITE_OK) {
        db_failure(db, code);
        undo(db);
        return HLC_FILE_SEALED;
    }
    db->state = state;
    db->doubt = NO_DOUBT;
    return HLC_OK;
}

/* Ends a transaction after which the file has this state, with or without its row. */
uint32_t db_end_with(struct db *db, struct state state, bool row)
{
    int code = row ? write_state(db, &state) : SQLITE_OK;
    uint32_t answer = db_end(db, code == SQLITE_OK ? HLC_OK : db_failure(db, code));
    if (answer == HLC_OK) db->state = state;
    return answer;
}

/* Adds a log row behind that of the state, which becomes that of this row. */
uint32_t db_add_log(struct db *db, struct state *state, const uint8_t *bytes, size_t len)
{
    state->place++;
    state->sum = sum_row(state->sum, state, bytes, len);
    struct values values = {
        5, { state->place, state->sum, state->clock, state->horizon, state->threshold }, bytes, len,
    };
    return db_do(db, LOG_ADD, &values);
}

/* Moves the write-ahead log into the file, all of it with TRUNCATE. Where that fails it stays as it is. */
uint32_t db_move(struct db *db, int mode)
{
    int pages = 0, code = set_sync(db, true);
    if (code == SQLITE_OK) code = sqlite3_wal_checkpoint_v2(db->sqlite, NULL, mode, &pages, NULL);
    /* Less than none: the file could not be set to have a write-ahead log. */
    if (code == SQLITE_OK && pages < 0) code = SQLITE_CANTOPEN;
    return code == SQLITE_OK ? HLC_OK : db_failure(db, code);
}

/* Moves the write-ahead log into the file, where it is long. The row of `state` comes first, so that the rest of the
 * file never lacks a log row that it names, nor has one more. */
uint32_t db_shorten(struct db *db)
{
    if (db->doubt != NO_DOUBT || db->wal_pages <= WAL_PAGES) return HLC_OK;
    uint32_t answer = db_begin(db, true);
    if (answer == HLC_OK) answer = db_end_with(db, db->state, true);
    return answer == HLC_OK ? db_move(db, SQLITE_CHECKPOINT_PASSIVE) : answer;
}

/* Writes zeros behind a file, or leaves it as long as it was. */
static bool add_zeros(sqlite3_file *file, sqlite3_int64 len)
{
    /* Not a constant, which would be in the library's file. SQLite writes fewer than 128 KB at once. */
    static uint8_t zeros[LENGTHENING / 8];
    for (sqlite3_int64 at = len; at < len + LENGTHENING; at += (sqlite3_int64)sizeof zeros) {
        if (file->pMethods->xWrite(file, zeros, sizeof zeros, at) == SQLITE_OK) continue;
        file->pMethods->xTruncate(file, len);
        return false;
    }
    return true;
}

/* Lengthens the write-ahead log by zeros, before commits that sync reach its end: a sync within a file takes less than
 * one that brings a new length to disk too. SQLite finds no page there, since its sums do not fit. Where the disk is
 * full, the log grows by the commits themselves. */
void db_lengthen(struct db *db)
{
    sqlite3_file *wal = NULL;
    sqlite3_int64 len = 0;
    if (db->doubt != NO_DOUBT || db->synced != 1) return;
    if (db->wal_pages > WAL_PAGES || db->wal_pages + PAGES_AHEAD <= db->wal_room) return;
    sqlite3_file_control(db->sqlite, "main", SQLITE_FCNTL_JOURNAL_POINTER, &wal);
    if (!wal || !wal->pMethods || wal->pMethods->xFileSize(wal, &len) != SQLITE_OK) return;
    bool is_short = len / WAL_PAGE < db->wal_pages + PAGES_AHEAD;
    bool grows = is_short && add_zeros(wal, len);
    db->wal_room = is_short && !grows ? INT_MAX : (int)((grows ? len + LENGTHENING : len) / WAL_PAGE);
}

/* ---- Opening ---- */

static int count_pages(void *db, sqlite3 *sqlite, const char *name, int pages)
{
    (void)sqlite;
    (void)name;
    ((struct db *)db)->wal_pages = pages;
    return SQLITE_OK;
}

static int pragma(struct db *db, const char *text, int64_t *number)
{
    sqlite3_stmt *statement;
    int code = sqlite3_prepare_v2(db->sqlite, text, -1, &statement, NULL);
    if (code != SQLITE_OK) return code;
    if (sqlite3_step(statement) == SQLITE_ROW) *number = sqlite3_column_int64(statement, 0);
    return sqlite3_finalize(statement);
}

/* Makes a check of SQLite, which says `ok` where it finds no damage. */
uint32_t db_check(struct db *db, const char *text)
{
    sqlite3_stmt *statement;
    int code = sqlite3_prepare_v2(db->sqlite, text, -1, &statement, NULL);
    if (code != SQLITE_OK) return db_failure(db, code);
    const char *said = sqlite3_step(statement) == SQLITE_ROW ? (const char *)sqlite3_column_text(statement, 0) : NULL;
    bool has_answer = said, whole = has_answer && strcmp(said, "ok") == 0;
    code = sqlite3_finalize(statement);
    if (code == SQLITE_OK && !has_answer) code = SQLITE_NOMEM;
    if (code != SQLITE_OK) return db_failure(db, code);
    return whole ? HLC_OK : HLC_FILE_CORRUPT;
}

static int configure(struct db *db)
{
    sqlite3_db_config(db->sqlite, SQLITE_DBCONFIG_NO_CKPT_ON_CLOSE, 1, NULL);
    sqlite3_db_config(db->sqlite, SQLITE_DBCONFIG_DEFENSIVE, 1, NULL);
    sqlite3_db_config(db->sqlite, SQLITE_DBCONFIG_TRUSTED_SCHEMA, 0, NULL);
    sqlite3_db_config(db->sqlite, SQLITE_DBCONFIG_ENABLE_TRIGGER, 0, NULL);
    sqlite3_db_config(db->sqlite, SQLITE_DBCONFIG_ENABLE_VIEW, 0, NULL);
    return sqlite3_exec(db->sqlite, "PRAGMA locking_mode = EXCLUSIVE; PRAGMA cell_size_check = ON", NULL, NULL, NULL);
}

/* Refuses a file of SQLite with another application's number in its head, before SQLite reads it: it would undo what a
 * process of that application left half done. */
static uint32_t check_head(struct db *db)
{
    enum { NUMBER_AT = 68, HEAD = 72 };
    static const uint8_t number[] = { APPLICATION >> 24, APPLICATION >> 16 & 0xff, APPLICATION >> 8 & 0xff,
                                      APPLICATION & 0xff };
    uint8_t head[HEAD] = { 0 };
    sqlite3_file *file = NULL;
    int code = sqlite3_file_control(db->sqlite, "main", SQLITE_FCNTL_FILE_POINTER, &file);
    if (code == SQLITE_OK) code = file->pMethods->xRead(file, head, HEAD, 0);
    /* One that is as short as this is left to SQLite. */
    if (code == SQLITE_IOERR_SHORT_READ) return HLC_OK;
    if (code != SQLITE_OK) return db_failure(db, code);
    bool is_of_sqlite = memcmp(head, "SQLite format 3", 16) == 0;
    return is_of_sqlite && memcmp(head + NUMBER_AT, number, sizeof number) != 0 ? HLC_FILE_NOT_OURS : HLC_OK;
}

/* Answers whether the file is one of this library, or empty. */
static uint32_t recognise(struct db *db, bool *empty, uint64_t *word)
{
    int64_t pages = 0, application = 0, schema = 0;
    int code = pragma(db, "PRAGMA page_count", &pages);
    if (code == SQLITE_OK) code = pragma(db, "PRAGMA application_id", &application);
    if (code == SQLITE_OK) code = pragma(db, "PRAGMA user_version", &schema);
    if (code != SQLITE_OK) return db_failure(db, code);
    *empty = pages == 0;
    if (*empty) return HLC_OK;
    if (application != APPLICATION) return HLC_FILE_NOT_OURS;
    if (schema > SCHEMA) *word = (uint64_t)schema;
    return schema > SCHEMA ? HLC_FILE_NEWER : HLC_OK;
}

static uint32_t prepare(struct db *db)
{
    for (int i = 0; i < STATEMENTS; i++) {
        int code = sqlite3_prepare_v3(db->sqlite, STATEMENT_TEXTS[i], -1, SQLITE_PREPARE_PERSISTENT,
                                      &db->statements[i], NULL);
        /* A table that is not there as it should be: SQLite says no more than "error". */
        if (code == SQLITE_ERROR) return HLC_FILE_CORRUPT;
        if (code != SQLITE_OK) return db_failure(db, code);
    }
    return HLC_OK;
}

static uint32_t make_tables(struct db *db, uint32_t nodes)
{
    int code = set_sync(db, true);
    if (code == SQLITE_OK) code = sqlite3_exec(db->sqlite, TABLES, NULL, NULL, NULL);
    if (code != SQLITE_OK) return db_failure(db, code);
    uint32_t answer = prepare(db);
    db->state.nodes = nodes;
    return answer == HLC_OK ? db_end_with(db, db->state, true) : answer;
}

static uint32_t read_state(struct db *db)
{
    uint64_t numbers[STATE_NUMBERS + 1] = { 0 };
    sqlite3_stmt *statement = db->statements[STATE_GET];
    bool found = sqlite3_step(statement) == SQLITE_ROW;
    for (int i = 0; found && i <= STATE_NUMBERS; i++) numbers[i] = (uint64_t)sqlite3_column_int64(statement, i);
    int code = sqlite3_reset(statement);
    if (code != SQLITE_OK) return db_failure(db, code);
    if (!found || numbers[STATE_NUMBERS] != sum_numbers(numbers, STATE_NUMBERS)) return HLC_FILE_CORRUPT;
    db->state = (struct state){ numbers[0], numbers[1], numbers[2], numbers[3], numbers[4], numbers[5], numbers[6] };
    return HLC_OK;
}

/* Writes the write-ahead log over itself, and syncs it. After a failed sync the system may have it in memory only, and
 * takes it for written. */
static int write_again(sqlite3_file *wal)
{
    static const int BLOCK = 1 << 16;
    sqlite3_int64 len = 0;
    if (!wal || !wal->pMethods) return SQLITE_OK;
    int code = wal->pMethods->xFileSize(wal, &len);
    if (code != SQLITE_OK || len == 0) return code;
    uint8_t *block = sqlite3_malloc(BLOCK);
    if (!block) return SQLITE_NOMEM;
    for (sqlite3_int64 at = 0; code == SQLITE_OK && at < len; at += BLOCK) {
        int part = len - at < BLOCK ? (int)(len - at) : BLOCK;
        code = wal->pMethods->xRead(wal, block, part, at);
        if (code == SQLITE_OK) code = wal->pMethods->xWrite(wal, block, part, at);
    }
    sqlite3_free(block);
    return code == SQLITE_OK ? wal->pMethods->xSync(wal, SQLITE_SYNC_NORMAL) : code;
}

/* What is found is synced, so that nothing that a reader sees is lost: the process before may have ended without a
 * sync, or since one failed. */
static uint32_t keep_what_is_found(struct db *db)
{
    int64_t number;
    sqlite3_file *wal = NULL;
    int code = pragma(db, "PRAGMA journal_mode = WAL", &number);
    if (code == SQLITE_OK) code = sqlite3_file_control(db->sqlite, "main", SQLITE_FCNTL_JOURNAL_POINTER, &wal);
    if (code == SQLITE_OK) code = write_again(wal);
    if (code != SQLITE_OK) return db_failure(db, code);
    sqlite3_wal_hook(db->sqlite, count_pages, db);
    return HLC_OK;
}

/* Moves what was found into the file. Before, the row of `state` names the last log row: so a page of the log that the
 * disk forgets is missed. A refused opening leaves the write-ahead log as it is. Pages of small tables that are damaged
 * where no row is were read, but could not be written. */
uint32_t db_opened(struct db *db)
{
    uint32_t answer = db_check(db, "PRAGMA quick_check('state')");
    if (answer == HLC_OK) answer = db_check(db, "PRAGMA quick_check('checkpoint')");
    if (answer != HLC_OK) return answer;
    sqlite3_db_config(db->sqlite, SQLITE_DBCONFIG_NO_CKPT_ON_CLOSE, 0, NULL);
    return db_move(db, SQLITE_CHECKPOINT_TRUNCATE);
}

/* Opens or makes the tables, and reads the row of `state`. Nothing of another application's file is changed. */
uint32_t db_open(struct db *db, const char *path, bool may_create, uint32_t nodes, bool *created, uint64_t *word)
{
    int flags = SQLITE_OPEN_READWRITE | SQLITE_OPEN_NOMUTEX | (may_create ? SQLITE_OPEN_CREATE : 0);
    db->process = getpid();
    db->synced = -1;
    int code = sqlite3_open_v2(path, &db->sqlite, flags, NULL);
    if (code == SQLITE_OK && sqlite3_db_readonly(db->sqlite, "main")) code = SQLITE_READONLY;
    if (code == SQLITE_OK) code = configure(db);
    if (code != SQLITE_OK) return db_failure(db, code);
    uint32_t answer = check_head(db);
    if (answer == HLC_OK) answer = recognise(db, created, word);
    if (answer == HLC_OK && *created && !may_create) answer = HLC_FILE_CANNOT_OPEN;
    if (answer != HLC_OK) return answer;
    answer = *created ? make_tables(db, nodes) : prepare(db);
    if (answer == HLC_OK) answer = read_state(db);
    return answer == HLC_OK ? keep_what_is_found(db) : answer;
}

void db_close(struct db *db)
{
    for (int i = 0; i < STATEMENTS; i++) sqlite3_finalize(db->statements[i]);
    /* A write-ahead log that a sync failed for stays as it is, for the next opening. */
    if (db->sqlite && db->doubt != NO_DOUBT) {
        sqlite3_db_config(db->sqlite, SQLITE_DBCONFIG_NO_CKPT_ON_CLOSE, 1, NULL);
    }
    sqlite3_close(db->sqlite);
    db->sqlite = NULL;
}
