/* Recovery: the newest checkpoint that is whole, then the log behind it. */
#include "file.h"
#include <stdlib.h>
#include <string.h>

enum {
    MOST_DAMAGED = 16,
    LOT = 1 << 20 /* bytes of records that are applied at once, and more where a row has more */
};

/* A row of `checkpoint`. */
struct found {
    uint64_t id;
    uint64_t place;
    uint64_t sum;
    uint64_t pieces;
    uint64_t len;
    uint64_t last_sum;
    uint64_t row_sum;
    uint64_t damaged; /* 1 where an opening found it so */
};

/* How far the recovery came: up to this place, with the sum there. */
struct recovery {
    uint64_t place;
    uint64_t sum;
    uint64_t len;      /* bytes of the checkpoint */
    uint64_t log_len;  /* bytes of log behind it */
    uint64_t first;    /* place of the first log row behind the checkpoint, or 0 */
    uint64_t unusable; /* how many checkpoints are damaged, with those of earlier openings */
    uint64_t damaged;
    struct found damaged_ones[MOST_DAMAGED];
};

/* ---- The checkpoint ---- */

static uint32_t feed_piece(hlc_restoring *restoring, sqlite3_stmt *row, uint64_t number, uint64_t *sum, bool *whole)
{
    const uint8_t *bytes = sqlite3_column_blob(row, 2);
    size_t len = (size_t)sqlite3_column_bytes(row, 2);
    *sum = sum_bytes(*sum, number, bytes, len);
    *whole = (uint64_t)sqlite3_column_int64(row, 0) == number && (uint64_t)sqlite3_column_int64(row, 1) == *sum;
    return *whole ? hlc_restoring_feed(restoring, bytes, len) : HLC_OK;
}

/* Feeds the pieces of a checkpoint. whole: whether all are there and have their sums. */
static uint32_t feed_pieces(struct db *db, hlc_restoring *restoring, const struct found *found, bool *whole)
{
    struct values id = { .many = 1, .numbers = { found->id } };
    sqlite3_stmt *rows = db_ask(db, PIECES, &id);
    uint64_t sum = 0, many = 0;
    uint32_t answer = HLC_OK;
    *whole = true;
    while (answer == HLC_OK && *whole && sqlite3_step(rows) == SQLITE_ROW) {
        answer = feed_piece(restoring, rows, many++, &sum, whole);
    }
    int code = sqlite3_reset(rows);
    if (answer == HLC_OK && code != SQLITE_OK) answer = db_failure(db, code);
    if (many != found->pieces || sum != found->last_sum || answer == HLC_FILE_CORRUPT) *whole = false;
    return answer == HLC_FILE_CORRUPT ? HLC_OK : answer;
}

/* The sum of a row of `checkpoint`. */
static uint64_t sum_found(const struct found *found)
{
    const uint64_t numbers[] = { found->id, found->place, found->sum, found->pieces, found->len, found->last_sum,
                                 found->damaged };
    return sum_numbers(numbers, 7);
}

/* Opens the store from a checkpoint. whole: whether it is undamaged; if not, the store stays closed. */
static uint32_t restore(hlc_file *file, const struct found *found, bool *whole)
{
    hlc_restoring restoring = HLC_NO_RESTORING;
    uint64_t tag;
    *whole = found->row_sum == sum_found(found);
    if (!*whole) return HLC_OK;
    uint32_t answer = hlc_restoring_start(&restoring);
    if (answer == HLC_OK) answer = feed_pieces(&file->db, &restoring, found, whole);
    if (answer == HLC_OK && *whole) {
        answer = hlc_restoring_finish(&restoring, &file->store, &tag);
        *whole = answer == HLC_OK && tag == found->place;
        if (answer == HLC_OK && !*whole) hlc_store_close(&file->store);
        if (answer == HLC_BAD_BYTES || answer == HLC_NO_CHECKPOINT) answer = HLC_OK;
    }
    hlc_restoring_drop(&restoring);
    return answer;
}

static struct found found_in(sqlite3_stmt *row)
{
    uint64_t n[8];
    for (int i = 0; i < 8; i++) n[i] = (uint64_t)sqlite3_column_int64(row, i);
    return (struct found){ n[0], n[1], n[2], n[3], n[4], n[5], n[6], n[7] };
}

/* Restores the newest checkpoint that is whole, or opens an empty store where there is none. */
static uint32_t restore_newest(hlc_file *file, struct recovery *recovery)
{
    sqlite3_stmt *rows = file->db.statements[CHECKPOINTS];
    uint32_t answer = HLC_OK;
    bool whole = false;
    while (answer == HLC_OK && !whole && sqlite3_step(rows) == SQLITE_ROW) {
        struct found found = found_in(rows);
        if (file->newest_id == 0) file->newest_id = found.id;
        bool marked = found.damaged && found.row_sum == sum_found(&found);
        if (!marked) answer = restore(file, &found, &whole);
        if (answer != HLC_OK) break;
        if (!whole) recovery->unusable++;
        if (whole) {
            file->newest = (struct saved){ found.id, found.place };
            recovery->place = found.place;
            recovery->sum = found.sum;
            recovery->len = found.len;
        } else if (!marked && recovery->damaged < MOST_DAMAGED) {
            recovery->damaged_ones[recovery->damaged++] = found;
        }
    }
    int code = sqlite3_reset(rows);
    if (answer == HLC_OK && code != SQLITE_OK) answer = db_failure(&file->db, code);
    return answer == HLC_OK && !whole ? hlc_store_open(&file->store, (uint16_t)file->db.state.nodes) : answer;
}

/* ---- The log ---- */

/* Answers whether the links take all records of a row, and moves them on. */
static bool take_row(struct links *links, const uint8_t *bytes, size_t len)
{
    struct record record;
    bool came_before;
    uint64_t word;
    for (size_t at = 0; at < len; at += record.len) {
        if (record_read(bytes + at, len - at, &record, &word) != HLC_OK) return false;
        if (links_take(links, &record, &came_before, &word) != HLC_OK) return false;
    }
    return true;
}

/* Reads a row of `log`, and returns its sum as it is by the row and by the sum before. */
static uint64_t read_row(sqlite3_stmt *row, uint64_t before, struct state *state, const uint8_t **bytes, size_t *len)
{
    state->place = (uint64_t)sqlite3_column_int64(row, 0);
    state->sum = (uint64_t)sqlite3_column_int64(row, 1);
    state->clock = (uint64_t)sqlite3_column_int64(row, 2);
    state->horizon = (uint64_t)sqlite3_column_int64(row, 3);
    state->threshold = (uint64_t)sqlite3_column_int64(row, 4);
    *bytes = sqlite3_column_blob(row, 5);
    *len = (size_t)sqlite3_column_bytes(row, 5);
    return sum_row(before, state, *bytes, *len);
}

/* Rows that were read and are undamaged: their records, one after another. */
struct rows {
    uint8_t *records;
    size_t len;
    size_t room;
};

/* A reading of the log, which is ahead of the store by two lots of rows at most. A thread reads and checks one of them,
 * while another thread lets the store apply the one before. */
struct reading {
    hlc_file *file;
    struct recovery *recovery;
    sqlite3_stmt *statement;
    bool ended;      /* the reader met the last row, or one that is damaged */
    uint32_t answer; /* why it ended */
    struct rows rows[2];

    pthread_mutex_t mutex; /* guards these, and hands over the others: */
    pthread_cond_t changed;
    uint64_t read; /* how many lots were read, and how many were applied */
    uint64_t applied;
    bool done;    /* no more will be read */
    bool stopped; /* no more will be applied */
};

/* Answers whether a row is the next one and undamaged, and moves the recovery on. Behind the place that the row of
 * `state` has, it is newer. */
static bool check_row(struct reading *reading, const uint8_t **bytes, size_t *len)
{
    struct recovery *recovery = reading->recovery;
    struct state *known = &reading->file->db.state, state = *known;
    uint64_t sum = read_row(reading->statement, recovery->sum, &state, bytes, len);
    if (recovery->first == 0) recovery->first = state.place;
    if (state.place != recovery->place + 1 || state.sum != sum) return false;
    if (state.place == known->place && sum != known->sum) return false;
    if (!take_row(&reading->file->links, *bytes, *len)) return false;
    if (state.place > known->place) *known = state;
    recovery->place = state.place;
    recovery->sum = sum;
    recovery->log_len += *len;
    return true;
}

static uint32_t keep_row(struct rows *rows, const uint8_t *bytes, size_t len)
{
    if (rows->len + len > rows->room) {
        size_t room = rows->len + len < 2 * LOT ? 2 * LOT : rows->len + len;
        uint8_t *records = realloc(rows->records, room);
        if (!records) return HLC_NO_MEMORY;
        rows->records = records;
        rows->room = room;
    }
    if (len > 0) memcpy(rows->records + rows->len, bytes, len);
    rows->len += len;
    return HLC_OK;
}

/* Reads some rows, up to the last one or the first that is damaged. */
static void read_rows(struct reading *reading, struct rows *rows)
{
    const uint8_t *bytes;
    size_t len;
    rows->len = 0;
    while (!reading->ended && rows->len < LOT) {
        reading->ended = sqlite3_step(reading->statement) != SQLITE_ROW;
        if (reading->ended) return;
        reading->answer = check_row(reading, &bytes, &len) ? keep_row(rows, bytes, len) : HLC_FILE_DAMAGED_LOG;
        reading->ended = reading->answer != HLC_OK;
    }
}

static uint32_t apply_rows(hlc_file *file, const struct rows *rows)
{
    size_t used, many;
    uint64_t threshold, word;
    uint32_t answer = hlc_store_apply_records(&file->store, rows->records, rows->len, &used, &many, &threshold, &word);
    if (answer == HLC_OK) file->report.applied += many;
    return answer;
}

/* The thread that reads. */
static void *read_ahead(void *argument)
{
    struct reading *reading = argument;
    pthread_mutex_lock(&reading->mutex);
    while (!reading->done && !reading->stopped) {
        if (reading->read - reading->applied == 2) {
            pthread_cond_wait(&reading->changed, &reading->mutex);
            continue;
        }
        pthread_mutex_unlock(&reading->mutex);
        read_rows(reading, &reading->rows[reading->read % 2]);
        pthread_mutex_lock(&reading->mutex);
        reading->read++;
        reading->done = reading->ended;
        pthread_cond_broadcast(&reading->changed);
    }
    pthread_mutex_unlock(&reading->mutex);
    return NULL;
}

/* Applies what the other thread reads. */
static uint32_t apply_behind(struct reading *reading)
{
    uint32_t answer = HLC_OK;
    pthread_mutex_lock(&reading->mutex);
    while (answer == HLC_OK && (reading->applied < reading->read || !reading->done)) {
        if (reading->applied == reading->read) {
            pthread_cond_wait(&reading->changed, &reading->mutex);
            continue;
        }
        pthread_mutex_unlock(&reading->mutex);
        answer = apply_rows(reading->file, &reading->rows[reading->applied % 2]);
        pthread_mutex_lock(&reading->mutex);
        reading->applied++;
        reading->stopped = answer != HLC_OK;
        pthread_cond_broadcast(&reading->changed);
    }
    pthread_mutex_unlock(&reading->mutex);
    return answer;
}

/* Reads and applies all rows. There is a second thread only where one lot has not all of them. */
static uint32_t read_log(struct reading *reading)
{
    pthread_t reader;
    read_rows(reading, &reading->rows[0]);
    reading->read = 1;
    reading->done = reading->ended;
    bool has_reader = !reading->done && thread_start(&reader, read_ahead, reading);
    if (has_reader) {
        uint32_t answer = apply_behind(reading);
        pthread_join(reader, NULL);
        return answer;
    }
    uint32_t answer = apply_rows(reading->file, &reading->rows[0]);
    while (answer == HLC_OK && !reading->ended) {
        read_rows(reading, &reading->rows[0]);
        answer = apply_rows(reading->file, &reading->rows[0]);
    }
    return answer;
}

/* Applies the rows behind a place, up to the last one or the first that is damaged. */
static uint32_t apply_log(hlc_file *file, struct recovery *recovery)
{
    struct values from = { .many = 1, .numbers = { recovery->place } };
    struct reading reading = { .file = file, .recovery = recovery, .statement = db_ask(&file->db, LOG_FROM, &from) };
    pthread_mutex_init(&reading.mutex, NULL);
    pthread_cond_init(&reading.changed, NULL);
    uint32_t answer = read_log(&reading);
    pthread_mutex_destroy(&reading.mutex);
    pthread_cond_destroy(&reading.changed);
    free(reading.rows[0].records);
    free(reading.rows[1].records);
    int code = sqlite3_reset(reading.statement);
    if (answer == HLC_OK) answer = reading.answer;
    if (answer == HLC_OK && code != SQLITE_OK) answer = db_failure(&file->db, code);
    return answer == HLC_OK && recovery->place < file->db.state.place ? HLC_FILE_DAMAGED_LOG : answer;
}

/* Raises a clock by those of the rows behind a place whose sum fits that of the row before: their stamps were returned,
 * and do not come again. */
static uint32_t raise_clock(struct db *db, uint64_t place, uint64_t *clock)
{
    struct values from = { .many = 1, .numbers = { place } };
    sqlite3_stmt *rows = db_ask(db, LOG_FROM, &from);
    struct state state = { 0 };
    const uint8_t *bytes;
    size_t len;
    uint64_t before = 0;
    while (sqlite3_step(rows) == SQLITE_ROW) {
        uint64_t sum = read_row(rows, before, &state, &bytes, &len);
        if (sum == state.sum && state.clock > *clock) *clock = state.clock;
        before = state.sum;
    }
    int code = sqlite3_reset(rows);
    return code == SQLITE_OK ? HLC_OK : db_failure(db, code);
}

/* Moves the log behind a place into `aside`. A tree that is damaged itself could keep some of its rows. */
static uint32_t move_aside(hlc_file *file, const struct recovery *recovery)
{
    struct db *db = &file->db;
    struct values from = { .many = 1, .numbers = { recovery->place } };
    struct state state = db->state;
    state.place = recovery->place;
    state.sum = recovery->sum;
    uint32_t answer = db_check(db, "PRAGMA quick_check(1)");
    if (answer == HLC_OK) answer = raise_clock(db, recovery->place, &state.clock);
    if (answer == HLC_OK) answer = db_begin(db, true);
    if (answer != HLC_OK) return answer;
    answer = db_do(db, LOG_ASIDE, &from);
    if (answer == HLC_OK) answer = db_do(db, LOG_DROP, &from);
    file->report.aside = (uint64_t)sqlite3_changes(db->sqlite);
    return answer == HLC_OK ? db_end_with(db, state, true) : db_end(db, answer);
}

/* ---- Both ---- */

/* Writes down what was found: damaged checkpoints, so that they do not count as the two newest, and the log stays as
 * long as the one that was restored needs it; and how far the log is. */
static uint32_t write_down(hlc_file *file, const struct recovery *recovery, uint64_t known_place)
{
    struct db *db = &file->db;
    if (recovery->damaged == 0 && db->state.place == known_place) return HLC_OK;
    uint32_t answer = db_begin(db, true);
    if (answer != HLC_OK) return answer;
    for (uint64_t i = 0; i < recovery->damaged && answer == HLC_OK; i++) {
        struct found marked = recovery->damaged_ones[i];
        marked.damaged = 1;
        struct values values = { .many = 2, .numbers = { marked.id, sum_found(&marked) } };
        answer = db_do(db, CHECKPOINT_DAMAGED, &values);
    }
    return answer == HLC_OK ? db_end_with(db, db->state, true) : db_end(db, answer);
}

/* Answers a damaged log. Where no checkpoint was restored and the first record is not there, nothing is to be kept. */
static uint32_t damaged_log(const hlc_file *file, const struct recovery *recovery, uint64_t *word)
{
    if (file->newest.id == 0 && (recovery->first != 1 || (recovery->place == 0 && recovery->unusable > 0))) {
        *word = recovery->unusable;
        return HLC_FILE_NO_CHECKPOINT;
    }
    *word = recovery->place + 1;
    return HLC_FILE_DAMAGED_LOG;
}

static uint32_t begin_at(hlc_file *file, const struct recovery *recovery)
{
    const struct state *state = &file->db.state;
    file->applied = recovery->place;
    file->applied_sum = recovery->sum;
    file->logged = file->accepted = recovery->log_len;
    file->threshold = state->threshold;
    file->horizon = state->horizon;
    file->ceiling = file->clock = state->clock;
    file->report.place = state->place;
    finish_checkpoint(file, file->newest.place, 0, recovery->len);
    hlc_answer_ignore(hlc_snapshot_close_all(&file->store));
    return raise_horizon(file, state->horizon);
}

/* Makes the store and the clock of a file from its tables. */
uint32_t recover(hlc_file *file, uint64_t *word)
{
    struct recovery recovery = { 0 };
    uint64_t known_place = file->db.state.place;
    uint32_t answer = restore_newest(file, &recovery);
    if (answer == HLC_OK) {
        links_of_store(&file->links, &file->store);
        answer = apply_log(file, &recovery);
    }
    if (answer == HLC_FILE_DAMAGED_LOG) {
        answer = damaged_log(file, &recovery, word);
        bool keeps = answer == HLC_FILE_DAMAGED_LOG && file->options.flags & HLC_FILE_KEEP_BEFORE_DAMAGE;
        if (keeps) {
            note(file, answer, *word);
            answer = move_aside(file, &recovery);
        }
        /* The links have taken some records of the damaged row. */
        links_of_store(&file->links, &file->store);
    }
    if (answer == HLC_OK) answer = write_down(file, &recovery, known_place);
    if (answer == HLC_OK) answer = begin_at(file, &recovery);
    file->report.damaged = recovery.damaged;
    return answer;
}
