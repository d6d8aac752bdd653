/* Checkpoints: the store is copied into memory under the lock, and written in short transactions between which batches
 * go on. The last one makes it complete; then what only older checkpoints need is cut, in short transactions too. */
#include "file.h"
#include <signal.h>
#include <stdlib.h>

/* A checkpoint under way. */
struct making {
    hlc_output output;
    size_t len;
    uint64_t id;
    uint64_t place;
    uint64_t log_sum;
    uint64_t logged;
    uint64_t pieces;
    uint64_t sum; /* of the last piece */
};

static const struct values nothing;

/* Between these the store stays as it is, and reads go on. */
static void copy_begin(hlc_file *file)
{
    turn_take(&file->changing);
    pthread_rwlock_rdlock(&file->lend);
}

static void copy_end(hlc_file *file)
{
    pthread_rwlock_unlock(&file->lend);
    turn_give(&file->changing);
}

static uint32_t copy_store(hlc_file *file, struct making *making)
{
    copy_begin(file);
    hlc_store mine = file->store;
    making->place = file->applied;
    making->log_sum = file->applied_sum;
    making->logged = file->accepted;
    uint32_t answer = hlc_checkpoint_make(&mine, making->place, &making->output, &making->len);
    copy_end(file);
    return answer;
}

/* Ends a turn at SQLite, and keeps what became of it. */
static uint32_t end_turn(hlc_file *file, uint32_t answer)
{
    pthread_mutex_lock(&file->mutex);
    note(file, answer, 0);
    pthread_mutex_unlock(&file->mutex);
    turn_give(&file->turns);
    return answer;
}

/* Runs a statement as a transaction of its own, with numbers and bytes as far as there are some. changed: how many rows
 * it changed. */
static uint32_t run_alone(hlc_file *file, enum statement which, const struct values *values, int *changed)
{
    struct db *db = &file->db;
    turn_take(&file->turns);
    uint32_t answer = db_begin(db, false);
    if (answer == HLC_OK) answer = db_end(db, db_do(db, which, values));
    *changed = answer == HLC_OK ? sqlite3_changes(db->sqlite) : 0;
    if (answer == HLC_OK) answer = db_shorten(db);
    return end_turn(file, answer);
}

/* Deletes in parts until none is left. */
static uint32_t cut(hlc_file *file, enum statement which, const struct values *values)
{
    int changed = 1;
    uint32_t answer = HLC_OK;
    while (answer == HLC_OK && changed > 0) answer = run_alone(file, which, values, &changed);
    return answer;
}

static uint32_t write_piece(hlc_file *file, struct making *making, const uint8_t *bytes, size_t len)
{
    int changed;
    making->sum = sum_bytes(making->sum, making->pieces, bytes, len);
    struct values values = { 3, { making->id, making->pieces, making->sum }, bytes, len };
    making->pieces++;
    return run_alone(file, PIECE_ADD, &values, &changed);
}

static uint32_t write_pieces(hlc_file *file, struct making *making)
{
    uint32_t answer = HLC_OK;
    size_t len;
    uint8_t *buffer = malloc(PIECE);
    if (!buffer) return HLC_NO_MEMORY;
    for (size_t at = 0; answer == HLC_OK && at < making->len; at += len) {
        hlc_answer_ignore(hlc_output_read(&making->output, at, buffer, PIECE, &len));
        answer = write_piece(file, making, buffer, len);
    }
    free(buffer);
    return answer;
}

/* Makes a checkpoint complete, synced, and drops those before the two newest. The row of `state` keeps what is known of
 * the clock by log rows that are cut. */
static uint32_t complete(hlc_file *file, const struct making *making)
{
    struct db *db = &file->db;
    struct values before = { .many = 1, .numbers = { file->newest.id } };
    struct values added = {
        .many = 7,
        .numbers = { making->id, making->place, making->log_sum, making->pieces, making->len, making->sum },
    };
    /* The sum is of these and of `damaged`, which is 0. */
    added.numbers[6] = sum_numbers(added.numbers, 7);
    turn_take(&file->turns);
    uint32_t answer = db_begin(db, true);
    if (answer == HLC_OK) {
        answer = db_do(db, CHECKPOINT_ADD, &added);
        if (answer == HLC_OK) answer = db_do(db, CHECKPOINT_CUT, &before);
        answer = answer == HLC_OK ? db_end_with(db, db->state, true) : db_end(db, answer);
    }
    return end_turn(file, answer);
}

static uint32_t write_checkpoint(hlc_file *file, struct making *making)
{
    making->id = file->newest_id + 1;
    uint32_t answer = cut(file, PIECE_CUT, &nothing);
    if (answer == HLC_OK) answer = copy_store(file, making);
    if (answer == HLC_OK) answer = write_pieces(file, making);
    return answer == HLC_OK ? complete(file, making) : answer;
}

/* The file has this checkpoint: the next one in the background comes after so much more log. The caller has `mutex`, or
 * is the only thread. */
void finish_checkpoint(hlc_file *file, uint64_t place, uint64_t logged, uint64_t len)
{
    uint64_t after = file->options.checkpoint_bytes;
    if (after < len / 2) after = len / 2;
    file->report.checkpoint_place = place;
    file->checkpoint_logged = logged;
    file->due = logged + after < after ? UINT64_MAX : logged + after;
}

/* Where it failed, it is due again after some more log. */
static void end_checkpoint(hlc_file *file, const struct making *making)
{
    pthread_mutex_lock(&file->mutex);
    if (file->newest.id == making->id) {
        finish_checkpoint(file, making->place, making->logged, making->len);
    } else if (file->due <= file->logged) {
        file->due = file->logged + file->options.checkpoint_bytes / 4 + 1;
    }
    pthread_mutex_unlock(&file->mutex);
}

/* Cuts what the two newest checkpoints do not need. */
static uint32_t cut_before(hlc_file *file, const struct saved *older)
{
    struct values place = { .many = 1, .numbers = { older->place } };
    uint32_t answer = cut(file, PIECE_CUT, &nothing);
    return answer == HLC_OK && older->id > 0 ? cut(file, LOG_CUT, &place) : answer;
}

static uint32_t make(hlc_file *file, uint64_t *place)
{
    struct making making = { .output = HLC_NO_OUTPUT };
    struct saved older = file->newest;
    uint32_t answer = write_checkpoint(file, &making);
    hlc_output_drop(&making.output);
    if (answer == HLC_OK) {
        file->newest = (struct saved){ making.id, making.place };
        file->newest_id = making.id;
        answer = cut_before(file, &older);
    }
    end_checkpoint(file, &making);
    if (answer == HLC_OK) *place = making.place;
    return answer;
}

uint32_t checkpoint_make(hlc_file *file, uint64_t *place)
{
    *place = 0;
    pthread_mutex_lock(&file->checkpointing);
    uint32_t answer = make(file, place);
    pthread_mutex_unlock(&file->checkpointing);
    return answer;
}

uint32_t hlc_file_checkpoint(hlc_file *file, uint64_t *place)
{
    return checkpoint_make(file, place);
}

uint32_t hlc_file_copy(hlc_file *file, uint64_t tag, hlc_output *output, size_t *len)
{
    copy_begin(file);
    hlc_store mine = file->store;
    uint32_t answer = hlc_checkpoint_make(&mine, tag, output, len);
    copy_end(file);
    return answer;
}

/* ---- In the background ---- */

static void *watch(void *argument)
{
    hlc_file *file = argument;
    uint64_t place;
    pthread_mutex_lock(&file->mutex);
    while (!file->closing) {
        if (file->logged < file->due) {
            pthread_cond_wait(&file->wake, &file->mutex);
            continue;
        }
        pthread_mutex_unlock(&file->mutex);
        uint32_t answer = checkpoint_make(file, &place);
        pthread_mutex_lock(&file->mutex);
        file->report.background = answer;
    }
    pthread_mutex_unlock(&file->mutex);
    return NULL;
}

/* Starts a thread that gets no signals of the program. */
bool thread_start(pthread_t *thread, void *(*run)(void *), void *argument)
{
    sigset_t all, before;
    sigfillset(&all);
    pthread_sigmask(SIG_SETMASK, &all, &before);
    bool has_started = pthread_create(thread, NULL, run, argument) == 0;
    pthread_sigmask(SIG_SETMASK, &before, NULL);
    return has_started;
}

/* Starts the thread that makes checkpoints. */
uint32_t background_start(hlc_file *file)
{
    if (file->options.checkpoint_bytes == UINT64_MAX) return HLC_OK;
    file->has_background = thread_start(&file->background, watch, file);
    return file->has_background ? HLC_OK : HLC_NO_MEMORY;
}

void background_stop(hlc_file *file)
{
    if (!file->has_background) return;
    pthread_mutex_lock(&file->mutex);
    file->closing = true;
    pthread_cond_signal(&file->wake);
    pthread_mutex_unlock(&file->mutex);
    pthread_join(file->background, NULL);
}
