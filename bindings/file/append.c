/* Batches under way: checked against the links in turn, and written by one thread for a group. */
#include "file.h"
#include <stdlib.h>
#include <string.h>
#include <unistd.h>

/* ---- Turns at SQLite, first come first served ---- */

void turn_take(struct turns *turns)
{
    pthread_mutex_lock(&turns->mutex);
    uint64_t mine = turns->next++;
    while (turns->serving != mine) pthread_cond_wait(&turns->changed, &turns->mutex);
    pthread_mutex_unlock(&turns->mutex);
}

void turn_give(struct turns *turns)
{
    pthread_mutex_lock(&turns->mutex);
    turns->serving++;
    pthread_cond_broadcast(&turns->changed);
    pthread_mutex_unlock(&turns->mutex);
}

/* ---- What is under way ---- */

struct entry *entry_new(size_t len)
{
    struct entry *entry = malloc(sizeof *entry + len);
    if (entry) *entry = (struct entry){ .len = len };
    return entry;
}

/* Keeps a failure of the file, as hlc_file_status returns it. The caller has the turn and `mutex`. */
uint32_t note(hlc_file *file, uint32_t answer, uint64_t word)
{
    file->report.writes = file->db.doubt == NO_DOUBT ? HLC_OK
                          : file->db.doubt == SEALED ? HLC_FILE_SEALED : HLC_FILE_UNKNOWN;
    if (answer < HLC_FILE_IN_USE || answer == HLC_FILE_SEALED) return answer;
    file->report.failure = answer;
    file->report.sqlite = answer == HLC_FILE_LATER ? 0 : file->db.code;
    file->report.word = word;
    return answer;
}

/* Sets the links and the thresholds back to what is on disk, after a group was refused. The caller has the turn and
 * `mutex`. */
static void forget_refused(hlc_file *file)
{
    struct record record;
    bool came_before;
    uint64_t word;
    pthread_rwlock_rdlock(&file->lend);
    hlc_store mine = file->store;
    links_of_store(&file->links, &mine);
    for (struct entry *entry = file->behind; entry; entry = entry->next) {
        for (size_t at = 0; at < entry->len; at += record.len) {
            record_read(entry->bytes + at, entry->len - at, &record, &word);
            links_take(&file->links, &record, &came_before, &word);
        }
    }
    pthread_rwlock_unlock(&file->lend);
    file->threshold = file->db.state.threshold;
    file->horizon = file->db.state.horizon;
}

static void rise(uint64_t *greatest, uint64_t stamp)
{
    if (stamp > *greatest) *greatest = stamp;
}

/* Copies those records into an entry that did not come before, and moves the links on by them; or changes nothing. The
 * caller has `mutex`. */
uint32_t entry_check(hlc_file *file, struct entry *entry, const uint8_t *bytes, size_t len, size_t *many,
                     uint64_t *word)
{
    struct record record;
    bool came_before;
    entry->len = 0;
    links_copy(&file->undo, &file->links);
    for (size_t at = 0; at < len; at += record.len, ++*many) {
        uint32_t answer = record_read(bytes + at, len - at, &record, word);
        if (answer == HLC_OK) answer = links_take(&file->links, &record, &came_before, word);
        if (answer != HLC_OK) {
            links_copy(&file->links, &file->undo);
            return answer;
        }
        if (came_before) continue;
        memmove(entry->bytes + entry->len, bytes + at, record.len);
        entry->len += record.len;
        bool is_threshold = record.kind == RECORD_THRESHOLD;
        rise(is_threshold ? &entry->threshold : &entry->stamp, record.stamp);
    }
    *word = 0;
    return HLC_OK;
}

/* ---- Groups ---- */

/* Takes the first call from the queue, and those behind it that may share its transaction. */
static struct call *take_group(hlc_file *file)
{
    struct call *group = file->queue, *last = group;
    if (group->promise != HLC_FILE_SYNCED) {
        while (last->next && last->next->promise == group->promise) last = last->next;
    }
    file->queue = last->next;
    last->next = NULL;
    return group;
}

/* Raises what the state keeps by an entry. A stamp that is not on disk when its caller gets it is covered by a clock
 * that is. Returns whether that needs a sync. */
static bool cover(struct state *state, const struct entry *entry, uint32_t promise)
{
    uint64_t clock = entry->ahead;
    if (promise == HLC_FILE_WRITTEN && entry->stamp > state->clock) clock = clock_ahead(entry->stamp);
    bool sync = clock > state->clock;
    rise(&state->clock, clock);
    rise(&state->clock, entry->stamp);
    state->threshold = entry->threshold;
    state->horizon = entry->horizon;
    return sync;
}

static uint32_t write_group(hlc_file *file, struct call *group)
{
    struct db *db = &file->db;
    struct state state = db->state;
    bool sync = group->promise != HLC_FILE_WRITTEN;
    for (struct call *call = group; call; call = call->next) {
        if (cover(&state, call->entry, call->promise)) sync = true;
    }
    uint64_t before = state.place;
    uint32_t answer = db_begin(db, sync);
    if (answer != HLC_OK) return answer;
    for (struct call *call = group; call && answer == HLC_OK; call = call->next) {
        struct entry *entry = call->entry;
        if (entry->len > 0) answer = db_add_log(db, &state, entry->bytes, entry->len);
        entry->place = state.place;
        entry->sum = state.sum;
    }
    return answer == HLC_OK ? db_end_with(db, state, state.place == before) : db_end(db, answer);
}

/* Writes and accepts a group, unless the store has no memory for what is on disk already. len: the bytes of records
 * that were written. */
static uint32_t perform(hlc_file *file, struct call *group, uint64_t *len)
{
    change_begin(file);
    uint32_t answer = accept_behind(file);
    change_end(file);
    if (answer == HLC_OK) answer = write_group(file, group);
    *len = 0;
    if (answer != HLC_OK) return answer;
    for (struct call *call = group; call; call = call->next) *len += call->entry->len;
    accept_group(file, group);
    return HLC_OK;
}

/* Ends calls, all with this answer if it is a refusal. Returns the answer of the last. */
static uint32_t end_calls(struct call *call, uint32_t answer)
{
    uint32_t last = answer;
    for (struct call *next; call; call = next) {
        next = call->next;
        if (answer != HLC_OK) call->answer = answer;
        last = call->answer;
        call->done = true;
    }
    return last;
}

/* Ends a group. Where it was refused, the calls that wait behind it may build on it, and are refused too. The caller
 * has the turn and `mutex`. */
static void end_group(hlc_file *file, struct call *group, uint32_t answer, uint64_t len)
{
    uint32_t last = end_calls(group, answer);
    if (answer != HLC_OK) {
        end_calls(file->queue, answer);
        file->queue = NULL;
        forget_refused(file);
    }
    file->ceiling = file->db.state.clock;
    file->report.place = file->db.state.place;
    file->logged += len;
    note(file, last, 0);
}

/* Writes the first group of the queue. The caller has `mutex`, and has it again after the call. */
static void lead(hlc_file *file)
{
    uint64_t len;
    uint32_t wait = file->queue->promise == HLC_FILE_GROUP ? file->options.group_microseconds : 0;
    file->leading = true;
    pthread_mutex_unlock(&file->mutex);
    if (wait > 0) usleep(wait);
    turn_take(&file->turns);
    pthread_mutex_lock(&file->mutex);
    struct call *group = take_group(file);
    pthread_mutex_unlock(&file->mutex);
    uint32_t answer = perform(file, group, &len);
    pthread_mutex_lock(&file->mutex);
    end_group(file, group, answer, len);
    file->leading = false;
    pthread_cond_broadcast(&file->changed);
    if (file->logged >= file->due) pthread_cond_signal(&file->wake);
    pthread_mutex_unlock(&file->mutex);
    answer = db_shorten(&file->db);
    db_lengthen(&file->db);
    pthread_mutex_lock(&file->mutex);
    note(file, answer, 0);
    turn_give(&file->turns);
}

/* Returns the greatest threshold of an entry that a floor reached, or 0. */
static uint64_t reached_threshold(const struct entry *entry, uint64_t floor)
{
    struct record record;
    uint64_t greatest = 0, fault;
    for (size_t at = 0; at < entry->len; at += record.len) {
        record_read(entry->bytes + at, entry->len - at, &record, &fault);
        if (record.kind == RECORD_THRESHOLD && record.stamp <= floor) rise(&greatest, record.stamp);
    }
    return greatest;
}

/* Raises the file's clock and its thresholds by an entry whose records the links have taken. A threshold becomes the
 * horizon once the floor has reached it; of those that wait for the floor, the greatest is kept. */
static void take_entry(hlc_file *file, struct entry *entry)
{
    bool waits = file->threshold > file->horizon;
    uint64_t floor = waits || entry->threshold > 0 ? links_floor(&file->links) : 0;
    rise(&file->clock, entry->stamp);
    if (waits && file->threshold <= floor) rise(&file->horizon, file->threshold);
    if (entry->threshold > 0) rise(&file->horizon, reached_threshold(entry, floor));
    rise(&file->threshold, entry->threshold);
    entry->threshold = file->threshold;
    entry->horizon = file->horizon;
}

/* Brings an entry through the queue. It is the caller's again afterwards, or NULL where it stays behind. The caller has
 * `mutex`. */
uint32_t entry_append(hlc_file *file, struct entry **entry, uint32_t promise)
{
    struct call call = { .entry = *entry, .promise = promise };
    take_entry(file, *entry);
    struct call **end = &file->queue;
    while (*end) end = &(*end)->next;
    *end = &call;
    while (!call.done) {
        if (file->leading) pthread_cond_wait(&file->changed, &file->mutex);
        else lead(file);
    }
    *entry = call.entry;
    return call.answer;
}
