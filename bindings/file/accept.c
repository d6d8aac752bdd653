/* The store accepts what is on disk. */
#include "file.h"
#include <stdlib.h>

void change_begin(hlc_file *file)
{
    turn_take(&file->changing);
    pthread_rwlock_wrlock(&file->lend);
}

void change_end(hlc_file *file)
{
    pthread_rwlock_unlock(&file->lend);
    turn_give(&file->changing);
}

/* Makes a stamp the horizon, where it is above it. A part of no keys is all it takes. After a damaged log the floor
 * may be below the stamp: then the horizon follows the floor. */
uint32_t raise_horizon(hlc_file *file, uint64_t stamp)
{
    uint64_t floor, horizon, word, kept, bytes, dropped;
    size_t len;
    bool more = false;
    hlc_answer_ignore(hlc_store_floor(&file->store, &floor));
    hlc_answer_ignore(hlc_store_horizon(&file->store, &horizon));
    if (stamp > floor) stamp = floor;
    if (stamp <= horizon) return HLC_OK;
    return hlc_store_vacuum_part(&file->store, stamp, NULL, 0, 0, &word, &kept, &bytes, &dropped, NULL, 0, &len, &more);
}

/* Lets the store accept the rest of an entry. Only memory can be missing: the links took all of its records. */
static uint32_t accept_entry(hlc_file *file, struct entry *entry)
{
    size_t used, many;
    uint64_t threshold, word;
    uint32_t answer = hlc_store_apply_records(&file->store, entry->bytes + entry->used, entry->len - entry->used, &used,
                                              &many, &threshold, &word);
    entry->used += used;
    if (answer == HLC_OK) answer = raise_horizon(file, entry->horizon);
    if (answer != HLC_OK) return answer;
    file->accepted += entry->len;
    file->applied = entry->place;
    file->applied_sum = entry->sum;
    return HLC_OK;
}

static void leave_behind(hlc_file *file, struct entry *entry)
{
    if (!file->behind) file->behind_end = &file->behind;
    entry->next = NULL;
    *file->behind_end = entry;
    file->behind_end = &entry->next;
    file->waiting++;
}

static void drop_first(hlc_file *file)
{
    struct entry *first = file->behind;
    file->behind = first->next;
    file->waiting--;
    free(first);
}

void drop_behind(hlc_file *file)
{
    while (file->behind) drop_first(file);
}

/* Accepts what stayed behind. The caller has begun a change. */
uint32_t accept_behind(hlc_file *file)
{
    while (file->behind) {
        uint32_t answer = accept_entry(file, file->behind);
        if (answer != HLC_OK) return answer;
        drop_first(file);
    }
    return HLC_OK;
}

/* Accepts the entries of a group that was written. From the first one on for which there is no memory they stay
 * behind, and are not their callers' any more. */
void accept_group(hlc_file *file, struct call *group)
{
    uint32_t answer = HLC_OK;
    change_begin(file);
    for (struct call *call = group; call; call = call->next) {
        if (answer == HLC_OK) answer = accept_entry(file, call->entry);
        call->answer = answer == HLC_OK ? HLC_OK : HLC_FILE_LATER;
        if (answer == HLC_OK) continue;
        leave_behind(file, call->entry);
        call->entry = NULL;
    }
    change_end(file);
}
