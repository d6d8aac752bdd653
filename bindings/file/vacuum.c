/* A vacuum in parts, whose threshold is on disk first. */
#include "file.h"
#include <string.h>

enum { PART_KEYS = 1024, MOST_KEY = 255 };

struct vacuumed {
    uint64_t word;
    uint64_t kept;
    uint64_t bytes;
    uint64_t dropped;
};

/* Vacuums the keys above `after`, which becomes the last of them. A threshold that was appended since the part before
 * may have raised the horizon above the stamp. */
static uint32_t vacuum_part(hlc_file *file, uint64_t stamp, uint8_t *after, size_t *after_len, struct vacuumed *sum,
                            bool *more)
{
    uint64_t horizon, kept, bytes, dropped;
    uint8_t last[MOST_KEY];
    size_t len;
    change_begin(file);
    hlc_answer_ignore(hlc_store_horizon(&file->store, &horizon));
    if (stamp < horizon) stamp = horizon;
    uint32_t answer = hlc_store_vacuum_part(&file->store, stamp, after, *after_len, PART_KEYS, &sum->word, &kept,
                                            &bytes, &dropped, last, sizeof last, &len, more);
    change_end(file);
    if (answer != HLC_OK) return answer;
    memcpy(after, last, len);
    *after_len = len;
    sum->kept += kept;
    sum->bytes += bytes;
    sum->dropped += dropped;
    return HLC_OK;
}

/* Vacuums to a stamp. The caller has `vacuuming`, so that the threshold on disk is not below a horizon in memory. It is
 * appended also where the stamp is the horizon, which may not be synced. */
static uint32_t vacuum(hlc_file *file, uint64_t stamp, struct vacuumed *sum)
{
    hlc_store mine;
    uint8_t after[MOST_KEY];
    size_t after_len = 0;
    bool more = true;
    hlc_file_read_begin(file, &mine);
    uint32_t answer = hlc_store_check_vacuum(&mine, stamp, &sum->word);
    hlc_file_read_end(file);
    if (answer == HLC_OK) answer = append_threshold(file, stamp);
    while (answer == HLC_OK && more) answer = vacuum_part(file, stamp, after, &after_len, sum, &more);
    return answer;
}

static uint32_t tell(uint32_t answer, const struct vacuumed *sum, uint64_t *word, uint64_t *kept, uint64_t *bytes,
                     uint64_t *dropped)
{
    *word = sum->word;
    *kept = sum->kept;
    *bytes = sum->bytes;
    *dropped = sum->dropped;
    return answer;
}

uint32_t hlc_file_vacuum_to(hlc_file *file, uint64_t stamp, uint64_t *word, uint64_t *kept, uint64_t *bytes,
                            uint64_t *dropped)
{
    struct vacuumed sum = { 0 };
    pthread_mutex_lock(&file->vacuuming);
    uint32_t answer = vacuum(file, stamp, &sum);
    pthread_mutex_unlock(&file->vacuuming);
    return tell(answer, &sum, word, kept, bytes, dropped);
}

uint32_t hlc_file_vacuum_older(hlc_file *file, uint64_t milliseconds, uint64_t *word, uint64_t *kept, uint64_t *bytes,
                               uint64_t *dropped)
{
    struct vacuumed sum = { 0 };
    hlc_store mine;
    uint64_t now = system_reading(), floor, horizon;
    if (milliseconds > now) return tell(HLC_FILE_NO_STAMP, &sum, word, kept, bytes, dropped);
    uint64_t stamp = PHYSICAL(now - milliseconds);
    pthread_mutex_lock(&file->vacuuming);
    hlc_file_read_begin(file, &mine);
    hlc_answer_ignore(hlc_store_floor(&mine, &floor));
    hlc_answer_ignore(hlc_store_horizon(&mine, &horizon));
    hlc_file_read_end(file);
    if (stamp > floor) stamp = floor;
    if (stamp < horizon) stamp = horizon;
    uint32_t answer = vacuum(file, stamp, &sum);
    pthread_mutex_unlock(&file->vacuuming);
    return tell(answer, &sum, word, kept, bytes, dropped);
}
