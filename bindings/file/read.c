/* The calls that read, each under the reading side of the lock with a copy of the handle; and snapshots. */
#include "file.h"

uint32_t hlc_file_read_begin(hlc_file *file, hlc_store *mine)
{
    pthread_rwlock_rdlock(&file->lend);
    *mine = file->store;
    return HLC_OK;
}

void hlc_file_read_end(hlc_file *file)
{
    pthread_rwlock_unlock(&file->lend);
}

uint32_t hlc_file_open_snapshot(hlc_file *file, uint64_t stamp, uint64_t *id)
{
    *id = 0;
    change_begin(file);
    uint32_t answer = accept_behind(file);
    if (answer == HLC_OK) answer = hlc_snapshot_open(&file->store, stamp, id);
    change_end(file);
    return answer;
}

uint32_t hlc_file_open_snapshot_at_floor(hlc_file *file, uint64_t *id, uint64_t *stamp)
{
    *id = *stamp = 0;
    change_begin(file);
    uint32_t answer = accept_behind(file);
    if (answer == HLC_OK) answer = hlc_snapshot_open_at_floor(&file->store, id, stamp);
    change_end(file);
    return answer;
}

/* In the child of a fork a thread that is missing may hold the locks. */
uint32_t hlc_file_close_snapshot(hlc_file *file, uint64_t id, uint64_t *stamp)
{
    *stamp = 0;
    if (!db_is_ours(&file->db)) return HLC_OK;
    change_begin(file);
    uint32_t answer = hlc_snapshot_close(&file->store, id, stamp);
    change_end(file);
    return answer;
}

/* Makes one reading call with the store of a file. */
#define READ(call, ...)                                   \
    do {                                                  \
        hlc_store mine;                                   \
        hlc_file_read_begin(file, &mine);                 \
        uint32_t answer = call(&mine, __VA_ARGS__);       \
        hlc_file_read_end(file);                          \
        return answer;                                    \
    } while (0)

uint32_t hlc_file_read(hlc_file *file, uint64_t id, const uint8_t *key, size_t key_len, uint8_t *out, size_t out_len,
                       size_t *len)
{
    READ(hlc_snapshot_read, id, key, key_len, out, out_len, len);
}

uint32_t hlc_file_scan(hlc_file *file, uint64_t id, const uint8_t *from, size_t from_len, const uint8_t *to,
                       size_t to_len, uint8_t *out, size_t out_len, size_t *len, size_t *many)
{
    READ(hlc_snapshot_scan, id, from, from_len, to, to_len, out, out_len, len, many);
}

uint32_t hlc_file_scan_back(hlc_file *file, uint64_t id, const uint8_t *from, size_t from_len, const uint8_t *to,
                            size_t to_len, uint8_t *out, size_t out_len, size_t *len, size_t *many)
{
    READ(hlc_snapshot_scan_back, id, from, from_len, to, to_len, out, out_len, len, many);
}

uint32_t hlc_file_count(hlc_file *file, uint64_t id, const uint8_t *from, size_t from_len, const uint8_t *to,
                        size_t to_len, uint64_t *many)
{
    READ(hlc_snapshot_count, id, from, from_len, to, to_len, many);
}

uint32_t hlc_file_floor(hlc_file *file, uint64_t *stamp)
{
    READ(hlc_store_floor, stamp);
}

uint32_t hlc_file_horizon(hlc_file *file, uint64_t *stamp)
{
    READ(hlc_store_horizon, stamp);
}
