/* A VFS of SQLite over the usual one, which fails, cuts short or forgets one write, sync or truncation, or loses power
 * there: then nothing is done any more, and of what was not synced each sector is there or not, by chance. It syncs
 * nothing itself, since the tests end no machine. */
#ifndef HLC_FILE_SHIM_H
#define HLC_FILE_SHIM_H
#include <sqlite3.h>
#include <stdbool.h>
#include <stdint.h>
#include <stdio.h>
#include <stdlib.h>
#include <string.h>

enum fault {
    NO_FAULT,
    FAILS,         /* nothing is done */
    FAILS_LATE,    /* it is done, and reported as failed */
    FAILS_SHORT,   /* half of a write is done */
    IS_FULL,       /* nothing is done, since the disk is full */
    IS_FORGOTTEN,  /* nothing is done, and reported as done */
    DROPS_SYNC,    /* a sync fails, and what it should have brought to disk never gets there; some time later power is
                      lost */
    LOSES_POWER
};

static struct {
    enum fault fault;
    bool lasts;   /* whether all later ones fail too */
    long later;   /* of DROPS_SYNC: after how many operations power is lost */
    long at;      /* the number of the operation, from 1 on */
    long done;    /* how many there were */
    bool met;     /* whether the fault came */
    bool is_sync; /* and at a sync */
    bool is_room; /* and at a write of zeros, which makes room in the write-ahead log */
    sqlite3_int64 forgotten; /* the place of a page of the database whose writes are forgotten too, or 0 */
} shim;

/* ---- What is on disk ---- */

enum { SECTOR = 512, MOST_FILES = 16 };

struct change {
    struct change *next;
    bool truncates;
    sqlite3_int64 at;
    int len;
    uint8_t bytes[];
};

struct kept {
    char path[512];
    uint8_t *bytes; /* as they are synced */
    sqlite3_int64 len;
    bool exists;
    struct change *first, **last;
};

static struct kept kept_files[MOST_FILES];

static struct kept *kept_of(const char *path)
{
    struct kept *room = NULL;
    for (int i = 0; i < MOST_FILES; i++) {
        if (strcmp(kept_files[i].path, path) == 0) return &kept_files[i];
        if (!room && !kept_files[i].path[0]) room = &kept_files[i];
    }
    if (!room) abort();
    *room = (struct kept){ 0 };
    snprintf(room->path, sizeof room->path, "%s", path);
    room->last = &room->first;
    FILE *file = fopen(path, "rb");
    if (!file) return room;
    fseek(file, 0, SEEK_END);
    room->len = ftell(file);
    room->bytes = malloc((size_t)room->len + 1);
    rewind(file);
    if (fread(room->bytes, 1, (size_t)room->len, file) != (size_t)room->len) abort();
    room->exists = room->len > 0;
    fclose(file);
    return room;
}

static void keep(struct kept *kept, bool truncates, sqlite3_int64 at, const void *bytes, int len)
{
    struct change *change = malloc(sizeof *change + (size_t)len);
    *change = (struct change){ NULL, truncates, at, len };
    if (len > 0) memcpy(change->bytes, bytes, (size_t)len);
    *kept->last = change;
    kept->last = &change->next;
}

static void set_len(struct kept *kept, sqlite3_int64 len)
{
    kept->bytes = realloc(kept->bytes, (size_t)len + 1);
    if (len > kept->len) memset(kept->bytes + kept->len, 0, (size_t)(len - kept->len));
    kept->len = len;
    kept->exists = true;
}

/* Brings a change to disk, or by chance those of its sectors that the random words take. */
static void bring(struct kept *kept, const struct change *change, uint64_t *random)
{
    if (change->truncates && (!random || rand_r((unsigned *)random) % 2)) set_len(kept, change->at);
    if (change->truncates) return;
    for (sqlite3_int64 at = change->at, end = change->at + change->len; at < end;) {
        sqlite3_int64 next = (at / SECTOR + 1) * SECTOR;
        if (next > end) next = end;
        if (!random || rand_r((unsigned *)random) % 2) {
            if (next > kept->len) set_len(kept, next);
            memcpy(kept->bytes + at, change->bytes + (at - change->at), (size_t)(next - at));
        }
        at = next;
    }
}

static void drop_all(struct kept *kept)
{
    while (kept->first) {
        struct change *change = kept->first;
        kept->first = change->next;
        free(change);
    }
    kept->last = &kept->first;
}

static void bring_all(struct kept *kept, uint64_t *random)
{
    for (struct change *change = kept->first; change; change = change->next) bring(kept, change, random);
    drop_all(kept);
}

static void forget_kept(struct kept *kept)
{
    drop_all(kept);
    free(kept->bytes);
    *kept = (struct kept){ 0 };
}

/* Makes the files what is on disk after a loss of power. */
static inline void power_up(uint64_t seed)
{
    uint64_t random = seed;
    for (int i = 0; i < MOST_FILES; i++) {
        struct kept *kept = &kept_files[i];
        if (!kept->path[0]) continue;
        bring_all(kept, &random);
        remove(kept->path);
        if (kept->exists) {
            FILE *file = fopen(kept->path, "wb");
            if (fwrite(kept->bytes, 1, (size_t)kept->len, file) != (size_t)kept->len) abort();
            fclose(file);
        }
        forget_kept(kept);
    }
}

/* ---- The VFS ---- */

struct shim_file {
    sqlite3_file base;
    char path[512];
    sqlite3_file *real;
};

static sqlite3_vfs *real_vfs;

#define REAL(file) (((struct shim_file *)(file))->real)
#define CALL(file, method, ...) REAL(file)->pMethods->method(REAL(file), __VA_ARGS__)

/* Counts an operation, and says which fault it meets. */
static enum fault meets(bool is_sync)
{
    shim.done++;
    if (shim.fault == DROPS_SYNC && shim.met && shim.done > shim.at + shim.later) {
        shim.lasts = true;
        return LOSES_POWER;
    }
    if (shim.at == 0 || shim.done < shim.at || (shim.done > shim.at && !shim.lasts)) return NO_FAULT;
    if (shim.fault == DROPS_SYNC && !is_sync) return NO_FAULT;
    if (!shim.met) shim.is_sync = is_sync;
    shim.met = true;
    return shim.fault;
}

static int shim_close(sqlite3_file *file)
{
    int code = REAL(file)->pMethods->xClose(REAL(file));
    free(REAL(file));
    return code;
}

static int shim_read(sqlite3_file *file, void *out, int len, sqlite3_int64 at)
{
    return CALL(file, xRead, out, len, at);
}

/* A page in the write-ahead log is written after its head. */
static bool makes_room(const uint8_t *bytes, int len)
{
    enum { MOST_PAGE = 65536 };
    return len > MOST_PAGE && bytes[0] == 0 && memcmp(bytes, bytes + 1, (size_t)len - 1) == 0;
}

static int shim_write(sqlite3_file *file, const void *bytes, int len, sqlite3_int64 at)
{
    bool had_met = shim.met;
    enum fault fault = meets(false);
    if (shim.met && !had_met) shim.is_room = makes_room(bytes, len);
    int code = fault == IS_FULL ? SQLITE_FULL : SQLITE_IOERR_WRITE;
    if (fault == FAILS || fault == IS_FULL || fault == LOSES_POWER) return code;
    const char *path = ((struct shim_file *)file)->path;
    bool is_page = shim.forgotten > 0 && at == shim.forgotten && !strstr(path, "-wal");
    if (fault == IS_FORGOTTEN || is_page) return SQLITE_OK;
    if (fault == FAILS_SHORT) len /= 2;
    keep(kept_of(path), false, at, bytes, len);
    int real = CALL(file, xWrite, bytes, len, at);
    return fault == NO_FAULT ? real : code;
}

static int shim_truncate(sqlite3_file *file, sqlite3_int64 len)
{
    enum fault fault = meets(false);
    if (fault == IS_FORGOTTEN) return SQLITE_OK;
    if (fault != NO_FAULT && fault != FAILS_LATE) return SQLITE_IOERR_TRUNCATE;
    keep(kept_of(((struct shim_file *)file)->path), true, len, NULL, 0);
    int real = CALL(file, xTruncate, len);
    return fault == NO_FAULT ? real : SQLITE_IOERR_TRUNCATE;
}

static int shim_sync(sqlite3_file *file, int flags)
{
    (void)flags;
    enum fault fault = meets(true);
    if (fault == IS_FORGOTTEN) return SQLITE_OK;
    if (fault == DROPS_SYNC) drop_all(kept_of(((struct shim_file *)file)->path));
    if (fault != NO_FAULT && fault != FAILS_LATE) return SQLITE_IOERR_FSYNC;
    bring_all(kept_of(((struct shim_file *)file)->path), NULL);
    kept_of(((struct shim_file *)file)->path)->exists = true;
    return fault == NO_FAULT ? SQLITE_OK : SQLITE_IOERR_FSYNC;
}

static int shim_size(sqlite3_file *file, sqlite3_int64 *len)
{
    return CALL(file, xFileSize, len);
}

static int shim_lock(sqlite3_file *file, int lock)
{
    return CALL(file, xLock, lock);
}

static int shim_unlock(sqlite3_file *file, int lock)
{
    return CALL(file, xUnlock, lock);
}

static int shim_reserved(sqlite3_file *file, int *out)
{
    return CALL(file, xCheckReservedLock, out);
}

static int shim_control(sqlite3_file *file, int what, void *argument)
{
    return CALL(file, xFileControl, what, argument);
}

static int shim_sector(sqlite3_file *file)
{
    (void)file;
    return SECTOR;
}

/* No promise of the disk makes SQLite leave out a sync. */
static int shim_device(sqlite3_file *file)
{
    (void)file;
    return 0;
}

static const sqlite3_io_methods shim_methods = {
    .iVersion = 1,
    .xClose = shim_close,
    .xRead = shim_read,
    .xWrite = shim_write,
    .xTruncate = shim_truncate,
    .xSync = shim_sync,
    .xFileSize = shim_size,
    .xLock = shim_lock,
    .xUnlock = shim_unlock,
    .xCheckReservedLock = shim_reserved,
    .xFileControl = shim_control,
    .xSectorSize = shim_sector,
    .xDeviceCharacteristics = shim_device,
};

static int shim_open(sqlite3_vfs *vfs, const char *name, sqlite3_file *file, int flags, int *out)
{
    (void)vfs;
    struct shim_file *made = (struct shim_file *)file;
    made->base.pMethods = NULL;
    made->real = calloc(1, (size_t)real_vfs->szOsFile);
    if (name) snprintf(made->path, sizeof made->path, "%s", name);
    int code = real_vfs->xOpen(real_vfs, name, made->real, flags, out);
    if (code != SQLITE_OK) {
        free(made->real);
        return code;
    }
    made->base.pMethods = &shim_methods;
    kept_of(made->path);
    return SQLITE_OK;
}

static int shim_delete(sqlite3_vfs *vfs, const char *name, int sync)
{
    (void)vfs;
    (void)sync;
    if (shim.met && shim.lasts) return SQLITE_IOERR_DELETE;
    forget_kept(kept_of(name));
    return real_vfs->xDelete(real_vfs, name, 0);
}

static void shim_register(void)
{
    static sqlite3_vfs vfs;
    sqlite3_initialize();
    real_vfs = sqlite3_vfs_find(NULL);
    vfs = *real_vfs;
    vfs.zName = "shim";
    vfs.szOsFile = sizeof(struct shim_file);
    vfs.xOpen = shim_open;
    vfs.xDelete = shim_delete;
    sqlite3_vfs_register(&vfs, 1);
}

/* The next operations meet this fault, or none where `at` is 0. */
static void shim_set(enum fault fault, bool lasts, long at, long later)
{
    shim.later = later;
    for (int i = 0; i < MOST_FILES; i++) {
        if (kept_files[i].path[0]) forget_kept(&kept_files[i]);
    }
    shim.fault = fault;
    shim.lasts = lasts;
    shim.at = at;
    shim.done = 0;
    shim.met = false;
    shim.is_sync = shim.is_room = false;
}
#endif
