/* Opening, closing, and how a file is. */
#include "file.h"
#include <errno.h>
#include <fcntl.h>
#include <limits.h>
#include <stdio.h>
#include <stdlib.h>
#include <string.h>
#include <sys/file.h>
#include <sys/stat.h>
#include <unistd.h>

enum { CHECKPOINT_BYTES = 64 << 20, MOST_STARTING = 64, MOST_WAIT = 1000000 };

/* ---- The path and the lock ---- */

/* Returns the path of a name in the folder where another path lies, or NULL. */
static char *path_beside(const char *path, const char *name)
{
    const char *slash = strrchr(path, '/');
    char *folder = slash ? strndup(path, (size_t)(slash - path) + 1) : strdup("."), *whole = NULL;
    char *full = folder ? realpath(folder, NULL) : NULL;
    if (full && asprintf(&whole, "%s/%s", full, name) < 0) whole = NULL;
    free(full);
    free(folder);
    return whole;
}

/* Returns the one name of a path, whether there is a file or not, or NULL. A link to a file that is missing is followed
 * as SQLite follows it: the lock and the write-ahead log lie beside that file, not beside the link. */
static char *full_path(const char *path)
{
    char target[PATH_MAX], *full = realpath(path, NULL);
    if (full || errno != ENOENT) return full;
    const char *slash = strrchr(path, '/'), *name = slash ? slash + 1 : path;
    char *whole = *name ? path_beside(path, name) : NULL;
    ssize_t len = whole ? readlink(whole, target, sizeof target - 1) : -1;
    if (len < 0) return whole;
    target[len] = 0;
    char *next = target[0] == '/' ? strdup(target) : path_beside(whole, target);
    free(whole);
    full = next ? full_path(next) : NULL;
    free(next);
    return full;
}

/* A lock of its own file: those of POSIX on the file itself end when any descriptor of it is closed in this process. */
static uint32_t take_lock(hlc_file *file, const char *path)
{
    char *name = NULL;
    if (asprintf(&name, "%s-lock", path) < 0) return HLC_NO_MEMORY;
    file->lock = open(name, O_RDWR | O_CREAT | O_CLOEXEC, 0666);
    free(name);
    if (file->lock < 0) return HLC_FILE_CANNOT_OPEN;
    if (flock(file->lock, LOCK_EX | LOCK_NB) == 0) return HLC_OK;
    return errno == EWOULDBLOCK ? HLC_FILE_IN_USE : HLC_FILE_CANNOT_OPEN;
}

/* Refuses what SQLite would open without its write-ahead log: a file with a second name, whose log may lie beside the
 * other one; and an empty file, whose log SQLite would delete. */
static uint32_t check_log(const char *path)
{
    struct stat found = { 0 }, log = { 0 };
    char *name = NULL;
    if (stat(path, &found) == 0 && found.st_nlink > 1) return HLC_FILE_CANNOT_OPEN;
    if (asprintf(&name, "%s-wal", path) < 0) return HLC_NO_MEMORY;
    bool has_log = stat(name, &log) == 0 && log.st_size > 0;
    free(name);
    return has_log && found.st_size == 0 ? HLC_FILE_CORRUPT : HLC_OK;
}

/* Syncs the names of the file and of its log: SQLite does not say where it cannot. */
static uint32_t sync_folder(const char *path)
{
    char *name = strndup(path, (size_t)(strrchr(path, '/') - path) + 1);
    if (!name) return HLC_NO_MEMORY;
    int folder = open(name, O_RDONLY | O_DIRECTORY | O_CLOEXEC);
    free(name);
    if (folder < 0) return HLC_FILE_CANNOT_OPEN;
    /* Some file systems have no sync of a folder. */
    bool synced = fsync(folder) == 0 || errno == EINVAL;
    close(folder);
    return synced ? HLC_OK : HLC_FILE_IO;
}

/* ---- Options ---- */

static uint32_t set_options(hlc_file *file, const hlc_file_options *given)
{
    hlc_file_options *options = &file->options;
    size_t size = given ? given->size : 0;
    if (size > sizeof *options || (size > 0 && size < sizeof *options)) return HLC_FILE_BAD_OPTION;
    if (given) *options = *given;
    if (options->nodes == 0) options->nodes = 1;
    if (options->promise == HLC_FILE_DEFAULT) options->promise = HLC_FILE_SYNCED;
    if (options->checkpoint_bytes == 0) options->checkpoint_bytes = CHECKPOINT_BYTES;
    bool known = (options->flags & ~(uint32_t)(HLC_FILE_MUST_EXIST | HLC_FILE_KEEP_BEFORE_DAMAGE)) == 0;
    bool in_range = options->nodes <= MOST_STARTING && options->promise <= HLC_FILE_WRITTEN;
    return known && in_range && options->group_microseconds <= MOST_WAIT ? HLC_OK : HLC_FILE_BAD_OPTION;
}

/* ---- How a file is ---- */

static bool is_of_this_version(const hlc_file_state *state)
{
    return state->size == 0 || state->size == sizeof *state;
}

static void tell(const hlc_file_state *report, hlc_file_state *state)
{
    *state = *report;
    state->size = sizeof *state;
}

uint32_t hlc_file_status(hlc_file *file, hlc_file_state *state)
{
    if (!is_of_this_version(state)) return HLC_FILE_BAD_OPTION;
    pthread_rwlock_rdlock(&file->lend);
    uint64_t waiting = file->waiting;
    pthread_rwlock_unlock(&file->lend);
    pthread_mutex_lock(&file->mutex);
    hlc_file_state report = file->report;
    report.waiting = waiting;
    report.clock = file->clock;
    report.log_bytes = file->logged - file->checkpoint_logged;
    pthread_mutex_unlock(&file->mutex);
    tell(&report, state);
    return HLC_OK;
}

/* ---- The file ---- */

static void turns_init(struct turns *turns)
{
    pthread_mutex_init(&turns->mutex, NULL);
    pthread_cond_init(&turns->changed, NULL);
}

static void turns_destroy(struct turns *turns)
{
    pthread_mutex_destroy(&turns->mutex);
    pthread_cond_destroy(&turns->changed);
}

static hlc_file *file_new(void)
{
    pthread_rwlockattr_t writers_first;
    hlc_file *file = malloc(sizeof *file);
    if (!file) return NULL;
    memset(file, 0, sizeof *file);
    file->lock = -1;
    file->store = (hlc_store)HLC_CLOSED_STORE;
    turns_init(&file->turns);
    turns_init(&file->changing);
    pthread_mutex_init(&file->checkpointing, NULL);
    pthread_mutex_init(&file->vacuuming, NULL);
    pthread_mutex_init(&file->mutex, NULL);
    pthread_cond_init(&file->changed, NULL);
    pthread_cond_init(&file->wake, NULL);
    pthread_rwlockattr_init(&writers_first);
    pthread_rwlockattr_setkind_np(&writers_first, PTHREAD_RWLOCK_PREFER_WRITER_NONRECURSIVE_NP);
    pthread_rwlock_init(&file->lend, &writers_first);
    pthread_rwlockattr_destroy(&writers_first);
    return file;
}

/* The lock ends here, though a child of a fork may have its descriptor open. */
static void give_lock(hlc_file *file)
{
    if (file->lock < 0) return;
    flock(file->lock, LOCK_UN);
    close(file->lock);
}

/* The lock ends last, when nothing of the file is used any more. */
static void file_free(hlc_file *file)
{
    db_close(&file->db);
    drop_behind(file);
    hlc_store_close(&file->store);
    give_lock(file);
    turns_destroy(&file->turns);
    turns_destroy(&file->changing);
    pthread_mutex_destroy(&file->checkpointing);
    pthread_mutex_destroy(&file->vacuuming);
    pthread_mutex_destroy(&file->mutex);
    pthread_cond_destroy(&file->changed);
    pthread_cond_destroy(&file->wake);
    pthread_rwlock_destroy(&file->lend);
    free(file);
}

static uint32_t open_locked(hlc_file *file, const char *path)
{
    bool created = false, may_create = !(file->options.flags & HLC_FILE_MUST_EXIST);
    uint64_t word = 0;
    uint32_t answer = db_open(&file->db, path, may_create, file->options.nodes, &created, &word);
    if (answer == HLC_OK) answer = recover(file, &word);
    if (answer == HLC_OK) answer = db_opened(&file->db);
    if (answer == HLC_OK) answer = sync_folder(path);
    /* There is no batch to be in doubt of. */
    if (answer == HLC_FILE_UNKNOWN || answer == HLC_FILE_SEALED) answer = db_failure(&file->db, file->db.code);
    if (answer == HLC_OK) answer = background_start(file);
    file->report.created = created && answer == HLC_OK;
    note(file, answer, word);
    return answer;
}

static uint32_t open_path(hlc_file *file, const char *path, const hlc_file_options *options)
{
    uint32_t answer = set_options(file, options);
    if (answer != HLC_OK) return answer;
    errno = 0;
    char *full = full_path(path);
    if (!full) return note(file, errno == ENOMEM ? HLC_NO_MEMORY : HLC_FILE_CANNOT_OPEN, 0);
    bool must_exist = file->options.flags & HLC_FILE_MUST_EXIST;
    bool missing = must_exist && access(full, F_OK) != 0;
    answer = missing ? HLC_FILE_CANNOT_OPEN : take_lock(file, full);
    if (answer == HLC_OK) answer = check_log(full);
    answer = answer == HLC_OK ? open_locked(file, full) : note(file, answer, 0);
    free(full);
    return answer;
}

uint32_t hlc_file_open(const char *path, const hlc_file_options *options, hlc_file **file, hlc_file_state *state)
{
    *file = NULL;
    if (state && !is_of_this_version(state)) return HLC_FILE_BAD_OPTION;
    if (state) tell(&(hlc_file_state){ 0 }, state);
    hlc_file *made = file_new();
    if (!made) return HLC_NO_MEMORY;
    uint32_t answer = open_path(made, path, options);
    if (state) hlc_file_status(made, state);
    if (answer == HLC_OK) *file = made;
    else file_free(made);
    return answer;
}

/* Writes the clock as it is, so that the next stamps follow it closely, and syncs all that was written before. */
static uint32_t settle(hlc_file *file)
{
    struct state state = file->db.state;
    state.clock = file->clock;
    uint32_t answer = db_begin(&file->db, true);
    if (answer == HLC_OK) answer = db_end_with(&file->db, state, true);
    if (answer == HLC_OK) db_move(&file->db, SQLITE_CHECKPOINT_TRUNCATE);
    return answer;
}

/* In the child of a fork all of it stays as it is: the descriptors and the lock are the parent's, the threads that may
 * hold its mutexes are missing, and the memory ends with the child. */
uint32_t hlc_file_close(hlc_file *file)
{
    if (!file || !db_is_ours(&file->db)) return HLC_OK;
    background_stop(file);
    uint32_t answer = settle(file);
    file_free(file);
    return answer;
}
