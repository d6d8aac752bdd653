/* What the tests share: expectations, paths in a folder, and short forms of calls. */
#ifndef HLC_FILE_TEST_H
#define HLC_FILE_TEST_H
#define _GNU_SOURCE
#include "hlcstore_file.h"
#include <inttypes.h>
#include <signal.h>
#include <sqlite3.h>
#include <stdio.h>
#include <stdlib.h>
#include <string.h>
#include <sys/resource.h>
#include <unistd.h>

#define BYTES(text) (const uint8_t *)(text), strlen(text)
#define AT(l) ((uint64_t)(l) << 16)

static int wrong;
static const char *test_name = "";

static inline void expect_at(int line, const char *what, uint64_t is, uint64_t expected)
{
    if (is == expected) return;
    printf("%s, line %d: %s is %" PRIu64 ", not %" PRIu64 "\n", test_name, line, what, is, expected);
    wrong++;
}

#define EXPECT(is, expected) expect_at(__LINE__, #is, (uint64_t)(is), (uint64_t)(expected))
#define HOLDS(what) expect_at(__LINE__, #what, (what) != 0, 1)

/* Removes a file with all that lies beside it, and returns its path. */
static inline const char *fresh(const char *path)
{
    static const char *const ends[] = { "", "-wal", "-shm", "-journal", "-lock" };
    char name[4096];
    for (size_t i = 0; i < sizeof ends / sizeof *ends; i++) {
        snprintf(name, sizeof name, "%s%s", path, ends[i]);
        unlink(name);
    }
    return path;
}

static inline hlc_file *opened_with(const char *path, hlc_file_options options)
{
    hlc_file *file;
    hlc_file_state state = { 0 };
    if (options.checkpoint_bytes == 0) options.checkpoint_bytes = UINT64_MAX;
    uint32_t answer = hlc_file_open(path, &options, &file, &state);
    if (answer == HLC_OK) return file;
    printf("%s: opening answers %" PRIu32 ", SQLite %d\n", test_name, answer, state.sqlite);
    exit(1);
}

static inline hlc_file *opened(const char *path)
{
    return opened_with(path, (hlc_file_options){ 0 });
}

static inline uint32_t put_at(hlc_file *file, uint64_t l, const char *key, const char *value, uint64_t *stamp)
{
    return hlc_file_write(file, 0, l, BYTES(key), BYTES(value), stamp);
}

static inline void put(hlc_file *file, uint64_t l, const char *key, const char *value)
{
    uint64_t stamp;
    EXPECT(put_at(file, l, key, value, &stamp), HLC_OK);
}

/* Reads a key at a stamp, or at the floor where the stamp is 0. Returns "" where it has no value. */
static inline const char *value_at(hlc_file *file, uint64_t stamp, const char *key)
{
    static char value[4096];
    uint64_t id, at;
    size_t len = 0;
    uint32_t answer = stamp ? hlc_file_open_snapshot(file, stamp, &id)
                            : hlc_file_open_snapshot_at_floor(file, &id, &at);
    if (answer != HLC_OK) {
        snprintf(value, sizeof value, "refused %" PRIu32, answer);
        return value;
    }
    answer = hlc_file_read(file, id, BYTES(key), (uint8_t *)value, sizeof value - 1, &len);
    value[answer == HLC_OK ? len : 0] = 0;
    hlc_file_close_snapshot(file, id, &at);
    return value;
}

static inline void expect_value_at(int line, hlc_file *file, uint64_t stamp, const char *key, const char *expected)
{
    const char *value = value_at(file, stamp, key);
    if (strcmp(value, expected) == 0) return;
    printf("%s, line %d: %s is '%.40s', not '%.40s'\n", test_name, line, key, value, expected);
    wrong++;
}

#define EXPECT_VALUE(file, stamp, key, expected) expect_value_at(__LINE__, file, stamp, key, expected)

static inline hlc_file_state state_of(hlc_file *file)
{
    hlc_file_state state = { 0 };
    EXPECT(hlc_file_status(file, &state), HLC_OK);
    return state;
}

/* Changes a closed file with SQL. */
static inline void change(const char *path, const char *sql)
{
    sqlite3 *db;
    char *said = NULL;
    if (sqlite3_open(path, &db) != SQLITE_OK || sqlite3_exec(db, sql, NULL, NULL, &said) != SQLITE_OK) {
        printf("%s: %s: %s\n", test_name, sql, said ? said : "not opened");
        exit(1);
    }
    sqlite3_close(db);
}

/* Returns a number that SQL finds in a closed file. */
static inline int64_t number_of(const char *path, const char *sql)
{
    sqlite3 *db;
    sqlite3_stmt *statement;
    if (sqlite3_open(path, &db) != SQLITE_OK || sqlite3_prepare_v2(db, sql, -1, &statement, NULL) != SQLITE_OK) {
        printf("%s: %s: %s\n", test_name, sql, sqlite3_errmsg(db));
        exit(1);
    }
    int64_t number = sqlite3_step(statement) == SQLITE_ROW ? sqlite3_column_int64(statement, 0) : -1;
    sqlite3_finalize(statement);
    sqlite3_close(db);
    return number;
}

static inline int ended(void)
{
    if (wrong == 0) puts("all right");
    return wrong != 0;
}

/* Files of limited length are as a full disk. 0: no limit. */
static inline void limit_files(rlim_t bytes)
{
    struct rlimit limit;
    signal(SIGXFSZ, SIG_IGN);
    getrlimit(RLIMIT_FSIZE, &limit);
    limit.rlim_cur = bytes == 0 ? limit.rlim_max : bytes;
    HOLDS(setrlimit(RLIMIT_FSIZE, &limit) == 0);
}

struct test {
    const char *name;
    void (*run)(void);
};

#define TEST(name) { #name, name }

static inline int run_tests(const struct test *tests, size_t many)
{
    for (size_t i = 0; i < many; i++) {
        test_name = tests[i].name;
        tests[i].run();
    }
    return ended();
}
#endif
