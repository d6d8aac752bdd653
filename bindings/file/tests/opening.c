/* A test of each decision of an opening, on files in the current folder: what it recovers, what it refuses, and whose
 * file it is. */
#include "test.h"
#include <sys/stat.h>
#include <sys/wait.h>

static const char PATH[] = "opening.hlc";

/* ---- Recovery ---- */

static void a_write_is_there_after_an_opening(void)
{
    hlc_file *file = opened(fresh(PATH));
    EXPECT(state_of(file).created, 1);
    put(file, 10, "city", "Lyon");
    put(file, 20, "city", "Paris");
    EXPECT(state_of(file).place, 2);
    EXPECT(hlc_file_close(file), HLC_OK);
    hlc_file_state state = { 0 };
    EXPECT(hlc_file_open(PATH, NULL, &file, &state), HLC_OK);
    EXPECT(state.clock, AT(20));
    EXPECT(state.log_bytes, 2 * 20 + 2 * (1 + 4 + 3) + 4 + 5);
    EXPECT(state_of(file).created, 0);
    EXPECT(state_of(file).applied, 2);
    EXPECT_VALUE(file, AT(10), "city", "Lyon");
    EXPECT_VALUE(file, AT(15), "city", "Lyon");
    EXPECT_VALUE(file, 0, "city", "Paris");
    EXPECT_VALUE(file, AT(9), "city", "");
    EXPECT_VALUE(file, AT(21), "city", "refused 8");
    EXPECT(hlc_file_close(file), HLC_OK);
}

static void a_checkpoint_replaces_its_log(void)
{
    uint64_t place;
    hlc_file *file = opened(fresh(PATH));
    for (int i = 1; i <= 5; i++) put(file, (uint64_t)i, "a", "one");
    EXPECT(hlc_file_checkpoint(file, &place), HLC_OK);
    EXPECT(place, 5);
    put(file, 6, "a", "two");
    EXPECT(hlc_file_checkpoint(file, &place), HLC_OK);
    EXPECT(place, 6);
    put(file, 7, "a", "three");
    EXPECT(state_of(file).checkpoint_place, 6);
    HOLDS(state_of(file).log_bytes > 0);
    EXPECT(hlc_file_close(file), HLC_OK);
    /* The older of the two needs the log from place 6 on. */
    EXPECT(number_of(PATH, "SELECT min(place) FROM log"), 6);
    EXPECT(number_of(PATH, "SELECT count(*) FROM checkpoint"), 2);
    file = opened(PATH);
    EXPECT(state_of(file).applied, 1);
    EXPECT(state_of(file).damaged, 0);
    EXPECT_VALUE(file, AT(5), "a", "one");
    EXPECT_VALUE(file, 0, "a", "three");
    for (int i = 0; i < 3; i++) EXPECT(hlc_file_checkpoint(file, &place), HLC_OK);
    EXPECT(hlc_file_close(file), HLC_OK);
    EXPECT(number_of(PATH, "SELECT count(*) FROM checkpoint"), 2);
    EXPECT(number_of(PATH, "SELECT count(DISTINCT checkpoint) FROM piece"), 2);
    EXPECT(number_of(PATH, "SELECT count(*) FROM log"), 0);
}

/* Makes a file with checkpoints at the places 2 and 4, and a log from 3 to 5. */
static void make_two_checkpoints(void)
{
    uint64_t place;
    hlc_file *file = opened(fresh(PATH));
    put(file, 1, "a", "one");
    put(file, 2, "a", "two");
    EXPECT(hlc_file_checkpoint(file, &place), HLC_OK);
    put(file, 3, "a", "three");
    put(file, 4, "a", "four");
    EXPECT(hlc_file_checkpoint(file, &place), HLC_OK);
    put(file, 5, "a", "five");
    EXPECT(hlc_file_close(file), HLC_OK);
}

static uint32_t answer_of_opening(uint32_t flags, hlc_file_state *state)
{
    hlc_file *file;
    hlc_file_options options = { .flags = flags, .checkpoint_bytes = UINT64_MAX };
    *state = (hlc_file_state){ 0 };
    uint32_t answer = hlc_file_open(PATH, &options, &file, state);
    if (answer != HLC_OK) HOLDS(file == NULL);
    else EXPECT_VALUE(file, AT(1), "a", "one");
    hlc_file_close(file);
    return answer;
}

static void a_damaged_checkpoint_falls_back(void)
{
    static const char *const damages[] = {
        "UPDATE piece SET bytes = zeroblob(length(bytes)) WHERE checkpoint = 2",
        "DELETE FROM piece WHERE checkpoint = 2",
        "UPDATE piece SET number = 7 WHERE checkpoint = 2",
        "UPDATE checkpoint SET place = 3 WHERE id = 2",
        "UPDATE checkpoint SET sum = sum + 1 WHERE id = 2",
        "UPDATE checkpoint SET damaged = 1 WHERE id = 2",
    };
    hlc_file_state state;
    uint64_t place;
    for (size_t i = 0; i < sizeof damages / sizeof *damages; i++) {
        make_two_checkpoints();
        change(PATH, damages[i]);
        EXPECT(answer_of_opening(0, &state), HLC_OK);
        EXPECT(state.damaged, 1);
        EXPECT(state.checkpoint_place, 2);
        EXPECT(state.applied, 3);
        EXPECT(number_of(PATH, "SELECT id FROM checkpoint WHERE damaged"), 2);
        /* It does not count as one of the two newest: the log stays as the older one needs it. */
        hlc_file *file = opened(PATH);
        EXPECT(state_of(file).damaged, 0);
        EXPECT_VALUE(file, 0, "a", "five");
        EXPECT(hlc_file_checkpoint(file, &place), HLC_OK);
        EXPECT(hlc_file_close(file), HLC_OK);
        EXPECT(number_of(PATH, "SELECT min(place) FROM log"), 3);
        EXPECT(number_of(PATH, "SELECT count(*) FROM checkpoint WHERE damaged = 0"), 2);
    }
}

static void without_a_checkpoint_only_a_whole_log_serves(void)
{
    hlc_file_state state;
    make_two_checkpoints();
    change(PATH, "UPDATE piece SET sum = sum + 1");
    EXPECT(answer_of_opening(0, &state), HLC_FILE_NO_CHECKPOINT);
    EXPECT(state.failure, HLC_FILE_NO_CHECKPOINT);
    EXPECT(state.word, 2);
    EXPECT(answer_of_opening(HLC_FILE_KEEP_BEFORE_DAMAGE, &state), HLC_FILE_NO_CHECKPOINT);
    make_two_checkpoints();
    change(PATH, "DELETE FROM checkpoint");
    EXPECT(answer_of_opening(HLC_FILE_KEEP_BEFORE_DAMAGE, &state), HLC_FILE_NO_CHECKPOINT);
    EXPECT(state.word, 0);
    hlc_file *file = opened(fresh(PATH));
    put(file, 1, "a", "one");
    hlc_file_close(file);
    change(PATH, "DELETE FROM log");
    EXPECT(answer_of_opening(HLC_FILE_KEEP_BEFORE_DAMAGE, &state), HLC_FILE_NO_CHECKPOINT);
    file = opened(fresh(PATH));
    uint64_t place;
    put(file, 1, "a", "one");
    EXPECT(hlc_file_checkpoint(file, &place), HLC_OK);
    hlc_file_close(file);
    change(PATH, "UPDATE piece SET sum = sum + 1");
    EXPECT(answer_of_opening(0, &state), HLC_OK);
    EXPECT(state.damaged, 1);
    EXPECT(state.applied, 1);
}

static void a_damaged_log_is_refused_with_its_place(void)
{
    static const struct {
        const char *sql;
        uint64_t place;
    } damages[] = {
        { "UPDATE log SET records = zeroblob(30) WHERE place = 3", 3 },
        { "UPDATE log SET sum = sum + 1 WHERE place = 3", 3 },
        { "UPDATE log SET clock = clock + 1 WHERE place = 3", 3 },
        { "UPDATE log SET horizon = 1 WHERE place = 3", 3 },
        { "UPDATE log SET threshold = 1 WHERE place = 3", 3 },
        { "DELETE FROM log WHERE place = 3", 3 },
        { "DELETE FROM log WHERE place = 5", 5 },
        { "UPDATE log SET place = 9 WHERE place = 5", 5 },
        { "UPDATE log SET place = -place WHERE place IN (3, 4); UPDATE log SET place = 7 + place WHERE place < 0", 3 },
        { "INSERT INTO log SELECT 6, sum, clock, horizon, threshold, records FROM log WHERE place = 5", 6 },
    };
    hlc_file_state state;
    for (size_t i = 0; i < sizeof damages / sizeof *damages; i++) {
        hlc_file *file = opened(fresh(PATH));
        for (uint64_t l = 1; l <= 5; l++) put(file, l, "a", l == 1 ? "one" : "more");
        hlc_file_close(file);
        change(PATH, damages[i].sql);
        EXPECT(answer_of_opening(0, &state), HLC_FILE_DAMAGED_LOG);
        EXPECT(state.failure, HLC_FILE_DAMAGED_LOG);
        EXPECT(state.word, damages[i].place);
    }
}

static void what_is_before_the_damage_is_kept_on_demand(void)
{
    hlc_file_state state;
    uint64_t stamp;
    hlc_file *file = opened(fresh(PATH));
    for (uint64_t l = 1; l <= 5; l++) put(file, l, "a", l == 1 ? "one" : "more");
    put(file, 6, "a", "last");
    hlc_file_close(file);
    change(PATH, "UPDATE log SET sum = sum + 1 WHERE place = 4");
    EXPECT(answer_of_opening(HLC_FILE_KEEP_BEFORE_DAMAGE, &state), HLC_OK);
    EXPECT(state.aside, 3);
    EXPECT(state.place, 3);
    EXPECT(state.failure, HLC_FILE_DAMAGED_LOG);
    EXPECT(state.word, 4);
    EXPECT(number_of(PATH, "SELECT count(*) FROM aside"), 3);
    EXPECT(number_of(PATH, "SELECT max(place) FROM aside"), 6);
    EXPECT(number_of(PATH, "SELECT max(place) FROM log"), 3);
    /* Stamps that were returned do not come again. */
    file = opened(PATH);
    EXPECT_VALUE(file, 0, "a", "more");
    EXPECT(put_at(file, 1, "a", "new", &stamp), HLC_OK);
    HOLDS(stamp > AT(6));
    hlc_file_close(file);
    file = opened(PATH);
    EXPECT_VALUE(file, 0, "a", "new");
    hlc_file_close(file);
    /* Rows that are missing leave nothing aside, and are not passed over in silence. */
    change(PATH, "DELETE FROM log WHERE place = 4");
    EXPECT(answer_of_opening(HLC_FILE_KEEP_BEFORE_DAMAGE, &state), HLC_OK);
    EXPECT(state.aside, 0);
    EXPECT(state.failure, HLC_FILE_DAMAGED_LOG);
    EXPECT(state.word, 4);
}

/* Rows of a log that takes several lots to read, and what a row has at least. */
enum { LONG_ROWS = 60, LONG_ROW = 100000 };

static void make_long_log(void)
{
    static char value[1000];
    char key[16];
    uint64_t stamp;
    hlc_file_batch *batch;
    memset(value, 'v', sizeof value);
    hlc_file *file = opened_with(fresh(PATH), (hlc_file_options){ .promise = HLC_FILE_WRITTEN });
    EXPECT(hlc_file_batch_new(&batch), HLC_OK);
    for (uint64_t l = 1; l <= LONG_ROWS; l++) {
        for (int i = 0; i < LONG_ROW / (int)sizeof value; i++) {
            snprintf(key, sizeof key, "k%d", i);
            EXPECT(hlc_file_batch_put(batch, BYTES(key), (const uint8_t *)value, sizeof value), HLC_OK);
        }
        EXPECT(hlc_file_batch_put(batch, BYTES("a"), BYTES(l == 1 ? "one" : "more")), HLC_OK);
        EXPECT(hlc_file_append(file, 0, l, batch, 0, &stamp), HLC_OK);
    }
    hlc_file_batch_drop(batch);
    EXPECT(hlc_file_close(file), HLC_OK);
}

/* Lots that one thread reads ahead of another are applied up to the damage, wherever it is. */
static void a_long_log_is_read_ahead(void)
{
    static const uint64_t places[] = { 2, 10, 11, 12, 21, 22, 32, 33, 59, 60 };
    enum { WRITES = LONG_ROW / 1000 + 1 };
    hlc_file_state state = { 0 };
    char sql[100];
    make_long_log();
    hlc_file *file = opened(PATH);
    EXPECT(state_of(file).applied, LONG_ROWS * WRITES);
    EXPECT(state_of(file).place, LONG_ROWS);
    HOLDS(state_of(file).log_bytes > LONG_ROWS * LONG_ROW);
    for (uint64_t l = 2; l <= LONG_ROWS; l++) EXPECT_VALUE(file, AT(l) + WRITES - 1, "a", "more");
    put(file, LONG_ROWS + 1, "a", "last");
    hlc_file_close(file);
    for (size_t i = 0; i < sizeof places / sizeof *places; i++) {
        make_long_log();
        snprintf(sql, sizeof sql, "UPDATE log SET clock = clock + 1 WHERE place = %d", (int)places[i]);
        change(PATH, sql);
        EXPECT(hlc_file_open(PATH, NULL, &file, &state), HLC_FILE_DAMAGED_LOG);
        EXPECT(state.word, places[i]);
        file = opened_with(PATH, (hlc_file_options){ .flags = HLC_FILE_KEEP_BEFORE_DAMAGE });
        EXPECT(state_of(file).place, places[i] - 1);
        EXPECT(state_of(file).applied, (places[i] - 1) * WRITES);
        EXPECT(state_of(file).aside, LONG_ROWS + 1 - places[i]);
        EXPECT_VALUE(file, 0, "a", places[i] == 2 ? "one" : "more");
        put(file, LONG_ROWS + 1, "a", "last");
        hlc_file_close(file);
        file = opened(PATH);
        EXPECT_VALUE(file, 0, "a", "last");
        hlc_file_close(file);
    }
}

/* Where the floor falls below the horizon, only the floor is left to read, until it reaches the horizon again. */
static void a_horizon_above_the_floor_is_kept(void)
{
    uint64_t word, kept, bytes, dropped;
    hlc_file *file = opened(fresh(PATH));
    for (uint64_t l = 1; l <= 10; l++) put(file, l, "a", "x");
    EXPECT(hlc_file_vacuum_to(file, AT(8), &word, &kept, &bytes, &dropped), HLC_OK);
    hlc_file_close(file);
    change(PATH, "UPDATE log SET sum = sum + 1 WHERE place = 5");
    file = opened_with(PATH, (hlc_file_options){ .flags = HLC_FILE_KEEP_BEFORE_DAMAGE });
    for (int i = 0; i < 2; i++) {
        EXPECT_VALUE(file, AT(3), "a", "refused 9");
        EXPECT_VALUE(file, AT(4), "a", "x");
        hlc_file_close(file);
        file = opened(PATH);
    }
    put(file, 20, "a", "y");
    EXPECT_VALUE(file, AT(7), "a", "refused 9");
    EXPECT_VALUE(file, AT(8), "a", "x");
    hlc_file_close(file);
}

static void a_damaged_state_is_refused(void)
{
    hlc_file_state state;
    make_two_checkpoints();
    change(PATH, "UPDATE state SET clock = 1");
    EXPECT(answer_of_opening(0, &state), HLC_FILE_CORRUPT);
    make_two_checkpoints();
    change(PATH, "DELETE FROM state");
    EXPECT(answer_of_opening(0, &state), HLC_FILE_CORRUPT);
    make_two_checkpoints();
    change(PATH, "DROP TABLE piece");
    EXPECT(answer_of_opening(0, &state), HLC_FILE_CORRUPT);
}

/* What an opening found damaged is written down. A later opening does not take the file for an empty one. */
static void checkpoints_that_are_marked_do_not_serve(void)
{
    hlc_file_state state;
    make_two_checkpoints();
    change(PATH, "UPDATE piece SET sum = sum + 1 WHERE checkpoint = 2");
    EXPECT(answer_of_opening(0, &state), HLC_OK);
    change(PATH, "UPDATE piece SET sum = sum + 1 WHERE checkpoint = 1");
    EXPECT(answer_of_opening(0, &state), HLC_FILE_NO_CHECKPOINT);
    EXPECT(state.word, 2);
    EXPECT(answer_of_opening(HLC_FILE_KEEP_BEFORE_DAMAGE, &state), HLC_FILE_NO_CHECKPOINT);
    EXPECT(state.word, 2);
    EXPECT(number_of(PATH, "SELECT count(*) FROM aside"), 0);
}

/* Writes bytes into a closed file. */
static void patch(long at, const void *bytes, size_t len)
{
    FILE *file = fopen(PATH, "r+b");
    HOLDS(file && fseek(file, at, SEEK_SET) == 0 && fwrite(bytes, 1, len, file) == len);
    fclose(file);
}

static long page_of(const char *table)
{
    char sql[100];
    snprintf(sql, sizeof sql, "SELECT 4096 * (rootpage - 1) FROM sqlite_schema WHERE name = '%s'", table);
    return (long)number_of(PATH, sql);
}

/* A page whose list of free blocks is damaged can be read, but not written. */
static void a_page_that_cannot_be_written_is_refused(void)
{
    static const char *const tables[] = { "state", "checkpoint" };
    hlc_file_state state;
    for (size_t i = 0; i < sizeof tables / sizeof *tables; i++) {
        make_two_checkpoints();
        patch(page_of(tables[i]) + 1, "\x80", 1);
        EXPECT(answer_of_opening(0, &state), HLC_FILE_CORRUPT);
    }
}

/* Makes a log of many pages, and swaps two of its leaves. */
static void make_swapped(void)
{
    uint8_t pages[2][4096];
    static char value[3000];
    hlc_file *file = opened(fresh(PATH));
    memset(value, 'v', sizeof value - 1);
    put(file, 1, "a", "one");
    for (uint64_t l = 2; l <= 20; l++) put(file, l, "a", value);
    hlc_file_close(file);
    FILE *read = fopen(PATH, "rb");
    uint8_t root[4096];
    HOLDS(fseek(read, page_of("log"), SEEK_SET) == 0 && fread(root, sizeof root, 1, read) == 1);
    /* An inner page: after its head of 12 bytes, the places of its cells, each of which begins with a page. The first
     * leaf has the first record. */
    long at[2];
    for (int i = 0; i < 2; i++) {
        const uint8_t *cell = root + (root[14 + 10 * i] << 8) + root[15 + 10 * i];
        at[i] = 4096L * ((cell[2] << 8) + cell[3] - 1);
        HOLDS(fseek(read, at[i], SEEK_SET) == 0 && fread(pages[i], sizeof pages[i], 1, read) == 1);
    }
    fclose(read);
    patch(at[0], pages[1], sizeof pages[1]);
    patch(at[1], pages[0], sizeof pages[0]);
}

/* The rest of a log in a damaged tree cannot be moved aside as a whole. */
static void nothing_is_kept_of_a_damaged_tree(void)
{
    hlc_file_state state;
    make_swapped();
    EXPECT(answer_of_opening(HLC_FILE_KEEP_BEFORE_DAMAGE, &state), HLC_FILE_CORRUPT);
}

/* ---- Whose file it is ---- */

static void copy(const char *from, const char *to)
{
    char command[256];
    snprintf(command, sizeof command, "cp %s %s", from, to);
    HOLDS(system(command) == 0);
}

static bool same(const char *one, const char *other)
{
    char command[256];
    snprintf(command, sizeof command, "cmp %s %s", one, other);
    return system(command) == 0;
}

static void other_files_are_refused_and_unchanged(void)
{
    static const struct {
        const char *sql;
        uint32_t answer;
    } files[] = {
        { "CREATE TABLE log(x); INSERT INTO log VALUES (1)", HLC_FILE_NOT_OURS },
        { "PRAGMA journal_mode = WAL; CREATE TABLE log(x)", HLC_FILE_NOT_OURS },
        { "PRAGMA application_id = 7; CREATE TABLE log(x)", HLC_FILE_NOT_OURS },
        { "PRAGMA application_id = 0x686c6366; PRAGMA user_version = 2; CREATE TABLE log(x)", HLC_FILE_NEWER },
    };
    hlc_file_state state;
    for (size_t i = 0; i < sizeof files / sizeof *files; i++) {
        change(fresh(PATH), files[i].sql);
        copy(PATH, "before");
        EXPECT(answer_of_opening(0, &state), files[i].answer);
        EXPECT(state.failure, files[i].answer);
        EXPECT(state.word, files[i].answer == HLC_FILE_NEWER ? 2 : 0);
        HOLDS(same(PATH, "before"));
    }
    fresh(PATH);
    HOLDS(system("seq 5000 > opening.hlc") == 0);
    copy(PATH, "before");
    EXPECT(answer_of_opening(0, &state), HLC_FILE_NOT_OURS);
    HOLDS(same(PATH, "before"));
}

/* The write-ahead log of another application, whose process ended early, stays as it is. */
static void another_log_is_unchanged(void)
{
    hlc_file_state state;
    fresh(PATH);
    pid_t child = fork();
    if (child == 0) {
        sqlite3 *db;
        sqlite3_open(PATH, &db);
        sqlite3_exec(db, "PRAGMA journal_mode = WAL; CREATE TABLE t(x); INSERT INTO t VALUES (1)", NULL, NULL, NULL);
        _exit(0);
    }
    waitpid(child, NULL, 0);
    copy(PATH, "before");
    copy("opening.hlc-wal", "before-wal");
    EXPECT(answer_of_opening(0, &state), HLC_FILE_NOT_OURS);
    HOLDS(same(PATH, "before"));
    HOLDS(same("opening.hlc-wal", "before-wal"));
    EXPECT(number_of(PATH, "SELECT x FROM t"), 1);
}

/* A transaction of another application, whose process ended early, is not undone. */
static void another_journal_is_unchanged(void)
{
    hlc_file_state state;
    fresh(PATH);
    pid_t child = fork();
    if (child == 0) {
        sqlite3 *db;
        sqlite3_open(PATH, &db);
        sqlite3_exec(db, "PRAGMA application_id = 77; CREATE TABLE t(x); INSERT INTO t VALUES (randomblob(100000));"
                     "PRAGMA cache_size = 1; BEGIN; UPDATE t SET x = randomblob(100000);"
                     "INSERT INTO t VALUES (randomblob(1000000))", NULL, NULL, NULL);
        _exit(0);
    }
    waitpid(child, NULL, 0);
    copy(PATH, "before");
    copy("opening.hlc-journal", "before-journal");
    EXPECT(answer_of_opening(0, &state), HLC_FILE_NOT_OURS);
    HOLDS(same(PATH, "before"));
    HOLDS(same("opening.hlc-journal", "before-journal"));
    EXPECT(number_of(PATH, "SELECT count(*) FROM t"), 1);
}

static void paths_that_cannot_be_opened(void)
{
    hlc_file *file;
    hlc_file_state state = { 0 };
    hlc_file_options options = { .flags = HLC_FILE_MUST_EXIST };
    EXPECT(hlc_file_open("nowhere/file", NULL, &file, &state), HLC_FILE_CANNOT_OPEN);
    EXPECT(state.failure, HLC_FILE_CANNOT_OPEN);
    EXPECT(hlc_file_open(".", NULL, &file, NULL), HLC_FILE_CANNOT_OPEN);
    EXPECT(hlc_file_open("", NULL, &file, NULL), HLC_FILE_CANNOT_OPEN);
    EXPECT(hlc_file_open(fresh(PATH), &options, &file, NULL), HLC_FILE_CANNOT_OPEN);
    HOLDS(access(PATH, F_OK) != 0);
    HOLDS(access("opening.hlc-lock", F_OK) != 0);
}

static void options_out_of_range(void)
{
    static const hlc_file_options bad[] = {
        { .size = 4 }, { .size = sizeof(hlc_file_options) + 8 }, { .flags = 8 }, { .nodes = 65 }, { .promise = 4 },
        { .group_microseconds = 1000001 },
    };
    hlc_file *file;
    uint64_t word;
    size_t many;
    hlc_file_state state = { .size = 4 };
    fresh(PATH);
    for (size_t i = 0; i < sizeof bad / sizeof *bad; i++) {
        EXPECT(hlc_file_open(PATH, &bad[i], &file, NULL), HLC_FILE_BAD_OPTION);
        HOLDS(file == NULL && access(PATH, F_OK) != 0);
    }
    EXPECT(hlc_file_open(PATH, NULL, &file, &state), HLC_FILE_BAD_OPTION);
    HOLDS(file == NULL && access(PATH, F_OK) != 0);
    file = opened_with(PATH, (hlc_file_options){ .size = sizeof(hlc_file_options), .nodes = 64 });
    EXPECT(hlc_file_status(file, &state), HLC_FILE_BAD_OPTION);
    EXPECT(hlc_file_append_records(file, NULL, 0, 4, &many, &word), HLC_FILE_BAD_OPTION);
    hlc_file_close(file);
}

/* ---- One process ---- */

static void a_second_opening_is_refused(void)
{
    hlc_file *file = opened(fresh(PATH)), *second;
    hlc_file_state state = { 0 };
    put(file, 1, "a", "one");
    EXPECT(hlc_file_open(PATH, NULL, &second, &state), HLC_FILE_IN_USE);
    HOLDS(symlink(PATH, fresh("link.hlc")) == 0);
    EXPECT(hlc_file_open("link.hlc", NULL, &second, &state), HLC_FILE_IN_USE);
    unlink("link.hlc");
    pid_t child = fork();
    if (child == 0) _exit(hlc_file_open("./opening.hlc", NULL, &second, NULL) == HLC_FILE_IN_USE ? 0 : 1);
    int status;
    waitpid(child, &status, 0);
    EXPECT(status, 0);
    put(file, 2, "a", "two");
    hlc_file_close(file);
    hlc_file_close(opened(PATH));
}

/* Leaves a file whose writes, all synced, are in its write-ahead log alone. */
static void leave_a_log(void)
{
    fresh(PATH);
    pid_t child = fork();
    if (child == 0) {
        hlc_file *file = opened(PATH);
        for (uint64_t l = 1; l <= 50; l++) put(file, l, "a", "one");
        _exit(wrong);
    }
    int status;
    waitpid(child, &status, 0);
    EXPECT(status, 0);
}

/* The lock ends with its process, whatever way that ends. */
static void a_lock_dies_with_its_process(void)
{
    leave_a_log();
    hlc_file *file = opened(PATH);
    EXPECT_VALUE(file, 0, "a", "one");
    hlc_file_close(file);
}

/* The write-ahead log lies beside one of two names. */
static void a_second_hard_link_is_refused(void)
{
    hlc_file *file;
    leave_a_log();
    HOLDS(link(PATH, fresh("link.hlc")) == 0);
    EXPECT(hlc_file_open("link.hlc", NULL, &file, NULL), HLC_FILE_CANNOT_OPEN);
    EXPECT(hlc_file_open(PATH, NULL, &file, NULL), HLC_FILE_CANNOT_OPEN);
    fresh("link.hlc");
    file = opened(PATH);
    EXPECT_VALUE(file, 0, "a", "one");
    hlc_file_close(file);
}

/* SQLite would delete the write-ahead log. */
static void a_log_without_its_file_is_refused(void)
{
    hlc_file *file;
    hlc_file_state state = { 0 };
    hlc_file_options options = { .flags = HLC_FILE_MUST_EXIST };
    leave_a_log();
    copy("opening.hlc-wal", "before-wal");
    copy(PATH, "before");
    HOLDS(truncate(PATH, 0) == 0);
    EXPECT(hlc_file_open(PATH, &options, &file, &state), HLC_FILE_CORRUPT);
    EXPECT(state.failure, HLC_FILE_CORRUPT);
    EXPECT(hlc_file_open(PATH, NULL, &file, NULL), HLC_FILE_CORRUPT);
    unlink(PATH);
    EXPECT(hlc_file_open(PATH, NULL, &file, NULL), HLC_FILE_CORRUPT);
    HOLDS(access(PATH, F_OK) != 0);
    HOLDS(same("opening.hlc-wal", "before-wal"));
    copy("before", PATH);
    file = opened(PATH);
    EXPECT_VALUE(file, 0, "a", "one");
    hlc_file_close(file);
}

/* Names of the file: a link, a link to it from another folder, and one of no folder. */
static const char *const LINKS[] = { "link.hlc", "folder/link.hlc", "whole.hlc" };
enum { MANY_LINKS = sizeof LINKS / sizeof *LINKS };

static void make_links(void)
{
    char *whole = NULL, *here = realpath(".", NULL);
    HOLDS(here && asprintf(&whole, "%s/%s", here, PATH) > 0);
    mkdir("folder", 0700);
    for (int i = 0; i < MANY_LINKS; i++) fresh(LINKS[i]);
    HOLDS(symlink(PATH, LINKS[0]) == 0 && symlink("../link.hlc", LINKS[1]) == 0 && symlink(whole, LINKS[2]) == 0);
    free(whole);
    free(here);
}

/* SQLite follows a link whose file is missing, and would delete the write-ahead log beside that. */
static void a_log_of_a_missing_file_is_found_by_links(void)
{
    hlc_file *file;
    hlc_file_state state = { 0 };
    leave_a_log();
    make_links();
    copy("opening.hlc-wal", "before-wal");
    HOLDS(rename(PATH, "before") == 0);
    for (int i = 0; i < MANY_LINKS; i++) {
        EXPECT(hlc_file_open(LINKS[i], NULL, &file, &state), HLC_FILE_CORRUPT);
        hlc_file_close(file);
        HOLDS(same("opening.hlc-wal", "before-wal"));
    }
    HOLDS(access(PATH, F_OK) != 0);
    HOLDS(rename("before", PATH) == 0);
    file = opened(LINKS[1]);
    EXPECT(state_of(file).place, 50);
    EXPECT_VALUE(file, 0, "a", "one");
    hlc_file_close(file);
}

/* A file that is made by a link has the lock of its own name, which all its names share. */
static void a_file_made_by_a_link_has_one_lock(void)
{
    char lock[64];
    hlc_file *second;
    hlc_file_options options = { .flags = HLC_FILE_MUST_EXIST };
    make_links();
    for (int i = 0; i < MANY_LINKS; i++) {
        fresh(PATH);
        EXPECT(hlc_file_open(LINKS[i], &options, &second, NULL), HLC_FILE_CANNOT_OPEN);
        hlc_file *file = opened(LINKS[i]);
        HOLDS(state_of(file).created == 1 && access(PATH, F_OK) == 0 && access("opening.hlc-lock", F_OK) == 0);
        snprintf(lock, sizeof lock, "%s-lock", LINKS[i]);
        HOLDS(access(lock, F_OK) != 0);
        EXPECT(hlc_file_open(PATH, NULL, &second, NULL), HLC_FILE_IN_USE);
        for (int j = 0; j < MANY_LINKS; j++) EXPECT(hlc_file_open(LINKS[j], NULL, &second, NULL), HLC_FILE_IN_USE);
        put(file, 1, "a", "one");
        hlc_file_close(file);
    }
    HOLDS(symlink("circle.hlc", fresh("circle.hlc")) == 0 && symlink("nowhere/file", fresh("lost.hlc")) == 0);
    EXPECT(hlc_file_open("circle.hlc", NULL, &second, NULL), HLC_FILE_CANNOT_OPEN);
    EXPECT(hlc_file_open("lost.hlc", NULL, &second, NULL), HLC_FILE_CANNOT_OPEN);
}

/* A child of a fork has the descriptor of the lock too. */
static void closing_ends_the_lock(void)
{
    int ends[2];
    char byte;
    HOLDS(pipe(ends) == 0);
    hlc_file *file = opened(fresh(PATH));
    pid_t child = fork();
    if (child == 0) {
        close(ends[1]);
        _exit(read(ends[0], &byte, 1) != 0);
    }
    hlc_file_close(file);
    EXPECT(hlc_file_open(PATH, NULL, &file, NULL), HLC_OK);
    hlc_file_close(file);
    close(ends[0]);
    close(ends[1]);
    waitpid(child, NULL, 0);
}

static const struct test TESTS[] = {
    TEST(a_write_is_there_after_an_opening),
    TEST(a_checkpoint_replaces_its_log),
    TEST(a_damaged_checkpoint_falls_back),
    TEST(without_a_checkpoint_only_a_whole_log_serves),
    TEST(a_damaged_log_is_refused_with_its_place),
    TEST(what_is_before_the_damage_is_kept_on_demand),
    TEST(a_long_log_is_read_ahead),
    TEST(a_horizon_above_the_floor_is_kept),
    TEST(a_damaged_state_is_refused),
    TEST(checkpoints_that_are_marked_do_not_serve),
    TEST(a_page_that_cannot_be_written_is_refused),
    TEST(nothing_is_kept_of_a_damaged_tree),
    TEST(other_files_are_refused_and_unchanged),
    TEST(another_log_is_unchanged),
    TEST(another_journal_is_unchanged),
    TEST(paths_that_cannot_be_opened),
    TEST(options_out_of_range),
    TEST(a_second_opening_is_refused),
    TEST(a_lock_dies_with_its_process),
    TEST(a_second_hard_link_is_refused),
    TEST(a_log_without_its_file_is_refused),
    TEST(a_log_of_a_missing_file_is_found_by_links),
    TEST(a_file_made_by_a_link_has_one_lock),
    TEST(closing_ends_the_lock),
};

int main(void)
{
    return run_tests(TESTS, sizeof TESTS / sizeof *TESTS);
}
