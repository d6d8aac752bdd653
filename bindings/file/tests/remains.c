/* What an opening makes of remains, on files in the current folder: of a checkpoint that did not end, of snapshots that
 * were open, of a last row that is not the file's, and of rows behind a damage. */
#include "test.h"
#include <sys/wait.h>
#include <zlib.h>

static const char PATH[] = "remains.hlc", OTHER[] = "other.hlc";

/* Pieces that a process left in the middle of a checkpoint have the id that the next one takes. */
static void pieces_without_a_checkpoint_go(void)
{
    uint64_t place;
    hlc_file *file = opened(fresh(PATH));
    put(file, 1, "a", "one");
    EXPECT(hlc_file_close(file), HLC_OK);
    change(PATH, "INSERT INTO piece VALUES (1, 0, 5, x'00'), (1, 1, 6, x'01')");
    file = opened(PATH);
    for (int i = 0; i < 2; i++) EXPECT(hlc_file_checkpoint(file, &place), HLC_OK);
    EXPECT(hlc_file_close(file), HLC_OK);
    EXPECT(number_of(PATH, "SELECT count(*) FROM piece WHERE checkpoint = 1"), 1);
    file = opened(PATH);
    EXPECT(state_of(file).damaged, 0);
    EXPECT_VALUE(file, 0, "a", "one");
    EXPECT(hlc_file_close(file), HLC_OK);
}

/* A checkpoint has the snapshots that were open beside it, and nobody has their ids after an opening. */
static void no_snapshot_is_open_after_an_opening(void)
{
    uint64_t place, id, at, word, kept, bytes, dropped;
    hlc_store mine;
    hlc_file *file = opened(fresh(PATH));
    put(file, 1, "a", "one");
    EXPECT(hlc_file_open_snapshot_at_floor(file, &id, &at), HLC_OK);
    EXPECT(hlc_file_checkpoint(file, &place), HLC_OK);
    EXPECT(hlc_file_close(file), HLC_OK);
    file = opened(PATH);
    EXPECT(hlc_file_read_begin(file, &mine), HLC_OK);
    EXPECT(hlc_snapshot_at_place(&mine, 0, &id, &at), HLC_AFTER_LAST);
    hlc_file_read_end(file);
    put(file, 2, "a", "two");
    EXPECT(hlc_file_vacuum_to(file, AT(2), &word, &kept, &bytes, &dropped), HLC_OK);
    EXPECT(dropped, 1);
    EXPECT(hlc_file_close(file), HLC_OK);
}

/* A last row of a copy of the file, which went on otherwise, fits the row before it: the row `state` has its sum. */
static void a_last_row_of_another_copy_is_refused(void)
{
    hlc_file *file;
    hlc_file_state state = { 0 };
    for (int i = 0; i < 2; i++) {
        file = opened(fresh(i == 0 ? PATH : OTHER));
        for (uint64_t l = 1; l <= 3; l++) put(file, l, "a", "same");
        put(file, 4, "a", i == 0 ? "mine" : "other");
        EXPECT(hlc_file_close(file), HLC_OK);
    }
    change(PATH, "ATTACH 'other.hlc' AS other; REPLACE INTO log SELECT * FROM other.log WHERE place = 4");
    EXPECT(hlc_file_open(PATH, NULL, &file, &state), HLC_FILE_DAMAGED_LOG);
    EXPECT(state.word, 4);
    hlc_file_close(file);
}

static hlc_file *opened_before_damage(uint64_t place)
{
    hlc_file *file = opened_with(PATH, (hlc_file_options){ .flags = HLC_FILE_KEEP_BEFORE_DAMAGE });
    EXPECT(state_of(file).failure, HLC_FILE_DAMAGED_LOG);
    EXPECT(state_of(file).word, place);
    EXPECT(state_of(file).place, place - 1);
    return file;
}

/* Stamps of rows that are moved aside were returned. After a process that ended early no other row has their clock. */
static void rows_moved_aside_raise_the_clock(void)
{
    uint64_t stamp;
    int status;
    fresh(PATH);
    pid_t child = fork();
    if (child == 0) {
        hlc_file *file = opened(PATH);
        for (uint64_t l = 1; l <= 9; l++) put(file, l, "a", "x");
        _exit(wrong);
    }
    waitpid(child, &status, 0);
    EXPECT(status, 0);
    EXPECT(number_of(PATH, "SELECT clock FROM state"), 0);
    change(PATH, "UPDATE log SET sum = sum + 1 WHERE place = 3");
    hlc_file *file = opened_before_damage(3);
    EXPECT(state_of(file).clock, AT(9));
    EXPECT(put_at(file, 1, "a", "new", &stamp), HLC_OK);
    EXPECT(stamp, AT(9) + 1);
    EXPECT(hlc_file_close(file), HLC_OK);
}

static void put_word(uint8_t *out, uint64_t word)
{
    for (int i = 0; i < 8; i++) out[i] = (uint8_t)(word >> (56 - 8 * i));
}

/* Gives the row at place 3 other records, with the sum that the README says. */
static void change_row(const uint8_t *records, size_t len)
{
    static const char *const columns[] = { "place", "clock", "horizon", "threshold" };
    uint8_t row[4 * 8 + 200];
    char sql[800], hex[401];
    for (int i = 0; i < 4; i++) {
        snprintf(sql, sizeof sql, "SELECT %s FROM log WHERE place = 3", columns[i]);
        put_word(row + 8 * i, (uint64_t)number_of(PATH, sql));
    }
    memcpy(row + 4 * 8, records, len);
    for (size_t i = 0; i < len; i++) snprintf(hex + 2 * i, 3, "%02x", records[i]);
    uLong sum = crc32((uLong)number_of(PATH, "SELECT sum FROM log WHERE place = 2"), row, (uInt)(4 * 8 + len));
    snprintf(sql, sizeof sql, "UPDATE log SET sum = %lu, records = x'%s' WHERE place = 3", sum, hex);
    change(PATH, sql);
}

/* Nothing is taken of a row whose first record is good, and whose second one is not. */
static void no_record_of_a_damaged_row_counts(void)
{
    uint8_t records[200];
    uint64_t stamp;
    size_t one, other;
    hlc_file *file = opened(fresh(PATH));
    for (uint64_t l = 1; l <= 4; l++) put(file, l, "a", "x");
    EXPECT(hlc_file_close(file), HLC_OK);
    EXPECT(hlc_item_encode_write(0, 2, AT(3), BYTES("a"), BYTES("half"), records, 100, &one), HLC_OK);
    EXPECT(hlc_item_encode_write(0, 7, AT(4), BYTES("b"), BYTES("half"), records + one, 100, &other), HLC_OK);
    change_row(records, one + other);
    file = opened_before_damage(3);
    EXPECT_VALUE(file, 0, "a", "x");
    EXPECT(put_at(file, 5, "a", "new", &stamp), HLC_OK);
    EXPECT_VALUE(file, 0, "a", "new");
    EXPECT(hlc_file_close(file), HLC_OK);
    file = opened(PATH);
    EXPECT_VALUE(file, 0, "a", "new");
    EXPECT(hlc_file_close(file), HLC_OK);
}

static const struct test TESTS[] = {
    TEST(pieces_without_a_checkpoint_go),
    TEST(no_snapshot_is_open_after_an_opening),
    TEST(a_last_row_of_another_copy_is_refused),
    TEST(rows_moved_aside_raise_the_clock),
    TEST(no_record_of_a_damaged_row_counts),
};

int main(void)
{
    return run_tests(TESTS, sizeof TESTS / sizeof *TESTS);
}
