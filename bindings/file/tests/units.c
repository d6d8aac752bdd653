/* A test of each decision of the calls, on files in the current folder. Those of an opening are in opening.c. */
#include "test.h"
#include <sys/syscall.h>
#include <sys/wait.h>
#include <time.h>

static const char PATH[] = "units.hlc";

/* ---- Clocks ---- */

static void stamps_rise_over_openings(void)
{
    uint64_t stamp, sent, received, last = 0;
    hlc_file *file = opened(fresh(PATH));
    put(file, 10, "a", "one");
    EXPECT(hlc_file_send(file, 0, 50, &sent), HLC_OK);
    EXPECT(sent, AT(50));
    EXPECT(hlc_file_receive(file, 0, AT(70), 20, &received), HLC_OK);
    EXPECT(received, AT(70) + 1);
    EXPECT(hlc_file_close(file), HLC_OK);
    file = opened(PATH);
    EXPECT(state_of(file).clock, AT(70) + 1);
    EXPECT(put_at(file, 5, "a", "two", &stamp), HLC_OK);
    EXPECT(stamp, AT(70) + 2);
    hlc_file_close(file);
    /* A process that ends early leaves a clock above all that it returned. */
    int ends[2];
    HOLDS(pipe(ends) == 0);
    pid_t child = fork();
    if (child == 0) {
        file = opened(PATH);
        for (int i = 0; i < 5000; i++) hlc_file_send(file, 0, 100 + (uint64_t)i, &sent);
        _exit(write(ends[1], &sent, sizeof sent) != sizeof sent);
    }
    HOLDS(read(ends[0], &last, sizeof last) == sizeof last);
    waitpid(child, NULL, 0);
    EXPECT(last, AT(5099));
    file = opened(PATH);
    EXPECT(put_at(file, 5, "a", "three", &stamp), HLC_OK);
    HOLDS(stamp > last);
    hlc_file_close(file);
}

/* A message costs a write of the disk only now and then. */
static void messages_share_a_written_clock(void)
{
    uint64_t sent;
    hlc_file *file = opened(fresh(PATH));
    for (int i = 0; i < 1000; i++) EXPECT(hlc_file_send(file, 0, 5, &sent), HLC_OK);
    EXPECT(sent, AT(5) + 999);
    hlc_file_close(file);
    HOLDS(number_of(PATH, "SELECT writes FROM state") < 5);
}

static void the_system_clock_serves(void)
{
    uint64_t stamp, later;
    struct timespec now;
    hlc_file *file = opened(fresh(PATH));
    EXPECT(put_at(file, HLC_FILE_NOW, "a", "one", &stamp), HLC_OK);
    clock_gettime(CLOCK_REALTIME, &now);
    uint64_t reading = (uint64_t)now.tv_sec * 1000 + (uint64_t)now.tv_nsec / 1000000;
    HOLDS(stamp <= AT(reading) + 0xffff && stamp > AT(reading - 10000));
    /* As if the clock were set back by an hour, with a full counter. */
    uint64_t far = reading + 3600000;
    EXPECT(hlc_file_receive(file, 0, AT(far) + 0xfffe, 5, &later), HLC_OK);
    EXPECT(later, AT(far) + 0xffff);
    EXPECT(put_at(file, 5, "a", "two", &later), HLC_COUNTER_FULL);
    EXPECT(later, AT(far) + 0xffff);
    EXPECT(put_at(file, HLC_FILE_NOW, "a", "two", &later), HLC_OK);
    EXPECT(later, AT(far + 1));
    EXPECT(put_at(file, 1, "a", "two", &later), HLC_OK);
    EXPECT(hlc_file_receive(file, 0, AT(far + 9) + 0xffff, HLC_FILE_NOW, &later), HLC_OK);
    EXPECT(later, AT(far + 10));
    hlc_file_close(file);
}

static uint64_t set_clock; /* in milliseconds, or 0: the system's */

/* In place of that of the system. */
int clock_gettime(clockid_t clock, struct timespec *now)
{
    if (set_clock == 0) return (int)syscall(SYS_clock_gettime, clock, now);
    *now = (struct timespec){ (time_t)(set_clock / 1000), (long)(set_clock % 1000) * 1000000 };
    return 0;
}

/* A counter has 65,536 values. An event for which none is left in the clock's own millisecond takes the next one. */
static void a_full_counter_refuses_no_write_at_the_clock(void)
{
    uint64_t stamp;
    hlc_file *file = opened(fresh(PATH));
    set_clock = 5000;
    EXPECT(hlc_file_receive(file, 0, AT(5000) + 0xfffe, HLC_FILE_NOW, &stamp), HLC_OK);
    EXPECT(stamp, AT(5000) + 0xffff);
    EXPECT(put_at(file, HLC_FILE_NOW, "a", "one", &stamp), HLC_OK);
    EXPECT(stamp, AT(5001));
    set_clock = 5002;
    EXPECT(hlc_file_receive(file, 0, AT(5002) + 0xffff, HLC_FILE_NOW, &stamp), HLC_OK);
    EXPECT(stamp, AT(5003));
    set_clock = 0;
    hlc_file_close(file);
}

/* ---- Nodes, batches and records ---- */

static void nodes_join_and_retire(void)
{
    uint64_t word, start, floor;
    uint16_t node;
    hlc_file *file = opened_with(fresh(PATH), (hlc_file_options){ .nodes = 2 });
    put(file, 10, "a", "zero");
    EXPECT(hlc_file_write(file, 1, 20, BYTES("b"), BYTES("one"), &word), HLC_OK);
    EXPECT(word, AT(20));
    EXPECT(hlc_file_write(file, 2, 20, BYTES("b"), BYTES("two"), &word), HLC_NO_NODE);
    EXPECT(hlc_file_join(file, &node, &start), HLC_OK);
    EXPECT(node, 2);
    EXPECT(start, AT(10));
    EXPECT(hlc_file_retire(file, 0, 30, &word), HLC_OK);
    EXPECT(hlc_file_write(file, 0, 40, BYTES("b"), BYTES("x"), &word), HLC_RETIRED);
    EXPECT(hlc_file_report(file, 1, 40, &word), HLC_OK);
    EXPECT(hlc_file_floor(file, &floor), HLC_OK);
    EXPECT(floor, AT(10));
    hlc_file_close(file);
    file = opened(PATH);
    EXPECT(hlc_file_report(file, 0, 50, &word), HLC_RETIRED);
    EXPECT(hlc_file_write(file, 2, 50, BYTES("b"), BYTES("late"), &word), HLC_OK);
    EXPECT(hlc_file_report(file, 1, 60, &word), HLC_OK);
    EXPECT_VALUE(file, 0, "b", "late");
    EXPECT(hlc_file_delete(file, 2, 70, BYTES("b"), &word), HLC_OK);
    EXPECT(hlc_file_report(file, 1, 70, &word), HLC_OK);
    EXPECT_VALUE(file, 0, "b", "");
    EXPECT_VALUE(file, AT(50), "b", "late");
    hlc_file_close(file);
}

static void refused_writes_change_nothing(void)
{
    static uint8_t long_value[70000];
    uint64_t word;
    hlc_file *file = opened(fresh(PATH));
    EXPECT(hlc_file_write(file, 0, 1, NULL, 0, BYTES("x"), &word), HLC_BAD_KEY);
    EXPECT(hlc_file_write(file, 0, 1, long_value, 256, BYTES("x"), &word), HLC_BAD_KEY);
    EXPECT(hlc_file_delete(file, 0, 1, NULL, 0, &word), HLC_BAD_KEY);
    EXPECT(hlc_file_write(file, 0, 1, BYTES("a"), long_value, 65536, &word), HLC_VALUE_TOO_LONG);
    EXPECT(hlc_file_write(file, 0, (uint64_t)1 << 48, BYTES("a"), BYTES("x"), &word), HLC_READING_TOO_LARGE);
    EXPECT(state_of(file).place, 0);
    EXPECT(state_of(file).failure, 0);
    EXPECT(hlc_file_write(file, 0, 1, long_value, 255, long_value, 65535, &word), HLC_OK);
    hlc_file_close(file);
}

static void a_batch_is_one_row(void)
{
    hlc_file_batch *batch;
    uint64_t word;
    hlc_file *file = opened(fresh(PATH));
    EXPECT(hlc_file_batch_new(&batch), HLC_OK);
    EXPECT(hlc_file_append(file, 0, 10, batch, HLC_FILE_SYNCED, &word), HLC_OK);
    EXPECT(state_of(file).place, 0);
    EXPECT(hlc_file_batch_put(batch, BYTES("a"), BYTES("one")), HLC_OK);
    EXPECT(hlc_file_batch_put(batch, NULL, 0, BYTES("one")), HLC_BAD_KEY);
    EXPECT(hlc_file_batch_put(batch, BYTES("b"), BYTES("two")), HLC_OK);
    EXPECT(hlc_file_batch_delete(batch, BYTES("a")), HLC_OK);
    EXPECT(hlc_file_batch_delete(batch, NULL, 0), HLC_BAD_KEY);
    EXPECT(hlc_file_batch_many(batch), 3);
    EXPECT(hlc_file_append(file, 1, 10, batch, 0, &word), HLC_NO_NODE);
    EXPECT(hlc_file_batch_many(batch), 3);
    EXPECT(hlc_file_append(file, 0, 10, batch, 9, &word), HLC_FILE_BAD_OPTION);
    for (uint32_t promise = 0; promise <= HLC_FILE_WRITTEN; promise++) {
        if (promise > 0) EXPECT(hlc_file_batch_put(batch, BYTES("c"), BYTES("three")), HLC_OK);
        EXPECT(hlc_file_append(file, 0, 10, batch, promise, &word), HLC_OK);
        EXPECT(hlc_file_batch_many(batch), 0);
        EXPECT(word, AT(10) + 2 + promise);
        EXPECT(state_of(file).place, 1 + promise);
    }
    EXPECT_VALUE(file, AT(10) + 1, "a", "one");
    EXPECT_VALUE(file, AT(10) + 2, "a", "");
    EXPECT_VALUE(file, AT(10) + 2, "b", "two");
    hlc_file_batch_drop(batch);
    hlc_file_batch_drop(NULL);
    hlc_file_close(file);
    EXPECT(number_of(PATH, "SELECT count(*) FROM log"), 4);
}

static void a_batch_has_a_limit(void)
{
    static uint8_t value[65535];
    hlc_file_batch *batch;
    uint64_t word;
    uint32_t answer = HLC_OK;
    hlc_file *file = opened(fresh(PATH));
    EXPECT(hlc_file_batch_new(&batch), HLC_OK);
    while (answer == HLC_OK) answer = hlc_file_batch_put(batch, BYTES("a"), value, sizeof value);
    EXPECT(answer, HLC_FILE_TOO_LONG);
    /* Each has 20 bytes before its body, 2 of the key, 3 before the value, and the value. */
    EXPECT(hlc_file_batch_many(batch), ((size_t)64 << 20) / (20 + 2 + 3 + 65535));
    EXPECT(hlc_file_append(file, 0, 10, batch, 0, &word), HLC_OK);
    hlc_file_batch_drop(batch);
    hlc_file_close(file);
    file = opened(PATH);
    EXPECT(state_of(file).applied, 1023);
    hlc_file_close(file);
}

/* All writes of a batch have one stamp: a snapshot shows them or none. */
static void a_batch_is_one_item(void)
{
    hlc_file_batch *batch;
    uint64_t word;
    hlc_file *file = opened(fresh(PATH));
    put(file, 5, "b", "old");
    EXPECT(hlc_file_batch_new(&batch), HLC_OK);
    EXPECT(hlc_file_write_batch(file, 0, 10, batch, 0, &word), HLC_NO_WRITES);
    for (uint32_t promise = 0; promise <= HLC_FILE_WRITTEN; promise++) {
        EXPECT(hlc_file_batch_put(batch, BYTES("a"), BYTES("one")), HLC_OK);
        EXPECT(hlc_file_batch_delete(batch, BYTES("b")), HLC_OK);
        EXPECT(hlc_file_batch_put(batch, BYTES("c"), BYTES("")), HLC_OK);
        EXPECT(hlc_file_write_batch(file, 0, 10, batch, promise, &word), HLC_OK);
        EXPECT(hlc_file_batch_many(batch), 0);
        EXPECT(word, AT(10) + promise);
        EXPECT(state_of(file).place, 2 + promise);
    }
    for (int i = 0; i < 2; i++) {
        EXPECT_VALUE(file, AT(10) - 1, "a", "");
        EXPECT_VALUE(file, AT(10) - 1, "b", "old");
        EXPECT_VALUE(file, AT(10), "a", "one");
        EXPECT_VALUE(file, AT(10), "b", "");
        hlc_file_close(file);
        file = opened(PATH);
        EXPECT(state_of(file).applied, 5);
    }
    hlc_file_batch_drop(batch);
    hlc_file_close(file);
    /* 20 bytes and one before the writes; of these, 2 + 1 + 2 + 3, 2 + 1 and 2 + 1 + 2. */
    EXPECT(number_of(PATH, "SELECT length(records) FROM log WHERE place = 2"), 21 + 8 + 3 + 5);
}

static void a_refused_batch_is_nowhere(void)
{
    hlc_file_batch *batch;
    uint64_t word, next;
    char key[16];
    hlc_file *file = opened(fresh(PATH));
    EXPECT(hlc_file_batch_new(&batch), HLC_OK);
    for (int i = 0; i < HLC_MAX_BATCH; i++) {
        snprintf(key, sizeof key, "k%d", i);
        EXPECT(hlc_file_batch_put(batch, BYTES(key), BYTES("v")), HLC_OK);
    }
    EXPECT(hlc_file_write_batch(file, 0, 10, batch, 9, &word), HLC_FILE_BAD_OPTION);
    EXPECT(hlc_file_write_batch(file, 1, 10, batch, 0, &word), HLC_NO_NODE);
    EXPECT(hlc_file_write_batch(file, 0, (uint64_t)1 << 48, batch, 0, &word), HLC_READING_TOO_LARGE);
    EXPECT(state_of(file).place, 0);
    EXPECT(hlc_file_write_batch(file, 0, 10, batch, 0, &word), HLC_OK);
    for (int i = 0; i <= HLC_MAX_BATCH; i++) {
        snprintf(key, sizeof key, "k%d", i);
        EXPECT(hlc_file_batch_put(batch, BYTES(key), BYTES("w")), HLC_OK);
    }
    EXPECT(hlc_file_write_batch(file, 0, 20, batch, 0, &word), HLC_TOO_MANY_WRITES);
    EXPECT(hlc_file_batch_many(batch), HLC_MAX_BATCH + 1);
    hlc_file_batch_clear(batch);
    EXPECT(hlc_file_batch_put(batch, BYTES("k1"), BYTES("w")), HLC_OK);
    EXPECT(hlc_file_batch_put(batch, BYTES("k2"), BYTES("w")), HLC_OK);
    EXPECT(hlc_file_batch_delete(batch, BYTES("k1")), HLC_OK);
    EXPECT(hlc_file_write_batch(file, 0, 20, batch, 0, &word), HLC_KEY_TWICE);
    EXPECT(word, 0);
    EXPECT(state_of(file).place, 1);
    EXPECT(state_of(file).failure, 0);
    EXPECT_VALUE(file, 0, "k2", "v");
    EXPECT(hlc_file_retire(file, 0, 30, &word), HLC_OK);
    hlc_file_batch_clear(batch);
    EXPECT(hlc_file_batch_put(batch, BYTES("k1"), BYTES("w")), HLC_OK);
    EXPECT(hlc_file_write_batch(file, 0, 40, batch, 0, &next), HLC_RETIRED);
    hlc_file_batch_drop(batch);
    hlc_file_close(file);
}

/* A batch of another machine comes whole, or not at all. */
static void a_batch_comes_by_its_record(void)
{
    static const uint8_t writes[] = "\1a\1\0\3one\1b\0\1c\1\0\0", twice[] = "\1a\1\0\3one\1b\0\1a\0";
    uint8_t bytes[100];
    size_t many, len;
    uint64_t word;
    hlc_file *file = opened_with(fresh(PATH), (hlc_file_options){ .nodes = 2 });
    put(file, 20, "near", "x");
    EXPECT(hlc_item_encode_batch(1, 0, AT(10), 3, writes, sizeof writes - 1, bytes, sizeof bytes, &len), HLC_OK);
    for (size_t cut = 1; cut < len; cut++) {
        EXPECT(hlc_file_append_records(file, bytes, cut, 0, &many, &word), HLC_BAD_BYTES);
        EXPECT(word, 1);
        EXPECT(many, 0);
    }
    EXPECT_VALUE(file, 0, "a", "");
    /* The same item with other writes, two of which are of one key. */
    memcpy(bytes + 21, twice, sizeof twice - 1);
    EXPECT(hlc_file_append_records(file, bytes, 21 + sizeof twice - 1, 0, &many, &word), HLC_KEY_TWICE);
    EXPECT(many + word, 0);
    EXPECT(state_of(file).place, 1);
    memcpy(bytes + 21, writes, sizeof writes - 1);
    for (int i = 0; i < 2; i++) {
        EXPECT(hlc_file_append_records(file, bytes, len, 0, &many, &word), HLC_OK);
        EXPECT(many, 1);
        EXPECT(state_of(file).place, 2);
    }
    EXPECT_VALUE(file, AT(10), "a", "one");
    hlc_file_close(file);
    file = opened(PATH);
    EXPECT_VALUE(file, AT(10), "a", "one");
    EXPECT_VALUE(file, AT(9), "a", "");
    hlc_file_close(file);
}

/* Items of another machine's node 1: numbers from 0, stamps from l on. */
static size_t items(uint8_t *bytes, uint64_t from, uint64_t many, uint64_t l)
{
    size_t at = 0, len;
    for (uint64_t i = from; i < from + many; i++) {
        EXPECT(hlc_item_encode_write(1, i, AT(l + i), BYTES("far"), BYTES("v"), bytes + at, 100, &len), HLC_OK);
        at += len;
    }
    return at;
}

static void records_come_all_or_none(void)
{
    uint8_t bytes[2000];
    size_t many, len;
    uint64_t word;
    hlc_file *file = opened_with(fresh(PATH), (hlc_file_options){ .nodes = 2 });
    len = items(bytes, 0, 3, 10);
    EXPECT(hlc_file_append_records(file, bytes, len, 0, &many, &word), HLC_OK);
    EXPECT(many, 3);
    EXPECT(state_of(file).clock, AT(12));
    /* Numbers 1 to 5: the first two came before. */
    len = items(bytes, 1, 5, 10);
    EXPECT(hlc_file_append_records(file, bytes, len, 0, &many, &word), HLC_OK);
    EXPECT(many, 5);
    len = items(bytes, 6, 2, 10);
    len += items(bytes + len, 9, 1, 10);
    EXPECT(hlc_file_append_records(file, bytes, len, 0, &many, &word), HLC_NOT_NEXT);
    EXPECT(many, 2);
    EXPECT(word, 8);
    EXPECT(hlc_file_append_records(file, bytes, len - 1, 0, &many, &word), HLC_BAD_BYTES);
    EXPECT(word, 1);
    EXPECT(state_of(file).place, 2);
    EXPECT(state_of(file).failure, 0);
    /* The links are as if the refused records had not come. */
    len = items(bytes, 6, 1, 10);
    EXPECT(hlc_file_append_records(file, bytes, len, 0, &many, &word), HLC_OK);
    EXPECT(hlc_file_append_records(file, bytes, HLC_FILE_BATCH_BYTES + 1, 0, &many, &word), HLC_FILE_TOO_LONG);
    put(file, 1, "near", "w");
    EXPECT(state_of(file).clock, AT(16) + 1);
    hlc_file_close(file);
    EXPECT(number_of(PATH, "SELECT sum(length(records)) FROM log"), 7 * (20 + 4 + 3 + 1) + 20 + 5 + 3 + 1);
    file = opened(PATH);
    EXPECT_VALUE(file, AT(16), "far", "v");
    hlc_file_close(file);
}

/* ---- Vacuums and snapshots ---- */

static void no_snapshot_opens_below_a_threshold(void)
{
    uint64_t word, kept, bytes, dropped, id, place, horizon;
    hlc_file *file = opened(fresh(PATH));
    for (uint64_t l = 1; l <= 9; l++) put(file, l, "a", l == 5 ? "five" : l % 2 ? "odd" : "even");
    EXPECT(hlc_file_open_snapshot(file, AT(3), &id), HLC_OK);
    EXPECT(hlc_file_vacuum_to(file, AT(10), &word, &kept, &bytes, &dropped), HLC_ABOVE_FLOOR);
    EXPECT(word, AT(9));
    EXPECT(hlc_file_vacuum_to(file, AT(5), &word, &kept, &bytes, &dropped), HLC_OK);
    EXPECT(word, AT(5));
    EXPECT(kept, 2);
    EXPECT(dropped, 3);
    EXPECT(hlc_file_vacuum_to(file, AT(4), &word, &kept, &bytes, &dropped), HLC_BELOW_HORIZON);
    EXPECT(word, AT(5));
    EXPECT_VALUE(file, AT(4), "a", "refused 9");
    EXPECT_VALUE(file, AT(5), "a", "five");
    hlc_file_close(file);
    for (int i = 0; i < 3; i++) {
        file = opened(PATH);
        EXPECT(hlc_file_horizon(file, &horizon), HLC_OK);
        EXPECT(horizon, AT(5));
        EXPECT_VALUE(file, AT(4), "a", "refused 9");
        EXPECT(hlc_file_close_snapshot(file, id, &word), HLC_NO_SNAPSHOT);
        EXPECT(hlc_file_checkpoint(file, &place), HLC_OK);
        hlc_file_close(file);
    }
}

/* A threshold of other machines comes into force once the floor reached it, also after an opening. */
static void a_threshold_waits_for_the_floor(void)
{
    uint8_t bytes[9];
    size_t len, many;
    uint64_t word, horizon, kept, cost, dropped, place;
    hlc_file *file = opened(fresh(PATH));
    put(file, 5, "a", "x");
    EXPECT(hlc_record_encode_threshold(AT(8), bytes, sizeof bytes, &len), HLC_OK);
    EXPECT(hlc_file_append_records(file, bytes, len, 0, &many, &word), HLC_OK);
    EXPECT(hlc_file_vacuum_to(file, AT(4), &word, &kept, &cost, &dropped), HLC_OK);
    for (int i = 0; i < 3; i++) EXPECT(hlc_file_checkpoint(file, &place), HLC_OK);
    hlc_file_close(file);
    file = opened(PATH);
    EXPECT(hlc_file_horizon(file, &horizon), HLC_OK);
    EXPECT(horizon, AT(4));
    put(file, 9, "a", "y");
    EXPECT(hlc_file_horizon(file, &horizon), HLC_OK);
    EXPECT(horizon, AT(8));
    hlc_file_close(file);
}

static uint64_t horizon_of(hlc_file *file)
{
    uint64_t horizon;
    EXPECT(hlc_file_horizon(file, &horizon), HLC_OK);
    return horizon;
}

/* Appends two thresholds and a write between them as one batch. */
static void append_thresholds(hlc_file *file, uint64_t one, uint64_t number, uint64_t l, uint64_t other)
{
    uint8_t bytes[100];
    size_t at, len, many;
    uint64_t word;
    EXPECT(hlc_record_encode_threshold(AT(one), bytes, sizeof bytes, &at), HLC_OK);
    EXPECT(hlc_item_encode_write(0, number, AT(l), BYTES("a"), BYTES("x"), bytes + at, sizeof bytes - at, &len),
           HLC_OK);
    EXPECT(hlc_record_encode_threshold(AT(other), bytes + at + len, sizeof bytes - at - len, &many), HLC_OK);
    EXPECT(hlc_file_append_records(file, bytes, at + len + many, 0, &many, &word), HLC_OK);
}

/* A threshold that the floor reached counts beside those that wait, of which the greatest counts. */
static void each_threshold_that_is_reached_counts(void)
{
    hlc_file *file = opened(fresh(PATH));
    put(file, 10, "a", "x");
    append_thresholds(file, 15, 1, 20, 100);
    EXPECT(horizon_of(file), AT(15));
    hlc_file_close(file);
    file = opened(PATH);
    EXPECT(horizon_of(file), AT(15));
    put(file, 99, "a", "x");
    EXPECT(horizon_of(file), AT(15));
    /* The floor reaches 100 by the batch in which 200 begins to wait. */
    append_thresholds(file, 16, 3, 101, 200);
    EXPECT(horizon_of(file), AT(100));
    put(file, 200, "a", "x");
    EXPECT(horizon_of(file), AT(200));
    hlc_file_close(file);
}

static void a_vacuum_by_age(void)
{
    uint64_t word, kept, bytes, dropped, floor;
    hlc_file *file = opened_with(fresh(PATH), (hlc_file_options){ .promise = HLC_FILE_WRITTEN });
    for (int i = 0; i < 3000; i++) {
        char key[16];
        snprintf(key, sizeof key, "k%d", i % 1500);
        put(file, HLC_FILE_NOW, key, i < 1500 ? "x" : "y");
    }
    usleep(2000);
    EXPECT(hlc_file_vacuum_older(file, UINT64_MAX, &word, &kept, &bytes, &dropped), HLC_FILE_NO_STAMP);
    EXPECT(hlc_file_vacuum_older(file, 3600000, &word, &kept, &bytes, &dropped), HLC_OK);
    EXPECT(dropped, 0);
    EXPECT(hlc_file_vacuum_older(file, 0, &word, &kept, &bytes, &dropped), HLC_OK);
    EXPECT(hlc_file_floor(file, &floor), HLC_OK);
    EXPECT(word, floor);
    EXPECT(kept, 1500);
    EXPECT(dropped, 1500);
    EXPECT(hlc_file_vacuum_older(file, 3600000, &word, &kept, &bytes, &dropped), HLC_OK);
    EXPECT(word, floor);
    hlc_file_close(file);
}

static void reading_calls_are_those_of_the_store(void)
{
    uint8_t out[256];
    uint64_t id, stamp, many64;
    size_t len, many;
    hlc_store mine;
    hlc_file *file = opened(fresh(PATH));
    put(file, 1, "a", "x");
    put(file, 2, "b", "yy");
    EXPECT(hlc_file_open_snapshot_at_floor(file, &id, &stamp), HLC_OK);
    EXPECT(stamp, AT(2));
    EXPECT(hlc_file_scan(file, id, NULL, 0, NULL, 0, out, sizeof out, &len, &many), HLC_OK);
    EXPECT(many, 2);
    EXPECT(len, 16 + 2 + 16 + 3);
    EXPECT(out[8], 'a');
    EXPECT(hlc_file_scan_back(file, id, NULL, 0, NULL, 0, out, 20, &len, &many), HLC_MORE);
    EXPECT(many, 1);
    EXPECT(out[8], 'b');
    EXPECT(hlc_file_count(file, id, BYTES("b"), NULL, 0, &many64), HLC_OK);
    EXPECT(many64, 1);
    EXPECT(hlc_file_read(file, id, BYTES("c"), out, sizeof out, &len), HLC_NO_VALUE);
    EXPECT(hlc_file_read_begin(file, &mine), HLC_OK);
    EXPECT(hlc_snapshot_read(&mine, id, BYTES("b"), out, sizeof out, &len), HLC_OK);
    EXPECT(len, 2);
    hlc_file_read_end(file);
    EXPECT(hlc_file_close_snapshot(file, id, &stamp), HLC_OK);
    EXPECT(hlc_file_read(file, id, BYTES("a"), out, sizeof out, &len), HLC_NO_SNAPSHOT);
    hlc_file_close(file);
}

/* ---- Checkpoints in the background ---- */

static void a_policy_makes_checkpoints(void)
{
    char value[1000] = { 0 };
    hlc_file *file = opened_with(fresh(PATH), (hlc_file_options){ .checkpoint_bytes = 20000 });
    memset(value, 'v', sizeof value - 1);
    for (uint64_t l = 1; l <= 30; l++) put(file, l, "a", value);
    for (int i = 0; i < 500 && state_of(file).checkpoint_place < 10; i++) usleep(10000);
    HOLDS(state_of(file).checkpoint_place >= 10);
    EXPECT(state_of(file).background, HLC_OK);
    hlc_file_close(file);
    file = opened(PATH);
    HOLDS(state_of(file).applied < 30);
    EXPECT_VALUE(file, AT(7), "a", value);
    hlc_file_close(file);
}

/* After a checkpoint of many bytes, the next one in the background waits for half as many of log. */
static void a_large_store_is_not_saved_often(void)
{
    static char value[50000];
    uint64_t place, l = 0;
    memset(value, 'v', sizeof value - 1);
    hlc_file *file = opened(fresh(PATH));
    while (l < 20) put(file, ++l, "a", value);
    EXPECT(hlc_file_checkpoint(file, &place), HLC_OK);
    EXPECT(place, 20);
    for (uint64_t many = 40; many <= 60; many += 20) {
        hlc_file_close(file);
        file = opened_with(PATH, (hlc_file_options){ .checkpoint_bytes = 1000 });
        while (l < many) put(file, ++l, "small", "a write of more bytes than a twentieth of 1000");
        usleep(50000);
        EXPECT(state_of(file).checkpoint_place, 20);
    }
    EXPECT(hlc_file_close(file), HLC_OK);
}

/* ---- A full disk ---- */

static bool is_of_disk(uint32_t answer)
{
    return answer == HLC_FILE_FULL || answer == HLC_FILE_IO;
}

/* When there is room again, writes go on. */
static void a_full_disk_refuses(void)
{
    char key[16];
    static char value[10000];
    uint32_t answer = HLC_OK;
    uint64_t l = 0, stamp, place;
    memset(value, 'v', sizeof value - 1);
    for (rlim_t bytes = 200000; bytes < 212000; bytes += 1111) {
        hlc_file *file = opened(fresh(PATH));
        limit_files(bytes);
        for (l = 0, answer = HLC_OK; answer == HLC_OK && l < 100;) {
            snprintf(key, sizeof key, "k%d", (int)++l);
            answer = put_at(file, l, key, value, &stamp);
        }
        HOLDS(is_of_disk(answer) || answer == HLC_FILE_UNKNOWN);
        EXPECT(stamp, 0);
        EXPECT(state_of(file).failure, answer);
        HOLDS(state_of(file).sqlite != 0);
        EXPECT(state_of(file).writes, is_of_disk(answer) ? HLC_OK : HLC_FILE_UNKNOWN);
        EXPECT_VALUE(file, 0, key, "");
        answer = hlc_file_checkpoint(file, &place);
        HOLDS(is_of_disk(answer) || answer == HLC_FILE_UNKNOWN || answer == HLC_FILE_SEALED);
        limit_files(0);
        put(file, 200, "b", "room");
        EXPECT(state_of(file).writes, HLC_OK);
        EXPECT_VALUE(file, 0, "b", "room");
        hlc_file_close(file);
        file = opened(PATH);
        /* All but the refused one, and the one for which there was room. */
        EXPECT(state_of(file).applied, l);
        EXPECT_VALUE(file, 0, key, "");
        EXPECT_VALUE(file, 0, "b", "room");
        hlc_file_close(file);
    }
}

static void a_copy_opens_in_memory(void)
{
    static uint8_t bytes[10000];
    hlc_output output = HLC_NO_OUTPUT;
    hlc_store store = HLC_CLOSED_STORE;
    uint64_t word, floor, id;
    size_t len, read;
    hlc_file *file = opened(fresh(PATH));
    put(file, 1, "a", "one");
    put(file, 2, "a", "two");
    EXPECT(hlc_file_copy(file, 9, &output, &len), HLC_OK);
    HOLDS(0 < len && len <= sizeof bytes);
    put(file, 3, "a", "three");
    EXPECT(hlc_output_read(&output, 0, bytes, sizeof bytes, &read), HLC_OK);
    EXPECT(read, len);
    EXPECT(hlc_file_copy(file, 9, &output, &read), HLC_HAS_BYTES);
    EXPECT(read, 0);
    hlc_output_drop(&output);
    EXPECT(state_of(file).checkpoint_place, 0);
    EXPECT(hlc_file_close(file), HLC_OK);
    EXPECT(hlc_store_restore(&store, bytes, len, &word), HLC_OK);
    EXPECT(word, 9);
    EXPECT(hlc_store_floor(&store, &floor), HLC_OK);
    EXPECT(floor, AT(2));
    EXPECT(hlc_snapshot_open(&store, AT(1), &id), HLC_OK);
    EXPECT(hlc_snapshot_read(&store, id, BYTES("a"), bytes, sizeof bytes, &len), HLC_OK);
    HOLDS(len == 3 && memcmp(bytes, "one", len) == 0);
    hlc_store_close(&store);
}

/* ---- Answers ---- */

static void each_answer_has_a_name_and_a_text(void)
{
    uint8_t out[200];
    size_t len;
    for (uint32_t answer = HLC_FILE_IN_USE; answer <= HLC_FILE_NO_STAMP; answer++) {
        hlc_file_error_name(answer, out, sizeof out, &len);
        HOLDS(len > 9 && memcmp(out, "HLC_FILE_", 9) == 0);
        hlc_file_error_text(answer, out, sizeof out, &len);
        HOLDS(len > 10 && len < sizeof out);
    }
    hlc_file_error_name(HLC_FILE_LATER, out, sizeof out, &len);
    HOLDS(len == 14 && memcmp(out, "HLC_FILE_LATER", len) == 0);
    hlc_file_error_name(HLC_FILE_NO_STAMP, out, sizeof out, &len);
    HOLDS(len == 17 && memcmp(out, "HLC_FILE_NO_STAMP", len) == 0);
    memset(out, '#', sizeof out);
    hlc_file_error_name(HLC_FILE_LATER, out, 13, &len);
    HOLDS(len == 14 && out[0] == '#');
    hlc_file_error_name(HLC_NO_VALUE, out, sizeof out, &len);
    HOLDS(len == 12 && memcmp(out, "HLC_NO_VALUE", len) == 0);
    hlc_file_error_text(HLC_FILE_NO_STAMP + 1, out, sizeof out, &len);
    EXPECT(len, 0);
}

static const struct test TESTS[] = {
    TEST(stamps_rise_over_openings),
    TEST(messages_share_a_written_clock),
    TEST(the_system_clock_serves),
    TEST(a_full_counter_refuses_no_write_at_the_clock),
    TEST(nodes_join_and_retire),
    TEST(refused_writes_change_nothing),
    TEST(a_batch_is_one_row),
    TEST(a_batch_has_a_limit),
    TEST(a_batch_is_one_item),
    TEST(a_refused_batch_is_nowhere),
    TEST(a_batch_comes_by_its_record),
    TEST(records_come_all_or_none),
    TEST(no_snapshot_opens_below_a_threshold),
    TEST(a_threshold_waits_for_the_floor),
    TEST(each_threshold_that_is_reached_counts),
    TEST(a_vacuum_by_age),
    TEST(reading_calls_are_those_of_the_store),
    TEST(a_policy_makes_checkpoints),
    TEST(a_large_store_is_not_saved_often),
    TEST(a_full_disk_refuses),
    TEST(a_copy_opens_in_memory),
    TEST(each_answer_has_a_name_and_a_text),
};

int main(void)
{
    return run_tests(TESTS, sizeof TESTS / sizeof *TESTS);
}
