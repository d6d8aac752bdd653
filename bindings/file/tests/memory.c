/* Each request for memory of each call is refused in its turn, by tests/refuse.c of the repository, which is loaded
 * before the C library. A call that is refused changes nothing, or says that it took place; made again it succeeds. */
#include "no_syncs.h"
#include "test.h"

enum { MOST_REQUESTS = 3000 };

static const char PATH[] = "memory.hlc", BEGIN[] = "memory-begin.hlc";
static const size_t REFUSE = (size_t)1 << 60, WAS_REFUSED = (size_t)1 << 61;
static hlc_file *file;
static hlc_file_batch *batch;
/* The compiler does not see what becomes of a request. */
static void *volatile answered;

static void refuse(size_t number)
{
    answered = malloc(REFUSE + number);
}

static bool was_refused(void)
{
    answered = malloc(WAS_REFUSED);
    bool refused = answered != NULL;
    free(answered);
    return refused;
}

/* ---- The calls: each gives the key `new` the value `x`, or changes no value ---- */

static uint32_t call_write(void)
{
    uint64_t word;
    return put_at(file, 50, "new", "x", &word);
}

static uint32_t call_append(uint32_t promise)
{
    uint64_t word;
    hlc_file_batch_clear(batch);
    uint32_t answer = HLC_OK;
    for (int i = 0; i < 40 && answer == HLC_OK; i++) {
        char key[40];
        snprintf(key, sizeof key, "another key of some length %d", i);
        answer = hlc_file_batch_put(batch, BYTES(key), BYTES("another value of some length, so that it is a block"));
    }
    if (answer == HLC_OK) answer = hlc_file_batch_put(batch, BYTES("new"), BYTES("x"));
    return answer == HLC_OK ? hlc_file_append(file, 0, 50, batch, promise, &word) : answer;
}

static uint32_t call_write_batch(void)
{
    uint64_t word;
    hlc_file_batch_clear(batch);
    uint32_t answer = HLC_OK;
    for (int i = 0; i < 5 && answer == HLC_OK; i++) {
        char key[40];
        snprintf(key, sizeof key, "another key of some length %d", i);
        answer = hlc_file_batch_put(batch, BYTES(key), BYTES("another value of some length, so that it is a block"));
    }
    if (answer == HLC_OK) answer = hlc_file_batch_put(batch, BYTES("new"), BYTES("x"));
    return answer == HLC_OK ? hlc_file_write_batch(file, 0, 50, batch, 0, &word) : answer;
}

static uint32_t call_append_group(void)
{
    return call_append(HLC_FILE_GROUP);
}

static uint32_t call_append_written(void)
{
    return call_append(HLC_FILE_WRITTEN);
}

static uint32_t call_records(void)
{
    uint8_t bytes[100];
    size_t len, many;
    uint64_t word;
    EXPECT(hlc_item_encode_write(0, 5, AT(50), BYTES("new"), BYTES("x"), bytes, sizeof bytes, &len), HLC_OK);
    return hlc_file_append_records(file, bytes, len, 0, &many, &word);
}

static uint32_t call_join(void)
{
    uint16_t node;
    uint64_t start;
    return hlc_file_join(file, &node, &start);
}

/* A node that joined would hold the floor back. */
static void retire_joined(void)
{
    hlc_store mine;
    uint64_t nodes, word;
    hlc_file_read_begin(file, &mine);
    EXPECT(hlc_store_nodes(&mine, &nodes), HLC_OK);
    hlc_file_read_end(file);
    if (nodes > 1) EXPECT(hlc_file_retire(file, (uint16_t)(nodes - 1), 60, &word), HLC_OK);
}

static uint32_t call_send(void)
{
    uint64_t word;
    return hlc_file_send(file, 0, 50000, &word);
}

static uint32_t call_checkpoint(void)
{
    uint64_t place;
    return hlc_file_checkpoint(file, &place);
}

static uint32_t call_copy(void)
{
    hlc_output output = HLC_NO_OUTPUT;
    size_t len;
    uint32_t answer = hlc_file_copy(file, 7, &output, &len);
    HOLDS((answer == HLC_OK) == (len > 0));
    hlc_output_drop(&output);
    return answer;
}

static uint32_t call_vacuum(void)
{
    uint64_t word, kept, bytes, dropped;
    return hlc_file_vacuum_to(file, AT(3), &word, &kept, &bytes, &dropped);
}

static uint32_t call_threshold(void)
{
    uint8_t bytes[9];
    size_t len, many;
    uint64_t word;
    EXPECT(hlc_record_encode_threshold(AT(3), bytes, sizeof bytes, &len), HLC_OK);
    return hlc_file_append_records(file, bytes, len, 0, &many, &word);
}

static uint32_t call_snapshot(void)
{
    uint64_t id, stamp;
    uint32_t answer = hlc_file_open_snapshot_at_floor(file, &id, &stamp);
    if (answer == HLC_OK) hlc_file_close_snapshot(file, id, &stamp);
    return answer;
}

static uint32_t call_open(void)
{
    hlc_file_options options = { .checkpoint_bytes = UINT64_MAX };
    hlc_file_state state;
    hlc_file_close(file);
    memset(&state, 0xff, sizeof state);
    state.size = 0;
    uint32_t answer = hlc_file_open(PATH, &options, &file, &state);
    EXPECT(state.failure, answer < HLC_FILE_IN_USE ? 0 : answer);
    EXPECT(state.size, sizeof state);
    return answer;
}

static const struct {
    const char *name;
    uint32_t (*call)(void);
    bool writes;   /* whether it gives `new` its value */
    bool advances; /* whether it advances the horizon */
} CALLS[] = {
    { "write", call_write, true, false },
    { "append, in a group", call_append_group, true, false },
    { "append, not synced", call_append_written, true, false },
    { "batch as one item", call_write_batch, true, false },
    { "append of records", call_records, true, false },
    { "join", call_join, false, false },
    { "send", call_send, false, false },
    { "checkpoint", call_checkpoint, false, false },
    { "copy", call_copy, false, false },
    { "vacuum", call_vacuum, false, true },
    { "threshold", call_threshold, false, true },
    { "snapshot", call_snapshot, false, false },
    { "open", call_open, false, false },
};

static void make_begin(void)
{
    uint64_t place, word, kept, bytes, dropped;
    file = opened(fresh(BEGIN));
    for (uint64_t l = 1; l <= 5; l++) {
        put(file, l, "old", l % 2 ? "odd" : "even");
        if (l == 3) EXPECT(hlc_file_checkpoint(file, &place), HLC_OK);
    }
    EXPECT(hlc_file_vacuum_to(file, AT(2), &word, &kept, &bytes, &dropped), HLC_OK);
    hlc_file_close(file);
}

/* Begins a case with a copy of the first file. */
static void copy_begin(void)
{
    static uint8_t bytes[1 << 20];
    FILE *from = fopen(BEGIN, "rb"), *to = fopen(fresh(PATH), "wb");
    HOLDS(from && to);
    size_t len = fread(bytes, 1, sizeof bytes, from);
    HOLDS(0 < len && len < sizeof bytes && fwrite(bytes, 1, len, to) == len);
    HOLDS(fclose(from) == 0 && fclose(to) == 0);
}

static void expect_old(void)
{
    EXPECT_VALUE(file, AT(5), "old", "odd");
    EXPECT_VALUE(file, AT(4), "old", "even");
}

static void expect_horizon(size_t at)
{
    uint64_t horizon;
    hlc_file_horizon(file, &horizon);
    EXPECT(horizon, AT(CALLS[at].advances ? 3 : 2));
}

/* While there is no memory for a batch that is on disk, no snapshot opens, where half of it could be seen. */
static void expect_no_snapshot(void)
{
    uint64_t id, stamp;
    refuse(1);
    EXPECT(hlc_file_open_snapshot_at_floor(file, &id, &stamp), HLC_NO_MEMORY);
    HOLDS(was_refused() && id == 0 && stamp == 0);
    refuse(1);
    EXPECT(hlc_file_open_snapshot(file, AT(5), &id), HLC_NO_MEMORY);
    HOLDS(was_refused() && id == 0);
}

/* Makes a call once more until it takes place: a refusal that left a doubt is settled by the next write. */
static void make_again(size_t at)
{
    uint64_t word;
    if (!file) EXPECT(call_open(), HLC_OK);
    else if (CALLS[at].call != call_open) EXPECT(CALLS[at].call(), HLC_OK);
    if (CALLS[at].call == call_join) retire_joined();
    if (CALLS[at].writes) EXPECT_VALUE(file, 0, "new", "x");
    expect_old();
    EXPECT(put_at(file, 70, "later", "y", &word), HLC_OK);
    EXPECT_VALUE(file, 0, "later", "y");
}

/* Makes a call whose request of this number is refused. Returns whether it was. */
static bool make_refused(size_t at, size_t number)
{
    copy_begin();
    file = opened(PATH);
    refuse(number);
    uint32_t answer = CALLS[at].call();
    bool refused = was_refused();
    HOLDS(answer == HLC_OK || refused);
    /* SQLite calls some requests that it makes to open a file a failure to open it. */
    HOLDS(answer == HLC_OK || answer == HLC_NO_MEMORY || answer == HLC_FILE_LATER || answer == HLC_FILE_UNKNOWN ||
          (answer == HLC_FILE_CANNOT_OPEN && CALLS[at].call == call_open));
    if (answer == HLC_FILE_LATER) {
        expect_no_snapshot();
        EXPECT(state_of(file).waiting, 1);
        put(file, 60, "next", "z");
        EXPECT(state_of(file).waiting, 0);
        if (CALLS[at].writes) EXPECT_VALUE(file, 0, "new", "x");
    } else if (answer != HLC_OK) {
        if (file) EXPECT_VALUE(file, 0, "new", "");
        make_again(at);
    }
    expect_horizon(at);
    EXPECT(hlc_file_close(file), HLC_OK);
    file = opened(PATH);
    expect_horizon(at);
    if (CALLS[at].writes) EXPECT_VALUE(file, 0, "new", "x");
    expect_old();
    EXPECT(hlc_file_close(file), HLC_OK);
    file = NULL;
    return refused;
}

static const char LONG_KEY[] = "a key of some length, for which the store makes a request of its own";

/* Leaves a write on disk for which the store had no memory, and returns its stamp. */
static uint64_t leave_behind(void)
{
    uint64_t stamp;
    bool refused = true;
    for (size_t number = 1; refused; number++) {
        copy_begin();
        file = opened(PATH);
        refuse(number);
        uint32_t answer = put_at(file, 50, LONG_KEY, "x", &stamp);
        refused = was_refused();
        if (answer == HLC_FILE_LATER) return stamp;
        hlc_file_close(file);
    }
    puts("no write stays behind");
    exit(1);
}

/* Opening a snapshot at the stamp that the write returned accepts it first. */
static void read_behind(void)
{
    uint64_t stamp = leave_behind();
    EXPECT(stamp, AT(50));
    EXPECT_VALUE(file, stamp, LONG_KEY, "x");
    EXPECT(state_of(file).waiting, 0);
    EXPECT(hlc_file_close(file), HLC_OK);
}

/* A write that is refused, since there is still no memory for the one before it, leaves that one as it is: the next
 * write comes after both. */
static void refuse_behind(void)
{
    uint64_t stamp;
    leave_behind();
    /* The first request is for the write's own record. */
    refuse(2);
    EXPECT(put_at(file, 60, "next", "y", &stamp), HLC_NO_MEMORY);
    HOLDS(was_refused());
    EXPECT(state_of(file).waiting, 1);
    put(file, 60, "next", "z");
    for (int i = 0; i < 2; i++) {
        EXPECT(state_of(file).waiting, 0);
        EXPECT_VALUE(file, 0, LONG_KEY, "x");
        EXPECT_VALUE(file, 0, "next", "z");
        EXPECT(hlc_file_close(file), HLC_OK);
        if (i == 0) file = opened(PATH);
    }
}

/* Opens a file whose log two threads read and apply, where a request is refused, and then again. */
static void open_long(void)
{
    static char value[3000];
    hlc_file_options options = { .promise = HLC_FILE_WRITTEN, .checkpoint_bytes = UINT64_MAX };
    hlc_file_state state = { 0 };
    uint64_t word;
    memset(value, 'v', sizeof value - 1);
    file = opened_with(fresh(PATH), options);
    for (uint64_t l = 1; l <= 1500; l++) put(file, l, l % 2 ? "odd" : "even", value);
    EXPECT(hlc_file_close(file), HLC_OK);
    bool refused = true;
    for (size_t number = 1; refused && wrong < 20; number += 1 + number / 8) {
        refuse(number);
        uint32_t answer = hlc_file_open(PATH, &options, &file, &state);
        refused = was_refused();
        HOLDS(answer == HLC_OK || (refused && (answer == HLC_NO_MEMORY || answer == HLC_FILE_CANNOT_OPEN)));
        hlc_file_close(file);
        file = opened_with(PATH, options);
        EXPECT(state_of(file).applied, 1500);
        EXPECT(strlen(value_at(file, AT(1499), "odd")), sizeof value - 1);
        EXPECT(hlc_file_close(file), HLC_OK);
    }
    HOLDS(!refused);
    file = opened_with(PATH, options);
    EXPECT(put_at(file, 2000, "odd", "x", &word), HLC_OK);
    EXPECT(hlc_file_close(file), HLC_OK);
    file = NULL;
}

int main(void)
{
    static char name[80];
    test_name = name;
    unsigned long cases = 0;
    setenv("TMPDIR", ".", 1);
    hlc_file_batch_new(&batch);
    make_begin();
    for (size_t at = 0; at < sizeof CALLS / sizeof *CALLS; at++) {
        bool refused = true;
        for (size_t number = 1; refused && number < MOST_REQUESTS && wrong < 20; number++) {
            snprintf(name, sizeof name, "%s, request %zu", CALLS[at].name, number);
            refused = make_refused(at, number);
            cases += refused;
        }
        HOLDS(!refused);
    }
    snprintf(name, sizeof name, "a write that stayed behind");
    read_behind();
    refuse_behind();
    snprintf(name, sizeof name, "open a long log");
    open_long();
    hlc_file_batch_drop(batch);
    fprintf(stderr, "%lu requests were refused\n", cases);
    HOLDS(cases > 10);
    return ended();
}
