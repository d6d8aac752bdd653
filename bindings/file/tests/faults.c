/* Each write, sync and truncation of a story fails in its turn, in each of several ways, until a run meets no fault.
 * Then the file is opened without faults, and compared with what was promised.
 *
 * The story has one thread: it opens a file, appends under all promises, sends, joins, makes checkpoints and vacuums,
 * closes the file and opens it again. Each append writes a key of its own and the key `hot`, as two items or as one, so
 * that a snapshot at its stamp tells how far the file is. */
#include "test.h"
#include "shim.h"

enum { MOST_STEPS = 64, SEEDS = 3 };

/* What is known of an append after its answer. */
enum known { IS_THERE, IS_WRITTEN, IS_REFUSED, IS_UNKNOWN };

static const char PATH[] = "faults.hlc";
static struct {
    enum known known;
    uint64_t stamp;
} steps[MOST_STEPS];
static int many;
static uint64_t greatest; /* of all stamps that were returned */
static uint64_t horizon, wanted; /* what is promised, and what may be */
static bool sealed;
static hlc_file *file;
static hlc_file_batch *batch;

static void rise(uint64_t stamp)
{
    if (stamp > greatest) greatest = stamp;
}

static const char *key_of(int step)
{
    static char key[16];
    snprintf(key, sizeof key, "k%02d", step);
    return key;
}

/* Every other append is one item, so that both keys have its stamp; else `hot` has the next one, which is returned. */
static bool is_one_item(int step)
{
    return step % 2 == 1;
}

/* Refusals that a fault may cause. After one that leaves a doubt, the file says that it is sealed until it is not. */
static void expect_refusal(uint32_t answer)
{
    bool disk = answer == HLC_FILE_FULL || answer == HLC_FILE_IO;
    if (shim.fault == IS_FORGOTTEN && answer == HLC_FILE_CORRUPT) return;
    HOLDS(shim.met);
    HOLDS(disk || answer == HLC_FILE_UNKNOWN || answer == HLC_FILE_SEALED);
    if (answer == HLC_FILE_SEALED) HOLDS(sealed);
    if (answer == HLC_FILE_UNKNOWN) sealed = true;
    if (disk && shim.is_sync) sealed = true;
}

/* A node that joined holds the floor back until it retires. Returns whether none does. */
static bool retire_others(void)
{
    hlc_store mine;
    uint64_t nodes, next, head, stamp;
    bool retired = false;
    hlc_file_read_begin(file, &mine);
    EXPECT(hlc_store_nodes(&mine, &nodes), HLC_OK);
    EXPECT(hlc_store_link(&mine, (uint16_t)(nodes - 1), &next, &head, &retired), HLC_OK);
    hlc_file_read_end(file);
    if (nodes == 1 || retired) return true;
    uint32_t answer = hlc_file_retire(file, (uint16_t)(nodes - 1), 10 + (uint64_t)many, &stamp);
    if (answer == HLC_OK) rise(stamp);
    else expect_refusal(answer);
    return answer == HLC_OK;
}

static void expect_seen(int step)
{
    if (steps[step].stamp < horizon && steps[step].known != IS_REFUSED) return;
    bool there = steps[step].known == IS_THERE || steps[step].known == IS_WRITTEN;
    EXPECT_VALUE(file, there ? steps[step].stamp : 0, key_of(step), there ? "value" : "");
    if (there) EXPECT_VALUE(file, steps[step].stamp, "hot", key_of(step));
    if (!there || !is_one_item(step) || steps[step].stamp == horizon) return;
    EXPECT_VALUE(file, steps[step].stamp - 1, key_of(step), "");
    HOLDS(strcmp(value_at(file, steps[step].stamp - 1, "hot"), key_of(step)) != 0);
}

static void append(uint32_t promise)
{
    uint64_t stamp;
    int step = many++;
    if (!file) return;
    bool no_node_holds = retire_others();
    hlc_file_batch_clear(batch);
    hlc_file_batch_put(batch, BYTES(key_of(step)), BYTES("value"));
    hlc_file_batch_put(batch, BYTES("hot"), BYTES(key_of(step)));
    uint32_t answer = is_one_item(step)
                          ? hlc_file_write_batch(file, 0, 10 + (uint64_t)step, batch, promise, &stamp)
                          : hlc_file_append(file, 0, 10 + (uint64_t)step, batch, promise, &stamp);
    steps[step].stamp = stamp;
    steps[step].known = answer == HLC_OK ? (promise == HLC_FILE_WRITTEN ? IS_WRITTEN : IS_THERE)
                        : answer == HLC_FILE_UNKNOWN ? IS_UNKNOWN : IS_REFUSED;
    if (answer != HLC_OK) expect_refusal(answer);
    if (answer == HLC_OK) rise(stamp);
    if (answer == HLC_OK) HOLDS(stamp > 0 && state_of(file).writes == HLC_OK);
    for (int i = 0; no_node_holds && i <= step; i++) expect_seen(i);
    /* A sync brings all that was written before to disk. */
    if (answer != HLC_OK || promise == HLC_FILE_WRITTEN) return;
    for (int i = 0; i < step; i++) {
        if (steps[i].known == IS_WRITTEN) steps[i].known = IS_THERE;
    }
}

static void send(void)
{
    uint64_t stamp;
    if (!file) return;
    uint32_t answer = hlc_file_send(file, 0, 10 + (uint64_t)many, &stamp);
    if (answer == HLC_OK) rise(stamp);
    else expect_refusal(answer);
}

static void save(void)
{
    uint64_t place;
    if (!file) return;
    uint32_t answer = hlc_file_checkpoint(file, &place);
    if (answer != HLC_OK) expect_refusal(answer);
}

static void vacuum(int step)
{
    uint64_t word, kept, bytes, dropped;
    if (!file || steps[step].known == IS_REFUSED || steps[step].known == IS_UNKNOWN) return;
    uint32_t answer = hlc_file_vacuum_to(file, steps[step].stamp, &word, &kept, &bytes, &dropped);
    if (answer == HLC_OK || answer == HLC_FILE_UNKNOWN) wanted = steps[step].stamp;
    if (answer == HLC_OK) horizon = wanted;
    else expect_refusal(answer);
}

static void join(void)
{
    uint16_t node;
    uint64_t start;
    if (!file) return;
    uint32_t answer = hlc_file_join(file, &node, &start);
    if (answer != HLC_OK) expect_refusal(answer);
}

/* What was unknown shows by an opening, and stays. */
static void find_out(int step)
{
    if (steps[step].known != IS_UNKNOWN) return;
    uint64_t id, at, word;
    uint8_t out[70000];
    size_t len, found;
    steps[step].known = strcmp(value_at(file, 0, key_of(step)), "value") == 0 ? IS_THERE : IS_REFUSED;
    if (steps[step].known == IS_REFUSED) return;
    EXPECT(hlc_file_open_snapshot_at_floor(file, &id, &at), HLC_OK);
    hlc_store mine;
    hlc_file_read_begin(file, &mine);
    EXPECT(hlc_store_versions(&mine, BYTES(key_of(step)), 0, UINT64_MAX, out, sizeof out, &len, &found), HLC_OK);
    hlc_file_read_end(file);
    EXPECT(found, 1);
    hlc_file_close_snapshot(file, id, &word);
    memcpy(&steps[step].stamp, out, sizeof steps[step].stamp);
    if (!is_one_item(step)) steps[step].stamp++;
}

/* A write that was forgotten damages the file, which is found, or is overwritten later. */
static bool is_damage(uint32_t answer)
{
    return answer == HLC_FILE_CORRUPT || answer == HLC_FILE_DAMAGED_LOG || answer == HLC_FILE_NOT_OURS ||
           answer == HLC_FILE_NO_CHECKPOINT || answer == HLC_FILE_IO;
}

static void open_file(void)
{
    hlc_file_options options = { .checkpoint_bytes = UINT64_MAX };
    hlc_file_state state = { 0 };
    sealed = false;
    uint32_t answer = hlc_file_open(PATH, &options, &file, &state);
    if (answer == HLC_OK) {
        uint64_t at;
        hlc_file_horizon(file, &at);
        HOLDS(at == horizon || at == wanted);
        horizon = at;
        HOLDS(retire_others() || shim.met);
    }
    for (int i = 0; i < many && answer == HLC_OK; i++) find_out(i);
    if (answer == HLC_OK) return;
    HOLDS(shim.met);
    HOLDS(answer == HLC_FILE_FULL || answer == HLC_FILE_IO || answer == HLC_FILE_CANNOT_OPEN ||
          (shim.fault == IS_FORGOTTEN && is_damage(answer)));
    HOLDS(state.failure == answer);
}

static void close_file(void)
{
    if (!file) return;
    uint32_t answer = hlc_file_close(file);
    file = NULL;
    if (answer == HLC_OK) return;
    HOLDS(shim.met);
}

static void tell_story(void)
{
    open_file();
    for (int i = 0; i < 3; i++) append(HLC_FILE_SYNCED);
    append(HLC_FILE_GROUP);
    append(HLC_FILE_WRITTEN);
    append(HLC_FILE_WRITTEN);
    send();
    append(HLC_FILE_SYNCED);
    save();
    append(HLC_FILE_WRITTEN);
    append(HLC_FILE_SYNCED);
    vacuum(2);
    append(HLC_FILE_SYNCED);
    join();
    save();
    append(HLC_FILE_GROUP);
    append(HLC_FILE_WRITTEN);
    close_file();
    open_file();
    append(HLC_FILE_SYNCED);
    save();
    append(HLC_FILE_WRITTEN);
    send();
    append(HLC_FILE_WRITTEN);
    close_file();
}

/* ---- Afterwards ---- */

/* Compares the recovered file: what is promised is there; what is there of the rest is the part up to some append, from
 * which only refused ones are missing. */
static void compare(bool lost_power, bool forgot)
{
    bool ended = false;
    uint64_t at, stamp, word;
    HOLDS(retire_others());
    hlc_file_horizon(file, &at);
    HOLDS(forgot || at == horizon || at == wanted);
    for (int i = 0; i < many; i++) {
        const char *value = value_at(file, 0, key_of(i));
        bool there = strcmp(value, "value") == 0;
        if (steps[i].known == IS_REFUSED) {
            HOLDS(!there);
            continue;
        }
        if (steps[i].known == IS_THERE || (steps[i].known == IS_WRITTEN && !lost_power)) HOLDS(there || forgot);
        if (there) HOLDS(!ended);
        if (there && steps[i].stamp >= at && steps[i].known != IS_UNKNOWN) {
            EXPECT_VALUE(file, steps[i].stamp, "hot", key_of(i));
        }
        if (!there && steps[i].known != IS_UNKNOWN) ended = true;
    }
    EXPECT(put_at(file, 1, "last", "one", &stamp), HLC_OK);
    HOLDS(forgot || stamp > greatest);
    uint32_t answer = hlc_file_checkpoint(file, &word);
    HOLDS(answer == HLC_OK || (forgot && is_damage(answer)));
}

static void reopen(enum fault fault)
{
    hlc_file_options options = { .checkpoint_bytes = UINT64_MAX };
    hlc_file_state state = { 0 };
    bool forgot = fault == IS_FORGOTTEN;
    shim_set(NO_FAULT, false, 0, 0);
    uint32_t answer = hlc_file_open(PATH, &options, &file, &state);
    if (answer != HLC_OK) {
        HOLDS(forgot && is_damage(answer));
        return;
    }
    compare(fault == LOSES_POWER || fault == DROPS_SYNC, forgot);
    EXPECT(hlc_file_close(file), HLC_OK);
    file = NULL;
}

/* Runs the story with one fault, and returns whether the story met it. */
static bool run(enum fault fault, bool lasts, long at, uint64_t seed)
{
    static char name[80];
    snprintf(name, sizeof name, "fault %d%s at operation %ld, seed %d", (int)fault, lasts ? ", lasting" : "", at,
             (int)seed);
    test_name = name;
    fresh(PATH);
    many = 0;
    memset(steps, 0, sizeof steps);
    for (int i = 0; i < MOST_STEPS; i++) steps[i].known = IS_REFUSED;
    greatest = horizon = wanted = 0;
    shim_set(fault, lasts, at, (long)(seed % 40));
    tell_story();
    bool met = shim.met, more = shim.done >= at;
    if (fault == LOSES_POWER || fault == DROPS_SYNC) power_up(seed);
    reopen(fault);
    return met || more;
}

int main(void)
{
    static const enum fault faults[] = { FAILS, FAILS_LATE, FAILS_SHORT, IS_FULL, IS_FORGOTTEN };
    long runs = 0;
    shim_register();
    hlc_file_batch_new(&batch);
    for (size_t i = 0; i < sizeof faults / sizeof *faults && wrong < 20; i++) {
        for (long at = 1; wrong < 20 && run(faults[i], false, at, 0); at++) runs++;
        for (long at = 1; wrong < 20 && faults[i] != IS_FORGOTTEN && run(faults[i], true, at, 0); at++) runs++;
    }
    for (uint64_t seed = 1; seed <= SEEDS; seed++) {
        for (long at = 1; wrong < 20 && run(LOSES_POWER, true, at, seed * 7919 + (uint64_t)at); at++) runs++;
        for (long at = 1; wrong < 20 && run(DROPS_SYNC, false, at, seed * 7919 + (uint64_t)at); at++) runs++;
    }
    hlc_file_batch_drop(batch);
    fprintf(stderr, "%ld runs with a fault\n", runs);
    return ended();
}
