/* A file with a flipped bit, or cut at any block, is refused as damaged or has all that was promised. Of its
 * write-ahead log, which a process left, the commits before the damage are there. Of a batch whose record is cut at
 * any byte, or changed there, nothing is there.
 *
 * A first argument is the seed of the bits. */
#include "no_syncs.h"
#include "test.h"

enum { WRITES = 60, FLIPS = 3000, WAL_FLIPS = 600, BLOCK = 512 };

static const char PATH[] = "damage.hlc";

struct image {
    uint8_t *bytes;
    size_t len;
};

static struct image image_of(const char *path)
{
    struct image image = { 0 };
    FILE *file = fopen(path, "rb");
    if (!file) return image;
    fseek(file, 0, SEEK_END);
    image.len = (size_t)ftell(file);
    rewind(file);
    image.bytes = malloc(image.len + 1);
    if (fread(image.bytes, 1, image.len, file) != image.len) abort();
    fclose(file);
    return image;
}

static void put_image(const char *path, const struct image *image, size_t len)
{
    FILE *file = fopen(path, "wb");
    if (!file || fwrite(image->bytes, 1, len, file) != len) abort();
    fclose(file);
}

static void make_file(hlc_file **file)
{
    char key[16], value[300];
    uint64_t place;
    *file = opened_with(fresh(PATH), (hlc_file_options){ .promise = HLC_FILE_WRITTEN });
    for (uint64_t i = 1; i <= WRITES; i++) {
        snprintf(key, sizeof key, "k%d", (int)i);
        memset(value, 'a' + (int)(i % 26), sizeof value);
        value[sizeof value - 1] = 0;
        put(*file, i, key, value);
        if (i % 20 == 0) EXPECT(hlc_file_checkpoint(*file, &place), HLC_OK);
    }
}

/* How many of the writes are there, from the first on; the others must not be. */
static uint64_t many_there(hlc_file *file)
{
    char key[16];
    uint64_t many = 0;
    for (uint64_t i = 1; i <= WRITES; i++) {
        snprintf(key, sizeof key, "k%d", (int)i);
        const char *value = value_at(file, 0, key);
        bool there = strlen(value) == 299 && value[0] == (char)('a' + i % 26) && value[298] == value[0];
        if (there) HOLDS(many == i - 1);
        else EXPECT_VALUE(file, 0, key, "");
        many += there;
    }
    return many;
}

/* Opens the file, and returns the answer. least: how many writes are there at least. */
static uint32_t look(uint64_t least)
{
    hlc_file *file;
    hlc_file_options options = { .checkpoint_bytes = UINT64_MAX };
    hlc_file_state state = { 0 };
    uint32_t answer = hlc_file_open(PATH, &options, &file, &state);
    EXPECT(state.failure, answer);
    if (answer == HLC_OK) HOLDS(many_there(file) >= least);
    else HOLDS(answer == HLC_FILE_CORRUPT || answer == HLC_FILE_DAMAGED_LOG || answer == HLC_FILE_NO_CHECKPOINT ||
               answer == HLC_FILE_NOT_OURS || answer == HLC_FILE_NEWER || answer == HLC_FILE_IO);
    hlc_file_close(file);
    return answer;
}

static void flip_bits(const struct image *image, unsigned seed)
{
    unsigned refused = 0;
    for (int i = 0; i < FLIPS; i++) {
        size_t at = (size_t)rand_r(&seed) % image->len;
        uint8_t bit = (uint8_t)(1 << rand_r(&seed) % 8);
        fresh(PATH);
        image->bytes[at] ^= bit;
        put_image(PATH, image, image->len);
        image->bytes[at] ^= bit;
        refused += look(WRITES) != HLC_OK;
    }
    fprintf(stderr, "%u of %d flipped bits are refused\n", refused, FLIPS);
    HOLDS(refused > 0);
}

static void cut(const struct image *image)
{
    for (size_t len = BLOCK; len < image->len; len += BLOCK) {
        fresh(PATH);
        put_image(PATH, image, len);
        look(WRITES);
    }
}

/* The commits that are only in the write-ahead log are there up to the damage. */
static void damage_log(unsigned seed)
{
    hlc_file *file;
    char wal[64];
    snprintf(wal, sizeof wal, "%s-wal", PATH);
    make_file(&file);
    struct image main_image = image_of(PATH), wal_image = image_of(wal);
    hlc_file_close(file);
    HOLDS(wal_image.len > 0);
    for (int i = 0; i < WAL_FLIPS; i++) {
        size_t at = (size_t)rand_r(&seed) % wal_image.len;
        bool cuts = i % 4 == 0;
        fresh(PATH);
        put_image(PATH, &main_image, main_image.len);
        if (!cuts) wal_image.bytes[at] ^= 16;
        put_image(wal, &wal_image, cuts ? at : wal_image.len);
        if (!cuts) wal_image.bytes[at] ^= 16;
        EXPECT(look(0), HLC_OK);
    }
    free(main_image.bytes);
    free(wal_image.bytes);
}

/* ---- A batch that is one record ---- */

static const char *const BATCH_KEYS[] = { "apple", "pear", "plum" };

/* Makes a file with a write and then a batch of three keys, and returns the main file and the write-ahead log that a
 * process would leave. record: where the latter has the writes of the batch, of which there are `len` bytes. */
static void make_batch(struct image *main_image, struct image *wal_image, size_t *record, size_t *len)
{
    static const char writes[] = "\5apple\1\0\6batch0\4pear\1\0\6batch1\4plum\1\0\6batch2";
    char wal[64], value[16];
    hlc_file_batch *batch;
    uint64_t word;
    hlc_file *file = opened_with(fresh(PATH), (hlc_file_options){ .promise = HLC_FILE_WRITTEN });
    snprintf(wal, sizeof wal, "%s-wal", PATH);
    put(file, 1, "first", "one");
    EXPECT(hlc_file_batch_new(&batch), HLC_OK);
    for (int i = 0; i < 3; i++) {
        snprintf(value, sizeof value, "batch%d", i);
        EXPECT(hlc_file_batch_put(batch, BYTES(BATCH_KEYS[i]), BYTES(value)), HLC_OK);
    }
    EXPECT(hlc_file_write_batch(file, 0, 2, batch, 0, &word), HLC_OK);
    hlc_file_batch_drop(batch);
    *main_image = image_of(PATH);
    *wal_image = image_of(wal);
    hlc_file_close(file);
    *len = sizeof writes - 1;
    uint8_t *found = memmem(wal_image->bytes, wal_image->len, writes, *len);
    HOLDS(found);
    *record = found ? (size_t)(found - wal_image->bytes) : 0;
}

/* How many keys of the batch are there, after an opening; the write before it is there in any case. */
static int keys_there(hlc_file *file)
{
    int many = 0;
    EXPECT_VALUE(file, 0, "first", "one");
    for (int i = 0; i < 3; i++) many += *value_at(file, 0, BATCH_KEYS[i]) != 0;
    return many;
}

/* Opens the file, and returns how many keys of the batch are there. */
static int open_batch(uint32_t flags)
{
    hlc_file *file = opened_with(PATH, (hlc_file_options){ .flags = flags });
    int many = keys_there(file);
    hlc_file_close(file);
    return many;
}

static void cut_batch(void)
{
    char wal[64], sql[100];
    size_t record, len;
    struct image main_image, wal_image;
    make_batch(&main_image, &wal_image, &record, &len);
    snprintf(wal, sizeof wal, "%s-wal", PATH);
    for (int cuts = 0; cuts < 2; cuts++) {
        for (size_t at = record - 21; at < record + len; at++) {
            put_image(fresh(PATH), &main_image, main_image.len);
            if (!cuts) wal_image.bytes[at] ^= 16;
            put_image(wal, &wal_image, cuts ? at : wal_image.len);
            if (!cuts) wal_image.bytes[at] ^= 16;
            EXPECT(open_batch(0), 0);
        }
    }
    put_image(fresh(PATH), &main_image, main_image.len);
    put_image(wal, &wal_image, wal_image.len);
    EXPECT(open_batch(0), 3);
    /* The same in the table, where SQLite finds no fault. */
    struct image whole = image_of(PATH);
    for (size_t left = 0; left < 21 + len; left++) {
        put_image(fresh(PATH), &whole, whole.len);
        snprintf(sql, sizeof sql, "UPDATE log SET records = substr(records, 1, %zu) WHERE place = 2", left);
        change(PATH, sql);
        EXPECT(open_batch(HLC_FILE_KEEP_BEFORE_DAMAGE), 0);
    }
    free(whole.bytes);
    free(main_image.bytes);
    free(wal_image.bytes);
}

int main(int argc, char **argv)
{
    unsigned seed = argc > 1 ? (unsigned)atoi(argv[1]) : 1;
    hlc_file *file;
    test_name = "damage";
    make_file(&file);
    EXPECT(many_there(file), WRITES);
    hlc_file_close(file);
    struct image image = image_of(PATH);
    flip_bits(&image, seed);
    cut(&image);
    free(image.bytes);
    damage_log(seed);
    cut_batch();
    return ended();
}
