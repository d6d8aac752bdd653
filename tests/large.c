/* Large stores: each call that takes, saves, restores, vacuums, lists or checks rows gets very many of them. All
 * expected values are computed here, from the rows themselves. Prints `all right`. */
#include "hlcstore.h"
#include <stdio.h>
#include <stdlib.h>
#include <string.h>

/* ---- The rows ----
 *
 * Node 0 writes row r, from 0 on, with the number r and the stamp r + 1. The first rows write each key once, the others
 * write a part of the keys again, or delete them; both in an order that jumps. */

enum { KEY_LEN = 4, MOST_VALUE = 4, TAG = 77, HALF = 1, WHOLE = 2 };

#define NO_ROW UINT32_MAX

static uint32_t keys, rows;

/* The rows of each key. */
static uint32_t *first, *second;

/* The stamps of the open snapshots HALF and WHOLE. The last one is the floor. */
static uint64_t points[2];

static uint32_t key_of_row(uint32_t row)
{
    return row < keys ? (uint64_t)row * 7919 % keys : ((uint64_t)(row - keys) * 104729 + 17) % keys;
}

static bool deletes(uint32_t row) { return row >= keys && row % 10 == 0; }

static size_t value_len(uint32_t row) { return deletes(row) ? 0 : row % (MOST_VALUE + 1); }

/* The digits rise, so the keys ascend with their numbers. */
static const char DIGITS[] = "0123456789abcdefghijklmnopqrstuv";

static void put_key(uint32_t key, uint8_t *out)
{
    for (int i = KEY_LEN - 1; i >= 0; i--, key /= 32) out[i] = (uint8_t)DIGITS[key % 32];
}

static void put_value(uint32_t row, uint8_t *out)
{
    size_t len = value_len(row);
    for (size_t i = 0; i < len; i++, row /= 32) out[i] = (uint8_t)DIGITS[row % 32];
}

static bool has_same_answer(uint32_t a, uint32_t b)
{
    uint8_t left[MOST_VALUE], right[MOST_VALUE];
    bool no_left = a == NO_ROW || deletes(a), no_right = b == NO_ROW || deletes(b);
    if (no_left || no_right) return no_left && no_right;
    put_value(a, left);
    put_value(b, right);
    return value_len(a) == value_len(b) && memcmp(left, right, value_len(a)) == 0;
}

static uint32_t newest(uint32_t key, uint64_t stamp)
{
    if (second[key] != NO_ROW && second[key] < stamp) return second[key];
    return first[key] < stamp ? first[key] : NO_ROW;
}

/* Whether a vacuum at the points keeps the newest row of a key at one of them: the answer differs from that before. */
static bool keeps_at(uint32_t key, int point)
{
    uint32_t row = newest(key, points[point]);
    return row != NO_ROW && !has_same_answer(row, point == 0 ? NO_ROW : newest(key, points[point - 1]));
}

static void *allocate(size_t size)
{
    void *at = malloc(size);
    if (at) return at;
    puts("out of memory");
    exit(1);
}

static void plan(uint32_t many_keys, uint32_t many_rows)
{
    keys = many_keys;
    rows = many_rows;
    first = allocate(keys * sizeof *first);
    second = allocate(keys * sizeof *second);
    memset(second, 0xff, keys * sizeof *second);
    for (uint32_t row = 0; row < rows; row++) (row < keys ? first : second)[key_of_row(row)] = row;
    points[0] = keys + (rows - keys) / 2;
    points[1] = rows;
}

/* ---- Bytes ---- */

/* Bytes with room for more. */
typedef struct {
    uint8_t *at;
    size_t len;
    size_t room;
} Bytes;

static uint8_t *grow(Bytes *bytes, size_t len)
{
    if (bytes->room - bytes->len < len) {
        bytes->room = 2 * (bytes->room + len);
        bytes->at = realloc(bytes->at, bytes->room);
        if (!bytes->at) exit(1);
    }
    bytes->len += len;
    return bytes->at + bytes->len - len;
}

static void put_number(Bytes *to, uint64_t number, int len)
{
    uint8_t *out = grow(to, (size_t)len);
    for (int i = len - 1; i >= 0; i--, number >>= 8) out[i] = (uint8_t)number;
}

static void put_length(Bytes *to, size_t len)
{
    uint8_t *out = grow(to, 8);
    for (int i = 0; i < 8; i++, len >>= 8) out[i] = (uint8_t)len;
}

static void put_text(Bytes *to, const char *text) { memcpy(grow(to, strlen(text)), text, strlen(text)); }

static void put_key_to(Bytes *to, uint32_t key) { put_key(key, grow(to, KEY_LEN)); }

static void put_value_to(Bytes *to, uint32_t row) { put_value(row, grow(to, value_len(row))); }

static bool are_same(const Bytes *left, const Bytes *right)
{
    return left->len == right->len && memcmp(left->at, right->at, left->len) == 0;
}

/* ---- SHA-256 ---- */

static uint32_t sha_start[8], sha_constants[64];

/* The first 32 bits of the fraction of a root of a number: the square root for 2, the cube root for 3. */
static uint32_t fraction_of_root(uint32_t number, int power)
{
    unsigned __int128 root = 0, goal = (unsigned __int128)number << 32 * power;
    for (unsigned __int128 bit = (unsigned __int128)1 << 36; bit > 0; bit >>= 1) {
        unsigned __int128 tried = root | bit, product = power == 2 ? tried * tried : tried * tried * tried;
        if (product <= goal) root = tried;
    }
    return (uint32_t)root;
}

static bool is_prime(uint32_t number)
{
    for (uint32_t i = 2; i * i <= number; i++)
        if (number % i == 0) return false;
    return true;
}

static void prepare_sha(void)
{
    for (uint32_t number = 2, i = 0; i < 64; number++) {
        if (!is_prime(number)) continue;
        if (i < 8) sha_start[i] = fraction_of_root(number, 2);
        sha_constants[i++] = fraction_of_root(number, 3);
    }
}

static uint32_t turn(uint32_t word, int by) { return word >> by | word << (32 - by); }

static void compress(uint32_t state[8], const uint8_t *block)
{
    uint32_t w[64], s[8];
    for (int i = 0; i < 16; i++, block += 4)
        w[i] = (uint32_t)block[0] << 24 | (uint32_t)block[1] << 16 | (uint32_t)block[2] << 8 | block[3];
    for (int i = 16; i < 64; i++)
        w[i] = w[i - 16] + w[i - 7] + (turn(w[i - 15], 7) ^ turn(w[i - 15], 18) ^ w[i - 15] >> 3)
               + (turn(w[i - 2], 17) ^ turn(w[i - 2], 19) ^ w[i - 2] >> 10);
    memcpy(s, state, sizeof s);
    for (int i = 0; i < 64; i++) {
        uint32_t choice = (s[4] & s[5]) ^ (~s[4] & s[6]), majority = (s[0] & s[1]) ^ (s[0] & s[2]) ^ (s[1] & s[2]);
        uint32_t one = s[7] + (turn(s[4], 6) ^ turn(s[4], 11) ^ turn(s[4], 25)) + choice + sha_constants[i] + w[i];
        uint32_t two = (turn(s[0], 2) ^ turn(s[0], 13) ^ turn(s[0], 22)) + majority;
        memmove(s + 1, s, 7 * sizeof *s);
        s[4] += one;
        s[0] = one + two;
    }
    for (int i = 0; i < 8; i++) state[i] += s[i];
}

static void digest(const Bytes *bytes, uint8_t out[32])
{
    uint32_t state[8];
    uint8_t tail[128] = { 0 };
    size_t whole = bytes->len / 64 * 64, rest = bytes->len - whole, end = rest < 56 ? 64 : 128;
    memcpy(state, sha_start, sizeof state);
    for (size_t at = 0; at < whole; at += 64) compress(state, bytes->at + at);
    if (rest > 0) memcpy(tail, bytes->at + whole, rest);
    tail[rest] = 0x80;
    for (size_t i = 0; i < 8; i++) tail[end - 1 - i] = (uint8_t)((uint64_t)bytes->len * 8 >> 8 * i);
    for (size_t at = 0; at < end; at += 64) compress(state, tail + at);
    for (int i = 0; i < 32; i++) out[i] = (uint8_t)(state[i / 4] >> (24 - i % 4 * 8));
}

/* ---- What is expected ---- */

/* The pairs of a snapshot, or its keys alone, as a listing has them. */
static Bytes listing(uint64_t stamp, uint32_t from, uint32_t to, bool with_values)
{
    Bytes made = { 0 };
    for (uint32_t key = from; key < to; key++) {
        uint32_t row = newest(key, stamp);
        if (row == NO_ROW || deletes(row)) continue;
        put_length(&made, KEY_LEN);
        put_key_to(&made, key);
        if (!with_values) continue;
        put_length(&made, value_len(row));
        put_value_to(&made, row);
    }
    return made;
}

static uint64_t pairs_in(uint64_t stamp, uint32_t from, uint32_t to)
{
    uint64_t many = 0;
    for (uint32_t key = from; key < to; key++) {
        uint32_t row = newest(key, stamp);
        many += row != NO_ROW && !deletes(row);
    }
    return many;
}

/* The answers of hlc_snapshot_read_all to all keys. */
static Bytes answers(uint64_t stamp)
{
    Bytes made = { 0 };
    for (uint32_t key = 0; key < keys; key++) {
        uint32_t row = newest(key, stamp);
        bool has_value = row != NO_ROW && !deletes(row);
        *grow(&made, 1) = has_value;
        if (!has_value) continue;
        put_length(&made, value_len(row));
        put_value_to(&made, row);
    }
    return made;
}

/* An item as bytes. */
static void put_value_field(Bytes *to, uint32_t row)
{
    put_number(to, !deletes(row), 1);
    if (deletes(row)) return;
    put_number(to, value_len(row), 2);
    put_value_to(to, row);
}

static void put_item(Bytes *to, uint32_t row)
{
    put_number(to, 1, 1);
    put_number(to, 0, 2);
    put_number(to, row, 8);
    put_number(to, row + 1, 8);
    put_number(to, 0, 1);
    put_number(to, KEY_LEN, 1);
    put_key_to(to, key_of_row(row));
    put_value_field(to, row);
}

static void put_row(Bytes *to, uint32_t key, uint32_t row)
{
    put_number(to, KEY_LEN, 1);
    put_key_to(to, key);
    put_number(to, row + 1, 8);
    put_number(to, 0, 2);
    put_value_field(to, row);
}

/* All rows, or those that a vacuum keeps. many: how many; cost: what they cost. */
static Bytes stored(bool is_vacuumed, uint64_t *many, uint64_t *cost)
{
    Bytes made = { 0 };
    *many = *cost = 0;
    for (uint32_t key = 0; key < keys; key++)
        for (int i = 0; i < 2; i++) {
            uint32_t row = is_vacuumed ? newest(key, points[i]) : i == 0 ? first[key] : second[key];
            if (row == NO_ROW || (is_vacuumed && !keeps_at(key, i))) continue;
            put_row(&made, key, row);
            *many += 1;
            *cost += KEY_LEN + value_len(row) + 10;
        }
    return made;
}

/* The bytes of a checkpoint. */
static Bytes checkpoint(bool is_vacuumed)
{
    uint64_t many, cost;
    Bytes content = stored(is_vacuumed, &many, &cost), made = { 0 };
    uint8_t sum[32];
    put_number(&made, 1, 4);
    put_number(&made, 2 + 2 + 17 + 2 + 32 + 8 + 8 + 8 + content.len, 8);
    put_number(&made, TAG, 8);
    put_number(&made, 1, 2);
    put_number(&made, 1, 2);
    put_number(&made, rows, 8);
    put_number(&made, rows, 8);
    put_number(&made, 0, 1);
    put_number(&made, 2, 2);
    for (int i = 0; i < 2; i++) {
        put_number(&made, (uint64_t)i + 1, 8);
        put_number(&made, points[i], 8);
    }
    put_number(&made, 2, 8);
    put_number(&made, is_vacuumed ? points[1] : 0, 8);
    put_number(&made, many, 8);
    memcpy(grow(&made, content.len), content.at, content.len);
    digest(&made, sum);
    memcpy(grow(&made, 32), sum, 32);
    free(content.at);
    return made;
}

/* The text of a stamp, after a space. */
static void put_stamp(Bytes *to, uint64_t stamp)
{
    char text[48];
    snprintf(text, sizeof text, " %llu.%llu", (unsigned long long)(stamp >> 16), (unsigned long long)(stamp & 0xffff));
    put_text(to, text);
}

static void put_row_line(Bytes *to, uint32_t key, uint32_t row)
{
    put_text(to, "row ");
    put_key_to(to, key);
    put_stamp(to, row + 1);
    put_text(to, deletes(row) ? " 0 delete" : " 0 value ");
    if (!deletes(row) && value_len(row) == 0) put_text(to, "%");
    put_value_to(to, row);
    put_text(to, "\n");
}

/* The certificate of what a vacuum keeps. */
static Bytes certificate(void)
{
    Bytes made = { 0 };
    for (int i = 0; i < 2; i++) {
        put_text(&made, "point");
        put_stamp(&made, points[i]);
        put_text(&made, "\n");
    }
    for (uint32_t key = 0; key < keys; key++)
        for (int i = 0; i < 2; i++)
            if (keeps_at(key, i)) put_row_line(&made, key, newest(key, points[i]));
    for (uint32_t key = 0; key < keys; key++)
        for (int i = 0; i < 2; i++) {
            if (!keeps_at(key, i)) continue;
            put_text(&made, "witness ");
            put_key_to(&made, key);
            if (i == 0) put_text(&made, " none");
            else put_stamp(&made, points[0]);
            put_stamp(&made, points[i]);
            put_text(&made, "\n");
        }
    return made;
}

/* What is expected several times: the bytes of a checkpoint before a vacuum and after it, the digest of each snapshot,
 * how many rows the vacuum keeps, and what they cost. */
static Bytes expected_checkpoint[2];
static uint8_t expected_digest[2][32];
static uint64_t expected_kept, expected_cost;

static void prepare(void)
{
    for (int i = 0; i < 2; i++) {
        Bytes pairs = listing(points[i], 0, keys, true);
        digest(&pairs, expected_digest[i]);
        free(pairs.at);
        free(expected_checkpoint[i].at);
        expected_checkpoint[i] = checkpoint(i == 1);
    }
    free(stored(true, &expected_kept, &expected_cost).at);
}

/* ---- The calls ---- */

static int wrong;

static void expect(bool is_right, const char *what)
{
    if (is_right) return;
    printf("wrong, with %u rows: %s\n", rows, what);
    wrong++;
}

static void open_snapshots(hlc_store *store)
{
    uint64_t id, stamp;
    expect(hlc_snapshot_open(store, points[0], &id) == HLC_OK && id == HALF, "the snapshot at a stamp");
    expect(hlc_snapshot_open_at_floor(store, &id, &stamp) == HLC_OK && id == WHOLE && stamp == points[1],
           "the snapshot at the floor");
}

/* Takes all rows in one call. */
static void accept_entries(hlc_store *store)
{
    hlc_entry *entries = allocate(rows * sizeof *entries);
    Bytes texts = { 0 };
    size_t many;
    uint64_t word;
    for (uint32_t row = 0; row < rows; row++) {
        size_t at = texts.len;
        put_key_to(&texts, key_of_row(row));
        put_value_to(&texts, row);
        entries[row] = (hlc_entry){ 0, deletes(row), row, row + 1, at, KEY_LEN, at + KEY_LEN, value_len(row) };
    }
    uint32_t code = hlc_store_accept_all(store, entries, rows, texts.at, texts.len, &many, &word);
    expect(code == HLC_OK && many == rows && word == 0, "entries that are accepted");
    free(entries);
    free(texts.at);
}

/* The items of these rows, as a log has them. */
static Bytes log_of(uint32_t from, uint32_t to)
{
    Bytes log = { 0 };
    for (uint32_t row = from; row < to; row++) put_item(&log, row);
    return log;
}

static void accept_log(hlc_store *store)
{
    Bytes log = log_of(0, rows);
    size_t used, many;
    uint64_t word;
    uint32_t code = hlc_store_accept_items(store, log.at, log.len, &used, &many, &word);
    expect(code == HLC_OK && used == log.len && many == rows && word == 0, "items that are accepted");
    free(log.at);
}

static void apply_log(hlc_store *store, uint32_t from, uint32_t to)
{
    Bytes log = log_of(from, to);
    size_t used, many;
    uint64_t threshold, word;
    uint32_t code = hlc_store_apply_records(store, log.at, log.len, &used, &many, &threshold, &word);
    expect(code == HLC_OK && used == log.len && many == to - from && threshold + word == 0, "records that are applied");
    free(log.at);
}

static void check_sizes(hlc_store *store)
{
    uint64_t got[4], value_bytes = 0, many;
    for (uint32_t row = 0; row < rows; row++) value_bytes += value_len(row);
    uint32_t code = hlc_store_size(store, &got[0], &got[1], &got[2], &got[3]);
    expect(code == HLC_OK && got[0] == rows && got[1] == keys && got[2] == (uint64_t)KEY_LEN * keys
               && got[3] == value_bytes, "the sizes");
    expect(hlc_store_rows(store, &many) == HLC_OK && many == rows, "the number of rows");
}

/* The key of the last pair of a page. Its values have fewer than 256 bytes. */
static const uint8_t *last_key(const uint8_t *page, size_t len)
{
    const uint8_t *last = page;
    for (const uint8_t *at = page; at < page + len; at += 8 + KEY_LEN + 8 + at[8 + KEY_LEN]) last = at + 8;
    return last;
}

/* Whether the pairs of all pages are those that are expected. */
static bool has_pages(hlc_store *store, uint64_t id, const Bytes *expected, uint64_t pairs, size_t room)
{
    uint8_t *page = allocate(room), from[KEY_LEN + 1] = { 0 };
    size_t at = 0, from_len = 0, len, many;
    uint32_t code = HLC_MORE;
    while (code == HLC_MORE) {
        code = hlc_snapshot_scan(store, id, from, from_len, NULL, 0, page, room, &len, &many);
        if (len == 0 || expected->len - at < len || memcmp(page, expected->at + at, len) != 0) break;
        at += len;
        pairs -= many;
        memcpy(from, last_key(page, len), KEY_LEN);
        from_len = sizeof from;
    }
    free(page);
    return code == HLC_OK && at == expected->len && pairs == 0;
}

static void check_digest(hlc_store *store, uint64_t id, const char *what)
{
    uint8_t got[32];
    size_t len;
    uint32_t code = hlc_snapshot_digest(store, id, NULL, 0, NULL, 0, got, sizeof got, &len);
    expect(code == HLC_OK && len == sizeof got && memcmp(got, expected_digest[id - 1], sizeof got) == 0, what);
}

static void check_reads(hlc_store *store, uint64_t id)
{
    Bytes expected = answers(points[id - 1]), texts = { 0 }, got = { 0 };
    hlc_place *places = allocate(keys * sizeof *places);
    size_t many;
    for (uint32_t key = 0; key < keys; key++) {
        places[key] = (hlc_place){ texts.len, KEY_LEN };
        put_key_to(&texts, key);
    }
    grow(&got, expected.len);
    uint32_t code = hlc_snapshot_read_all(store, id, places, keys, texts.at, texts.len, got.at, got.len, &got.len,
                                          &many);
    expect(code == HLC_OK && many == keys && are_same(&got, &expected), "the values of all keys");
    free(expected.at);
    free(texts.at);
    free(got.at);
    free(places);
}

static void check_listings(hlc_store *store, uint64_t id)
{
    uint64_t at = points[id - 1], all = pairs_in(at, 0, keys), counted;
    Bytes expected = listing(at, 0, keys, true), alone = listing(at, keys / 6, keys / 3, false), got = { 0 };
    uint8_t from[KEY_LEN], to[KEY_LEN];
    size_t len, many;
    put_key(keys / 6, from);
    put_key(keys / 3, to);
    grow(&got, expected.len);
    expect(hlc_snapshot_list(store, id, NULL, 0, &len) == HLC_OK && len == expected.len, "the length of a listing");
    expect(hlc_snapshot_list(store, id, got.at, got.len, &len) == HLC_OK && are_same(&got, &expected), "a listing");
    expect(has_pages(store, id, &expected, all, 1000000), "pages");
    expect(has_pages(store, id, &expected, all, expected.len), "a page of all pairs");
    uint32_t code = hlc_snapshot_scan_keys(store, id, from, KEY_LEN, to, KEY_LEN, got.at, alone.len, &got.len, &many);
    expect(code == HLC_OK && are_same(&got, &alone) && many == pairs_in(at, keys / 6, keys / 3), "a page of keys");
    code = hlc_snapshot_count(store, id, NULL, 0, NULL, 0, &counted);
    expect(code == HLC_OK && counted == all, "the number of keys");
    code = hlc_snapshot_count(store, id, from, KEY_LEN, to, KEY_LEN, &counted);
    expect(code == HLC_OK && counted == pairs_in(at, keys / 6, keys / 3), "the number of keys of a range");
    free(expected.at);
    free(alone.at);
    free(got.at);
    check_reads(store, id);
    check_digest(store, id, "the digest");
}

/* The bytes of an output, which is dropped. */
static Bytes taken(hlc_output *output, size_t len)
{
    Bytes made = { 0 };
    grow(&made, len);
    expect(hlc_output_read(output, 0, made.at, len, &made.len) == HLC_OK && made.len == len, "an output");
    hlc_output_drop(output);
    return made;
}

static Bytes saved(hlc_store *store)
{
    hlc_output output = HLC_NO_OUTPUT;
    size_t len;
    expect(hlc_checkpoint_make(store, TAG, &output, &len) == HLC_OK, "a checkpoint");
    return taken(&output, len);
}

static void check_saved(hlc_store *store, bool is_vacuumed, const char *what)
{
    Bytes got = saved(store);
    expect(are_same(&got, &expected_checkpoint[is_vacuumed]), what);
    free(got.at);
}

static void restore_pieces(hlc_store *store, const Bytes *from)
{
    enum { PIECE = 100000 };
    hlc_restoring restoring = HLC_NO_RESTORING;
    uint64_t tag;
    uint32_t code = hlc_restoring_start(&restoring);
    for (size_t at = 0; code == HLC_OK && at < from->len; at += PIECE)
        code = hlc_restoring_feed(&restoring, from->at + at, from->len - at < PIECE ? from->len - at : PIECE);
    if (code == HLC_OK) code = hlc_restoring_finish(&restoring, store, &tag);
    expect(code == HLC_OK && tag == TAG, "a restore in pieces");
    hlc_restoring_drop(&restoring);
}

/* Whether these are the numbers of a vacuum to the floor: the stamp, and the numbers of rows and of bytes. */
static bool has_numbers(const uint64_t numbers[4])
{
    return numbers[0] == rows && numbers[1] == expected_kept && numbers[2] == expected_cost
           && numbers[3] == rows - expected_kept;
}

static void vacuum_whole(hlc_store *store)
{
    uint64_t got[4];
    uint32_t code = hlc_store_vacuum(store, &got[0], &got[1], &got[2], &got[3]);
    expect(code == HLC_OK && has_numbers(got), "a vacuum");
}

static void vacuum_in_one_part(hlc_store *store)
{
    uint64_t got[4];
    uint8_t key[255];
    size_t len;
    bool more = false;
    uint32_t code = hlc_store_vacuum_part(store, rows, NULL, 0, SIZE_MAX, &got[0], &got[1], &got[2], &got[3], key,
                                          sizeof key, &len, &more);
    expect(code == HLC_OK && has_numbers(got) && !more && len == 0, "a vacuum in one part");
}

/* Vacuums, and makes and checks the certificate, of which there is none before. */
static void certify(hlc_store *store)
{
    hlc_output output = HLC_NO_OUTPUT;
    Bytes expected = certificate();
    uint64_t got[2], checked[2], word;
    size_t len;
    uint32_t code = hlc_certificate_make(store, rows, &word, &got[0], &got[1], &output, &len);
    expect(code == HLC_NOT_FEWEST && word + got[0] + got[1] + len == 0, "no certificate before a vacuum");
    vacuum_whole(store);
    code = hlc_certificate_make(store, rows, &word, &got[0], &got[1], &output, &len);
    expect(code == HLC_OK && got[0] == expected_kept && got[1] == expected_cost, "a certificate after a vacuum");
    Bytes text = taken(&output, len);
    expect(are_same(&text, &expected), "a certificate");
    code = hlc_certificate_check(text.at, text.len, &checked[0], &checked[1], &word);
    expect(code == HLC_OK && checked[0] == expected_kept && checked[1] == expected_cost, "a checked certificate");
    free(text.at);
    free(expected.at);
}

static void check_copies(const Bytes *from)
{
    hlc_store whole = HLC_CLOSED_STORE, pieces = HLC_CLOSED_STORE;
    uint64_t tag;
    expect(hlc_store_restore(&whole, from->at, from->len, &tag) == HLC_OK && tag == TAG, "a restore");
    restore_pieces(&pieces, from);
    check_sizes(&whole);
    check_sizes(&pieces);
    vacuum_whole(&whole);
    vacuum_in_one_part(&pieces);
    check_saved(&whole, true, "the checkpoint after a vacuum");
    check_saved(&pieces, true, "the checkpoint after a vacuum in one part");
    for (uint64_t id = HALF; id <= WHOLE; id++) {
        check_digest(&whole, id, "the digest after a vacuum");
        check_digest(&pieces, id, "the digest after a vacuum in one part");
    }
    hlc_store_close(&whole);
    hlc_store_close(&pieces);
}

static void check_log(void)
{
    hlc_store store = HLC_CLOSED_STORE;
    expect(hlc_store_open(&store, 1) == HLC_OK, "a store");
    accept_log(&store);
    open_snapshots(&store);
    check_saved(&store, false, "the checkpoint of a store that took a log");
    hlc_store_close(&store);
}

/* Saves the store in pieces, each as long as the buffer while bytes are left. */
static void save_pieces(hlc_store *store)
{
    enum { PIECE = 100000 };
    static uint8_t piece[PIECE];
    const Bytes *expected = &expected_checkpoint[false];
    hlc_saving saving = HLC_NO_SAVING;
    size_t at = 0, len;
    uint64_t all;
    uint32_t code = hlc_saving_start(&saving, store, TAG, &all);
    expect(code == HLC_OK && all == expected->len, "the length of a saving");
    for (code = HLC_MORE; code == HLC_MORE; at += len) {
        code = hlc_saving_read(&saving, store, piece, PIECE, &len);
        if (len != (expected->len - at < PIECE ? expected->len - at : PIECE)) break;
        if (memcmp(piece, expected->at + at, len) != 0) break;
    }
    expect(code == HLC_OK && at == expected->len, "a saving in pieces");
    hlc_saving_drop(&saving);
}

/* Makes the newer checkpoint of the older one, and of an increment since its last row. */
static void check_increment(hlc_store *store, const Bytes *older, uint64_t since)
{
    hlc_output output = HLC_NO_OUTPUT;
    uint64_t word;
    size_t len;
    uint32_t code = hlc_increment_make(store, since, TAG, &output, &len, &word);
    expect(code == HLC_OK && word == 0, "an increment");
    Bytes increment = taken(&output, len);
    code = hlc_increment_apply(older->at, older->len, increment.at, increment.len, &output, &len, &word);
    expect(code == HLC_OK && word == 0, "an increment that is applied");
    Bytes made = taken(&output, len);
    expect(are_same(&made, &expected_checkpoint[false]), "the checkpoint of an increment");
    free(increment.at);
    free(made.at);
}

/* Divides the checkpoint at the key in the middle, and joins both parts again. */
static void check_halves(void)
{
    const Bytes *whole = &expected_checkpoint[false];
    hlc_output left = HLC_NO_OUTPUT, right = HLC_NO_OUTPUT;
    uint8_t key[KEY_LEN];
    uint64_t word;
    size_t left_len, right_len, rows_len = 0, whole_len = 0;
    for (uint32_t row = 0; row < rows; row++) {
        size_t len = KEY_LEN + 12 + (deletes(row) ? 0 : 2 + value_len(row));
        whole_len += len;
        if (key_of_row(row) < keys / 2) rows_len += len;
    }
    put_key(keys / 2, key);
    uint32_t code = hlc_checkpoint_split(whole->at, whole->len, key, KEY_LEN, &left, &right, &left_len, &right_len,
                                         &word);
    expect(code == HLC_OK && word == 0, "a checkpoint that is divided");
    /* Each part has all but the rows of the other one. */
    expect(left_len == whole->len - (whole_len - rows_len) && right_len == whole->len - rows_len, "the parts");
    Bytes lower = taken(&left, left_len), upper = taken(&right, right_len);
    code = hlc_checkpoint_merge(lower.at, lower.len, upper.at, upper.len, &left, &left_len, &word);
    expect(code == HLC_OK && word == 0, "parts that are joined");
    Bytes made = taken(&left, left_len);
    expect(are_same(&made, whole), "the checkpoint of both parts");
    free(lower.at);
    free(upper.at);
    free(made.at);
}

/* A store that applies a log of records, with a checkpoint in the middle; and all that is made of its checkpoints. */
static void check_records(void)
{
    hlc_store store = HLC_CLOSED_STORE;
    expect(hlc_store_open(&store, 1) == HLC_OK, "a store");
    apply_log(&store, 0, keys / 2);
    Bytes older = saved(&store);
    apply_log(&store, keys / 2, rows);
    open_snapshots(&store);
    save_pieces(&store);
    check_increment(&store, &older, keys / 2);
    check_halves();
    hlc_store_close(&store);
    free(older.at);
}

/* One key with a million rows, of a byte each, and two snapshots, whose bytes differ. */
static void check_long_key(void)
{
    enum { VERSIONS = 1000000 };
    const uint8_t key = 'k';
    hlc_store store = HLC_CLOSED_STORE, copy = HLC_CLOSED_STORE;
    uint64_t got[4], id, word;
    uint8_t value;
    size_t len;
    expect(hlc_store_open(&store, 1) == HLC_OK, "a store");
    for (uint64_t row = 0; row < VERSIONS; row++) {
        value = (uint8_t)row;
        if (hlc_store_accept_write(&store, 0, row, row + 1, &key, 1, &value, 1, &word) != HLC_OK) break;
    }
    expect(hlc_store_rows(&store, &word) == HLC_OK && word == VERSIONS, "the rows of a key");
    expect(hlc_snapshot_open(&store, VERSIONS / 2, &id) == HLC_OK, "a snapshot at half of them");
    Bytes made = saved(&store);
    expect(hlc_store_restore(&copy, made.at, made.len, &word) == HLC_OK, "a restore of a long key");
    uint32_t code = hlc_store_vacuum(&copy, &got[0], &got[1], &got[2], &got[3]);
    expect(code == HLC_OK && got[0] == VERSIONS && got[1] == 2 && got[2] == 2 * 12 && got[3] == VERSIONS - 2,
           "a vacuum of a long key");
    for (int i = 0; i < 2; i++) {
        code = hlc_snapshot_read(i == 0 ? &store : &copy, id, &key, 1, &value, 1, &len);
        expect(code == HLC_OK && len == 1 && value == (uint8_t)(VERSIONS / 2 - 1), "a row of a long key");
    }
    hlc_store_close(&store);
    hlc_store_close(&copy);
    free(made.at);
}

static void play(uint32_t many_keys, uint32_t many_rows)
{
    hlc_store store = HLC_CLOSED_STORE;
    plan(many_keys, many_rows);
    prepare();
    expect(hlc_store_open(&store, 1) == HLC_OK, "a store");
    accept_entries(&store);
    open_snapshots(&store);
    check_sizes(&store);
    check_listings(&store, HALF);
    check_listings(&store, WHOLE);
    check_saved(&store, false, "the checkpoint");
    check_log();
    Bytes from = saved(&store);
    check_copies(&from);
    free(from.at);
    /* For time, only of the smaller store. */
    if (many_rows < 1000000) check_records();
    certify(&store);
    hlc_store_close(&store);
    free(first);
    free(second);
}

int main(void)
{
    prepare_sha();
    play(600000, 1100000);
    play(150000, 200000);
    check_long_key();
    if (!wrong) puts("all right");
    return wrong != 0;
}
