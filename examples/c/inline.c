/* hlcstore_inline.h: its readers on bytes that are whole, cut and damaged, its structs beside the calls that they are
 * made of, its reads of a const store, and its texts; items are read as the library reads them. It is compiled as C and
 * as C++. */
#include "expect.h"

/* A length of eight bytes, of which the low one is given. */
#define LEN(low) low "\0\0\0\0\0\0\0"

/* ---- Stamps ---- */

static void make_stamps(void)
{
    static const struct {
        uint64_t physical;
        uint16_t counter;
        uint64_t stamp;
    } known[] = {
        { 0, 0, 0 },
        { 0, 1, 1 },
        { 1, 0, 65536 },
        { 5, 0, 327680 },
        { 7, 65535, 524287 },
        { 8, 0, 524288 },
        { 10, 1, 655361 },
        { UINT64_C(281474976710655), 0, UINT64_C(18446744073709486080) },
        { UINT64_C(281474976710655), 65535, UINT64_MAX },
    };
    static const uint64_t constant = HLC_STAMP(10, 1);
    EXPECT(constant, 655361);
    for (size_t i = 0; i < sizeof known / sizeof known[0]; i++) {
        EXPECT(HLC_STAMP(known[i].physical, known[i].counter), known[i].stamp);
        EXPECT(HLC_PHYSICAL(known[i].stamp), known[i].physical);
        EXPECT(HLC_COUNTER(known[i].stamp), known[i].counter);
    }
    EXPECT(HLC_STAMP(1 + 1, 2 | 1), 131075);
    EXPECT(HLC_PHYSICAL(131075 + 65536), 3);
    EXPECT(HLC_COUNTER(131075 + 1), 4);
}

/* ---- Texts ---- */

/* Whether a text is what the library writes of a number, or says that it is no answer. */
static bool has_text(uint32_t number)
{
    uint8_t text[256];
    size_t len;
    const char *ours = hlc_strerror(number);
    hlc_error_text(number, text, sizeof text, &len);
    if (len == 0) return strcmp(ours, "the number is no answer") == 0;
    return len == strlen(ours) && memcmp(text, ours, len) == 0;
}

static void print_texts(void)
{
    int answers = 0;
    for (uint32_t number = 0; number < 1000; number++) {
        size_t len;
        EXPECT(has_text(number), true);
        hlc_error_name(number, NULL, 0, &len);
        answers += len > 0;
    }
    EXPECT(answers, 41);
    EXPECT(has_text(UINT32_MAX), true);
    EXPECT(strcmp(hlc_strerror(HLC_NO_MEMORY), "out of memory"), 0);
}

/* ---- Readers ---- */

static const char two_pairs[] = LEN("\1") "a" LEN("\2") "xy" LEN("\2") "bc" LEN("\0");
static const char two_keys[] = LEN("\1") "a" LEN("\3") "bcd";
static const char two_values[] = "\0\1" LEN("\2") "xy";
static const char two_changes[] = LEN("\1") "a\1" LEN("\2") "xy" LEN("\1") "b\0";
static const char two_versions[] = "\1\2\3\4\5\6\7\x8\x9\xA\1" LEN("\1") "x" "\1\0\0\0\0\0\0\0\0\0\0";

static void read_whole(void)
{
    hlc_bytes none = { NONE }, rest = { BYTES(two_pairs) }, key;
    hlc_pair pair;
    hlc_value value;
    hlc_change change;
    hlc_key_version version;
    EXPECT(hlc_pair_next(&none, &pair), false);
    EXPECT(hlc_pair_next(&rest, &pair) && is(pair.key, "a") && is(pair.value, "xy"), true);
    EXPECT(hlc_pair_next(&rest, &pair) && is(pair.key, "bc") && is(pair.value, ""), true);
    EXPECT(hlc_pair_next(&rest, &pair) || rest.len > 0 || !is_none(pair.key) || !is_none(pair.value), false);
    rest.at = (const uint8_t *)two_keys, rest.len = sizeof two_keys - 1;
    EXPECT(hlc_key_next(&rest, &key) && is(key, "a"), true);
    EXPECT(hlc_key_next(&rest, &key) && is(key, "bcd"), true);
    EXPECT(hlc_key_next(&rest, &key) || rest.len > 0 || !is_none(key), false);
    rest.at = (const uint8_t *)two_values, rest.len = sizeof two_values - 1;
    EXPECT(hlc_value_next(&rest, &value) && !value.exists && is_none(value.bytes), true);
    EXPECT(hlc_value_next(&rest, &value) && value.exists && is(value.bytes, "xy"), true);
    EXPECT(hlc_value_next(&rest, &value) || rest.len > 0 || value.exists || !is_none(value.bytes), false);
    rest.at = (const uint8_t *)two_changes, rest.len = sizeof two_changes - 1;
    EXPECT(hlc_change_next(&rest, &change) && is(change.key, "a") && is(change.value.bytes, "xy"), true);
    EXPECT(hlc_change_next(&rest, &change) && is(change.key, "b") && !change.value.exists, true);
    EXPECT(hlc_change_next(&rest, &change) || rest.len > 0 || !is_none(change.key), false);
    rest.at = (const uint8_t *)two_versions, rest.len = sizeof two_versions - 1;
    EXPECT(hlc_key_version_next(&rest, &version) && version.value.exists && is(version.value.bytes, "x"), true);
    EXPECT(version.stamp, UINT64_C(0x0807060504030201));
    EXPECT(version.node, 0x0A09);
    EXPECT(hlc_key_version_next(&rest, &version) && !version.value.exists && is_none(version.value.bytes), true);
    EXPECT(version.stamp, 1);
    EXPECT(version.node, 0);
    EXPECT(hlc_key_version_next(&rest, &version) || rest.len > 0 || version.stamp > 0, false);
}

/* Reads with each reader, of which the number is one. What is written is looked at by its bytes alone. */
static bool next(int reader, hlc_bytes *rest, void *into)
{
    switch (reader) {
    case 0: return hlc_pair_next(rest, (hlc_pair *)into);
    case 1: return hlc_key_next(rest, (hlc_bytes *)into);
    case 2: return hlc_value_next(rest, (hlc_value *)into);
    case 3: return hlc_change_next(rest, (hlc_change *)into);
    default: return hlc_key_version_next(rest, (hlc_key_version *)into);
    }
}

/* Room for what any reader writes. */
typedef union {
    hlc_pair pair;
    hlc_change change;
    hlc_key_version version;
    uint8_t bytes[64];
} anything;

/* Whether a reader refuses these bytes, leaves them, and writes only zeros where it writes. They lie at the end of what
 * is allocated for them, so that a sanitiser sees a read past them. */
static bool refuses(int reader, const uint8_t *bytes, size_t len)
{
    static const size_t written[] = {
        sizeof(hlc_pair), sizeof(hlc_bytes), sizeof(hlc_value), sizeof(hlc_change), sizeof(hlc_key_version),
    };
    static uint8_t heap[64];
    uint8_t *const copy = heap + sizeof heap - len;
    hlc_bytes rest = { copy, len };
    anything into;
    memcpy(copy, bytes, len);
    memset(&into, 0, sizeof into);
    into.bytes[0] = 1;
    if (next(reader, &rest, &into) || rest.at != copy || rest.len != len) return false;
    for (size_t i = 0; i < written[reader]; i++) {
        if (into.bytes[i] != 0) return false;
    }
    return true;
}

/* How many bytes the first one has that a reader finds. */
static size_t first(int reader, const char *bytes, size_t len)
{
    hlc_bytes rest = { (const uint8_t *)bytes, len };
    anything into;
    return next(reader, &rest, &into) ? len - rest.len : 0;
}

static void read_cut_and_damaged(void)
{
    static const struct {
        const char *bytes;
        size_t len, first, length_at;
    } of[] = {
        { two_pairs, sizeof two_pairs - 1, 19, 9 },      { two_keys, sizeof two_keys - 1, 9, 0 },
        { two_values + 1, sizeof two_values - 2, 11, 1 }, { two_changes, sizeof two_changes - 1, 20, 10 },
        { two_versions, sizeof two_versions - 1, 20, 11 },
    };
    uint8_t damaged[64];
    for (int reader = 0; reader < 5; reader++) {
        EXPECT(first(reader, of[reader].bytes, of[reader].len), of[reader].first);
        for (size_t len = 0; len < of[reader].first; len++) {
            EXPECT(refuses(reader, (const uint8_t *)of[reader].bytes, len), true);
        }
        /* A length beyond the end, and the greatest one. */
        memcpy(damaged, of[reader].bytes, of[reader].len);
        for (int high = 1; high < 8; high++) {
            damaged[of[reader].length_at + high] = 0xFF;
            EXPECT(refuses(reader, damaged, of[reader].len), true);
        }
        damaged[of[reader].length_at] = 0xFF;
        EXPECT(refuses(reader, damaged, of[reader].len), true);
    }
    /* A byte that is neither 0 nor 1. */
    EXPECT(refuses(2, BYTES("\2" LEN("\0"))), true);
    EXPECT(refuses(3, BYTES(LEN("\1") "a\2" LEN("\0"))), true);
    EXPECT(refuses(4, BYTES("\1\0\0\0\0\0\0\0\0\0\2" LEN("\0"))), true);
    EXPECT(refuses(0, BYTES("")), true);
}

/* ---- Items ---- */

/* Writes an item as bytes. Returns how many. */
static size_t write_item(const hlc_item *item, uint8_t *out, size_t room)
{
    size_t len = 0;
    hlc_answer answer = HLC_OK;
    switch (item->kind) {
    case HLC_ITEM_WRITE:
        answer = hlc_item_encode_write(item->node, item->number, item->stamp, item->key.at, item->key.len,
                                       item->value.at, item->value.len, out, room, &len);
        break;
    case HLC_ITEM_DELETE:
        answer = hlc_item_encode_delete(item->node, item->number, item->stamp, item->key.at, item->key.len, out, room,
                                        &len);
        break;
    case HLC_ITEM_REPORT: answer = hlc_item_encode_report(item->node, item->number, item->stamp, out, room,
                                                          &len); break;
    case HLC_ITEM_RETIRE: answer = hlc_item_encode_retire(item->node, item->number, item->stamp, out, room,
                                                          &len); break;
    case HLC_ITEM_BATCH:
        answer = hlc_item_encode_batch(item->node, item->number, item->stamp, item->count, item->writes.at,
                                       item->writes.len, out, room, &len);
        break;
    }
    EXPECT(answer, HLC_OK);
    return len;
}

/* Whether bytes are read as the library reads them: refused with it, and otherwise as the item that the library writes
 * as the same bytes. */
static bool reads_as_library(hlc_store *store, const uint8_t *bytes, size_t len)
{
    hlc_bytes rest = { bytes, len };
    uint8_t again[64];
    size_t used, many;
    uint64_t word;
    hlc_item item;
    const bool is_bad = hlc_store_accept_items(store, bytes, len, &used, &many, &word) == HLC_BAD_BYTES && many == 0;
    if (!hlc_item_next(&rest, &item)) return (is_bad || len == 0) && rest.at == bytes && rest.len == len;
    used = (size_t)(rest.at - bytes);
    return !is_bad && write_item(&item, again, sizeof again) == used && memcmp(bytes, again, used) == 0;
}

/* Each item, cut at each place, and with each value of each of its bytes, behind which other bytes follow. */
static void read_items(void)
{
    const hlc_item items[] = {
        { HLC_ITEM_WRITE, 0x102, 3, HLC_STAMP(4, 5), { BYTES("key") }, { BYTES("value") }, 0, { NONE } },
        { HLC_ITEM_WRITE, 0, 0, 1, { BYTES("k") }, { BYTES("") }, 0, { NONE } },
        { HLC_ITEM_DELETE, 1, UINT64_MAX, HLC_MAX_STAMP, { BYTES("key") }, { NONE }, 0, { NONE } },
        { HLC_ITEM_REPORT, 0, 1, 2, { NONE }, { NONE }, 0, { NONE } },
        { HLC_ITEM_RETIRE, 0, 1, 2, { NONE }, { NONE }, 0, { NONE } },
        { HLC_ITEM_BATCH, 1, 1, 2, { NONE }, { NONE }, 1, { BYTES("\1k\1\0\2xy") } },
        { HLC_ITEM_BATCH, 0, 1, 2, { NONE }, { NONE }, 3, { BYTES("\1k\1\0\1x\3key\0\2bb\1\0\0") } },
    };
    hlc_store store = HLC_CLOSED_STORE;
    EXPECT(hlc_store_open(&store, 1), HLC_OK);
    for (size_t i = 0; i < sizeof items / sizeof items[0]; i++) {
        uint8_t bytes[64] = { 0 };
        const size_t len = write_item(&items[i], bytes, sizeof bytes);
        hlc_bytes rest = { bytes, len };
        hlc_item item;
        EXPECT(hlc_item_next(&rest, &item) && rest.len == 0, true);
        EXPECT(item.kind, items[i].kind);
        EXPECT(item.node, items[i].node);
        EXPECT(item.number, items[i].number);
        EXPECT(item.stamp, items[i].stamp);
        EXPECT(item.key.len, items[i].key.len);
        EXPECT(item.value.len, items[i].value.len);
        for (size_t cut = 0; cut < len; cut++) EXPECT(reads_as_library(&store, bytes, cut), true);
        for (size_t at = 0; at < len; at++) {
            const uint8_t was = bytes[at];
            for (int byte = 0; byte < 256; byte++) {
                bytes[at] = (uint8_t)byte;
                EXPECT(reads_as_library(&store, bytes, sizeof bytes), true);
            }
            bytes[at] = was;
        }
    }
    hlc_store_close(&store);
}

/* ---- With a store ---- */

/* Three keys at 1.0 to 3.0 by node 0, which deletes the second one at 4.0. */
static void fill(hlc_store *store)
{
    uint64_t word;
    EXPECT(hlc_store_open(store, 1), HLC_OK);
    EXPECT(hlc_store_accept_write(store, 0, 0, HLC_STAMP(1, 0), BYTES("a"), BYTES("x"), &word), HLC_OK);
    EXPECT(hlc_store_accept_write(store, 0, 1, HLC_STAMP(2, 0), BYTES("b"), BYTES("yy"), &word), HLC_OK);
    EXPECT(hlc_store_accept_write(store, 0, 2, HLC_STAMP(3, 0), BYTES("cc"), BYTES(""), &word), HLC_OK);
    EXPECT(hlc_store_accept_delete(store, 0, 3, HLC_STAMP(4, 0), BYTES("b"), &word), HLC_OK);
}

/* What the calls of a store write is read as it was accepted. The store is const: HLC_COPY makes each copy. */
static void read_store(const hlc_store *store, uint64_t before, uint64_t after)
{
    static const hlc_place places[] = { { 0, 1 }, { 1, 1 } };
    uint8_t out[256];
    size_t len, many;
    hlc_bytes rest = { out, 0 }, key;
    hlc_pair pair;
    hlc_value value;
    hlc_change change;
    hlc_key_version version;
    EXPECT(hlc_snapshot_list(HLC_COPY(store), before, out, sizeof out, &rest.len), HLC_OK);
    EXPECT(hlc_pair_next(&rest, &pair) && is(pair.key, "a") && is(pair.value, "x"), true);
    EXPECT(hlc_pair_next(&rest, &pair) && is(pair.key, "b") && is(pair.value, "yy"), true);
    EXPECT(hlc_pair_next(&rest, &pair) && is(pair.key, "cc") && is(pair.value, ""), true);
    EXPECT(hlc_pair_next(&rest, &pair) || rest.len > 0, false);
    EXPECT(hlc_snapshot_scan_keys(HLC_COPY(store), after, NONE, NONE, out, sizeof out, &len, &many), HLC_OK);
    rest.at = out, rest.len = len;
    EXPECT(hlc_key_next(&rest, &key) && is(key, "a") && hlc_key_next(&rest, &key) && is(key, "cc"), true);
    EXPECT(hlc_key_next(&rest, &key) || rest.len > 0, false);
    EXPECT(hlc_snapshot_read_all(HLC_COPY(store), after, places, 2, BYTES("ab"), out, sizeof out, &len, &many), HLC_OK);
    rest.at = out, rest.len = len;
    EXPECT(hlc_value_next(&rest, &value) && is(value.bytes, "x"), true);
    EXPECT(hlc_value_next(&rest, &value) && !value.exists && rest.len == 0, true);
    EXPECT(hlc_snapshot_changes(HLC_COPY(store), before, after, NONE, NONE, out, sizeof out, &len, &many), HLC_OK);
    rest.at = out, rest.len = len;
    EXPECT(hlc_change_next(&rest, &change) && is(change.key, "b") && !change.value.exists && rest.len == 0, true);
    EXPECT(hlc_snapshot_changes(HLC_COPY(store), after, before, NONE, NONE, out, sizeof out, &len, &many), HLC_OK);
    rest.at = out, rest.len = len;
    EXPECT(hlc_change_next(&rest, &change) && is(change.value.bytes, "yy") && rest.len == 0, true);
    EXPECT(hlc_store_versions(HLC_COPY(store), BYTES("b"), 0, HLC_MAX_STAMP, out, sizeof out, &len, &many), HLC_OK);
    rest.at = out, rest.len = len;
    EXPECT(hlc_key_version_next(&rest, &version) && version.stamp == HLC_STAMP(4, 0) && !version.value.exists, true);
    EXPECT(hlc_key_version_next(&rest, &version) && version.stamp == HLC_STAMP(2, 0) && version.node == 0, true);
    EXPECT(is(version.value.bytes, "yy") && rest.len == 0, true);
}

static void ask_store(const hlc_store *store)
{
    hlc_store_sizes sizes;
    hlc_link_state link;
    hlc_snapshot_info snapshot;
    EXPECT(hlc_store_get_sizes(store, &sizes), HLC_OK);
    EXPECT(sizes.rows, 4);
    EXPECT(sizes.keys, 3);
    EXPECT(sizes.key_bytes, 4);
    EXPECT(sizes.value_bytes, 3);
    EXPECT(hlc_store_get_link(store, 0, &link), HLC_OK);
    EXPECT(link.next, 4);
    EXPECT(link.head, HLC_STAMP(4, 0));
    EXPECT(link.retired, false);
    EXPECT(hlc_store_get_link(store, 1, &link), HLC_NO_NODE);
    EXPECT(link.next + link.head, 0);
    EXPECT(hlc_snapshot_get(store, 1, &snapshot), HLC_OK);
    EXPECT(snapshot.id, 2);
    EXPECT(snapshot.stamp, HLC_STAMP(4, 0));
    EXPECT(hlc_snapshot_get(store, 2, &snapshot), HLC_AFTER_LAST);
    EXPECT(snapshot.id + snapshot.stamp, 0);
}

static void vacuum_and_certify(hlc_store *store)
{
    hlc_vacuum_report report;
    hlc_certified certified;
    hlc_shown shown;
    hlc_output output = HLC_NO_OUTPUT;
    uint8_t text[512];
    uint64_t stamp;
    size_t len;
    EXPECT(hlc_store_run_vacuum_to(store, HLC_STAMP(5, 0), &report), HLC_ABOVE_FLOOR);
    EXPECT(report.word, HLC_STAMP(4, 0));
    EXPECT(report.stamp + report.kept + report.bytes + report.dropped, 0);
    EXPECT(hlc_store_run_vacuum_to(store, HLC_STAMP(4, 0), &report), HLC_OK);
    EXPECT(report.stamp, HLC_STAMP(4, 0));
    EXPECT(report.word, 0);
    EXPECT(report.kept, 4);
    EXPECT(report.dropped, 0);
    EXPECT(hlc_snapshot_close(store, 1, &stamp), HLC_OK);
    EXPECT(hlc_certificate_get(store, HLC_STAMP(4, 0), &output, &certified), HLC_NOT_FEWEST);
    report.word = 1;
    EXPECT(hlc_store_run_vacuum(store, &report), HLC_OK);
    EXPECT(report.stamp, HLC_STAMP(4, 0));
    EXPECT(report.word, 0);
    EXPECT(report.kept, 2);
    EXPECT(report.bytes, 1 + 1 + 10 + 2 + 10);
    EXPECT(report.dropped, 2);
    EXPECT(hlc_certificate_get(store, HLC_STAMP(3, 0), &output, &certified), HLC_BELOW_HORIZON);
    EXPECT(certified.word, HLC_STAMP(4, 0));
    EXPECT(hlc_certificate_get(store, HLC_STAMP(4, 0), &output, &certified), HLC_OK);
    EXPECT(certified.kept, 2);
    EXPECT(certified.bytes, 24);
    EXPECT(certified.word, 0);
    EXPECT(hlc_output_read(&output, 0, text, sizeof text, &len), HLC_OK);
    EXPECT(len, certified.len);
    EXPECT(hlc_certificate_get_shown(text, len, &shown), HLC_OK);
    EXPECT(shown.rows, 2);
    EXPECT(shown.bytes, 24);
    EXPECT(hlc_certificate_get_shown(BYTES("point 1.0\npoint"), &shown), HLC_BAD_LINE);
    EXPECT(shown.word, 2);
    EXPECT(shown.rows + shown.bytes, 0);
    hlc_output_drop(&output);
}

static void use_store(void)
{
    hlc_store store = HLC_CLOSED_STORE;
    hlc_store_sizes sizes;
    uint64_t id;
    EXPECT(hlc_store_get_sizes(&store, &sizes), HLC_CLOSED);
    EXPECT(sizes.rows + sizes.keys + sizes.key_bytes + sizes.value_bytes, 0);
    fill(&store);
    EXPECT(hlc_snapshot_open(&store, HLC_STAMP(3, 0), &id), HLC_OK);
    EXPECT(hlc_snapshot_open(&store, HLC_STAMP(4, 0), &id), HLC_OK);
    read_store(&store, 1, 2);
    ask_store(&store);
    vacuum_and_certify(&store);
    hlc_store_close(&store);
}

/* A refused part has its word, and the next call makes it. Parts of one key and of none are parts too. */
static void vacuum_in_parts(void)
{
    static const size_t limit[] = { 1, 0, 3 };
    static const uint64_t kept[] = { 1, 0, 1 };
    hlc_store store = HLC_CLOSED_STORE;
    hlc_partial_vacuum part = HLC_FIRST_PART;
    fill(&store);
    EXPECT(hlc_store_run_vacuum_part(&store, HLC_STAMP(5, 0), 1, &part), HLC_ABOVE_FLOOR);
    EXPECT(part.report.word, HLC_STAMP(4, 0));
    EXPECT(part.more && part.after_len == 0, true);
    for (int i = 0; i < 3; i++) {
        EXPECT(part.more, true);
        EXPECT(hlc_store_run_vacuum_part(&store, HLC_STAMP(4, 0), limit[i], &part), HLC_OK);
        EXPECT(part.report.stamp, HLC_STAMP(4, 0));
        EXPECT(part.report.word, 0);
        EXPECT(part.report.kept, kept[i]);
        if (i == 2) break;
        EXPECT(part.after_len == 1 && part.after[0] == 'a', true);
        EXPECT(hlc_store_run_vacuum_part(&store, HLC_STAMP(5, 0), 1, &part), HLC_ABOVE_FLOOR);
        EXPECT(part.report.word, HLC_STAMP(4, 0));
        EXPECT(part.report.kept, kept[i]);
        EXPECT(part.more && part.after_len == 1 && part.after[0] == 'a', true);
    }
    EXPECT(part.report.dropped, 2);
    EXPECT(part.more || part.after_len > 0, false);
    hlc_store_close(&store);
}

/* Of so many snapshots, each at a stamp of its own, one of so many is closed, if any: the others are found, and nothing
 * else is. */
static void find_snapshots(int many, int closed)
{
    hlc_store store = HLC_CLOSED_STORE;
    uint64_t id, stamp = 0, word;
    EXPECT(hlc_snapshot_get_stamp(&store, 1, &stamp), HLC_CLOSED);
    EXPECT(hlc_store_open(&store, 1), HLC_OK);
    for (int i = 1; i <= many; i++) {
        EXPECT(hlc_store_accept_report(&store, 0, (uint64_t)i - 1, HLC_STAMP(i, 0), &word), HLC_OK);
        EXPECT(hlc_snapshot_open_at_floor(&store, &id, &word), HLC_OK);
    }
    for (int i = closed; i <= many; i += closed) EXPECT(hlc_snapshot_close(&store, (uint64_t)i, &word), HLC_OK);
    for (int i = 1; i <= many; i++) {
        const bool is_open = i % closed != 0;
        EXPECT(hlc_snapshot_get_stamp(&store, (uint64_t)i, &stamp), is_open ? HLC_OK : HLC_NO_SNAPSHOT);
        EXPECT(stamp, is_open ? HLC_STAMP(i, 0) : 0);
    }
    EXPECT(hlc_snapshot_get_stamp(&store, 0, &stamp), HLC_NO_SNAPSHOT);
    EXPECT(hlc_snapshot_get_stamp(&store, (uint64_t)many + 1, &stamp), HLC_NO_SNAPSHOT);
    EXPECT(hlc_snapshot_get_stamp(&store, UINT64_MAX, &stamp), HLC_NO_SNAPSHOT);
    EXPECT(stamp, 0);
    hlc_store_close(&store);
}

/* Two items, a threshold, and bytes that are none. */
static void apply_a_log(void)
{
    hlc_store store = HLC_CLOSED_STORE;
    hlc_applied applied = { 1, 1, 1, 1 };
    uint8_t log[256];
    size_t at = 0, len;
    EXPECT(hlc_store_open(&store, 1), HLC_OK);
    EXPECT(hlc_item_encode_write(0, 0, HLC_STAMP(1, 0), BYTES("a"), BYTES("x"), log, sizeof log, &at), HLC_OK);
    EXPECT(hlc_item_encode_report(0, 1, HLC_STAMP(2, 0), log + at, sizeof log - at, &len), HLC_OK);
    at += len;
    EXPECT(hlc_store_accept_log(&store, log, at, &applied), HLC_OK);
    EXPECT(applied.count, 2);
    EXPECT(applied.used, at);
    EXPECT(applied.threshold + applied.word, 0);
    EXPECT(hlc_record_encode_threshold(HLC_STAMP(1, 5), log + at, sizeof log - at, &len), HLC_OK);
    EXPECT(hlc_store_apply_log(&store, log, at + len - 1, &applied), HLC_BAD_BYTES);
    EXPECT(applied.count, 2);
    EXPECT(applied.used, at);
    EXPECT(applied.word, 1);
    EXPECT(hlc_store_apply_log(&store, log, at + len, &applied), HLC_OK);
    EXPECT(applied.count, 3);
    EXPECT(applied.threshold, HLC_STAMP(1, 5));
    EXPECT(applied.word, 0);
    hlc_answer_ignore(hlc_snapshot_close_all(&store));
    hlc_store_close(&store);
}

int main(void)
{
    make_stamps();
    print_texts();
    read_whole();
    read_cut_and_damaged();
    read_items();
    use_store();
    vacuum_in_parts();
    for (int many = 0; many < 6; many++) find_snapshots(many, 3);
    find_snapshots(HLC_MAX_OPEN_SNAPSHOTS, 2);
    find_snapshots(HLC_MAX_OPEN_SNAPSHOTS, HLC_MAX_OPEN_SNAPSHOTS + 1);
    apply_a_log();
    return ended();
}
