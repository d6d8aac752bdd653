/* Two nodes write, snapshots are read, a vacuum drops rows, a node joins and one retires, another joins at a stamp and
 * a vacuum to a stamp drops rows, and two more in parts. Each answer is printed on a line. */
#include "hlcstore_inline.h"
#include <inttypes.h>
#include <stdio.h>
#include <string.h>

#define BYTES(s) (const uint8_t *)(s), sizeof(s) - 1
#define AT(l) ((uint64_t)(l) << 16)

static hlc_store store = HLC_CLOSED_STORE;
static uint64_t number, word;

static void line(const char *what, uint32_t code)
{
    printf("%s %" PRIu32 "\n", what, code);
}

static void print_answer(const char *what, uint32_t code, uint64_t value)
{
    printf("%s %" PRIu32 " %" PRIu64 "\n", what, code, value);
}

static void print_two(const char *what, uint32_t code, uint64_t first, uint64_t second)
{
    printf("%s %" PRIu32 " %" PRIu64 " %" PRIu64 "\n", what, code, first, second);
}

static void bytes(const char *what, uint32_t code, const uint8_t *out, size_t len)
{
    printf("%s %" PRIu32 " %zu ", what, code, len);
    for (size_t i = 0; i < len; i++) printf("%02x", out[i]);
    printf("\n");
}

/* Lets a node issue a write, and the store accept it. */
static void write_item(hlc_node *node, uint64_t reading, const uint8_t *key, size_t key_len,
                       const uint8_t *value, size_t value_len)
{
    uint32_t code = hlc_node_write(node, reading, key, key_len, value, value_len, &number, &word);
    print_two("write", code, number, word);
    if (code != HLC_OK) return;
    code = hlc_store_accept_write(&store, node->id, number, word, key, key_len, value, value_len, &word);
    print_answer("accept", code, word);
}

static void report(hlc_node *node, uint64_t reading)
{
    uint32_t code = hlc_node_report(node, reading, &number, &word);
    print_two("report", code, number, word);
    code = hlc_store_accept_report(&store, node->id, number, word, &word);
    print_answer("accept", code, word);
}

static void read_key(uint64_t id, const uint8_t *key, size_t key_len)
{
    uint8_t out[16];
    size_t len;
    uint32_t code = hlc_snapshot_read(&store, id, key, key_len, out, sizeof out, &len);
    bytes("read", code, out, len);
}

static void list(uint64_t id)
{
    uint8_t out[64];
    size_t len;
    uint32_t code = hlc_snapshot_list(&store, id, out, sizeof out, &len);
    bytes("list", code, out, len);
}

static void print_part(const char *what, uint32_t code, const uint8_t *out, size_t len, size_t many)
{
    printf("%s %" PRIu32 " %zu %zu ", what, code, len, many);
    for (size_t i = 0; i < len; i++) printf("%02x", out[i]);
    printf("\n");
}

/* Prints the pairs of a range, as many as fit in so many bytes. */
static void scan(uint64_t id, const uint8_t *from, size_t from_len, const uint8_t *to, size_t to_len, size_t room)
{
    uint8_t out[64];
    size_t len, many;
    uint32_t code = hlc_snapshot_scan(&store, id, from, from_len, to, to_len, out, room, &len, &many);
    print_part("scan", code, out, len, many);
}

/* The same from the end of the range. */
static void scan_back(uint64_t id, const uint8_t *from, size_t from_len, const uint8_t *to, size_t to_len, size_t room)
{
    uint8_t out[64];
    size_t len, many;
    uint32_t code = hlc_snapshot_scan_back(&store, id, from, from_len, to, to_len, out, room, &len, &many);
    print_part("back", code, out, len, many);
}

/* Prints what changes from one snapshot to another from a key on, as much as fits in so many bytes. */
static void changes(uint64_t before, uint64_t after, const uint8_t *from, size_t from_len, size_t room)
{
    uint8_t out[64];
    size_t len, many;
    uint32_t code = hlc_snapshot_changes(&store, before, after, from, from_len, BYTES(""), out, room, &len, &many);
    print_part("changes", code, out, len, many);
}

/* Prints the rows of a key above one stamp and at or below another. */
static void versions(const uint8_t *key, size_t key_len, uint64_t above, uint64_t to)
{
    uint8_t out[64];
    size_t len, many;
    uint32_t code = hlc_store_versions(&store, key, key_len, above, to, out, sizeof out, &len, &many);
    print_part("versions", code, out, len, many);
}

/* Prints the keys of a snapshot, as many as fit in so many bytes. */
static void scan_keys(uint64_t id, size_t room)
{
    uint8_t out[64];
    size_t len, many;
    uint32_t code = hlc_snapshot_scan_keys(&store, id, BYTES(""), BYTES(""), out, room, &len, &many);
    print_part("scan", code, out, len, many);
}

static void digest(uint64_t id, const uint8_t *from, size_t from_len)
{
    uint8_t out[32];
    size_t len;
    uint32_t code = hlc_snapshot_digest(&store, id, from, from_len, BYTES(""), out, sizeof out, &len);
    bytes("digest", code, out, len);
}

static void check(const uint8_t *text, size_t text_len)
{
    uint64_t rows, cost;
    uint32_t code = hlc_certificate_check(text, text_len, &rows, &cost, &word);
    printf("checked %" PRIu32 " %" PRIu64 " %" PRIu64 " %" PRIu64 "\n", code, rows, cost, word);
}

static void link_of(uint16_t node)
{
    uint64_t next, head;
    bool retired = false;
    uint32_t code = hlc_store_link(&store, node, &next, &head, &retired);
    printf("link %" PRIu32 " %" PRIu64 " %" PRIu64 " %d\n", code, next, head, retired);
}

static void sizes(void)
{
    uint64_t rows, keys, key_bytes, value_bytes;
    uint32_t code = hlc_store_size(&store, &rows, &keys, &key_bytes, &value_bytes);
    printf("sizes %" PRIu32 " %" PRIu64 " %" PRIu64 " %" PRIu64 " %" PRIu64 "\n", code, rows, keys, key_bytes,
           value_bytes);
}

static void snapshot_at(uint64_t place)
{
    uint64_t id, stamp;
    uint32_t code = hlc_snapshot_at_place(&store, place, &id, &stamp);
    print_two("opened", code, id, stamp);
}

/* Reads some of three keys, of which the bytes do not contain the last. */
static void read_all(uint64_t id, size_t many_keys, size_t room)
{
    static const hlc_place places[3] = { { 0, 4 }, { 4, 4 }, { 8, 1 } };
    uint8_t out[64];
    size_t len, many;
    uint32_t code = hlc_snapshot_read_all(&store, id, places, many_keys, BYTES("citytown"), out, room, &len, &many);
    print_part("read all", code, out, len, many);
}

/* Prints an answer's name, and what it says. */
static void say(uint32_t answer)
{
    uint8_t name[64], text[128];
    size_t name_len, text_len;
    hlc_error_name(answer, name, sizeof name, &name_len);
    hlc_error_text(answer, text, sizeof text, &text_len);
    printf("answer %" PRIu32 " %.*s: %.*s\n", answer, (int)name_len, name, (int)text_len, text);
}

/* Lists parts of snapshots, what changes between them and the rows of a key, and asks what the store has. */
static void look_round(void)
{
    uint64_t many;
    uint32_t code;
    scan(2, BYTES(""), BYTES(""), 64);
    scan(1, BYTES("a"), BYTES("d"), 64);
    scan(1, BYTES("a"), BYTES(""), 24);
    scan(1, BYTES("d"), BYTES(""), 64);
    scan(3, BYTES(""), BYTES(""), 64);
    scan_keys(1, 12);
    scan_keys(1, 11);
    scan_keys(3, 64);
    scan_back(2, BYTES(""), BYTES(""), 64);
    scan_back(1, BYTES("a"), BYTES("d"), 64);
    scan_back(1, BYTES(""), BYTES(""), 24);
    scan_back(1, BYTES(""), BYTES("city"), 64);
    scan_back(3, BYTES(""), BYTES(""), 64);
    changes(1, 2, BYTES(""), 64);
    changes(2, 1, BYTES(""), 64);
    changes(1, 2, BYTES(""), 13);
    changes(1, 2, BYTES("d"), 64);
    changes(1, 1, BYTES(""), 64);
    changes(1, 3, BYTES(""), 64);
    versions(BYTES("city"), 0, UINT64_MAX);
    versions(BYTES("city"), AT(10), AT(21) - 1);
    versions(BYTES("lake"), 0, UINT64_MAX);
    digest(1, BYTES(""));
    digest(1, BYTES("d"));
    digest(3, BYTES(""));
    read_all(1, 2, 64);
    read_all(1, 2, 14);
    read_all(1, 3, 64);
    read_all(3, 3, 64);
    code = hlc_snapshot_count(&store, 1, BYTES("a"), BYTES("d"), &many);
    print_answer("count", code, many);
    code = hlc_snapshot_count(&store, 3, BYTES("a"), BYTES("d"), &many);
    print_answer("count", code, many);
    code = hlc_store_horizon(&store, &word);
    print_answer("horizon", code, word);
    code = hlc_store_nodes(&store, &many);
    print_answer("nodes", code, many);
    for (uint16_t node = 0; node < 3; node++) link_of(node);
    code = hlc_store_floor_node(&store, &many);
    print_answer("floor node", code, many);
    for (uint64_t place = 0; place < 3; place++) snapshot_at(place);
}

/* Saves the store, makes another one of the bytes, and reads it. Bytes that were cut or changed are refused. */
static void save(void)
{
    hlc_store copy = HLC_CLOSED_STORE;
    hlc_output output = HLC_NO_OUTPUT;
    uint8_t saved[256], out[16];
    uint64_t rows;
    size_t len, value_len;
    uint32_t code;
    for (int i = 0; i < 2; i++) {
        hlc_output_drop(&output);
        code = hlc_checkpoint_make(&store, 77, &output, &len);
        print_answer("checkpoint", code, len);
    }
    hlc_answer_ignore(hlc_output_read(&output, 0, saved, sizeof saved, &len));
    hlc_output_drop(&output);
    code = hlc_store_restore(&copy, saved, len - 1, &word);
    print_answer("restore", code, word);
    saved[0] ^= 1;
    code = hlc_store_restore(&copy, saved, len, &word);
    print_answer("restore", code, word);
    saved[0] ^= 1;
    for (int i = 0; i < 2; i++) {
        code = hlc_store_restore(&copy, saved, len, &word);
        print_answer("restore", code, word);
    }
    code = hlc_store_rows(&copy, &rows);
    print_answer("rows", code, rows);
    code = hlc_snapshot_read(&copy, 1, BYTES("city"), out, sizeof out, &value_len);
    bytes("read", code, out, value_len);
    hlc_store_close(&copy);
}

static void items(hlc_store *replica, const uint8_t *log, size_t log_len)
{
    size_t used, many;
    uint32_t code = hlc_store_accept_items(replica, log, log_len, &used, &many, &word);
    printf("items %" PRIu32 " %zu %zu %" PRIu64 "\n", code, used, many, word);
}

/* Writes three items to a log, and lets another store take them from there, some of them again. */
static void replicate(void)
{
    hlc_store replica = HLC_CLOSED_STORE;
    uint8_t log[128];
    uint64_t rows;
    size_t len, end = 0;
    uint32_t code = hlc_item_encode_write(0, 0, AT(10), BYTES("city"), BYTES("Lyon"), log, sizeof log, &len);
    print_answer("item", code, len);
    end += len;
    code = hlc_item_encode_report(0, 1, AT(11), log + end, sizeof log - end, &len);
    print_answer("item", code, len);
    end += len;
    code = hlc_item_encode_retire(0, 2, AT(12), log + end, sizeof log - end, &len);
    print_answer("item", code, len);
    end += len;
    code = hlc_item_encode_delete(0, 3, AT(13), BYTES(""), log + end, sizeof log - end, &len);
    print_answer("item", code, len);
    line("open", hlc_store_open(&replica, 1));
    items(&replica, log, 32);
    items(&replica, log + 52, 20);
    items(&replica, log, 40);
    items(&replica, log, end);
    code = hlc_store_rows(&replica, &rows);
    print_answer("rows", code, rows);
    hlc_store_close(&replica);
    items(&replica, log, end);
}

/* Makes a node as it was before a restart, and raises its clock. */
static void restart(void)
{
    hlc_node node;
    uint32_t code = hlc_node_restore(7, 2, 3, &node);
    print_two("restore", code, node.next, node.last);
    code = hlc_node_restore(7, AT(10), 3, &node);
    print_two("restore", code, node.next, node.last);
    hlc_node_raise(&node, AT(12) + 5);
    hlc_node_raise(&node, AT(11));
    code = hlc_node_report(&node, 1, &number, &word);
    print_two("report", code, number, word);
}

/* Lets a node issue a write and a deletion, and passes them to the store in one call, with an entry whose key is not
 * there. */
static void accept_three(hlc_node *node)
{
    hlc_entry entries[3] = { { 0 } };
    size_t many;
    uint32_t code = hlc_node_write(node, 40, BYTES("lake"), BYTES("Como"), &number, &word);
    print_two("write", code, number, word);
    entries[0] = (hlc_entry){ .node = node->id, .number = number, .stamp = word, .key_len = 4, .value_at = 4,
                              .value_len = 4 };
    code = hlc_node_delete(node, 41, BYTES("town"), &number, &word);
    print_two("delete", code, number, word);
    entries[1] = (hlc_entry){ .node = node->id, .deletes = true, .number = number, .stamp = word, .key_at = 8,
                              .key_len = 4 };
    entries[2] = (hlc_entry){ .node = node->id, .key_at = 12, .key_len = 1 };
    code = hlc_store_accept_all(&store, entries, 3, BYTES("lakeComotown"), &many, &word);
    print_two("all", code, many, word);
    code = hlc_store_accept_all(&store, entries + 1, 1, BYTES("lakeComotown"), &many, &word);
    print_two("all", code, many, word);
}

/* Makes the certificate of the rows at or below a stamp, into an output that has no bytes, and returns its length. */
static size_t certificate(uint64_t stamp, hlc_output *output)
{
    uint64_t kept, cost;
    size_t len;
    uint32_t code = hlc_certificate_make(&store, stamp, &word, &kept, &cost, output, &len);
    print_two("certificate", code, len, word);
    if (code == HLC_OK) print_two("kept", code, kept, cost);
    return len;
}

/* Lets a node join at a start that the caller names, and vacuums to a stamp below the floor (closed timestamp), which
 * keeps what lies above that stamp. */
static void keep_above(hlc_node *node)
{
    hlc_output output = HLC_NO_OUTPUT;
    uint64_t kept, cost, dropped;
    uint16_t joined;
    uint32_t code;
    write_item(node, 39, BYTES("city"), BYTES("Bern"));
    report(node, 45);
    code = hlc_store_join_at(&store, AT(40), &joined, &word);
    print_two("join at", code, joined, word);
    code = hlc_store_join_at(&store, AT(50), &joined, &word);
    print_two("join at", code, joined, word);
    code = hlc_store_check_vacuum(&store, AT(42), &word);
    print_answer("check", code, word);
    code = hlc_store_check_vacuum(&store, AT(40), &word);
    print_answer("check", code, word);
    code = hlc_store_vacuum_to(&store, AT(40), &word, &kept, &cost, &dropped);
    print_answer("vacuum to", code, word);
    print_two("kept", code, kept, cost);
    print_answer("dropped", code, dropped);
    code = hlc_store_vacuum_to(&store, AT(39), &word, &kept, &cost, &dropped);
    print_answer("vacuum to", code, word);
    certificate(AT(40), &output);
    hlc_output_drop(&output);
    code = hlc_store_rows(&store, &word);
    print_answer("rows", code, word);
    sizes();
}

/* Vacuums the next keys, at most so many, and prints the key to go on from. Returns whether a key may be left. */
static bool vacuum_part(uint64_t stamp, size_t limit, uint8_t key[255], size_t *key_len)
{
    uint64_t kept, cost, dropped;
    bool more = false;
    uint8_t out[255];
    size_t len;
    uint32_t code = hlc_store_vacuum_part(&store, stamp, key, *key_len, limit, &word, &kept, &cost, &dropped, out,
                                          sizeof out, &len, &more);
    printf("part %" PRIu32 " %" PRIu64 " %" PRIu64 " %" PRIu64 " %" PRIu64 " %d ", code, word, kept, cost, dropped,
           more);
    for (size_t i = 0; i < len; i++) printf("%02x", out[i]);
    printf("\n");
    memcpy(key, out, len);
    *key_len = len;
    return more;
}

/* Vacuums in parts of so many keys. */
static void vacuum_parts(uint64_t stamp, size_t limit)
{
    uint8_t key[255];
    size_t len = 0;
    while (vacuum_part(stamp, limit, key, &len)) continue;
}

/* Vacuums key by key, and by two keys at a later stamp, after which a whole vacuum drops nothing. */
static void keep_in_parts(hlc_node *b, hlc_node *c)
{
    uint64_t kept, cost, dropped;
    uint32_t code;
    write_item(c, 46, BYTES("city"), BYTES("Oslo"));
    write_item(c, 47, BYTES("lake"), BYTES("Nemi"));
    write_item(c, 48, BYTES("city"), BYTES("Riga"));
    report(b, 48);
    vacuum_parts(AT(49), 1);
    vacuum_parts(AT(47), 1);
    code = hlc_store_horizon(&store, &word);
    print_answer("horizon", code, word);
    vacuum_parts(AT(46), 1);
    vacuum_parts(AT(48), 2);
    code = hlc_store_vacuum_to(&store, AT(48), &word, &kept, &cost, &dropped);
    print_answer("vacuum to", code, word);
    print_two("kept", code, kept, cost);
    print_answer("dropped", code, dropped);
    sizes();
}

/* Prints the bytes of an output in pieces, so that they need no buffer of their length. */
static void print_output(hlc_output *output)
{
    uint8_t piece[10];
    size_t at = 0, len;
    uint32_t code = HLC_MORE;
    while (code == HLC_MORE) {
        code = hlc_output_read(output, at, piece, sizeof piece, &len);
        fwrite(piece, 1, len, stdout);
        at += len;
    }
}

/* Makes no certificate where a vacuum would drop rows, and one after the vacuum; and checks it, and parts of it. */
static void certify(void)
{
    hlc_output output = HLC_NO_OUTPUT;
    uint64_t at, kept, cost, dropped;
    uint8_t text[256];
    size_t len;
    uint32_t code = hlc_store_floor(&store, &at);
    print_answer("floor", code, at);
    certificate(at, &output);
    code = hlc_store_vacuum(&store, &at, &kept, &cost, &dropped);
    print_answer("vacuum", code, at);
    print_two("kept", code, kept, cost);
    print_answer("dropped", code, dropped);
    certificate(at - 1, &output);
    certificate(at + 1, &output);
    certificate(at, &output);
    print_output(&output);
    hlc_answer_ignore(hlc_output_read(&output, 0, text, sizeof text, &len));
    hlc_output_drop(&output);
    check(text, len);
    check(text, 35);
    check(text, 4);
}

int main(void)
{
    hlc_node a = hlc_node_open(0, 0), b = hlc_node_open(1, 0), c;
    uint64_t id, at, start, kept, cost, dropped;
    static const uint8_t large[65536];
    uint8_t out[5];
    uint16_t joined;
    uint32_t code;
    size_t len;

    printf("version %" PRIu32 "\n", hlc_version() - HLC_VERSION_NUMBER);
    say(HLC_OK);
    say(HLC_NOT_NEXT);
    say(4);
    say(HLC_NO_CHECKPOINT);
    say(HLC_HAS_BYTES);
    code = hlc_store_rows(&store, &word);
    print_answer("rows", code, word);
    sizes();
    line("open", hlc_store_open(&store, 0));
    line("open", hlc_store_open(&store, 2));
    line("open", hlc_store_open(&store, 2));
    write_item(&a, 10, BYTES("city"), BYTES("Lyon"));
    code = hlc_store_accept_write(&store, 0, 0, word, BYTES("city"), BYTES("Lyon"), &word);
    print_answer("again", code, word);
    code = hlc_store_check_write(&store, 0, 1, (uint64_t)11 << 16, BYTES(""), BYTES("Lyon"), &word);
    print_answer("check", code, word);
    write_item(&a, 10, BYTES("city"), BYTES("Paris"));
    code = hlc_node_send(&a, 12, &at);
    print_answer("send", code, at);
    code = hlc_node_receive(&b, at, 11, &word);
    print_answer("receive", code, word);
    report(&b, 11);
    code = hlc_store_floor(&store, &at);
    print_answer("floor", code, at);
    code = hlc_snapshot_open(&store, at + 1, &id);
    print_answer("snapshot", code, id);
    code = hlc_snapshot_open_at_floor(&store, &id, &at);
    print_two("snapshot", code, id, at);
    read_key(1, BYTES("city"));
    memset(out, 'x', sizeof out);
    code = hlc_snapshot_read(&store, 1, BYTES("city"), out, 4, &len);
    print_two("short", code, len, memcmp(out, "xxxxx", 5) == 0);
    read_key(1, BYTES("town"));
    read_key(2, BYTES("city"));
    write_item(&b, 20, BYTES("town"), BYTES(""));
    code = hlc_node_delete(&a, 21, BYTES("city"), &number, &word);
    print_two("delete", code, number, word);
    code = hlc_store_accept_delete(&store, 0, number, word, BYTES("city"), &word);
    print_answer("accept", code, word);
    report(&b, 22);
    code = hlc_snapshot_open_at_floor(&store, &id, &at);
    print_two("snapshot", code, id, at);
    list(1);
    list(2);
    list(3);
    look_round();
    save();
    replicate();
    restart();
    code = hlc_store_rows(&store, &word);
    print_answer("rows", code, word);
    sizes();
    code = hlc_store_vacuum(&store, &at, &kept, &cost, &dropped);
    print_answer("vacuum", code, at);
    print_two("kept", code, kept, cost);
    print_answer("dropped", code, dropped);
    read_key(1, BYTES("city"));
    code = hlc_snapshot_close(&store, 1, &at);
    print_answer("close", code, at);
    code = hlc_snapshot_close(&store, 1, &at);
    print_answer("close", code, at);
    certify();
    code = hlc_store_rows(&store, &word);
    print_answer("rows", code, word);
    sizes();
    code = hlc_snapshot_open(&store, 1, &id);
    print_answer("snapshot", code, id);
    code = hlc_store_join(&store, &joined, &start);
    print_two("join", code, joined, start);
    c = hlc_node_open(joined, start);
    write_item(&c, 1, BYTES("city"), BYTES("Rome"));
    accept_three(&b);
    code = hlc_node_retire(&a, 30, &number, &word);
    print_two("retire", code, number, word);
    code = hlc_store_accept_retire(&store, 0, number, word, &word);
    print_answer("accept", code, word);
    write_item(&a, 31, BYTES("city"), BYTES("Nice"));
    code = hlc_store_check_report(&store, 0, 4, (uint64_t)31 << 16, &word);
    print_answer("check", code, word);
    write_item(&b, (uint64_t)1 << 48, BYTES("city"), BYTES("Nice"));
    write_item(&b, 31, large, 256, BYTES("Nice"));
    write_item(&b, 31, BYTES("city"), large, sizeof large);
    keep_above(&c);
    keep_in_parts(&b, &c);
    line("close all", hlc_snapshot_close_all(&store));
    snapshot_at(0);
    hlc_store_close(&store);
    line("close all", hlc_snapshot_close_all(&store));
    code = hlc_store_floor(&store, &at);
    print_answer("floor", code, at);
    return 0;
}
