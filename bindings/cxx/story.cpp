// The story of examples/c/story.c through hlcstore.hpp: each answer is printed on a line, as in examples/callers.out.
#include <algorithm>
#include <cstdio>
#include <functional>
#include <hlcstore.hpp>
#include <optional>
#include <string>
#include <string_view>

namespace {

using hlcstore::item;
using hlcstore::node;
using hlcstore::store;
using hlcstore::timestamp;
using std::string;
using std::string_view;

unsigned long long wide(std::uint64_t number) { return number; }

string hex(string_view bytes) {
  string digits;
  char two[3];
  for (const unsigned char byte : bytes) {
    std::snprintf(two, sizeof two, "%02x", byte);
    digits += two;
  }
  return digits;
}

void print(const char* what, std::uint32_t code) { std::printf("%s %u\n", what, code); }

void print(const char* what, std::uint32_t code, std::uint64_t word) {
  std::printf("%s %u %llu\n", what, code, wide(word));
}

void print(const char* what, std::uint32_t code, std::uint64_t first, std::uint64_t second) {
  std::printf("%s %u %llu %llu\n", what, code, wide(first), wide(second));
}

void print_bytes(const char* what, std::uint32_t code, string_view bytes) {
  std::printf("%s %u %zu %s\n", what, code, bytes.size(), hex(bytes).c_str());
}

// Prints the word that a call returns, or its refusal.
void print_word(const char* what, const std::function<std::uint64_t()>& call) try {
  print(what, HLC_OK, call());
} catch (const hlcstore::error& refused) {
  print(what, refused.code(), refused.word());
}

void print_code(const char* what, const std::function<void()>& call) try {
  call();
  print(what, HLC_OK);
} catch (const hlcstore::error& refused) {
  print(what, refused.code());
}

// Prints the number and the stamp of the item that a call returns, or its refusal; and returns whether there is one.
bool print_item(const char* what, item& made, const std::function<item()>& call) try {
  made = call();
  print(what, HLC_OK, made.number, made.stamp.word);
  return true;
} catch (const hlcstore::error& refused) {
  print(what, refused.code(), 0, refused.word());
  return false;
}

// Lets a node issue a write, and the store accept it.
void write(store& store, node& node, std::uint64_t reading, string_view key, string_view value) {
  item made;
  if (!print_item("write", made, [&] { return node.write(reading, key, value); })) return;
  print_word("accept", [&] {
    store.accept_write(made, key, value);
    return made.stamp.word;
  });
}

void report(store& store, node& node, std::uint64_t reading) {
  item made;
  print_item("report", made, [&] { return node.report(reading); });
  print_word("accept", [&] {
    store.accept_report(made);
    return made.stamp.word;
  });
}

// A snapshot that stays open.
struct kept_open {
  hlcstore::snapshot snapshot;
  ~kept_open() { snapshot.release(); }
};

// Passes the open snapshot of this id to a function; the snapshot stays open, also where the function throws.
void look(store& store, std::uint64_t id, const std::function<void(const hlcstore::snapshot&)>& call) {
  const kept_open open{store.attach_snapshot(id)};
  call(open.snapshot);
}

void read(store& store, std::uint64_t id, string_view key) try {
  look(store, id, [&](const auto& snapshot) {
    const auto value = snapshot.get(key);
    print_bytes("read", value ? HLC_OK : HLC_NO_VALUE, value.value_or(""));
  });
} catch (const hlcstore::error& refused) {
  print_bytes("read", refused.code(), "");
}

void list(store& store, std::uint64_t id) try {
  look(store, id, [](const auto& snapshot) { print_bytes("list", HLC_OK, snapshot.list()); });
} catch (const hlcstore::error& refused) {
  print_bytes("list", refused.code(), "");
}

void print_part(const char* what, std::uint32_t code, string_view bytes, std::size_t many) {
  std::printf("%s %u %zu %zu %s\n", what, code, bytes.size(), many, hex(bytes).c_str());
}

void print_part(const char* what, const hlcstore::part& part) {
  print_part(what, part.more ? HLC_MORE : HLC_OK, part.bytes, part.many);
}

// Prints the pairs of a range, as many as fit in so many bytes.
void scan(store& store, std::uint64_t id, string_view from, string_view to, std::size_t room) try {
  look(store, id, [&](const auto& snapshot) { print_part("scan", snapshot.scan(from, to, room)); });
} catch (const hlcstore::error& refused) {
  print_part("scan", refused.code(), "", 0);
}

// The same from the end of the range.
void scan_back(store& store, std::uint64_t id, string_view from, string_view to, std::size_t room) try {
  look(store, id, [&](const auto& snapshot) { print_part("back", snapshot.scan_back(from, to, room)); });
} catch (const hlcstore::error& refused) {
  print_part("back", refused.code(), "", 0);
}

// A number in so many bytes, the low one first.
string number(std::uint64_t value, std::size_t size) {
  string bytes;
  for (std::size_t at = 0; at < size; at++) bytes += static_cast<char>(value >> 8 * at);
  return bytes;
}

string sized(string_view text) { return number(text.size(), 8).append(text); }

string answer_of(const std::optional<string>& value) { return value ? '\1' + sized(*value) : string(1, '\0'); }

// Prints what changes from one snapshot to another. The call of C writes what fits in so many bytes. Here the changes
// are a range, and this puts their bytes together.
void changes(store& store, std::uint64_t before, std::uint64_t after, string_view from, std::size_t room) try {
  string bytes;
  std::size_t many = 0;
  std::uint32_t code = HLC_OK;
  look(store, before, [&](const auto& first) {
    look(store, after, [&](const auto& second) {
      for (const auto& [key, value] : first.changes(second, from)) {
        const string entry = sized(key) + answer_of(value);
        if (bytes.size() + entry.size() > room) code = HLC_MORE;
        if (code == HLC_MORE) continue;
        bytes += entry;
        many++;
      }
    });
  });
  print_part("changes", code, bytes, many);
} catch (const hlcstore::error& refused) {
  print_part("changes", refused.code(), "", 0);
}

// Prints the rows of a key above one stamp and at or below another.
void versions(const store& store, string_view key, timestamp above = {}, timestamp to = {UINT64_MAX}) {
  string bytes;
  const auto rows = store.versions(key, above, to);
  for (const auto& row : rows) bytes += number(row.stamp.word, 8) + number(row.node, 2) + answer_of(row.value);
  print_part("versions", HLC_OK, bytes, rows.size());
}

void scan_keys(store& store, std::uint64_t id, std::size_t room) try {
  look(store, id, [&](const auto& snapshot) { print_part("scan", snapshot.scan_keys("", "", room)); });
} catch (const hlcstore::error& refused) {
  print_part("scan", refused.code(), "", 0);
}

void digest(store& store, std::uint64_t id, string_view from) try {
  look(store, id, [&](const auto& snapshot) { print_bytes("digest", HLC_OK, snapshot.digest(from)); });
} catch (const hlcstore::error& refused) {
  print_bytes("digest", refused.code(), "");
}

void count(store& store, std::uint64_t id) {
  print_word("count", [&] {
    std::uint64_t many = 0;
    look(store, id, [&](const auto& snapshot) { many = snapshot.count("a", "d"); });
    return many;
  });
}

// Reads some of three keys, of which the bytes do not contain the last, with the call of hlcstore.h.
void read_all(store& store, std::uint64_t id, std::size_t many_keys, std::size_t room) {
  const hlc_place places[] = {{0, 4}, {4, 4}, {8, 1}};
  const string_view keys = "citytown";
  string out(room, '\0');
  std::size_t len, many;
  const std::uint32_t code =
      hlc_snapshot_read_all(store.raw(), id, places, many_keys, reinterpret_cast<const std::uint8_t*>(keys.data()),
                            keys.size(), reinterpret_cast<std::uint8_t*>(out.data()), room, &len, &many);
  print_part("read all", code, string_view(out).substr(0, len), many);
}

void link(const store& store, std::uint16_t node) try {
  const hlcstore::link_state link = store.link(node);
  std::printf("link 0 %llu %llu %d\n", wide(link.next), wide(link.head.word), link.retired);
} catch (const hlcstore::error& refused) {
  std::printf("link %u 0 0 0\n", refused.code());
}

void opened(const store& store, std::size_t place) {
  const auto open = store.snapshots();
  if (place < open.size()) {
    print("opened", HLC_OK, open[place].id, open[place].stamp.word);
  } else {
    print("opened", HLC_AFTER_LAST, 0, 0);
  }
}

void say(std::uint32_t answer) {
  std::printf("answer %u %s: %s\n", answer, hlcstore::error_name(answer).c_str(),
              hlcstore::error_text(answer).c_str());
}

// Lists parts of snapshots, what changes between them and the rows of a key, and asks what the store has.
void look_round(store& store) {
  scan(store, 2, "", "", 64);
  scan(store, 1, "a", "d", 64);
  scan(store, 1, "a", "", 24);
  scan(store, 1, "d", "", 64);
  scan(store, 3, "", "", 64);
  scan_keys(store, 1, 12);
  scan_keys(store, 1, 11);
  scan_keys(store, 3, 64);
  scan_back(store, 2, "", "", 64);
  scan_back(store, 1, "a", "d", 64);
  scan_back(store, 1, "", "", 24);
  scan_back(store, 1, "", "city", 64);
  scan_back(store, 3, "", "", 64);
  changes(store, 1, 2, "", 64);
  changes(store, 2, 1, "", 64);
  changes(store, 1, 2, "", 13);
  changes(store, 1, 2, "d", 64);
  changes(store, 1, 1, "", 64);
  changes(store, 1, 3, "", 64);
  versions(store, "city");
  versions(store, "city", timestamp::of(10), {timestamp::of(21).word - 1});
  versions(store, "lake");
  digest(store, 1, "");
  digest(store, 1, "d");
  digest(store, 3, "");
  read_all(store, 1, 2, 64);
  read_all(store, 1, 2, 14);
  read_all(store, 1, 3, 64);
  read_all(store, 3, 3, 64);
  count(store, 1);
  count(store, 3);
  print_word("horizon", [&] { return store.horizon().word; });
  print_word("nodes", [&] { return store.nodes(); });
  for (std::uint16_t node = 0; node < 3; node++) link(store, node);
  print_word("floor node", [&] { return store.floor_node().value(); });
  for (std::size_t place = 0; place < 3; place++) opened(store, place);
}

void print_sizes(const store& store) try {
  const hlcstore::store_sizes found = store.sizes();
  std::printf("sizes 0 %llu %llu %llu %llu\n", wide(found.rows), wide(found.keys), wide(found.key_bytes),
              wide(found.value_bytes));
} catch (const hlcstore::error& refused) {
  std::printf("sizes %u 0 0 0 0\n", refused.code());
}

// Saves the store, makes another one of the bytes, and reads it. Bytes that were cut or changed are refused.
void save(const store& from) {
  store copy;
  string saved;
  for (int i = 0; i < 2; i++) {
    saved = from.checkpoint(77);
    print("checkpoint", HLC_OK, saved.size());
  }
  const auto restore = [&](string_view bytes) { print_word("restore", [&] { return copy.restore(bytes); }); };
  restore(string_view(saved).substr(0, saved.size() - 1));
  saved[0] ^= 1;
  restore(saved);
  saved[0] ^= 1;
  restore(saved);
  restore(saved);
  print_word("rows", [&] { return copy.rows(); });
  read(copy, 1, "city");
}

void accept_log(store& store, string_view log) try {
  const hlcstore::log_answer made = store.accept_log(log);
  std::printf("items %u %zu %zu %llu\n", made.code, made.used, made.many, wide(made.word));
} catch (const hlcstore::error& refused) {
  std::printf("items %u 0 0 %llu\n", refused.code(), wide(refused.word()));
}

// Writes three items to a log, and lets another store take them from there, some of them again.
void replicate() {
  store replica;
  string log;
  const auto add = [&](const std::function<string()>& encode) {
    print_word("item", [&] {
      const string encoded = encode();
      log += encoded;
      return encoded.size();
    });
  };
  add([] { return hlcstore::encode_write({0, 0, timestamp::of(10)}, "city", "Lyon"); });
  add([] { return hlcstore::encode_report({0, 1, timestamp::of(11)}); });
  add([] { return hlcstore::encode_retire({0, 2, timestamp::of(12)}); });
  add([] { return hlcstore::encode_erase({0, 3, timestamp::of(13)}, ""); });
  print_code("open", [&] { replica.open(1); });
  accept_log(replica, string_view(log).substr(0, 32));
  accept_log(replica, string_view(log).substr(52));
  accept_log(replica, string_view(log).substr(0, 40));
  accept_log(replica, log);
  print_word("rows", [&] { return replica.rows(); });
  replica.close();
  accept_log(replica, log);
}

// Makes a node as it was before a restart, and raises its clock.
void restart() {
  item made;
  try {
    node::restore(7, {2}, 3);
  } catch (const hlcstore::error& refused) {
    print("restore", refused.code(), 0, 2);
  }
  node restored = node::restore(7, timestamp::of(10), 3);
  print("restore", HLC_OK, restored.next(), restored.last().word);
  restored.raise(timestamp::of(12, 5));
  restored.raise(timestamp::of(11));
  print_item("report", made, [&] { return restored.report(1); });
}

void accept_all(store& store, const hlcstore::item_list& items) {
  const hlcstore::list_answer made = store.accept(items);
  print("all", made.code, made.many, made.word);
}

// Lets a node issue a write and a deletion, and passes them to the store in one call, with an entry whose key is not
// there, which takes a call of hlcstore.h.
void accept_three(store& store, node& node) {
  hlcstore::item_list again;
  item written, erased;
  print_item("write", written, [&] { return node.write(40, "lake", "Como"); });
  print_item("delete", erased, [&] { return node.erase(41, "town"); });
  const hlc_entry entries[] = {
      {written.node, false, written.number, written.stamp.word, 0, 4, 4, 4},
      {erased.node, true, erased.number, erased.stamp.word, 8, 4, 0, 0},
      {node.id(), false, 0, 0, 12, 1, 0, 0},
  };
  const string_view bytes = "lakeComotown";
  std::size_t many;
  std::uint64_t word;
  const std::uint32_t code = hlc_store_accept_all(store.raw(), entries, std::size(entries),
                                                  reinterpret_cast<const std::uint8_t*>(bytes.data()), bytes.size(),
                                                  &many, &word);
  print("all", code, many, word);
  again.erase(erased, "town");
  accept_all(store, again);
}

void print_report(const char* what, const hlcstore::vacuum_report& made) {
  print(what, HLC_OK, made.stamp.word);
  print("kept", HLC_OK, made.kept, made.bytes);
  print("dropped", HLC_OK, made.dropped);
}

// Makes the certificate of the rows at or below a stamp. It has no text where that is refused.
string certificate(const store& store, timestamp stamp) try {
  const hlcstore::certified made = store.certificate(stamp);
  print("certificate", HLC_OK, made.certificate.size(), 0);
  print("kept", HLC_OK, made.kept, made.bytes);
  return made.certificate;
} catch (const hlcstore::error& refused) {
  print("certificate", refused.code(), 0, refused.word());
  return "";
}

// Lets a node join at a start that the caller names, and vacuums to a stamp below the floor (closed timestamp), which
// keeps what lies above that stamp.
void keep_above(store& store, node& node) {
  write(store, node, 39, "city", "Bern");
  report(store, node, 45);
  try {
    store.join_at(timestamp::of(40));
  } catch (const hlcstore::error& refused) {
    print("join at", refused.code(), 0, refused.word());
  }
  const hlcstore::node joined = store.join_at(timestamp::of(50));
  print("join at", HLC_OK, joined.id(), joined.last().word);
  for (const timestamp stamp : {timestamp::of(42), timestamp::of(40)}) {
    const hlcstore::answer made = store.check_vacuum(stamp);
    print("check", made.code, made.word);
  }
  print_report("vacuum to", store.vacuum_to(timestamp::of(40)));
  print_word("vacuum to", [&] { return store.vacuum_to(timestamp::of(39)).stamp.word; });
  certificate(store, timestamp::of(40));
  print_word("rows", [&] { return store.rows(); });
  print_sizes(store);
}

// Vacuums in parts of so many keys, and prints the key after which each next part goes on.
void vacuum_parts(store& store, timestamp stamp, std::size_t limit) try {
  std::optional<string> after = "";
  while (after) {
    const hlcstore::partial_vacuum made = store.vacuum_part(stamp, *after, limit);
    std::printf("part 0 %llu %llu %llu %llu %d ", wide(made.stamp.word), wide(made.kept), wide(made.bytes),
                wide(made.dropped), made.next.has_value());
    after = made.next;
    for (const char byte : after.value_or("")) std::printf("%02x", static_cast<unsigned char>(byte));
    std::printf("\n");
  }
} catch (const hlcstore::error& refused) {
  std::printf("part %u %llu 0 0 0 0 \n", refused.code(), wide(refused.word()));
}

// Vacuums key by key, and by two keys at a later stamp, after which a whole vacuum drops nothing.
void keep_in_parts(store& store, node& b, node& c) {
  write(store, c, 46, "city", "Oslo");
  write(store, c, 47, "lake", "Nemi");
  write(store, c, 48, "city", "Riga");
  report(store, b, 48);
  vacuum_parts(store, timestamp::of(49), 1);
  vacuum_parts(store, timestamp::of(47), 1);
  print_word("horizon", [&] { return store.horizon().word; });
  vacuum_parts(store, timestamp::of(46), 1);
  vacuum_parts(store, timestamp::of(48), 2);
  print_report("vacuum to", store.vacuum_to(timestamp::of(48)));
  print_sizes(store);
}

void check(string_view certificate) try {
  const hlcstore::shown found = hlcstore::check_certificate(certificate);
  std::printf("checked 0 %llu %llu 0\n", wide(found.rows), wide(found.bytes));
} catch (const hlcstore::error& refused) {
  std::printf("checked %u 0 0 %llu\n", refused.code(), wide(refused.word()));
}

// Reads with a buffer that is too short, which keeps its bytes, by the call of hlcstore.h.
void read_short(store& store, std::uint64_t id) {
  std::uint8_t out[] = "xxxxx";
  std::size_t len;
  const std::uint32_t code = hlc_snapshot_read(store.raw(), id, reinterpret_cast<const std::uint8_t*>("city"), 4, out,
                                               4, &len);
  print("short", code, len, std::equal(out, out + 5, "xxxxx"));
}

// Two nodes write, and snapshots are read.
void begin(store& store, node& a, node& b) {
  item made;
  print_code("open", [&] { store.open(0); });
  print_code("open", [&] { store.open(2); });
  print_code("open", [&] { store.open(2); });
  write(store, a, 10, "city", "Lyon");
  print_word("again", [&] {
    store.accept_write({0, 0, timestamp::of(10)}, "city", "Lyon");
    return 0;
  });
  print("check", store.check_write({0, 1, timestamp::of(11)}, "", "Lyon").code, 0);
  write(store, a, 10, "city", "Paris");
  const timestamp sent = a.send(12);
  print("send", HLC_OK, sent.word);
  print_word("receive", [&] { return b.receive(sent, 11).word; });
  report(store, b, 11);
  const timestamp floor = store.floor();
  print("floor", HLC_OK, floor.word);
  print_word("snapshot", [&] { return store.open_snapshot({floor.word + 1}).id(); });
  hlcstore::snapshot first = store.open_snapshot();
  print("snapshot", HLC_OK, first.id(), first.stamp().word);
  first.release();
  read(store, 1, "city");
  read_short(store, 1);
  read(store, 1, "town");
  read(store, 2, "city");
  write(store, b, 20, "town", "");
  print_item("delete", made, [&] { return a.erase(21, "city"); });
  print_word("accept", [&] {
    store.accept_erase(made, "city");
    return made.stamp.word;
  });
  report(store, b, 22);
  hlcstore::snapshot second = store.open_snapshot();
  print("snapshot", HLC_OK, second.id(), second.stamp().word);
  second.release();
  for (std::uint64_t id = 1; id <= 3; id++) list(store, id);
}

void close_snapshot(store& store, std::uint64_t id) {
  print_word("close", [&] {
    hlcstore::snapshot snapshot = store.attach_snapshot(id);
    snapshot.close();
    return snapshot.stamp().word;
  });
}

// Vacuums drop rows, and a certificate shows that the fewest are left. None is made where a vacuum would drop rows.
void vacuum(store& store) {
  print_report("vacuum", store.vacuum());
  read(store, 1, "city");
  close_snapshot(store, 1);
  close_snapshot(store, 1);
  const timestamp floor = store.floor();
  print("floor", HLC_OK, floor.word);
  certificate(store, floor);
  print_report("vacuum", store.vacuum());
  certificate(store, {floor.word - 1});
  certificate(store, {floor.word + 1});
  const string text = certificate(store, floor);
  std::fwrite(text.data(), 1, text.size(), stdout);
  check(text);
  check(string_view(text).substr(0, 35));
  check(string_view(text).substr(0, 4));
  print_word("rows", [&] { return store.rows(); });
  print_sizes(store);
  print_word("snapshot", [&] { return store.open_snapshot({1}).id(); });
}

// A node joins, another one retires, and items are refused.
void join_and_retire(store& store, node& a, node& b) {
  const string large(65536, '\0');
  item made;
  node c = store.join();
  print("join", HLC_OK, c.id(), c.last().word);
  write(store, c, 1, "city", "Rome");
  accept_three(store, b);
  print_item("retire", made, [&] { return a.retire(30); });
  print_word("accept", [&] {
    store.accept_retire(made);
    return made.stamp.word;
  });
  write(store, a, 31, "city", "Nice");
  print("check", store.check_report({0, 4, timestamp::of(31)}).code, 0);
  write(store, b, std::uint64_t{1} << 48, "city", "Nice");
  write(store, b, 31, string_view(large).substr(0, 256), "Nice");
  write(store, b, 31, "city", large);
  keep_above(store, c);
  keep_in_parts(store, b, c);
}

}  // namespace

int main() {
  store store;
  node a(0), b(1);
  std::printf("version %u\n", hlcstore::version() - HLC_VERSION_NUMBER);
  for (const std::uint32_t answer : {std::uint32_t{HLC_OK}, std::uint32_t{HLC_NOT_NEXT}, std::uint32_t{4},
                                     std::uint32_t{HLC_NO_CHECKPOINT}, std::uint32_t{HLC_HAS_BYTES}}) {
    say(answer);
  }
  print_word("rows", [&] { return store.rows(); });
  print_sizes(store);
  begin(store, a, b);
  look_round(store);
  save(store);
  replicate();
  restart();
  print_word("rows", [&] { return store.rows(); });
  print_sizes(store);
  vacuum(store);
  join_and_retire(store, a, b);
  print_code("close all", [&] { store.close_all(); });
  opened(store, 0);
  store.close();
  print_code("close all", [&] { store.close_all(); });
  print_word("floor", [&] { return store.floor().word; });
}
