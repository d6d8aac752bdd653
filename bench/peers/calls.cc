// Times the calls of one store, without text: `calls table KEYS WRITES` and `calls hot VERSIONS`. Keys and values have
// 8 bytes. Writes come in the order of their stamps, to random keys. It prints names and numbers: nanoseconds of
// processor time per call (per key for a listing), milliseconds of a vacuum, and bytes of memory per row.
#include PEER

#include "measure.hh"

namespace {
constexpr uint64_t READS = 1'000'000, HOT_READS = 20'000, HOT_SNAPSHOTS = 1'000;
// The snapshots of a table are evenly spaced over its writes; one in the middle of them is read.
constexpr uint64_t SNAPSHOTS = 8, PAST = SNAPSHOTS / 2 - 1;

void put(Store& store, uint64_t key, uint64_t write) {
  char key_text[8], value_text[8];
  const string_view value = text_of(value_text, 'v', write);
  store.put(stamp_of(write), 0, text_of(key_text, 'k', key), &value);
}

void read(Store& store, uint64_t id, uint64_t stamp, string_view key) {
  string_view value;
  if (store.read(id, stamp, key, &value)) touch(value);
}

void read_some_key(Store& store, uint64_t id, uint64_t stamp, uint64_t keys) {
  char text[8];
  read(store, id, stamp, text_of(text, 'k', random_word() % keys));
}

void table(uint64_t keys, uint64_t writes) {
  std::vector<uint32_t> order(writes);
  for (uint32_t& key : order) key = random_word() % keys;
  Store store;
  const uint64_t before = resident();
  {
    Timed timed("put", writes);
    for (uint64_t i = 0; i < writes; i++) put(store, order[i], i);
    store.flush();
  }
  tell("bytes", (resident() - before) / static_cast<double>(writes));
  Points points;
  for (uint64_t id = 0; id < SNAPSHOTS; id++) {
    points.push_back(stamp_of(writes * (id + 1) / SNAPSHOTS - 1));
    store.open(id, points.back());
  }
  {
    Timed timed("newest", READS);
    for (uint64_t i = 0; i < READS; i++) read_some_key(store, SNAPSHOTS - 1, points.back(), keys);
  }
  {
    Timed timed("past", READS);
    for (uint64_t i = 0; i < READS; i++) read_some_key(store, PAST, points[PAST], keys);
  }
  const uint64_t listed = store.list(PAST, points[PAST]);
  {
    Timed timed("list", listed);
    store.list(PAST, points[PAST]);
  }
  for (const char* name : {"vacuum", "again"}) {
    Timed timed(name, 1e6);
    store.vacuum(points, points.back());
  }
}

void hot(uint64_t versions) {
  Store store;
  {
    Timed timed("put", versions);
    for (uint64_t i = 0; i < versions; i++) put(store, 0, i);
    store.flush();
  }
  const auto stamp_at = [=](uint64_t id) { return stamp_of(versions * id / HOT_SNAPSHOTS); };
  for (uint64_t id = 0; id < HOT_SNAPSHOTS; id++) store.open(id, stamp_at(id));
  store.open(HOT_SNAPSHOTS, stamp_of(versions - 1));
  char text[8];
  const string_view key = text_of(text, 'k', 0);
  {
    Timed timed("past", HOT_READS);
    for (uint64_t i = 0; i < HOT_READS; i++) {
      const uint64_t id = random_word() % HOT_SNAPSHOTS;
      read(store, id, stamp_at(id), key);
    }
  }
  Timed timed("newest", HOT_READS);
  for (uint64_t i = 0; i < HOT_READS; i++) read(store, HOT_SNAPSHOTS, stamp_of(versions - 1), key);
}
}  // namespace

int main(int argc, char** argv) {
  const auto number = [&](int at) { return std::strtoull(argv[at], nullptr, 10); };
  if (argc == 4 && string(argv[1]) == "table") {
    table(number(2), number(3));
  } else if (argc == 3 && string(argv[1]) == "hot") {
    hot(number(2));
  } else {
    give_up("calls table KEYS WRITES | hot VERSIONS");
  }
  std::_Exit(std::fflush(stdout));
}
