// Where operator new fails, nothing is lost: each of its calls fails in its turn, and what needed the memory is done
// again. Valgrind looks for what a failure leaves.
#include <cstdio>
#include <cstdlib>
#include <hlcstore.hpp>
#include <new>
#include <optional>
#include <string>
#include <utility>
#include <vector>

namespace {

// How many calls of operator new succeed before one fails. Below 0 none fails.
long left_to_succeed = -1;

}  // namespace

void* operator new(std::size_t size) {
  if (left_to_succeed >= 0 && left_to_succeed-- == 0) throw std::bad_alloc();
  if (void* const place = std::malloc(size)) return place;
  throw std::bad_alloc();
}
void operator delete(void* place) noexcept { std::free(place); }
void operator delete(void* place, std::size_t) noexcept { std::free(place); }

namespace {

using hlcstore::node;
using hlcstore::store;
using std::string;
using pairs = std::vector<std::pair<string, string>>;

int wrong = 0;

void expect(bool holds, const char* what) {
  if (holds) return;
  std::printf("wrong: %s\n", what);
  wrong++;
}

// Makes calls that fail once, where operator new is called for the nth time, and are then made again.
class failing {
 public:
  explicit failing(long number) : left_(number) {}

  template <class Call>
  void make(Call call) {
    left_to_succeed = left_;
    try {
      call();
      left_ = std::exchange(left_to_succeed, -1);
    } catch (const std::bad_alloc&) {
      left_ = left_to_succeed = -1;
      failed_ = true;
      call();
    }
  }

  bool has_failed() const { return failed_; }

 private:
  long left_;
  bool failed_ = false;
};

// Passes to a function, for each call of operator new that it makes, what lets that one fail.
template <class Call>
void fail_each(Call call) {
  for (long number = 0;; number++) {
    failing once(number);
    call(once);
    if (once.has_failed()) continue;
    expect(number > 0, "operator new is called");
    return;
  }
}

// Pairs whose keys and values get longer, so that each needs memory of its own. They take three pieces.
pairs rising_pairs() {
  pairs made;
  for (int i = 0; i < 60; i++) made.emplace_back("key" + string(i, 'k'), string(40 * i, 'v'));
  return made;
}

store filled(const pairs& all) {
  store made(1);
  node writer(0);
  for (const auto& [key, value] : all) made.accept_write(writer.write(1, key, value), key, value);
  return made;
}

// Goes through a range. Each entry must come once, and in turn.
template <class Range, class Entries>
void walk(failing& once, const Range& range, const Entries& expected, const char* what) {
  Entries found;
  typename Range::iterator place;
  once.make([&] { place = range.begin(); });
  while (place != range.end() && found.size() <= expected.size()) {
    found.push_back(*place);
    once.make([&] { ++place; });
  }
  expect(found == expected, what);
}

// The same with `place++`.
template <class Range, class Entries>
void walk_by_copies(failing& once, const Range& range, const Entries& expected, const char* what) {
  Entries found;
  auto place = range.begin();
  while (place != range.end() && found.size() <= expected.size()) {
    std::optional<typename Range::iterator::previous> before;
    once.make([&] { before.emplace(place++); });
    found.push_back(**before);
  }
  expect(found == expected, what);
}

void ranges() {
  const pairs all = rising_pairs();
  std::vector<string> keys;
  for (const auto& pair : all) keys.push_back(pair.first);
  store store = filled(all);
  const hlcstore::snapshot snapshot = store.open_snapshot();
  fail_each([&](failing& once) { walk(once, snapshot.range(), all, "the pairs of a range"); });
  fail_each([&](failing& once) { walk(once, snapshot.keys(), keys, "the keys of a range"); });
  fail_each([&](failing& once) { walk_by_copies(once, snapshot.range(), all, "the pairs of a range, copied"); });
  const pairs back(all.rbegin(), all.rend());
  fail_each([&](failing& once) { walk(once, snapshot.range_back(), back, "the pairs from the end of a range"); });
  const hlcstore::snapshot empty = store.open_snapshot(hlcstore::timestamp());
  const std::vector<std::pair<string, std::optional<string>>> added(all.begin(), all.end());
  fail_each([&](failing& once) { walk(once, empty.changes(snapshot), added, "the changes in a range"); });
}

// A range of several stores, of whose pieces each comes from one of them.
void ranges_of_stores() {
  const pairs all = rising_pairs();
  std::vector<string> keys;
  for (const auto& pair : all) keys.push_back(pair.first);
  using hlcstore::division;
  for (const division& divided : {division::by_hash(3), division::by_keys({all[20].first, all[21].first})}) {
    hlcstore::ranges stores(divided, 1);
    hlcstore::machine writer = stores.machine(0);
    for (const auto& [key, value] : all) stores.write(writer, 1, key, value);
    stores.report_all(writer, 2);
    const hlcstore::ranges_snapshot snapshot = stores.open_snapshot();
    fail_each([&](failing& once) { walk(once, snapshot.range(), all, "the pairs of several stores"); });
    fail_each([&](failing& once) { walk(once, snapshot.keys(), keys, "the keys of several stores"); });
  }
}

// A range that owns its snapshot: where it can't be made, the snapshot stays as it was.
void owning_ranges() {
  const pairs all = rising_pairs();
  store store = filled(all);
  fail_each([&](failing& once) {
    hlcstore::snapshot snapshot = store.open_snapshot();
    std::vector<hlcstore::owning_pair_range> made;
    made.reserve(1);
    once.make([&] { made.push_back(std::move(snapshot).range("key that is not there", string(30, 'l'))); });
    expect(made.size() == 1 && store.snapshots().size() == 1, "a range that owns its snapshot");
  });
  expect(store.snapshots().empty(), "no snapshot is left");
}

void reads() {
  const pairs all = rising_pairs();
  store store = filled(all);
  const hlcstore::snapshot snapshot = store.open_snapshot();
  fail_each([&](failing& once) {
    std::vector<std::optional<string>> values;
    once.make([&] { values = snapshot.get_all({all[9].first, "other", all[50].first}); });
    expect(values.size() == 3 && values[0] == all[9].second && !values[1] && values[2] == all[50].second, "get_all");
    std::vector<hlcstore::key_version> versions;
    once.make([&] { versions = store.versions(all[50].first); });
    expect(versions.size() == 1 && versions[0].value == all[50].second, "versions");
    std::optional<std::pair<string, string>> last;
    once.make([&] { last = snapshot.last_below(all[50].first); });
    expect(last && *last == all[49], "the last pair below a key");
  });
}

// A batch keeps what it had where a write finds no memory, and so does the item of one that is made of bytes.
void batches() {
  const pairs all = rising_pairs();
  fail_each([&](failing& once) {
    store store(1);
    node writer(0);
    hlcstore::batch batch;
    for (const auto& pair : all) once.make([&] { batch.write(pair.first, pair.second); });
    expect(batch.size() == all.size(), "a batch");
    const hlcstore::item made = writer.write_batch(1, batch);
    store.accept_batch(made, batch);
    const hlcstore::snapshot snapshot = store.open_snapshot();
    expect(pairs(snapshot.begin(), snapshot.end()) == all, "what a batch wrote");
    string log;
    once.make([&] { log = hlcstore::encode_batch(made, batch); });
    std::string_view rest = log;
    hlcstore::owned_item read;
    once.make([&] { read = hlcstore::owned_item::decode(rest); });
    expect(read.writes == batch && rest.empty(), "a batch of bytes");
  });
}

void lists() {
  const pairs all = rising_pairs();
  fail_each([&](failing& once) {
    store store(1);
    node writer(0);
    hlcstore::item_list items;
    for (const auto& pair : all) {
      const hlcstore::item item = writer.write(1, pair.first, pair.second);
      once.make([&] { items.write(item, pair.first, pair.second); });
    }
    expect(items.size() == all.size() && store.accept(items), "a list");
    const hlcstore::snapshot snapshot = store.open_snapshot();
    expect(pairs(snapshot.begin(), snapshot.end()) == all, "what a list wrote");
  });
}

// The bytes of a certificate, of a checkpoint and of increments are freed where they can't be copied, and made again.
void outputs() {
  store store = filled(rising_pairs());
  const hlcstore::timestamp floor = store.vacuum().stamp;
  const string certificate = store.certificate(floor).certificate, saved = store.checkpoint(7);
  const string increment = store.increment(floor, 7);
  fail_each([&](failing& once) {
    string again;
    once.make([&] { again = store.certificate(floor).certificate; });
    expect(again == certificate, "a certificate");
    once.make([&] { again = store.checkpoint(7); });
    expect(again == saved, "a checkpoint");
    once.make([&] { again = store.increment(floor, 7); });
    expect(again == increment, "an increment");
    once.make([&] { again = hlcstore::apply_increment(saved, increment); });
    expect(again == saved, "a checkpoint of an increment");
  });
}

}  // namespace

int main() {
  ranges();
  ranges_of_stores();
  owning_ranges();
  reads();
  batches();
  lists();
  outputs();
  std::puts(wrong == 0 ? "all right" : "wrong");
  return wrong != 0;
}
