// Several stores with one key space: each decision, and then machines, readers and a vacuum in threads, beside a model.
// The words, if there are any, are how many turns the threads take, and `threads` where only some of these shall run.
#include <algorithm>
#include <atomic>
#include <chrono>
#include <condition_variable>
#include <cstdio>
#include <cstdlib>
#include <deque>
#include <dlfcn.h>
#include <functional>
#include <hlcstore.hpp>
#include <map>
#include <mutex>
#include <optional>
#include <pthread.h>
#include <random>
#include <stdexcept>
#include <string>
#include <string_view>
#include <thread>
#include <type_traits>
#include <utility>
#include <vector>

namespace {

using hlcstore::division;
using hlcstore::machine;
using hlcstore::ranges;
using hlcstore::ranges_snapshot;
using hlcstore::routed_item;
using hlcstore::timestamp;
using std::string;
using std::string_view;
using pairs = std::vector<std::pair<string, string>>;

std::atomic<int> wrong = 0;

#define EXPECT(condition) expect(condition, #condition, __LINE__)

void expect(bool holds, const char* condition, int line) {
  if (holds) return;
  std::printf("line %d: %s\n", line, condition);
  wrong++;
}

// Makes a call, and returns the number of its refusal.
template <class Call>
std::uint32_t refusal_of(Call call) {
  try {
    call();
  } catch (const hlcstore::error& refused) {
    return refused.code();
  }
  return HLC_OK;
}

// Whether a call throws an exception of this type.
template <class Exception, class Call>
bool throws(Call call) {
  try {
    call();
  } catch (const Exception&) {
    return true;
  }
  return false;
}

pairs listed(const ranges_snapshot& snapshot) { return pairs(snapshot.begin(), snapshot.end()); }

timestamp at(std::uint64_t physical, std::uint64_t counter = 0) { return timestamp::of(physical, counter); }

// What another thread does wherever this one has just given back the lock of a store.
std::function<void()> between;

// Makes a call, and what another thread does wherever it holds no lock.
template <class Call>
auto beside(std::function<void()> other, Call call) {
  between = std::move(other);
  auto made = call();
  between = nullptr;
  return made;
}

}  // namespace

// Comes before that of the C library, which the locks of the standard library call.
extern "C" int pthread_rwlock_unlock(pthread_rwlock_t* lock) noexcept {
  static const auto unlock = reinterpret_cast<int (*)(pthread_rwlock_t*)>(dlsym(RTLD_NEXT, "pthread_rwlock_unlock"));
  const int answer = unlock(lock);
  if (!between) return answer;
  std::function<void()> turn = std::exchange(between, nullptr);
  turn();
  between = std::move(turn);
  return answer;
}

namespace {

void divisions() {
  const division keys = division::by_keys({"g", "n", "t"});
  EXPECT(keys.stores() == 4 && keys.is_by_keys());
  EXPECT(keys.store_of("") == 0 && keys.store_of("f\xff") == 0 && keys.store_of("g") == 1 && keys.store_of("m~") == 1);
  EXPECT(keys.store_of("n") == 2 && keys.store_of("t") == 3 && keys.store_of(string_view("t\0", 2)) == 3);
  // Bytes are compared without a sign.
  EXPECT(keys.store_of("\x80") == 3 && division::by_keys({"\x80"}).store_of("~") == 0);
  EXPECT(division::by_keys({}).stores() == 1 && division::by_keys({}).store_of("any") == 0);
  EXPECT(throws<std::invalid_argument>([] { division::by_keys({"b", "a"}); }));
  EXPECT(throws<std::invalid_argument>([] { division::by_keys({"a", "a"}); }));
  // FNV-1a of some keys, from its authors' table.
  const std::pair<string_view, std::uint64_t> hashes[] = {{"", 0xcbf29ce484222325},
                                                          {"a", 0xaf63dc4c8601ec8c},
                                                          {"b", 0xaf63df4c8601f1a5},
                                                          {"foobar", 0x85944171f73967e8},
                                                          {string_view("\xff\0\0\1", 4), 0x6961196491cc682d}};
  for (const std::size_t stores : {1u, 2u, 7u, 64u, 1000u, 1024u}) {
    const division large = division::by_hash(stores);
    EXPECT(large.stores() == stores && !large.is_by_keys());
    for (const auto& hash : hashes) EXPECT(large.store_of(hash.first) == hash.second % stores);
  }
  EXPECT(throws<std::invalid_argument>([] { division::by_hash(0); }));
  EXPECT(throws<std::invalid_argument>([] { division::by_hash(1025); }));
}

// Each store gets the items of its own keys alone.
void routes() {
  ranges stores(division::by_keys({"g", "n"}), 2);
  machine first = stores.machine(0);
  EXPECT(stores.stores() == 3 && stores.nodes() == 2 && first.id() == 0 && first.last() == timestamp());
  const routed_item made = first.write(10, "g", "x");
  EXPECT(made.store == 1 && made.item.stamp == at(10) && made.item.node == 0 && made.item.number == 0);
  EXPECT(made.item.key == "g" && made.item.value == "x" && made.item.kind == hlcstore::item_kind::write);
  EXPECT(throws<hlcstore::wrong_store>([&] { stores.accept(0, made.item); }));
  EXPECT(throws<hlcstore::wrong_store>([&] { stores.accept(2, made.item); }));
  EXPECT(throws<std::out_of_range>([&] { stores.accept(3, made.item); }));
  EXPECT(stores.rows() == 0 && stores.store_at(0).link(0).next == 0);
  stores.accept(made);
  EXPECT(stores.rows() == 1 && stores.store_at(1).rows() == 1);
  EXPECT(refusal_of([&] { stores.accept(made); }) == HLC_NOT_NEXT);
  const routed_item gone = first.erase(5, "a");
  EXPECT(gone.store == 0 && gone.item.stamp == at(10, 1) && gone.item.number == 0);
  EXPECT(throws<hlcstore::wrong_store>([&] { stores.accept(1, gone.item); }));
  stores.accept(gone);
  EXPECT(refusal_of([&] { first.write(20, "", "x"); }) == HLC_BAD_KEY && first.last() == at(10, 1));
  // Where the store refuses, the machine is as it was.
  machine stale = stores.machine(1);
  stores.write(stale, 30, "a", "y");
  machine copy = stores.machine(0);
  stores.write(copy, 31, "h", "z");
  EXPECT(refusal_of([&] { stores.write(first, 40, "i", "z"); }) == HLC_NOT_NEXT && first.last() == at(10, 1));
  EXPECT(throws<std::out_of_range>([&] {
    machine other(division::by_hash(1), 0);
    stores.write(other, 40, "z", "");
  }));
}

// A batch is of one store: of another, or of several, it is refused, and nothing is issued.
void batches() {
  ranges stores(division::by_keys({"g", "n"}), 1);
  machine writer = stores.machine(0);
  hlcstore::batch low, both, none;
  low.write("a", "x");
  low.write("b", "y");
  low.erase("f");
  both.write("a", "x");
  both.erase("g");
  EXPECT(throws<hlcstore::wrong_store>([&] { writer.write_batch(5, both); }));
  EXPECT(throws<hlcstore::wrong_store>([&] { stores.write_batch(writer, 5, both); }));
  EXPECT(refusal_of([&] { writer.write_batch(5, none); }) == HLC_NO_WRITES);
  EXPECT(refusal_of([&] { stores.write_batch(writer, 5, none); }) == HLC_NO_WRITES);
  EXPECT(writer.last() == timestamp() && writer.report_all(1)[0].item.number == 0);
  writer = stores.machine(0);
  const routed_item made = writer.write_batch(5, low);
  EXPECT(made.store == 0 && made.item.number == 0 && made.item.stamp == at(5) && made.item.writes == low);
  EXPECT(made.item.kind == hlcstore::item_kind::batch && made.item.key.empty());
  EXPECT(throws<hlcstore::wrong_store>([&] { stores.accept(1, made.item); }));
  routed_item other = made;
  other.item.writes = both;
  EXPECT(throws<hlcstore::wrong_store>([&] { stores.accept(other); }) && stores.rows() == 0);
  stores.accept(made);
  EXPECT(stores.rows() == 3 && refusal_of([&] { stores.accept(made); }) == HLC_NOT_NEXT);
  hlcstore::batch high;
  high.write("n", "z");
  high.write("z", "z");
  EXPECT(stores.write_batch(writer, 5, high) == at(5, 1) && writer.last() == at(5, 1));
  high.write("z", "again");
  EXPECT(refusal_of([&] { stores.write_batch(writer, 6, high); }) == HLC_KEY_TWICE && writer.last() == at(5, 1));
  stores.report_all(writer, 9);
  EXPECT((listed(stores.open_snapshot()) == pairs{{"a", "x"}, {"b", "y"}, {"n", "z"}, {"z", "z"}}));
  EXPECT(listed(stores.open_snapshot(at(4))).empty() && stores.open_snapshot(at(5)).count() == 2);
  // Where the store refuses, the machine is as it was.
  machine stale = stores.machine(0);
  stores.write(writer, 10, "a", "y");
  const timestamp last = stale.last();
  EXPECT(refusal_of([&] { stores.write_batch(stale, 20, low); }) == HLC_NOT_NEXT && stale.last() == last);
}

// One clock for all stores, and the least floor as the cut.
void clocks_and_cuts() {
  ranges stores(division::by_keys({"g", "n"}), 2);
  machine first = stores.machine(0), second = stores.machine(1);
  EXPECT(stores.write(first, 10, "a", "1") == at(10) && stores.write(first, 10, "h", "2") == at(10, 1));
  EXPECT(stores.write(first, 9, "z", "3") == at(10, 2) && first.last() == at(10, 2));
  EXPECT(second.receive(first.send(11), 3) == at(11, 1));
  EXPECT(stores.write(second, 4, "b", "4") == at(11, 2) && second.observe(at(15), 12) == at(15, 1));
  EXPECT(stores.cut() == timestamp());
  const std::vector<routed_item> reports = first.report_all(20);
  EXPECT(reports.size() == 3 && reports[2].store == 2 && reports[2].item.stamp == at(20, 2));
  for (const routed_item& report : reports) stores.accept(report);
  EXPECT(stores.cut() == timestamp() && stores.floor(0) == at(11, 2));
  stores.report_all(second, 20);
  EXPECT(stores.floor(0) == at(20) && stores.floor(1) == at(20, 1) && stores.floor(2) == at(20, 2));
  EXPECT(stores.cut() == at(20));
  EXPECT(refusal_of([&] { stores.open_snapshot(at(20, 1)); }) == HLC_ABOVE_FLOOR);
  EXPECT(stores.open_snapshot().stamp() == at(20) && stores.open_snapshot(at(20)).count() == 4);
  // A report at a reading that is too large is refused for all stores.
  EXPECT(refusal_of([&] { first.report_all(std::uint64_t{1} << 48); }) == HLC_READING_TOO_LARGE);
  EXPECT(first.last() == at(20, 2) && first.report_all(20)[0].item.number == 2);
}

// Two stores, of which the second is changed by itself, as a call of ranges does that finds no memory for the first.
template <class Change>
ranges uneven(Change change) {
  ranges stores(division::by_keys({"g"}), 1);
  machine only = stores.machine(0);
  stores.write(only, 1, "a", "x");
  stores.report_all(only, 5);
  change(const_cast<hlcstore::shared_store&>(stores.store_at(1)));
  return stores;
}

// Where one store refuses, the snapshot is open in none, and the vacuum goes on from where it was.
void one_store_refuses() {
  ranges stores = uneven([](hlcstore::shared_store& second) { second.vacuum_to(at(4)); });
  EXPECT(refusal_of([&] { stores.open_snapshot(at(3)); }) == HLC_BELOW_HORIZON);
  EXPECT(stores.store_at(0).snapshots().empty() && stores.store_at(1).snapshots().empty());
  EXPECT(stores.open_snapshot(at(4)).count() == 1);
  EXPECT(refusal_of([&] { stores.vacuum_to(at(3)); }) == HLC_BELOW_HORIZON && stores.store_at(0).horizon() == at(3));
  EXPECT(stores.vacuum_to(at(4)).kept == 1 && stores.store_at(0).horizon() == at(4));
  // A join that only the second store has: the next one is of the first store alone, at a start that serves both.
  ranges joined = uneven([](hlcstore::shared_store& second) { second.join_at(at(8)); });
  EXPECT(joined.nodes() == 1 && refusal_of([&] { joined.machine(1); }) == HLC_NO_NODE);
  // What restore would refuse is not saved.
  EXPECT(refusal_of([&] { joined.checkpoint(); }) == HLC_NO_NODE);
  const machine late = joined.join();
  EXPECT(late.id() == 1 && late.last() == at(8) && joined.nodes() == 2 && joined.store_at(1).nodes() == 2);
  EXPECT(joined.store_at(0).link(1).head == at(8) && joined.join().id() == 2);
  EXPECT(ranges::restore(joined.division(), joined.checkpoint()).nodes() == 3);
}

void opens_and_vacuums() {
  ranges stores(division::by_keys({"g"}), 1);
  machine only = stores.machine(0);
  stores.write(only, 1, "a", "x");
  stores.report_all(only, 5);
  stores.vacuum_to(at(2));
  EXPECT(stores.store_at(1).horizon() == at(2));
  EXPECT(refusal_of([&] { stores.open_snapshot(at(1)); }) == HLC_BELOW_HORIZON);
  EXPECT(refusal_of([&] { stores.vacuum_to(at(1)); }) == HLC_BELOW_HORIZON);
  EXPECT(stores.vacuum_to(at(100)).stamp == at(5) && stores.store_at(1).horizon() == at(5));
  std::vector<ranges_snapshot> open;
  for (int many = 0; many < 1024; many++) open.push_back(stores.open_snapshot());
  EXPECT(refusal_of([&] { stores.open_snapshot(); }) == HLC_TOO_MANY_SNAPSHOTS);
  EXPECT(stores.store_at(0).snapshots().size() == 1024 && stores.store_at(1).snapshots().size() == 1024);
  open.clear();
  EXPECT(stores.store_at(0).snapshots().empty() && stores.store_at(1).snapshots().empty());
}

// Scans in key order over the stores, of any division, and of pieces that end anywhere.
void scans() {
  for (const division& divided : {division::by_keys({"key003", "key0500", "key09"}), division::by_hash(7),
                                  division::by_keys({}), division::by_keys({"a", "b", "z"})}) {
    ranges stores(divided, 1);
    machine writer = stores.machine(0);
    std::map<string, string> expected;
    for (int i = 0; i < 1000; i += 1) {
      char key[16];
      std::snprintf(key, sizeof key, "key%04d", i * 7 % 1000);
      expected[key] = string(i % 50 == 0 ? 20000 : i % 40, 'v');
      stores.write(writer, 1, key, expected[key]);
    }
    stores.report_all(writer, 2);
    const ranges_snapshot snapshot = stores.open_snapshot();
    EXPECT(listed(snapshot) == pairs(expected.begin(), expected.end()) && snapshot.count() == 1000);
    const auto low = expected.lower_bound("key0299"), high = expected.lower_bound("key0501");
    EXPECT(snapshot.count("key0299", "key0501") == 202);
    pairs found;
    for (const auto& pair : snapshot.range("key0299", "key0501")) found.push_back(pair);
    EXPECT(found == pairs(low, high));
    auto next = low;
    for (const string& key : snapshot.keys("key0299", "key0501")) EXPECT(key == (next++)->first);
    EXPECT(next == high);
    const auto none = snapshot.range("key0501", "key0299");
    EXPECT(none.begin() == none.end() && snapshot.range("l").begin() == snapshot.end());
    EXPECT(snapshot.get("key0007") == expected["key0007"] && !snapshot.get("key"));
  }
}

void joins_and_retirements() {
  ranges stores(division::by_keys({"g"}), 1);
  machine first = stores.machine(0);
  stores.report_all(first, 5);
  machine second = stores.join();
  EXPECT(second.id() == 1 && second.last() == at(5, 1) && stores.nodes() == 2);
  for (std::size_t store = 0; store < 2; store++) EXPECT(stores.store_at(store).link(1).head == at(5, 1));
  EXPECT(stores.write(second, 1, "a", "x") == at(5, 2));
  EXPECT(refusal_of([&] { stores.machine(2); }) == HLC_NO_NODE);
  stores.report_all(first, 9);
  EXPECT(stores.cut() == at(5, 1));
  // The retirement from one store alone is accepted before a restart. The machine reports to the other one then, so
  // that the cut rises, and retires from it.
  const std::vector<routed_item> last = second.retire_all(10);
  EXPECT(last.size() == 2 && last[1].item.kind == hlcstore::item_kind::retire && second.retire_all(11).empty());
  EXPECT(refusal_of([&] { second.report_all(11); }) == HLC_RETIRED);
  EXPECT(refusal_of([&] { stores.report_all(second, 11); }) == HLC_RETIRED);
  EXPECT(refusal_of([&] { second.write(11, "a", ""); }) == HLC_RETIRED);
  stores.accept(last[0]);
  machine again = stores.machine(1, last[1].item.stamp);
  EXPECT(again.last() == last[1].item.stamp);
  const std::vector<routed_item> left = again.report_all(11);
  EXPECT(left.size() == 1 && left[0].store == 1 && left[0].item.kind == hlcstore::item_kind::report);
  stores.accept(left[0]);
  stores.report_all(again, 12);
  EXPECT(stores.store_at(1).link(1).head == at(12) && stores.cut() == at(9));
  stores.retire_all(again, 1);
  EXPECT(stores.store_at(0).link(1).retired && stores.store_at(1).link(1).retired && stores.cut() == at(9));
  while (stores.nodes() < 1024) stores.join();
  EXPECT(refusal_of([&] { stores.join(); }) == HLC_TOO_MANY_NODES && stores.store_at(1).nodes() == 1024);
}

// Checkpoints of all stores, restored with machines that go on.
void restarts() {
  const division divided = division::by_hash(3);
  ranges stores(divided, 2);
  machine first = stores.machine(0), second = stores.machine(1);
  for (int i = 0; i < 100; i++) stores.write(i % 2 == 0 ? first : second, i, "key" + std::to_string(i), "x");
  stores.report_all(first, 200);
  stores.report_all(second, 200);
  const ranges_snapshot before = stores.open_snapshot();
  const std::vector<string> saved = stores.checkpoint();
  EXPECT(throws<std::invalid_argument>([&] { ranges::restore(division::by_hash(2), saved); }));
  EXPECT(refusal_of([&] { ranges::restore(divided, {saved[0], saved[1], "no"}); }) == HLC_BAD_BYTES);
  const string other = ranges(divided, 3).checkpoint()[2];
  EXPECT(throws<std::invalid_argument>([&] { ranges::restore(divided, {saved[0], saved[1], other}); }));
  ranges restored = ranges::restore(divided, saved);
  EXPECT(restored.cut() == stores.cut() && restored.store_at(2).snapshots().empty());
  EXPECT(listed(restored.open_snapshot(before.stamp())) == listed(before));
  machine again = restored.machine(0, at(300));
  EXPECT(restored.write(again, 1, "a", "y") == at(300, 1) && restored.machine(1).last() == second.last());
  // A snapshot that outlives its stores, and one that is closed.
  {
    const ranges moved = std::move(stores);
    EXPECT(before.count() == 100);
  }
  EXPECT(refusal_of([&] { before.get("key1"); }) == HLC_CLOSED);
  ranges_snapshot closed = restored.open_snapshot(before.stamp());
  closed.close();
  closed.close();
  EXPECT(refusal_of([&] { closed.count(); }) == HLC_NO_SNAPSHOT);
  EXPECT(refusal_of([&] { closed.get("a"); }) == HLC_NO_SNAPSHOT);
  EXPECT(refusal_of([&] { closed.range(); }) == HLC_NO_SNAPSHOT && restored.store_at(0).snapshots().empty());
  closed = restored.open_snapshot();
  EXPECT(closed.count() == 100 && restored.store_at(1).snapshots().size() == 1);
}

// A checkpoint, and at one place in it where it holds no lock, in its turn, what another thread does. What is restored
// is read at the cut that is the tag, and lets the next machine write.
void checkpoint_beside(const std::function<void(ranges&, machine&)>& other) {
  const division divided = division::by_keys({"g", "n"});
  bool came = true;
  for (int place = 0; came; place++) {
    ranges stores(divided, 1);
    machine first = stores.machine(0);
    stores.write(first, 1, "a", "x");
    stores.write(first, 2, "z", "y");
    stores.report_all(first, 5);
    came = false;
    const auto once = [&, left = place]() mutable {
      if (left-- != 0) return;
      came = true;
      other(stores, first);
    };
    const std::vector<string> saved = beside(once, [&] { return stores.checkpoint(); });
    ranges restored = ranges::restore(divided, saved);
    const timestamp tag{hlcstore::store().restore(saved[0])};
    for (std::size_t store = 0; store < 3; store++) EXPECT(restored.store_at(store).nodes() == restored.nodes());
    EXPECT(refusal_of([&] { restored.open_snapshot(); }) == HLC_OK);
    EXPECT(refusal_of([&] { restored.open_snapshot(tag); }) == HLC_OK && tag >= at(5));
    machine next = restored.join();
    EXPECT(refusal_of([&] { restored.write(next, 20, "a", ""); }) == HLC_OK);
    EXPECT(came || place > 3);
  }
}

void checkpoints_beside_others() {
  checkpoint_beside([](ranges& stores, machine&) {
    machine late = stores.join();
    stores.write(late, 9, "h", "z");
  });
  const auto vacuum = [](ranges& stores, machine& first) {
    stores.report_all(first, first.last().physical() + 1);
    stores.vacuum_to(stores.cut());
  };
  checkpoint_beside(vacuum);
  // Where machines join without end, until there are as many as may be, it goes on; but not beside vacuums.
  ranges stores(division::by_hash(2), 1);
  machine first = stores.machine(0);
  const auto join = [&] {
    if (stores.nodes() < 1024) stores.join();
  };
  const std::vector<string> saved = beside(join, [&] { return stores.checkpoint(); });
  EXPECT(ranges::restore(stores.division(), saved).nodes() == 1024);
  ranges others(division::by_hash(2), 1);
  const auto checkpoint = [&] { return refusal_of([&] { others.checkpoint(); }); };
  EXPECT(beside([&] { vacuum(others, first); }, checkpoint) == HLC_BELOW_HORIZON && checkpoint() == HLC_OK);
}

void ownership() {
  static_assert(std::is_nothrow_move_assignable_v<ranges> && !std::is_copy_constructible_v<ranges>);
  static_assert(std::is_nothrow_move_constructible_v<ranges_snapshot> &&
                std::is_nothrow_move_assignable_v<ranges_snapshot>);
  static_assert(!std::is_copy_constructible_v<ranges_snapshot> && std::is_copy_constructible_v<machine>);
}

// ---- Machines in threads beside a model ----

// What was written, and how far the machines have come. A write stands in the model before its store has it.
class model {
 public:
  void add(const string& key, timestamp stamp, std::uint16_t node, std::optional<string> value) {
    const std::lock_guard lock(mutex_);
    writes_[key][{stamp.word, node}] = std::move(value);
  }

  // The pairs at a stamp, up to which all writes are there.
  pairs at(timestamp stamp) const {
    const std::lock_guard lock(mutex_);
    pairs found;
    for (const auto& [key, versions] : writes_) {
      const auto later = versions.upper_bound({stamp.word, UINT16_MAX});
      if (later == versions.begin()) continue;
      const auto& value = std::prev(later)->second;
      if (value) found.emplace_back(key, *value);
    }
    return found;
  }

 private:
  mutable std::mutex mutex_;
  std::map<string, std::map<std::pair<std::uint64_t, std::uint16_t>, std::optional<string>>> writes_;
};

// Messages between machines.
class mailbox {
 public:
  void put(timestamp stamp) {
    const std::lock_guard lock(mutex_);
    stamps_.push_back(stamp);
  }
  std::optional<timestamp> take() {
    const std::lock_guard lock(mutex_);
    if (stamps_.empty()) return std::nullopt;
    const timestamp stamp = stamps_.front();
    stamps_.pop_front();
    return stamp;
  }

 private:
  std::mutex mutex_;
  std::deque<timestamp> stamps_;
};

struct world {
  ranges stores;
  model past;
  std::vector<mailbox> mail;
  std::atomic<bool> ended = false;
};

string random_key(std::mt19937& random) { return "key" + std::to_string(random() % 40); }

// A batch of some random keys of one store.
hlcstore::batch random_batch(const ranges& stores, std::mt19937& random, const string& value) {
  std::map<string, bool> writes = {{random_key(random), random() % 4 == 0}};
  const std::size_t store = stores.store_of(writes.begin()->first);
  for (int more = 0; more < 8; more++) {
    const string key = random_key(random);
    if (stores.store_of(key) == store) writes[key] = random() % 4 == 0;
  }
  hlcstore::batch made;
  for (const auto& [key, erases] : writes) {
    if (erases) {
      made.erase(key);
    } else {
      made.write(key, value);
    }
  }
  return made;
}

// Lets a machine act at random. Its items go to the stores by themselves, or wait in the order of their links.
void act(world& all, std::uint16_t id, int turns) {
  std::mt19937 random(id);
  machine acting = all.stores.machine(id);
  std::vector<std::deque<hlcstore::owned_item>> links(all.stores.stores());
  const auto deliver = [&](std::size_t store, std::size_t left) {
    for (; links[store].size() > left; links[store].pop_front()) all.stores.accept(store, links[store].front());
  };
  const auto keep = [&](routed_item made) { links[made.store].push_back(std::move(made.item)); };
  for (int turn = 0; turn < turns; turn++) {
    const std::uint64_t reading = random() % 3 == 0 ? 0 : static_cast<std::uint64_t>(turn) / 4;
    const std::uint32_t kind = random() % 16;
    if (kind < 4) {
      routed_item made = acting.write_batch(reading, random_batch(all.stores, random, std::to_string(turn)));
      for (const hlcstore::batch_write& write : made.item.writes) {
        const auto value = write.value ? std::optional(string(*write.value)) : std::nullopt;
        all.past.add(string(write.key), made.item.stamp, id, value);
      }
      keep(std::move(made));
    } else if (kind < 11) {
      const string key = random_key(random);
      const bool erases = kind == 4;
      routed_item made = erases ? acting.erase(reading, key) : acting.write(reading, key, std::to_string(turn));
      all.past.add(key, made.item.stamp, id, erases ? std::nullopt : std::optional(made.item.value));
      keep(std::move(made));
    } else if (kind == 11) {
      all.mail[random() % all.mail.size()].put(acting.send(reading));
    } else if (kind == 12) {
      if (const auto seen = all.mail[id].take()) EXPECT(acting.receive(*seen, reading) > *seen);
    } else if (kind == 13) {
      const ranges_snapshot open = all.stores.open_snapshot();
      EXPECT(acting.observe(open.stamp(), reading) > open.stamp());
    } else {
      for (routed_item& report : acting.report_all(reading)) keep(std::move(report));
    }
    deliver(random() % links.size(), random() % 4);
  }
  for (std::size_t store = 0; store < links.size(); store++) deliver(store, 0);
  all.stores.report_all(acting, static_cast<std::uint64_t>(turns));
}

// Opens snapshots at the cut and below it, whose answers are the model's, and stay.
void look(world& all, unsigned seed) {
  std::mt19937 random(seed);
  timestamp last;
  while (!all.ended) {
    const ranges_snapshot open = all.stores.open_snapshot();
    EXPECT(open.stamp() >= last);
    last = open.stamp();
    const pairs expected = all.past.at(open.stamp());
    EXPECT(listed(open) == expected && open.count() == expected.size());
    const string key = random_key(random);
    const auto is_it = [&](const auto& pair) { return pair.first == key; };
    const auto found = std::find_if(expected.begin(), expected.end(), is_it);
    EXPECT(open.get(key) == (found == expected.end() ? std::nullopt : std::optional(found->second)));
    std::this_thread::yield();
    EXPECT(listed(open) == expected);
  }
}

void vacuum_on(world& all) {
  while (!all.ended) {
    all.stores.vacuum_to(all.stores.cut(), 5);
    std::this_thread::yield();
  }
}

void threads(division divided, std::uint16_t machines, int turns) {
  world all{ranges(std::move(divided), machines), {}, std::vector<mailbox>(machines)};
  std::vector<std::thread> writers, others;
  for (std::uint16_t id = 0; id < machines; id++) writers.emplace_back([&all, id, turns] { act(all, id, turns); });
  for (unsigned seed = 0; seed < 2; seed++) others.emplace_back([&all, seed] { look(all, seed); });
  others.emplace_back([&all] { vacuum_on(all); });
  for (std::thread& writer : writers) writer.join();
  all.ended = true;
  for (std::thread& other : others) other.join();
  const ranges_snapshot open = all.stores.open_snapshot();
  EXPECT(open.stamp() >= at(static_cast<std::uint64_t>(turns)) && listed(open) == all.past.at(open.stamp()));
}

}  // namespace

int main(int count, char** words) {
  const int turns = count > 1 ? std::atoi(words[1]) : 2000;
  threads(division::by_keys({"key19", "key28", "key5"}), 3, turns);
  if (count < 3) {
    threads(division::by_hash(5), 4, turns);
    threads(division::by_hash(1), 2, turns);
    divisions();
    routes();
    batches();
    clocks_and_cuts();
    one_store_refuses();
    opens_and_vacuums();
    scans();
    joins_and_retirements();
    restarts();
    checkpoints_beside_others();
    ownership();
  }
  std::puts(wrong == 0 ? "all right" : "wrong");
  return wrong != 0;
}
