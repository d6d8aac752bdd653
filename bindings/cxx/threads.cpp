// Four threads read a shared store, each in snapshots of its own, while a fifth one writes and vacuums. Each answer is
// checked. Then readers let a writer pass, also where two have each slot; readers run beside each other, more than
// there are slots, and between the parts of a vacuum; changes wait for readers, and for a stream that a checkpoint is
// written to, which readers do not; what throws leaves no lock behind; and stores end beside their readers. The word,
// if there is one, is how often a reader looks.
//
// In round r the value of each key is r, and one list of items writes them all. So in a snapshot all values are alike.
#include <algorithm>
#include <atomic>
#include <chrono>
#include <cstdio>
#include <cstdlib>
#include <functional>
#include <hlcstore.hpp>
#include <memory>
#include <new>
#include <optional>
#include <ostream>
#include <stdexcept>
#include <streambuf>
#include <string>
#include <thread>
#include <utility>
#include <vector>

// The locks of the standard library do not tell helgrind where they end. So their memory, which alone is aligned by
// more than usual, is not used again.
void operator delete(void*, std::align_val_t) noexcept {}
void operator delete(void*, std::size_t, std::align_val_t) noexcept {}

namespace {

using namespace std::chrono_literals;
using hlcstore::change_range;
using hlcstore::shared_snapshot;
using hlcstore::shared_store;
using hlcstore::timestamp;
using std::chrono::steady_clock;

constexpr int keys = 50;

// Writes so many keys by one list of items, with the value of a round, and returns whether the store accepted them.
bool write_round(hlcstore::store& store, hlcstore::node& writer, int many, std::uint64_t round) {
  hlcstore::item_list items;
  for (int key = 0; key < many; key++) {
    const std::string name = "key" + std::to_string(key), value = std::to_string(round);
    items.write(writer.write(round, name, value), name, value);
  }
  return static_cast<bool>(store.accept(items));
}

// Writes all keys again until the readers have ended.
void write_rounds(shared_store& shared, const std::atomic<bool>& ended) {
  hlcstore::node writer(0);
  bool accepted = true;
  for (std::uint64_t round = 1; accepted && !ended; round++) {
    accepted = shared.change([&](hlcstore::store& store) {
      const bool made = write_round(store, writer, keys, round);
      if (round % 4 == 0) store.vacuum();
      return made;
    });
  }
}

// Whether a snapshot has all keys with one value, by each way to read them.
bool is_whole(const hlcstore::snapshot& snapshot) {
  const auto value = snapshot.get("key0");
  std::uint64_t many = 0;
  if (!value) return snapshot.count() == 0;
  for (const auto& [key, other] : snapshot) {
    if (other != *value || snapshot.get(key) != value) return false;
    many++;
  }
  for (const auto& pair : snapshot.range_back()) {
    if (pair.second != *value) return false;
    many--;
  }
  return many == 0 && snapshot.count() == keys && snapshot.changes(snapshot).begin() == change_range::iterator();
}

timestamp floor_of(const hlcstore::store& store) { return store.floor(); }

std::string digest_of(const hlcstore::snapshot& snapshot) { return snapshot.digest(); }

// Opens a snapshot at the stamp of the floor; at a later one where a vacuum went past that before.
shared_snapshot open_at_stamp(shared_store& shared) {
  for (;;) {
    try {
      return shared.open_snapshot(shared.read(floor_of));
    } catch (const hlcstore::error& refused) {
      if (refused.code() != HLC_BELOW_HORIZON) throw;
    }
  }
}

// Checks snapshots, of which half were opened at a stamp.
void look(shared_store& shared, int rounds, int& wrong) {
  for (int round = 0; round < rounds; round++) {
    const shared_snapshot snapshot = round % 2 == 0 ? shared.open_snapshot() : open_at_stamp(shared);
    const std::string before = snapshot.read(digest_of);
    if (!snapshot.read(is_whole)) wrong++;
    if (shared.read(floor_of) < snapshot.read([](const auto& open) { return open.stamp(); })) wrong++;
    if (snapshot.read(digest_of) != before) wrong++;
  }
}

// Returns how many answers were wrong.
int read_beside_a_writer(int rounds) {
  shared_store shared{hlcstore::store(1)};
  std::vector<int> wrong(4, 0);
  std::vector<std::thread> readers;
  std::atomic<bool> ended = false;
  std::thread writer([&] { write_rounds(shared, ended); });
  for (int& mistakes : wrong) readers.emplace_back([&] { look(shared, rounds, mistakes); });
  for (std::thread& reader : readers) reader.join();
  ended = true;
  writer.join();
  int all = shared.read([](const hlcstore::store& store) { return store.snapshots().empty() ? 0 : 1; });
  for (const int mistakes : wrong) all += mistakes;
  return all;
}

// So many threads always read, in turns that overlap. A writer makes ten changes meanwhile. Returns whether it did
// before the readers gave up.
bool readers_let_a_writer_pass(int all, int many) {
  hlcstore::store filled(1);
  hlcstore::node writer(0);
  write_round(filled, writer, many, 1);
  shared_store shared(std::move(filled));
  const shared_snapshot snapshot = shared.open_snapshot();
  const std::string digest = snapshot.read(digest_of);
  const auto end = steady_clock::now() + 20s;
  std::atomic<bool> ended = false, wrong = false;
  std::vector<std::thread> readers;
  for (int number = 0; number < all; number++) {
    readers.emplace_back([&] {
      while (!ended && steady_clock::now() < end) wrong = wrong || snapshot.read(digest_of) != digest;
    });
  }
  for (std::uint64_t reading = 2; reading < 12; reading++) {
    shared.change([&](hlcstore::store& store) { store.accept_report(writer.report(reading)); });
  }
  ended = true;
  const bool in_time = steady_clock::now() < end;
  for (std::thread& reader : readers) reader.join();
  return in_time && !wrong && shared.read(floor_of) == timestamp::of(11);
}

// Four threads ask for the floor without a pause, so that some reader is there at any time. Whether a writer makes its
// changes within two seconds all the same.
bool spinning_readers_let_a_writer_pass() {
  shared_store shared{hlcstore::store(1)};
  hlcstore::node writer(0);
  std::atomic<bool> ended = false;
  std::vector<std::thread> readers;
  for (int number = 0; number < 4; number++) {
    readers.emplace_back([&] {
      timestamp last;
      while (!ended) last = std::max(last, shared.floor());
    });
  }
  const auto begin = steady_clock::now();
  for (std::uint64_t reading = 1; reading <= 5; reading++) shared.accept_report(writer.report(reading));
  const bool in_time = steady_clock::now() - begin < 2s;
  ended = true;
  for (std::thread& reader : readers) reader.join();
  return in_time && shared.floor() == timestamp::of(5);
}

// Whether so many readers run beside each other: each waits for all others.
bool readers_meet(int many) {
  shared_store shared{hlcstore::store(1)};
  const shared_snapshot snapshot = shared.open_snapshot();
  const auto end = steady_clock::now() + 20s;
  std::atomic<int> here = 0;
  const auto meet = [&](const auto&) {
    here++;
    while (here < many && steady_clock::now() < end) std::this_thread::yield();
  };
  std::vector<std::thread> readers;
  for (int number = 1; number < many; number++) readers.emplace_back([&] { snapshot.read(meet); });
  shared.read(meet);
  for (std::thread& reader : readers) reader.join();
  return steady_clock::now() < end;
}

// Whether a reader runs between the parts of a vacuum, which locks again at once; in one of many vacuums at least,
// since threads run when they may.
bool readers_run_between_parts() {
  shared_store shared{hlcstore::store(1)};
  hlcstore::node writer(0);
  std::atomic<bool> ended = false, between = false;
  std::thread reader([&] {
    while (!ended) {
      if (shared.rows() % keys != 0) between = true;
    }
  });
  const auto end = steady_clock::now() + 20s;
  bool right = true;
  for (std::uint64_t round = 1; right && !between && steady_clock::now() < end; round++) {
    shared.change([&](hlcstore::store& store) { return write_round(store, writer, keys, round); });
    const hlcstore::vacuum_report made = shared.vacuum_in_parts(shared.floor(), 1);
    right = made.kept == keys && made.dropped == (round > 1 ? keys : 0) && made.stamp == shared.floor();
  }
  ended = true;
  reader.join();
  return right && between;
}

// Whether a call that throws leaves no lock behind: then a change would wait for good.
bool locks_end_with_exceptions() {
  shared_store shared{hlcstore::store(1)};
  const shared_snapshot snapshot = shared.open_snapshot();
  const auto fail = [](const auto&) { throw std::runtime_error("no"); };
  int thrown = 0;
  for (int turn = 0; turn < 3; turn++) {
    try {
      if (turn == 0) shared.read(fail);
      if (turn == 1) snapshot.read(fail);
      if (turn == 2) shared.change(fail);
    } catch (const std::runtime_error&) {
      thrown++;
    }
    shared.close_all();
    if (shared.floor() != timestamp()) return false;
  }
  return thrown == 3;
}

// Whether a call waits for a reader that is there before it.
template <class Call>
bool waits_for_a_reader(const shared_snapshot& snapshot, Call call) {
  std::atomic<bool> here = false, left = false;
  std::thread reader([&] {
    snapshot.read([&](const hlcstore::snapshot&) {
      here = true;
      std::this_thread::sleep_for(20ms);
      left = true;
    });
  });
  while (!here) std::this_thread::yield();
  call();
  const bool waited = left;
  reader.join();
  return waited;
}

bool changes_wait_for_readers() {
  auto shared = std::make_unique<shared_store>(hlcstore::store(1));
  const shared_snapshot snapshot = shared->open_snapshot();
  std::optional<shared_snapshot> other;
  const auto waits = [&](auto call) { return waits_for_a_reader(snapshot, call); };
  return waits([&] { shared->change([](hlcstore::store&) {}); }) &&
         waits([&] { other.emplace(shared->open_snapshot()); }) && waits([&] { other = std::nullopt; }) &&
         waits([&] { other.emplace(shared->open_snapshot(timestamp())); }) && waits([&] { other = std::nullopt; }) &&
         waits([&] { shared = nullptr; });
}

// A stream that makes a call when it is first written to.
class calling_stream : public std::streambuf {
 public:
  explicit calling_stream(std::function<void()> call) : call_(std::move(call)) {}

 private:
  std::streamsize xsputn(const char*, std::streamsize many) override {
    if (const auto once = std::exchange(call_, nullptr)) once();
    return many;
  }

  std::function<void()> call_;
};

// Whether a reader runs while a checkpoint is written to a stream, though a change waits for the end of that.
bool readers_run_beside_a_stream() {
  shared_store shared{hlcstore::store(1)};
  std::atomic<bool> begun = false, changed = false, has_read = false, has_waited = false;
  std::thread writer, reader;
  calling_stream stream([&] {
    writer = std::thread([&] {
      begun = true;
      shared.close_all();
      changed = true;
    });
    while (!begun) std::this_thread::yield();
    std::this_thread::sleep_for(20ms);
    reader = std::thread([&] { has_read = shared.rows() == 0; });
    const auto end = steady_clock::now() + 5s;
    while (!has_read && steady_clock::now() < end) std::this_thread::yield();
    has_waited = has_read && !changed;
  });
  std::ostream out(&stream);
  shared.checkpoint_to(out, 7);
  writer.join();
  reader.join();
  return has_waited && changed && out;
}

// Ends a store beside a reader. Returns whether the reader's answers were right, and refused from then on.
bool store_ends_beside_a_reader() {
  auto shared = std::make_unique<shared_store>(hlcstore::store(1));
  shared->change([](hlcstore::store& store) {
    hlcstore::node writer(0);
    return write_round(store, writer, keys, 1);
  });
  const shared_snapshot snapshot = shared->open_snapshot();
  std::atomic<int> looks = 0;
  std::uint32_t refusal = HLC_OK;
  std::thread reader([&] {
    try {
      while (looks < 100000 && snapshot.read(is_whole)) looks++;
    } catch (const hlcstore::error& refused) {
      refusal = refused.code();
    }
  });
  while (looks == 0) std::this_thread::yield();
  shared = nullptr;
  reader.join();
  return refusal == HLC_CLOSED;
}

bool report(const char* what, bool is_right) {
  if (!is_right) std::printf("wrong: %s\n", what);
  return is_right;
}

}  // namespace

int main(int count, char** words) {
  const int rounds = count > 1 ? std::atoi(words[1]) : 500;
  // At least two for each slot; fewer with few rounds, as under helgrind, which runs one thread at a time.
  const int readers = rounds < 100 ? 8 : 33;
  bool right = report("reads beside a writer", read_beside_a_writer(rounds) == 0);
  right = report("readers that let a writer pass", readers_let_a_writer_pass(readers, 20 * rounds)) && right;
  right = report("readers without a pause", spinning_readers_let_a_writer_pass()) && right;
  right = report("readers beside each other", readers_meet(2)) && right;
  right = report("more readers than slots", readers_meet(40)) && right;
  right = report("readers between the parts of a vacuum", readers_run_between_parts()) && right;
  right = report("exceptions", locks_end_with_exceptions()) && right;
  right = report("changes that wait for readers", changes_wait_for_readers()) && right;
  right = report("readers beside a stream", readers_run_beside_a_stream()) && right;
  for (int store = 0; store <= rounds / 10; store++) {
    right = report("a store that ends beside a reader", store_ends_beside_a_reader()) && right;
  }
  if (right) std::puts("all right");
  return right ? 0 : 1;
}
