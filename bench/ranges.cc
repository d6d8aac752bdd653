// Measures reads and writes of a key space by threads: of a store under one mutex, and of hlcstore::ranges over 1 and
// 64 stores, alone and beside one writer. Prints million calls a second, the median of so many runs, which take turns.
//
//     ranges [RUNS]
#include <algorithm>
#include <array>
#include <atomic>
#include <chrono>
#include <cstdint>
#include <cstdlib>
#include <hlcstore.hpp>
#include <iostream>
#include <memory>
#include <mutex>
#include <string>
#include <thread>
#include <vector>

namespace {

constexpr unsigned keys = 20000, versions = 8, reads = 200000, most = 4;

std::string key_of(unsigned number) { return "key" + std::to_string(100000 + number % keys); }

// A store under one mutex.
class one_lock {
 public:
  explicit one_lock(std::size_t) : store_(1), node_(0) {}
  void write(std::uint64_t reading, const std::string& key) {
    const std::lock_guard lock(mutex_);
    store_.accept_write(node_.write(reading, key, key), key, key);
  }
  void open() { snapshot_ = store_.open_snapshot(); }
  bool read(const std::string& key) {
    const std::lock_guard lock(mutex_);
    return snapshot_.get(key) == key;
  }

 private:
  std::mutex mutex_;
  hlcstore::store store_;
  hlcstore::node node_;
  hlcstore::snapshot snapshot_;
};

class many_stores {
 public:
  explicit many_stores(std::size_t stores)
      : ranges_(hlcstore::division::by_hash(stores), 1), writer_(ranges_.machine(0)) {}
  void write(std::uint64_t reading, const std::string& key) { ranges_.write(writer_, reading, key, key); }
  void open() {
    ranges_.report_all(writer_, keys * versions + 1);
    snapshot_ = std::make_unique<hlcstore::ranges_snapshot>(ranges_.open_snapshot());
  }
  bool read(const std::string& key) { return snapshot_->get(key) == key; }

 private:
  hlcstore::ranges ranges_;
  hlcstore::machine writer_;
  std::unique_ptr<hlcstore::ranges_snapshot> snapshot_;
};

struct measure {
  std::vector<double> reads, writes;
};

template <class Stores>
void run(std::size_t many, unsigned threads, bool beside_a_writer, measure& found) {
  using std::chrono::steady_clock;
  Stores stores(many);
  for (unsigned i = 0; i < keys * versions; i++) stores.write(i, key_of(i));
  stores.open();
  std::atomic<bool> ended = false;
  std::atomic<unsigned> wrong = 0;
  unsigned written = 0;
  const auto begin = steady_clock::now();
  std::thread writer([&] {
    for (; beside_a_writer && !ended; written++) stores.write(keys * versions + 2 + written, key_of(7919 * written));
  });
  std::vector<std::thread> readers;
  for (unsigned first = 0; first < threads; first++) {
    readers.emplace_back([&, first] {
      for (unsigned i = 0; i < reads; i++) wrong += !stores.read(key_of(77 * first + 3793 * i));
    });
  }
  for (std::thread& reader : readers) reader.join();
  const double micros = std::chrono::duration<double, std::micro>(steady_clock::now() - begin).count();
  ended = true;
  writer.join();
  if (wrong > 0) std::abort();
  found.reads.push_back(reads * threads / micros);
  found.writes.push_back(written / micros);
}

double middle(std::vector<double>& numbers) {
  std::sort(numbers.begin(), numbers.end());
  return numbers[numbers.size() / 2];
}

}  // namespace

int main(int count, char** words) {
  const int runs = count > 1 ? std::atoi(words[1]) : 9;
  for (const bool beside_a_writer : {false, true}) {
    for (unsigned threads = 1; threads <= most; threads *= 2) {
      std::array<measure, 3> found;
      for (int turn = 0; turn < runs; turn++) {
        run<one_lock>(1, threads, beside_a_writer, found[0]);
        run<many_stores>(1, threads, beside_a_writer, found[1]);
        run<many_stores>(64, threads, beside_a_writer, found[2]);
      }
      std::cout << (beside_a_writer ? "beside a writer" : "alone") << ", threads " << threads;
      for (std::size_t i = 0; i < found.size(); i++) {
        std::cout << (i == 0 ? ": mutex " : i == 1 ? "; 1 store " : "; 64 stores ") << middle(found[i].reads);
        if (beside_a_writer) std::cout << ", writes " << middle(found[i].writes);
      }
      std::cout << std::endl;
    }
  }
}
