// Memory and calls of one store, without text: `memory KEYS VERSIONS BYTES`. Keys have 8 bytes, values so many. Each
// round writes every key once, in a random order of its own, so that each key has so many versions. Then come eight
// snapshots and a vacuum at them, a vacuum at the newest stamp alone, which leaves one row a key, and as many rounds
// again. It prints names and numbers: nanoseconds of processor time per call (per key for a listing), milliseconds of a
// vacuum, and bytes of a row, resident and in blocks of malloc.
#include PEER

#include "measure.hh"

#include <algorithm>
#include <numeric>

namespace {
constexpr uint64_t READS = 500'000, SNAPSHOTS = 8, PAST = SNAPSHOTS / 2 - 1;

class Run {
 public:
  Run(uint64_t keys, size_t bytes) : order_(keys), value_(bytes, '.') {
    std::iota(order_.begin(), order_.end(), 0);
    resident_ = resident();
    blocks_ = in_blocks();
  }

  uint64_t last_stamp() const { return stamp_of(writes_ - 1); }
  uint64_t stamp_at(uint64_t id) const { return stamp_of(writes_ * (id + 1) / SNAPSHOTS - 1); }

  void fill(const char* name, uint64_t rounds) {
    double nanos = 0;
    for (uint64_t round = 0; round < rounds; round++) {
      for (size_t i = order_.size() - 1; i > 0; i--) std::swap(order_[i], order_[random_word() % (i + 1)]);
      const double began = now();
      for (const uint32_t key : order_) put(key);
      store_.flush();
      nanos += now() - began;
    }
    tell(name, nanos / (static_cast<double>(rounds) * order_.size()));
  }

  void memory(const string& when, uint64_t rows_of_a_key) {
    store_.tidy();
    const double rows = static_cast<double>(order_.size()) * rows_of_a_key;
    tell(("bytes" + when).c_str(), (static_cast<double>(resident()) - resident_) / rows);
    tell(("blocks" + when).c_str(), (static_cast<double>(in_blocks()) - blocks_) / rows);
  }

  void reads(const char* name, uint64_t id, uint64_t stamp) {
    Timed timed(name, READS);
    for (uint64_t i = 0; i < READS; i++) {
      char text[8];
      string_view value;
      if (store_.read(id, stamp, text_of(text, 'k', random_word() % order_.size()), &value)) touch(value);
    }
  }

  // The least of two, after one that makes room.
  void list(const char* name, uint64_t id, uint64_t stamp) {
    const double keys = static_cast<double>(std::max<uint64_t>(store_.list(id, stamp), 1));
    double least = 1e18;
    for (int i = 0; i < 2; i++) {
      const double began = now();
      store_.list(id, stamp);
      least = std::min(least, (now() - began) / keys);
    }
    tell(name, least);
  }

  void vacuum(const char* name, const Points& points) {
    Timed timed(name, 1e6);
    store_.vacuum(points, points.back());
  }

  Store& store() { return store_; }

 private:
  void put(uint32_t key) {
    char text[8];
    const string_view value = text_of(value_.data(), 'v', writes_, value_.size());
    store_.put(stamp_of(writes_++), 0, text_of(text, 'k', key), &value);
  }

  Store store_;
  std::vector<uint32_t> order_;
  string value_;
  uint64_t writes_ = 0;
  double resident_ = 0, blocks_ = 0;
};

void measure(uint64_t keys, uint64_t versions, size_t bytes) {
  Run run(keys, bytes);
  run.fill("put", versions);
  run.memory("", versions);
  Points points;
  for (uint64_t id = 0; id < SNAPSHOTS; id++) {
    points.push_back(run.stamp_at(id));
    run.store().open(id, points.back());
  }
  run.reads("newest", SNAPSHOTS - 1, points.back());
  run.reads("past", PAST, points[PAST]);
  run.list("list", SNAPSHOTS - 1, points.back());
  run.vacuum("vacuum", points);
  run.vacuum("again", points);
  for (uint64_t id = 0; id + 1 < SNAPSHOTS; id++) run.store().close(id);
  run.vacuum("to_one", {points.back()});
  run.memory("_of_one", 1);
  run.reads("newest_of_one", SNAPSHOTS - 1, points.back());
  run.list("list_of_one", SNAPSHOTS - 1, points.back());
  run.store().close(SNAPSHOTS - 1);
  run.fill("put_more", versions);
  run.store().open(SNAPSHOTS, run.last_stamp());
  run.vacuum("to_one_again", {run.last_stamp()});
  run.memory("_of_one_again", 1);
}
}  // namespace

int main(int argc, char** argv) {
  if (argc != 4) give_up("memory KEYS VERSIONS BYTES");
  const auto number = [&](int at) { return std::strtoull(argv[at], nullptr, 10); };
  if (number(3) < 8) give_up("values have at least 8 bytes");
  measure(number(1), number(2), number(3));
  std::_Exit(std::fflush(stdout));
}
