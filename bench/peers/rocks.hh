// RocksDB 7 (Debian's librocksdb-dev) with its user-defined timestamps, files in memory, no log, writes in batches of
// up to 1,000, a memtable that contains all. A vacuum is a full compaction with the least point as
// `full_history_ts_low`: every version above that stays, also between snapshots.
#include <rocksdb/comparator.h>
#include <rocksdb/db.h>
#include <rocksdb/env.h>
#include <rocksdb/options.h>
#include <rocksdb/write_batch.h>

#include <memory>

#include "peer.hh"

namespace ROCKSDB_NAMESPACE {
// The library exports it; versions before 8 declare it in no installed header.
extern const Comparator* BytewiseComparatorWithU64Ts();
}  // namespace ROCKSDB_NAMESPACE

class Store {
  using Slice = rocksdb::Slice;

 public:
  static constexpr const char* name = "RocksDB";
  static constexpr bool wants_order = false;

  Store() : env_(rocksdb::NewMemEnv(rocksdb::Env::Default())), batch_(0, 0, 0, 8) {
    rocksdb::Options options;
    options.create_if_missing = true;
    options.env = env_.get();
    options.comparator = rocksdb::BytewiseComparatorWithU64Ts();
    options.compression = rocksdb::kNoCompression;
    options.write_buffer_size = 512 << 20;
    rocksdb::DB* opened = nullptr;
    check(rocksdb::DB::Open(options, "/rocks", &opened));
    db_.reset(opened);
    family_ = db_->DefaultColumnFamily();
    unlogged_.disableWAL = true;
  }

  void put(uint64_t stamp, uint64_t node, string_view key, const string_view* value) {
    const uint64_t ts = timestamp(stamp, node);
    check(value ? batch_.Put(family_, slice(key), slice(ts), slice(*value))
                : batch_.Delete(family_, slice(key), slice(ts)));
    if (batch_.Count() == BATCH) flush();
  }

  void flush() {
    if (batch_.Count() == 0) return;
    check(db_->Write(unlogged_, &batch_));
    batch_.Clear();
  }

  void open(uint64_t, uint64_t) {}
  void close(uint64_t) {}

  bool read(uint64_t, uint64_t stamp, string_view key, string_view* value) {
    flush();
    const uint64_t ts = timestamp(stamp, LAST_NODE);
    const Slice bound = slice(ts);
    rocksdb::ReadOptions options = reading(&bound);
    value_.Reset();
    const rocksdb::Status status = db_->Get(options, family_, slice(key), &value_);
    if (!status.IsNotFound()) check(status);
    *value = string_view(value_.data(), value_.size());
    return status.ok();
  }

  uint64_t list(uint64_t, uint64_t stamp) {
    flush();
    const uint64_t ts = timestamp(stamp, LAST_NODE);
    const Slice bound = slice(ts);
    return count(reading(&bound));
  }

  void tidy() {}

  void vacuum(const Points& points, uint64_t) {
    flush();
    const uint64_t ts = timestamp(points[0], LAST_NODE);
    const Slice low = slice(ts);
    rocksdb::CompactRangeOptions options;
    options.full_history_ts_low = &low;
    options.bottommost_level_compaction = rocksdb::BottommostLevelCompaction::kForce;
    check(db_->CompactRange(options, family_, nullptr, nullptr));
  }

  uint64_t rows() {
    flush();
    const uint64_t first = 0, last = UINT64_MAX;
    const Slice from = slice(first), to = slice(last);
    rocksdb::ReadOptions options = reading(&to);
    options.iter_start_ts = &from;
    return count(options);
  }

 private:
  static void check(const rocksdb::Status& status) {
    if (!status.ok()) give_up(status.ToString().c_str());
  }
  static Slice slice(const uint64_t& ts) { return Slice(reinterpret_cast<const char*>(&ts), sizeof ts); }
  static Slice slice(string_view text) { return Slice(text.data(), text.size()); }

  static rocksdb::ReadOptions reading(const Slice* bound) {
    rocksdb::ReadOptions options;
    options.timestamp = bound;
    options.verify_checksums = false;
    return options;
  }

  uint64_t count(const rocksdb::ReadOptions& options) {
    std::unique_ptr<rocksdb::Iterator> all(db_->NewIterator(options));
    uint64_t count = 0;
    for (all->SeekToFirst(); all->Valid(); all->Next()) {
      touch({all->value().data(), all->value().size()});
      count++;
    }
    check(all->status());
    return count;
  }

  std::unique_ptr<rocksdb::Env> env_;
  std::unique_ptr<rocksdb::DB> db_;
  rocksdb::ColumnFamilyHandle* family_;
  rocksdb::WriteOptions unlogged_;
  rocksdb::WriteBatch batch_;
  rocksdb::PinnableSlice value_;
};
