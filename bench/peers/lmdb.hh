// LMDB 0.9 (Debian's liblmdb-dev) in /dev/shm, without syncs and locks, its pages written in place. A row's key is the
// key, a zero, the inverted stamp and the inverted node, so that the versions of a key come newest first and a read is
// one seek of a cursor. Its vacuum walks all rows and deletes what no point needs: it keeps the same rows as hlcstore.
#include <lmdb.h>

#include "peer.hh"

class Store {
 public:
  static constexpr const char* name = "LMDB";
  static constexpr bool wants_order = false;

  Store() {
    check(mdb_env_create(&env_));
    check(mdb_env_set_mapsize(env_, size_t{4} << 30));
    const unsigned flags = MDB_NOSYNC | MDB_NOMETASYNC | MDB_WRITEMAP | MDB_NOTLS | MDB_NOLOCK;
    check(mdb_env_open(env_, memory_folder("lmdb").c_str(), flags, 0600));
    begin();
    check(mdb_dbi_open(writing_, nullptr, 0, &rows_));
    flush();
  }

  void put(uint64_t stamp, uint64_t node, string_view key, const string_view* value) {
    if (!writing_) begin();
    MDB_val row = row_key(key, stamp, node), said{1 + (value ? value->size() : 0), nullptr};
    check(mdb_put(writing_, rows_, &row, &said, MDB_RESERVE));
    char* to = static_cast<char*>(said.mv_data);
    to[0] = value != nullptr;
    if (value) std::memcpy(to + 1, value->data(), value->size());
    if (++many_ == BATCH) flush();
  }

  void flush() {
    if (writing_) check(mdb_txn_commit(writing_));
    writing_ = nullptr;
  }

  void open(uint64_t, uint64_t) {}
  void close(uint64_t) {}

  bool read(uint64_t, uint64_t stamp, string_view key, string_view* value) {
    read_all_committed();
    MDB_val row = row_key(key, stamp, UINT16_MAX), said{};
    const int found = mdb_cursor_get(cursor_, &row, &said, MDB_SET_RANGE);
    if (found == MDB_NOTFOUND) return false;
    check(found);
    if (key_in(row) != key || !has_value(said)) return false;
    *value = value_in(said);
    return true;
  }

  uint64_t list(uint64_t, uint64_t stamp) {
    read_all_committed();
    string last;
    bool any = false;
    uint64_t count = 0;
    each_row(cursor_, [&](MDB_val row, MDB_val said) {
      if ((any && key_in(row) == last) || stamp_in(row) > stamp) return;
      last = key_in(row);
      any = true;
      if (!has_value(said)) return;
      touch(value_in(said));
      count++;
    });
    return count;
  }

  void tidy() {}

  void vacuum(const Points& points, uint64_t floor) {
    begin();
    MDB_cursor* cursor;
    check(mdb_cursor_open(writing_, rows_, &cursor));
    std::vector<Row> rows;
    std::vector<string> dead;
    string last;
    each_row(cursor, [&](MDB_val row, MDB_val said) {
      if (!rows.empty() && key_in(row) != last) plan(points, rows, dead);
      if (stamp_in(row) > floor) return;
      last = key_in(row);
      rows.push_back({stamp_in(row), string(text(row)), has_value(said), string(value_in(said))});
    });
    plan(points, rows, dead);
    mdb_cursor_close(cursor);
    for (string& each : dead) {
      MDB_val row{each.size(), each.data()};
      check(mdb_del(writing_, rows_, &row, nullptr));
    }
    flush();
  }

  uint64_t rows() {
    flush();
    begin();
    MDB_stat stat;
    check(mdb_stat(writing_, rows_, &stat));
    flush();
    return stat.ms_entries;
  }

 private:
  struct Row {
    uint64_t stamp;
    string key;
    bool has_value;
    string value;
  };
  static constexpr size_t BEHIND_KEY = 11;

  static void check(int result) {
    if (result != 0) give_up(mdb_strerror(result));
  }
  static string_view text(MDB_val of) { return {static_cast<char*>(of.mv_data), of.mv_size}; }
  static string_view key_in(MDB_val row) { return text(row).substr(0, row.mv_size - BEHIND_KEY); }
  static bool has_value(MDB_val said) { return text(said)[0] != 0; }
  static string_view value_in(MDB_val said) { return text(said).substr(1); }
  static uint64_t stamp_in(MDB_val row) {
    uint64_t inverted;
    std::memcpy(&inverted, static_cast<char*>(row.mv_data) + row.mv_size - 10, 8);
    return ~__builtin_bswap64(inverted);
  }

  MDB_val row_key(string_view key, uint64_t stamp, uint64_t node) {
    const uint64_t inverted = __builtin_bswap64(~stamp);
    const uint16_t behind = __builtin_bswap16(static_cast<uint16_t>(~node));
    std::memcpy(made_, key.data(), key.size());
    made_[key.size()] = 0;
    std::memcpy(made_ + key.size() + 1, &inverted, 8);
    std::memcpy(made_ + key.size() + 9, &behind, 2);
    return {key.size() + BEHIND_KEY, made_};
  }

  // Adds the dead rows of a key, newest first: those that answer at no point, or the same as at the point before.
  static void plan(const Points& points, std::vector<Row>& rows, std::vector<string>& dead) {
    std::vector<bool> keep(rows.size());
    bool had = false;
    string_view last;
    size_t place = rows.size();
    for (const uint64_t point : points) {
      while (place > 0 && rows[place - 1].stamp <= point) place--;
      const bool has = place < rows.size() && rows[place].has_value;
      const string_view value = has ? string_view(rows[place].value) : string_view();
      if (has == had && value == last) continue;
      if (place < rows.size()) keep[place] = true;
      had = has;
      last = value;
    }
    for (size_t i = 0; i < rows.size(); i++) {
      if (!keep[i]) dead.push_back(std::move(rows[i].key));
    }
    rows.clear();
  }

  template <class F>
  static void each_row(MDB_cursor* cursor, F each) {
    MDB_val row, said;
    int result = mdb_cursor_get(cursor, &row, &said, MDB_FIRST);
    for (; result == 0; result = mdb_cursor_get(cursor, &row, &said, MDB_NEXT)) each(row, said);
    if (result != MDB_NOTFOUND) check(result);
  }

  void begin() {
    if (!writing_) check(mdb_txn_begin(env_, nullptr, 0, &writing_));
    many_ = 0;
    if (is_reading_) mdb_txn_reset(reading_);
    is_reading_ = false;
  }

  void read_all_committed() {
    flush();
    if (is_reading_) return;
    if (reading_) {
      check(mdb_txn_renew(reading_));
      check(mdb_cursor_renew(reading_, cursor_));
    } else {
      check(mdb_txn_begin(env_, nullptr, MDB_RDONLY, &reading_));
      check(mdb_cursor_open(reading_, rows_, &cursor_));
    }
    is_reading_ = true;
  }

  MDB_env* env_;
  MDB_dbi rows_;
  MDB_txn *writing_ = nullptr, *reading_ = nullptr;
  MDB_cursor* cursor_ = nullptr;
  bool is_reading_ = false;
  int many_ = 0;
  char made_[256 + BEHIND_KEY];
};
