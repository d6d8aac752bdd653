// Times durable stores on one disk: `commits BATCH COMMITS TURNS FOLDER`, `recover ROWS log|checkpoint FOLDER`.
//
// The stores make so many commits each, turn about, in an order that is drawn for each turn. A commit is synced, and
// has BATCH rows: random keys of 8 bytes out of a million, values of 64 bytes. It prints for each store the best and
// the middle number of commits a second of a turn; the middle share of what sqlite, and sqlite-log, make in the same
// turn; and bytes on disk a row after it was closed. Or the seconds of an opening, and such bytes. sqlite keeps the
// newest value of each key, as lmdb and rocksdb do, in a table with the key as its primary key; sqlite-log appends each
// row to a table with a rowid, in which no key is looked up.
#include <hlcstore_file.h>
#include <lmdb.h>
#include <rocksdb/db.h>
#include <rocksdb/write_batch.h>
#include <sqlite3.h>
#include <sys/stat.h>

#include <algorithm>
#include <chrono>
#include <cstdio>
#include <cstdlib>
#include <cstring>
#include <filesystem>
#include <functional>
#include <memory>
#include <numeric>
#include <random>
#include <string>
#include <vector>

namespace {
using std::string;
constexpr uint64_t KEYS = 1'000'000, RECOVERED_BATCH = 1'024;
constexpr size_t KEY_BYTES = 8, VALUE_BYTES = 64;

[[noreturn]] void give_up(const string& why) {
  std::fprintf(stderr, "bench: %s\n", why.c_str());
  std::exit(1);
}

void check(bool well, const char* what) {
  if (!well) give_up(what);
}

struct Row {
  char key[KEY_BYTES];
  char value[VALUE_BYTES];
};

class Rows {
 public:
  const Row& next() {
    state_ = state_ * 6364136223846793005u + 1442695040888963407u;
    uint64_t key = (state_ >> 33) % KEYS;
    std::memcpy(row_.key, &key, KEY_BYTES);
    for (size_t i = 0; i < VALUE_BYTES; i += 8) std::memcpy(row_.value + i, &state_, 8);
    return row_;
  }

 private:
  uint64_t state_ = 1;
  Row row_;
};

const uint8_t* bytes(const char* text) { return reinterpret_cast<const uint8_t*>(text); }

class Ours {
 public:
  explicit Ours(const string& folder, uint32_t promise = HLC_FILE_SYNCED) : promise_(promise) {
    hlc_file_options options{};
    options.checkpoint_bytes = UINT64_MAX;
    check(hlc_file_open((folder + "/file").c_str(), &options, &file_, nullptr) == HLC_OK, "open");
    hlc_file_batch_new(&batch_);
  }
  ~Ours() {
    hlc_file_batch_drop(batch_);
    check(hlc_file_close(file_) == HLC_OK, "close");
  }
  void put(const Row& row) { hlc_file_batch_put(batch_, bytes(row.key), KEY_BYTES, bytes(row.value), VALUE_BYTES); }
  void commit() {
    uint64_t stamp;
    check(hlc_file_append(file_, 0, HLC_FILE_NOW, batch_, promise_, &stamp) == HLC_OK, "append");
  }
  void checkpoint() {
    uint64_t place;
    check(hlc_file_checkpoint(file_, &place) == HLC_OK, "checkpoint");
  }

 private:
  uint32_t promise_;
  hlc_file* file_;
  hlc_file_batch* batch_;
};

class Sqlite {
 public:
  Sqlite(const string& folder, bool is_log) {
    const char* table = is_log ? "CREATE TABLE rows(id INTEGER PRIMARY KEY, key BLOB, value BLOB)"
                               : "CREATE TABLE rows(key BLOB PRIMARY KEY, value BLOB) WITHOUT ROWID";
    const char* insert = is_log ? "INSERT INTO rows(key, value) VALUES (?1, ?2)" : "REPLACE INTO rows VALUES (?1, ?2)";
    check(sqlite3_open((folder + "/file").c_str(), &db_) == SQLITE_OK, "open");
    run("PRAGMA journal_mode = WAL; PRAGMA synchronous = FULL; PRAGMA locking_mode = EXCLUSIVE");
    run(table);
    check(sqlite3_prepare_v2(db_, insert, -1, &insert_, nullptr) == SQLITE_OK, "prepare");
    check(sqlite3_prepare_v2(db_, "BEGIN", -1, &begin_, nullptr) == SQLITE_OK, "prepare");
    check(sqlite3_prepare_v2(db_, "COMMIT", -1, &commit_, nullptr) == SQLITE_OK, "prepare");
  }
  ~Sqlite() {
    for (sqlite3_stmt* statement : {insert_, begin_, commit_}) sqlite3_finalize(statement);
    sqlite3_close(db_);
  }
  void put(const Row& row) {
    if (!begun_) step(begin_);
    begun_ = true;
    sqlite3_bind_blob(insert_, 1, row.key, KEY_BYTES, SQLITE_STATIC);
    sqlite3_bind_blob(insert_, 2, row.value, VALUE_BYTES, SQLITE_STATIC);
    step(insert_);
  }
  void commit() {
    step(commit_);
    begun_ = false;
  }

 private:
  void run(const char* sql) { check(sqlite3_exec(db_, sql, nullptr, nullptr, nullptr) == SQLITE_OK, sql); }
  void step(sqlite3_stmt* statement) {
    check(sqlite3_step(statement) == SQLITE_DONE, "step");
    sqlite3_reset(statement);
  }
  sqlite3* db_;
  sqlite3_stmt *insert_, *begin_, *commit_;
  bool begun_ = false;
};

class Lmdb {
 public:
  explicit Lmdb(const string& folder) {
    check(mdb_env_create(&env_) == 0 && mdb_env_set_mapsize(env_, size_t{8} << 30) == 0, "env");
    check(mdb_env_open(env_, folder.c_str(), 0, 0644) == 0, "open");
  }
  ~Lmdb() { mdb_env_close(env_); }
  void put(const Row& row) {
    if (!txn_) {
      check(mdb_txn_begin(env_, nullptr, 0, &txn_) == 0 && mdb_dbi_open(txn_, nullptr, 0, &dbi_) == 0, "begin");
    }
    MDB_val key{KEY_BYTES, const_cast<char*>(row.key)}, value{VALUE_BYTES, const_cast<char*>(row.value)};
    check(mdb_put(txn_, dbi_, &key, &value, 0) == 0, "put");
  }
  void commit() {
    check(mdb_txn_commit(txn_) == 0, "commit");
    txn_ = nullptr;
  }

 private:
  MDB_env* env_;
  MDB_dbi dbi_;
  MDB_txn* txn_ = nullptr;
};

class Rocks {
 public:
  explicit Rocks(const string& folder) {
    rocksdb::Options options;
    options.create_if_missing = true;
    rocksdb::DB* db;
    check(rocksdb::DB::Open(options, folder, &db).ok(), "open");
    db_.reset(db);
    synced_.sync = true;
  }
  void put(const Row& row) { batch_.Put({row.key, KEY_BYTES}, {row.value, VALUE_BYTES}); }
  void commit() {
    check(db_->Write(synced_, &batch_).ok(), "write");
    batch_.Clear();
  }

 private:
  std::unique_ptr<rocksdb::DB> db_;
  rocksdb::WriteOptions synced_;
  rocksdb::WriteBatch batch_;
};

double seconds() {
  return std::chrono::duration<double>(std::chrono::steady_clock::now().time_since_epoch()).count();
}

uint64_t bytes_in(const string& folder) {
  uint64_t bytes = 0;
  for (const auto& entry : std::filesystem::directory_iterator(folder)) {
    struct stat found;
    if (stat(entry.path().c_str(), &found) == 0) bytes += static_cast<uint64_t>(found.st_blocks) * 512;
  }
  return bytes;
}

// A store that takes its turns, and its commits a second in each.
struct Turns {
  string name;
  std::function<void()> turn;
  std::function<void()> close;
  std::vector<double> rates;
};

template <class Store>
Turns turns_of(const string& name, std::shared_ptr<Store> store, uint64_t batch, uint64_t many) {
  auto rows = std::make_shared<Rows>();
  auto kept = std::make_shared<std::shared_ptr<Store>>(store);
  const auto turn = [=] {
    for (uint64_t i = 0; i < many; i++) {
      for (uint64_t j = 0; j < batch; j++) (*kept)->put(rows->next());
      (*kept)->commit();
    }
  };
  return {name, turn, [=] { kept->reset(); }, {}};
}

string made(const string& folder) {
  std::filesystem::create_directories(folder);
  return folder;
}

double middle(std::vector<double> numbers) {
  std::sort(numbers.begin(), numbers.end());
  return numbers[numbers.size() / 2];
}

// What a store makes of another one's rate in the same turn, in the middle.
double share(const Turns& store, const Turns& other) {
  std::vector<double> shares;
  for (size_t turn = 0; turn < store.rates.size(); turn++) shares.push_back(store.rates[turn] / other.rates[turn]);
  return middle(shares);
}

void commits(uint64_t batch, uint64_t many, uint64_t turns, const string& folder) {
  enum { SQLITE = 1, SQLITE_LOG = 2 };
  const auto in = [&](const char* name) { return made(folder + "/" + name); };
  std::vector<Turns> stores;
  stores.push_back(turns_of("hlcstore-file", std::make_shared<Ours>(in("hlcstore-file")), batch, many));
  stores.push_back(turns_of("sqlite", std::make_shared<Sqlite>(in("sqlite"), false), batch, many));
  stores.push_back(turns_of("sqlite-log", std::make_shared<Sqlite>(in("sqlite-log"), true), batch, many));
  stores.push_back(turns_of("lmdb", std::make_shared<Lmdb>(in("lmdb")), batch, many));
  stores.push_back(turns_of("rocksdb", std::make_shared<Rocks>(in("rocksdb")), batch, many));
  std::vector<size_t> order(stores.size());
  std::iota(order.begin(), order.end(), 0);
  std::mt19937 drawn(1);
  for (uint64_t turn = 0; turn < turns; turn++) {
    std::shuffle(order.begin(), order.end(), drawn);
    for (size_t place : order) {
      const double begin = seconds();
      stores[place].turn();
      stores[place].rates.push_back(many / (seconds() - begin));
    }
  }
  for (Turns& store : stores) {
    store.close();
    const double best = *std::max_element(store.rates.begin(), store.rates.end());
    std::printf("%s %.0f %.0f %.2f %.2f %.1f\n", store.name.c_str(), best, middle(store.rates),
                share(store, stores[SQLITE]), share(store, stores[SQLITE_LOG]),
                bytes_in(folder + "/" + store.name) / static_cast<double>(many * batch * turns));
  }
}

void recover(uint64_t many, bool checkpoint, const string& folder) {
  Rows rows;
  {
    Ours ours(folder, HLC_FILE_WRITTEN);
    for (uint64_t i = 1; i <= many; i++) {
      ours.put(rows.next());
      if (i % RECOVERED_BATCH == 0 || i == many) ours.commit();
    }
    if (checkpoint) ours.checkpoint();
  }
  const double begin = seconds();
  Ours again(folder);
  std::printf("%.3f %.1f\n", seconds() - begin, bytes_in(folder) / static_cast<double>(many));
}
}  // namespace

int main(int argc, char** argv) {
  const auto number = [&](int at) { return std::strtoull(argv[at], nullptr, 10); };
  if (argc == 6 && string(argv[1]) == "commits") {
    commits(number(2), number(3), number(4), argv[5]);
  } else if (argc == 5 && string(argv[1]) == "recover") {
    recover(number(2), string(argv[3]) == "checkpoint", argv[4]);
  } else {
    give_up("commits BATCH COMMITS TURNS FOLDER | recover ROWS log|checkpoint FOLDER");
  }
  std::_Exit(std::fflush(stdout));
}
