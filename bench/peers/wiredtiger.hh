// WiredTiger 3.2 (Debian's libwiredtiger-dev), in memory and without a log: one table, each version committed at its
// own timestamp inside transactions of up to 1,000 writes, as an oplog is applied. It needs the versions of a key in
// the order of their timestamps. A snapshot is a session with a read transaction at its stamp, open until it is closed.
// A vacuum raises `oldest_timestamp` to the least point; WiredTiger frees what that allows when it comes to a page, and
// drops nothing between snapshots. `memory_page_max` is 1 GB: with a smaller value it tries to evict the page of a hot
// key at each write, which takes more than 120 s where this takes 0.5.
#include <wiredtiger.h>

#include <charconv>
#include <unordered_map>

#include "peer.hh"

class Store {
 public:
  static constexpr const char* name = "WiredTiger";
  static constexpr bool wants_order = true;

  Store() {
    const char* how = "create,in_memory=true,cache_size=4GB,session_max=1200,statistics=(none)";
    check(wiredtiger_open(memory_folder("wiredtiger").c_str(), nullptr, how, &connection_));
    check(connection_->open_session(connection_, nullptr, nullptr, &session_));
    check(session_->create(session_, TABLE, "key_format=u,value_format=u,memory_page_max=1GB"));
    check(session_->open_cursor(session_, TABLE, nullptr, "overwrite=true", &cursor_));
  }

  void put(uint64_t stamp, uint64_t node, string_view key, const string_view* value) {
    if (!is_writing_) check(session_->begin_transaction(session_, "isolation=snapshot"));
    is_writing_ = true;
    check(session_->timestamp_transaction(session_, at("commit_timestamp=", timestamp(stamp, node))));
    WT_ITEM item = item_of(key);
    cursor_->set_key(cursor_, &item);
    if (value) {
      WT_ITEM said = item_of(*value);
      cursor_->set_value(cursor_, &said);
      check(cursor_->insert(cursor_));
    } else if (const int result = cursor_->remove(cursor_); result != WT_NOTFOUND) {
      check(result);
    }
    if (++many_ == BATCH) flush();
  }

  void flush() {
    if (is_writing_) check(session_->commit_transaction(session_, nullptr));
    is_writing_ = false;
    many_ = 0;
  }

  void open(uint64_t id, uint64_t stamp) {
    flush();
    Reader& reader = readers_[id];
    check(connection_->open_session(connection_, nullptr, nullptr, &reader.session));
    const char* how = at("isolation=snapshot,read_timestamp=", timestamp(stamp, LAST_NODE));
    check(reader.session->begin_transaction(reader.session, how));
    check(reader.session->open_cursor(reader.session, TABLE, nullptr, nullptr, &reader.cursor));
  }

  void close(uint64_t id) {
    auto found = readers_.find(id);
    check(found->second.session->close(found->second.session, nullptr));
    readers_.erase(found);
  }

  bool read(uint64_t id, uint64_t, string_view key, string_view* value) {
    WT_CURSOR* cursor = readers_[id].cursor;
    WT_ITEM item = item_of(key), said{};
    cursor->set_key(cursor, &item);
    const int found = cursor->search(cursor);
    if (found == WT_NOTFOUND) return false;
    check(found);
    check(cursor->get_value(cursor, &said));
    *value = text(said);
    return true;
  }

  uint64_t list(uint64_t id, uint64_t) {
    WT_CURSOR* cursor = readers_[id].cursor;
    check(cursor->reset(cursor));
    uint64_t count = 0;
    int result;
    while ((result = cursor->next(cursor)) == 0) {
      WT_ITEM said;
      check(cursor->get_value(cursor, &said));
      touch(text(said));
      count++;
    }
    if (result != WT_NOTFOUND) check(result);
    return count;
  }

  void tidy() {}

  void vacuum(const Points& points, uint64_t) {
    check(connection_->set_timestamp(connection_, at("oldest_timestamp=", timestamp(points[0], LAST_NODE))));
  }

  uint64_t rows() { return 0; }

 private:
  struct Reader {
    WT_SESSION* session;
    WT_CURSOR* cursor;
  };
  static constexpr const char* TABLE = "table:rows";

  static void check(int result) {
    if (result != 0) give_up(wiredtiger_strerror(result));
  }
  static WT_ITEM item_of(string_view text) {
    WT_ITEM item{};
    item.data = text.data();
    item.size = text.size();
    return item;
  }
  static string_view text(const WT_ITEM& item) { return {static_cast<const char*>(item.data), item.size}; }

  // A setting with a timestamp, which is written in hexadecimal digits.
  const char* at(string_view name, uint64_t timestamp) {
    std::memcpy(setting_, name.data(), name.size());
    *std::to_chars(setting_ + name.size(), setting_ + sizeof setting_, timestamp, 16).ptr = 0;
    return setting_;
  }

  WT_CONNECTION* connection_;
  WT_SESSION* session_;
  WT_CURSOR* cursor_;
  bool is_writing_ = false;
  int many_ = 0;
  std::unordered_map<uint64_t, Reader> readers_;
  char setting_[80];
};
