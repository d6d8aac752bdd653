// A durable store in one file, over hlcstore_file.h, which describes each call, its refusals and its costs.
//
// A call that returns has its promise: it is synced to disk by default. A refusal is thrown as hlcstore::file_error.
//
// Lifetimes. The calls of a snapshot that outlives its file throw HLC_CLOSED.
//
// Threads. All methods of a file and of its snapshots may be called by several threads at once, except these: closing,
// moving or destroying a file needs it and its snapshots alone; doing so with a snapshot needs that snapshot alone. One
// thread at a time uses a batch or an iterator.
#ifndef HLCSTORE_FILE_HPP
#define HLCSTORE_FILE_HPP
#include <chrono>
#include <cstddef>
#include <cstdint>
#include <memory>
#include <optional>
#include <string>
#include <string_view>
#include <utility>

#include "hlcstore_file.h"

#include "call.hpp"
#include "error.hpp"
#include "node.hpp"
#include "snapshot.hpp"
#include "store.hpp"

namespace hlcstore {

// A refusal of a file: of HLC_FILE_IN_USE and its like, or of the store in it. For opening also SQLite's extended
// result code; otherwise `file::status` has that.
class file_error : public error {
 public:
  explicit file_error(std::uint32_t code, std::uint64_t word = 0, std::int32_t sqlite = 0) noexcept
      : error(code, word, hlc_file_error_text), sqlite_(sqlite) {}
  std::int32_t sqlite() const noexcept { return sqlite_; }

 private:
  std::int32_t sqlite_;
};

// The name of an answer in hlcstore_file.h or hlcstore.h; no text for a number that is no answer.
inline std::string file_error_name(std::uint32_t code) {
  char name[64] = {};
  std::size_t len;
  hlc_file_error_name(code, reinterpret_cast<std::uint8_t*>(name), sizeof name - 1, &len);
  return name;
}

// When a call that writes returns: as the options say, synced alone, synced with other threads' batches, or written.
enum class promise : std::uint32_t {
  of_options = HLC_FILE_DEFAULT,
  synced = HLC_FILE_SYNCED,
  group = HLC_FILE_GROUP,
  written = HLC_FILE_WRITTEN
};

// Which node makes an event, and the reading of its clock in milliseconds; by default that of the system's clock.
struct origin {
  std::uint16_t node = 0;
  std::uint64_t reading = HLC_FILE_NOW;
};

namespace detail {

inline void check_file(std::uint32_t code, std::uint64_t word = 0) {
  if (code != HLC_OK) throw file_error(code, word);
}

// An open file, which a file shares with its snapshots; null once it is closed.
struct open_file {
  hlc_file* raw = nullptr;

  open_file() noexcept = default;
  open_file(const open_file&) = delete;
  open_file& operator=(const open_file&) = delete;
  ~open_file() { hlc_file_close(raw); }

  hlc_file* get() const {
    if (!raw) throw file_error(HLC_CLOSED);
    return raw;
  }

  // Makes a call whose last argument is where it writes a word, and returns the word.
  template <class Call, class... Arguments>
  std::uint64_t word_of(Call call, Arguments... arguments) const {
    const answer made = answered(call, get(), arguments...);
    check_file(made.code, made.word);
    return made.word;
  }
};

// An open snapshot of a file.
struct file_view {
  std::shared_ptr<open_file> file;
  std::uint64_t id = 0;

  const open_file& get() const {
    if (!file) throw file_error(HLC_NO_SNAPSHOT);
    return *file;
  }

  // Makes a call that scans a range.
  template <class Call>
  part scan(Call call, std::string_view from, std::string_view to, std::size_t room) const {
    part made{std::string(room, '\0'), 0, false};
    std::size_t len;
    const std::uint32_t code = call(get().get(), id, bytes(from), from.size(), bytes(to), to.size(),
                                    bytes(made.bytes), room, &len, &made.many);
    made.more = code == HLC_MORE;
    if (!made.more) check_file(code);
    made.bytes.resize(len);
    return made;
  }
};

struct file_pairs : pairs {
  using source = file_view;
  static part scan(const file_view& view, std::string_view from, std::string_view to, std::size_t room) {
    return view.scan(hlc_file_scan, from, to, room);
  }
};

struct file_pairs_back : pairs_back {
  using source = file_view;
  static part scan(const file_view& view, std::string_view from, std::string_view to, std::size_t room) {
    return view.scan(hlc_file_scan_back, from, to, room);
  }
};

// The time in which a file lends its store.
class reading {
 public:
  reading(hlc_file* file, hlc_store& mine) : file_(file) { check_file(hlc_file_read_begin(file, &mine)); }
  reading(const reading&) = delete;
  reading& operator=(const reading&) = delete;
  ~reading() { hlc_file_read_end(file_); }

 private:
  hlc_file* file_;
};

struct drop_batch {
  void operator()(hlc_file_batch* batch) const noexcept { hlc_file_batch_drop(batch); }
};

}  // namespace detail

using file_range = range<detail::file_pairs>;
using file_back_range = range<detail::file_pairs_back>;

// An open snapshot of a file, which closes itself. A range goes from the key `from` on, up to the key `to` and without
// it, or to the end if `to` has no bytes. It reads the snapshot in pieces, so the snapshot must stay open.
class file_snapshot {
 public:
  file_snapshot(file_snapshot&&) noexcept = default;
  file_snapshot& operator=(file_snapshot&& other) noexcept {
    if (this != &other) {
      close();
      view_ = std::move(other.view_);
      stamp_ = other.stamp_;
    }
    return *this;
  }
  ~file_snapshot() { close(); }

  std::uint64_t id() const noexcept { return view_.id; }
  timestamp stamp() const noexcept { return stamp_; }

  std::optional<std::string> get(std::string_view key) const {
    std::string value;
    const std::uint32_t code =
        detail::fetch_to(value, hlc_file_read, view_.get().get(), id(), detail::bytes(key), key.size());
    if (code == HLC_NO_VALUE) return std::nullopt;
    detail::check_file(code);
    return value;
  }

  file_range::iterator begin() const& { return range().begin(); }
  file_range::iterator begin() && = delete;
  file_range::iterator end() const noexcept { return {}; }
  file_range range(std::string_view from = {}, std::string_view to = {}) const& { return {view_, from, to}; }
  file_range range(std::string_view from = {}, std::string_view to = {}) && = delete;

  // The pairs of a range from its end, the last key first.
  file_back_range range_back(std::string_view from = {}, std::string_view to = {}) const& { return {view_, from, to}; }
  file_back_range range_back(std::string_view from = {}, std::string_view to = {}) && = delete;

  std::uint64_t count(std::string_view from = {}, std::string_view to = {}) const {
    return view_.get().word_of(hlc_file_count, id(), detail::bytes(from), from.size(), detail::bytes(to), to.size());
  }

  // Closes the snapshot. Its calls throw HLC_NO_SNAPSHOT from then on.
  void close() noexcept {
    std::uint64_t stamp;
    if (view_.file && view_.file->raw) hlc_file_close_snapshot(view_.file->raw, view_.id, &stamp);
    view_.file = nullptr;
  }

 private:
  friend class file;

  file_snapshot(std::shared_ptr<detail::open_file> file, std::uint64_t id, timestamp stamp) noexcept
      : view_{std::move(file), id}, stamp_(stamp) {}

  detail::file_view view_;
  timestamp stamp_;
};

// Writes and deletions for a file. By `file::write_batch` they get one stamp: a snapshot shows all of them or none. By
// `file::append` each gets a stamp of its own: a snapshot between these shows a part of them. Both clear the batch. One
// that was moved from may only be destroyed, or get a new value.
class file_batch {
 public:
  file_batch() {
    hlc_file_batch* raw;
    detail::check_file(hlc_file_batch_new(&raw));
    raw_.reset(raw);
  }

  void write(std::string_view key, std::string_view value) {
    detail::check_file(
        hlc_file_batch_put(raw_.get(), detail::bytes(key), key.size(), detail::bytes(value), value.size()));
  }
  void erase(std::string_view key) {
    detail::check_file(hlc_file_batch_delete(raw_.get(), detail::bytes(key), key.size()));
  }
  std::size_t size() const noexcept { return hlc_file_batch_many(raw_.get()); }
  void clear() noexcept { hlc_file_batch_clear(raw_.get()); }

 private:
  friend class file;
  std::unique_ptr<hlc_file_batch, detail::drop_batch> raw_;
};

// The options and the state of a file are those of hlcstore_file.h. Options of `{}` are the defaults.
using file_options = hlc_file_options;
using file_state = hlc_file_state;

// An open file, which closes itself. A closed one, or one that was moved from, refuses each call with HLC_CLOSED.
class file {
 public:
  explicit file(const std::string& path, const file_options& options = {}) {
    if (path.find('\0') != path.npos) throw file_error(HLC_FILE_CANNOT_OPEN);
    file_state state{};
    const std::uint32_t code = hlc_file_open(path.c_str(), &options, &open_->raw, &state);
    if (code != HLC_OK) throw file_error(code, state.word, state.sqlite);
  }
  file(file&&) noexcept = default;
  file& operator=(file&& other) {
    if (this != &other) {
      close();
      open_ = std::move(other.open_);
    }
    return *this;
  }
  ~file() {
    // A snapshot that is left has a share, and must find the file closed.
    if (open_) hlc_file_close(std::exchange(open_->raw, nullptr));
  }

  // Closes the file, as a new value does. Where it throws, the file is closed all the same, and what was `written` may
  // not be synced.
  void close() {
    const std::shared_ptr<detail::open_file> closed = std::move(open_);
    if (closed) detail::check_file(hlc_file_close(std::exchange(closed->raw, nullptr)));
  }

  file_state status() const {
    file_state state{};
    state.size = sizeof state;
    detail::check_file(hlc_file_status(own().get(), &state));
    return state;
  }

  // ---- Writes, each with the stamp of its event or of its last item ----

  timestamp write(std::string_view key, std::string_view value, origin from = {}) {
    return {own().word_of(hlc_file_write, from.node, from.reading, detail::bytes(key), key.size(),
                          detail::bytes(value), value.size())};
  }
  timestamp erase(std::string_view key, origin from = {}) {
    return {own().word_of(hlc_file_delete, from.node, from.reading, detail::bytes(key), key.size())};
  }
  timestamp report(origin from = {}) { return {own().word_of(hlc_file_report, from.node, from.reading)}; }
  timestamp retire(origin from = {}) { return {own().word_of(hlc_file_retire, from.node, from.reading)}; }

  // Appends a batch of 1 to 256 different keys as one item, so that all of its writes have one stamp.
  timestamp write_batch(file_batch& batch, origin from = {}, promise given = promise::of_options) {
    return {own().word_of(hlc_file_write_batch, from.node, from.reading, batch.raw_.get(), std::uint32_t(given))};
  }

  // Appends a batch of any size as items in turn, and returns the stamp of the last one, at which a snapshot has them
  // all. No crash divides the batch, but a snapshot at an earlier stamp does.
  timestamp append(file_batch& batch, origin from = {}, promise given = promise::of_options) {
    return {own().word_of(hlc_file_append, from.node, from.reading, batch.raw_.get(), std::uint32_t(given))};
  }

  // The stamp of a message from a node, and of the receipt of one with the stamp `seen`.
  timestamp send(origin from = {}) { return {own().word_of(hlc_file_send, from.node, from.reading)}; }
  timestamp receive(timestamp seen, origin from = {}) {
    return {own().word_of(hlc_file_receive, from.node, seen.word, from.reading)};
  }

  // Appends records of other machines, and returns how many they are, or how many came before the refused one.
  [[nodiscard]] log_answer append_records(std::string_view bytes, promise given = promise::of_options) {
    log_answer made;
    made.code = hlc_file_append_records(own().get(), detail::bytes(bytes), bytes.size(), std::uint32_t(given),
                                        &made.many, &made.word);
    return made;
  }

  // Lets a node join at the floor (closed timestamp), and returns its number and its start.
  std::pair<std::uint16_t, timestamp> join() {
    std::uint16_t node;
    const std::uint64_t start = own().word_of(hlc_file_join, &node);
    return {node, {start}};
  }

  // Saves a checkpoint, and returns the place in the log up to which it goes.
  std::uint64_t checkpoint() { return own().word_of(hlc_file_checkpoint); }

  // Writes the bytes of a checkpoint to a stream in pieces, with a tag of the program's: from them hlcstore::store
  // opens in memory. Writes wait while the state is copied into memory, and go on while the stream is written. A stream
  // that fails gets no more: its state says so.
  void checkpoint_to(std::ostream& out, std::uint64_t tag = 0) const {
    detail::output copied;
    std::size_t len;
    detail::check_file(hlc_file_copy(own().get(), tag, copied.raw(), &len));
    copied.write_to(out, len);
  }

  // Drops the rows that no reader needs: up to a stamp, or up to that which the system's clock had so long ago.
  vacuum_report vacuum_to(timestamp stamp) { return vacuum(hlc_file_vacuum_to, stamp.word); }
  vacuum_report vacuum_older(std::chrono::milliseconds age) {
    return vacuum(hlc_file_vacuum_older, static_cast<std::uint64_t>(age.count()));
  }

  // ---- Reads ----

  // Opens a snapshot: at the floor, or at a stamp from the horizon to the floor.
  file_snapshot open_snapshot() & {
    std::uint64_t id, stamp;
    detail::check_file(hlc_file_open_snapshot_at_floor(own().get(), &id, &stamp));
    return {open_, id, {stamp}};
  }
  file_snapshot open_snapshot(timestamp stamp) & {
    return {open_, own().word_of(hlc_file_open_snapshot, stamp.word), stamp};
  }
  file_snapshot open_snapshot() && = delete;
  file_snapshot open_snapshot(timestamp stamp) && = delete;

  // Passes the handle of the store to a function, for calls of hlcstore.h that only ask, and returns what that returns.
  // The function makes no other call with the file. Writes wait for it.
  template <class Asks>
  auto read(Asks asks) const {
    hlc_store mine;
    const detail::reading lent(own().get(), mine);
    return asks(&mine);
  }

  timestamp floor() const { return {own().word_of(hlc_file_floor)}; }
  timestamp horizon() const { return {own().word_of(hlc_file_horizon)}; }

 private:
  const detail::open_file& own() const {
    if (!open_) throw file_error(HLC_CLOSED);
    return *open_;
  }

  template <class Call>
  vacuum_report vacuum(Call call, std::uint64_t to) {
    vacuum_report made;
    const std::uint32_t code = call(own().get(), to, &made.stamp.word, &made.kept, &made.bytes, &made.dropped);
    detail::check_file(code, made.stamp.word);
    return made;
  }

  std::shared_ptr<detail::open_file> open_ = std::make_shared<detail::open_file>();
};

}  // namespace hlcstore
#endif
