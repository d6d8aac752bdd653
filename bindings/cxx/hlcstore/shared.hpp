// Part of hlcstore.hpp: a store for several threads, and its snapshots.
#ifndef HLCSTORE_SHARED_HPP
#define HLCSTORE_SHARED_HPP
#include <cstddef>
#include <cstdint>
#include <functional>
#include <memory>
#include <mutex>
#include <optional>
#include <ostream>
#include <shared_mutex>
#include <string>
#include <string_view>
#include <type_traits>
#include <utility>
#include <vector>

#include "error.hpp"
#include "node.hpp"
#include "slots.hpp"
#include "snapshot.hpp"
#include "store.hpp"

namespace hlcstore {

namespace detail {

// A store and its lock, which a shared store has in common with its snapshots.
struct guarded_store {
  explicit guarded_store(hlcstore::store owned) noexcept : store(std::move(owned)) {}

  slot_mutex mutex;
  hlcstore::store store;
};

// An open snapshot of a shared store.
struct guarded_view {
  std::shared_ptr<guarded_store> guarded;
  view open;
};

// Entries of a shared store: the lock is held while a piece is fetched, and not between.
template <class Entries>
struct guarded : Entries {
  using source = guarded_view;
  guarded() = default;
  explicit guarded(const Entries& entries) : Entries(entries) {}
  part scan(const guarded_view& view, std::string_view from, std::string_view to, std::size_t room) const {
    if (!view.guarded) throw error(HLC_NO_SNAPSHOT);
    const std::shared_lock lock(view.guarded->mutex);
    return Entries::scan(view.open, from, to, room);
  }
};

// Whether a result goes on making calls with the store.
template <class Result, class... Types>
inline constexpr bool is_one_of = (std::is_same_v<Result, Types> || ...);
template <class Result>
inline constexpr bool makes_calls =
    is_one_of<Result, snapshot, pair_range, back_range, key_range, change_range, owning_pair_range, owning_back_range,
              owning_key_range, pair_range::iterator, back_range::iterator, key_range::iterator,
              change_range::iterator>;

// Makes a call under a lock. What it returns is used without the lock.
template <class Call, class... Arguments>
auto call_locked(Call& call, Arguments&&... arguments) {
  using result = std::decay_t<std::invoke_result_t<Call&, Arguments...>>;
  static_assert(!makes_calls<result>, "a snapshot, a range or an iterator must not leave the lock");
  static_assert(!std::is_same_v<result, std::optional<std::string_view>>, "a view of a value must not leave the lock");
  return std::invoke(call, std::forward<Arguments>(arguments)...);
}

}  // namespace detail

using shared_pair_range = range<detail::guarded<detail::pairs>>;
using shared_back_range = range<detail::guarded<detail::pairs_back>>;
using shared_key_range = range<detail::guarded<detail::keys>>;

// A snapshot of a shared store. It closes itself under the store's lock. Its methods may run beside each other, except
// those that close, move or destroy it, and each holds the lock while it reads. A range holds it while it fetches a
// piece, so that a loop over many pairs keeps no writer waiting.
class shared_snapshot {
 public:
  // One that is not open: its calls throw HLC_NO_SNAPSHOT.
  shared_snapshot() noexcept = default;
  shared_snapshot(shared_snapshot&&) noexcept = default;
  shared_snapshot& operator=(shared_snapshot&& other) noexcept {
    if (this != &other) {
      close();
      guarded_ = std::move(other.guarded_);
      snapshot_ = std::move(other.snapshot_);
    }
    return *this;
  }
  ~shared_snapshot() { close(); }

  // Passes the snapshot to a function, beside other readers. What it returns must be no range or iterator, and no view
  // of a value.
  template <class Call>
  auto read(Call call) const {
    if (!guarded_) throw error(HLC_NO_SNAPSHOT);
    const std::shared_lock lock(guarded_->mutex);
    return detail::call_locked(call, snapshot_);
  }

  std::uint64_t id() const noexcept { return snapshot_.id(); }
  timestamp stamp() const noexcept { return snapshot_.stamp(); }

  std::optional<std::string> get(std::string_view key) const {
    return read([&](const snapshot& open) { return open.get(key); });
  }
  std::vector<std::optional<std::string>> get_all(const std::vector<std::string_view>& keys) const {
    return read([&](const snapshot& open) { return open.get_all(keys); });
  }
  std::optional<std::pair<std::string, std::string>> last_below(std::string_view key = {}) const {
    return read([&](const snapshot& open) { return open.last_below(key); });
  }
  std::string list() const {
    return read([](const snapshot& open) { return open.list(); });
  }
  std::uint64_t count(std::string_view from = {}, std::string_view to = {}) const {
    return read([&](const snapshot& open) { return open.count(from, to); });
  }
  std::string digest(std::string_view from = {}, std::string_view to = {}) const {
    return read([&](const snapshot& open) { return open.digest(from, to); });
  }

  shared_pair_range::iterator begin() const& { return range().begin(); }
  shared_pair_range::iterator begin() && = delete;
  shared_pair_range::iterator end() const noexcept { return {}; }
  shared_pair_range range(std::string_view from = {}, std::string_view to = {}) const& { return {view(), from, to}; }
  shared_pair_range range(std::string_view from = {}, std::string_view to = {}) && = delete;
  shared_back_range range_back(std::string_view from = {}, std::string_view to = {}) const& {
    return {view(), from, to};
  }
  shared_back_range range_back(std::string_view from = {}, std::string_view to = {}) && = delete;
  shared_key_range keys(std::string_view from = {}, std::string_view to = {}) const& { return {view(), from, to}; }
  shared_key_range keys(std::string_view from = {}, std::string_view to = {}) && = delete;

  // Closes the snapshot. Its calls throw HLC_NO_SNAPSHOT from then on.
  void close() noexcept {
    const std::shared_ptr<detail::guarded_store> guarded = std::move(guarded_);
    if (!guarded) return;
    const std::unique_lock lock(guarded->mutex);
    snapshot_.close();
  }

 private:
  friend class shared_store;
  friend class ranges_snapshot;

  shared_snapshot(std::shared_ptr<detail::guarded_store> guarded, snapshot owned) noexcept
      : guarded_(std::move(guarded)), snapshot_(std::move(owned)) {}

  detail::guarded_view view() const noexcept { return {guarded_, snapshot_.view_}; }

  std::shared_ptr<detail::guarded_store> guarded_;
  snapshot snapshot_;
};

// A store for several threads, under a lock: readers run beside each other, and a change alone. A change that waits
// comes before later readers. So a function that gets the store, or one of its snapshots, uses these alone: to lock
// again would be to wait for itself. The other methods are those of a store, and each holds the lock while it runs.
// Moving or destroying a shared store needs it alone. One that was moved from refuses each call with HLC_CLOSED.
class shared_store {
  // Makes a call of the store: beside other readers, or alone.
  template <class Method, class... Arguments>
  auto ask(Method method, const Arguments&... arguments) const {
    const std::shared_lock lock(get().mutex);
    return detail::call_locked(method, std::as_const(get().store), arguments...);
  }
  template <class Method, class... Arguments>
  auto make(Method method, const Arguments&... arguments) {
    const std::unique_lock lock(get().mutex);
    return detail::call_locked(method, get().store, arguments...);
  }

 public:
  explicit shared_store(store owned) : guarded_(std::make_shared<detail::guarded_store>(std::move(owned))) {}
  shared_store(shared_store&&) noexcept = default;
  shared_store& operator=(shared_store&& other) noexcept {
    if (this != &other) {
      close();
      guarded_ = std::move(other.guarded_);
    }
    return *this;
  }
  ~shared_store() { close(); }

  // Passes the store to a function that only asks, beside other readers.
  template <class Call>
  auto read(Call call) const {
    const std::shared_lock lock(get().mutex);
    return detail::call_locked(call, std::as_const(get().store));
  }

  // Passes the store to a function that changes it. What it returns must be no snapshot.
  template <class Call>
  auto change(Call call) {
    const std::unique_lock lock(get().mutex);
    return detail::call_locked(call, get().store);
  }

  // Closes the store. Its snapshots throw HLC_CLOSED from then on.
  void close() noexcept {
    if (!guarded_) return;
    const std::unique_lock lock(guarded_->mutex);
    guarded_->store.close();
  }

  // ---- Items ----

  void accept_write(const item& item, std::string_view key, std::string_view value) {
    make(&store::accept_write, item, key, value);
  }
  void accept_erase(const item& item, std::string_view key) { make(&store::accept_erase, item, key); }
  void accept_batch(const item& item, const batch& writes) { make(&store::accept_batch, item, writes); }
  void accept_report(const item& item) { make(&store::accept_report, item); }
  void accept_retire(const item& item) { make(&store::accept_retire, item); }
  void accept(const owned_item& item) {
    change([&](store& changed) { changed.accept(item); });
  }
  [[nodiscard]] list_answer accept(const item_list& items) {
    return change([&](store& changed) { return changed.accept(items); });
  }
  [[nodiscard]] log_answer accept_log(std::string_view bytes) { return make(&store::accept_log, bytes); }
  [[nodiscard]] records_answer apply_records(std::string_view bytes) { return make(&store::apply_records, bytes); }
  [[nodiscard]] answer check_write(const item& item, std::string_view key, std::string_view value) const {
    return ask(&store::check_write, item, key, value);
  }
  [[nodiscard]] answer check_erase(const item& item, std::string_view key) const {
    return ask(&store::check_erase, item, key);
  }
  [[nodiscard]] answer check_batch(const item& item, const batch& writes) const {
    return ask(&store::check_batch, item, writes);
  }
  [[nodiscard]] answer check_report(const item& item) const { return ask(&store::check_report, item); }
  node join() { return make(&store::join); }
  node join_at(timestamp start) { return make(&store::join_at, start); }

  // ---- Snapshots ----

  // Opens a snapshot: at the floor, or at a stamp. The store must outlive it, so a temporary one has no such call.
  shared_snapshot open_snapshot() & {
    const std::unique_lock lock(get().mutex);
    return {guarded_, get().store.open_snapshot()};
  }
  shared_snapshot open_snapshot(timestamp stamp) & {
    const std::unique_lock lock(get().mutex);
    return {guarded_, get().store.open_snapshot(stamp)};
  }
  shared_snapshot open_snapshot() && = delete;
  shared_snapshot open_snapshot(timestamp stamp) && = delete;
  std::vector<snapshot_info> snapshots() const { return ask(&store::snapshots); }
  void close_all() { make(&store::close_all); }

  // ---- What the store has ----

  timestamp floor() const { return ask(&store::floor); }
  timestamp horizon() const { return ask(&store::horizon); }
  std::uint64_t rows() const { return ask(&store::rows); }
  std::uint64_t nodes() const { return ask(&store::nodes); }
  store_sizes sizes() const { return ask(&store::sizes); }
  link_state link(std::uint16_t node) const { return ask(&store::link, node); }
  std::optional<std::uint16_t> floor_node() const { return ask(&store::floor_node); }
  std::vector<key_version> versions(std::string_view key, timestamp above = {}, timestamp to = {UINT64_MAX}) const {
    return ask(&store::versions, key, above, to);
  }

  // ---- Vacuum and checkpoint ----

  vacuum_report vacuum() { return make(&store::vacuum); }
  vacuum_report vacuum_to(timestamp stamp) { return make(&store::vacuum_to, stamp); }
  partial_vacuum vacuum_part(timestamp stamp, std::string_view after = {}, std::size_t limit = 1024) {
    return make(&store::vacuum_part, stamp, after, limit);
  }

  // Makes a vacuum_to by its parts, each of this many keys and alone under the lock. Readers that wait run between two
  // parts. Where it throws, parts were made, and it may be called again.
  vacuum_report vacuum_in_parts(timestamp stamp, std::size_t limit = 1024) {
    vacuum_report all{stamp, 0, 0, 0};
    for (std::optional<std::string> after = ""; after;) {
      partial_vacuum made = vacuum_part(stamp, *after, limit);
      all.kept += made.kept;
      all.bytes += made.bytes;
      all.dropped += made.dropped;
      after = std::move(made.next);
      if (after) get().mutex.let_readers_in();
    }
    return all;
  }
  [[nodiscard]] answer check_vacuum(timestamp stamp) const { return ask(&store::check_vacuum, stamp); }
  certified certificate(timestamp stamp) const { return ask(&store::certificate, stamp); }
  std::string checkpoint(std::uint64_t tag) const { return ask(&store::checkpoint, tag); }
  // Readers go on while the stream is written; changes wait, and so does another such call.
  void checkpoint_to(std::ostream& out, std::uint64_t tag) const {
    const std::unique_lock lock = get().mutex.lock_for_long();
    std::as_const(get().store).checkpoint_to(out, tag);
  }
  std::string increment(timestamp since, std::uint64_t tag) const { return ask(&store::increment, since, tag); }

 private:
  friend class ranges;

  detail::guarded_store& get() const {
    if (!guarded_) throw error(HLC_CLOSED);
    return *guarded_;
  }

  std::shared_ptr<detail::guarded_store> guarded_;
};

}  // namespace hlcstore
#endif
