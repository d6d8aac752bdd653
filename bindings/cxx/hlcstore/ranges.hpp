// Part of hlcstore.hpp: one key space over several stores, and the machines that write to them.
//
// Each store has the keys of its own range, or those of a hash, and a lock of its own. A machine has one clock and a
// node of the same number in each store. A cut is a stamp at or below the floor of every store: each store has accepted
// all items up to it that were issued for it, with all that happened before them. So a snapshot at a cut is one of all
// stores.
#ifndef HLCSTORE_RANGES_HPP
#define HLCSTORE_RANGES_HPP
#include <algorithm>
#include <cstddef>
#include <cstdint>
#include <memory>
#include <mutex>
#include <optional>
#include <stdexcept>
#include <string>
#include <string_view>
#include <utility>
#include <vector>

#include "error.hpp"
#include "node.hpp"
#include "shared.hpp"
#include "snapshot.hpp"
#include "store.hpp"

namespace hlcstore {

// How keys are divided among 1 to 1,024 stores, which are numbered from 0. Its copies share the boundaries.
class division {
 public:
  // By boundaries, whose bytes must ascend: the first store has the keys below the first of them, and each further one
  // the keys from a boundary on, up to the next one and without it. Throws std::invalid_argument where they do not
  // ascend.
  static division by_keys(std::vector<std::string> boundaries) {
    const auto falls = [](const std::string& a, const std::string& b) { return a >= b; };
    if (std::adjacent_find(boundaries.begin(), boundaries.end(), falls) != boundaries.end())
      throw std::invalid_argument("the boundaries of the stores do not ascend");
    const std::size_t stores = boundaries.size() + 1;
    return division(stores, std::move(boundaries));
  }

  // By the FNV-1a hash of the key, in 64 bits: the rest that it leaves, divided by the number of stores.
  static division by_hash(std::size_t stores) { return division(stores, std::nullopt); }

  std::size_t stores() const noexcept { return stores_; }
  bool is_by_keys() const noexcept { return static_cast<bool>(boundaries_); }

  // The store of a key.
  std::size_t store_of(std::string_view key) const noexcept {
    if (!boundaries_) return hash(key) % stores_;
    return static_cast<std::size_t>(std::upper_bound(boundaries_->begin(), boundaries_->end(), key) -
                                    boundaries_->begin());
  }

 private:
  division(std::size_t stores, std::optional<std::vector<std::string>> boundaries) : stores_(stores) {
    if (stores == 0 || stores > 1024) throw std::invalid_argument("the number of stores is not 1 to 1,024");
    if (boundaries) boundaries_ = std::make_shared<const std::vector<std::string>>(std::move(*boundaries));
  }

  static std::uint64_t hash(std::string_view key) noexcept {
    std::uint64_t hash = 0xcbf29ce484222325;
    for (const char byte : key) hash = (hash ^ static_cast<unsigned char>(byte)) * 0x100000001b3;
    return hash;
  }

  std::size_t stores_;
  std::shared_ptr<const std::vector<std::string>> boundaries_;
};

// An item is for another store than that of its key, or a batch has keys of several stores. Nothing was changed.
class wrong_store : public std::invalid_argument {
 public:
  wrong_store() : std::invalid_argument("the item is for another store than that of its key") {}
};

namespace detail {

// The store of all keys of a batch. Throws wrong_store where they are of several stores. No keys are of the first one.
inline std::size_t store_of(const division& divided, const batch& writes) {
  std::optional<std::size_t> store;
  for (const batch_write& write : writes) {
    if (store.value_or(divided.store_of(write.key)) != divided.store_of(write.key)) throw wrong_store();
    store = divided.store_of(write.key);
  }
  return store.value_or(0);
}

}  // namespace detail

// An item, and the store that it is for.
struct routed_item {
  std::size_t store = 0;
  owned_item item;

  friend bool operator==(const routed_item& a, const routed_item& b) noexcept {
    return a.store == b.store && a.item == b.item;
  }
  friend bool operator!=(const routed_item& a, const routed_item& b) noexcept { return !(a == b); }
};

// A machine: a node in each store, all with one number, which share one clock. A plain value, for one thread at a time;
// where a call throws, it is as it was before.
class machine {
  // Lets the node of a store act at the machine's clock.
  template <class Call>
  auto act(std::size_t store, Call call) {
    node acting = nodes_.at(store);
    acting.raise(last_);
    auto made = call(acting);
    // Nothing is thrown from here on.
    last_ = acting.last();
    nodes_[store] = acting;
    return made;
  }

 public:
  // A new machine that is there from the beginning, where its clock starts at 0; ranges::join makes a later one.
  machine(hlcstore::division divided, std::uint16_t id) : machine(std::move(divided), id, timestamp()) {}

  std::uint16_t id() const noexcept { return id_; }
  // The stamp of the machine's last event.
  timestamp last() const noexcept { return last_; }

  routed_item write(std::uint64_t reading, std::string_view key, std::string_view value) {
    const std::size_t store = division_.store_of(key);
    return {store, act(store, [&](node& acting) {
              return owned_item{acting.write(reading, key, value), item_kind::write, std::string(key),
                                std::string(value)};
            })};
  }
  routed_item erase(std::uint64_t reading, std::string_view key) {
    const std::size_t store = division_.store_of(key);
    return {store, act(store, [&](node& acting) {
              return owned_item{acting.erase(reading, key), item_kind::erase, std::string(key), {}};
            })};
  }

  // All writes of a batch as one item, for the store that has their keys. Throws wrong_store where these are of several
  // stores: then nothing is issued.
  routed_item write_batch(std::uint64_t reading, const batch& writes) {
    const std::size_t store = detail::store_of(division_, writes);
    return {store, act(store, [&](node& acting) {
              return owned_item{acting.write_batch(reading, writes), item_kind::batch, {}, {}, writes};
            })};
  }

  // A report for each store from which the machine has not retired, so that the floor of each may rise to this reading;
  // and the last item for each of them. It issues nothing after that: then a report is refused with HLC_RETIRED.
  std::vector<routed_item> report_all(std::uint64_t reading) {
    machine next(*this);
    std::vector<routed_item> made;
    const bool is_over = has_retired();
    for (std::size_t store = 0; store < nodes_.size(); store++) {
      if (nodes_[store].retired() && !is_over) continue;
      const item report = next.act(store, [&](node& acting) { return acting.report(reading); });
      made.push_back({store, {report, item_kind::report, {}, {}}});
    }
    std::swap(*this, next);
    return made;
  }
  std::vector<routed_item> retire_all(std::uint64_t reading) {
    machine next(*this);
    std::vector<routed_item> made;
    for (std::size_t store = 0; store < nodes_.size(); store++) {
      if (nodes_[store].retired()) continue;
      const item last = next.act(store, [&](node& acting) { return acting.retire(reading); });
      made.push_back({store, {last, item_kind::retire, {}, {}}});
    }
    std::swap(*this, next);
    return made;
  }

  // Returns the stamp that goes with a message to another machine.
  timestamp send(std::uint64_t reading) {
    return act(0, [&](node& acting) { return acting.send(reading); });
  }
  // Receives a message with the stamp `seen`, and returns the stamp of this event.
  timestamp receive(timestamp seen, std::uint64_t reading) {
    return act(0, [&](node& acting) { return acting.receive(seen, reading); });
  }
  // The machine has read a snapshot: what it writes from then on comes after what was read there.
  timestamp observe(timestamp stamp, std::uint64_t reading) { return receive(stamp, reading); }

 private:
  friend class ranges;

  machine(hlcstore::division divided, std::uint16_t id, timestamp start)
      : division_(std::move(divided)), id_(id), last_(start), nodes_(division_.stores(), node(id, start)) {}

  // Whether it retired from all stores.
  bool has_retired() const noexcept {
    return std::all_of(nodes_.begin(), nodes_.end(), [](const node& one) { return one.retired(); });
  }

  hlcstore::division division_;
  std::uint16_t id_;
  timestamp last_;
  std::vector<node> nodes_;
};

namespace detail {

// The open snapshots of the stores that may have keys of a range. Those of a division by keys come in the order of
// their keys.
struct joint_view {
  std::vector<guarded_view> views;
  bool in_turn = false;
};

// Entries of several stores, in byte order.
template <class Entries>
struct joint : Entries {
  using source = joint_view;
};

// A place in a range of several stores. Stores whose keys ascend are read one after another; of others, each has a
// cursor, and the least entry comes first. The last entry stays where the cursors throw.
template <class Entries>
class cursor<joint<Entries>> {
  using part_cursor = cursor<guarded<Entries>>;

 public:
  cursor(const joint_view& views, joint<Entries>, std::string_view from, std::string_view to)
      : views_(views), from_(from), to_(to) {
    heap_.reserve(views_.views.size() + 1);
  }
  cursor(const cursor&) = delete;
  cursor& operator=(const cursor&) = delete;

  const typename Entries::value_type& entry() const noexcept { return place_->entry(); }

  bool advance() {
    if (place_ && place_->advance()) {
      heap_.push_back(std::move(place_));
      std::push_heap(heap_.begin(), heap_.end(), comes_later);
      take_least();
      return true;
    }
    while (next_ < views_.views.size() && (!views_.in_turn || heap_.empty())) {
      auto begun = std::make_unique<part_cursor>(views_.views[next_], guarded<Entries>(), from_, to_);
      const bool has_entry = begun->advance();
      next_++;
      if (!has_entry) continue;
      heap_.push_back(std::move(begun));
      std::push_heap(heap_.begin(), heap_.end(), comes_later);
    }
    if (heap_.empty()) return false;
    take_least();
    return true;
  }

 private:
  static bool comes_later(const std::unique_ptr<part_cursor>& a, const std::unique_ptr<part_cursor>& b) noexcept {
    return Entries::is_after(Entries::key(a->entry()), Entries::key(b->entry()));
  }

  void take_least() noexcept {
    std::pop_heap(heap_.begin(), heap_.end(), comes_later);
    place_ = std::move(heap_.back());
    heap_.pop_back();
  }

  joint_view views_;
  std::string from_, to_;
  std::size_t next_ = 0;
  // The cursor of the entry, and those whose entries come later.
  std::unique_ptr<part_cursor> place_;
  std::vector<std::unique_ptr<part_cursor>> heap_;
};

}  // namespace detail

using joint_pair_range = range<detail::joint<detail::pairs>>;
using joint_key_range = range<detail::joint<detail::keys>>;

// A snapshot of all stores at one stamp, which closes itself. Its methods may run beside each other, except those that
// close, move or destroy it. A range goes over the stores in byte order, from the key `from` on, up to the key `to` and
// without it, or to the end if `to` has no bytes. It fetches pieces of up to 64 KiB: of one store at a time where the
// division is by keys, and of all where it is by hash.
class ranges_snapshot {
 public:
  ranges_snapshot(ranges_snapshot&&) noexcept = default;
  ranges_snapshot& operator=(ranges_snapshot&&) noexcept = default;

  timestamp stamp() const noexcept { return stamp_; }

  std::optional<std::string> get(std::string_view key) const { return open().at(division_.store_of(key)).get(key); }

  joint_pair_range::iterator begin() const& { return range().begin(); }
  joint_pair_range::iterator begin() && = delete;
  joint_pair_range::iterator end() const noexcept { return {}; }
  joint_pair_range range(std::string_view from = {}, std::string_view to = {}) const& {
    return {views(from, to), from, to};
  }
  joint_pair_range range(std::string_view from = {}, std::string_view to = {}) && = delete;
  joint_key_range keys(std::string_view from = {}, std::string_view to = {}) const& {
    return {views(from, to), from, to};
  }
  joint_key_range keys(std::string_view from = {}, std::string_view to = {}) && = delete;

  std::uint64_t count(std::string_view from = {}, std::string_view to = {}) const {
    std::uint64_t many = 0;
    for (const shared_snapshot& one : open()) many += one.count(from, to);
    return many;
  }

  // Closes the snapshot in all stores. Its calls throw HLC_NO_SNAPSHOT from then on.
  void close() noexcept { snapshots_.clear(); }

 private:
  friend class ranges;

  ranges_snapshot(hlcstore::division divided, std::vector<shared_snapshot> snapshots, timestamp stamp) noexcept
      : division_(std::move(divided)), snapshots_(std::move(snapshots)), stamp_(stamp) {}

  const std::vector<shared_snapshot>& open() const {
    if (snapshots_.empty()) throw error(HLC_NO_SNAPSHOT);
    return snapshots_;
  }

  detail::joint_view views(std::string_view from, std::string_view to) const {
    detail::joint_view found{{}, division_.is_by_keys()};
    const std::size_t first = found.in_turn ? division_.store_of(from) : 0;
    const std::size_t last = found.in_turn && !to.empty() ? division_.store_of(to) : open().size() - 1;
    for (std::size_t store = first; store <= last; store++) found.views.push_back(open()[store].view());
    return found;
  }

  hlcstore::division division_;
  std::vector<shared_snapshot> snapshots_;
  timestamp stamp_;
};

// Several stores with one key space. All methods may be called by several threads at once, except those that move or
// destroy it. Each holds the lock of one store at a time; `join` holds those of all. One that was moved from may only
// be destroyed, or assigned to.
class ranges {
 public:
  ranges(ranges&&) noexcept = default;
  ranges& operator=(ranges&&) noexcept = default;

  // Opens the stores, each with the nodes of this many machines, 1 to 64. They are numbered from 0.
  ranges(hlcstore::division divided, std::uint16_t machines) : division_(std::move(divided)) {
    stores_.reserve(division_.stores());
    while (stores_.size() < division_.stores()) stores_.emplace_back(store(machines));
  }

  // Opens the stores from their checkpoints, without the snapshots that were open then. The division must be that of
  // the stores that were saved, which nothing checks. Throws std::invalid_argument where it has another number of
  // stores, or the stores have differing numbers of nodes: not all checkpoints are of one call then.
  static ranges restore(hlcstore::division divided, const std::vector<std::string>& checkpoints) {
    if (checkpoints.size() != divided.stores())
      throw std::invalid_argument("there must be one checkpoint for each store");
    ranges restored(std::move(divided));
    for (const std::string& saved : checkpoints) {
      store one;
      one.restore(saved);
      one.close_all();
      restored.stores_.emplace_back(std::move(one));
      if (restored.stores_.back().nodes() != restored.stores_.front().nodes())
        throw std::invalid_argument("the checkpoints have differing numbers of nodes");
    }
    return restored;
  }

  const hlcstore::division& division() const noexcept { return division_; }
  std::size_t stores() const noexcept { return stores_.size(); }
  std::size_t store_of(std::string_view key) const noexcept { return division_.store_of(key); }

  // A store, for calls that only ask.
  const shared_store& store_at(std::size_t store) const { return stores_.at(store); }
  timestamp floor(std::size_t store) const { return store_at(store).floor(); }

  // How many machines have a node in every store, those that retired too.
  std::uint64_t nodes() const {
    std::uint64_t least = UINT64_MAX;
    for (const shared_store& one : stores_) least = std::min(least, one.nodes());
    return least;
  }

  // The sum of the rows of all stores.
  std::uint64_t rows() const {
    std::uint64_t all = 0;
    for (const shared_store& one : stores_) all += one.rows();
    return all;
  }

  // The greatest cut: the least floor of all stores. It stays a cut, whatever comes later.
  timestamp cut() const {
    timestamp least{UINT64_MAX};
    for (const shared_store& one : stores_) least = std::min(least, one.floor());
    return least;
  }

  // ---- Machines ----

  // A machine as its nodes' links have it: a new one, or one after a restart, once all its items are accepted that it
  // issued before. Its clock is at or above `least`, which is the greatest stamp that the machine may have sent: a
  // message leaves nothing in the stores. It throws HLC_NO_NODE where a store has no such node.
  hlcstore::machine machine(std::uint16_t id, timestamp least = {}) const {
    hlcstore::machine restored(division_, id);
    restored.last_ = least;
    for (std::size_t store = 0; store < stores(); store++) {
      const link_state link = store_at(store).link(id);
      restored.last_ = std::max(restored.last_, link.head);
      if (link.retired) {
        restored.nodes_[store].retire(0);  // The item is not used: from then on the node refuses.
      } else {
        restored.nodes_[store] = node::restore(id, link.head, link.next);
      }
    }
    return restored;
  }

  // Lets a new machine join: its node gets the same number in every store, and starts at one stamp, the greatest floor.
  // It holds all locks meanwhile, and all refusals but HLC_NO_MEMORY come before anything is changed. After
  // HLC_NO_MEMORY some stores have the node, which holds the cut back: the next call gives it to the others.
  hlcstore::machine join() {
    std::vector<std::unique_lock<detail::slot_mutex>> locks;
    locks.reserve(stores());
    timestamp start;
    std::uint64_t least = UINT64_MAX;
    for (shared_store& one : stores_) {
      locks.emplace_back(one.get().mutex);
      start = std::max(start, one.get().store.floor());
      least = std::min(least, one.get().store.nodes());
    }
    if (least >= 1024) throw error(HLC_TOO_MANY_NODES);
    const auto id = static_cast<std::uint16_t>(least);
    for (shared_store& one : stores_) {
      if (one.get().store.nodes() > least) start = std::max(start, one.get().store.link(id).head);
    }
    hlcstore::machine joined(division_, id, start);
    for (shared_store& one : stores_) {
      if (one.get().store.nodes() == least) one.get().store.join_at(start);
    }
    return joined;
  }

  // ---- Items ----

  // Accepts an item of a store. Throws wrong_store where its key is another store's, and std::out_of_range where there
  // is no such store.
  void accept(std::size_t store, const owned_item& item) {
    const bool has_key = item.kind == item_kind::write || item.kind == item_kind::erase;
    shared_store& taker = stores_.at(store);
    if (has_key && store_of(item.key) != store) throw wrong_store();
    for (const batch_write& write : item.writes) {
      if (item.kind == item_kind::batch && store_of(write.key) != store) throw wrong_store();
    }
    taker.accept(item);
  }
  void accept(const routed_item& made) { accept(made.store, made.item); }

  // Lets a machine issue an item, and the store of the key accept it; returns the stamp. Where it throws, neither
  // changed.
  timestamp write(hlcstore::machine& by, std::uint64_t reading, std::string_view key, std::string_view value) {
    const std::size_t store = store_of(key);
    return by.act(store, [&](node& acting) {
      const item made = acting.write(reading, key, value);
      stores_[store].accept_write(made, key, value);
      return made.stamp;
    });
  }
  timestamp erase(hlcstore::machine& by, std::uint64_t reading, std::string_view key) {
    const std::size_t store = store_of(key);
    return by.act(store, [&](node& acting) {
      const item made = acting.erase(reading, key);
      stores_[store].accept_erase(made, key);
      return made.stamp;
    });
  }

  // The same of a batch, whose keys are of one store: else it throws wrong_store.
  timestamp write_batch(hlcstore::machine& by, std::uint64_t reading, const batch& writes) {
    const std::size_t store = detail::store_of(division_, writes);
    return by.act(store, [&](node& acting) {
      const item made = acting.write_batch(reading, writes);
      stores_[store].accept_batch(made, writes);
      return made.stamp;
    });
  }

  // The same of its reports, or of its last items, for each store in turn from which it has not retired. Where it
  // throws, the stores before that one have theirs, as the machine knows, and it may be called again.
  void report_all(hlcstore::machine& by, std::uint64_t reading) {
    const bool is_over = by.has_retired();
    for (std::size_t store = 0; store < stores(); store++) {
      if (by.nodes_.at(store).retired() && !is_over) continue;
      by.act(store, [&](node& acting) {
        stores_[store].accept_report(acting.report(reading));
        return true;
      });
    }
  }
  void retire_all(hlcstore::machine& by, std::uint64_t reading) {
    for (std::size_t store = 0; store < stores(); store++) {
      if (by.nodes_.at(store).retired()) continue;
      by.act(store, [&](node& acting) {
        stores_[store].accept_retire(acting.retire(reading));
        return true;
      });
    }
  }

  // ---- Snapshots, vacuum and checkpoint ----

  // Opens a snapshot of all stores at the greatest cut, or at a stamp at or below that. Where a store refuses, it is
  // open in none. A vacuum that goes past the cut meanwhile is no refusal: then it opens at a newer cut.
  ranges_snapshot open_snapshot() & {
    for (int left = 8;; left--) {
      try {
        return open_at(cut());
      } catch (const error& refused) {
        if (refused.code() != HLC_BELOW_HORIZON || left == 0) throw;
      }
    }
  }
  ranges_snapshot open_snapshot(timestamp stamp) & {
    const timestamp greatest = cut();
    if (stamp > greatest) throw error(HLC_ABOVE_FLOOR, greatest.word);
    return open_at(stamp);
  }
  ranges_snapshot open_snapshot() && = delete;
  ranges_snapshot open_snapshot(timestamp stamp) && = delete;

  // Vacuums each store to the stamp, or to the cut where that is below it, in parts of this many keys. Its report has
  // the stamp, and sums over the stores. Where it throws, some stores were vacuumed, and it may be called again.
  vacuum_report vacuum_to(timestamp stamp, std::size_t limit = 1024) {
    vacuum_report all{std::min(stamp, cut()), 0, 0, 0};
    for (shared_store& one : stores_) {
      const vacuum_report made = one.vacuum_in_parts(all.stamp, limit);
      all.kept += made.kept;
      all.bytes += made.bytes;
      all.dropped += made.dropped;
    }
    return all;
  }

  // A checkpoint of each store, one after another, with the cut before the first as the tag. Each has at least all up
  // to that cut, no horizon above it, and the same nodes, so that what `restore` makes of them answers there as these
  // stores do. Where a machine joins meanwhile, or a vacuum goes past the cut, all are made anew. Throws
  // HLC_BELOW_HORIZON where vacuums overtook it eight times, and HLC_NO_NODE where some stores lack a node that others
  // have, after a join that ended with HLC_NO_MEMORY.
  std::vector<std::string> checkpoint() const {
    for (int left = 8;;) {
      const std::uint64_t machines = nodes();
      const timestamp tag = cut();
      timestamp horizon;
      bool has_joined = false;
      std::vector<std::string> saved;
      saved.reserve(stores());
      for (const shared_store& one : stores_) {
        saved.push_back(one.read([&](const store& asked) {
          horizon = std::max(horizon, asked.horizon());
          has_joined = has_joined || asked.nodes() != machines;
          return has_joined || horizon > tag ? std::string() : asked.checkpoint(tag.word);
        }));
      }
      if (has_joined) {
        // A join gives its node to all stores at once, so one failed midway where the least number did not rise.
        if (nodes() == machines) throw error(HLC_NO_NODE);
      } else if (horizon <= tag) {
        return saved;
      } else if (--left == 0) {
        throw error(HLC_BELOW_HORIZON, horizon.word);
      }
    }
  }

 private:
  explicit ranges(hlcstore::division divided) : division_(std::move(divided)) { stores_.reserve(division_.stores()); }

  ranges_snapshot open_at(timestamp stamp) {
    std::vector<shared_snapshot> opened;
    opened.reserve(stores());
    for (shared_store& one : stores_) opened.push_back(one.open_snapshot(stamp));
    return {division_, std::move(opened), stamp};
  }

  hlcstore::division division_;
  std::vector<shared_store> stores_;
};

}  // namespace hlcstore
#endif
