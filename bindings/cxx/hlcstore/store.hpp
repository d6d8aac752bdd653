// Part of hlcstore.hpp: the store, and what it answers and reports.
#ifndef HLCSTORE_STORE_HPP
#define HLCSTORE_STORE_HPP
#include <algorithm>
#include <cstddef>
#include <cstdint>
#include <memory>
#include <optional>
#include <ostream>
#include <string>
#include <string_view>
#include <utility>
#include <vector>

#include "call.hpp"
#include "error.hpp"
#include "node.hpp"
#include "snapshot.hpp"

namespace hlcstore {

// How many items of a list were accepted. At a refusal they are those before the refused one, and stay accepted.
struct list_answer : answer {
  std::size_t many = 0;
};

// How many items of a log were accepted or passed over, and how many bytes they have. At a refusal they are those
// before the refused one, and stay accepted.
struct log_answer : answer {
  std::size_t many = 0;
  std::size_t used = 0;
};

// The same of the records of a log, and the greatest retention threshold among them, or 0.
struct records_answer : log_answer {
  timestamp threshold;
};

// An open snapshot of a store: its id, and its stamp.
struct snapshot_info {
  std::uint64_t id = 0;
  timestamp stamp;
};

// What a store accepted from a node: the number of its next item, the stamp of its last one or of its start, and
// whether it retired.
struct link_state {
  std::uint64_t next = 0;
  timestamp head;
  bool retired = false;
};

// How much a store contains: how many rows; how many keys that have rows, and the bytes of these, each counted once;
// and the bytes of the values of all rows. A number is 2^64 - 1 where it would be greater.
struct store_sizes {
  std::uint64_t rows = 0;
  std::uint64_t keys = 0;
  std::uint64_t key_bytes = 0;
  std::uint64_t value_bytes = 0;
};

// A stored row of a key: the stamp of the write and its node, and the value, or none of a deletion.
struct key_version {
  timestamp stamp;
  std::uint16_t node = 0;
  std::optional<std::string> value;
};

// What a vacuum did up to a stamp: how many rows are left there, what they cost in bytes, and how many were dropped.
struct vacuum_report {
  timestamp stamp;
  std::uint64_t kept = 0;
  std::uint64_t bytes = 0;
  std::uint64_t dropped = 0;
};

// The certificate of the rows at or below a stamp: how many they are, what they cost in bytes, and its text.
struct certified {
  std::uint64_t kept = 0;
  std::uint64_t bytes = 0;
  std::string certificate;
};

// A part of a vacuum, with the numbers of its keys, and the key after which the next part goes on, or none after the
// last part.
struct partial_vacuum : vacuum_report {
  std::optional<std::string> next;
};

// What a certificate shows: no row set with the same answers has fewer rows, or costs fewer bytes.
struct shown {
  std::uint64_t rows = 0;
  std::uint64_t bytes = 0;
};

// Checks the text of a certificate.
inline shown check_certificate(std::string_view text) {
  shown found;
  detail::word_of(hlc_certificate_check, detail::bytes(text), text.size(), &found.rows, &found.bytes);
  return found;
}

// The bytes of the newer checkpoint that an older one becomes by an increment of the same store, with the increment's
// tag. `store::restore` opens a store from them, which answers as the newer one did; its next vacuum drops the rows
// that vacuums dropped since the older checkpoint. They may be the older checkpoint of the next increment.
inline std::string apply_increment(std::string_view older, std::string_view increment) {
  detail::output made;
  std::uint64_t word;
  std::size_t len;
  const std::uint32_t code = hlc_increment_apply(detail::bytes(older), older.size(), detail::bytes(increment),
                                                 increment.size(), made.raw(), &len, &word);
  detail::check(code, word);
  return made.text(len);
}

// The bytes of the two parts of a checkpoint at a key: the first has the rows of lower keys, the second the others.
// Each has the links, the open snapshots, the horizon and the tag of the whole, and goes on from the same log: it takes
// each write of another key as a report.
inline std::pair<std::string, std::string> split_checkpoint(std::string_view checkpoint, std::string_view key) {
  detail::output left, right;
  std::uint64_t word;
  std::size_t left_len, right_len;
  const std::uint32_t code = hlc_checkpoint_split(detail::bytes(checkpoint), checkpoint.size(), detail::bytes(key),
                                                  key.size(), left.raw(), right.raw(), &left_len, &right_len, &word);
  detail::check(code, word);
  return {left.text(left_len), right.text(right_len)};
}

// The bytes of the checkpoint that two neighbouring parts become, of which the left one has the lower keys. It has the
// tag of the left one. Where they do not fit it throws HLC_NOT_PARTS, with the number of the first thing that differs.
inline std::string merge_checkpoints(std::string_view left, std::string_view right) {
  detail::output made;
  std::uint64_t word;
  std::size_t len;
  const std::uint32_t code =
      hlc_checkpoint_merge(detail::bytes(left), left.size(), detail::bytes(right), right.size(), made.raw(), &len,
                           &word);
  detail::check(code, word);
  return made.text(len);
}

// A restore from the bytes of a checkpoint in pieces of any size. `store::restore` ends it.
class restoring {
 public:
  restoring() { detail::check(hlc_restoring_start(&raw_)); }
  restoring(const restoring&) = delete;
  restoring& operator=(const restoring&) = delete;
  ~restoring() { hlc_restoring_drop(&raw_); }

  void feed(std::string_view piece) { detail::check(hlc_restoring_feed(&raw_, detail::bytes(piece), piece.size())); }

 private:
  friend class store;
  hlc_restoring raw_ = HLC_NO_RESTORING;
};

// A store, which closes itself. A closed one refuses each call with HLC_CLOSED, except open and restore.
class store {
 public:
  store() noexcept = default;
  explicit store(std::uint16_t nodes) { open(nodes); }
  store(store&&) noexcept = default;
  store& operator=(store&& other) noexcept {
    if (this != &other) {
      close();
      handle_ = std::move(other.handle_);
    }
    return *this;
  }
  ~store() { close(); }

  void open(std::uint16_t nodes) {
    const auto opened = handle_or_new();
    detail::check(hlc_store_open(opened.get(), nodes));
    handle_ = opened;
  }

  // Opens a closed store from the bytes of a checkpoint, and returns the tag that was saved with it.
  std::uint64_t restore(std::string_view checkpoint) {
    const auto opened = handle_or_new();
    const std::uint64_t tag =
        detail::word_of(hlc_store_restore, opened.get(), detail::bytes(checkpoint), checkpoint.size());
    handle_ = opened;
    return tag;
  }

  // Opens a closed store from all pieces that were fed, in the same way.
  std::uint64_t restore(restoring& pieces) {
    const auto opened = handle_or_new();
    const std::uint64_t tag = detail::word_of(hlc_restoring_finish, &pieces.raw_, opened.get());
    handle_ = opened;
    return tag;
  }

  void close() noexcept {
    if (handle_) hlc_store_close(handle_.get());
    handle_ = nullptr;
  }

  // The handle, for calls of hlcstore.h other than hlc_store_close; null where the store is closed.
  hlc_store* raw() & noexcept { return handle_.get(); }

  // ---- Items ----

  void accept_write(const item& item, std::string_view key, std::string_view value) {
    detail::word_of(hlc_store_accept_write, own(), item.node, item.number, item.stamp.word, detail::bytes(key),
                    key.size(), detail::bytes(value), value.size());
  }
  void accept_erase(const item& item, std::string_view key) {
    detail::word_of(hlc_store_accept_delete, own(), item.node, item.number, item.stamp.word, detail::bytes(key),
                    key.size());
  }
  // Accepts all writes of a batch, or none.
  void accept_batch(const item& item, const batch& writes) {
    const std::string_view all = writes.bytes();
    detail::word_of(hlc_store_accept_batch, own(), item.node, item.number, item.stamp.word, writes.size(),
                    detail::bytes(all), all.size());
  }
  void accept_report(const item& item) {
    detail::word_of(hlc_store_accept_report, own(), item.node, item.number, item.stamp.word);
  }
  void accept_retire(const item& item) {
    detail::word_of(hlc_store_accept_retire, own(), item.node, item.number, item.stamp.word);
  }
  void accept(const owned_item& item) {
    switch (item.kind) {
      case item_kind::write: return accept_write(item, item.key, item.value);
      case item_kind::erase: return accept_erase(item, item.key);
      case item_kind::report: return accept_report(item);
      case item_kind::retire: return accept_retire(item);
      case item_kind::batch: return accept_batch(item, item.writes);
    }
  }

  // Accepts the items in turn until one is refused.
  [[nodiscard]] list_answer accept(const item_list& items) {
    list_answer made;
    made.code = hlc_store_accept_all(own(), items.entries_.data(), items.entries_.size(), detail::bytes(items.bytes_),
                                     items.bytes_.size(), &made.many, &made.word);
    return made;
  }

  // Accepts encoded items in turn until one is refused, and passes over those that were accepted before.
  [[nodiscard]] log_answer accept_log(std::string_view bytes) {
    log_answer made;
    made.code = hlc_store_accept_items(own(), detail::bytes(bytes), bytes.size(), &made.used, &made.many, &made.word);
    return made;
  }

  // Applies encoded records in turn until one is refused, and passes over those that were applied before: items are
  // accepted, and nodes join at their starts. A threshold changes nothing: the caller may vacuum to it.
  [[nodiscard]] records_answer apply_records(std::string_view bytes) {
    records_answer made;
    made.code = hlc_store_apply_records(own(), detail::bytes(bytes), bytes.size(), &made.used, &made.many,
                                        &made.threshold.word, &made.word);
    return made;
  }

  // What accepting the item would answer, except HLC_NO_MEMORY. check_report answers for a retirement too.
  [[nodiscard]] answer check_write(const item& item, std::string_view key, std::string_view value) const {
    hlc_store mine = copy();
    return detail::answered(hlc_store_check_write, &mine, item.node, item.number, item.stamp.word, detail::bytes(key),
                            key.size(), detail::bytes(value), value.size());
  }
  [[nodiscard]] answer check_erase(const item& item, std::string_view key) const {
    hlc_store mine = copy();
    return detail::answered(hlc_store_check_delete, &mine, item.node, item.number, item.stamp.word, detail::bytes(key),
                            key.size());
  }
  [[nodiscard]] answer check_batch(const item& item, const batch& writes) const {
    const answer of_item = check_report(item);
    if (!of_item) return of_item;
    // A node at its start refuses the same writes.
    hlc_node issuing = hlc_node_open(0, 0);
    const std::string_view all = writes.bytes();
    std::uint64_t number;
    const answer of_writes = detail::answered(hlc_node_write_batch, &issuing, std::uint64_t{0}, writes.size(),
                                              detail::bytes(all), all.size(), &number);
    return of_writes ? of_item : of_writes;
  }
  [[nodiscard]] answer check_report(const item& item) const {
    hlc_store mine = copy();
    return detail::answered(hlc_store_check_report, &mine, item.node, item.number, item.stamp.word);
  }

  // Lets a node join: at the floor (closed timestamp), or at a start at or above it.
  node join() {
    std::uint16_t id;
    const std::uint64_t start = detail::word_of(hlc_store_join, own(), &id);
    return node(id, {start});
  }
  node join_at(timestamp start) {
    std::uint16_t id;
    detail::word_of(hlc_store_join_at, own(), start.word, &id);
    return node(id, start);
  }

  // ---- Snapshots ----

  // Opens a snapshot: at the floor, or at a stamp. The store must outlive it, so a temporary one has no such call.
  snapshot open_snapshot() & {
    std::uint64_t id;
    const std::uint64_t stamp = detail::word_of(hlc_snapshot_open_at_floor, own(), &id);
    return {handle_, id, {stamp}};
  }
  snapshot open_snapshot(timestamp stamp) & {
    return {handle_, detail::word_of(hlc_snapshot_open, own(), stamp.word), stamp};
  }
  snapshot open_snapshot() && = delete;
  snapshot open_snapshot(timestamp stamp) && = delete;

  // The open snapshot of this id: one that was released, or was open when the store was saved.
  snapshot attach_snapshot(std::uint64_t id) && = delete;
  snapshot attach_snapshot(std::uint64_t id) & {
    for (const snapshot_info& open : snapshots()) {
      if (open.id == id) return {handle_, id, open.stamp};
    }
    throw error(HLC_NO_SNAPSHOT);
  }

  // The open snapshots, by rising ids.
  std::vector<snapshot_info> snapshots() const {
    hlc_store mine = copy();
    std::vector<snapshot_info> found;
    for (;;) {
      snapshot_info next;
      const std::uint32_t code = hlc_snapshot_at_place(&mine, found.size(), &next.id, &next.stamp.word);
      if (code == HLC_AFTER_LAST) return found;
      detail::check(code);
      found.push_back(next);
    }
  }

  void close_all() { detail::check(hlc_snapshot_close_all(own())); }

  // ---- What the store has ----

  timestamp floor() const { return {asked(hlc_store_floor)}; }
  timestamp horizon() const { return {asked(hlc_store_horizon)}; }
  std::uint64_t rows() const { return asked(hlc_store_rows); }
  std::uint64_t nodes() const { return asked(hlc_store_nodes); }

  // In constant time.
  store_sizes sizes() const {
    hlc_store mine = copy();
    store_sizes found;
    detail::check(hlc_store_size(&mine, &found.rows, &found.keys, &found.key_bytes, &found.value_bytes));
    return found;
  }

  link_state link(std::uint16_t node) const {
    hlc_store mine = copy();
    link_state found;
    detail::check(hlc_store_link(&mine, node, &found.next, &found.head.word, &found.retired));
    return found;
  }

  // The first node that holds the floor back; none where all nodes have retired.
  std::optional<std::uint16_t> floor_node() const {
    hlc_store mine = copy();
    const answer found = detail::answered(hlc_store_floor_node, &mine);
    if (found.code == HLC_ALL_RETIRED) return std::nullopt;
    detail::check(found.code);
    return static_cast<std::uint16_t>(found.word);
  }

  // The stored rows of a key above one stamp and at or below another, the newest first. Above the horizon these are all
  // accepted writes of the key; at and below it, those that vacuums kept.
  std::vector<key_version> versions(std::string_view key, timestamp above = {}, timestamp to = {UINT64_MAX}) const {
    hlc_store mine = copy();
    std::size_t many = 0;
    const std::string bytes = detail::fetch([&](std::uint8_t* out, std::size_t room, std::size_t* len) {
      return hlc_store_versions(&mine, detail::bytes(key), key.size(), above.word, to.word, out, room, len, &many);
    });
    std::vector<key_version> found;
    found.reserve(many);
    std::string_view rest = bytes;
    while (found.size() < many) {
      key_version next;
      next.stamp.word = detail::take_number(rest, 8);
      next.node = static_cast<std::uint16_t>(detail::take_number(rest, 2));
      next.value = detail::take_answer(rest);
      found.push_back(std::move(next));
    }
    return found;
  }

  // ---- Vacuum and checkpoint ----

  // Drops the rows that no reader needs: up to the floor, or up to a stamp, which is the horizon from then on.
  vacuum_report vacuum() {
    vacuum_report made;
    detail::check(hlc_store_vacuum(own(), &made.stamp.word, &made.kept, &made.bytes, &made.dropped));
    return made;
  }
  vacuum_report vacuum_to(timestamp stamp) {
    vacuum_report made;
    const std::uint32_t code =
        hlc_store_vacuum_to(own(), stamp.word, &made.stamp.word, &made.kept, &made.bytes, &made.dropped);
    detail::check(code, made.stamp.word);
    return made;
  }

  // Does a part of vacuum_to, so that one call does a bounded amount of work: of the first keys above one, or the first
  // of all where that has no bytes, at most this many. The first part makes the stamp the horizon. All calls are
  // allowed between parts. Each leaves the fewest rows of its keys at the snapshots that are open then.
  partial_vacuum vacuum_part(timestamp stamp, std::string_view after = {}, std::size_t limit = 1024) {
    partial_vacuum made;
    // A part of no keys ends where it begins.
    std::string next(std::max(detail::longest_key, after.size()), '\0');
    std::size_t len = 0;
    bool more = false;
    const std::uint32_t code = hlc_store_vacuum_part(own(), stamp.word, detail::bytes(after), after.size(), limit,
                                                     &made.stamp.word, &made.kept, &made.bytes, &made.dropped,
                                                     detail::bytes(next), next.size(), &len, &more);
    detail::check(code, made.stamp.word);
    // A key that did not fit would let the caller's loop begin again.
    if (len > next.size()) throw error(HLC_MORE);
    next.resize(len);
    if (more) made.next = std::move(next);
    return made;
  }

  // What vacuum_to would answer, except HLC_NO_MEMORY.
  [[nodiscard]] answer check_vacuum(timestamp stamp) const {
    hlc_store mine = copy();
    return detail::answered(hlc_store_check_vacuum, &mine, stamp.word);
  }

  // The certificate of the rows at or below a stamp, after a vacuum to it or the last part of one. Where a vacuum would
  // drop a row, it throws HLC_NOT_FEWEST.
  certified certificate(timestamp stamp) const {
    hlc_store mine = copy();
    certified made;
    detail::output text;
    std::uint64_t word;
    std::size_t len;
    const std::uint32_t code =
        hlc_certificate_make(&mine, stamp.word, &word, &made.kept, &made.bytes, text.raw(), &len);
    detail::check(code, word);
    made.certificate = text.text(len);
    return made;
  }

  // The whole state of the store as bytes, with a tag of the program's, such as a place in a log.
  std::string checkpoint(std::uint64_t tag) const {
    hlc_store mine = copy();
    detail::output saved;
    std::size_t len;
    detail::check(hlc_checkpoint_make(&mine, tag, saved.raw(), &len));
    return saved.text(len);
  }

  // Writes what `checkpoint` returns to a stream, in pieces, so that not all bytes are in memory at once. No call may
  // change the store meanwhile. A stream that fails gets no more: its state says so.
  void checkpoint_to(std::ostream& out, std::uint64_t tag) const {
    hlc_store mine = copy();
    detail::saving saved;
    std::size_t len;
    std::uint64_t all;
    detail::check(hlc_saving_start(saved.raw(), &mine, tag, &all));
    std::string piece(std::size_t{1} << 16, '\0');
    for (std::uint32_t code = HLC_MORE; code == HLC_MORE && out;) {
      code = hlc_saving_read(saved.raw(), &mine, detail::bytes(piece), piece.size(), &len);
      if (code != HLC_MORE) detail::check(code);
      out.write(piece.data(), static_cast<std::streamsize>(len));
    }
  }

  // An increment: the whole state, but of the rows only those above a stamp, with a tag of the program's. As the stamp
  // choose the floor that the store had at an older checkpoint, which `apply_increment` makes a newer one of. Where the
  // stamp is below the horizon, it throws HLC_BELOW_HORIZON: then make a whole checkpoint.
  std::string increment(timestamp since, std::uint64_t tag) const {
    hlc_store mine = copy();
    detail::output saved;
    std::uint64_t horizon;
    std::size_t len;
    const std::uint32_t code = hlc_increment_make(&mine, since.word, tag, saved.raw(), &len, &horizon);
    detail::check(code, horizon);
    return saved.text(len);
  }

 private:
  // The handle itself, for a call that changes the store.
  hlc_store* own() {
    if (!handle_) throw error(HLC_CLOSED);
    return handle_.get();
  }

  // A copy of the handle, for a call that only asks.
  hlc_store copy() const {
    if (!handle_) throw error(HLC_CLOSED);
    return *handle_;
  }

  // A closed store gets a new handle, since old snapshots may still share the one it had.
  std::shared_ptr<hlc_store> handle_or_new() const {
    return handle_ ? handle_ : std::make_shared<hlc_store>(hlc_store HLC_CLOSED_STORE);
  }

  template <class Call>
  std::uint64_t asked(Call call) const {
    hlc_store mine = copy();
    return detail::word_of(call, &mine);
  }

  std::shared_ptr<hlc_store> handle_;
};

}  // namespace hlcstore
#endif
