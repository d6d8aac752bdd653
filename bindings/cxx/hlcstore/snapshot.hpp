// Part of hlcstore.hpp: snapshots, the ranges of their pairs and keys, and what changes between two of them.
#ifndef HLCSTORE_SNAPSHOT_HPP
#define HLCSTORE_SNAPSHOT_HPP
#include <cstddef>
#include <cstdint>
#include <iterator>
#include <memory>
#include <optional>
#include <string>
#include <string_view>
#include <utility>
#include <vector>

#if __cplusplus >= 202002L
#include <ranges>
#endif

#include "call.hpp"
#include "error.hpp"
#include "node.hpp"

namespace hlcstore {

// A part of a range, as bytes in the form of the call that scans it; and whether a further part is left.
struct part {
  std::string bytes;
  std::size_t many = 0;
  bool more = false;
};

namespace detail {

// An open snapshot: the handle, which a store shares with its snapshots, and the snapshot's id. Each call that asks is
// made with a copy of the handle, so that such calls may run beside each other.
struct view {
  std::shared_ptr<hlc_store> handle;
  std::uint64_t id = 0;

  hlc_store copy() const {
    if (!handle) throw error(HLC_NO_SNAPSHOT);
    return *handle;
  }

  // Makes a call that scans a range; changes are those to a further snapshot.
  template <class Call, class... Further>
  part scan(Call call, std::string_view from, std::string_view to, std::size_t room, Further... further) const {
    hlc_store mine = copy();
    part made{std::string(room, '\0'), 0, false};
    std::size_t len;
    const std::uint32_t code = call(&mine, id, further..., bytes(from), from.size(), bytes(to), to.size(),
                                    bytes(made.bytes), room, &len, &made.many);
    made.more = code == HLC_MORE;
    if (!made.more) check(code);
    made.bytes.resize(len);
    return made;
  }
};

// What a range has: how a part is scanned, how an entry is taken from the bytes, where the next part begins or ends
// after the key of an entry, and whether another key comes after that. The source is what is scanned.
struct rising {
  using source = view;
  static void go_on(const std::string& key, std::string& from, std::string&) { from.assign(key).push_back('\0'); }
  static bool is_after(std::string_view next, std::string_view key) noexcept { return next > key; }
};

struct pairs : rising {
  using value_type = std::pair<std::string, std::string>;
  static part scan(const view& view, std::string_view from, std::string_view to, std::size_t room) {
    return view.scan(hlc_snapshot_scan, from, to, room);
  }
  static void take(std::string_view& rest, value_type& entry) {
    entry.first = take_text(rest);
    entry.second = take_text(rest);
  }
  static const std::string& key(const value_type& entry) noexcept { return entry.first; }
};

// From the end of the range, the last key first.
struct pairs_back : pairs {
  static part scan(const view& view, std::string_view from, std::string_view to, std::size_t room) {
    return view.scan(hlc_snapshot_scan_back, from, to, room);
  }
  static void go_on(const std::string& key, std::string&, std::string& to) { to.assign(key); }
  static bool is_after(std::string_view next, std::string_view key) noexcept { return next < key; }
};

struct keys : rising {
  using value_type = std::string;
  static part scan(const view& view, std::string_view from, std::string_view to, std::size_t room) {
    return view.scan(hlc_snapshot_scan_keys, from, to, room);
  }
  static void take(std::string_view& rest, value_type& entry) { entry = take_text(rest); }
  static const std::string& key(const value_type& entry) noexcept { return entry; }
};

// To the snapshot of this id.
struct changes : rising {
  std::uint64_t after = 0;

  using value_type = std::pair<std::string, std::optional<std::string>>;
  part scan(const view& view, std::string_view from, std::string_view to, std::size_t room) const {
    return view.scan(hlc_snapshot_changes, from, to, room, after);
  }
  static void take(std::string_view& rest, value_type& entry) {
    entry.first = take_text(rest);
    entry.second = take_answer(rest);
  }
  static const std::string& key(const value_type& entry) noexcept { return entry.first; }
};

// A place in a range, whose entries are fetched in pieces. The first piece is small, since most ranges are; later ones
// have room for any entry.
template <class Entries>
class cursor {
 public:
  cursor(const typename Entries::source& view, Entries entries, std::string_view from, std::string_view to)
      : view_(view), entries_(entries), from_(from), to_(to) {}
  cursor(const cursor&) = delete;
  cursor& operator=(const cursor&) = delete;

  const typename Entries::value_type& entry() const noexcept { return entry_; }

  // Goes to the next entry, and returns whether there is one. Where it throws, it stays at the entry.
  bool advance() {
    while (left_ == 0) {
      if (!more_) return false;
      fetch();
    }
    std::string_view rest = rest_;
    Entries::take(rest, spare_);
    // Nothing is thrown from here on.
    std::swap(entry_, spare_);
    has_entry_ = true;
    rest_ = rest;
    left_--;
    return true;
  }

 private:
  static constexpr std::size_t room_for_any = room_for_pair + 1;

  // Fetches the piece after the entry.
  void fetch() {
    if (has_entry_) Entries::go_on(Entries::key(entry_), from_, to_);
    part next = entries_.scan(view_, from_, to_, room_);
    if (!goes_on(next)) throw error(HLC_MORE);
    // Nothing is thrown from here on.
    piece_ = std::move(next.bytes);
    rest_ = piece_;
    left_ = next.many;
    more_ = next.more;
    room_ = room_for_any;
  }

  // Whether a piece begins after the entry, or has none for a good reason. So each loop over a range ends.
  bool goes_on(const part& piece) const {
    if (piece.many == 0) return !piece.more || room_ < room_for_any;
    std::string_view bytes = piece.bytes;
    return !has_entry_ || Entries::is_after(take_text(bytes), Entries::key(entry_));
  }

  typename Entries::source view_;
  Entries entries_;
  std::string from_, to_, piece_;
  std::string_view rest_;
  std::size_t left_ = 0, room_ = 4096;
  bool more_ = true, has_entry_ = false;
  // The spare one keeps its memory for the entry after this one.
  typename Entries::value_type entry_, spare_;
};

}  // namespace detail

// The pairs, or the keys, of a range of a snapshot, in byte order or from its end; or what changes there to another
// snapshot. They are fetched in pieces while a loop goes on: a range of any size takes little memory, and the store may
// change in between. Each step may be a call that asks. The snapshots must stay open meanwhile.
template <class Entries>
class range {
 public:
  // Copies of an iterator go on together. Where `++` throws, the iterator stays where it is, and may go on later.
  class iterator {
   public:
    using iterator_category = std::input_iterator_tag;
    using value_type = typename Entries::value_type;
    using difference_type = std::ptrdiff_t;
    using pointer = const value_type*;
    using reference = const value_type&;

    // What `*place++` reads.
    struct previous {
      value_type value;
      reference operator*() const noexcept { return value; }
    };

    iterator() = default;
    explicit iterator(std::shared_ptr<detail::cursor<Entries>> place) : place_(std::move(place)) { ++*this; }

    reference operator*() const noexcept { return place_->entry(); }
    pointer operator->() const noexcept { return &place_->entry(); }
    iterator& operator++() {
      if (!place_->advance()) place_ = nullptr;
      return *this;
    }
    previous operator++(int) {
      previous before{**this};
      ++*this;
      return before;
    }
    friend bool operator==(const iterator& a, const iterator& b) noexcept { return a.place_ == b.place_; }
    friend bool operator!=(const iterator& a, const iterator& b) noexcept { return a.place_ != b.place_; }

   private:
    std::shared_ptr<detail::cursor<Entries>> place_;
  };

  range(typename Entries::source view, std::string_view from, std::string_view to, Entries entries = {})
      : view_(std::move(view)), entries_(entries), from_(from), to_(to) {}

  iterator begin() const { return iterator(std::make_shared<detail::cursor<Entries>>(view_, entries_, from_, to_)); }
  iterator end() const noexcept { return {}; }

 private:
  typename Entries::source view_;
  Entries entries_;
  std::string from_, to_;
};

template <class Entries>
class owning_range;

using pair_range = range<detail::pairs>;
using back_range = range<detail::pairs_back>;
using key_range = range<detail::keys>;
using change_range = range<detail::changes>;
using owning_pair_range = owning_range<detail::pairs>;
using owning_back_range = owning_range<detail::pairs_back>;
using owning_key_range = owning_range<detail::keys>;

// An open snapshot, which closes itself. A range goes from the key `from` on, up to the key `to` and without it, or to
// the end if `to` has no bytes. That of a temporary snapshot owns it. The calls of a snapshot that outlives its store
// throw HLC_CLOSED.
class snapshot {
 public:
  // One that is not open: its calls throw HLC_NO_SNAPSHOT.
  snapshot() noexcept = default;
  snapshot(snapshot&&) noexcept = default;
  snapshot& operator=(snapshot&& other) noexcept {
    if (this != &other) {
      close();
      view_ = std::move(other.view_);
      stamp_ = other.stamp_;
    }
    return *this;
  }
  ~snapshot() { close(); }

  std::uint64_t id() const noexcept { return view_.id; }
  timestamp stamp() const noexcept { return stamp_; }

  std::optional<std::string> get(std::string_view key) const {
    hlc_store mine = view_.copy();
    std::string value;
    const std::uint32_t code = detail::fetch_to(value, hlc_snapshot_read, &mine, id(), detail::bytes(key), key.size());
    if (code == HLC_NO_VALUE) return std::nullopt;
    detail::check(code);
    return value;
  }

  // The value of a key where it lies in the store, without a copy; or none. The view is good until the next call that
  // changes the store, even if that is refused, and the close of the snapshot is one. Of a shared store it is good in
  // the function that gets the snapshot from shared_snapshot::read, and no longer.
  std::optional<std::string_view> view(std::string_view key) const& {
    hlc_store mine = view_.copy();
    const std::uint8_t* at;
    std::size_t len;
    const std::uint32_t code = hlc_snapshot_view(&mine, id(), detail::bytes(key), key.size(), &at, &len);
    if (code == HLC_NO_VALUE) return std::nullopt;
    detail::check(code);
    return std::string_view(reinterpret_cast<const char*>(at), len);
  }
  std::optional<std::string_view> view(std::string_view key) && = delete;

  // Reads these keys in turn.
  std::vector<std::optional<std::string>> get_all(const std::vector<std::string_view>& keys) const {
    std::vector<hlc_place> places;
    std::string bytes;
    for (const std::string_view key : keys) {
      places.push_back({bytes.size(), key.size()});
      bytes.append(key);
    }
    std::vector<std::optional<std::string>> values;
    values.reserve(keys.size());
    while (values.size() < keys.size()) read_piece(places, bytes, values);
    return values;
  }

  pair_range::iterator begin() const& { return range().begin(); }
  pair_range::iterator begin() && = delete;
  pair_range::iterator end() const noexcept { return {}; }
  pair_range range(std::string_view from = {}, std::string_view to = {}) const& { return {view_, from, to}; }
  key_range keys(std::string_view from = {}, std::string_view to = {}) const& { return {view_, from, to}; }
  owning_pair_range range(std::string_view from = {}, std::string_view to = {}) &&;
  owning_key_range keys(std::string_view from = {}, std::string_view to = {}) &&;

  // The pairs of a range from its end, the last key first.
  back_range range_back(std::string_view from = {}, std::string_view to = {}) const& { return {view_, from, to}; }
  owning_back_range range_back(std::string_view from = {}, std::string_view to = {}) &&;

  // The pair of the last key below this one, or of the last of all if it has no bytes; or none.
  std::optional<std::pair<std::string, std::string>> last_below(std::string_view key = {}) const {
    // Room for a short pair, and then for any.
    part last = scan_back({}, key, 128);
    if (last.many == 0 && last.more) last = scan_back({}, key, detail::room_for_pair);
    if (last.many == 0) return std::nullopt;
    std::string_view rest = last.bytes;
    std::pair<std::string, std::string> pair;
    detail::pairs::take(rest, pair);
    return pair;
  }

  // What changes from this snapshot to another of the same store, whichever is the older one: the keys of a range whose
  // answers differ, in byte order, each with its value in the other snapshot or none. Both must stay open meanwhile.
  change_range changes(const snapshot& after, std::string_view from = {}, std::string_view to = {}) const& {
    if (!view_.handle || view_.handle != after.view_.handle) throw error(HLC_NO_SNAPSHOT);
    detail::changes entries;
    entries.after = after.id();
    return {view_, from, to, entries};
  }
  change_range changes(const snapshot&& after, std::string_view from = {}, std::string_view to = {}) const& = delete;
  change_range changes(const snapshot& after, std::string_view from = {}, std::string_view to = {}) && = delete;
  change_range changes(const snapshot&& after, std::string_view from = {}, std::string_view to = {}) && = delete;

  // As many pairs of a range, or from its end, or keys, as fit into this many bytes.
  part scan(std::string_view from, std::string_view to, std::size_t room) const {
    return view_.scan(hlc_snapshot_scan, from, to, room);
  }
  part scan_back(std::string_view from, std::string_view to, std::size_t room) const {
    return view_.scan(hlc_snapshot_scan_back, from, to, room);
  }
  part scan_keys(std::string_view from, std::string_view to, std::size_t room) const {
    return view_.scan(hlc_snapshot_scan_keys, from, to, room);
  }

  // All pairs, as bytes in the form of hlc_snapshot_list.
  std::string list() const {
    hlc_store mine = view_.copy();
    return detail::fetch(hlc_snapshot_list, &mine, id());
  }

  std::uint64_t count(std::string_view from = {}, std::string_view to = {}) const {
    hlc_store mine = view_.copy();
    return detail::word_of(hlc_snapshot_count, &mine, id(), detail::bytes(from), from.size(), detail::bytes(to),
                           to.size());
  }

  // The SHA-256 of a range, in 32 bytes, by which replicas compare.
  std::string digest(std::string_view from = {}, std::string_view to = {}) const {
    hlc_store mine = view_.copy();
    return detail::fetch(hlc_snapshot_digest, &mine, id(), detail::bytes(from), from.size(), detail::bytes(to),
                         to.size());
  }

  // Closes the snapshot. Its calls throw HLC_NO_SNAPSHOT from then on.
  void close() noexcept {
    std::uint64_t stamp;
    if (view_.handle) static_cast<void>(hlc_snapshot_close(view_.handle.get(), view_.id, &stamp) == HLC_OK);
    view_.handle = nullptr;
  }

  // Leaves the snapshot open in its store, and returns its id, for store::attach_snapshot.
  std::uint64_t release() noexcept {
    view_.handle = nullptr;
    return view_.id;
  }

 private:
  friend class store;
  friend class shared_snapshot;

  snapshot(std::shared_ptr<hlc_store> handle, std::uint64_t id, timestamp stamp) noexcept
      : view_{std::move(handle), id}, stamp_(stamp) {}

  // Reads the keys that have no answer yet, as many as fit. There is room for the longest answer.
  void read_piece(const std::vector<hlc_place>& places, std::string_view bytes,
                  std::vector<std::optional<std::string>>& values) const {
    hlc_store mine = view_.copy();
    std::string piece(1 + detail::length_size + detail::longest_value, '\0');
    std::size_t len, many;
    const std::uint32_t code = hlc_snapshot_read_all(&mine, id(), places.data() + values.size(),
                                                     places.size() - values.size(), detail::bytes(bytes), bytes.size(),
                                                     detail::bytes(piece), piece.size(), &len, &many);
    if (code != HLC_MORE) detail::check(code);
    if (many == 0) throw error(HLC_MORE);
    std::string_view rest = piece;
    for (std::size_t at = 0; at < many; at++) values.push_back(detail::take_answer(rest));
  }

  detail::view view_;
  timestamp stamp_;
};

// A range that owns its snapshot, and closes it.
template <class Entries>
class owning_range {
 public:
  using iterator = typename range<Entries>::iterator;

  owning_range(snapshot owned, range<Entries> listed) noexcept
      : snapshot_(std::move(owned)), range_(std::move(listed)) {}

  iterator begin() const& { return range_.begin(); }
  iterator begin() && = delete;
  iterator end() const noexcept { return {}; }

 private:
  snapshot snapshot_;
  range<Entries> range_;
};

inline owning_pair_range snapshot::range(std::string_view from, std::string_view to) && {
  pair_range listed = range(from, to);
  return {std::move(*this), std::move(listed)};
}

inline owning_back_range snapshot::range_back(std::string_view from, std::string_view to) && {
  back_range listed = range_back(from, to);
  return {std::move(*this), std::move(listed)};
}

inline owning_key_range snapshot::keys(std::string_view from, std::string_view to) && {
  key_range listed = keys(from, to);
  return {std::move(*this), std::move(listed)};
}

}  // namespace hlcstore

// In C++20 the ranges are views, which std::views take.
#ifdef __cpp_lib_ranges
template <class Entries>
inline constexpr bool std::ranges::enable_view<hlcstore::range<Entries>> = true;
template <class Entries>
inline constexpr bool std::ranges::enable_view<hlcstore::owning_range<Entries>> = true;
#endif
#endif
