// Part of hlcstore.hpp: stamps, nodes, and the items that they issue, also as bytes; batches, and lists of items.
#ifndef HLCSTORE_NODE_HPP
#define HLCSTORE_NODE_HPP
#include <cstddef>
#include <cstdint>
#include <algorithm>
#include <functional>
#include <iterator>
#include <optional>
#include <stdexcept>
#include <string>
#include <string_view>
#include <vector>

#if __cplusplus >= 202002L
#include <compare>
#endif

#include "call.hpp"

namespace hlcstore {

// A stamp: a physical part below 2^48, and a counter below 2^16.
struct timestamp {
  std::uint64_t word = 0;

  // The stamp with these parts. Throws std::out_of_range where one is too large.
  static constexpr timestamp of(std::uint64_t physical, std::uint64_t counter = 0) {
    if (physical >> 48 != 0) throw std::out_of_range("the physical part of a stamp is 2^48 or more");
    if (counter >> 16 != 0) throw std::out_of_range("the counter of a stamp is 2^16 or more");
    return {physical << 16 | counter};
  }
  constexpr std::uint64_t physical() const noexcept { return word >> 16; }
  constexpr std::uint16_t counter() const noexcept { return static_cast<std::uint16_t>(word); }

#if __cplusplus >= 202002L
  friend constexpr auto operator<=>(const timestamp&, const timestamp&) noexcept = default;
#else
  friend constexpr bool operator==(timestamp a, timestamp b) noexcept { return a.word == b.word; }
  friend constexpr bool operator!=(timestamp a, timestamp b) noexcept { return a.word != b.word; }
  friend constexpr bool operator<(timestamp a, timestamp b) noexcept { return a.word < b.word; }
  friend constexpr bool operator>(timestamp a, timestamp b) noexcept { return a.word > b.word; }
  friend constexpr bool operator<=(timestamp a, timestamp b) noexcept { return a.word <= b.word; }
  friend constexpr bool operator>=(timestamp a, timestamp b) noexcept { return a.word >= b.word; }
#endif
};

// As people write it: the physical part, a point and the counter.
inline std::string to_string(timestamp stamp) {
  return std::to_string(stamp.physical()) + '.' + std::to_string(stamp.counter());
}

// An item that a node issued: its number among the node's items, and its stamp. Its key and value are the program's.
struct item {
  std::uint16_t node = 0;
  std::uint64_t number = 0;
  timestamp stamp;

  friend bool operator==(const item& a, const item& b) noexcept {
    return a.node == b.node && a.number == b.number && a.stamp == b.stamp;
  }
  friend bool operator!=(const item& a, const item& b) noexcept { return !(a == b); }
};

// A write of a batch: its key, and its value, or none of a deletion. Their bytes are the batch's.
struct batch_write {
  std::string_view key;
  std::optional<std::string_view> value;

  friend bool operator==(const batch_write& a, const batch_write& b) noexcept {
    return a.key == b.key && a.value == b.value;
  }
  friend bool operator!=(const batch_write& a, const batch_write& b) noexcept { return !(a == b); }
};

// Writes and deletions, 1 to 256 of different keys, that a node issues as one item at one stamp: a snapshot shows all
// of them or none. It owns their bytes, and is a range of them, in the order in which they were added.
class batch {
 public:
  class iterator {
   public:
    using iterator_category = std::input_iterator_tag;
    using value_type = batch_write;
    using difference_type = std::ptrdiff_t;
    using pointer = const batch_write*;
    using reference = const batch_write&;

    // The end of each batch.
    iterator() noexcept = default;
    explicit iterator(std::string_view writes) noexcept : rest_(writes) { ++*this; }

    reference operator*() const noexcept { return write_; }
    pointer operator->() const noexcept { return &write_; }
    iterator& operator++() noexcept {
      is_end_ = rest_.empty();
      if (is_end_) return *this;
      write_.key = take(take_number(1));
      write_.value.reset();
      if (take_number(1) == 1) write_.value = take(take_number(2));
      return *this;
    }
    void operator++(int) noexcept { ++*this; }

    friend bool operator==(const iterator& a, const iterator& b) noexcept {
      return a.is_end_ == b.is_end_ && (a.is_end_ || a.rest_.size() == b.rest_.size());
    }
    friend bool operator!=(const iterator& a, const iterator& b) noexcept { return !(a == b); }

   private:
    std::string_view take(std::size_t len) noexcept {
      const std::string_view taken(rest_.data(), len);
      rest_.remove_prefix(len);
      return taken;
    }
    std::size_t take_number(std::size_t size) noexcept {
      std::size_t number = 0;
      for (const char byte : take(size)) number = number << 8 | static_cast<unsigned char>(byte);
      return number;
    }

    std::string_view rest_;
    batch_write write_;
    bool is_end_ = true;
  };
  using const_iterator = iterator;

  // Adds a write, or a deletion. Throws HLC_BAD_KEY, HLC_VALUE_TOO_LONG, or HLC_TOO_MANY_WRITES after 256; the batch
  // keeps what it had. That a key is there twice is refused by what takes the batch.
  void write(std::string_view key, std::string_view value) { add(key, &value); }
  void erase(std::string_view key) { add(key, nullptr); }
  void clear() noexcept { bytes_.clear(); }
  std::size_t size() const noexcept { return bytes_.empty() ? 0 : static_cast<unsigned char>(bytes_[0]) + 1u; }
  bool empty() const noexcept { return bytes_.empty(); }

  iterator begin() const noexcept { return iterator(bytes()); }
  iterator end() const noexcept { return {}; }

  // The bytes of the writes, as hlc_node_write_batch takes them.
  std::string_view bytes() const noexcept {
    return bytes_.empty() ? std::string_view() : std::string_view(bytes_).substr(1);
  }

  friend bool operator==(const batch& a, const batch& b) noexcept { return a.bytes_ == b.bytes_; }
  friend bool operator!=(const batch& a, const batch& b) noexcept { return !(a == b); }

 private:
  void add(std::string_view key, const std::string_view* value) {
    if (key.empty() || key.size() > detail::longest_key) throw error(HLC_BAD_KEY);
    if (value && value->size() > detail::longest_value) throw error(HLC_VALUE_TOO_LONG);
    if (size() == HLC_MAX_BATCH) throw error(HLC_TOO_MANY_WRITES);
    const std::size_t before = empty() ? 1 : bytes_.size();
    const std::size_t after = before + 2 + key.size() + (value ? 2 + value->size() : 0);
    if (after <= bytes_.capacity()) return put(bytes_, before, after, key, value);
    // The key and the value may be bytes of this batch, which stay where they are until they are copied.
    std::string grown;
    grown.reserve(std::max(after, 2 * bytes_.capacity()));
    grown.append(bytes_);
    put(grown, before, after, key, value);
    bytes_.swap(grown);
  }

  // Puts a write, or a deletion, between two places of bytes that have room for it.
  void put(std::string& bytes, std::size_t before, std::size_t after, std::string_view key,
           const std::string_view* value) const noexcept {
    const std::size_t many = size();
    bytes.resize(after);
    bytes[0] = static_cast<char>(many);
    char* end = &bytes[before];
    *end++ = static_cast<char>(key.size());
    end = std::copy(key.begin(), key.end(), end);
    *end++ = value ? 1 : 0;
    if (!value) return;
    *end++ = static_cast<char>(value->size() >> 8);
    *end++ = static_cast<char>(value->size());
    std::copy(value->begin(), value->end(), end);
  }

  // Nothing, or one less than the number of writes in a byte, and the writes.
  std::string bytes_;
};

enum class item_kind { write, erase, report, retire, batch };

// An item with what it says, as a value of its own: for a queue, or for several stores. A write has a key and a value,
// a deletion a key, and a batch has writes.
struct owned_item : item {
  item_kind kind = item_kind::report;
  std::string key = {}, value = {};
  batch writes = {};

  // The first item of a log, whose bytes are taken from the front. It is the opposite of `encode`. Where they are no
  // item it throws HLC_BAD_BYTES, with the number of the fault that accept_log would return, and takes none.
  static owned_item decode(std::string_view& log);

  friend bool operator==(const owned_item& a, const owned_item& b) noexcept {
    return static_cast<const item&>(a) == b && a.kind == b.kind && a.key == b.key && a.value == b.value &&
           a.writes == b.writes;
  }
  friend bool operator!=(const owned_item& a, const owned_item& b) noexcept { return !(a == b); }
};

// A node: a plain value, which may be copied and saved. Readings are those of a physical clock.
class node {
 public:
  explicit node(std::uint16_t id, timestamp start = {}) noexcept : raw_(hlc_node_open(id, start.word)) {}

  // The node as it was before a restart.
  static node restore(std::uint16_t id, timestamp last, std::uint64_t next) {
    node restored(id);
    detail::check(hlc_node_restore(id, last.word, next, &restored.raw_));
    return restored;
  }

  std::uint16_t id() const noexcept { return raw_.id; }
  timestamp last() const noexcept { return {raw_.last}; }
  std::uint64_t next() const noexcept { return raw_.next; }
  bool retired() const noexcept { return raw_.retired; }

  // Raises the clock to a stamp, without an event.
  void raise(timestamp stamp) noexcept { hlc_node_raise(&raw_, stamp.word); }

  item write(std::uint64_t reading, std::string_view key, std::string_view value) {
    return issue(hlc_node_write, reading, detail::bytes(key), key.size(), detail::bytes(value), value.size());
  }
  item erase(std::uint64_t reading, std::string_view key) {
    return issue(hlc_node_delete, reading, detail::bytes(key), key.size());
  }
  // Issues all writes of a batch as one item.
  item write_batch(std::uint64_t reading, const batch& writes) {
    const std::string_view all = writes.bytes();
    return issue(hlc_node_write_batch, reading, writes.size(), detail::bytes(all), all.size());
  }
  item report(std::uint64_t reading) { return issue(hlc_node_report, reading); }
  item retire(std::uint64_t reading) { return issue(hlc_node_retire, reading); }

  // Returns the stamp that goes with a message.
  timestamp send(std::uint64_t reading) { return {detail::word_of(hlc_node_send, &raw_, reading)}; }
  // Receives a message with the stamp `seen`, and returns the stamp of this event.
  timestamp receive(timestamp seen, std::uint64_t reading) {
    return {detail::word_of(hlc_node_receive, &raw_, seen.word, reading)};
  }

 private:
  template <class Call, class... Arguments>
  item issue(Call call, Arguments... arguments) {
    std::uint64_t number;
    const std::uint64_t stamp = detail::word_of(call, &raw_, arguments..., &number);
    return {raw_.id, number, {stamp}};
  }

  hlc_node raw_;
};

// Items as bytes, for a log. store::accept_log takes them, one after another.
inline std::string encode_write(const item& item, std::string_view key, std::string_view value) {
  return detail::fetch(hlc_item_encode_write, item.node, item.number, item.stamp.word, detail::bytes(key), key.size(),
                       detail::bytes(value), value.size());
}
inline std::string encode_erase(const item& item, std::string_view key) {
  return detail::fetch(hlc_item_encode_delete, item.node, item.number, item.stamp.word, detail::bytes(key), key.size());
}
inline std::string encode_batch(const item& item, const batch& writes) {
  const std::string_view all = writes.bytes();
  return detail::fetch(hlc_item_encode_batch, item.node, item.number, item.stamp.word, writes.size(),
                       detail::bytes(all), all.size());
}
inline std::string encode_report(const item& item) {
  return detail::fetch(hlc_item_encode_report, item.node, item.number, item.stamp.word);
}
inline std::string encode_retire(const item& item) {
  return detail::fetch(hlc_item_encode_retire, item.node, item.number, item.stamp.word);
}
inline std::string encode(const owned_item& item) {
  switch (item.kind) {
    case item_kind::write: return encode_write(item, item.key, item.value);
    case item_kind::erase: return encode_erase(item, item.key);
    case item_kind::batch: return encode_batch(item, item.writes);
    case item_kind::report: return encode_report(item);
    case item_kind::retire: break;
  }
  return encode_retire(item);
}

// The records of a log that replicas share, other than items, as bytes: a node joins, with the number that it is
// assigned and its start; and a retention threshold, below which no more snapshot is opened.
inline std::string encode_join(std::uint16_t node, timestamp start) {
  return detail::fetch(hlc_record_encode_join, node, start.word);
}
inline std::string encode_threshold(timestamp stamp) { return detail::fetch(hlc_record_encode_threshold, stamp.word); }

// Items that are writes and deletions, to pass to a store in one call, which accepts them in turn.
class item_list {
 public:
  void write(const item& item, std::string_view key, std::string_view value) { add(item, false, key, value); }
  void erase(const item& item, std::string_view key) { add(item, true, key, {}); }
  void clear() noexcept {
    entries_.clear();
    bytes_.clear();
  }
  std::size_t size() const noexcept { return entries_.size(); }

 private:
  friend class store;

  void add(const item& item, bool deletes, std::string_view key, std::string_view value) {
    const std::size_t at = bytes_.size();
    bytes_.append(key).append(value);
    entries_.push_back(
        {item.node, deletes, item.number, item.stamp.word, at, key.size(), at + key.size(), value.size()});
  }

  std::vector<hlc_entry> entries_;
  std::string bytes_;
};

}  // namespace hlcstore

template <>
struct std::hash<hlcstore::timestamp> {
  std::size_t operator()(hlcstore::timestamp stamp) const noexcept { return std::hash<std::uint64_t>()(stamp.word); }
};
#endif
