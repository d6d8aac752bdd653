// Part of hlcstore.hpp: items from the bytes of a log, for whoever looks at a log before a store accepts it.
#ifndef HLCSTORE_ITEMS_HPP
#define HLCSTORE_ITEMS_HPP
#include <cstddef>
#include <cstdint>
#include <iterator>
#include <string>
#include <string_view>
#include <utility>

#if __cplusplus >= 202002L
#include <ranges>
#endif

#include "node.hpp"

namespace hlcstore {

namespace detail {

// The fields of an item, from the front of some bytes. Where they are bad it throws HLC_BAD_BYTES, with the number that
// docs/formats.md has.
class item_fields {
 public:
  explicit item_fields(std::string_view bytes) noexcept : rest_(bytes) {}

  owned_item read() {
    owned_item read;
    if (number(1) != 1) fail(other_version);
    read.node = static_cast<std::uint16_t>(number(2));
    read.number = number(8);
    read.stamp.word = number(8);
    const std::uint64_t kind = number(1);
    if (kind > 3) fail(no_kind);
    read.kind = kind == 1 ? item_kind::report : kind == 2 ? item_kind::retire : item_kind::batch;
    if (kind == 0) read_item_of_key(read);
    if (kind == 3) read_batch(read.writes);
    return read;
  }

  // The bytes after the fields that were read.
  std::string_view rest() const noexcept { return rest_; }

 private:
  enum fault : std::uint64_t { too_short = 1, other_version = 2, no_kind = 3, empty_key = 4, no_flag = 5 };

  [[noreturn]] static void fail(fault number) { throw error(HLC_BAD_BYTES, number); }

  batch_write read_write() {
    batch_write read;
    const std::uint64_t len = number(1);
    if (len == 0) fail(empty_key);
    read.key = text(len);
    const std::uint64_t has_value = number(1);
    if (has_value > 1) fail(no_flag);
    if (has_value == 1) read.value = text(number(2));
    return read;
  }

  void read_item_of_key(owned_item& read) {
    const batch_write write = read_write();
    read.kind = write.value ? item_kind::write : item_kind::erase;
    read.key = write.key;
    if (write.value) read.value = *write.value;
  }

  void read_batch(batch& read) {
    for (std::uint64_t left = number(1) + 1; left > 0; left--) {
      const batch_write write = read_write();
      if (write.value) {
        read.write(write.key, *write.value);
      } else {
        read.erase(write.key);
      }
    }
  }

  // A number of this many bytes, the high one first.
  std::uint64_t number(std::size_t size) {
    std::uint64_t number = 0;
    for (const char byte : text(size)) number = number << 8 | static_cast<unsigned char>(byte);
    return number;
  }

  std::string_view text(std::uint64_t len) {
    if (len > rest_.size()) fail(too_short);
    const std::string_view text = rest_.substr(0, static_cast<std::size_t>(len));
    rest_.remove_prefix(text.size());
    return text;
  }

  std::string_view rest_;
};

}  // namespace detail

inline owned_item owned_item::decode(std::string_view& log) {
  detail::item_fields fields(log);
  owned_item read = fields.read();
  log = fields.rest();
  return read;
}

// The items of a log, in turn: `for (const auto& item : hlcstore::log_items(log))`. The bytes stay the caller's, and an
// item is the iterator's until ++. Where begin or ++ meets bytes that are no item it throws HLC_BAD_BYTES, with the
// number of the fault, and the iterator stays where it is.
class log_items {
 public:
  class iterator {
   public:
    using iterator_category = std::input_iterator_tag;
    using value_type = owned_item;
    using difference_type = std::ptrdiff_t;
    using pointer = const owned_item*;
    using reference = const owned_item&;

    // The end of each log.
    iterator() noexcept = default;
    explicit iterator(std::string_view log) : rest_(log) { ++*this; }

    reference operator*() const noexcept { return item_; }
    pointer operator->() const noexcept { return &item_; }
    iterator& operator++() {
      if (rest_.empty()) {
        is_end_ = true;
      } else {
        item_ = owned_item::decode(rest_);
        is_end_ = false;
      }
      return *this;
    }
    void operator++(int) { ++*this; }

    // The bytes after this item.
    std::string_view rest() const noexcept { return rest_; }

    friend bool operator==(const iterator& a, const iterator& b) noexcept {
      return a.is_end_ == b.is_end_ && (a.is_end_ || a.rest_.size() == b.rest_.size());
    }
    friend bool operator!=(const iterator& a, const iterator& b) noexcept { return !(a == b); }

   private:
    std::string_view rest_;
    owned_item item_;
    bool is_end_ = true;
  };

  explicit log_items(std::string_view log) noexcept : log_(log) {}

  iterator begin() const { return iterator(log_); }
  iterator end() const noexcept { return {}; }

 private:
  std::string_view log_;
};

}  // namespace hlcstore

#if __cplusplus >= 202002L
template <>
inline constexpr bool std::ranges::enable_view<hlcstore::log_items> = true;
#endif
#endif
