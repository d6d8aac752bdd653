// Part of hlcstore.hpp: refusals, and what a call answered.
#ifndef HLCSTORE_ERROR_HPP
#define HLCSTORE_ERROR_HPP
#include <cinttypes>
#include <cstddef>
#include <cstdint>
#include <cstdio>
#include <exception>
#include <string>

// The header for C, for all parts. hlcstore.hpp takes it from its own folder, which the compiler need not search.
#ifndef HLCSTORE_H
#include "hlcstore.h"
#endif

namespace hlcstore {

// The answers of hlcstore.h, which says when each comes, and with what word. bindings/refusals makes this list, and
// those of write_word, from include/refusals.toml.
enum class error_kind : std::uint32_t {
  ok = HLC_OK,
  no_node = HLC_NO_NODE,
  reading_too_large = HLC_READING_TOO_LARGE,
  counter_full = HLC_COUNTER_FULL,
  not_next = HLC_NOT_NEXT,
  stamp_not_rising = HLC_STAMP_NOT_RISING,
  above_floor = HLC_ABOVE_FLOOR,
  below_horizon = HLC_BELOW_HORIZON,
  no_snapshot = HLC_NO_SNAPSHOT,
  too_many_snapshots = HLC_TOO_MANY_SNAPSHOTS,
  bad_key = HLC_BAD_KEY,
  value_too_long = HLC_VALUE_TOO_LONG,
  numbers_spent = HLC_NUMBERS_SPENT,
  no_memory = HLC_NO_MEMORY,
  bad_line = HLC_BAD_LINE,
  not_shown = HLC_NOT_SHOWN,
  too_many_nodes = HLC_TOO_MANY_NODES,
  retired = HLC_RETIRED,
  no_writes = HLC_NO_WRITES,
  too_many_writes = HLC_TOO_MANY_WRITES,
  key_twice = HLC_KEY_TWICE,
  closed = HLC_CLOSED,
  is_open = HLC_IS_OPEN,
  no_value = HLC_NO_VALUE,
  outside = HLC_OUTSIDE,
  more = HLC_MORE,
  no_such_node = HLC_NO_SUCH_NODE,
  bad_bytes = HLC_BAD_BYTES,
  no_checkpoint = HLC_NO_CHECKPOINT,
  has_bytes = HLC_HAS_BYTES,
  not_fewest = HLC_NOT_FEWEST,
  no_increment = HLC_NO_INCREMENT,
  not_later = HLC_NOT_LATER,
  changed = HLC_CHANGED,
  not_parts = HLC_NOT_PARTS,
  bad_node_count = HLC_BAD_NODE_COUNT,
  all_retired = HLC_ALL_RETIRED,
  below_floor = HLC_BELOW_FLOOR,
  after_last = HLC_AFTER_LAST,
  not_under_way = HLC_NOT_UNDER_WAY,
  is_under_way = HLC_IS_UNDER_WAY
};

// A refusal: the number of the answer, and the word that comes with it. Making one takes no memory.
class error : public std::exception {
 public:
  explicit error(std::uint32_t code, std::uint64_t word = 0) noexcept : error(code, word, hlc_error_text) {}
  std::uint32_t code() const noexcept { return code_; }
  error_kind kind() const noexcept { return static_cast<error_kind>(code_); }
  std::uint64_t word() const noexcept { return word_; }
  // What the answer says, and the word in brackets where it comes with one.
  const char* what() const noexcept override { return text_; }

 protected:
  // With the text that a call writes.
  error(std::uint32_t code, std::uint64_t word,
        void (*write_text)(std::uint32_t, std::uint8_t*, std::size_t, std::size_t*)) noexcept
      : code_(code), word_(word) {
    std::size_t len;
    write_text(code, reinterpret_cast<std::uint8_t*>(text_), sizeof text_ - 1, &len);
    if (len < sizeof text_) write_word(text_ + len, sizeof text_ - len);
  }

 private:
  void write_word(char* out, std::size_t room) const noexcept {
    switch (kind()) {
      case error_kind::counter_full:
      case error_kind::stamp_not_rising:
      case error_kind::above_floor:
      case error_kind::below_horizon:
      case error_kind::below_floor:
        std::snprintf(out, room, " (%" PRIu64 ".%" PRIu64 ")", word_ >> 16, word_ & 0xffff);
        break;
      case error_kind::not_next:
      case error_kind::bad_line:
      case error_kind::not_shown:
      case error_kind::bad_bytes:
      case error_kind::no_checkpoint:
      case error_kind::not_parts:
        std::snprintf(out, room, " (%" PRIu64 ")", word_);
        break;
      case error_kind::no_increment:
        if (word_ > 0) std::snprintf(out, room, " (%" PRIu64 ")", word_);
        break;
      default:
        break;
    }
  }

  std::uint32_t code_;
  std::uint64_t word_;
  char text_[256] = {};
};

// What a call answered, where a refusal is an expected outcome.
struct answer {
  std::uint32_t code = HLC_OK;
  std::uint64_t word = 0;
  error_kind kind() const noexcept { return static_cast<error_kind>(code); }
  explicit operator bool() const noexcept { return code == HLC_OK; }
};

// The name of an answer in hlcstore.h, and what it says; no text for a number that is no answer.
inline std::string error_name(std::uint32_t code) {
  char name[64] = {};
  std::size_t len;
  hlc_error_name(code, reinterpret_cast<std::uint8_t*>(name), sizeof name - 1, &len);
  return name;
}

inline std::string error_text(std::uint32_t code) {
  char text[256] = {};
  std::size_t len;
  hlc_error_text(code, reinterpret_cast<std::uint8_t*>(text), sizeof text - 1, &len);
  return text;
}

}  // namespace hlcstore
#endif
