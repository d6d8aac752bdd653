// Part of hlcstore.hpp: how the calls of hlcstore.h are made.
#ifndef HLCSTORE_CALL_HPP
#define HLCSTORE_CALL_HPP
#include <algorithm>
#include <cstddef>
#include <cstdint>
#include <optional>
#include <ostream>
#include <string>
#include <string_view>

#include "error.hpp"

namespace hlcstore::detail {

// How many bytes a key and a value have at most, and a length before them.
inline constexpr std::size_t longest_key = 255;
inline constexpr std::size_t longest_value = 65535;
inline constexpr std::size_t length_size = 8;
inline constexpr std::size_t room_for_pair = 2 * length_size + longest_key + longest_value;

inline const std::uint8_t* bytes(std::string_view text) noexcept {
  return reinterpret_cast<const std::uint8_t*>(text.data());
}

inline std::uint8_t* bytes(std::string& text) noexcept { return reinterpret_cast<std::uint8_t*>(text.data()); }

inline void check(std::uint32_t code, std::uint64_t word = 0) {
  if (code != HLC_OK) throw error(code, word);
}

// Makes a call whose last argument is where it writes a word.
template <class Call, class... Arguments>
answer answered(Call call, Arguments... arguments) {
  answer made;
  made.code = call(arguments..., &made.word);
  return made;
}

// Makes such a call, and returns the word.
template <class Call, class... Arguments>
std::uint64_t word_of(Call call, Arguments... arguments) {
  const answer made = answered(call, arguments...);
  check(made.code, made.word);
  return made.word;
}

// Makes a call whose last arguments are a buffer, its length, and where it writes how many bytes there are; and makes
// it again where they did not fit.
template <class Call, class... Arguments>
std::uint32_t fetch_to(std::string& text, Call call, Arguments... arguments) {
  std::uint8_t small[256];
  std::size_t len;
  const std::uint32_t code = call(arguments..., small, sizeof small, &len);
  if (code != HLC_OK) return code;
  if (len <= sizeof small) {
    text.assign(reinterpret_cast<const char*>(small), len);
    return code;
  }
  text.resize(len);
  return call(arguments..., bytes(text), text.size(), &len);
}

// Makes such a call, and returns the bytes.
template <class Call, class... Arguments>
std::string fetch(Call call, Arguments... arguments) {
  std::string text;
  check(fetch_to(text, call, arguments...));
  return text;
}

// The bytes that a call makes. It frees them.
class output {
 public:
  output() noexcept = default;
  output(const output&) = delete;
  output& operator=(const output&) = delete;
  ~output() { hlc_output_drop(&raw_); }

  // Where a call puts its bytes.
  hlc_output* raw() noexcept { return &raw_; }

  // The bytes, of which there are len.
  std::string text(std::size_t len) {
    std::string read(len, '\0');
    check(hlc_output_read(&raw_, 0, bytes(read), read.size(), &len));
    return read;
  }

  // Writes the bytes, of which there are len, to a stream in pieces. One that fails gets no more.
  void write_to(std::ostream& out, std::size_t len) {
    std::string piece(std::min(len, std::size_t{1} << 16), '\0');
    for (std::size_t at = 0, part; at < len && out; at += part) {
      const std::uint32_t code = hlc_output_read(&raw_, at, bytes(piece), piece.size(), &part);
      if (code != HLC_MORE) check(code);
      out.write(piece.data(), static_cast<std::streamsize>(part));
    }
  }

 private:
  hlc_output raw_ = HLC_NO_OUTPUT;
};

// A saving in pieces, which ends where it goes out of scope.
class saving {
 public:
  saving() noexcept = default;
  saving(const saving&) = delete;
  saving& operator=(const saving&) = delete;
  ~saving() { hlc_saving_drop(&raw_); }

  hlc_saving* raw() noexcept { return &raw_; }

 private:
  hlc_saving raw_ = HLC_NO_SAVING;
};

// Takes a number of this many bytes, the low one first, from the front of some bytes.
inline std::uint64_t take_number(std::string_view& rest, std::size_t size) {
  std::uint64_t number = 0;
  for (std::size_t at = size; at > 0; at--) number = number << 8 | static_cast<unsigned char>(rest[at - 1]);
  rest.remove_prefix(size);
  return number;
}

// Takes a length of eight bytes, and that many bytes after it.
inline std::string_view take_text(std::string_view& rest) {
  const std::uint64_t len = take_number(rest, length_size);
  const std::string_view text = rest.substr(0, len);
  rest.remove_prefix(len);
  return text;
}

// Takes an answer: a byte 0 for none, or 1 and a value.
inline std::optional<std::string> take_answer(std::string_view& rest) {
  if (take_number(rest, 1) == 0) return std::nullopt;
  return std::string(take_text(rest));
}

}  // namespace hlcstore::detail
#endif
