// hlcstore through its C library, for calls.cc: one node, whose items are accepted one at a time.
#include "hlcstore.h"
#include "hlcstore_inline.h"
#include "peer.hh"

class Store {
 public:
  static constexpr const char* name = "hlcstore";
  static constexpr bool wants_order = true;

  Store() { check(hlc_store_open(&store_, 1)); }

  void put(uint64_t stamp, uint64_t node, string_view key, const string_view* value) {
    uint64_t word;
    check(hlc_store_accept_write(&store_, node, number_++, stamp, bytes(key), key.size(), bytes(*value), value->size(),
                                 &word));
  }

  void flush() {}

  void open(uint64_t id, uint64_t stamp) {
    ids_.resize(id + 1);
    check(hlc_snapshot_open(&store_, stamp, &ids_[id]));
  }

  void close(uint64_t id) {
    uint64_t stamp;
    check(hlc_snapshot_close(&store_, ids_[id], &stamp));
  }

  bool read(uint64_t id, uint64_t, string_view key, string_view* value) {
    size_t len;
    const uint32_t code = hlc_snapshot_read(&store_, ids_[id], bytes(key), key.size(), out_, sizeof out_, &len);
    if (code == HLC_NO_VALUE) return false;
    check(code);
    *value = string_view(reinterpret_cast<char*>(out_), len);
    return true;
  }

  // In pieces of 64 KiB, as a program would that goes through many keys: a pair of a piece is still near when it
  // is read.
  uint64_t list(uint64_t id, uint64_t) {
    uint64_t count = 0;
    string from;
    for (uint32_t code = HLC_MORE; code == HLC_MORE;) {
      size_t len, pairs;
      code = hlc_snapshot_scan(&store_, ids_[id], bytes(from), from.size(), nullptr, 0, out_, sizeof out_, &len,
                               &pairs);
      if (code != HLC_MORE) check(code);
      hlc_bytes rest = {out_, len}, last = {};
      for (hlc_pair pair; hlc_pair_next(&rest, &pair); last = pair.key) touch(text_of(pair.value));
      count += pairs;
      // On from the first key after the last one of the piece.
      from.assign(text_of(last)).push_back(0);
    }
    return count;
  }

  void tidy() {}

  void vacuum(const Points&, uint64_t) {
    uint64_t floor, kept, bytes, dropped;
    check(hlc_store_vacuum(&store_, &floor, &kept, &bytes, &dropped));
  }

  uint64_t rows() {
    uint64_t rows;
    check(hlc_store_rows(&store_, &rows));
    return rows;
  }

 private:
  static void check(uint32_t code) {
    if (code != HLC_OK) give_up("a call was refused");
  }
  static const uint8_t* bytes(string_view text) { return reinterpret_cast<const uint8_t*>(text.data()); }
  static string_view text_of(hlc_bytes bytes) { return {reinterpret_cast<const char*>(bytes.at), bytes.len}; }

  hlc_store store_ = HLC_CLOSED_STORE;
  uint64_t number_ = 0;
  std::vector<uint64_t> ids_;
  uint8_t out_[65536];
};
