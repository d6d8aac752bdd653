// What the programs of the peers share: numbers, keys and errors. A peer is a header with one class `Store`, named by
// -DPEER='"lmdb.hh"'. script.cc answers a script with it, calls.cc only times its calls. A store has:
//   static constexpr const char* name;
//   static constexpr bool wants_order;              // it takes the versions of a key in the order of their stamps
//   void put(stamp, node, key, value or null);      // a version; no value is a deletion
//   void flush();                                   // what was put can be read
//   void open(id, stamp); void close(id);           // a snapshot; ids count up
//   bool read(id, stamp, key, &value);              // the newest value at or below the stamp, until the next call
//   uint64_t list(id, stamp);                       // touches each key and value of a snapshot, and counts them
//   void tidy();                                    // frees what it keeps for its next listing
//   void vacuum(points, floor);                     // of ascending points, the last of which is the floor
//   uint64_t rows();                                // of all versions, 0 where it can't be asked
#pragma once
#include <cstdint>
#include <cstdio>
#include <cstdlib>
#include <cstring>
#include <string>
#include <string_view>
#include <vector>

using std::string;
using std::string_view;
using Points = std::vector<uint64_t>;

[[noreturn]] inline void give_up(const char* why) {
  std::fprintf(stderr, "peer: %s\n", why);
  std::_Exit(1);
}

// Returns a version's timestamp where a peer has one number for it: two nodes may have the same stamp. 64 nodes leave
// 42 bits.
inline uint64_t timestamp(uint64_t stamp, uint64_t node) { return stamp << 6 | node; }
constexpr uint64_t LAST_NODE = 63;

// The number of writes in one transaction or batch; a read ends it earlier, with the writes that there are.
constexpr int BATCH = 1000;

// What a listing touches, so that no compiler removes it.
inline volatile char touched;
inline void touch(string_view value) {
  if (!value.empty()) touched = value.back();
}

// Makes an empty folder in memory.
inline string memory_folder(const char* name) {
  const string folder = string("/dev/shm/hlcstore-bench-") + name;
  if (std::system(("rm -rf " + folder + " && mkdir " + folder).c_str()) != 0) give_up("no folder in /dev/shm");
  return folder;
}
