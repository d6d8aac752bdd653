// What the programs that time calls share: the processor's time, the memory in use, random numbers, keys and values.
#pragma once
#include "peer.hh"

#include <ctime>
#include <malloc.h>
#include <unistd.h>

inline double now() {
  timespec t;
  clock_gettime(CLOCK_PROCESS_CPUTIME_ID, &t);
  return t.tv_sec * 1e9 + t.tv_nsec;
}

inline uint64_t resident() {
  uint64_t pages, resident;
  std::FILE* file = std::fopen("/proc/self/statm", "r");
  if (!file || std::fscanf(file, "%lu %lu", &pages, &resident) != 2) give_up("no /proc/self/statm");
  std::fclose(file);
  return resident * static_cast<uint64_t>(sysconf(_SC_PAGESIZE));
}

// The bytes of the blocks of malloc that are in use.
inline uint64_t in_blocks() {
  const struct mallinfo2 info = mallinfo2();
  return info.uordblks + info.hblkhd;
}

// Marsaglia's xorshift64 (2003).
inline uint64_t random_word() {
  static uint64_t word = 88172645463325252;
  word ^= word << 13;
  word ^= word >> 7;
  word ^= word << 17;
  return word;
}

// A letter and seven digits, as the first eight of so many bytes.
inline string_view text_of(char* text, char letter, uint64_t number, size_t bytes = 8) {
  text[0] = letter;
  for (int i = 7; i > 0; i--, number /= 10) text[i] = '0' + number % 10;
  return {text, bytes};
}

inline uint64_t stamp_of(uint64_t write) { return (write + 1) << 16; }

inline void tell(const char* name, double value) { std::printf("%s %.1f\n", name, value); }

// Measures the time until it is dropped, divided by a number of calls.
class Timed {
 public:
  Timed(const char* name, double calls) : name_(name), calls_(calls), began_(now()) {}
  ~Timed() { tell(name_, (now() - began_) / calls_); }

 private:
  const char* name_;
  double calls_, began_;
};
