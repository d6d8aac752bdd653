// Part of hlcstore.hpp: the lock of a store that threads share.
#ifndef HLCSTORE_SLOTS_HPP
#define HLCSTORE_SLOTS_HPP
#include <array>
#include <atomic>
#include <cstddef>
#include <mutex>
#include <shared_mutex>
#include <thread>

namespace hlcstore::detail {

inline constexpr std::size_t slot_count = 16;

// The slot of the thread. Threads get them in turn.
inline std::size_t slot_of_thread() noexcept {
  static std::atomic<std::size_t> threads{0};
  thread_local const std::size_t mine = threads.fetch_add(1, std::memory_order_relaxed) % slot_count;
  return mine;
}

// A lock for readers and writers. A reader locks the slot of its thread. Slots share no cache line, so that readers on
// several processors do not wait for each other's lines. A writer locks all slots in order.
//
// Readers keep no writer waiting for good: it counts itself first, and then takes the gate, which it keeps. A reader
// that sees the count locks its slot behind the gate, so that only readers who came before the writer go first. Readers
// of one slot still run beside each other.
//
// A long reader keeps writers out by a mutex of its own, where they wait before they take the gate: so others go on.
class slot_mutex {
 public:
  void lock() {
    writers_.fetch_add(1, std::memory_order_relaxed);
    long_reader_.lock();
    gate_.lock();
    for (slot& one : slots_) one.mutex.lock();
  }
  void unlock() {
    for (slot& one : slots_) one.mutex.unlock();
    writers_.fetch_sub(1, std::memory_order_relaxed);
    gate_.unlock();
    long_reader_.unlock();
  }

  void lock_shared() {
    // The slot alone keeps readers and writers apart: the count only says who goes first.
    std::shared_mutex& mine = slots_[slot_of_thread()].mutex;
    if (writers_.load(std::memory_order_relaxed) == 0) {
      mine.lock_shared();
    } else {
      held_.fetch_add(1, std::memory_order_relaxed);
      const std::lock_guard gate(gate_);
      mine.lock_shared();
      held_.fetch_sub(1, std::memory_order_relaxed);
    }
  }
  void unlock_shared() { slots_[slot_of_thread()].mutex.unlock_shared(); }

  // Keeps writers out, and other long readers, for as long as what it returns is there.
  std::unique_lock<std::mutex> lock_for_long() { return std::unique_lock(long_reader_); }

  // Lets the readers in that wait at the gate. For a writer between two long turns: the gate is no queue, and a writer
  // that comes back at once would be there before them.
  void let_readers_in() const {
    for (int turn = 0; turn < 1000 && held_.load(std::memory_order_relaxed) > 0; turn++) std::this_thread::yield();
  }

 private:
  struct alignas(128) slot {
    std::shared_mutex mutex;
  };

  std::array<slot, slot_count> slots_;
  alignas(128) std::atomic<unsigned> writers_{0};
  std::atomic<unsigned> held_{0};
  alignas(128) std::mutex gate_;
  std::mutex long_reader_;
};

}  // namespace hlcstore::detail
#endif
