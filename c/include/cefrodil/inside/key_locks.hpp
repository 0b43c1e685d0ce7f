// The locks of a map's keys, for entries.hpp. They are tried, and never waited for. No code of the user runs under one.
#ifndef CEFRODIL_INSIDE_KEY_LOCKS_HPP
#define CEFRODIL_INSIDE_KEY_LOCKS_HPP

#include <array>
#include <atomic>
#include <cstddef>
#include <cstdint>
#include <vector>

namespace cefrodil::inside {

// The lock of some keys.
struct KeyLock {
    bool try_lock() noexcept { return !is_taken.exchange(true, std::memory_order_acquire); }
    void unlock() noexcept { is_taken.store(false, std::memory_order_release); }
    std::atomic<bool> is_taken{false};
};

// All locks, a byte each: two threads hardly ever want the same one, and seldom the same cache line. Nothing else is in these lines. A write that had
// read its line before would wait for it twice: to read it, and to have it alone.
class KeyLocks {
  public:
    // Before any other call. Takes memory for the locks of a map for so many entries: a small map takes little.
    void divide(uint32_t entries) {
        size_t locks = line;
        while (locks < most_locks && locks / 4 < entries) {
            locks *= 2;
        }
        lines_ = std::vector<Line>(locks / line);
        last_ = locks - 1;
    }
    KeyLock &of(uint64_t index) noexcept {
        const uint64_t number = index & last_;
        return lines_[number / line].locks[number % line];
    }

  private:
    static constexpr size_t line = 64, most_locks = 4096;
    struct alignas(line) Line {
        std::array<KeyLock, line> locks{};
    };
    std::vector<Line> lines_{};
    uint64_t last_ = 0; // of a power of two
};

} // namespace cefrodil::inside

#endif
