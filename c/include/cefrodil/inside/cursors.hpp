// Where calls that put look for entries that have ended, for entries.hpp.
#ifndef CEFRODIL_INSIDE_CURSORS_HPP
#define CEFRODIL_INSIDE_CURSORS_HPP

#include "hash.hpp"
#include <atomic>
#include <cstdint>
#include <vector>

namespace cefrodil::inside {

// The next place of each shard. They go round all places of the shard.
class Cursors {
  public:
    // Takes memory for so many shards, a power of two, each with so many places.
    void divide(uint32_t shards, uint32_t places) {
        next_ = std::vector<Cursor>(shards);
        places_ = places;
    }
    // Passes so many places of this key's shard. Returns the number of the first one. Relaxed: threads only share the work.
    uint64_t pass(uint64_t key, uint32_t count) noexcept {
        return next_[key >> bits_before_shard & (next_.size() - 1)].number.fetch_add(count, std::memory_order_relaxed);
    }
    uint32_t place(uint64_t number) const noexcept { return static_cast<uint32_t>(number % places_); }

  private:
    struct alignas(64) Cursor {
        std::atomic<uint64_t> number{0};
    };
    std::vector<Cursor> next_{};
    uint32_t places_ = 1;
};

} // namespace cefrodil::inside

#endif
