// The weights of a map's objects, and their bound, for objects.hpp. The map adds a weight before it puts the object, and subtracts it once the object has
// left.
#ifndef CEFRODIL_INSIDE_WEIGHTS_HPP
#define CEFRODIL_INSIDE_WEIGHTS_HPP

#include "handle.hpp"
#include "hash.hpp"
#include "threads.hpp"
#include <atomic>
#include <cstdint>
#include <vector>

namespace cefrodil::inside {

// The sum of all, and how many objects each shard has. A key is one of the shard.
//
// Relaxed steps suffice, but where the bound changes. Of all objects that are there take the one whose weight was added last. Its call compares the sum after that, and sees them
// all. It goes on until the sum is within the bound. The numbers only say where to evict.
template <class Parts> class WeightsOf {
  public:
    explicit WeightsOf(uint64_t bound) noexcept : bound_(bound) {}
    // Takes memory for so many shards, a power of two.
    void divide(uint32_t shards) { numbers_ = std::vector<Number>(shards); }

    void add(uint64_t key, uint64_t weight) noexcept { change(key, weight, 1); }
    void subtract(uint64_t key, uint64_t weight) noexcept { change(key, 0 - weight, uint64_t(0) - 1); }
    uint64_t sum() const noexcept { return sum_.load(std::memory_order_relaxed); }
    bool is_over() const noexcept { return sum() > bound(); }
    uint64_t bound() const noexcept { return bound_.load(std::memory_order_relaxed); }
    // Release, and acquire in `change`: a call that adds its weight after this sees the bound. What was added before is in the sum that the caller reads
    // next.
    void set_bound(uint64_t bound) noexcept {
        bound_.store(bound, std::memory_order_relaxed);
        sum_.fetch_add(0, std::memory_order_release);
    }
    // A key of the next shard. Threads go round together.
    uint64_t next() noexcept { return key_of_shard(next_.fetch_add(1, std::memory_order_relaxed)); }
    // A key of that one of the next shards which has the most objects.
    uint64_t fullest() noexcept {
        const uint64_t first = next();
        uint64_t found = first;
        for (uint64_t more = 1; more < compared; more++) {
            const uint64_t key = first + key_of_shard(more);
            found = of(key).load(std::memory_order_relaxed) > of(found).load(std::memory_order_relaxed) ? key : found;
        }
        return found;
    }

    // Evicts an object by `evict`, which takes a key of a shard: of the one that has the most of a few. What calls are about to put counts, so that may have
    // none, or another thread has its turn. Then it tries all others once. absent: no shard has any.
    template <class Evict> Status evict_from(uint32_t shards, const Evict &evict) noexcept {
        Status status = evict(fullest());
        for (uint32_t looked = 0; status != Status::ok && looked < shards; looked++) {
            const Status tried = evict(next());
            status = tried != Status::absent ? tried : status;
        }
        return status;
    }

  private:
    using Atomic = typename Parts::template Atomic<uint64_t>;
    struct alignas(64) Number {
        Atomic objects{0};
    };
    // So many shards are compared at an eviction. That keeps all nearly alike, and takes no longer where there are many.
    static constexpr uint64_t compared = 8;
    Atomic &of(uint64_t key) noexcept { return numbers_[key >> bits_before_shard & (numbers_.size() - 1)].objects; }
    void change(uint64_t key, uint64_t weight, uint64_t objects) noexcept {
        sum_.fetch_add(weight, std::memory_order_acquire);
        of(key).fetch_add(objects, std::memory_order_relaxed);
    }

    Atomic bound_, sum_{0}, next_{0};
    std::vector<Number> numbers_{};
};

using Weights = WeightsOf<Threads>;

} // namespace cefrodil::inside

#endif
