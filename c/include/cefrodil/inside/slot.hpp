// A handle of the index that one thread has, and what its calls come to, for passes.hpp.
#ifndef CEFRODIL_INSIDE_SLOT_HPP
#define CEFRODIL_INSIDE_SLOT_HPP

#include "../../cefrodil.hpp"
#include <array>
#include <atomic>
#include <cstddef>
#include <cstdint>

namespace cefrodil {

// The answer of a put. `renewed`: it overwrote the key's value; or, by `insert_or_assign`, that of a key with the same hash, which is lost.
// `evicted`: another key's entry is lost, also if the put then failed. An entry that has expired or was put before invalidate_all counts as another
// key's, but for `insert_or_assign`.
struct Stored {
    Status status;
    bool renewed;
    bool evicted;
};

namespace inside {

// What a map keeps for each of its threads beside a handle: a Place, which joins the others when it is made. A map of values keeps nothing.
struct NothingBeside {
    struct Place {};
    void join(Place &) noexcept {}
};

// A handle with what its thread alone writes, in pairs of cache lines of its own.
template <size_t Words, class Beside = NothingBeside> struct alignas(128) Slot {
    using Value = std::array<uint64_t, Words>;

    Handle<Words> handle{};
    // How many keys its calls added, less those that they removed. It is only added up, so its steps need no order.
    std::atomic<int64_t> keys{0};
    typename Beside::Place beside{};

    void add(int64_t more) noexcept { keys.store(keys.load(std::memory_order_relaxed) + more, std::memory_order_relaxed); }
    // Counts so many more. Other threads may count by the shared slot, so call this only if the slot is the thread's own, or is locked.
    [[gnu::always_inline]] void count(Counted what, uint64_t number) noexcept { Counting::counter(handle).add(what, number); }
    // Like Handle::get_or_turn, but a value that is found is written where it stays, and nothing is counted.
    Status look(uint64_t key, Value &value, cefrodil_reply &reply) noexcept {
        return static_cast<Status>(cefrodil_get_or_turn_of_width(handle.raw(), key, value.data(), Words, &reply));
    }
    // The puts and removals of a Handle, which are counted. Only what a map has use for is read of the reply.
    [[gnu::always_inline]] Stored put(uint64_t key, const Value &value) noexcept {
        cefrodil_reply reply;
        return stored(cefrodil_put_of_width(handle.raw(), key, value.data(), Words, &reply), reply);
    }
    [[gnu::always_inline]] Stored put_if(uint64_t key, uint64_t since, const Value &value) noexcept {
        cefrodil_reply reply;
        return stored(cefrodil_put_if(handle.raw(), key, since, value.data(), Words, &reply), reply);
    }
    [[gnu::always_inline]] Stored put_if_absent(uint64_t key, const Value &value) noexcept {
        cefrodil_reply reply;
        return stored(cefrodil_put_if_absent(handle.raw(), key, value.data(), Words, &reply), reply);
    }
    // The same by a call in which another key of the shard leaves for a new one. That is counted, also if the put fails then.
    [[gnu::noinline]] Stored put_bounded(uint64_t key, const Value &value) noexcept {
        cefrodil_reply reply;
        return bounded(cefrodil_put_bounded(handle.raw(), key, 1, value.data(), Words, &reply), reply);
    }
    [[gnu::noinline]] Stored put_if_absent_bounded(uint64_t key, const Value &value) noexcept {
        cefrodil_reply reply;
        return bounded(cefrodil_put_if_absent_bounded(handle.raw(), key, 1, value.data(), Words, &reply), reply);
    }
    // Puts, and returns what gave way.
    Swapped<Words> swap(uint64_t key, const Value &value, bool bounded) noexcept {
        return swapped(bounded ? handle.try_swap_bounded(key, 1, value) : handle.try_swap(key, value), bounded);
    }
    Swapped<Words> swap_if_absent(uint64_t key, const Value &value, bool bounded) noexcept {
        return swapped(bounded ? handle.try_swap_if_absent_bounded(key, 1, value) : handle.try_swap_if_absent(key, value), bounded);
    }
    Status remove(uint64_t key) noexcept { return removed(handle.try_remove(key).status); }
    Status take_if(uint64_t key, uint64_t since) noexcept { return removed(handle.try_take_if(key, since).status); }
    // Evicts a key of this one's shard. It is counted, and why.
    Swapped<Words> evict(uint64_t near, Counted why) noexcept {
        const Swapped<Words> tried = handle.try_evict(near);
        if (removed(tried.status) == Status::ok) {
            count(evictions, 1);
            count(why, 1);
        }
        return tried;
    }

  private:
    [[gnu::always_inline]] Stored stored(cefrodil_status status, const cefrodil_reply &reply) noexcept {
        if (status != CEFRODIL_OK) {
            return failed(status, reply);
        }
        const bool renewed = reply.put == CEFRODIL_PUT_RENEWED, evicted = reply.put == CEFRODIL_PUT_EVICTED;
        evicted ? count(evictions, 1) : add(renewed ? 0 : 1);
        return {Status::ok, renewed, evicted};
    }
    [[gnu::cold]] [[gnu::noinline]] Stored failed(cefrodil_status status, const cefrodil_reply &reply) noexcept {
        Counting::counter(handle).wrote(status, reply);
        return {static_cast<Status>(status), false, reply.put == CEFRODIL_PUT_EVICTED};
    }
    [[gnu::always_inline]] Stored bounded(cefrodil_status status, const cefrodil_reply &reply) noexcept {
        const bool has_left = reply.put == CEFRODIL_PUT_EVICTED;
        count(by_capacity, has_left ? 1 : 0);
        add(has_left && status != CEFRODIL_OK ? -1 : 0);
        return stored(status, reply);
    }
    Swapped<Words> swapped(const Swapped<Words> &put, bool bounded) noexcept {
        const bool is_new = put.status == Status::ok && (!put.old || put.evicted);
        add(int64_t(is_new) - int64_t(put.evicted.has_value()));
        count(by_capacity, bounded && put.evicted ? 1 : 0);
        return put;
    }
    Status removed(Status status) noexcept {
        add(status == Status::ok ? -1 : 0);
        return status;
    }
};

} // namespace inside

} // namespace cefrodil

#endif
