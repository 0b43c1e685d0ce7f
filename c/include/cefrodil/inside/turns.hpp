// Calls by the passes of passes.hpp, for cefrodil_map.hpp. A call that other threads keep from its turn is repeated.
#ifndef CEFRODIL_INSIDE_TURNS_HPP
#define CEFRODIL_INSIDE_TURNS_HPP

#include "hash.hpp"
#include "passes.hpp"
#include "threads.hpp"
#include <algorithm>
#include <array>
#include <atomic>
#include <chrono>
#include <thread>
#include <type_traits>

namespace cefrodil::inside {

// map/SETTINGS has these numbers, and those of Rust's maps.
// So many repetitions spin at first, and from a later one on a call sleeps before it is repeated.
inline constexpr uint32_t spins = 7, sleeps_from = 200;
// How often a lookup is repeated that is a miss if it stays busy.
inline constexpr uint32_t most_looks = 1000;

// A moment's rest for the processor, as Rust's `spin_loop` takes it.
inline void pause() noexcept {
#if defined(__x86_64__)
    __builtin_ia32_pause();
#else
    __asm__ __volatile__("isb");
#endif
}

// Waits before a call is repeated for this time. At first it spins, each time twice as long. Then it yields, and at last it sleeps: the thread that
// has the turn may have to wait for a processor.
inline void wait_before(uint32_t repeat) noexcept {
    if (repeat < spins) {
        for (uint32_t step = 0; step < uint32_t(1) << repeat; step++) {
            pause();
        }
    } else if (repeat < sleeps_from) {
        std::this_thread::yield();
    } else {
        std::this_thread::sleep_for(std::chrono::microseconds(100));
    }
}

inline bool is_disturbed(Status status) noexcept { return status == Status::busy || status == Status::held; }

// The answer of a call that did nothing.
template <class Answer> Answer refusal(Status status) noexcept {
    if constexpr (std::is_same_v<Answer, Status>) {
        return status;
    } else {
        Answer answer{};
        answer.status = status;
        return answer;
    }
}

// What a lookup came to. ok: the moment of the put of what it found.
struct Seen {
    Status status;
    uint64_t since;
};

// By default a shard has so many entries or more, and there are so many shards at most.
inline constexpr uint32_t most_shards = 16, entries_of_a_shard = 62;
inline uint32_t shards_for(uint32_t entries) noexcept {
    uint32_t shards = 1;
    while (shards < most_shards && shards * 2 <= entries / entries_of_a_shard) {
        shards *= 2;
    }
    return shards;
}

// Calls by the passes of an index. A call that other threads keep from its turn is repeated.
template <size_t Words, class Beside = NothingBeside> class Turns : public Passes<Words, Beside> {
    using Base = Passes<Words, Beside>;

  public:
    using Base::lines;
    using typename Base::OwnSlot;

    // 0 shards: as many as these entries ask for. If all have room for more than a tenth more entries, that is the bound.
    [[nodiscard]] Status open(uint32_t entries, uint32_t asked_shards, uint32_t passes, uint32_t tries) noexcept {
        if (!same_version()) {
            return Status::other_version;
        }
        const uint32_t shards = asked_shards == 0 ? shards_for(entries) : asked_shards;
        cefrodil_shape shape{};
        const auto status = static_cast<Status>(cefrodil_shape_for_items(entries, shards, &shape));
        if (status != Status::ok) {
            return status;
        }
        shape.mix = CEFRODIL_MIX_NONE;
        shape.stripes = std::min(shape.stripes, std::max(stripes_of_a_shard, all_stripes / shards));
        tries_ = tries;
        looks_ = std::min(tries, most_looks);
        shards_ = shards;
        room_ = uint64_t(shape.items) * shards;
        set_bound(std::min(room_, uint64_t(entries) + entries / 10));
        return Base::open(shape, shards, passes);
    }

    // Looks a key up by a slot that `own_slot` returned: ok, absent, or busy if it was that once and then so often. A value that is found is written. By
    // `get_or_turn`, whose export is shorter. It isn't counted. How often is only read when it was busy.
    Seen get(OwnSlot *own, uint64_t key, const uint32_t &most, std::array<uint64_t, Words> &value) noexcept {
        cefrodil_reply reply;
        const Status status = this->call_by(own, [&](OwnSlot &slot) { return slot.look(key, value, reply); });
        return status == Status::busy ? get_again(key, most, value) : Seen{status, reply.since};
    }

    // Makes a call by this thread's slot, or by the shared one, until it is neither busy nor held. The first try is compiled into the caller. Here and
    // below, what a call captures by value stays in registers.
    template <class Call> [[gnu::always_inline]] auto repeated(Call made) noexcept {
        const auto answer = this->call(made);
        return is_disturbed(status_of(answer)) ? again(made, answer) : answer;
    }
    const uint32_t &tries() const noexcept { return tries_; }
    // How often a lookup is repeated that is a miss if it stays busy.
    const uint32_t &looks() const noexcept { return looks_; }
    uint32_t shards() const noexcept { return shards_; }
    // How many keys a shard has room for.
    uint32_t places() const noexcept { return static_cast<uint32_t>(room_ / shards_); }
    // Whether a key is to leave for a new one. Relaxed, as the bound is: a put that sees an older one leaves keys to the next put of a new key.
    bool is_full() const noexcept { return is_full_.load(std::memory_order_relaxed); }
    uint64_t capacity() const noexcept { return bound_.load(std::memory_order_relaxed); }

  protected:
    // Sets the bound, and evicts keys until the others are within it: by `evict`, which takes a key of the shard. bad_capacity: it is 0, or above the room.
    // held: some are left to evict.
    template <class Evict> Status bound_keys(uint64_t most, const Evict &evict) noexcept {
        if (most == 0 || most > room_) {
            return Status::bad_capacity;
        }
        set_bound(most);
        for (uint32_t held = 0; this->keys() > most;) {
            if (held > tries_) {
                return Status::held;
            }
            evict_above(most, 0, evict) ? void(held = 0) : wait_before(held++);
        }
        note_full();
        return Status::ok;
    }
    // After a put of a new key for which none gave way: evicts what is too much then. If other threads have turns that it needs, a later put does this.
    // Whether it has evicted.
    template <class Evict> bool keep_bound(uint64_t key, const Evict &evict) noexcept { return capacity() != room_ && evict_excess(key, evict); }
    // The status of a call by which a key has left, if it is ok, and none came for it. So there is room for a new one.
    Status left(Status status) noexcept {
        if (status == Status::ok && capacity() != room_) {
            // Of this fence and that of `note_full`, one is first. So the thread that has noted that the map is full sees the count, or this one the note.
            Threads::fence();
            if (is_full()) {
                is_full_.store(false, std::memory_order_relaxed);
            }
        }
        return status;
    }
    // Whether the index has the key. It tries once: if other threads keep it from that, the key counts as a new one.
    bool has(uint64_t key) noexcept {
        std::array<uint64_t, Words> value;
        return get(this->own_slot(), key, 0, value).status == Status::ok;
    }

  private:
    template <class Evict> [[gnu::cold]] [[gnu::noinline]] bool evict_excess(uint64_t key, const Evict &evict) noexcept {
        // Of threads that put at the same time, the last one sees what all have counted.
        Threads::fence();
        if (this->keys() < capacity()) {
            return false;
        }
        // The new key's shard comes last.
        const bool has_evicted = evict_above(capacity(), key + key_of_shard(1), evict);
        note_full();
        return has_evicted;
    }
    // Not if there are more: then the next put of a new key evicts them.
    void note_full() noexcept {
        const auto is_so = [this] { return capacity() != room_ && this->keys() == capacity(); };
        is_full_.store(is_so(), std::memory_order_relaxed);
        Threads::fence();
        // A key may have left, or the bound may have changed, before others could see the store.
        if (is_full() && !is_so()) {
            is_full_.store(false, std::memory_order_relaxed);
        }
    }
    void set_bound(uint64_t most) noexcept {
        bound_.store(most, std::memory_order_relaxed);
        is_full_.store(false, std::memory_order_relaxed);
    }
    // Evicts keys while there are more than so many: one in the shard of this key, and each later one in the next shard. It ends when no shard gives one. It
    // looks before each eviction, since other threads may evict the same excess. Whether it has evicted.
    template <class Evict> bool evict_above(uint64_t most, uint64_t near, const Evict &evict) noexcept {
        bool has_evicted = false;
        for (uint64_t shard = 0, missed = 0; missed < shards_ && this->keys() > most; shard++) {
            const bool is_ok = evict(near + key_of_shard(shard)) == Status::ok;
            has_evicted = has_evicted || is_ok;
            missed = is_ok ? 0 : missed + 1;
        }
        return has_evicted;
    }
    // The tries after the first one.
    template <class Call, class Answer> [[gnu::cold]] [[gnu::noinline]] Answer again(Call made, Answer answer) noexcept {
        for (uint32_t repeat = 0; is_disturbed(status_of(answer)); repeat++) {
            if (repeat >= tries_) {
                give_up(tries_);
                break;
            }
            wait_before(repeat);
            answer = this->call(made);
        }
        return answer;
    }
    // Counts a call that ends without an answer, if it slept.
    [[gnu::cold]] [[gnu::noinline]] void give_up(uint32_t most) noexcept {
        if (lines() && most > sleeps_from) {
            lines()->stalls().give_up();
        }
    }
    [[gnu::cold]] [[gnu::noinline]] Seen get_again(uint64_t key, uint32_t most, std::array<uint64_t, Words> &value) noexcept {
        cefrodil_reply reply{};
        Status status = Status::busy;
        for (uint32_t repeat = 0; repeat < most && status == Status::busy; repeat++) {
            wait_before(repeat);
            status = this->call([&](OwnSlot &slot) { return slot.look(key, value, reply); });
        }
        if (status == Status::busy) {
            give_up(most);
        }
        return {status, reply.since};
    }

    // The most stripes that all shards have together, but each may have `stripes_of_a_shard`. Each stripe has a version of 8 bytes, and more of them
    // would leave less room for entries in the processor's caches.
    static constexpr uint32_t all_stripes = 4096, stripes_of_a_shard = 64;

    uint32_t tries_ = 0, looks_ = 0, shards_ = 0;
    // How many keys there is room for, and how many there may be.
    uint64_t room_ = 0;
    std::atomic<uint64_t> bound_{0};
    // Whether there were so many of them, and none has left since but for another one. If the bound is the room, the index itself evicts.
    std::atomic<bool> is_full_{false};
};

} // namespace cefrodil::inside

#endif
