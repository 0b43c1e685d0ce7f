// When an object that has left an index may be freed, for cefrodil_object_map.hpp: when no call is left that could have found it.
//
// A call that looks objects up is pinned first, and announces the epoch. An object is retired after it has left the index, and notes the epoch of that.
// A call that is pinned since this epoch or an earlier one may have found the object. All others can't. Each look for objects that can be freed begins
// the next epoch. Each thread that has a slot has a place here, with a list of what it retired. map/SAFETY.md of Cefrodil's repository has the argument in full: the same
// is done there in Rust.
#ifndef CEFRODIL_INSIDE_EPOCHS_HPP
#define CEFRODIL_INSIDE_EPOCHS_HPP

#include "threads.hpp"
#include <algorithm>
#include <atomic>
#include <cstddef>
#include <cstdint>
#include <limits>
#include <mutex>
#include <utility>

namespace cefrodil::inside {

// What an object has that is retired.
struct Retired {
    Retired *next = nullptr;
    uint64_t epoch = 0;
};

// What a call frees, on its stack. A destructor may call, too. What that call would free of the same map, it adds to the outer one's. So a chain of
// destructors takes no more stack than one of them.
class Freeing {
  public:
    Freeing(const void *map, Retired *first) noexcept : map_(map), first_(first), outer_(innermost()) { innermost() = this; }
    Freeing(const Freeing &) = delete;
    Freeing &operator=(const Freeing &) = delete;
    ~Freeing() { innermost() = outer_; }

    // What this thread frees of this map, or null.
    static Freeing *of(const void *map) noexcept {
        Freeing *freeing = innermost();
        while (freeing != nullptr && freeing->map_ != map) {
            freeing = freeing->outer_;
        }
        return freeing;
    }
    // Adds these, each with the next one.
    void add(Retired *first) noexcept {
        Retired **last = &first;
        while (*last != nullptr) {
            last = &(*last)->next;
        }
        *last = std::exchange(first_, first);
    }
    // One that is to be freed, or null.
    Retired *next() noexcept { return first_ == nullptr ? nullptr : std::exchange(first_, first_->next); }

  private:
    static Freeing *&innermost() noexcept {
        static thread_local Freeing *freeing = nullptr;
        return freeing;
    }

    const void *const map_;
    Retired *first_;
    Freeing *const outer_;
};

// The calls that are pinned, and the objects that wait for them.
template <class Parts> class EpochsOf {
    using Guard = std::lock_guard<typename Parts::Mutex>;

    // So many objects of a thread wait before it looks whether it can free them.
    static constexpr size_t batch = 32;
    // No call is pinned.
    static constexpr uint64_t none = std::numeric_limits<uint64_t>::max();

    // The calls of one thread that are pinned: one, and others within it. Only the thread that has the place uses `depth`.
    struct Pin {
        typename Parts::template Atomic<uint64_t> since{none};
        size_t depth = 0;
    };

    // What one thread has retired, in the order of the epochs.
    struct List {
        typename Parts::Mutex lock{};
        Retired *first = nullptr, **last = &first;
        size_t length = 0, look_at = batch; // at this length, a call looks which can be freed

        void add(Retired &object, uint64_t epoch) noexcept {
            object.epoch = epoch;
            object.next = nullptr;
            *last = &object;
            last = &object.next;
            length++;
        }
        // Takes out those of the epochs before this one. Returns them, and then the others.
        Retired *take_free(uint64_t end, Retired *others) noexcept {
            Retired *free = first, **link = &free;
            for (; *link != nullptr && (*link)->epoch < end; link = &(*link)->next) {
                length--;
            }
            first = *link;
            last = first == nullptr ? &first : last;
            *link = others;
            look_at = length + batch;
            return free;
        }
    };

  public:
    EpochsOf() noexcept {}
    EpochsOf(const EpochsOf &) = delete;
    EpochsOf &operator=(const EpochsOf &) = delete;

    // What one thread has here, or what all threads without a slot have together.
    class Place {
        friend EpochsOf;
        Pin pin_{};
        List list_{};
        Place *next_ = nullptr;
    };
    // Adds a place, before it is used. It lasts as long as the epochs.
    void join(Place &place) noexcept {
        const Guard guard(sharing_);
        place.next_ = first_;
        first_ = &place;
    }

    // A pinned call. It begins and ends in one thread.
    class Pinned {
      public:
        // By the thread that has this place, or by one without a place: null.
        Pinned(EpochsOf &epochs, Place *place) noexcept : epochs_(epochs), place_(place) {
            if (place_ == nullptr) {
                epochs_.share(*this);
            } else if (Pin &pin = place_->pin_; pin.depth++ == 0) {
                // Sequentially consistent, so that it comes before the lookups of this call.
                pin.since.store(epochs_.epoch_.load(std::memory_order_seq_cst), std::memory_order_seq_cst);
            }
        }
        Pinned(const Pinned &) = delete;
        Pinned &operator=(const Pinned &) = delete;
        [[gnu::always_inline]] ~Pinned() {
            if (place_ == nullptr) {
                epochs_.unshare(*this);
            } else if (Pin &pin = place_->pin_; --pin.depth == 0) {
                // Release: what this call did with objects comes before they are freed. Who frees them has read this.
                pin.since.store(none, std::memory_order_release);
            }
        }

      private:
        friend EpochsOf;
        EpochsOf &epochs_;
        Place *const place_;
        // Without a place: its epoch, and its neighbours among the others. With one they have no value.
        uint64_t since_;
        Pinned *next_, **link_;
    };

    // Retires an object, which has left the index by a call that returned it: by a thread that has this place. Returns those that may be freed now, each
    // with the next one.
    [[nodiscard]] Retired *retire(Retired &object, Place &place) noexcept {
        uint64_t end = 0;
        Retired *free = nullptr;
        {
            List &own = place.list_;
            const Guard guard(own.lock);
            own.add(object, epoch_.load(std::memory_order_seq_cst));
            if (own.length < own.look_at) {
                return nullptr;
            }
            end = begin_epoch();
            free = own.take_free(end, free);
        }
        // And what waits in another list, whose thread may have ended.
        List &other = next_place().list_;
        const std::unique_lock<typename Parts::Mutex> guard(other.lock, std::try_to_lock);
        return guard ? other.take_free(end, free) : free;
    }
    // Returns the objects that may be freed now.
    [[nodiscard]] Retired *free_now() noexcept {
        const uint64_t end = begin_epoch();
        Retired *free = nullptr;
        for (Place *place = first_place(); place != nullptr; place = place->next_) {
            const Guard guard(place->list_.lock);
            free = place->list_.take_free(end, free);
        }
        return free;
    }
    // How many objects wait.
    uint64_t waiting() noexcept {
        uint64_t sum = 0;
        for (Place *place = first_place(); place != nullptr; place = place->next_) {
            const Guard guard(place->list_.lock);
            sum += place->list_.length;
        }
        return sum;
    }

  private:
    // Not compiled into the callers, which are quicker then with a place.
    [[gnu::cold]] [[gnu::noinline]] void share(Pinned &call) noexcept {
        const Guard guard(sharing_);
        call.since_ = epoch_.load(std::memory_order_seq_cst);
        call.next_ = shared_, call.link_ = &shared_;
        if (shared_ != nullptr) {
            shared_->link_ = &call.next_;
        }
        shared_ = &call;
    }
    [[gnu::cold]] [[gnu::noinline]] void unshare(Pinned &call) noexcept {
        const Guard guard(sharing_);
        *call.link_ = call.next_;
        if (call.next_ != nullptr) {
            call.next_->link_ = call.link_;
        }
    }
    // Begins an epoch. Returns the first one whose objects can't be freed: one that a pinned call has announced, or the one that has begun, in which
    // calls may be pinned that were not seen. So may those of a place that joins later.
    uint64_t begin_epoch() noexcept {
        const uint64_t begun = epoch_.fetch_add(1, std::memory_order_seq_cst) + 1;
        return std::min(pinned_since(), begun);
    }
    // The first epoch that a pinned call has announced.
    uint64_t pinned_since() noexcept {
        uint64_t least = shared_since();
        for (const Place *place = first_place(); place != nullptr; place = place->next_) {
            least = std::min(least, place->pin_.since.load(std::memory_order_seq_cst));
        }
        return least;
    }
    uint64_t shared_since() noexcept {
        const Guard guard(sharing_);
        uint64_t least = none;
        for (const Pinned *call = shared_; call != nullptr; call = call->next_) {
            least = std::min(least, call->since_);
        }
        return least;
    }
    // All places that have joined, each with the next one, which stays.
    Place *first_place() noexcept {
        const Guard guard(sharing_);
        return first_;
    }
    // The place whose list a thread looks at beside its own. Threads go round together. One has joined.
    Place &next_place() noexcept {
        const Guard guard(sharing_);
        other_ = other_ != nullptr && other_->next_ != nullptr ? other_->next_ : first_;
        return *other_;
    }

    typename Parts::template Atomic<uint64_t> epoch_{0};
    typename Parts::Mutex sharing_{};
    // With the lock: the calls without a place, and the places.
    Pinned *shared_ = nullptr;
    Place *first_ = nullptr, *other_ = nullptr;
};

using Epochs = EpochsOf<Threads>;

} // namespace cefrodil::inside

#endif
