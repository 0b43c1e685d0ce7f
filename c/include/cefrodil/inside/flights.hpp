// Computations under way, for both maps: of several callers that miss a key, one computes its value, and the others wait for it. If the
// key is changed meanwhile, the value may be older than the change, and is not put. Nor is what a caller computes that can't wait.
#ifndef CEFRODIL_INSIDE_FLIGHTS_HPP
#define CEFRODIL_INSIDE_FLIGHTS_HPP

#include "handle.hpp"
#include "hash.hpp"
#include "lives.hpp"
#include "threads.hpp"
#include "waits.hpp"
#include <algorithm>
#include <array>
#include <atomic>
#include <chrono>
#include <cstddef>
#include <cstdint>
#include <mutex>

namespace cefrodil::inside {

template <class Parts> class FlightOf;

// The flights for some keys of a map.
template <class Parts> class FlightsOf {
  public:
    // Call it before a change of this key. Each flight that began before is outdated then, or has put its value.
    //
    // Without the fence a processor may read `count_` while what the caller did before, such as a change of the store behind the map, still waits
    // to be written. A flight that begins then would not be counted, and its function would read the old store. A flight has a fence, too, between
    // its count and its function. So it is counted here, or its function sees what the caller did.
    //
    // A flight that is not counted any more has ended. The load acquires what that released, so the change comes after the flight's put.
    void outdate(const Identity &key) noexcept {
        outdate_each([&](const Flight &flight) { return is_same(flight.key_, key); });
    }
    // The same for a change of all keys.
    void outdate_all() noexcept {
        outdate_each([](const Flight &) { return true; });
    }

  private:
    using Flight = FlightOf<Parts>;
    friend Flight;

    Flight *flight_of(const Identity &key) const noexcept {
        Flight *flight = first_;
        while (flight != nullptr && !is_same(flight->key_, key)) {
            flight = flight->next_;
        }
        return flight;
    }
    template <class IsChanged> void outdate_each(IsChanged is_changed) noexcept {
        Parts::fence();
        if (count_.load(std::memory_order_acquire) == 0) {
            return;
        }
        const std::lock_guard<typename Parts::Mutex> guard(lock_);
        for (Flight *flight = first_; flight != nullptr; flight = flight->next_) {
            flight->is_outdated_ = flight->is_outdated_ || is_changed(*flight);
        }
    }

    typename Parts::Mutex lock_{};
    Flight *first_ = nullptr;
    typename Parts::template Atomic<uint32_t> count_{0};
};

// The computation of one key's value by one caller. It lies on that caller's stack, so it also ends by an exception.
template <class Parts> class FlightOf {
  public:
    // Begins, or waits for the end of another thread's flight for this key, until this time at most.
    FlightOf(FlightsOf<Parts> &flights, const Identity &known, Until until = Until::max()) : flights_(flights), key_(known) {
        std::unique_lock<typename Parts::Mutex> guard(flights_.lock_);
        if (FlightOf *const other = flights_.flight_of(key_)) {
            is_alone_ = !waits_for(*other, guard, until);
            return;
        }
        next_ = flights_.first_;
        flights_.first_ = this;
        // Relaxed: the fence comes after it. `FlightsOf::outdate` says what for.
        flights_.count_.fetch_add(1, std::memory_order_relaxed);
        Parts::fence();
        has_begun_ = true;
    }
    FlightOf(const FlightOf &) = delete;
    FlightOf &operator=(const FlightOf &) = delete;
    ~FlightOf() { end(); }

    bool has_begun() const noexcept { return has_begun_; }
    // Whether it can't wait, or has waited for long enough: the flight for this key is of this thread, or of one that waits for this thread, or it goes on.
    // Then it computes for itself alone.
    bool is_alone() const noexcept { return is_alone_; }

    // From now on no call waits for it.
    void end() {
        if (!has_begun_) {
            return;
        }
        has_begun_ = false;
        const std::lock_guard<typename Parts::Mutex> guard(flights_.lock_);
        FlightOf **link = &flights_.first_;
        while (*link != this) {
            link = &(*link)->next_;
        }
        *link = next_;
        // Release: who reads the count sees what this flight has put.
        flights_.count_.fetch_sub(1, std::memory_order_release);
        if (is_awaited_) {
            WaitsOf<Parts>::end(this);
            ended_.notify_all();
        }
    }

    // Puts what was computed by this call, unless the key was changed since the flight began. A change that begins meanwhile waits.
    template <class Put> [[nodiscard]] Status land(Put put) {
        const std::lock_guard<typename Parts::Mutex> guard(flights_.lock_);
        return is_outdated_ || is_alone_ ? Status::stale : put();
    }

  private:
    friend FlightsOf<Parts>;
    // Waits for the end of another flight, unless it would wait for this thread. Whether that has ended.
    bool waits_for(FlightOf &other, std::unique_lock<typename Parts::Mutex> &guard, Until until) {
        Wait wait{thread_, other.thread_, &other};
        if (!WaitsOf<Parts>::begin(wait)) {
            return false;
        }
        other.is_awaited_ = true;
        Parts::wait(other.ended_, guard, until, [&wait] { return wait.is_over; });
        if (!wait.is_over) {
            WaitsOf<Parts>::leave(wait);
        }
        return wait.is_over;
    }

    FlightsOf<Parts> &flights_;
    const Identity key_;
    const decltype(Parts::this_thread()) thread_ = Parts::this_thread();
    FlightOf *next_ = nullptr;
    // Who waits for it is told with the lock, and uses this no more afterwards.
    typename Parts::Condition ended_{};
    bool has_begun_ = false;
    bool is_alone_ = false;
    bool is_awaited_ = false; // nobody else waits, so its end takes no lock of the process
    bool is_outdated_ = false;
};

using Flights = FlightsOf<Threads>;
using Flight = FlightOf<Threads>;

// The flights of all keys of a map.
class AllFlights {
  public:
    // Each call waits for others' functions for so long at most. Call it before all others.
    void limit(std::chrono::nanoseconds most_wait) noexcept { most_wait_ = most_wait; }
    // The flight of a call, which waits no longer than to this time. The call's first flight sets it, if it is not set.
    Flight begin(const Identity &key, Until &until) {
        if (until == Until()) {
            until = most_wait_ < ages ? std::chrono::steady_clock::now() + most_wait_ : Until::max();
        }
        return Flight(of(key.index), key, until);
    }
    void outdate(const Identity &key) noexcept { of(key.index).outdate(key); }
    void outdate_all() noexcept {
        std::for_each(stripes_.begin(), stripes_.end(), [](Stripe &some) { some.outdate_all(); });
    }

  private:
    struct alignas(64) Stripe : Flights {};
    // A clock of nanoseconds can't add much more.
    static constexpr std::chrono::hours ages{24 * 365 * 100};

    Stripe &of(uint64_t index) noexcept { return stripes_[index % stripes_.size()]; }

    // map/SETTINGS has this number, and that of Rust's maps.
    std::array<Stripe, 64> stripes_{};
    std::chrono::nanoseconds most_wait_ = forever;
};

} // namespace cefrodil::inside

#endif
