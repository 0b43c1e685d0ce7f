// The flights of c/include/cefrodil/inside/flights.hpp: the header's own code, with atomics, locks and fences of Relacy.
//
// A thread changes the store and erases the key, while two others compute the key's value from the store. Afterwards the map has no older value,
// and no call that begins then returns one. The index is one entry. Its lookup is an acquire load, and its writes acquire and release: the index
// promises no less.
#ifndef CXX_FLIGHTS_HPP
#define CXX_FLIGHTS_HPP

#include "explored.hpp"

struct CxxFlights : rl::test_suite<CxxFlights, 3> {
    static constexpr unsigned interruptions = 1;
    static constexpr std::array<std::string_view, 6> steps{"fence of the change",  "fence of the flight",       "acquire of the count",
                                                           "release of the count", "lock around check and put", "lock of the change"};

    // The header's atomics and fences. The threads above 0 compute.
    struct Parts : explored::Flying {
        template <class T> struct Atomic : explored::Atomic<T> {
            using Own = explored::Atomic<T>;
            using Own::Own;
            T load(std::memory_order order) const { return Own::load(explored::without("acquire of the count") ? std::memory_order_relaxed : order); }
            T fetch_sub(T less, std::memory_order order) {
                return Own::fetch_sub(less, explored::without("release of the count") ? std::memory_order_relaxed : order);
            }
        };
        static void fence() {
            if (!explored::without(explored::this_thread() == 0 ? "fence of the change" : "fence of the flight")) {
                explored::fence();
            }
        }
    };

    enum { none, older, newer };

    explored::Atomic<int> store{older}, entry{none};
    explored::Process process{};
    cefrodil::inside::FlightsOf<Parts> flights{};
    const cefrodil::inside::Identity key{1, 1};

    int find() const { return entry.load(std::memory_order_acquire); }
    // As in cefrodil_map.hpp.
    int find_or_compute() {
        for (;;) {
            if (const int found = find(); found != none) {
                return found;
            }
            cefrodil::inside::FlightOf<Parts> flight(flights, key);
            if (!flight.has_begun() && !flight.is_alone()) {
                continue;
            }
            if (const int found = find(); found != none) {
                return found;
            }
            const int value = store.load(std::memory_order_acquire);
            const explored::Mutex::Off off("lock around check and put");
            static_cast<void>(flight.land([&] {
                return entry.compare_exchange(none, value, std::memory_order_acq_rel) ? cefrodil::Status::ok : cefrodil::Status::present;
            }));
            return value;
        }
    }
    void erase() {
        {
            const explored::Mutex::Off off("lock of the change");
            flights.outdate(key);
        }
        if (find() != none) {
            entry.exchange(none, std::memory_order_acq_rel);
        }
    }

    void thread(unsigned index) {
        if (index == 0) {
            store.store(newer, std::memory_order_release);
            erase();
            RL_ASSERT(find_or_compute() == newer);
        } else {
            find_or_compute();
        }
    }
    void after() { RL_ASSERT(find() != older); }
};

#endif
