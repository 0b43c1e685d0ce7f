// The waits of c/include/cefrodil/inside/waits.hpp, by the header's own flights. Each of two threads computes a key, and within that asks for the key of
// the other. Neither waits for ever, and one of them at most computes for itself alone. Who asks when nobody can wait for it any more does wait.
#ifndef CXX_WAITS_HPP
#define CXX_WAITS_HPP

#include "explored.hpp"

struct CxxWaits : rl::test_suite<CxxWaits, 2> {
    static constexpr unsigned interruptions = 2;
    static constexpr std::array<std::string_view, 1> steps{"one list of waits"};

    struct Parts : explored::Flying {
        static inline std::array<explored::Process, 2> *processes;
        static explored::Process &of_process() { return (*processes)[explored::without("one list of waits") ? this_thread() : 0]; }
    };
    using Flight = cefrodil::inside::FlightOf<Parts>;

    std::array<explored::Process, 2> processes{};
    cefrodil::inside::FlightsOf<Parts> flights{};
    explored::Atomic<int> alone{0};

    CxxWaits() { Parts::processes = &processes; }

    static cefrodil::inside::Identity key_of(unsigned thread) { return {thread, 1}; }
    void compute(unsigned own, unsigned other) {
        const Flight flight(flights, key_of(own));
        if (flight.has_begun()) {
            const Flight within(flights, key_of(other));
            alone.fetch_add(within.is_alone(), std::memory_order_relaxed);
        }
    }

    void thread(unsigned index) {
        compute(index, 1 - index);
        const Flight later(flights, key_of(1 - index));
        RL_ASSERT(!later.is_alone());
    }
    void after() { RL_ASSERT(alone.load(std::memory_order_relaxed) <= 1); }
};

#endif
