// The generations of c/include/cefrodil/inside/entries.hpp, beside flights: the headers' own code, with atomics, locks and fences of Relacy.
//
// A thread changes the store, looks the key up, invalidates all, and puts the key. Another thread puts the key, too, and a third one computes it from
// the store. Once all is invalidated nothing is found that was computed from the older store. At the end one of the two puts is found: not the second
// one if that was found before all was invalidated. The index is one entry with its generation. Its lookup is an acquire load, and its writes acquire
// and release: the index promises no less. The lock is that of the key.
#ifndef CXX_GENERATIONS_HPP
#define CXX_GENERATIONS_HPP

#include "explored.hpp"

struct CxxGenerations : rl::test_suite<CxxGenerations, 3> {
    static constexpr unsigned interruptions = 2;
    static constexpr std::array<std::string_view, 5> steps{"generation before the function", "lock of a put", "generation of an entry",
                                                           "release of the generation", "acquire of the generation"};

    enum { none, older, newer, first_put, second_put };

    explored::Atomic<int> store{older};
    // A value and the generation before it, or 0.
    explored::Atomic<uint64_t> entry{0};
    cefrodil::inside::GenerationOf<explored::Counting> generation{};
    explored::Process process{};
    cefrodil::inside::FlightsOf<explored::Flying> flights{};
    const cefrodil::inside::Identity key{1, 1};
    explored::Mutex lock{};
    explored::Plain<bool> was_found{false}; // the second put, before all was invalidated

    static uint64_t word(int value, uint64_t generation) { return generation * 16 + static_cast<uint64_t>(value); }
    int find() const {
        const uint64_t found = entry.load(std::memory_order_acquire), now = generation.now();
        return found / 16 == now || explored::without("generation of an entry") ? static_cast<int>(found % 16) : none;
    }
    // As in cefrodil/inside/table.hpp and cefrodil_map.hpp.
    void put(int value) {
        flights.outdate(key);
        const explored::Mutex::Off off("lock of a put");
        const std::lock_guard<explored::Mutex> guard(lock);
        entry.exchange(word(value, generation.now()), std::memory_order_acq_rel);
    }
    cefrodil::Status put_if_absent(int value, uint64_t now) {
        for (;;) {
            const uint64_t there = entry.load(std::memory_order_acquire);
            if (there != 0 && there / 16 == now) {
                return cefrodil::Status::present;
            }
            if (there != 0 && generation.now() != now) {
                return cefrodil::Status::stale;
            }
            const std::lock_guard<explored::Mutex> guard(lock);
            if (entry.compare_exchange(there, word(value, now), std::memory_order_acq_rel)) {
                return cefrodil::Status::ok;
            }
        }
    }
    void find_or_compute() {
        if (find() != none) {
            return;
        }
        cefrodil::inside::FlightOf<explored::Flying> flight(flights, key);
        const uint64_t begun = generation.now();
        if (!flight.has_begun() || find() != none) {
            return;
        }
        const int value = store.load(std::memory_order_acquire);
        static_cast<void>(flight.land([&] { return put_if_absent(value, explored::without("generation before the function") ? generation.now() : begun); }));
    }
    void invalidate_all() {
        generation.begin_next();
        flights.outdate_all();
    }

    void thread(unsigned index) {
        if (index == 0) {
            store.store(newer, std::memory_order_release);
            was_found.set(find() == second_put);
            invalidate_all();
            RL_ASSERT(find() != older);
            put(first_put);
        } else if (index == 1) {
            put(second_put);
        } else {
            find_or_compute();
        }
    }
    void after() { RL_ASSERT(find() == first_put || (find() == second_put && !was_found.get())); }
};

#endif
