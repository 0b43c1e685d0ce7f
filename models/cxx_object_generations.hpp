// The generations of objects of c/include/cefrodil/inside/objects.hpp, with the header's own count of generations.
//
// A thread puts a key, invalidates all, and puts the key again. Another one puts the key meanwhile, and a third one inserts it. Once all is
// invalidated, the first object is not found. At the end one of the others is found. Who sees the new generation sees what the first thread wrote before.
// The index is the number of an object, and each object has a generation. The lock is that of the key.
#ifndef CXX_OBJECT_GENERATIONS_HPP
#define CXX_OBJECT_GENERATIONS_HPP

#include "explored.hpp"

struct CxxObjectGenerations : rl::test_suite<CxxObjectGenerations, 3> {
    static constexpr unsigned interruptions = 2;
    static constexpr std::array<std::string_view, 5> steps{"lock of a put", "generation of an object", "newer generations are found",
                                                           "release of the generation", "acquire of the generation"};

    enum { none, first, again, other, inserted };

    // The number of an object, or 0; and what each has.
    explored::Atomic<uint64_t> entry{none};
    std::array<explored::Atomic<uint64_t>, 5> heads{{explored::Atomic<uint64_t>(0), explored::Atomic<uint64_t>(0), explored::Atomic<uint64_t>(0),
                                                     explored::Atomic<uint64_t>(0), explored::Atomic<uint64_t>(0)}};
    cefrodil::inside::GenerationOf<explored::Counting> generation{};
    explored::Mutex lock{};
    explored::Plain<bool> is_written{false}; // by the first thread, before it invalidates all

    bool is_there(uint64_t object, uint64_t now) const {
        const uint64_t own = object == none ? 0 : heads[object].load(std::memory_order_acquire);
        const bool is_live = explored::without("newer generations are found") ? own == now : own >= now;
        return object != none && (is_live || explored::without("generation of an object"));
    }
    uint64_t find() const {
        const uint64_t now = generation.now(), object = entry.load(std::memory_order_acquire);
        return is_there(object, now) ? object : uint64_t(none);
    }
    // As in cefrodil/inside/objects.hpp.
    void put(uint64_t object) {
        const explored::Mutex::Off off("lock of a put");
        const std::lock_guard<explored::Mutex> guard(lock);
        heads[object].store(generation.now(), std::memory_order_release);
        entry.exchange(object, std::memory_order_acq_rel);
    }
    // As in cefrodil_object_map.hpp.
    void insert(uint64_t object) {
        for (uint64_t begun = generation.now();;) {
            const uint64_t there = entry.load(std::memory_order_acquire);
            if (is_there(there, begun)) {
                return;
            }
            const std::lock_guard<explored::Mutex> guard(lock);
            begun = there == none ? generation.now() : begun;
            heads[object].store(begun, std::memory_order_release);
            if (entry.compare_exchange(there, object, std::memory_order_acq_rel)) {
                return;
            }
        }
    }

    void thread(unsigned index) {
        if (index == 0) {
            put(first);
            is_written.set(true);
            generation.begin_next();
            RL_ASSERT(find() != first);
            put(again);
        } else if (index == 1) {
            put(other);
        } else {
            insert(inserted);
            RL_ASSERT(generation.now() == 0 || is_written.get());
        }
    }
    void after() { RL_ASSERT(find() != none && find() != first); }
};

#endif
