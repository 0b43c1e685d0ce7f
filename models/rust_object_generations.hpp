// How an object of the crate `cefrodil-map` gets its generation, line by line. .ci/models checks that each quoted line is still there.
//
// One thread invalidates all, and then puts an object. Another one puts an object, which may give way to the first or hide it. A third one looks the key up.
// What was put before the invalidation is not found after it, and what is found goes on. Once the first thread has put its object, the key has one.
// Who sees the new generation sees what that thread wrote before.
//
// The index is one entry, the number of an object. A put has no condition.
#ifndef RUST_OBJECT_GENERATIONS_HPP
#define RUST_OBJECT_GENERATIONS_HPP

#include "explored.hpp"

struct RustObjectGenerations : rl::test_suite<RustObjectGenerations, 3> {
    static constexpr unsigned interruptions = 2;
    static constexpr std::array<std::string_view, 6> steps{"no generation before the put", "generation by the put", "generation by a lookup",
                                                           "one generation", "release of the generation", "acquire of the generation"};
    static constexpr std::memory_order all = std::memory_order_seq_cst;
    enum { older, beside, later, nothing };
    static constexpr int none = 0;

    explored::Counting::Atomic<int> generation{1};
    explored::Atomic<int> entry{older};
    explored::Atomic<int> of_older{1}, of_beside{none}, of_later{none};
    // Which puts have returned.
    explored::Atomic<int> is_beside_put{0}, is_later_put{0};
    explored::Plain<bool> is_written{false}; // by the thread that invalidates, before that

    // As in rust_generations.hpp.
    int now() const { return generation.load(all); }
    explored::Atomic<int> &of(int object) { return object == older ? of_older : object == beside ? of_beside : of_later; }

    //| in map/src/objects/object.rs
    int own(int object) { return of(object).load(all); }                  //| self.life.generation.load(SeqCst)
    void enter(int object, int in) {
        if (own(object) == none) {                                        //| if self.generation() == NONE {
            if (explored::without("one generation")) {
                of(object).store(in, all);
            } else {
                of(object).compare_exchange(none, in, all);               //| let _ = self.life.generation.compare_exchange(NONE, generation, SeqCst, SeqCst);
            }
        }
    }
    //| in map/src/objects/inner.rs
    int find() {
        const int object = entry.load(all);
        if (own(object) >= now()) {                                       //| object.generation() >= self.core.generation.now() || self.enters(object)
            return object;
        }
        if (!explored::without("generation by a lookup")) {
            enter(object, now());                                         //| object.enter(self.core.generation.now());
        }
        return own(object) >= now() ? object : nothing;
    }
    void put(int object) {
        if (explored::without("no generation before the put")) {          //| in map/src/objects/put.rs
            enter(object, now());                                         //| let object = inner.object(key, value, life, NONE);
        }
        entry.exchange(object, all);
        if (!explored::without("generation by the put")) {
            enter(object, now());                                         //| object.enter(self.core.generation.now());
        }
    }

    void thread(unsigned index) {
        if (index == 1) {
            put(beside);
            is_beside_put.store(1, all);
        } else if (index == 2) {
            const bool is_there = is_later_put.load(all) != 0;
            RL_ASSERT(!is_there || find() != nothing);
            RL_ASSERT(!is_there || find() != nothing);
            RL_ASSERT(now() == 1 || is_written.get());
        } else {
            const bool was_put = is_beside_put.load(all) != 0;
            is_written.set(true);
            generation.fetch_add(1, all);
            const int found = find();
            RL_ASSERT(found != older && (!was_put || found != beside));
            RL_ASSERT(found != beside || find() == beside);
            put(later);
            is_later_put.store(1, all);
            RL_ASSERT(find() != nothing);
        }
    }
    void after() { RL_ASSERT(find() != nothing); }
};

#endif
