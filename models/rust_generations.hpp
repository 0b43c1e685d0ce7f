// How the crate `cefrodil-map` invalidates all entries by one step, line by line. .ci/models checks that each quoted line is still there.
//
// One thread changes the store and invalidates all. Then it counts by an update. Another one makes an update or an insert, and a third one loads a value
// from the store. After the invalidation no lookup finds an older value, nobody waits for one, and no count is lost but to an insert that is found.
//
// The index is one entry: its words are the generation and the value. A lookup is an acquire load, and a write acquire and release: the index promises no
// less. A write on a condition compares the words, and not the moment.
#ifndef RUST_GENERATIONS_HPP
#define RUST_GENERATIONS_HPP

#include "explored.hpp"

struct RustGenerations : rl::test_suite<RustGenerations, 3> {
    static constexpr unsigned interruptions = 2;
    static constexpr std::array<std::string_view, 9> steps{
        "release of the generation", "acquire of the generation", "one generation of a look and its put",
        "another look at the generation", "generation of the load", "end of the flights",
        "lock of an insert", "lock of an update", "generation under the lock"};

    using Guard = std::lock_guard<explored::Mutex>;
    static constexpr std::memory_order all = std::memory_order_seq_cst, acquires = std::memory_order_acquire;
    enum { none, older, newer, inserted, counted = 4, values = 8 };

    explored::Counting::Atomic<int> generation{0};
    explored::Atomic<int> store{older}, entry{older};
    explored::Mutex flights{}, key_lock{};
    // Whether the load is in the list of flights, and what it has loaded.
    explored::Atomic<int> is_listed{0}, loaded{none};

    //| in map/src/generation.rs
    int now() const { return generation.load(all); }                      //| self.0.load(SeqCst)
    void end() { generation.fetch_add(1, all); }                          //| self.0.fetch_add(1, SeqCst);
    bool put(int there, int in, int value) {
        const explored::Mutex::Off off("lock of an update");
        const Guard guard(key_lock);                                      //| in map/src/update.rs
                                                                          //| match self.core.slots.in_turn(tries, || self.core.in_lock(print.key, |handle| handle.put_if(print.key, since, words))) {
        return entry.compare_exchange(there, in * values + value, std::memory_order_acq_rel);
    }
    void insert() {
        const int early = now();
        const explored::Mutex::Off off("lock of an insert");
        const Guard guard(key_lock);                                      //| in map/src/inner.rs
                                                                          //| self.core.in_lock(print.key, |handle| {
        const int in = explored::without("generation under the lock") ? early : now(); //| set_check(&mut words, print.dated(self.core.generation.now()).check);
        entry.exchange(in * values + inserted, std::memory_order_acq_rel);
    }
    int find() const {
        const int in = now(), there = entry.load(acquires);
        return there / values == in ? there % values : none;
    }

    void invalidate() {
        end();                                                            //| in map/src/core.rs
                                                                          //| self.generation.end();
        if (!explored::without("end of the flights")) {
            const Guard guard(flights);                                   //| self.flights.detach_all();
            is_listed.store(0, all);
        }
    }
    // What the key has is kept, or begun anew.
    void update(int count) {
        for (;;) {
            const int in = now();                                         //| in map/src/update.rs
                                                                          //| let generation = self.core.generation.now();
            const int there = entry.load(acquires);
            const bool is_other = there / values != in;
            if (is_other && now() != in && !explored::without("another look at the generation")) {
                continue;                                                 //| Found::Expired(_) | Found::Other(_) if self.core.generation.now() != generation => continue,
            }
            const int old = is_other ? none : there % values;
            const int of = explored::without("one generation of a look and its put") ? now() : in;
            if (put(there, of, (old == none ? newer : old) | count)) {
                return;
            }
        }
    }
    void load() {
        {
            const Guard guard(flights);
            is_listed.store(1, all);
        }
        const int in = now();                                             //| in map/src/compute.rs
                                                                          //| let generation = self.core.generation.now();
        const int value = store.load(acquires);
        loaded.store(value, all);
        const Guard guard(flights);
        while (is_listed.load(all) != 0) {
            const int of = now(), there = entry.load(acquires);
            const bool is_other = there / values != of;
            if (is_other && now() != of) {
                continue;
            }
            const bool is_late = now() != in && !explored::without("generation of the load");
            if (!is_other || is_late || put(there, of, value)) {          //| (present.is_none() && self.core.generation.now() == generation).then_some(value)
                return;
            }
        }
    }

    void thread(unsigned index) {
        if (index == 1) {
            rl::rand(2) == 0 ? update(0) : insert();
        } else if (index == 2) {
            load();
        } else {
            store.store(newer, std::memory_order_release);
            invalidate();
            RL_ASSERT(find() % counted != older);
            {
                const Guard guard(flights);
                RL_ASSERT(is_listed.load(all) == 0 || loaded.load(all) != older);
            }
            update(counted);
        }
    }
    void after() { RL_ASSERT((find() >= counted || find() == inserted) && find() % counted != older); }
};

#endif
