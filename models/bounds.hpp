// How both maps note that they are full, line by line: map/src/bound.rs and c/include/cefrodil/inside/turns.hpp. .ci/models checks that each quoted line is
// still there.
//
// There may be two keys, and one is there. Two threads put a new key each, and a third one may remove a key. Each counts by itself. Who finds too many evicts.
// At the end no more are there than may be. If the map is noted as full, it is: otherwise a key would leave for each new one though there is room.
#ifndef BOUNDS_HPP
#define BOUNDS_HPP

#include "explored.hpp"

struct Bounds : rl::test_suite<Bounds, 3> {
    static constexpr unsigned interruptions = 2;
    static constexpr std::array<std::string_view, 4> steps{"fence of a put", "another look", "fence before another look", "fence of a removal"};

    static constexpr std::memory_order relaxed = std::memory_order_relaxed;
    static constexpr int most = 2;

    // What each thread has added, less what it has removed. The third one has put the first key.
    std::array<explored::Atomic<int>, 3> counts{explored::Atomic<int>(0), explored::Atomic<int>(0), explored::Atomic<int>(1)};
    explored::Atomic<int> is_full{0};

    void count(unsigned own, int more) { counts[own].store(counts[own].load(relaxed) + more, relaxed); }
    int keys() const { return counts[0].load(relaxed) + counts[1].load(relaxed) + counts[2].load(relaxed); }

    //| in map/src/bound.rs
    void left(unsigned own) {
        count(own, -1);                                                   //| self.slots.count_left(whole, part);
        explored::fence_unless("fence of a removal");                     //| fence(SeqCst);
        if (is_full.load(relaxed) != 0) {                                 //| if self.bound.is_full() {
            is_full.store(0, relaxed);                                    //| self.bound.is_full.store(false, Relaxed);
        }
    }
    void put(unsigned own) {
        count(own, 1);
        explored::fence_unless("fence of a put");                         //| fence(SeqCst);
        if (keys() < most) {                                              //| self.slots.entries() >= self.bound.most() && self.evict_to_bound(repeat(Some(next)), tries, left).0
            return;
        }
        while (keys() > most) {                                           //| while last == Ok(Some(())) && self.slots.entries() > self.bound.most() {
            left(own);
        }
        is_full.store(keys() == most, relaxed);                           //| self.bound.is_full.store(is_full(), Relaxed);
        explored::fence_unless("fence before another look");              //| fence(SeqCst);
        if (!explored::without("another look") && is_full.load(relaxed) != 0 && keys() != most) {
            is_full.store(0, relaxed);                                    //| if self.bound.is_full() && !is_full() {
        }                                                                 //| self.bound.is_full.store(false, Relaxed);
    }
    //| in c/include/cefrodil/inside/turns.hpp
    //| Threads::fence();
    //| if (is_full()) {
    //| is_full_.store(false, std::memory_order_relaxed);
    //| Threads::fence();
    //| if (this->keys() < capacity()) {
    //| for (uint64_t shard = 0, missed = 0; missed < shards_ && this->keys() > most; shard++) {
    //| is_full_.store(is_so(), std::memory_order_relaxed);
    //| Threads::fence();
    //| if (is_full() && !is_so()) {
    //| is_full_.store(false, std::memory_order_relaxed);

    void thread(unsigned index) {
        if (index != 2) {
            put(index);
        } else if (rl::rand(2) == 0) {
            left(index);
        }
    }
    void after() { RL_ASSERT(keys() <= most && (is_full.load(relaxed) == 0 || keys() == most)); }
};

#endif
